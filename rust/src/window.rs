//! The gate window: a gate's running numbers, and what it shows.
use crate::ffi;
use crate::{Node, Plan, Refusal};
use std::fmt;
use std::str;

/// The running numbers of a gate's window: the headroom of its last reading, the lowest since the reset, and how many
/// readings there were.
///
/// After any list of resets and readings that begins with a reset, the count is that of the readings accepted since
/// the last reset, the lowest is the least of their headrooms and the last is the latest, both 0 if there is none. A
/// [new](Window::new) window is as a reset leaves it; one that is [resumed](Window::resume) goes on from what it is
/// given.
///
/// A gate's evening:
///
/// ```
/// use pamzolit::{Link, Node, Plan, Window};
///
/// // resort A of document 01; at most 6 tenths can run between nodes 1 and 3
/// let mut plan = Plan::open(&[4, 5, 0, 1, 5, 1, 2, 3, 2, 3, 4, 0, 3, 2, 0, 2, 1])?;
/// let mut window = Window::new();
/// assert_eq!(window.reading(&plan, Node(1), Node(3), 4)?.to_string(), " 0.2");
/// plan.change(Link(2), 0)?;
/// assert_eq!(window.reading(&plan, Node(1), Node(3), 4)?.to_string(), "-0.2");
/// plan.undo()?;
/// assert_eq!(window.reading(&plan, Node(1), Node(3), 5)?.to_string(), " 0.1");
/// assert_eq!((window.count(), window.lowest(), window.last()), (3, -2, 1));
/// window.reset();
/// assert_eq!(window, Window::new());
/// # Ok::<(), Box<dyn std::error::Error>>(())
/// ```
#[derive(Clone, Default, PartialEq, Eq, Hash)]
pub struct Window {
    held: ffi::Window,
}

impl Window {
    /// A window as a [reset](Window::reset) leaves it.
    ///
    /// ```
    /// # use pamzolit::Window;
    /// let window = Window::new();
    /// assert_eq!((window.last(), window.lowest(), window.count()), (0, 0, 0));
    /// ```
    pub const fn new() -> Window {
        Window::resume(0, 0, 0)
    }

    /// A window that goes on from three numbers, such as those that were kept of another one. Every three numbers are
    /// taken: with a count of 0 the next reading alone is the lowest.
    ///
    /// ```
    /// use pamzolit::{Node, Plan, Window};
    ///
    /// let plan = Plan::open(&[2, 1, 0, 1, 6])?;
    /// let mut window = Window::resume(2, -5, 7);
    /// window.reading(&plan, Node(0), Node(1), 3)?;
    /// assert_eq!(window, Window::resume(3, -5, 8));
    /// # Ok::<(), Box<dyn std::error::Error>>(())
    /// ```
    pub const fn resume(last: i32, lowest: i32, count: u32) -> Window {
        Window { held: ffi::Window { last, lowest, count } }
    }

    /// Makes all three numbers 0.
    ///
    /// ```
    /// # use pamzolit::Window;
    /// let mut window = Window::resume(2, -5, 7);
    /// window.reset();
    /// assert_eq!(window, Window::default());
    /// ```
    pub fn reset(&mut self) {
        ffi::reset(&mut self.held)
    }

    /// Reads the [headroom](Plan::headroom) that a demand, in tenths of a megabit per second, leaves between two nodes,
    /// and gives what the window shows. It becomes the last one, and the lowest if the window counted none or its
    /// lowest was above it; the count goes up by 1. The plan is left as it is.
    ///
    /// Refused as the headroom is, and then with [`TooManyReadings`](Refusal::TooManyReadings). A refusal leaves all
    /// three numbers, and the window shows [nothing](Shown::default).
    ///
    /// ```
    /// use pamzolit::{Node, Plan, Refusal, Window};
    ///
    /// let plan = Plan::open(&[2, 1, 0, 1, 6])?;
    /// let mut window = Window::new();
    /// assert_eq!(window.reading(&plan, Node(0), Node(1), 11)?.to_string(), "-0.5");
    /// assert_eq!(window.reading(&plan, Node(0), Node(0), 11), Err(Refusal::SameNode));
    /// assert_eq!(window, Window::resume(-5, -5, 1));
    /// # Ok::<(), Box<dyn std::error::Error>>(())
    /// ```
    pub fn reading(&mut self, plan: &Plan, s: Node, t: Node, demand: u32) -> Result<Shown, Refusal> {
        ffi::reading(&mut self.held, plan.held(), s.0, t.0, demand).map(Shown::from).map_err(Refusal::new)
    }

    /// The headroom of the last reading, in tenths of a megabit per second; 0 if there was none since the reset.
    ///
    /// ```
    /// # use pamzolit::Window;
    /// assert_eq!(Window::resume(2, -5, 7).last(), 2);
    /// ```
    pub const fn last(&self) -> i32 {
        self.held.last
    }

    /// The lowest headroom of all readings since the reset, in tenths of a megabit per second; 0 if there was none.
    ///
    /// ```
    /// # use pamzolit::Window;
    /// assert_eq!(Window::resume(2, -5, 7).lowest(), -5);
    /// ```
    pub const fn lowest(&self) -> i32 {
        self.held.lowest
    }

    /// How many readings there were since the reset.
    ///
    /// ```
    /// # use pamzolit::Window;
    /// assert_eq!(Window::resume(2, -5, 7).count(), 7);
    /// ```
    pub const fn count(&self) -> u32 {
        self.held.count
    }
}

impl fmt::Debug for Window {
    fn fmt(&self, f: &mut fmt::Formatter<'_>) -> fmt::Result {
        f.debug_struct("Window")
            .field("last", &self.last())
            .field("lowest", &self.lowest())
            .field("count", &self.count())
            .finish()
    }
}

/// What a gate's window shows of a reading: four characters.
///
/// From `-9.9` to `99.9` they are the headroom in megabits, right-aligned with one digit of tenths; below they are
/// `LOW `, above `HIGH`. The default is four spaces, which the window shows of a refused reading.
///
/// ```
/// use pamzolit::{Node, Plan, Shown, Window};
///
/// let plan = Plan::open(&[2, 1, 0, 1, 6])?;
/// let mut window = Window::new();
/// let mut shown = |demand| window.reading(&plan, Node(0), Node(1), demand).unwrap_or_default().to_string();
/// assert_eq!([shown(6), shown(105), shown(106), shown(u32::MAX)], [" 0.0", "-9.9", "LOW ", "    "]);
/// # Ok::<(), Box<dyn std::error::Error>>(())
/// ```
#[derive(Clone, Copy, PartialEq, Eq, Hash)]
pub struct Shown {
    text: [u8; 4],
}

impl Shown {
    /// The four characters.
    ///
    /// ```
    /// # use pamzolit::{Node, Plan, Window};
    /// // one link of 1000 tenths
    /// let plan = Plan::open(&[2, 1, 0, 1, 0xe8, 7])?;
    /// let mut window = Window::new();
    /// assert_eq!(window.reading(&plan, Node(0), Node(1), 1)?.text(), "99.9");
    /// assert_eq!(window.reading(&plan, Node(0), Node(1), 0)?.text(), "HIGH");
    /// # Ok::<(), Box<dyn std::error::Error>>(())
    /// ```
    pub fn text(&self) -> &str {
        // proved: spaces, a minus, digits and a point, or one of the two words
        str::from_utf8(&self.text).unwrap_or_default()
    }
}

impl Default for Shown {
    /// Four spaces.
    fn default() -> Shown {
        Shown { text: *b"    " }
    }
}

impl From<ffi::WindowReply> for Shown {
    fn from(reply: ffi::WindowReply) -> Shown {
        Shown { text: reply.text }
    }
}

impl fmt::Display for Shown {
    fn fmt(&self, f: &mut fmt::Formatter<'_>) -> fmt::Result {
        f.pad(self.text())
    }
}

impl fmt::Debug for Shown {
    fn fmt(&self, f: &mut fmt::Formatter<'_>) -> fmt::Result {
        f.debug_tuple("Shown").field(&self.text()).finish()
    }
}
