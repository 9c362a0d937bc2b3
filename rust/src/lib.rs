//! The link plan: how much traffic can run between any two nodes of a network, and which links set that limit.
//!
//! A [`Plan`] is opened from a resort's network file and then asked all day. It follows changed capacities and
//! takes them back, and shows beforehand what a change would give. A [`Window`] keeps a gate's running numbers:
//!
//! ```
//! use pamzolit::{Link, Node, Plan, Window};
//!
//! // four nodes and five links: resort A of document 01
//! let file = [4, 5, 0, 1, 5, 1, 2, 3, 2, 3, 4, 0, 3, 2, 0, 2, 1];
//! let mut plan = Plan::open(&file)?;
//! let booked = 11; // tenths of a megabit per second
//! println!("left between 1 and 3: {}", plan.headroom(Node(1), Node(3), booked)?);
//! # assert_eq!(plan.headroom(Node(1), Node(3), booked)?.to_string(), "-0.5");
//! println!("limited by what leaves {}", plan.pair(Node(1), Node(3))?.side);
//! # assert_eq!(plan.pair(Node(1), Node(3))?.side.to_string(), "{0, 1}");
//! println!("limit with link 3 at 1.2: {} tenths", plan.preview(Link(3), 12, Node(1), Node(3))?.pair.weight);
//! # assert_eq!(plan.preview(Link(3), 12, Node(1), Node(3))?.pair.weight, 8);
//! plan.change(Link(3), 12)?;
//! println!("with link 3 at 1.2: {}", plan.headroom(Node(1), Node(3), booked)?);
//! # assert_eq!(plan.headroom(Node(1), Node(3), booked)?.to_string(), "-0.3");
//! plan.undo()?;
//! let mut window = Window::new();
//! for booked in [2, 11, 5] {
//!     println!("the gate shows [{}]", window.reading(&plan, Node(1), Node(3), booked)?);
//! }
//! println!("the lowest of {} was {} tenths", window.count(), window.lowest());
//! # assert_eq!(window, Window::resume(1, -5, 3));
//! # Ok::<(), Box<dyn std::error::Error>>(())
//! ```
//!
//! # What is proved
//!
//! The work is done by an archive that is written in Rattle. Every function of it is proved to meet its contract
//! for every input, and to end (`docs/PROOFS.md` of the repository says what is proved, and where it stands):
//!
//! - A file is accepted exactly if it is the one file of a network within the limits; else the first fault is
//!   given, with its place ([`FileError`]). A call is refused exactly under its conditions, and then alters nothing
//!   ([`Refusal`]).
//! - An opened plan has a cut tree in the sense of Barth et al., Definition 1: the limit that [`Plan::pair`] gives
//!   is the value of a minimum cut, and [`Plan::flow`] gives a flow with that total. A pair shows the same edge of
//!   that tree from both ends, and its two sides are each other's complement. [`Plan::lightest`] is the lightest of
//!   all its edges: no pair has a smaller limit.
//! - After any list of changes, undos, pairs, flows and previews, refused ones among them, the plan is as one opened
//!   fresh on the file that [`Plan::write`] gives, its capacities are the history's, and every pair's limit is exact.
//!   A `Plan` has no other way to come about, so this holds of every one.
//! - [`Plan::preview`] gives what a change followed by a pair gives on a copy. Wherever it stands in such a list, the
//!   plan and all other replies are as without it.
//! - After any list of resets and readings that begins with a reset, refused ones among them, a [`Window`] counts the
//!   readings accepted since the last reset; its lowest is the least of their headrooms and its last the latest, both
//!   0 if there is none. What a reading does is proved of every three numbers that a window may be given.
//!
//! # What is not
//!
//! This crate itself: it hands references and slices over and takes replies apart, in safe Rust but for one file.
//! Its declarations of the archive's functions and structs are tested against an independent model, not proved, and
//! so are the compiler's back end and the linking. Nothing is said of time.
//!
//! Nothing here panics on bad input or allocates by a caller's number. A plan is plain data of 3,104 bytes, a window of
//! 12, and both are `Send` and `Sync`.
#![deny(missing_docs, unsafe_code)]

mod ffi;
mod plan;
mod refusal;
mod reply;
mod side;
mod window;

pub use plan::Plan;
pub use refusal::{FileError, Refusal};
pub use reply::{Change, Headroom, LinkState, Pair, Preview, Step, TreeEdge};
pub use side::{Link, Node, Nodes, Side};
pub use window::{Shown, Window};

/// The most nodes of a network.
///
/// ```
/// # use pamzolit::{NODES_MAX, Plan};
/// assert!(Plan::open(&[NODES_MAX as u8, 0]).is_ok() && Plan::open(&[NODES_MAX as u8 + 1, 0]).is_err());
/// ```
pub const NODES_MAX: usize = 64;

/// The most links of a network.
///
/// ```
/// # use pamzolit::{FileError, LINKS_MAX, Plan};
/// // 257 in groups of seven bits
/// assert_eq!(LINKS_MAX + 1, 0x01 + (2 << 7));
/// assert_eq!(Plan::open(&[2, 0x81, 2]).unwrap_err(), FileError::TooManyLinks { place: 1 });
/// ```
pub const LINKS_MAX: usize = 256;

/// The highest capacity of a link, in tenths of a megabit per second.
///
/// ```
/// # use pamzolit::{CAPACITY_MAX, Link, Plan};
/// let mut plan = Plan::open(&[2, 1, 0, 1, 6])?;
/// assert!(plan.change(Link(0), CAPACITY_MAX).is_ok() && plan.change(Link(0), CAPACITY_MAX + 1).is_err());
/// # Ok::<(), pamzolit::FileError>(())
/// ```
pub const CAPACITY_MAX: u32 = 8_000_000;

/// The highest demand of a headroom or a reading, in tenths of a megabit per second.
///
/// ```
/// # use pamzolit::{DEMAND_MAX, Node, Plan};
/// let plan = Plan::open(&[2, 1, 0, 1, 6])?;
/// assert_eq!(plan.headroom(Node(0), Node(1), DEMAND_MAX)?.text(), " -99999999.4");
/// assert!(plan.headroom(Node(0), Node(1), DEMAND_MAX + 1).is_err());
/// # Ok::<(), Box<dyn std::error::Error>>(())
/// ```
pub const DEMAND_MAX: u32 = 1_000_000_000;

/// The most changes that can be undone.
///
/// ```
/// # use pamzolit::{CHANGES_MAX, Link, Node, Plan, Refusal};
/// let mut plan = Plan::open(&[2, 1, 0, 1, 6])?;
/// for capacity in 0..CHANGES_MAX {
///     plan.change(Link(0), capacity as u32)?;
/// }
/// assert_eq!(plan.change(Link(0), 0), Err(Refusal::StackFull));
/// assert_eq!(plan.preview(Link(0), 0, Node(0), Node(1)), Err(Refusal::StackFull));
/// # Ok::<(), Box<dyn std::error::Error>>(())
/// ```
pub const CHANGES_MAX: usize = 64;

/// The most readings of a window without a reset.
///
/// ```
/// # use pamzolit::{Node, Plan, READINGS_MAX, Refusal, Window};
/// let plan = Plan::open(&[2, 1, 0, 1, 6])?;
/// let mut window = Window::resume(0, 0, READINGS_MAX - 1);
/// assert!(window.reading(&plan, Node(0), Node(1), 0).is_ok());
/// assert_eq!(window.reading(&plan, Node(0), Node(1), 0), Err(Refusal::TooManyReadings));
/// # Ok::<(), pamzolit::FileError>(())
/// ```
pub const READINGS_MAX: u32 = 1_000_000;

/// The bytes of the longest file.
///
/// ```
/// # use pamzolit::{FILE_MAX, Plan};
/// // 64 nodes; 256 links, each of two ends and a capacity of four groups
/// let mut file = vec![64, 0x80, 2];
/// file.extend([0, 1, 0x80, 0xa4, 0xe8, 3].repeat(256));
/// assert_eq!(file.len(), FILE_MAX);
/// assert_eq!(Plan::open(&file)?.write(), file);
/// # Ok::<(), pamzolit::FileError>(())
/// ```
pub const FILE_MAX: usize = 1_539;

// the length that the archive asks of a listing's buffer: more than any listing has
const LISTING_MAX: usize = 183_040;

/// What the program `pairs` prints for a file: the edges of the tree, then the limit and the side of every two
/// nodes; or one line `refused`, number, place.
///
/// ```
/// assert_eq!(pamzolit::listing(&[2, 1, 0, 1, 6]), "tree 1 0 6\npair 0 1 6 1\n");
/// assert_eq!(pamzolit::listing(&[2, 1, 0, 0, 0]), "refused 7 3\n");
/// ```
pub fn listing(file: &[u8]) -> String {
    let mut out = vec![0; LISTING_MAX];
    let length = ffi::listing(file, &mut out);
    out.truncate(length);
    // proved: letters, digits, spaces and line feeds
    String::from_utf8_lossy(&out).into_owned()
}
