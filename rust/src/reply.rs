//! What a plan answers, and what it holds.
use crate::ffi;
use crate::side::{Link, Node, Side};
use std::fmt;
use std::str;

/// The limit between two nodes s and t, and what sets it: the lightest edge of the path between them in the cut
/// tree, the one with the lowest node number among equals, so that both ends show the same. Asked from the other
/// end, weight and node are the same, and the side is the complement.
///
/// ```
/// use pamzolit::{Node, Plan};
///
/// // resort A of document 01
/// let plan = Plan::open(&[4, 5, 0, 1, 5, 1, 2, 3, 2, 3, 4, 0, 3, 2, 0, 2, 1])?;
/// let pair = plan.pair(Node(0), Node(2))?;
/// assert_eq!(pair.weight, 6);
/// // the links between {0, 1} and the others have this capacity together
/// assert_eq!(pair.side.to_string(), "{0, 1}");
/// # Ok::<(), Box<dyn std::error::Error>>(())
/// ```
#[derive(Clone, Copy, Debug, PartialEq, Eq, Hash)]
pub struct Pair {
    /// The most traffic that can run between s and t, in tenths of a megabit per second.
    pub weight: u32,
    /// The node below that edge.
    pub node: Node,
    /// The nodes on s's side once that edge is cut: a minimum cut between s and t.
    pub side: Side,
    /// How many nodes that side has.
    pub size: usize,
}

impl From<ffi::PairReply> for Pair {
    fn from(reply: ffi::PairReply) -> Pair {
        Pair { weight: reply.weight, node: Node(reply.node), side: Side::from_bits(reply.side), size: reply.size }
    }
}

/// What a change followed by a pair would give, the plan being left as it is.
///
/// ```
/// use pamzolit::{Link, Node, Plan};
///
/// // resort A of document 01: link 1 with 1 tenth
/// let plan = Plan::open(&[4, 5, 0, 1, 5, 1, 2, 3, 2, 3, 4, 0, 3, 2, 0, 2, 1])?;
/// let preview = plan.preview(Link(1), 1, Node(3), Node(1))?;
/// assert_eq!((preview.pair.weight, preview.pair.node, preview.count), (4, Node(2), 1));
/// assert_eq!(plan.pair(Node(3), Node(1))?.weight, 6);
/// # Ok::<(), Box<dyn std::error::Error>>(())
/// ```
#[derive(Clone, Copy, Debug, PartialEq, Eq, Hash)]
pub struct Preview {
    /// The limit between the two nodes under that capacity, and what sets it.
    pub pair: Pair,
    /// How many steps of the tree the change would not keep.
    pub count: u32,
}

impl From<(ffi::PairReply, u32)> for Preview {
    fn from((reply, count): (ffi::PairReply, u32)) -> Preview {
        Preview { pair: reply.into(), count }
    }
}

/// What a demand leaves of the limit between two nodes: below zero, that much is short.
///
/// It shows as megabits with one digit of tenths, as the gate does; a width aligns it.
///
/// ```
/// use pamzolit::{Node, Plan};
///
/// let plan = Plan::open(&[2, 1, 0, 1, 6])?;
/// let headroom = plan.headroom(Node(0), Node(1), 11)?;
/// assert_eq!(headroom.to_string(), "-0.5");
/// assert_eq!(format!("[{headroom:>6}]"), "[  -0.5]");
/// # Ok::<(), Box<dyn std::error::Error>>(())
/// ```
#[derive(Clone, Copy, PartialEq, Eq, PartialOrd, Ord, Hash)]
pub struct Headroom {
    tenths: i32,
    text: [u8; 12],
}

impl Headroom {
    /// In tenths of a megabit per second.
    ///
    /// ```
    /// # use pamzolit::{Node, Plan};
    /// let plan = Plan::open(&[2, 1, 0, 1, 6])?;
    /// assert_eq!(plan.headroom(Node(0), Node(1), 11)?.tenths(), -5);
    /// # Ok::<(), Box<dyn std::error::Error>>(())
    /// ```
    pub const fn tenths(&self) -> i32 {
        self.tenths
    }

    /// As the archive writes it: twelve characters, right-aligned with spaces.
    ///
    /// ```
    /// # use pamzolit::{Node, Plan};
    /// let plan = Plan::open(&[2, 1, 0, 1, 6])?;
    /// assert_eq!(plan.headroom(Node(0), Node(1), 6)?.text(), "         0.0");
    /// # Ok::<(), Box<dyn std::error::Error>>(())
    /// ```
    pub fn text(&self) -> &str {
        // proved: spaces, a minus, digits and a point
        str::from_utf8(&self.text).unwrap_or_default()
    }
}

impl From<ffi::HeadroomReply> for Headroom {
    fn from(reply: ffi::HeadroomReply) -> Headroom {
        Headroom { tenths: reply.value, text: reply.text }
    }
}

impl fmt::Display for Headroom {
    fn fmt(&self, f: &mut fmt::Formatter<'_>) -> fmt::Result {
        f.pad(self.text().trim_start())
    }
}

impl fmt::Debug for Headroom {
    fn fmt(&self, f: &mut fmt::Formatter<'_>) -> fmt::Result {
        f.debug_tuple("Headroom").field(&self.tenths).finish()
    }
}

/// A link as the plan holds it now.
///
/// ```
/// use pamzolit::{Link, LinkState, Node, Plan};
///
/// let plan = Plan::open(&[2, 1, 0, 1, 6])?;
/// let link = LinkState { link: Link(0), a: Node(0), b: Node(1), capacity: 6 };
/// assert_eq!(plan.link(Link(0)), Some(link));
/// # Ok::<(), Box<dyn std::error::Error>>(())
/// ```
#[derive(Clone, Copy, Debug, PartialEq, Eq, Hash)]
pub struct LinkState {
    /// Its number.
    pub link: Link,
    /// One end. A flow's positive numbers run from here to the other.
    pub a: Node,
    /// The other end.
    pub b: Node,
    /// In tenths of a megabit per second.
    pub capacity: u32,
}

/// An edge of the cut tree: the lightest edge on the path between two nodes is the limit between them.
///
/// ```
/// use pamzolit::{Node, Plan, TreeEdge};
///
/// let plan = Plan::open(&[2, 1, 0, 1, 6])?;
/// let edge = TreeEdge { node: Node(1), parent: Node(0), weight: 6 };
/// assert_eq!(plan.tree().collect::<Vec<_>>(), [edge]);
/// # Ok::<(), Box<dyn std::error::Error>>(())
/// ```
#[derive(Clone, Copy, Debug, PartialEq, Eq, Hash)]
pub struct TreeEdge {
    /// The node below the edge.
    pub node: Node,
    /// The node above it.
    pub parent: Node,
    /// The limit between the two, in tenths of a megabit per second.
    pub weight: u32,
}

/// A step of Gusfield's rule, by which the tree was made: a minimum cut between a node and its pivot. A change
/// keeps the steps that still hold.
///
/// ```
/// use pamzolit::{Node, Plan, Side, Step};
///
/// let plan = Plan::open(&[2, 1, 0, 1, 6])?;
/// let step = Step { node: Node(1), pivot: Node(0), side: Side::from_bits(2), value: 6 };
/// assert_eq!(plan.steps().collect::<Vec<_>>(), [step]);
/// # Ok::<(), Box<dyn std::error::Error>>(())
/// ```
#[derive(Clone, Copy, Debug, PartialEq, Eq, Hash)]
pub struct Step {
    /// The node whose step it is.
    pub node: Node,
    /// Its parent at that step.
    pub pivot: Node,
    /// Of the minimum cuts that hold the node and not the pivot, the one that is contained in all others.
    pub side: Side,
    /// Its value, in tenths of a megabit per second.
    pub value: u32,
}

/// A change that can be undone.
///
/// ```
/// use pamzolit::{Change, Link, Plan};
///
/// let mut plan = Plan::open(&[2, 1, 0, 1, 6])?;
/// plan.change(Link(0), 9)?;
/// assert_eq!(plan.changes().next_back(), Some(Change { link: Link(0), before: 6 }));
/// # Ok::<(), Box<dyn std::error::Error>>(())
/// ```
#[derive(Clone, Copy, Debug, PartialEq, Eq, Hash)]
pub struct Change {
    /// The link that was changed.
    pub link: Link,
    /// The capacity that it had before.
    pub before: u32,
}
