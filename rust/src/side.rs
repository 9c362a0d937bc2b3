//! Nodes, links, and sets of nodes.
use std::fmt;
use std::iter::FusedIterator;

/// A node of a network (a gate house), by its number from 0.
///
/// ```
/// use pamzolit::Node;
///
/// assert_eq!(Node(3).to_string(), "3");
/// assert!(Node(2) < Node(3));
/// ```
#[derive(Clone, Copy, Debug, PartialEq, Eq, PartialOrd, Ord, Hash)]
pub struct Node(pub usize);

/// A link of a network, by its number from 0, in the file's order.
///
/// ```
/// use pamzolit::Link;
///
/// assert_eq!(Link(4).to_string(), "4");
/// ```
#[derive(Clone, Copy, Debug, PartialEq, Eq, PartialOrd, Ord, Hash)]
pub struct Link(pub usize);

impl fmt::Display for Node {
    fn fmt(&self, f: &mut fmt::Formatter<'_>) -> fmt::Result {
        self.0.fmt(f)
    }
}

impl fmt::Display for Link {
    fn fmt(&self, f: &mut fmt::Formatter<'_>) -> fmt::Result {
        self.0.fmt(f)
    }
}

/// One side of a cut: a set of nodes. The links that have one end in it and one outside are those that the cut
/// crosses.
///
/// ```
/// use pamzolit::{Node, Side};
///
/// let side = Side::from_bits(0b1100);
/// assert_eq!(side.iter().collect::<Vec<_>>(), [Node(2), Node(3)]);
/// assert_eq!(side.to_string(), "{2, 3}");
/// ```
#[derive(Clone, Copy, Debug, Default, PartialEq, Eq, Hash)]
pub struct Side(u64);

impl Side {
    /// The set with node i for each bit i.
    ///
    /// ```
    /// # use pamzolit::{Node, Side};
    /// assert!(Side::from_bits(8).contains(Node(3)));
    /// ```
    pub const fn from_bits(bits: u64) -> Side {
        Side(bits)
    }

    /// The set as a word, bit i for node i: the number that a listing prints.
    ///
    /// ```
    /// # use pamzolit::Side;
    /// assert_eq!(Side::from_bits(12).bits(), 12);
    /// ```
    pub const fn bits(self) -> u64 {
        self.0
    }

    /// Whether a node is in the set. A number that no node has is in none.
    ///
    /// ```
    /// # use pamzolit::{Node, Side};
    /// let side = Side::from_bits(0b1100);
    /// assert!(side.contains(Node(2)) && !side.contains(Node(1)) && !side.contains(Node(64)));
    /// ```
    pub const fn contains(self, node: Node) -> bool {
        node.0 < 64 && self.0 >> node.0 & 1 == 1
    }

    /// How many nodes the set has.
    ///
    /// ```
    /// # use pamzolit::Side;
    /// assert_eq!(Side::from_bits(0b1100).len(), 2);
    /// ```
    pub const fn len(self) -> usize {
        self.0.count_ones() as usize
    }

    /// Whether the set has no node.
    ///
    /// ```
    /// # use pamzolit::Side;
    /// assert!(Side::default().is_empty());
    /// ```
    pub const fn is_empty(self) -> bool {
        self.0 == 0
    }

    /// The nodes of the set in rising order.
    ///
    /// ```
    /// # use pamzolit::{Node, Side};
    /// assert_eq!(Side::from_bits(1 << 63 | 1).iter().last(), Some(Node(63)));
    /// ```
    pub const fn iter(self) -> Nodes {
        Nodes(self.0)
    }
}

impl fmt::Display for Side {
    fn fmt(&self, f: &mut fmt::Formatter<'_>) -> fmt::Result {
        f.write_str("{")?;
        for (i, node) in self.iter().enumerate() {
            write!(f, "{}{node}", if i == 0 { "" } else { ", " })?;
        }
        f.write_str("}")
    }
}

impl IntoIterator for Side {
    type Item = Node;
    type IntoIter = Nodes;

    fn into_iter(self) -> Nodes {
        self.iter()
    }
}

impl IntoIterator for &Side {
    type Item = Node;
    type IntoIter = Nodes;

    fn into_iter(self) -> Nodes {
        self.iter()
    }
}

/// The nodes of a [`Side`] in rising order.
///
/// ```
/// use pamzolit::{Node, Side};
///
/// let mut nodes = Side::from_bits(0b1101).iter();
/// assert_eq!((nodes.len(), nodes.next(), nodes.next_back()), (3, Some(Node(0)), Some(Node(3))));
/// ```
#[derive(Clone, Debug)]
pub struct Nodes(u64);

impl Nodes {
    // the set without a node of it
    fn take(&mut self, node: u32) -> Option<Node> {
        self.0 &= !(1 << node);
        Some(Node(node as usize))
    }
}

impl Iterator for Nodes {
    type Item = Node;

    fn next(&mut self) -> Option<Node> {
        if self.0 == 0 { None } else { self.take(self.0.trailing_zeros()) }
    }

    fn size_hint(&self) -> (usize, Option<usize>) {
        let left = self.0.count_ones() as usize;
        (left, Some(left))
    }
}

impl DoubleEndedIterator for Nodes {
    fn next_back(&mut self) -> Option<Node> {
        if self.0 == 0 { None } else { self.take(63 - self.0.leading_zeros()) }
    }
}

impl ExactSizeIterator for Nodes {}

impl FusedIterator for Nodes {}
