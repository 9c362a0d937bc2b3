//! The plan of a network.
use crate::ffi;
use crate::reply::{Change, Headroom, LinkState, Pair, Preview, Step, TreeEdge};
use crate::side::{Link, Node, Side};
use crate::{FILE_MAX, FileError, Refusal};
use std::fmt;

/// The plan of a network: its links, its cut tree with the lightest edge, and the changes that can be undone.
///
/// It is 3,104 bytes of plain data. A clone is a plan of its own, and equal plans answer alike. Nothing but
/// [`open`], [`change`] and [`undo`] writes it, so what is proved of such plans holds of every `Plan`: see the
/// [crate's page](crate).
///
/// [`open`]: Plan::open
/// [`change`]: Plan::change
/// [`undo`]: Plan::undo
///
/// ```
/// use pamzolit::{Link, Node, Plan};
///
/// let mut plan = Plan::open(&[2, 1, 0, 1, 6])?;
/// let first = plan.clone();
/// plan.change(Link(0), 11)?;
/// assert_eq!(plan.pair(Node(0), Node(1))?.weight, 11);
/// plan.undo()?;
/// assert!(plan == first);
/// # Ok::<(), Box<dyn std::error::Error>>(())
/// ```
#[derive(Clone, PartialEq, Eq)]
pub struct Plan {
    held: ffi::Plan,
}

impl Plan {
    /// Opens a network file.
    ///
    /// ```
    /// use pamzolit::{FileError, Plan};
    ///
    /// assert!(Plan::open(&[2, 1, 0, 1, 6]).is_ok());
    /// assert_eq!(Plan::open(&[]).unwrap_err(), FileError::EndsEarly { place: 0 });
    /// ```
    pub fn open(file: &[u8]) -> Result<Plan, FileError> {
        match ffi::open(file) {
            Ok(held) => Ok(Plan { held }),
            Err((number, place)) => Err(FileError::new(number, place)),
        }
    }

    /// Gives a link a capacity in tenths of a megabit per second, also the one that it has. Returns how many steps
    /// of the tree were not kept.
    ///
    /// Refused with [`NoSuchLink`](Refusal::NoSuchLink), [`CapacityTooLarge`](Refusal::CapacityTooLarge),
    /// [`StackFull`](Refusal::StackFull), the first of them that holds.
    ///
    /// ```
    /// use pamzolit::{CAPACITY_MAX, Link, Plan, Refusal};
    ///
    /// let mut plan = Plan::open(&[2, 1, 0, 1, 6])?;
    /// assert_eq!(plan.change(Link(0), 11), Ok(1));
    /// assert_eq!(plan.change(Link(0), CAPACITY_MAX + 1), Err(Refusal::CapacityTooLarge));
    /// # Ok::<(), Box<dyn std::error::Error>>(())
    /// ```
    pub fn change(&mut self, link: Link, capacity: u32) -> Result<u32, Refusal> {
        ffi::change(&mut self.held, link.0, capacity).map_err(Refusal::new)
    }

    /// Undoes the newest change that stands. Returns how many steps of the tree were not kept.
    ///
    /// Refused with [`NothingToUndo`](Refusal::NothingToUndo).
    ///
    /// ```
    /// use pamzolit::{Link, Plan, Refusal};
    ///
    /// let mut plan = Plan::open(&[2, 1, 0, 1, 6])?;
    /// plan.change(Link(0), 11)?;
    /// assert_eq!(plan.undo(), Ok(0));
    /// assert_eq!(plan.undo(), Err(Refusal::NothingToUndo));
    /// # Ok::<(), Box<dyn std::error::Error>>(())
    /// ```
    pub fn undo(&mut self) -> Result<u32, Refusal> {
        ffi::undo(&mut self.held).map_err(Refusal::new)
    }

    /// The limit between two nodes, and what sets it. Both ends show the same edge of the cut tree, each with its
    /// own side.
    ///
    /// Refused with [`NoSuchNode`](Refusal::NoSuchNode), [`SameNode`](Refusal::SameNode).
    ///
    /// ```
    /// use pamzolit::{Node, Plan, Side};
    ///
    /// let plan = Plan::open(&[2, 1, 0, 1, 6])?;
    /// let pair = plan.pair(Node(1), Node(0))?;
    /// assert_eq!((pair.weight, pair.side, pair.size), (6, Side::from_bits(0b10), 1));
    ///
    /// // resort A of document 01: between 3 and 1 the edges of 3 and of 2 are the lightest
    /// let plan = Plan::open(&[4, 5, 0, 1, 5, 1, 2, 3, 2, 3, 4, 0, 3, 2, 0, 2, 1])?;
    /// let (here, there) = (plan.pair(Node(3), Node(1))?, plan.pair(Node(1), Node(3))?);
    /// assert_eq!((here.weight, here.node), (6, Node(2)));
    /// assert_eq!((there.weight, there.node), (6, Node(2)));
    /// assert_eq!((here.side.to_string(), there.side.to_string()), ("{2, 3}".into(), "{0, 1}".into()));
    /// # Ok::<(), Box<dyn std::error::Error>>(())
    /// ```
    pub fn pair(&self, s: Node, t: Node) -> Result<Pair, Refusal> {
        ffi::pair(&self.held, s.0, t.0).map(Pair::from).map_err(Refusal::new)
    }

    /// What a [change](Plan::change) followed by a [pair](Plan::pair) would give: one pair under a capacity that is
    /// tried first. The plan is left as it is.
    ///
    /// Refused as the change is, also with [`StackFull`](Refusal::StackFull), and then as the pair is.
    ///
    /// ```
    /// use pamzolit::{Link, Node, Plan, Refusal};
    ///
    /// // resort A of document 01: with 4 tenths for link 3 every edge of the tree has 8
    /// let mut plan = Plan::open(&[4, 5, 0, 1, 5, 1, 2, 3, 2, 3, 4, 0, 3, 2, 0, 2, 1])?;
    /// let first = plan.clone();
    /// let preview = plan.preview(Link(3), 4, Node(1), Node(3))?;
    /// assert_eq!((preview.pair.weight, preview.pair.node, preview.count), (8, Node(1), 2));
    /// assert!(plan == first);
    ///
    /// // the change's refusals come before the pair's
    /// assert_eq!(plan.preview(Link(5), 4, Node(1), Node(1)), Err(Refusal::NoSuchLink));
    /// assert_eq!(plan.preview(Link(3), 4, Node(1), Node(1)), Err(Refusal::SameNode));
    ///
    /// assert_eq!(plan.change(Link(3), 4), Ok(preview.count));
    /// assert_eq!(plan.pair(Node(1), Node(3)), Ok(preview.pair));
    /// # Ok::<(), Box<dyn std::error::Error>>(())
    /// ```
    pub fn preview(&self, link: Link, capacity: u32, s: Node, t: Node) -> Result<Preview, Refusal> {
        ffi::preview(&self.held, link.0, capacity, s.0, t.0).map(Preview::from).map_err(Refusal::new)
    }

    /// What a demand, in tenths of a megabit per second, leaves of the limit between two nodes.
    ///
    /// Refused as a [pair](Plan::pair) is, and with [`DemandTooLarge`](Refusal::DemandTooLarge).
    ///
    /// ```
    /// use pamzolit::{Node, Plan};
    ///
    /// let plan = Plan::open(&[2, 1, 0, 1, 6])?;
    /// assert_eq!(plan.headroom(Node(0), Node(1), 11)?.to_string(), "-0.5");
    /// # Ok::<(), Box<dyn std::error::Error>>(())
    /// ```
    pub fn headroom(&self, s: Node, t: Node, demand: u32) -> Result<Headroom, Refusal> {
        ffi::headroom(&self.held, s.0, t.0, demand).map(Headroom::from).map_err(Refusal::new)
    }

    /// A flow between two nodes of the largest total, which is their limit: a number for each link, positive from
    /// its `a` to its `b`. Which one of several such flows is given is not promised.
    ///
    /// Refused as a [pair](Plan::pair) is.
    ///
    /// ```
    /// use pamzolit::{Node, Plan};
    ///
    /// // two links in a row, 0 to 1 and 2 to 1: the second is used backwards
    /// let plan = Plan::open(&[3, 2, 0, 1, 6, 2, 1, 4])?;
    /// assert_eq!(plan.flow(Node(0), Node(2))?, [4, -4]);
    /// # Ok::<(), Box<dyn std::error::Error>>(())
    /// ```
    pub fn flow(&self, s: Node, t: Node) -> Result<Vec<i32>, Refusal> {
        let mut out = vec![0; self.link_count()];
        self.flow_into(s, t, &mut out)?;
        Ok(out)
    }

    /// A [flow](Plan::flow) in a buffer with one place for each link. A refusal leaves the buffer as it was.
    ///
    /// Refused as a [pair](Plan::pair) is, and with [`FlowLength`](Refusal::FlowLength).
    ///
    /// ```
    /// use pamzolit::{Node, Plan, Refusal};
    ///
    /// let plan = Plan::open(&[2, 1, 0, 1, 6])?;
    /// let mut out = [0];
    /// plan.flow_into(Node(0), Node(1), &mut out)?;
    /// assert_eq!(out, [6]);
    /// assert_eq!(plan.flow_into(Node(0), Node(1), &mut []), Err(Refusal::FlowLength));
    /// # Ok::<(), Box<dyn std::error::Error>>(())
    /// ```
    pub fn flow_into(&self, s: Node, t: Node, out: &mut [i32]) -> Result<(), Refusal> {
        ffi::flow(&self.held, s.0, t.0, out).map_err(Refusal::new)
    }

    /// The network's file, with the capacities of now. [`Plan::open`] gives an equal plan of it, but for the
    /// changes that can be undone.
    ///
    /// ```
    /// use pamzolit::{Link, Plan};
    ///
    /// let mut plan = Plan::open(&[2, 1, 0, 1, 6])?;
    /// plan.change(Link(0), 11)?;
    /// assert_eq!(plan.write(), [2, 1, 0, 1, 11]);
    /// # Ok::<(), Box<dyn std::error::Error>>(())
    /// ```
    pub fn write(&self) -> Vec<u8> {
        let mut out = vec![0; FILE_MAX];
        // no file is longer, so this is not refused
        let used = self.write_into(&mut out).unwrap_or_default();
        out.truncate(used);
        out
    }

    /// The [file](Plan::write) in the first bytes of a buffer; returns its length. The rest of the buffer is left
    /// as it was, and all of it beside a refusal.
    ///
    /// Refused with [`BufferTooShort`](Refusal::BufferTooShort).
    ///
    /// ```
    /// use pamzolit::{Plan, Refusal};
    ///
    /// let plan = Plan::open(&[2, 1, 0, 1, 6])?;
    /// let mut out = [99; 6];
    /// assert_eq!(plan.write_into(&mut out), Ok(5));
    /// assert_eq!(out, [2, 1, 0, 1, 6, 99]);
    /// assert_eq!(plan.write_into(&mut out[..4]), Err(Refusal::BufferTooShort));
    /// # Ok::<(), Box<dyn std::error::Error>>(())
    /// ```
    pub fn write_into(&self, out: &mut [u8]) -> Result<usize, Refusal> {
        ffi::write(&self.held, out).map_err(Refusal::new)
    }

    /// How many nodes the network has.
    ///
    /// ```
    /// # use pamzolit::Plan;
    /// assert_eq!(Plan::open(&[2, 1, 0, 1, 6])?.node_count(), 2);
    /// # Ok::<(), pamzolit::FileError>(())
    /// ```
    pub fn node_count(&self) -> usize {
        self.held.network.nodes
    }

    /// How many links the network has.
    ///
    /// ```
    /// # use pamzolit::Plan;
    /// assert_eq!(Plan::open(&[2, 1, 0, 1, 6])?.link_count(), 1);
    /// # Ok::<(), pamzolit::FileError>(())
    /// ```
    pub fn link_count(&self) -> usize {
        self.held.network.links
    }

    /// The nodes in rising order.
    ///
    /// ```
    /// # use pamzolit::{Node, Plan};
    /// assert_eq!(Plan::open(&[2, 0])?.nodes().collect::<Vec<_>>(), [Node(0), Node(1)]);
    /// # Ok::<(), pamzolit::FileError>(())
    /// ```
    pub fn nodes(&self) -> impl ExactSizeIterator<Item = Node> + DoubleEndedIterator + use<> {
        (0..self.node_count()).map(Node)
    }

    /// The links in the file's order, with the capacities of now.
    ///
    /// ```
    /// # use pamzolit::Plan;
    /// let plan = Plan::open(&[2, 2, 0, 1, 6, 1, 0, 3])?;
    /// assert_eq!(plan.links().map(|link| link.capacity).sum::<u32>(), 9);
    /// # Ok::<(), pamzolit::FileError>(())
    /// ```
    pub fn links(&self) -> impl ExactSizeIterator<Item = LinkState> + DoubleEndedIterator {
        let network = &self.held.network;
        (0..network.links).map(|k| LinkState {
            link: Link(k),
            a: Node(network.a[k].into()),
            b: Node(network.b[k].into()),
            capacity: network.capacity[k],
        })
    }

    /// One link, if there is such a one.
    ///
    /// ```
    /// # use pamzolit::{Link, Plan};
    /// let plan = Plan::open(&[2, 1, 0, 1, 6])?;
    /// assert_eq!(plan.link(Link(0)).map(|link| link.capacity), Some(6));
    /// assert_eq!(plan.link(Link(1)), None);
    /// # Ok::<(), pamzolit::FileError>(())
    /// ```
    pub fn link(&self, link: Link) -> Option<LinkState> {
        self.links().nth(link.0)
    }

    /// The edges of the cut tree, for the nodes from 1 up.
    ///
    /// ```
    /// # use pamzolit::Plan;
    /// // resort A of document 01
    /// let plan = Plan::open(&[4, 5, 0, 1, 5, 1, 2, 3, 2, 3, 4, 0, 3, 2, 0, 2, 1])?;
    /// let tree: Vec<_> = plan.tree().map(|edge| (edge.node.0, edge.parent.0, edge.weight)).collect();
    /// assert_eq!(tree, [(1, 0, 8), (2, 0, 6), (3, 2, 6)]);
    /// # Ok::<(), pamzolit::FileError>(())
    /// ```
    pub fn tree(&self) -> impl ExactSizeIterator<Item = TreeEdge> + DoubleEndedIterator {
        let tree = &self.held.tree;
        self.nodes().skip(1).map(|node| TreeEdge {
            node,
            parent: Node(tree.parent[node.0].into()),
            weight: tree.weight[node.0],
        })
    }

    /// The lightest edge of the cut tree, the one with the lowest node number among equals; none for a plan of one
    /// node. Its weight is the network's own minimum cut: no side that is neither empty nor all nodes has a smaller
    /// value, no pair has a smaller limit, and some pair has this one.
    ///
    /// ```
    /// # use pamzolit::{Node, Plan, TreeEdge};
    /// // resort A of document 01: the edges of 2 and of 3 are the lightest
    /// let plan = Plan::open(&[4, 5, 0, 1, 5, 1, 2, 3, 2, 3, 4, 0, 3, 2, 0, 2, 1])?;
    /// assert_eq!(plan.lightest(), Some(TreeEdge { node: Node(2), parent: Node(0), weight: 6 }));
    /// assert_eq!(Plan::open(&[1, 0])?.lightest(), None);
    /// # Ok::<(), pamzolit::FileError>(())
    /// ```
    pub fn lightest(&self) -> Option<TreeEdge> {
        let tree = &self.held.tree;
        let ffi::Edge { node, weight } = self.held.lightest;
        let node = Node(node as usize);
        // 0 where there is no other node
        (node != Node(0)).then(|| TreeEdge { node, parent: Node(tree.parent[node.0].into()), weight })
    }

    /// The steps that made the tree, for the nodes from 1 up.
    ///
    /// ```
    /// # use pamzolit::Plan;
    /// // resort A of document 01: its least sides are {1}, {2, 3}, {3}
    /// let plan = Plan::open(&[4, 5, 0, 1, 5, 1, 2, 3, 2, 3, 4, 0, 3, 2, 0, 2, 1])?;
    /// let sides: Vec<_> = plan.steps().map(|step| step.side.to_string()).collect();
    /// assert_eq!(sides, ["{1}", "{2, 3}", "{3}"]);
    /// # Ok::<(), pamzolit::FileError>(())
    /// ```
    pub fn steps(&self) -> impl ExactSizeIterator<Item = Step> + DoubleEndedIterator {
        let steps = &self.held.steps;
        self.nodes().skip(1).map(|node| Step {
            node,
            pivot: Node(steps.pivot[node.0].into()),
            side: Side::from_bits(steps.side[node.0]),
            value: steps.value[node.0],
        })
    }

    /// The changes that can be undone, the oldest first.
    ///
    /// ```
    /// # use pamzolit::{Link, Plan};
    /// let mut plan = Plan::open(&[2, 1, 0, 1, 6])?;
    /// plan.change(Link(0), 9)?;
    /// plan.change(Link(0), 12)?;
    /// assert_eq!(plan.changes().map(|change| change.before).collect::<Vec<_>>(), [6, 9]);
    /// # Ok::<(), Box<dyn std::error::Error>>(())
    /// ```
    pub fn changes(&self) -> impl ExactSizeIterator<Item = Change> + DoubleEndedIterator {
        let stack = &self.held.stack;
        (0..stack.depth).map(|i| Change { link: Link(stack.link[i].into()), before: stack.capacity[i] })
    }

    // what a reading asks
    pub(crate) fn held(&self) -> &ffi::Plan {
        &self.held
    }
}

impl fmt::Debug for Plan {
    fn fmt(&self, f: &mut fmt::Formatter<'_>) -> fmt::Result {
        f.debug_struct("Plan")
            .field("links", &self.links().collect::<Vec<_>>())
            .field("tree", &self.tree().collect::<Vec<_>>())
            .field("steps", &self.steps().collect::<Vec<_>>())
            .field("changes", &self.changes().collect::<Vec<_>>())
            .field("lightest", &self.lightest())
            .finish()
    }
}
