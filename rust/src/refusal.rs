//! Why a file or a call is refused.
use std::error::Error;
use std::fmt;

/// Why a file is refused: the first fault in document 01's order, with its place. The place is the offset of the
/// faulty number's first byte, or of the first extra byte.
///
/// ```
/// use pamzolit::{FileError, Plan};
///
/// let error = Plan::open(&[2, 1, 0, 0, 9]).unwrap_err();
/// assert_eq!(error, FileError::EqualEnds { place: 3 });
/// assert_eq!(error.to_string(), "a link's ends are equal (refusal 7 at byte 3)");
/// ```
#[derive(Clone, Copy, Debug, PartialEq, Eq, Hash)]
#[non_exhaustive]
#[allow(missing_docs)] // a place is what the first lines say
pub enum FileError {
    /// 1: the file ends before a number's last byte.
    EndsEarly { place: usize },
    /// 2: a number has more groups than any may have.
    NumberTooLong { place: usize },
    /// 3: a number's last group of several is zero.
    ZeroGroup { place: usize },
    /// 4: the number of nodes is not 1 to 64.
    BadNodeCount { place: usize },
    /// 5: there are more than 256 links.
    TooManyLinks { place: usize },
    /// 6: an end of a link is no node.
    EndNotANode { place: usize },
    /// 7: a link's ends are equal.
    EqualEnds { place: usize },
    /// 8: a link's capacity is above the limit.
    LinkTooLarge { place: usize },
    /// 9: bytes follow the last link.
    BytesFollow { place: usize },
    /// A number that this version of the crate does not know. Its own archive never gives one.
    Unknown { number: u32, place: usize },
}

impl FileError {
    pub(crate) fn new(number: u32, place: usize) -> FileError {
        match number {
            1 => FileError::EndsEarly { place },
            2 => FileError::NumberTooLong { place },
            3 => FileError::ZeroGroup { place },
            4 => FileError::BadNodeCount { place },
            5 => FileError::TooManyLinks { place },
            6 => FileError::EndNotANode { place },
            7 => FileError::EqualEnds { place },
            8 => FileError::LinkTooLarge { place },
            9 => FileError::BytesFollow { place },
            _ => FileError::Unknown { number, place },
        }
    }

    // number, place, words
    fn parts(&self) -> (u32, usize, &'static str) {
        match *self {
            FileError::EndsEarly { place } => (1, place, "the file ends before a number's last byte"),
            FileError::NumberTooLong { place } => (2, place, "a number has too many groups"),
            FileError::ZeroGroup { place } => (3, place, "a number's last group of several is zero"),
            FileError::BadNodeCount { place } => (4, place, "the number of nodes is not 1 to 64"),
            FileError::TooManyLinks { place } => (5, place, "there are more than 256 links"),
            FileError::EndNotANode { place } => (6, place, "an end of a link is no node"),
            FileError::EqualEnds { place } => (7, place, "a link's ends are equal"),
            FileError::LinkTooLarge { place } => (8, place, "a link's capacity is above the limit"),
            FileError::BytesFollow { place } => (9, place, "bytes follow the last link"),
            FileError::Unknown { number, place } => (number, place, "an unknown fault"),
        }
    }

    /// Its number in document 01's table of checks.
    ///
    /// ```
    /// # use pamzolit::Plan;
    /// assert_eq!(Plan::open(&[65, 0]).unwrap_err().number(), 4);
    /// ```
    pub fn number(&self) -> u32 {
        self.parts().0
    }

    /// Where the fault is, as an offset in the file.
    ///
    /// ```
    /// # use pamzolit::Plan;
    /// // one node, no links, and a byte too many
    /// assert_eq!(Plan::open(&[1, 0, 0]).unwrap_err().place(), 2);
    /// ```
    pub fn place(&self) -> usize {
        self.parts().1
    }
}

impl fmt::Display for FileError {
    fn fmt(&self, f: &mut fmt::Formatter<'_>) -> fmt::Result {
        let (number, place, words) = self.parts();
        write!(f, "{words} (refusal {number} at byte {place})")
    }
}

impl Error for FileError {}

/// Why a call is refused: the first check that fails, in the order of documents 01 and 02. A refused call alters
/// nothing.
///
/// ```
/// use pamzolit::{Link, Node, Plan, Refusal};
///
/// let mut plan = Plan::open(&[2, 1, 0, 1, 5])?;
/// assert_eq!(plan.change(Link(1), 0), Err(Refusal::NoSuchLink));
/// assert_eq!(plan.pair(Node(0), Node(0)), Err(Refusal::SameNode));
/// assert_eq!(Refusal::SameNode.to_string(), "the two nodes are the same (refusal 15)");
/// # Ok::<(), pamzolit::FileError>(())
/// ```
#[derive(Clone, Copy, Debug, PartialEq, Eq, Hash)]
#[non_exhaustive]
pub enum Refusal {
    /// 10: the network has no such link.
    NoSuchLink,
    /// 11: the capacity is above [`CAPACITY_MAX`](crate::CAPACITY_MAX).
    CapacityTooLarge,
    /// 12: [`CHANGES_MAX`](crate::CHANGES_MAX) changes can be undone already.
    StackFull,
    /// 13: there is no change to undo.
    NothingToUndo,
    /// 14: the network has no such node.
    NoSuchNode,
    /// 15: the two nodes are the same.
    SameNode,
    /// 16: a flow's buffer has not one place for each link.
    FlowLength,
    /// 17: the demand is above [`DEMAND_MAX`](crate::DEMAND_MAX).
    DemandTooLarge,
    /// 18: the buffer is shorter than the file.
    BufferTooShort,
    /// 19: the plan is not sound. No [`Plan`](crate::Plan) gets this: its memory is written by open, change and
    /// undo alone.
    NotSound,
    /// 20: the window counts [`READINGS_MAX`](crate::READINGS_MAX) readings or more.
    TooManyReadings,
    /// A number that this version of the crate does not know. Its own archive never gives one.
    Unknown(u32),
}

impl Refusal {
    pub(crate) fn new(number: u32) -> Refusal {
        match number {
            10 => Refusal::NoSuchLink,
            11 => Refusal::CapacityTooLarge,
            12 => Refusal::StackFull,
            13 => Refusal::NothingToUndo,
            14 => Refusal::NoSuchNode,
            15 => Refusal::SameNode,
            16 => Refusal::FlowLength,
            17 => Refusal::DemandTooLarge,
            18 => Refusal::BufferTooShort,
            19 => Refusal::NotSound,
            20 => Refusal::TooManyReadings,
            _ => Refusal::Unknown(number),
        }
    }

    // number, words
    fn parts(&self) -> (u32, &'static str) {
        match *self {
            Refusal::NoSuchLink => (10, "there is no such link"),
            Refusal::CapacityTooLarge => (11, "the capacity is above the limit"),
            Refusal::StackFull => (12, "no more changes can be kept for undoing"),
            Refusal::NothingToUndo => (13, "there is nothing to undo"),
            Refusal::NoSuchNode => (14, "there is no such node"),
            Refusal::SameNode => (15, "the two nodes are the same"),
            Refusal::FlowLength => (16, "the buffer has not one place for each link"),
            Refusal::DemandTooLarge => (17, "the demand is above the limit"),
            Refusal::BufferTooShort => (18, "the buffer is shorter than the file"),
            Refusal::NotSound => (19, "the plan is not sound"),
            Refusal::TooManyReadings => (20, "no more readings are counted without a reset"),
            Refusal::Unknown(number) => (number, "an unknown refusal"),
        }
    }

    /// Its number in the documents' table of checks.
    ///
    /// ```
    /// # use pamzolit::Refusal;
    /// assert_eq!(Refusal::NothingToUndo.number(), 13);
    /// ```
    pub fn number(&self) -> u32 {
        self.parts().0
    }
}

impl fmt::Display for Refusal {
    fn fmt(&self, f: &mut fmt::Formatter<'_>) -> fmt::Result {
        let (number, words) = self.parts();
        write!(f, "{words} (refusal {number})")
    }
}

impl Error for Refusal {}
