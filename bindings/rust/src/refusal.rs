//! Why a call refuses, and its words.
use std::fmt;

/// Why a call refused: what is wrong and, with 3 to 7, where. The node or triangle is the lowest at fault, counted from 0; with 3 for a correction
/// to be set, the node given.
///
/// Its words end with the number in brackets, as those of C do:
/// "triangle 17 has a directed edge that a lower row already has (5)".
#[derive(Clone, Copy, Debug, PartialEq, Eq, Hash)]
#[non_exhaustive]
pub enum Refusal {
    /// 1: a table length is not a multiple of its row, a room or count is out of bounds, n0 is above n, or scratch is short; of the reader:
    /// something is lent in another size, or the state is none that a call left.
    Sizes,
    /// 2: the marks are not one byte for each triangle (refine, quarter, refine_red) or node (coarsen), or one is above 1.
    Marks,
    /// 3: a coordinate of this node is outside −1,048,576 .. 1,048,576, or its dx or dy, stored or to be set, outside −32,768 .. 32,767.
    OutOfRange { node: usize },
    /// 4: this triangle names a node that is not below n, or one node twice.
    Misnamed { triangle: usize },
    /// 5: this triangle has a directed edge that a lower row already has.
    Repeated { triangle: usize },
    /// 6: this triangle's twice-area is not above 0.
    NotPositive { triangle: usize },
    /// 7: this node is in no triangle.
    Unused { node: usize },
    /// 8: an edge to be split has an odd sum of x or of y.
    OddSum,
    /// 9: there is no room for the new nodes or triangles.
    NoRoom,
    /// 10: the labelling is not compatible (check only).
    NotCompatible,
    /// 11: two nodes stand at one place, or a node lies strictly inside an edge (check only).
    Crowded,
    /// 12: two triangles share an interior point (check only).
    Overlapping,
    /// 13: the node to be set is a base node, below n0 (set_correction only).
    BaseNode,
    /// 14: no triangle holds the point (correction_at only).
    Outside,
    /// 15: the node to be set is not below n (set_correction only).
    NoSuchNode,
    /// 17: the piece is over 512 bytes, or comes after the end was announced (reader only).
    Piece,
    /// A number that no call gives.
    Unknown { number: u32 },
}

impl Refusal {
    /// The refusal that an answer's number and culprit stand for, be it of a C call or of a line of the line program; none for 0, which is done.
    pub fn of(number: u32, culprit: usize) -> Option<Refusal> {
        Some(match number {
            0 => return None,
            1 => Refusal::Sizes,
            2 => Refusal::Marks,
            3 => Refusal::OutOfRange { node: culprit },
            4 => Refusal::Misnamed { triangle: culprit },
            5 => Refusal::Repeated { triangle: culprit },
            6 => Refusal::NotPositive { triangle: culprit },
            7 => Refusal::Unused { node: culprit },
            8 => Refusal::OddSum,
            9 => Refusal::NoRoom,
            10 => Refusal::NotCompatible,
            11 => Refusal::Crowded,
            12 => Refusal::Overlapping,
            13 => Refusal::BaseNode,
            14 => Refusal::Outside,
            15 => Refusal::NoSuchNode,
            17 => Refusal::Piece,
            _ => Refusal::Unknown { number },
        })
    }

    /// The number of document 01's table, or of a request.
    pub fn number(self) -> u32 {
        match self {
            Refusal::Sizes => 1,
            Refusal::Marks => 2,
            Refusal::OutOfRange { .. } => 3,
            Refusal::Misnamed { .. } => 4,
            Refusal::Repeated { .. } => 5,
            Refusal::NotPositive { .. } => 6,
            Refusal::Unused { .. } => 7,
            Refusal::OddSum => 8,
            Refusal::NoRoom => 9,
            Refusal::NotCompatible => 10,
            Refusal::Crowded => 11,
            Refusal::Overlapping => 12,
            Refusal::BaseNode => 13,
            Refusal::Outside => 14,
            Refusal::NoSuchNode => 15,
            Refusal::Piece => 17,
            Refusal::Unknown { number } => number,
        }
    }

    /// The node at fault, with 3 and 7.
    pub fn node(self) -> Option<usize> {
        match self {
            Refusal::OutOfRange { node } | Refusal::Unused { node } => Some(node),
            _ => None,
        }
    }

    /// The triangle at fault, with 4, 5 and 6.
    pub fn triangle(self) -> Option<usize> {
        match self {
            Refusal::Misnamed { triangle } | Refusal::Repeated { triangle } | Refusal::NotPositive { triangle } => Some(triangle),
            _ => None,
        }
    }
}

impl fmt::Display for Refusal {
    fn fmt(&self, f: &mut fmt::Formatter) -> fmt::Result {
        match self {
            Refusal::Sizes => f.write_str("a table length is not a multiple of its row, a room, buffer or count is out of bounds, or scratch is short")?,
            Refusal::Marks => f.write_str("the marks are not one byte for each triangle or node, or one is above 1")?,
            Refusal::OutOfRange { node } => {
                write!(f, "node {node} has a coordinate outside -1,048,576 to 1,048,576, or a correction, stored or to be set, outside -32,768 to 32,767")?
            }
            Refusal::Misnamed { triangle } => write!(f, "triangle {triangle} names a node that is not there, or one node twice")?,
            Refusal::Repeated { triangle } => write!(f, "triangle {triangle} has a directed edge that a lower row already has")?,
            Refusal::NotPositive { triangle } => write!(f, "triangle {triangle} has a twice-area that is not above 0")?,
            Refusal::Unused { node } => write!(f, "node {node} is in no triangle")?,
            Refusal::OddSum => f.write_str("an edge to be split has an odd sum of x or of y")?,
            Refusal::NoRoom => f.write_str("there is no room for the new nodes or triangles")?,
            Refusal::NotCompatible => f.write_str("the labelling is not compatible")?,
            Refusal::Crowded => f.write_str("two nodes stand at one place, or a node lies strictly inside an edge")?,
            Refusal::Overlapping => f.write_str("two triangles share an interior point")?,
            Refusal::BaseNode => f.write_str("the node to be set belongs to the base")?,
            Refusal::Outside => f.write_str("no triangle holds the point")?,
            Refusal::NoSuchNode => f.write_str("the node to be set is not there")?,
            Refusal::Piece => f.write_str("the piece is over 512 bytes, or comes after the end")?,
            Refusal::Unknown { .. } => f.write_str("no call gives this number")?,
        }
        write!(f, " ({})", self.number())
    }
}

impl std::error::Error for Refusal {}
