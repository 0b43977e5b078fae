//! The table's numbers.
use std::fmt;

/// A call was refused with this number of the table. The mesh is as it was.
#[derive(Clone, Copy, Debug, PartialEq, Eq)]
pub struct Refusal(pub u32);

impl Refusal {
    /// The table's row in words. The first four are those of blocks, which only the text of
    /// [`report`](crate::report) has.
    pub fn reason(self) -> &'static str {
        match self.0 {
            1 => "the file ends before its last block is whole, or bytes follow that block",
            2 => "a block's words do not add to 0",
            3 => "a block's kind, number or count is not the expected one",
            30 => "a spare word of a block is not zero",
            10 => "too many vertices, elements or surface triples, or a slice too short",
            11 => "a bound, cells, passes, field or periodic bit out of range, or an unknown kind",
            12 => "a coordinate out of range, or a parameter outside the box",
            13 => "a vertex number out of range or twice in an element",
            14 => "two elements with the same four vertices",
            15 => "a determinant not above 0",
            16 => "a face three times or more",
            17 => "a shared face with equal parities",
            22 => "a nonmanifold boundary vertex",
            23 => "sorted surface triples differ from those given",
            _ => "a number that the table does not have",
        }
    }
}

impl fmt::Display for Refusal {
    fn fmt(&self, f: &mut fmt::Formatter) -> fmt::Result {
        write!(f, "refused {}: {}", self.0, self.reason())
    }
}

impl std::error::Error for Refusal {}
