//! Why a call is refused.

use std::error::Error;
use std::fmt;

/// Why a call is refused: a case for each row of the table in `docs/CALLS.md`, in its order, which is that of checking.
/// A refused call has written no word of any slice lent to it.
///
/// ```
/// use taripomune::{Refusal, evaluate};
///
/// let mut column = [1, 2, 2147483647, 4];
/// let refusal = evaluate(2, &mut column, &mut [0; 4]).unwrap_err();
/// assert_eq!(refusal, Refusal::Word(2));
/// assert_eq!((refusal.number(), refusal.position()), (1, 2));
/// assert_eq!(refusal.to_string(), "number 1, position 2: a word is not below 2147483647");
/// ```
#[derive(Clone, Copy, Debug, PartialEq, Eq, Hash)]
#[non_exhaustive]
pub enum Refusal {
    /// A log size outside its range.
    LogSize,
    /// A point index that isn't below 2^31, or a coset position outside its coset.
    Index,
    /// A scalar or an offset outside its range.
    Scalar,
    /// A slice of the wrong length.
    Length,
    /// Chunk size 0.
    Chunk,
    /// A word that isn't below P; where it is in its slice.
    Word(u64),
    /// A coset whose initial or step point isn't its index's point.
    Contradiction,
    /// A number too large to reduce.
    Reduction,
    /// The inverse of zero, or a division by it; which element of its batch.
    Inverse(u64),
    /// An odd index to halve.
    Halving,
    /// More doublings or parts than the log size allows.
    Doublings,
    /// A point off the circle.
    Circle,
    /// An element that isn't in M31.
    Narrowing,
}

impl Refusal {
    /// Its number in that table.
    pub const fn number(self) -> u32 {
        match self {
            Refusal::LogSize => 6,
            Refusal::Index => 4,
            Refusal::Scalar => 11,
            Refusal::Length => 8,
            Refusal::Chunk => 9,
            Refusal::Word(_) => 1,
            Refusal::Contradiction => 14,
            Refusal::Reduction => 2,
            Refusal::Inverse(_) => 3,
            Refusal::Halving => 5,
            Refusal::Doublings => 7,
            Refusal::Circle => 10,
            Refusal::Narrowing => 12,
        }
    }

    /// The position of the word or element, else 0.
    pub const fn position(self) -> u64 {
        match self {
            Refusal::Word(position) | Refusal::Inverse(position) => position,
            _ => 0,
        }
    }

    /// What is wrong, in a plain sentence.
    pub const fn sentence(self) -> &'static str {
        match self {
            Refusal::LogSize => "a log size is outside its range",
            Refusal::Index => "a point index isn't below 2^31, or a position is outside its coset",
            Refusal::Scalar => "a scalar or an offset is outside its range",
            Refusal::Length => "a column, its destination or scratch has a length that doesn't fit",
            Refusal::Chunk => "a chunk has no elements",
            Refusal::Word(_) => "a word is not below 2147483647",
            Refusal::Contradiction => "the initial or step point of a coset isn't its index's point",
            Refusal::Reduction => "a number is too large to reduce",
            Refusal::Inverse(_) => "zero has no inverse",
            Refusal::Halving => "an odd index has no half",
            Refusal::Doublings => "there are more doublings or parts than the log size allows",
            Refusal::Circle => "the point isn't on the circle",
            Refusal::Narrowing => "the element isn't in M31: another of its parts isn't zero",
        }
    }

    /// The refusal of a reply's number and position.
    pub(crate) fn of(number: u32, position: u64) -> Refusal {
        match number {
            1 => Refusal::Word(position),
            2 => Refusal::Reduction,
            3 => Refusal::Inverse(position),
            4 => Refusal::Index,
            5 => Refusal::Halving,
            6 => Refusal::LogSize,
            7 => Refusal::Doublings,
            8 => Refusal::Length,
            9 => Refusal::Chunk,
            10 => Refusal::Circle,
            11 => Refusal::Scalar,
            12 => Refusal::Narrowing,
            14 => Refusal::Contradiction,
            _ => panic!("the library refused with number {number}, which this crate doesn't know"),
        }
    }
}

impl fmt::Display for Refusal {
    fn fmt(&self, f: &mut fmt::Formatter<'_>) -> fmt::Result {
        write!(f, "number {}, position {}: {}", self.number(), self.position(), self.sentence())
    }
}

impl Error for Refusal {}
