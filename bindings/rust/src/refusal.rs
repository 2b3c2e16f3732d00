use core::error::Error;
use core::fmt;

use crate::calls::Reply;

/// Why a call was turned down. A refused call has changed no memory.
#[derive(Clone, Copy, Debug, PartialEq, Eq, Hash)]
#[non_exhaustive]
pub enum Refusal {
    /// 1: the path is not formed as a path has to be.
    PathNotFormed,
    /// 2: the path has over 200 bytes.
    PathTooLong,
    /// 3: the reference has not 20 bytes. (An [`Entry`](crate::Entry) always has 20.)
    ReferenceLength,
    /// 4: the memory is no store: under 16 bytes, its M, L or τ outside limits, shorter than needed, or more held than it can hold.
    NotAStore,
    /// 5: M, L or τ is outside its limits.
    SetupNumbers,
    /// 6: the memory is shorter than the store needs; see [`need`](crate::need).
    SetupMemory,
    /// 7: the pattern is not formed as a pattern has to be.
    PatternNotFormed,
    /// 8: the pattern has over 200 bytes or over 32 `/`.
    PatternTooLong,
    /// 9: the store holds as many entries as it can.
    Full,
    /// 10: the low end of the range is above its high end.
    LowAboveHigh,
    /// 11: the rows or records do not fit into the answer buffer.
    AnswerTooShort {
        /// How many there are: of 229 bytes each for a search, of 860 for a level read back.
        rows: u64,
    },
    /// A number that this crate does not know: the library is newer.
    Other(u32),
}

impl Refusal {
    /// The number, as C callers and the program `fieldlog` see it.
    pub fn number(&self) -> u32 {
        match self {
            Refusal::PathNotFormed => 1,
            Refusal::PathTooLong => 2,
            Refusal::ReferenceLength => 3,
            Refusal::NotAStore => 4,
            Refusal::SetupNumbers => 5,
            Refusal::SetupMemory => 6,
            Refusal::PatternNotFormed => 7,
            Refusal::PatternTooLong => 8,
            Refusal::Full => 9,
            Refusal::LowAboveHigh => 10,
            Refusal::AnswerTooShort { .. } => 11,
            Refusal::Other(number) => *number,
        }
    }

    /// For a reply whose number is no acceptance.
    pub(crate) fn of(reply: Reply) -> Refusal {
        match reply.number {
            1 => Refusal::PathNotFormed,
            2 => Refusal::PathTooLong,
            3 => Refusal::ReferenceLength,
            4 => Refusal::NotAStore,
            5 => Refusal::SetupNumbers,
            6 => Refusal::SetupMemory,
            7 => Refusal::PatternNotFormed,
            8 => Refusal::PatternTooLong,
            9 => Refusal::Full,
            10 => Refusal::LowAboveHigh,
            11 => Refusal::AnswerTooShort { rows: reply.first },
            number => Refusal::Other(number),
        }
    }
}

impl fmt::Display for Refusal {
    fn fmt(&self, f: &mut fmt::Formatter<'_>) -> fmt::Result {
        match self {
            Refusal::PathNotFormed => write!(f, "the path is not formed as labels of allowed bytes, each after a '/'"),
            Refusal::PathTooLong => write!(f, "the path has over 200 bytes"),
            Refusal::ReferenceLength => write!(f, "the reference has not 20 bytes"),
            Refusal::NotAStore => write!(f, "the memory is no store that was set up, or was lent in part"),
            Refusal::SetupNumbers => write!(f, "M is not from 1 to 4096, L not from 1 to 8, or τ not from 1 to 100"),
            Refusal::SetupMemory => write!(f, "the memory is shorter than a store for this M and L needs"),
            Refusal::PatternNotFormed => write!(f, "the pattern is not formed as labels of allowed bytes and '*', each after a '/'"),
            Refusal::PatternTooLong => write!(f, "the pattern has over 200 bytes or over 32 labels"),
            Refusal::Full => write!(f, "the store holds as many entries as it can"),
            Refusal::LowAboveHigh => write!(f, "the low end of the range is above its high end"),
            Refusal::AnswerTooShort { rows } => write!(f, "the answer buffer is too short for {rows} rows"),
            Refusal::Other(number) => write!(f, "the library refused with the number {number}"),
        }
    }
}

impl Error for Refusal {}
