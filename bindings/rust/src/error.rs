//! Why a job is refused.

use crate::ffi::Report;
use std::fmt;

/// A refusal of the library, with its values. `docs/REFUSALS.md` says when each is given.
#[derive(Clone, Copy, Debug, PartialEq, Eq)]
pub enum Error {
    /// 1: a modulus below 2 or above 2,147,483,647
    Modulus,
    /// 20: no ranks, or memory for no message: wrong members, too many ranks, too few records or words, a wrong depth
    Unfit,
    /// 21: the root is no rank
    Root,
    /// 22: not one block for each rank
    Length,
    /// 23: the first rank whose block is no element, and the place of its wrong word
    Block { rank: usize, word: usize },
    /// 25: the memory for messages does not hold those of the job
    Crowded,
    /// 33: the answer has more words than `out`
    Output,
    /// 42: not finished within the sweeps allowed
    Sweeps,
    /// any other number; a job that runs alone gets none
    Other(u32),
}

impl Error {
    pub(crate) fn new(status: u32, report: &Report) -> Error {
        match status {
            1 => Error::Modulus,
            20 => Error::Unfit,
            21 => Error::Root,
            22 => Error::Length,
            23 => Error::Block {
                rank: report.rank,
                word: report.word,
            },
            25 => Error::Crowded,
            33 => Error::Output,
            42 => Error::Sweeps,
            other => Error::Other(other),
        }
    }

    /// The refusal's number.
    pub fn number(self) -> u32 {
        match self {
            Error::Modulus => 1,
            Error::Unfit => 20,
            Error::Root => 21,
            Error::Length => 22,
            Error::Block { .. } => 23,
            Error::Crowded => 25,
            Error::Output => 33,
            Error::Sweeps => 42,
            Error::Other(number) => number,
        }
    }
}

impl fmt::Display for Error {
    fn fmt(&self, f: &mut fmt::Formatter<'_>) -> fmt::Result {
        match self {
            Error::Modulus => write!(f, "the modulus is out of range"),
            Error::Unfit => write!(f, "no ranks, or no memory for a message"),
            Error::Root => write!(f, "the root is no rank"),
            Error::Length => write!(f, "not one block of words for each rank"),
            Error::Block { rank, word } => {
                write!(f, "word {word} of the block of rank {rank} is wrong")
            }
            Error::Crowded => write!(f, "too little memory for the job's messages"),
            Error::Output => write!(f, "too few words for the answer"),
            Error::Sweeps => write!(f, "not finished within the sweeps allowed"),
            Error::Other(number) => write!(f, "refused with {number}"),
        }
    }
}

impl std::error::Error for Error {}
