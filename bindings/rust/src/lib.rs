//! Collective operations over a monoid, on up to 64 simulated ranks.
//!
//! This is a safe interface to a library that is written and proved in Rattle: what a call writes and answers, and when
//! it is refused, is the contract of the exported function that it makes. Nothing is allocated below this crate; the
//! memory for messages is lent by a [`World`], or by the caller of [`over_log`] and [`over_mailbox`].
//!
//! An element of an operation is a block of 32-bit words, and a collective takes one block of each rank, in rank order.
//!
//! ```
//! use gelvatos::{Operation, World};
//!
//! // The maps y → 2y + 1, y → 3y + 4 and y → 5y + 6 modulo 10, which do not commute.
//! let mut world = World::over_log(3);
//! let answer = world.scan(Operation::Affine { modulus: 10 }, &[2, 1, 3, 4, 5, 6])?;
//! assert_eq!(answer.block(2), [0, 1]);
//! assert_eq!((answer.rounds, answer.messages), (2, 3));
//! # Ok::<(), gelvatos::Error>(())
//! ```

mod error;
mod ffi;
mod world;

pub use error::Error;
pub use world::{Answer, World};

/// A collective, with its root where it has one.
#[derive(Clone, Copy, Debug, PartialEq, Eq)]
pub enum Collective {
    /// every rank gets the root's input
    Broadcast { root: usize },
    /// the root gets all inputs, in rank order
    Gather { root: usize },
    /// the root gets the join of all inputs
    Reduce { root: usize },
    /// each rank gets the join of the inputs up to its own
    Scan,
    /// each rank gets the join of the inputs before its own, and rank 0 the unit
    Exscan,
    /// every rank gets the join of all inputs
    Allreduce,
}

impl Collective {
    /// The root, if the collective has one.
    pub fn root(self) -> Option<usize> {
        match self {
            Collective::Broadcast { root }
            | Collective::Gather { root }
            | Collective::Reduce { root } => Some(root),
            Collective::Scan | Collective::Exscan | Collective::Allreduce => None,
        }
    }

    /// How many blocks the answer has among so many ranks.
    pub fn blocks(self, ranks: usize) -> usize {
        match self {
            Collective::Reduce { .. } => 1,
            _ => ranks,
        }
    }

    fn code(self) -> u32 {
        match self {
            Collective::Broadcast { .. } => 0,
            Collective::Gather { .. } => 1,
            Collective::Reduce { .. } => 2,
            Collective::Scan => 3,
            Collective::Exscan => 4,
            Collective::Allreduce => 5,
        }
    }
}

/// How two elements are joined. The join is associative and need not commute; the left one comes first.
#[derive(Clone, Copy, Debug, PartialEq, Eq)]
pub enum Operation {
    /// The map y → a×y + b modulo `modulus`, as the block `[a, b]`. The left map is done first.
    Affine { modulus: u32 },
    /// What `wc` counts, as the block `[bytes, lines, words, edge]`; see [`measure`].
    Text,
    /// The least signed value and its place, as `[1, value + 2^31, place]`, or none, as `[0, 0, 0]`.
    Least,
}

impl Operation {
    /// How many words a block has.
    pub fn width(self) -> usize {
        match self {
            Operation::Affine { .. } => 2,
            Operation::Text => 4,
            Operation::Least => 3,
        }
    }

    fn code(self) -> u32 {
        match self {
            Operation::Affine { .. } => 0,
            Operation::Text => 1,
            Operation::Least => 2,
        }
    }

    fn modulus(self) -> u32 {
        match self {
            Operation::Affine { modulus } => modulus,
            Operation::Text | Operation::Least => 0,
        }
    }
}

/// The rounds and the messages of a job.
#[derive(Clone, Copy, Debug, Default, PartialEq, Eq)]
pub struct Tally {
    pub rounds: u32,
    pub messages: usize,
}

/// A place for a message in the memory of a log.
#[repr(C)]
#[derive(Clone, Copy, Debug, Default, PartialEq, Eq)]
pub struct Record {
    pub from: usize,
    pub to: usize,
    pub tag: u32,
    pub length: usize,
    pub words: [u32; 4],
    pub arrived: bool,
}

/// A job: which collective by which operation, among how many ranks, and how many sweeps it may take. A sweep is a turn
/// of each rank and a carry for each ordered pair of ranks.
#[derive(Clone, Copy, Debug, PartialEq, Eq)]
pub struct Job {
    pub collective: Collective,
    pub operation: Operation,
    pub ranks: usize,
    pub sweeps: usize,
}

impl Job {
    fn lowered(&self) -> ffi::Job {
        ffi::Job {
            collective: self.collective.code(),
            root: self.collective.root().unwrap_or(0),
            operation: self.operation.code(),
            modulus: self.operation.modulus(),
            ranks: self.ranks,
            sweeps: self.sweeps,
        }
    }
}

/// The status of a call, with what was reported.
fn told(status: u32, report: &ffi::Report) -> Result<Tally, Error> {
    match status {
        0 => Ok(Tally {
            rounds: report.rounds,
            messages: report.messages,
        }),
        refused => Err(Error::new(refused, report)),
    }
}

/// Runs a job over records lent for messages, among those of the job's ranks that are listed: rank i is the i-th listed.
/// The answer blocks go to the front of `out`; a refused job leaves `out` as it was.
///
/// ```
/// use gelvatos::{Collective, Job, Operation, Record, over_log};
///
/// let job = Job {
///     collective: Collective::Reduce { root: 1 },
///     operation: Operation::Least,
///     ranks: 2,
///     sweeps: 64,
/// };
/// let mut records = [Record::default(); 16];
/// let mut out = [0; 3];
/// over_log(&job, &[0, 1], &[1, 9, 0, 1, 7, 1], &mut records, &mut out)?;
/// assert_eq!(out, [1, 7, 1]);
/// # Ok::<(), gelvatos::Error>(())
/// ```
pub fn over_log(
    job: &Job,
    members: &[usize],
    inputs: &[u32],
    records: &mut [Record],
    out: &mut [u32],
) -> Result<Tally, Error> {
    let mut report = ffi::Report::default();
    // SAFETY: each pointer is that of a slice of the length beside it, and no two slices that are written overlap.
    let status = unsafe {
        ffi::gelvatos_over_log(
            &job.lowered(),
            members.as_ptr(),
            members.len(),
            inputs.as_ptr(),
            inputs.len(),
            records.as_mut_ptr(),
            records.len(),
            out.as_mut_ptr(),
            out.len(),
            &mut report,
        )
    };
    told(status, &report)
}

/// As [`over_log`], over words lent for boxes of `depth` slots, one box for each ordered pair: 4 × ranks² × depth words.
/// A message takes four slots, so that a depth below 4 is refused.
pub fn over_mailbox(
    job: &Job,
    members: &[usize],
    inputs: &[u32],
    depth: usize,
    words: &mut [u32],
    out: &mut [u32],
) -> Result<Tally, Error> {
    let mut report = ffi::Report::default();
    // SAFETY: as in `over_log`.
    let status = unsafe {
        ffi::gelvatos_over_mailbox(
            &job.lowered(),
            members.as_ptr(),
            members.len(),
            inputs.as_ptr(),
            inputs.len(),
            depth,
            words.as_mut_ptr(),
            words.len(),
            out.as_mut_ptr(),
            out.len(),
            &mut report,
        )
    };
    told(status, &report)
}

/// The block of a text: bytes, lines, words and edge.
///
/// ```
/// // Two parts of a text, and the whole: the word that goes on counts once.
/// use gelvatos::{Operation, World, measure};
///
/// let parts = [measure(b"ab c"), measure(b"d\ne")].concat();
/// let whole = World::over_log(2).allreduce(Operation::Text, &parts)?;
/// assert_eq!(whole.block(0), measure(b"ab cd\ne"));
/// # Ok::<(), gelvatos::Error>(())
/// ```
pub fn measure(text: &[u8]) -> [u32; 4] {
    let mut block = [0; 4];
    // SAFETY: both pointers are those of slices of the length beside them.
    let status = unsafe {
        ffi::gelvatos_measure(text.as_ptr(), text.len(), block.as_mut_ptr(), block.len())
    };
    debug_assert_eq!(status, 0, "four words hold a block");
    block
}

#[cfg(test)]
mod tests {
    use super::{Job, Record, ffi};

    /// The status of a job by numbers, and its report, over a log of two ranks.
    fn status(job: &ffi::Job, inputs: &[u32], out: &mut [u32]) -> (u32, ffi::Report) {
        let mut records = [Record::default(); 8];
        let members = [0, 1];
        let mut report = ffi::Report {
            rounds: 9,
            messages: 9,
            rank: 9,
            fault: 9,
            word: 9,
        };
        // SAFETY: each pointer is that of a slice of the length beside it.
        let status = unsafe {
            ffi::gelvatos_over_log(
                job,
                members.as_ptr(),
                members.len(),
                inputs.as_ptr(),
                inputs.len(),
                records.as_mut_ptr(),
                records.len(),
                out.as_mut_ptr(),
                out.len(),
                &mut report,
            )
        };
        (status, report)
    }

    fn sound() -> ffi::Job {
        Job {
            collective: super::Collective::Scan,
            operation: super::Operation::Least,
            ranks: 2,
            sweeps: 64,
        }
        .lowered()
    }

    #[test]
    fn numbers_that_name_nothing() {
        let mut out = [7; 6];
        let job = ffi::Job {
            collective: 6,
            operation: 3,
            ..sound()
        };
        assert_eq!(status(&job, &[], &mut out).0, 60);
        let job = ffi::Job {
            operation: 3,
            ..sound()
        };
        let (number, report) = status(&job, &[], &mut out);
        assert_eq!((number, report.rounds, report.messages), (61, 0, 0));
        assert_eq!(out, [7; 6]);
    }

    #[test]
    fn a_refused_block_is_told_whole() {
        let mut out = [7; 6];
        let (number, report) = status(&sound(), &[1, 2, 3, 0, 0, 5], &mut out);
        assert_eq!(number, 23);
        assert_eq!((report.rank, report.fault, report.word), (1, 3, 2));
        assert_eq!(out, [7; 6]);
    }

    #[test]
    fn a_block_needs_four_words() {
        let mut block = [7; 3];
        // SAFETY: both pointers are those of slices of the length beside them.
        let status = unsafe { ffi::gelvatos_measure(b"a".as_ptr(), 1, block.as_mut_ptr(), 3) };
        assert_eq!((status, block), (33, [7; 3]));
    }
}
