//! Ranks with memory for their messages.

use crate::{Collective, Error, Job, Operation, Record, Tally, over_log, over_mailbox};

/// The most messages of a job, twice: a message takes two records.
const RECORDS: usize = 768;

/// Slots of a box: room for one message, and a job has no more between two ranks.
const DEPTH: usize = 4;

/// More than any job needs.
const SWEEPS: usize = 1024;

enum Memory {
    Log(Vec<Record>),
    Mailbox(Vec<u32>),
}

/// A communicator: ranks from 0 up, and the memory that their messages pass through.
///
/// ```
/// use gelvatos::{Error, Operation, World};
///
/// let mut world = World::over_mailbox(4);
/// let maps = [1, 1, 1, 2, 1, 3, 1, 4];
/// let sum = world.reduce(Operation::Affine { modulus: 100 }, &maps, 3)?;
/// assert_eq!(sum.block(0), [1, 10]);
/// assert_eq!(world.reduce(Operation::Text, &[0; 16], 4), Err(Error::Root));
/// # Ok::<(), Error>(())
/// ```
pub struct World {
    ranks: usize,
    members: Vec<usize>,
    memory: Memory,
}

/// What a collective gave: its blocks in rank order (a reduce has one, the root's), rounds and messages.
#[derive(Clone, Debug, PartialEq, Eq)]
pub struct Answer {
    words: Vec<u32>,
    width: usize,
    pub rounds: u32,
    pub messages: usize,
}

impl Answer {
    /// The block at an index.
    ///
    /// # Panics
    /// If the answer has no such block.
    pub fn block(&self, index: usize) -> &[u32] {
        &self.words[index * self.width..][..self.width]
    }

    /// All blocks, in order.
    pub fn blocks(&self) -> impl ExactSizeIterator<Item = &[u32]> {
        self.words.chunks_exact(self.width)
    }
}

impl World {
    /// So many ranks over a log. Of more than 64, or of none, every collective is refused.
    pub fn over_log(ranks: usize) -> World {
        World::new(ranks, Memory::Log(vec![Record::default(); RECORDS]))
    }

    /// So many ranks over a mailbox for each ordered pair.
    pub fn over_mailbox(ranks: usize) -> World {
        let pairs = if ranks <= 64 { ranks * ranks } else { 0 };
        World::new(ranks, Memory::Mailbox(vec![0; 4 * DEPTH * pairs]))
    }

    fn new(ranks: usize, memory: Memory) -> World {
        World {
            ranks,
            members: (0..ranks.min(65)).collect(),
            memory,
        }
    }

    /// The same world with other members: rank i is the i-th listed. Of a list that is empty, repeats a rank or names
    /// none, every collective is refused.
    ///
    /// ```
    /// use gelvatos::{Operation, World};
    ///
    /// let mut pair = World::over_log(8).with_members(&[6, 2]);
    /// assert_eq!(pair.size(), 2);
    /// let all = pair.gather(Operation::Least, &[1, 5, 0, 0, 0, 0], 0)?;
    /// assert_eq!(all.block(0), [1, 5, 0]);
    /// # Ok::<(), gelvatos::Error>(())
    /// ```
    pub fn with_members(mut self, members: &[usize]) -> World {
        self.members = members.to_vec();
        self
    }

    /// How many ranks take part.
    pub fn size(&self) -> usize {
        self.members.len()
    }

    /// Every rank gets the root's input.
    pub fn broadcast(
        &mut self,
        operation: Operation,
        inputs: &[u32],
        root: usize,
    ) -> Result<Answer, Error> {
        self.run(Collective::Broadcast { root }, operation, inputs)
    }

    /// The root gets all inputs.
    pub fn gather(
        &mut self,
        operation: Operation,
        inputs: &[u32],
        root: usize,
    ) -> Result<Answer, Error> {
        self.run(Collective::Gather { root }, operation, inputs)
    }

    /// The root gets the join of all inputs.
    pub fn reduce(
        &mut self,
        operation: Operation,
        inputs: &[u32],
        root: usize,
    ) -> Result<Answer, Error> {
        self.run(Collective::Reduce { root }, operation, inputs)
    }

    /// Each rank gets the join of the inputs up to its own.
    pub fn scan(&mut self, operation: Operation, inputs: &[u32]) -> Result<Answer, Error> {
        self.run(Collective::Scan, operation, inputs)
    }

    /// Each rank gets the join of the inputs before its own.
    pub fn exscan(&mut self, operation: Operation, inputs: &[u32]) -> Result<Answer, Error> {
        self.run(Collective::Exscan, operation, inputs)
    }

    /// Every rank gets the join of all inputs.
    pub fn allreduce(&mut self, operation: Operation, inputs: &[u32]) -> Result<Answer, Error> {
        self.run(Collective::Allreduce, operation, inputs)
    }

    /// Runs one collective with a block of the words for each rank.
    pub fn run(
        &mut self,
        collective: Collective,
        operation: Operation,
        inputs: &[u32],
    ) -> Result<Answer, Error> {
        let width = operation.width();
        let mut words = vec![0; width * collective.blocks(self.members.len())];
        let job = Job {
            collective,
            operation,
            ranks: self.ranks,
            sweeps: SWEEPS,
        };
        let members = &self.members;
        let Tally { rounds, messages } = match &mut self.memory {
            Memory::Log(records) => over_log(&job, members, inputs, records, &mut words)?,
            Memory::Mailbox(boxes) => {
                over_mailbox(&job, members, inputs, DEPTH, boxes, &mut words)?
            }
        };
        Ok(Answer {
            words,
            width,
            rounds,
            messages,
        })
    }
}
