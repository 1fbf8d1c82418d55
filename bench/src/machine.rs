//! A machine that runs collective jobs over a wire, and one job run by sweeps.

use crate::monoid::Monoid;
use crate::programme::{Action, Programme, Use, messages};
use crate::wire::Wire;
use gelvatos::{Collective, Tally};

/// Why a call is refused: the number, and where a block is refused its rank and its wrong word.
#[derive(Clone, Copy, Debug, PartialEq, Eq)]
pub enum Refused {
    Number(u32),
    Block { rank: usize, word: usize },
}

use Refused::Number;

const UNFIT: Refused = Number(20);
const BAD_ROOT: Refused = Number(21);
const BAD_LENGTH: Refused = Number(22);
const FOUR_PENDING: Refused = Number(24);
const CROWDED: Refused = Number(25);
const NUMBERS_SPENT: Refused = Number(26);
const NO_JOB: Refused = Number(30);
const BAD_RANK: Refused = Number(31);
const UNFINISHED: Refused = Number(32);
const TOO_FEW_WORDS: Refused = Number(33);
const OUT_OF_SWEEPS: Refused = Number(42);

/// What shows that a job is the caller's.
#[derive(Clone, Copy)]
pub struct Token {
    name: u16,
    number: u32,
}

/// What a turn came to.
#[derive(Clone, Copy, PartialEq, Eq)]
pub enum Turn {
    Sent,
    Took,
    Waiting,
    Through,
}

/// What a rank has come to; `next` and `end` are places in the programme's row.
struct Rank<const W: usize> {
    next: usize,
    end: usize,
    value: [u32; W],
    prefix: [u32; W],
    arrival: u32,
    departure: u32,
}

struct Job<const W: usize> {
    number: u32,
    collective: Collective,
    programme: Programme,
    ranks: Vec<Rank<W>>,
    kept: Vec<[u32; W]>,
    sent: usize,
    through: usize,
}

impl<const W: usize> Job<W> {
    fn new(number: u32, collective: Collective, inputs: &[[u32; W]], unit: [u32; W]) -> Job<W> {
        let programme = Programme::new(collective, inputs.len());
        let ranks: Vec<_> = inputs
            .iter()
            .enumerate()
            .map(|(rank, &value)| {
                let part = programme.part(rank);
                Rank {
                    next: part.start,
                    end: part.end,
                    value,
                    prefix: unit,
                    arrival: 0,
                    departure: 0,
                }
            })
            .collect();
        let through = ranks.iter().filter(|r| r.next == r.end).count();
        Job {
            number,
            collective,
            programme,
            ranks,
            kept: Vec::new(),
            sent: 0,
            through,
        }
    }

    /// The blocks of the answer, in rank order.
    fn answer(&self, out: &mut [u32]) -> Result<(), Refused> {
        let width = if let Collective::Reduce { .. } = self.collective {
            W
        } else {
            W * self.ranks.len()
        };
        let out = out.get_mut(..width).ok_or(TOO_FEW_WORDS)?;
        let (blocks, _) = out.as_chunks_mut::<W>();
        match self.collective {
            Collective::Reduce { root } => blocks[0] = self.ranks[root].value,
            Collective::Gather { root } => {
                let (low, high) = self.kept.split_at(root);
                blocks[..root].copy_from_slice(low);
                blocks[root] = self.ranks[root].value;
                blocks[root + 1..].copy_from_slice(high);
            }
            Collective::Exscan => write(blocks, self.ranks.iter().map(|r| r.prefix)),
            _ => write(blocks, self.ranks.iter().map(|r| r.value)),
        }
        Ok(())
    }
}

fn write<const W: usize>(blocks: &mut [[u32; W]], values: impl Iterator<Item = [u32; W]>) {
    for (block, value) in blocks.iter_mut().zip(values) {
        *block = value;
    }
}

/// Up to four pending jobs over one wire.
pub struct Machine<O, T, const W: usize> {
    name: u16,
    operation: O,
    wire: T,
    clean: bool,
    started: u32,
    jobs: Vec<Job<W>>,
}

impl<O: Monoid<W>, T: Wire, const W: usize> Machine<O, T, W> {
    pub fn new(name: u16, operation: O, wire: T) -> Machine<O, T, W> {
        Machine {
            name,
            clean: wire.waiting() == 0,
            operation,
            wire,
            started: 0,
            jobs: Vec::new(),
        }
    }

    /// The inputs of all ranks, or the first block that is refused.
    fn read(&self, words: &[u32]) -> Result<Vec<[u32; W]>, Refused> {
        let (blocks, _) = words.as_chunks::<W>();
        for (rank, block) in blocks.iter().enumerate() {
            if let Some(word) = self.operation.wrong_word(block) {
                return Err(Refused::Block { rank, word });
            }
        }
        Ok(blocks.to_vec())
    }

    pub fn start(&mut self, collective: Collective, words: &[u32]) -> Result<Token, Refused> {
        let ranks = self.wire.ranks();
        if ranks == 0 || W > 6 || W + 1 > T::LIMIT || !self.clean {
            return Err(UNFIT);
        }
        if collective.root().is_some_and(|root| root >= ranks) {
            return Err(BAD_ROOT);
        }
        if words.len() != ranks * W {
            return Err(BAD_LENGTH);
        }
        let inputs = self.read(words)?;
        if self.jobs.len() == 4 {
            return Err(FOUR_PENDING);
        }
        let pending: usize = self
            .jobs
            .iter()
            .map(|job| messages(job.collective, ranks))
            .sum();
        let crowded = self.jobs.len() + 1 > self.wire.depth();
        if crowded || pending + messages(collective, ranks) > self.wire.room() {
            return Err(CROWDED);
        }
        if self.started == 65535 {
            return Err(NUMBERS_SPENT);
        }
        self.started += 1;
        let number = self.started;
        self.jobs
            .push(Job::new(number, collective, &inputs, self.operation.unit()));
        Ok(Token {
            name: self.name,
            number,
        })
    }

    fn place(&self, token: Token) -> Result<usize, Refused> {
        let mut jobs = self.jobs.iter();
        let found = jobs.position(|job| job.number == token.number);
        found.filter(|_| token.name == self.name).ok_or(NO_JOB)
    }

    pub fn turn(&mut self, token: Token, rank: usize) -> Result<Turn, Refused> {
        let place = self.place(token)?;
        let job = &mut self.jobs[place];
        let state = job.ranks.get_mut(rank).ok_or(BAD_RANK)?;
        if state.next == state.end {
            return Ok(Turn::Through);
        }
        let answer = match job.programme.action(state.next) {
            Action::To(to, label) => {
                let stamp = state.departure.max(state.arrival) + 1;
                let mut message = [0; 7];
                message[0] = stamp;
                message[1..=W].copy_from_slice(&state.value);
                let tag = 16 * token.number + u32::from(label);
                let sent = self.wire.send(rank, to.into(), tag, &message[..=W]);
                sent.expect("a started job has room for its messages");
                state.departure = stamp;
                job.sent += 1;
                Turn::Sent
            }
            Action::From(from, label, usage) => {
                let tag = 16 * token.number + u32::from(label);
                let mut message = [0; 7];
                let taken = self.wire.take(from.into(), rank, tag, &mut message);
                if taken.expect("both are ranks").is_none() {
                    return Ok(Turn::Waiting);
                }
                let value: &[u32; W] = message[1..=W].try_into().expect("W words");
                state.arrival = (state.arrival + 1).max(message[0]);
                match usage {
                    Use::Instead => state.value = *value,
                    Use::InFront => state.value = self.operation.join(value, &state.value),
                    Use::Behind => state.value = self.operation.join(&state.value, value),
                    Use::Prefix => {
                        state.value = self.operation.join(value, &state.value);
                        state.prefix = self.operation.join(value, &state.prefix);
                    }
                    Use::Keep => job.kept.push(*value),
                }
                Turn::Took
            }
        };
        state.next += 1;
        if state.next == state.end {
            job.through += 1;
        }
        Ok(answer)
    }

    pub fn carry(&mut self, from: usize, to: usize) -> Result<bool, Refused> {
        self.wire.carry(from, to).map_err(Number)
    }

    /// How many ranks have no action left.
    pub fn look(&self, token: Token) -> Result<usize, Refused> {
        Ok(self.jobs[self.place(token)?].through)
    }

    pub fn end(&mut self, token: Token, out: &mut [u32]) -> Result<Tally, Refused> {
        let place = self.place(token)?;
        let job = &self.jobs[place];
        if job.through < self.wire.ranks() {
            return Err(UNFINISHED);
        }
        job.answer(out)?;
        let job = self.jobs.remove(place);
        let arrivals = job.ranks.iter().map(|r| r.arrival);
        Ok(Tally {
            rounds: arrivals.max().unwrap_or(0),
            messages: job.sent,
        })
    }

    /// One job from its start to its end: a turn of each rank and a carry for each pair, as often as allowed.
    pub fn run(
        &mut self,
        collective: Collective,
        words: &[u32],
        sweeps: usize,
        out: &mut [u32],
    ) -> Result<Tally, Refused> {
        let token = self.start(collective, words)?;
        let ranks = self.wire.ranks();
        for _ in 0..sweeps {
            if self.look(token)? == ranks {
                break;
            }
            for rank in 0..ranks {
                self.turn(token, rank)?;
            }
            for from in 0..ranks {
                for to in (0..ranks).filter(|&to| to != from) {
                    self.carry(from, to)?;
                }
            }
        }
        self.end(token, out).map_err(|refused| match refused {
            UNFINISHED => OUT_OF_SWEEPS,
            other => other,
        })
    }
}
