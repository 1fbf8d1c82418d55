//! Random jobs, the same for the same seed.

use gelvatos::{Collective, Job, Operation};

/// A generator of 64-bit numbers (SplitMix64).
pub struct Random(u64);

impl Random {
    pub fn new(seed: u64) -> Random {
        Random(seed)
    }

    pub fn draw(&mut self) -> u64 {
        self.0 = self.0.wrapping_add(0x9e37_79b9_7f4a_7c15);
        let x = (self.0 ^ self.0 >> 30).wrapping_mul(0xbf58_476d_1ce4_e5b9);
        let x = (x ^ x >> 27).wrapping_mul(0x94d0_49bb_1331_11eb);
        x ^ x >> 31
    }

    /// A number below another.
    pub fn below(&mut self, end: usize) -> usize {
        (self.draw() % end as u64) as usize
    }

    pub fn word(&mut self) -> u32 {
        self.draw() as u32
    }

    /// True once in so many times.
    pub fn once_in(&mut self, times: usize) -> bool {
        self.below(times) == 0
    }
}

/// A job with all that is lent for it but the memory itself.
#[derive(Clone, Debug)]
pub struct Trial {
    pub job: Job,
    pub members: Vec<usize>,
    pub inputs: Vec<u32>,
    pub records: usize,
    pub depth: usize,
    pub words: usize,
    pub out: usize,
}

/// A collective; the root is any rank of so many.
pub fn collective(random: &mut Random, size: usize) -> Collective {
    let root = random.below(size.max(1));
    match random.below(6) {
        0 => Collective::Broadcast { root },
        1 => Collective::Gather { root },
        2 => Collective::Reduce { root },
        3 => Collective::Scan,
        4 => Collective::Exscan,
        _ => Collective::Allreduce,
    }
}

fn modulus(random: &mut Random) -> u32 {
    match random.below(3) {
        0 => 10,
        1 => i32::MAX as u32,
        _ => 2 + random.word() % 1000,
    }
}

pub fn operation(random: &mut Random) -> Operation {
    match random.below(3) {
        0 => Operation::Affine {
            modulus: modulus(random),
        },
        1 => Operation::Text,
        _ => Operation::Least,
    }
}

/// A block of a proper element.
fn push_block(random: &mut Random, operation: Operation, words: &mut Vec<u32>) {
    match operation {
        Operation::Affine { modulus } => {
            let below = modulus.max(1);
            words.extend([random.word() % below, random.word() % below]);
        }
        Operation::Text if random.once_in(8) => words.extend([0; 4]),
        Operation::Text => {
            let edge = 4 + random.word() % 4;
            words.extend([random.word(), random.word(), random.word(), edge]);
        }
        Operation::Least if random.once_in(8) => words.extend([0; 3]),
        // Few values, so that some are equal.
        Operation::Least => words.extend([1, (random.word() % 4) << 30, random.word()]),
    }
}

/// Proper inputs of so many ranks.
pub fn inputs(random: &mut Random, operation: Operation, size: usize) -> Vec<u32> {
    let mut words = Vec::with_capacity(size * operation.width());
    for _ in 0..size {
        push_block(random, operation, &mut words);
    }
    words
}

/// Different ranks of a world, in any order.
fn members(random: &mut Random, ranks: usize) -> Vec<usize> {
    let mut all: Vec<usize> = (0..ranks).collect();
    if random.once_in(2) {
        return all;
    }
    for i in (1..ranks).rev() {
        all.swap(i, random.below(i + 1));
    }
    all.truncate(1 + random.below(ranks));
    all
}

impl Trial {
    /// A trial that no refusal applies to.
    fn sound(random: &mut Random) -> Trial {
        // Mostly few ranks, which take less time; now and then up to 64.
        let most = [4, 8, 16, 64][random.below(4)];
        let ranks = 1 + random.below(most);
        let members = members(random, ranks);
        let size = members.len();
        let operation = operation(random);
        let depth = 4 + random.below(6);
        Trial {
            job: Job {
                collective: collective(random, size),
                operation,
                ranks,
                sweeps: 1024,
            },
            inputs: inputs(random, operation, size),
            members,
            records: 1536,
            depth,
            words: 4 * ranks * ranks * depth,
            out: size * operation.width() + random.below(3),
        }
    }

    /// Spoils one thing, which may or may not lead to a refusal.
    fn damage(&mut self, random: &mut Random) {
        let size = self.members.len();
        match random.below(13) {
            0 => self.job.collective = collective(random, 2 * size + 1),
            1 => self.inputs.truncate(random.below(self.inputs.len() + 1)),
            2 => self.inputs.push(random.word() % 3),
            3 | 4 if !self.inputs.is_empty() => {
                let at = random.below(self.inputs.len());
                self.inputs[at] = random.word() >> random.below(32);
            }
            5 => self.records = random.below(8),
            6 => self.records = random.below(1024),
            7 => self.out = random.below(self.out + 1),
            8 => self.job.sweeps = random.below(24),
            9 => self.depth = random.below(70),
            10 => self.words = random.below(self.words + 1),
            11 => {
                let wrong = [0, 65, 100, usize::MAX][random.below(4)];
                self.job.ranks = wrong;
            }
            12 => match self.job.operation {
                Operation::Affine { .. } => {
                    let modulus = [0, 1, 1 << 31, u32::MAX][random.below(4)];
                    self.job.operation = Operation::Affine { modulus };
                }
                _ => {
                    let at = random.below(size + 1);
                    self.members.insert(at, random.below(2 * size));
                }
            },
            _ => {}
        }
    }

    /// A trial, of which about half are damaged once or more.
    pub fn new(random: &mut Random) -> Trial {
        let mut trial = Trial::sound(random);
        while random.once_in(2) {
            trial.damage(random);
        }
        trial
    }
}
