//! What each rank of a collective does, in order.

use gelvatos::Collective;

/// How a rank makes use of a value that it takes.
#[derive(Clone, Copy)]
pub enum Use {
    Instead,
    InFront,
    Behind,
    /// in front of the value and of the prefix
    Prefix,
    Keep,
}

#[derive(Clone, Copy)]
pub enum Action {
    To(u8, u8),
    From(u8, u8, Use),
}

use Action::{From, To};

const EVEN_TO_ODD: u8 = 6;
const ODD_TO_EVEN: u8 = 7;
const TO_ROOT: u8 = 8;
const GATHERED: u8 = 9;

/// The actions of all ranks in one row, and where each rank's end.
pub struct Programme {
    actions: Vec<Action>,
    ends: Vec<usize>,
}

impl Programme {
    pub fn new(collective: Collective, ranks: usize) -> Programme {
        let mut programme = Programme {
            actions: Vec::with_capacity(2 * messages(collective, ranks)),
            ends: Vec::with_capacity(ranks),
        };
        for rank in 0..ranks {
            let to_do = &mut programme.actions;
            match collective {
                Collective::Broadcast { root } => broadcast(to_do, ranks, root, rank),
                Collective::Gather { root } => gather(to_do, ranks, root, rank),
                Collective::Reduce { root } => reduce(to_do, ranks, root, rank),
                Collective::Scan => scan(to_do, ranks, rank, Use::InFront),
                Collective::Exscan => scan(to_do, ranks, rank, Use::Prefix),
                Collective::Allreduce => allreduce(to_do, ranks, rank),
            }
            programme.ends.push(programme.actions.len());
        }
        programme
    }

    /// The row's part that is the rank's.
    pub fn part(&self, rank: usize) -> std::ops::Range<usize> {
        let start = rank.checked_sub(1).map_or(0, |before| self.ends[before]);
        start..self.ends[rank]
    }

    pub fn action(&self, at: usize) -> Action {
        self.actions[at]
    }
}

/// Each k with 2^k below a number of ranks, with 2^k.
fn steps(ranks: usize) -> impl Iterator<Item = (u8, usize)> {
    (0u8..)
        .map(|k| (k, 1 << k))
        .take_while(move |&(_, power)| power < ranks)
}

fn broadcast(to_do: &mut Vec<Action>, ranks: usize, root: usize, rank: usize) {
    let place = (rank + ranks - root) % ranks;
    let rank_of = |place: usize| ((place + root) % ranks) as u8;
    if place > 0 {
        let high = place.ilog2();
        to_do.push(From(rank_of(place - (1 << high)), high as u8, Use::Instead));
    }
    for (k, power) in steps(ranks) {
        if power > place && place + power < ranks {
            to_do.push(To(rank_of(place + power), k));
        }
    }
}

fn gather(to_do: &mut Vec<Action>, ranks: usize, root: usize, rank: usize) {
    if rank == root {
        let others = (0..ranks).filter(|&other| other != root);
        to_do.extend(others.map(|other| From(other as u8, GATHERED, Use::Keep)));
    } else {
        to_do.push(To(root as u8, GATHERED));
    }
}

fn reduce(to_do: &mut Vec<Action>, ranks: usize, root: usize, rank: usize) {
    for (k, power) in steps(ranks) {
        if rank & power != 0 {
            to_do.push(To((rank - power) as u8, k));
            break;
        }
        if rank + power < ranks {
            to_do.push(From((rank + power) as u8, k, Use::Behind));
        }
    }
    if root != 0 && rank == 0 {
        to_do.push(To(root as u8, TO_ROOT));
    }
    if root != 0 && rank == root {
        to_do.push(From(0, TO_ROOT, Use::Instead));
    }
}

fn scan(to_do: &mut Vec<Action>, ranks: usize, rank: usize, usage: Use) {
    for (k, power) in steps(ranks) {
        if rank + power < ranks {
            to_do.push(To((rank + power) as u8, k));
        }
        if rank >= power {
            to_do.push(From((rank - power) as u8, k, usage));
        }
    }
}

fn allreduce(to_do: &mut Vec<Action>, ranks: usize, rank: usize) {
    let levels = ranks.ilog2();
    let spare = ranks - (1 << levels);
    let paired = rank < 2 * spare;
    if paired && rank.is_multiple_of(2) {
        to_do.push(To(rank as u8 + 1, EVEN_TO_ODD));
        to_do.push(From(rank as u8 + 1, ODD_TO_EVEN, Use::Instead));
        return;
    }
    if paired {
        to_do.push(From(rank as u8 - 1, EVEN_TO_ODD, Use::InFront));
    }
    let number = if paired { rank / 2 } else { rank - spare };
    for k in 0..levels {
        let other = number ^ 1 << k;
        let partner = if other < spare {
            2 * other + 1
        } else {
            other + spare
        };
        let usage = if other < number {
            Use::InFront
        } else {
            Use::Behind
        };
        to_do.push(To(partner as u8, k as u8));
        to_do.push(From(partner as u8, k as u8, usage));
    }
    if paired {
        to_do.push(To(rank as u8 - 1, ODD_TO_EVEN));
    }
}

/// How many messages a collective has, by formula.
pub fn messages(collective: Collective, ranks: usize) -> usize {
    let levels = ranks.next_power_of_two().ilog2() as usize;
    match collective {
        Collective::Broadcast { .. } | Collective::Gather { .. } => ranks - 1,
        Collective::Reduce { root: 0 } => ranks - 1,
        Collective::Reduce { .. } => ranks,
        Collective::Scan | Collective::Exscan => levels * ranks + 1 - (1 << levels),
        Collective::Allreduce => {
            let floor = ranks.ilog2() as usize;
            let spare = ranks - (1 << floor);
            (floor << floor) + 2 * spare
        }
    }
}
