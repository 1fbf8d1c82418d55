//! A second implementation of the collectives in plain Rust, written from the rules of `docs/` and on the same lent
//! memory as the proved library, to compare answers and costs with.

pub mod machine;
pub mod monoid;
pub mod programme;
pub mod random;
pub mod wire;

use gelvatos::{Job, Operation, Record, Tally};
use machine::{Machine, Refused};
use monoid::{Leasts, Maps, Monoid, Texts};
use wire::{Boxes, Cut, Members, Row, Wire};

const NAME: u16 = 1;

/// Runs a job alone over a wire, among some of its ranks.
fn run(
    job: &Job,
    members: &[usize],
    inputs: &[u32],
    bottom: impl Wire,
    out: &mut [u32],
) -> Result<Tally, Refused> {
    match job.operation {
        Operation::Affine { modulus } => {
            let maps = Maps::new(modulus).ok_or(Refused::Number(1))?;
            run_by(job, maps, members, inputs, bottom, out)
        }
        Operation::Text => run_by(job, Texts, members, inputs, bottom, out),
        Operation::Least => run_by(job, Leasts, members, inputs, bottom, out),
    }
}

fn run_by<const W: usize>(
    job: &Job,
    operation: impl Monoid<W>,
    members: &[usize],
    inputs: &[u32],
    bottom: impl Wire,
    out: &mut [u32],
) -> Result<Tally, Refused> {
    let wire = Members::new(Cut::new(bottom), members);
    Machine::new(NAME, operation, wire).run(job.collective, inputs, job.sweeps, out)
}

/// What `gelvatos::over_log` does.
pub fn over_log(
    job: &Job,
    members: &[usize],
    inputs: &[u32],
    records: &mut [Record],
    out: &mut [u32],
) -> Result<Tally, Refused> {
    run(job, members, inputs, Row::new(job.ranks, records), out)
}

/// What `gelvatos::over_mailbox` does.
pub fn over_mailbox(
    job: &Job,
    members: &[usize],
    inputs: &[u32],
    depth: usize,
    words: &mut [u32],
    out: &mut [u32],
) -> Result<Tally, Refused> {
    run(
        job,
        members,
        inputs,
        Boxes::new(job.ranks, depth, words),
        out,
    )
}
