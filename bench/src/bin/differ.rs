//! Runs random jobs on the proved library and on the twin, and compares answers, counts and refusals.
//!
//!     differ [JOBS] [SEED]

use gelvatos::{Error, Record, Tally};
use std::collections::BTreeMap;
use std::process::ExitCode;
use twin::machine::Refused;
use twin::random::{Random, Trial};

/// What both must agree on: counts or refusal, and the lent words afterwards.
type Seen = (Result<Tally, Refused>, Vec<u32>);

/// What the lent words hold at first.
const MARK: u32 = 0xfeed_beef;

/// The memory that both are lent, one after the other, as the other left it.
struct Memory {
    records: Vec<Record>,
    words: Vec<u32>,
}

fn refusal(error: Error) -> Refused {
    match error {
        Error::Block { rank, word } => Refused::Block { rank, word },
        other => Refused::Number(other.number()),
    }
}

fn proved(trial: &Trial, on_log: bool, memory: &mut Memory) -> Seen {
    let mut out = vec![MARK; trial.out];
    let Trial {
        job,
        members,
        inputs,
        ..
    } = trial;
    let answer = if on_log {
        let records = &mut memory.records[..trial.records];
        gelvatos::over_log(job, members, inputs, records, &mut out)
    } else {
        let words = &mut memory.words[..trial.words];
        gelvatos::over_mailbox(job, members, inputs, trial.depth, words, &mut out)
    };
    (answer.map_err(refusal), out)
}

fn plain(trial: &Trial, on_log: bool, memory: &mut Memory) -> Seen {
    let mut out = vec![MARK; trial.out];
    let Trial {
        job,
        members,
        inputs,
        ..
    } = trial;
    let answer = if on_log {
        let records = &mut memory.records[..trial.records];
        twin::over_log(job, members, inputs, records, &mut out)
    } else {
        let words = &mut memory.words[..trial.words];
        twin::over_mailbox(job, members, inputs, trial.depth, words, &mut out)
    };
    (answer, out)
}

fn number(answer: &Result<Tally, Refused>) -> u32 {
    match answer {
        Ok(_) => 0,
        Err(Refused::Number(number)) => *number,
        Err(Refused::Block { .. }) => 23,
    }
}

fn argument(at: usize, default: u64) -> u64 {
    let given = std::env::args().nth(at);
    given.map_or(default, |text| text.parse().expect("a number"))
}

fn main() -> ExitCode {
    let jobs = argument(1, 100_000);
    let mut random = Random::new(argument(2, 1));
    let mut memory = Memory {
        records: vec![Record::default(); 1536],
        words: vec![MARK; 4 * 64 * 64 * 9],
    };
    let mut met = BTreeMap::new();
    for index in 0..jobs {
        let trial = Trial::new(&mut random);
        let on_log = index % 2 == 0;
        let one = proved(&trial, on_log, &mut memory);
        let other = plain(&trial, on_log, &mut memory);
        if one != other {
            println!(
                "job {index} on the log: {on_log}\n{trial:?}\nproved {one:?}\ntwin   {other:?}"
            );
            return ExitCode::FAILURE;
        }
        *met.entry(number(&one.0)).or_insert(0u64) += 1;
    }
    let answered = met.remove(&0).unwrap_or(0);
    let refused: Vec<_> = met
        .iter()
        .map(|(number, times)| format!("{number}: {times}"))
        .collect();
    println!(
        "{jobs} jobs agree: {answered} answered, refused {}",
        refused.join(", ")
    );
    ExitCode::SUCCESS
}
