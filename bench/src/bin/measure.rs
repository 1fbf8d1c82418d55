//! Measures the cost of each collective, for the proved library and for the twin, on the same lent memory, and prints a
//! table: instructions for a message, counted by valgrind's callgrind over the jobs alone, and nanoseconds.
//!
//!     measure          the table
//!     measure SIDE     runs the jobs of all rows once more, to be counted; SIDE is `proved` or `twin`

use gelvatos::{Collective, Job, Operation, Record};
use std::fs;
use std::hint::black_box;
use std::process::Command;
use std::time::{Duration, Instant};
use twin::random::{Random, inputs};

const OPERATION: Operation = Operation::Affine { modulus: 1_000_003 };

const SIZES: [usize; 3] = [4, 16, 64];

const DEPTH: usize = 4;

#[derive(Clone, Copy, PartialEq, Eq)]
enum Side {
    Proved,
    Twin,
}

const SIDES: [Side; 2] = [Side::Proved, Side::Twin];

impl Side {
    fn name(self) -> &'static str {
        match self {
            Side::Proved => "proved",
            Side::Twin => "twin",
        }
    }
}

#[derive(Clone, Copy, PartialEq, Eq)]
enum Bottom {
    Log,
    Mailbox,
}

/// One line of the table.
#[derive(Clone, Copy)]
struct Row {
    bottom: Bottom,
    name: &'static str,
    collective: Collective,
    size: usize,
}

fn rows() -> Vec<Row> {
    let mut rows = Vec::new();
    for bottom in [Bottom::Log, Bottom::Mailbox] {
        for which in 0..6 {
            for size in SIZES {
                // A root in the middle, as any rank can be one.
                let root = size / 2;
                let (name, collective) = [
                    ("broadcast", Collective::Broadcast { root }),
                    ("gather", Collective::Gather { root }),
                    ("reduce", Collective::Reduce { root }),
                    ("scan", Collective::Scan),
                    ("exscan", Collective::Exscan),
                    ("allreduce", Collective::Allreduce),
                ][which];
                rows.push(Row {
                    bottom,
                    name,
                    collective,
                    size,
                });
            }
        }
    }
    rows
}

/// All that a row's jobs are lent, for either side.
struct Bench {
    row: Row,
    job: Job,
    members: Vec<usize>,
    inputs: Vec<u32>,
    records: Vec<Record>,
    words: Vec<u32>,
    out: Vec<u32>,
}

impl Bench {
    fn new(row: Row) -> Bench {
        Bench {
            row,
            job: Job {
                collective: row.collective,
                operation: OPERATION,
                ranks: row.size,
                sweeps: 1024,
            },
            members: (0..row.size).collect(),
            inputs: inputs(&mut Random::new(7), OPERATION, row.size),
            records: vec![Record::default(); 1536],
            words: vec![0; 4 * row.size * row.size * DEPTH],
            out: vec![0; row.size * OPERATION.width()],
        }
    }

    /// Runs the row's job once, and tells how many messages it had.
    #[inline(never)]
    fn once(&mut self, side: Side) -> usize {
        let Bench {
            row,
            job,
            members,
            inputs,
            records,
            words,
            out,
        } = black_box(self);
        let tally = match (side, row.bottom) {
            (Side::Proved, Bottom::Log) => {
                gelvatos::over_log(job, members, inputs, records, out).expect("a sound job")
            }
            (Side::Proved, Bottom::Mailbox) => {
                gelvatos::over_mailbox(job, members, inputs, DEPTH, words, out)
                    .expect("a sound job")
            }
            (Side::Twin, Bottom::Log) => {
                twin::over_log(job, members, inputs, records, out).expect("a sound job")
            }
            (Side::Twin, Bottom::Mailbox) => {
                twin::over_mailbox(job, members, inputs, DEPTH, words, out).expect("a sound job")
            }
        };
        tally.messages
    }

    /// Nanoseconds of one job: the least mean of several batches.
    fn time(&mut self, side: Side) -> f64 {
        let mut least = Duration::MAX;
        let start = Instant::now();
        self.once(side);
        let batch =
            (Duration::from_millis(4).as_nanos() / start.elapsed().as_nanos().max(1)) as u32;
        let batch = batch.clamp(1, 10_000);
        for _ in 0..7 {
            let start = Instant::now();
            for _ in 0..batch {
                self.once(side);
            }
            least = least.min(start.elapsed() / batch);
        }
        least.as_nanos() as f64
    }
}

/// Callgrind writes what it counted, and counts from zero, when this is called.
#[inline(never)]
#[unsafe(no_mangle)]
extern "C" fn gelvatos_bench_mark() {
    black_box(());
}

/// How often a counted row's job is run.
fn repetitions(row: Row) -> usize {
    if row.size == 64 { 1 } else { 4 }
}

/// The jobs of all rows, each between two marks.
fn run_marked(side: Side) {
    for row in rows() {
        let mut bench = Bench::new(row);
        bench.once(side);
        gelvatos_bench_mark();
        for _ in 0..repetitions(row) {
            bench.once(side);
        }
        gelvatos_bench_mark();
    }
}

/// Instructions of one job of each row.
fn count(side: Side) -> Vec<f64> {
    let program = std::env::current_exe().expect("this program");
    let folder = program.parent().expect("a folder").join("callgrind");
    let _ = fs::remove_dir_all(&folder);
    fs::create_dir_all(&folder).expect("a folder for counts");
    let file = folder.join(side.name());
    let status = Command::new("valgrind")
        .args([
            "--quiet",
            "--tool=callgrind",
            "--dump-after=gelvatos_bench_mark",
        ])
        .arg(format!("--callgrind-out-file={}", file.display()))
        .arg(&program)
        .arg(side.name())
        .status()
        .expect("valgrind is installed");
    assert!(status.success(), "valgrind failed");
    let counted = |dump: usize| -> f64 {
        let path = format!("{}.{dump}", file.display());
        let text = fs::read_to_string(&path).expect("a dump of callgrind");
        let mut lines = text.lines();
        let totals = lines.find_map(|line| line.strip_prefix("totals: "));
        totals.expect("totals").trim().parse().expect("a number")
    };
    let rows = rows().into_iter().enumerate();
    rows.map(|(i, row)| counted(2 * i + 2) / repetitions(row) as f64)
        .collect()
}

fn print_table() {
    let rows = rows();
    let counts = SIDES.map(count);
    println!(
        "| Transport | Collective | P | Messages | Instructions/message, proved | twin | Ratio | ns/message, proved | twin | Ratio |"
    );
    println!("|---|---|---|---|---|---|---|---|---|---|");
    let mut worst = 0f64;
    let mut growth = Vec::new();
    for (i, &row) in rows.iter().enumerate() {
        let mut bench = Bench::new(row);
        let messages = bench.once(Side::Proved);
        let each = messages as f64;
        let [a, b] = [counts[0][i] / each, counts[1][i] / each];
        let [s, t] = SIDES.map(|side| bench.time(side) / each);
        let bottom = if row.bottom == Bottom::Log {
            "log"
        } else {
            "mailbox"
        };
        println!(
            "| {bottom} | {} | {} | {messages} | {a:.0} | {b:.0} | {:.2} | {s:.0} | {t:.0} | {:.2} |",
            row.name,
            row.size,
            a / b,
            s / t
        );
        worst = worst.max(a / b);
        growth.push((bottom, row.name, a, b));
    }
    println!("\nThe greatest ratio of instructions is {worst:.2}.\n");
    println!("How instructions for a message grow with P:\n");
    println!("| Transport | Collective | proved, 4 to 16 | 16 to 64 | twin, 4 to 16 | 16 to 64 |");
    println!("|---|---|---|---|---|---|");
    for of in growth.chunks(SIZES.len()) {
        let [x, y, z] = of else { continue };
        println!(
            "| {} | {} | ×{:.1} | ×{:.1} | ×{:.1} | ×{:.1} |",
            x.0,
            x.1,
            y.2 / x.2,
            z.2 / y.2,
            y.3 / x.3,
            z.3 / y.3
        );
    }
}

fn main() {
    match std::env::args().nth(1).as_deref() {
        None => print_table(),
        Some("proved") => run_marked(Side::Proved),
        Some("twin") => run_marked(Side::Twin),
        Some(other) => eprintln!("`{other}` is neither `proved` nor `twin`"),
    }
}
