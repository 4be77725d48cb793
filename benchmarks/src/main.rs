//! The Rust crate, the library and two BTreeMaps on the same sequences: answers compared on every operation, and timed.
//!
//! Built with `--cfg oracle` where the Rust crate is linked, and with `--cfg port` where the library is.
#[allow(dead_code)]
#[path = "../../compare/src/definition.rs"]
mod definition;
#[allow(dead_code)]
#[path = "../../compare/src/departs.rs"]
mod departs;
mod maps;
#[cfg(oracle)]
#[allow(dead_code)]
#[path = "../../compare/src/oracle.rs"]
mod oracle;
mod play;
#[allow(dead_code)]
#[path = "../../compare/src/port.rs"]
mod port;
mod report;
mod sequences;
#[allow(dead_code)]
#[path = "../../compare/src/words.rs"]
mod words;

use maps::{Maps, Sets};
use play::{play, Run, Times};
use report::{kind_of_answer, kind_of_id, Row};
use sequences::{Sequence, Work, BASE, WORKS};
use words::{Answer, IdAnswer, IdOp, Op};

pub const SIDES: [&str; 3] = ["vm-allocator", "Rangekeeper", "two BTreeMaps"];
const RANGES: [usize; 4] = [64, 512, 2000, 4000];
/// The limit of the library's table: the most that it can be.
const LIMIT: usize = 4096;
const RUNS: usize = 5;

/// The runs of each side; none where the side is not linked.
type Sides<A> = [Option<Run<A>>; 3];

fn address_sides(work: Work, ranges: usize, s: &Sequence<Op>) -> Sides<Answer> {
    let size = work.size(ranges);
    #[cfg(oracle)]
    let rust = {
        let mut side = oracle::Rust::new(BASE, size).ok().expect("a pool of the Rust");
        Some(play(&s.warm, &s.ops, |op| side.run(op)))
    };
    #[cfg(not(oracle))]
    let rust = None;
    #[cfg(port)]
    let library = {
        use port::Port;
        let mut side = port::Native::new(BASE, size, LIMIT).ok().expect("a pool of the library");
        Some(play(&s.warm, &s.ops, |op| side.run(op)))
    };
    #[cfg(not(port))]
    let library = None;
    let mut side = Maps::new(BASE, size, true);
    [rust, library, Some(play(&s.warm, &s.ops, |op| side.run(op)))]
}

fn id_sides(ids: u32, s: &Sequence<IdOp>) -> Sides<IdAnswer> {
    #[cfg(oracle)]
    let rust = {
        let mut side = oracle::RustIds::new(1, ids).ok().expect("an interval of the Rust");
        Some(play(&s.warm, &s.ops, |op| side.run(*op)))
    };
    #[cfg(not(oracle))]
    let rust = None;
    #[cfg(port)]
    let library = {
        use port::PortIds;
        let mut side = port::NativeIds::new(1, ids).ok().expect("an interval of the library");
        Some(play(&s.warm, &s.ops, |op| side.run(*op)))
    };
    #[cfg(not(port))]
    let library = None;
    let mut side = Sets::new(1, ids);
    [rust, library, Some(play(&s.warm, &s.ops, |op| side.run(*op)))]
}

/// The first operation on which two sides answer otherwise, in words.
fn differs<O: std::fmt::Display, A: PartialEq + std::fmt::Display>(s: &Sequence<O>, sides: &Sides<A>) -> Option<String> {
    let reference = sides[2].as_ref()?;
    for (name, side) in SIDES.iter().zip(sides).take(2) {
        let Some(run) = side else { continue };
        for (i, op) in s.warm.iter().chain(&s.ops).enumerate() {
            if run.answers[i] != reference.answers[i] {
                let (a, b) = (&run.answers[i], &reference.answers[i]);
                return Some(format!("operation {i}, {op}: {name} {a}, {} {b}", SIDES[2]));
            }
        }
    }
    None
}

/// A sequence and all sides, ready to be played: the times of a run, the kinds of what is timed one by one, and what differed.
type Job = Box<dyn Fn() -> ([Option<Times>; 3], Vec<&'static str>, Option<String>)>;

/// Makes a job of a sequence.
fn job<O, A>(s: Sequence<O>, kind: fn(&O, &A) -> &'static str, sides: impl Fn(&Sequence<O>) -> Sides<A> + 'static) -> Job
where
    O: std::fmt::Display + 'static,
    A: PartialEq + std::fmt::Display + 'static,
{
    Box::new(move || {
        let sides = sides(&s);
        let failure = differs(&s, &sides);
        let reference = sides[2].as_ref().expect("two BTreeMaps");
        let answers = &reference.answers[s.warm.len()..];
        let second = s.ops.len() / 2;
        let kinds = s.ops.iter().zip(answers).skip(second).map(|(op, answer)| kind(op, answer)).collect();
        (sides.map(|side| side.map(|run| run.times)), kinds, failure)
    })
}

/// What is run: with which ids, how many operations are timed, how often, and the count of what agreed and what did not.
struct Driver {
    ids: &'static [u32],
    count: usize,
    runs: usize,
    quick: bool,
    passed: u32,
    failed: u32,
    skipped: u32,
}

impl Driver {
    fn verdict(&mut self, name: &str, detail: &str, failure: Option<String>) {
        match failure {
            None => {
                self.passed += 1;
                if self.quick {
                    println!("passed: {name}: {detail}");
                }
            }
            Some(why) => {
                self.failed += 1;
                println!("FAILED: {name}: {why}");
            }
        }
    }

    /// Plays every job once a run, so that rows are compared that were timed close to each other.
    fn all(&mut self) -> (Vec<Row>, Vec<Row>) {
        let (mut rows, mut jobs) = (Vec::new(), Vec::new());
        for work in WORKS {
            for ranges in RANGES {
                let s = sequences::addresses(work, ranges, 2 * self.count, 1 + ranges as u64);
                rows.push(Row::new(format!("{work:?} {ranges}"), &s));
                jobs.push(job(s, kind_of_answer, move |s| address_sides(work, ranges, s)));
            }
        }
        let addresses = rows.len();
        for ids in self.ids {
            for (share, granted) in [("a tenth", ids / 10), ("half", ids / 2), ("all but ten", ids - 10)] {
                let s = sequences::ids(*ids, granted, 2 * self.count, 1 + *ids as u64);
                rows.push(Row::new(format!("ids {ids}, {share}"), &s));
                jobs.push(job(s, kind_of_id, move |s| id_sides(*ids, s)));
            }
        }
        let mut failures = vec![None; jobs.len()];
        for _ in 0..self.runs {
            for ((job, row), failure) in jobs.iter().zip(&mut rows).zip(&mut failures) {
                let (times, kinds, differs) = job();
                row.kinds = kinds;
                row.runs.push(times);
                *failure = failure.take().or(differs);
            }
        }
        // Two BTreeMaps alone are compared with nothing.
        if cfg!(any(oracle, port)) {
            for (row, failure) in rows.iter().zip(failures) {
                self.verdict(&row.name, &format!("{} operations, {} to {}", row.length, row.least, row.most), failure);
            }
        }
        let ids = rows.split_off(addresses);
        (rows, ids)
    }

    /// Two BTreeMaps that do not melt what is given back with what is free above it must be told from those that do.
    fn fault(&mut self) {
        for work in WORKS {
            let s = sequences::addresses(work, 64, self.count, 7);
            let mut right = Maps::new(BASE, work.size(64), true);
            let mut wrong = Maps::new(BASE, work.size(64), false);
            let (right, wrong) = (play(&s.warm, &s.ops, |op| right.run(op)), play(&s.warm, &s.ops, |op| wrong.run(op)));
            let sides = [None, Some(wrong), Some(right)];
            let failure = match differs(&s, &sides) {
                Some(_) => None,
                None => Some("a faulty side was not noticed".to_string()),
            };
            self.verdict(&format!("{work:?}, a faulty side is noticed"), "an answer differs", failure);
        }
    }
}

fn main() {
    let quick = match std::env::args().nth(1).as_deref() {
        None => false,
        Some("--quick") => true,
        Some(word) => panic!("not understood: {word}"),
    };
    let mut driver = match quick {
        true => Driver { ids: &[64, 4096], count: 500, runs: 1, quick, passed: 0, failed: 0, skipped: 0 },
        false => Driver { ids: &[64, 4096, 1 << 20], count: 10_000, runs: RUNS, quick, passed: 0, failed: 0, skipped: 0 },
    };
    for (name, linked) in [(SIDES[0], cfg!(oracle)), (SIDES[1], cfg!(port))] {
        if !linked {
            println!("SKIPPED: {name}: not linked");
            driver.skipped += 1;
        }
    }
    let (addresses, ids) = driver.all();
    let clock = play::clock_cost();
    if quick {
        driver.fault();
        let skipped = if driver.skipped > 0 { format!(", {} skipped", driver.skipped) } else { String::new() };
        println!("{} passed, {} failed{skipped}", driver.passed, driver.failed);
    } else {
        report::tables(&addresses, &ids, RUNS, driver.count, clock);
    }
    std::process::exit((driver.failed > 0) as i32);
}
