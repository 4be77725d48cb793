//! The figures of a row of the tables, and the tables, in Markdown.
use crate::play::{median, Times};
use crate::sequences::{Sequence, WORKS};
use crate::words::{Answer, IdAnswer, IdOp, Op, Policy};
use crate::SIDES;

const KINDS: [&str; 5] = ["first", "last", "exact", "free", "refused"];
const ID_KINDS: [&str; 3] = ["allocate", "free", "refused"];

pub fn kind_of_answer(op: &Op, answer: &Answer) -> &'static str {
    match (op, answer) {
        (_, Answer::Refused(_)) => "refused",
        (Op::Free { .. }, _) => "free",
        (Op::Allocate { policy, .. }, _) => match policy {
            Policy::First => "first",
            Policy::Last => "last",
            Policy::Exact(_) => "exact",
        },
    }
}

pub fn kind_of_id(op: &IdOp, answer: &IdAnswer) -> &'static str {
    match (op, answer) {
        (_, IdAnswer::Refused(_)) => "refused",
        (IdOp::Allocate, _) => "allocate",
        (IdOp::Free(_), _) => "free",
    }
}

/// A row of the tables: a sequence, and what each side took in each run; none where a side is not linked.
pub struct Row {
    pub name: String,
    pub length: usize,
    pub least: usize,
    pub most: usize,
    pub runs: Vec<[Option<Times>; 3]>,
    /// The kinds of the operations that were timed one by one.
    pub kinds: Vec<&'static str>,
}

impl Row {
    pub fn new<O>(name: String, s: &Sequence<O>) -> Row {
        let length = s.warm.len() + s.ops.len();
        Row { name, length, least: s.least, most: s.most, runs: Vec::new(), kinds: Vec::new() }
    }

    /// The median of the runs of something that is told of a run, where all that it is told of is linked.
    fn of_runs(&self, tell: impl Fn(&[Option<Times>; 3]) -> Option<f64>) -> Option<f64> {
        let mut told = self.runs.iter().map(tell).collect::<Option<Vec<f64>>>()?;
        Some(median(&mut told))
    }

    /// Nanoseconds an operation.
    fn whole(&self, side: usize) -> Option<f64> {
        self.of_runs(|run| Some(run[side].as_ref()?.whole))
    }

    /// The share of vm-allocator's time in the same run.
    fn ratio(&self, side: usize) -> Option<f64> {
        self.of_runs(|run| Some(run[side].as_ref()?.whole / run[0].as_ref()?.whole))
    }

    /// How many times the time of another row in the same run.
    fn growth(&self, from: &Row, side: usize) -> Option<f64> {
        let pairs = self.runs.iter().zip(&from.runs);
        let mut times =
            pairs.map(|(a, b)| Some(a[side].as_ref()?.whole / b[side].as_ref()?.whole)).collect::<Option<Vec<f64>>>()?;
        Some(median(&mut times))
    }

    /// The library's share of vm-allocator's time in each run.
    fn shares(&self) -> Option<Vec<String>> {
        self.runs.iter().map(|run| Some(format!("{:.3}", run[1].as_ref()?.whole / run[0].as_ref()?.whole))).collect()
    }

    /// Nanoseconds of each operation that was timed by itself: the least of the runs, since all that is not the operation's own
    /// adds to it.
    fn each(&self, side: usize, clock: f64) -> Option<Vec<f64>> {
        let least = |i: usize| -> Option<f64> {
            let times = self.runs.iter().map(|run| Some(run[side].as_ref()?.singly[i])).collect::<Option<Vec<f64>>>()?;
            Some(times.into_iter().fold(f64::INFINITY, f64::min) - clock)
        };
        (0..self.kinds.len()).map(least).collect()
    }

    /// Nanoseconds of the operations of a kind: of each the median of the runs, of those the mean.
    fn of_kind(&self, side: usize, kind: &str, clock: f64) -> Option<f64> {
        let (mut n, mut sum) = (0, 0.0);
        for i in (0..self.kinds.len()).filter(|i| self.kinds[*i] == kind) {
            n += 1;
            sum += (self.of_runs(|run| Some(run[side].as_ref()?.singly[i]))? - clock).max(0.0);
        }
        (n > 0).then_some(sum / n as f64)
    }
}

fn thousands(number: f64) -> String {
    let digits = format!("{:.0}", number);
    let mut out = String::new();
    for (i, digit) in digits.chars().enumerate() {
        if i > 0 && (digits.len() - i) % 3 == 0 {
            out.push(',');
        }
        out.push(digit);
    }
    out
}

fn cell(number: Option<f64>) -> String {
    number.map_or("skipped".to_string(), thousands)
}

fn whole(title: &str, of: &str, rows: &[Row]) {
    println!("\n| {title} | {of} | {} |\n|---|---|---|---|---|", SIDES.join(" | "));
    for row in rows {
        let ratio = |side| row.ratio(side).map_or(String::new(), |ratio| format!(" ({ratio:.2})"));
        let (rust, library, maps) = (cell(row.whole(0)), cell(row.whole(1)), cell(row.whole(2)));
        let (least, most) = (thousands(row.least as f64), thousands(row.most as f64));
        println!("| {} | {least} to {most} | {rust} | {library}{} | {maps}{} |", row.name, ratio(1), ratio(2));
    }
}

fn by_kind(title: &str, kinds: &[&str], rows: &[Row], clock: f64) {
    println!("\n| {title} | {} |\n|{}", kinds.join(" | "), "---|".repeat(kinds.len() + 1));
    for row in rows {
        let cells = kinds.iter().map(|kind| match row.kinds.iter().filter(|k| *k == kind).count() {
            0 => String::new(),
            n => {
                let times: Vec<String> = (0..3).map(|side| cell(row.of_kind(side, kind, clock))).collect();
                format!("{} [{}]", times.join(" / "), thousands(n as f64))
            }
        });
        println!("| {} | {} |", row.name, cells.collect::<Vec<_>>().join(" | "));
    }
}

fn growth(rows: &[Row]) {
    println!("\n| 4,000 ranges to 64 | {} |\n|---|---|---|---|", SIDES.join(" | "));
    for of_work in rows.chunks(rows.len() / WORKS.len()) {
        let (least, most) = (&of_work[0], &of_work[of_work.len() - 1]);
        let times = (0..3).map(|side| most.growth(least, side).map_or("skipped".to_string(), |times| format!("{times:.1}")));
        let name = least.name.split(' ').next().unwrap_or_default();
        println!("| {name} | {} |", times.collect::<Vec<_>>().join(" | "));
    }
}

/// Each run by itself, where the median alone would hide how far apart they are.
fn each_run(rows: &[Row]) {
    println!("\n| 2,000 ranges, a run each | {} |\n|---|---|", SIDES[1]);
    for row in rows.iter().filter(|row| row.name.ends_with(" 2000")) {
        println!("| {} | {} |", row.name, row.shares().map_or("skipped".to_string(), |shares| shares.join(", ")));
    }
}

/// An operation of the library that takes this long spreads the ranges over the blocks anew: no other comes near it.
const SPREAD: f64 = 2000.0;

/// The slowest operation, how many spread the ranges, and the fewest operations from one of those to the next.
fn worst(rows: &[Row], clock: f64) {
    println!("\n| 4,000 ranges | slowest of vm-allocator | slowest of Rangekeeper | spreads | operations from one to the next, at least |");
    println!("|---|---|---|---|---|");
    for row in rows.iter().filter(|row| row.name.ends_with(" 4000")) {
        let slowest = |side| row.each(side, clock).map(|times| times.into_iter().fold(0.0, f64::max));
        let spreads: Vec<usize> = match row.each(1, clock) {
            Some(times) => (0..times.len()).filter(|i| times[*i] >= SPREAD).collect(),
            None => Vec::new(),
        };
        let apart = spreads.windows(2).map(|pair| pair[1] - pair[0]).min();
        let apart = apart.map_or(String::new(), |n| n.to_string());
        println!("| {} | {} | {} | {} | {apart} |", row.name, cell(slowest(0)), cell(slowest(1)), spreads.len());
    }
}

/// `clock` is what is taken off each operation that was timed by itself.
pub fn tables(addresses: &[Row], ids: &[Row], runs: usize, count: usize, clock: f64) {
    for work in WORKS {
        println!("- {work:?}: {}.", work.says());
    }
    println!(
        "- ids: allocate and free at random; all were granted once, and then given back in any order down to the share."
    );
    let (count, share) = (thousands(count as f64), "in brackets the share of vm-allocator's time in the same run");
    println!("\nNanoseconds an operation, {count} operations after warming up, medians of {runs} runs; {share}.");
    whole("workload, about so many ranges", "ranges seen", addresses);
    println!("\nGrowth: how many times the time at 64 ranges the time at 4,000 is, in the same run.");
    growth(addresses);
    println!("\nThe share of vm-allocator's time in each of the {runs} runs.");
    each_run(addresses);
    println!(
        "\nThe slowest of {count} operations that were timed by themselves, of each the least of {runs} runs, in nanoseconds. One of the library's \
         that takes {SPREAD:.0} or more spreads the ranges over the blocks anew."
    );
    worst(addresses, clock);
    whole("ids, so many granted", "granted", ids);
    println!(
        "\nNanoseconds by kind, {}; in brackets how many of {count}. {clock:.0} ns are taken off for the clock.",
        SIDES.join(" / ")
    );
    by_kind("workload", &KINDS, addresses, clock);
    by_kind("ids", &ID_KINDS, ids, clock);
}
