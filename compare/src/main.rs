//! The driver: which comparisons are run, what they count, and what could not be run.
//!
//! Built with `--cfg oracle` where the Rust crate is linked, and with `--cfg port` where the library is.
#![cfg_attr(not(all(oracle, port)), allow(dead_code))]
mod account;
#[cfg(oracle)]
mod after;
mod cases;
mod definition;
mod departs;
mod exhaustive;
mod gaps;
mod idruns;
mod ids;
#[cfg(oracle)]
mod oracle;
mod port;
mod random;
#[cfg(oracle)]
mod record;
mod replay;
mod shortest;
mod standin;
mod tally;
mod words;

use standin::{StandIn, StandInIds, FAULTS};
use tally::{share, Tally};

const ANSWERS: [&str; 3] = ["agreed.txt", "differences.txt", "ids.txt"];
/// Enough ranges for every pool of the exhaustive runs.
const AMPLE: usize = 32;

struct Driver {
    full: bool,
    seed: u64,
    only: String,
    answers: String,
    passed: u32,
    failed: u32,
    skipped: u32,
}

impl Driver {
    fn part(&mut self, name: &str, run: impl FnOnce() -> Tally) {
        if !name.contains(&self.only) {
            return;
        }
        let clock = std::time::Instant::now();
        let tally = run();
        let verdict = if tally.failed == 0 && tally.compared > 0 { "passed" } else { "FAILED" };
        println!(
            "{verdict}: {name}: {} compared, {} failed, {:.1} s",
            tally.compared,
            tally.failed,
            clock.elapsed().as_secs_f32()
        );
        for (name, n) in &tally.counts {
            println!("        {n:>12}  {name}");
        }
        for failure in &tally.failures {
            println!("    {failure}");
        }
        match verdict {
            "passed" => self.passed += 1,
            _ => self.failed += 1,
        }
    }

    #[cfg(not(all(oracle, port)))]
    fn skip(&mut self, name: &str, why: &str) {
        println!("SKIPPED: {name}: {why}");
        self.skipped += 1;
    }

    fn seeds(&self, quick: u64) -> Vec<u64> {
        (self.seed..self.seed + if self.full { 5 * quick } else { quick }).collect()
    }

    fn answer_file(&self, name: &str) -> String {
        std::fs::read_to_string(format!("{}/{name}", self.answers)).unwrap_or_default()
    }
}

/// The definition against itself and the recorded answers, and whether the comparisons notice known faults.
fn by_itself(driver: &mut Driver) {
    driver.part("the definition's two forms, every request in every state of pools of up to 8 addresses", || {
        share(&cases::pools(1..=8), |pool| exhaustive::definitions(*pool))
    });
    driver.part("faulty stand-ins are told from the definition, by the exhaustive and by the random runs", faults);
    for name in ANSWERS {
        let text = driver.answer_file(name);
        driver.part(&format!("the recorded answers are the definition's where they say so, {name}"), || {
            replay::replay(&|b, s, l| StandIn::new(0, b, s, l), &|l, h| StandInIds::new(0, l, h), &text, usize::MAX)
        });
    }
}

/// Bases and sizes on both sides of what can be made.
fn pools_to_make() -> Vec<(u64, u64)> {
    let ends = [0, 1, 2, 0x1000, 1 << 63, words::M - 1, words::M];
    ends.iter().flat_map(|base| ends.iter().map(|size| (*base, *size))).collect()
}

fn faults() -> Tally {
    let mut total = Tally::default();
    for (fault, what) in FAULTS.iter().enumerate() {
        let make = move |base, size, limit| StandIn::new(fault, base, size, limit);
        let mut small = Tally::default();
        for pool in cases::pools(1..=4) {
            let ops = cases::operations(pool);
            small.add(exhaustive::port(&make, pool, AMPLE, &ops, true));
            small.add(exhaustive::port(&make, pool, 2, &ops, true));
        }
        let mut large = random::port(&make, 1, 4096, 300);
        large.add(random::port(&make, 1, 16, 300));
        total.check((small.failed > 0) == (fault > 0), || format!("exhaustive, {what}: {:?}", small.failures));
        total.check((large.failed > 0) == (fault > 0), || format!("random, {what}: {:?}", large.failures));
        if let Some(first) = large.failures.first() {
            let steps = first.split(';').count() as u64 - 1;
            total.count(&format!("operations in a smallest failing sequence of '{what}'"), steps);
        }
    }
    for fault in 0..=4 {
        let make = move |lowest, highest| StandInIds::new(fault, lowest, highest);
        let mut small = Tally::default();
        idruns::small().into_iter().for_each(|(l, h)| small.add(idruns::port(&make, l, h)));
        for tally in [small, idruns::random_port(&make, 1, 300)] {
            total.check((tally.failed > 0) == (fault > 0), || format!("ids, fault {fault}: {:?}", tally.failures));
        }
    }
    total
}

#[cfg(not(oracle))]
fn beside_the_rust(driver: &mut Driver) {
    driver.skip("the Rust against the definition", "the source of vm-allocator is not at hand (set VM_ALLOCATOR_SRC)");
}

#[cfg(oracle)]
fn beside_the_rust(driver: &mut Driver) {
    driver.part("the Rust, which pools and intervals are made", || {
        let mut tally = idruns::beside::made();
        for (base, size) in pools_to_make() {
            let (got, right) = (oracle::Rust::new(base, size).err(), definition::make(base, size).err());
            tally.check(got == right, || format!("pool {base:#x} size {size:#x}: {got:?}, {right:?}"));
        }
        tally
    });
    driver.part("the Rust, every operation in every state of pools of up to 8 addresses", || {
        let mut tally = share(&cases::pools(1..=8), |pool| exhaustive::beside::rust(*pool, &cases::operations(*pool)));
        for class in departs::CLASSES {
            let seen = tally.counts.get(&format!("departures, {}", class.name())).is_some_and(|n| *n > 0);
            tally.check(seen, || format!("no departure of class {}", class.name()));
        }
        tally
    });
    let (made_up, largest) = if driver.full { (4, 6) } else { (2, 4) };
    driver.part(
        &format!("the Rust after departures, every operation in every state of pools of up to {largest} addresses"),
        || share(&cases::pools(1..=largest), |pool| after::departures(*pool, pool.size <= made_up)),
    );
    driver.part("the Rust calls allocators with the same ranges unequal", || {
        let mut tally = Tally::default();
        let twins = (1..=6).find_map(|size| after::unequal_twins(cases::Pool { base: 5, size }));
        tally.check(twins.is_some(), || "no such pair on up to six addresses".to_string());
        if let Some((one, other)) = twins {
            tally.count(&tally::line("pool from 0x5", &one), 1);
            tally.count(&tally::line("pool from 0x5", &other), 1);
        }
        tally
    });
    let (steps, id_steps) = if driver.full { (5000, 5000) } else { (2000, 2000) };
    let seeds = driver.seeds(2);
    driver.part(&format!("the Rust, random sequences of {steps}, seeds {} to {}", seeds[0], seeds[seeds.len() - 1]), || {
        share(&seeds, |seed| random::beside::rust(*seed, steps))
    });
    driver.part("the Rust, ids, every operation in every state of intervals of up to 5", || {
        share(&idruns::small(), |(lowest, highest)| idruns::beside::rust(*lowest, *highest))
    });
    driver.part(
        &format!("the Rust, ids, random sequences of {id_steps}, seeds {} to {}", seeds[0], seeds[seeds.len() - 1]),
        || share(&seeds, |seed| idruns::beside::random_rust(*seed, id_steps)),
    );
    for (name, made) in ANSWERS.iter().zip([record::agreed, record::differences, record::of_ids]) {
        let text = driver.answer_file(name);
        driver.part(&format!("the recorded answers are what the Rust answers now, {name}"), || {
            let (mut tally, made) = (Tally::default(), made());
            tally.check(made == text, || "the file differs from what --record would write".to_string());
            tally.count("lines", text.lines().count() as u64);
            tally
        });
    }
}

/// Only by option: exact requests at every address of pools of up to 12 addresses and around them, with every size.
fn exact(driver: &mut Driver) {
    let pools: Vec<cases::Pool> =
        (1..=12).flat_map(|n| cases::pools(n..=n)).filter(|p| p.base < 2 || p.base > 5 && p.end() != words::M - 2).collect();
    let ops = |pool: cases::Pool| -> Vec<words::Op> {
        let exact = |op: &words::Op| matches!(op, words::Op::Allocate { policy: words::Policy::Exact(_), .. });
        cases::requests(pool, &[1]).into_iter().filter(exact).collect()
    };
    #[cfg(oracle)]
    driver.part("the Rust, exact requests in every state of pools of up to 12 addresses", || {
        share(&pools, |pool| exhaustive::beside::rust(*pool, &ops(*pool)))
    });
    #[cfg(port)]
    driver.part("the library, exact requests in every state of pools of up to 12 addresses", || {
        share(&pools, |pool| exhaustive::port(&port::Native::new, *pool, AMPLE, &ops(*pool), false))
    });
    let _ = (driver, pools, ops);
}

#[cfg(not(port))]
fn the_library(driver: &mut Driver) {
    driver.skip("the library against the definition and the recorded answers", "the library is not linked");
}

#[cfg(port)]
fn the_library(driver: &mut Driver) {
    use port::{Native, NativeIds, Port};
    driver.part("the library, which pools and intervals are made", || {
        let mut tally = Tally::default();
        for (base, size) in pools_to_make() {
            for limit in [0, 1, 7, 4096, 4097] {
                let room = |state| if (1..=4096).contains(&limit) { Ok(state) } else { Err(words::Reason::NoRoom) };
                let right = definition::make(base, size).and_then(room).err();
                let made = Native::new(base, size, limit);
                let left = made.as_ref().map(Native::left);
                tally.check(left.is_err() || left == Ok(Some((size, size))), || {
                    format!("pool {base:#x} size {size:#x}: {left:?} is left")
                });
                let got = made.err();
                tally.check(got == right, || format!("pool {base:#x} size {size:#x} limit {limit}: {got:?}, {right:?}"));
            }
        }
        for (lowest, highest) in [(0, 0), (1, 0), (5, 4), (7, 9), (u32::MAX, 0), (u32::MAX, u32::MAX)] {
            let (got, right) = (NativeIds::new(lowest, highest).err(), ids::make(lowest, highest).err());
            tally.check(got == right, || format!("ids {lowest} to {highest}: {got:?}, {right:?}"));
        }
        tally
    });
    driver.part("the library, every operation in every state of pools of up to 8 addresses", || {
        share(&cases::pools(1..=8), |pool| {
            exhaustive::port(&Native::new, *pool, AMPLE, &cases::operations(*pool), pool.size <= 6)
        })
    });
    driver.part("the library, the same for every limit below what pools of up to 5 addresses need", || {
        let jobs: Vec<_> = cases::pools(2..=5).into_iter().flat_map(|p| (1..p.size as usize).map(move |l| (p, l))).collect();
        share(&jobs, |(pool, limit)| exhaustive::port(&Native::new, *pool, *limit, &cases::operations(*pool), true))
    });
    let steps = if driver.full { 5000 } else { 2000 };
    let seeds = driver.seeds(4);
    for limit in [4096, 64, 7] {
        driver.part(&format!("the library, random sequences of {steps}, limit {limit}, seeds from {}", seeds[0]), || {
            share(&seeds, |seed| random::port(&Native::new, *seed, limit, steps))
        });
    }
    driver.part("the library, ids, every operation in every state of intervals of up to 5", || {
        share(&idruns::small(), |(lowest, highest)| idruns::port(&NativeIds::new, *lowest, *highest))
    });
    driver.part(&format!("the library, ids, random sequences of {steps}, seeds from {}", seeds[0]), || {
        share(&seeds, |seed| idruns::random_port(&NativeIds::new, *seed, steps))
    });
    for name in ANSWERS {
        let text = driver.answer_file(name);
        driver.part(&format!("the library, recorded answers, {name}"), || {
            replay::replay(&Native::new, &NativeIds::new, &text, 4096)
        });
    }
}

fn main() {
    let mut driver = Driver {
        full: false,
        seed: 1,
        only: String::new(),
        answers: String::from("compare/answers"),
        passed: 0,
        failed: 0,
        skipped: 0,
    };
    let mut exact_only = false;
    let mut words = std::env::args().skip(1);
    while let Some(word) = words.next() {
        match word.as_str() {
            "--full" => driver.full = true,
            "--exact" => exact_only = true,
            "--seed" => driver.seed = words.next().and_then(|n| n.parse().ok()).expect("--seed NUMBER"),
            "--only" => driver.only = words.next().expect("--only PART OF A NAME"),
            "--answers" => driver.answers = words.next().expect("--answers FOLDER"),
            #[cfg(oracle)]
            "--record" => {
                for (name, made) in ANSWERS.iter().zip([record::agreed, record::differences, record::of_ids]) {
                    std::fs::write(format!("{}/{name}", driver.answers), made()).expect("a file of answers");
                }
                return;
            }
            _ => panic!("not understood: {word}"),
        }
    }
    if exact_only {
        exact(&mut driver);
    } else {
        by_itself(&mut driver);
        beside_the_rust(&mut driver);
        the_library(&mut driver);
    }
    let skipped = if driver.skipped > 0 { format!(", {} skipped", driver.skipped) } else { String::new() };
    println!("{} passed, {} failed{skipped}", driver.passed, driver.failed);
    std::process::exit((driver.failed > 0) as i32);
}
