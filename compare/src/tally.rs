//! Counts of what was compared, how much of it failed, and what is worth saying about it.
use std::collections::BTreeMap;
use std::sync::atomic::{AtomicUsize, Ordering};
use std::sync::Mutex;

#[derive(Default)]
pub struct Tally {
    pub compared: u64,
    pub failed: u64,
    /// Further counts, by name.
    pub counts: BTreeMap<String, u64>,
    /// The first failures, in words.
    pub failures: Vec<String>,
}

impl Tally {
    pub fn count(&mut self, name: &str, by: u64) {
        match self.counts.get_mut(name) {
            Some(n) => *n += by,
            None => drop(self.counts.insert(name.to_string(), by)),
        }
    }

    pub fn check(&mut self, holds: bool, say: impl FnOnce() -> String) {
        self.compared += 1;
        if !holds {
            self.failed += 1;
            if self.failures.len() < 5 {
                self.failures.push(say());
            }
        }
    }

    pub fn add(&mut self, other: Tally) {
        self.compared += other.compared;
        self.failed += other.failed;
        for (name, by) in other.counts {
            self.count(&name, by);
        }
        self.failures.extend(other.failures);
        self.failures.truncate(5);
    }
}

/// The jobs' tallies together, on two threads.
pub fn share<J: Sync>(jobs: &[J], work: impl Fn(&J) -> Tally + Sync) -> Tally {
    let next = AtomicUsize::new(0);
    let total = Mutex::new(Tally::default());
    std::thread::scope(|scope| {
        for _ in 0..2 {
            scope.spawn(|| {
                while let Some(job) = jobs.get(next.fetch_add(1, Ordering::Relaxed)) {
                    let tally = work(job);
                    total.lock().unwrap().add(tally);
                }
            });
        }
    });
    total.into_inner().unwrap()
}

/// A sequence on one line, for reports.
pub fn line<T: std::fmt::Display>(head: &str, ops: &[T]) -> String {
    let ops: Vec<String> = ops.iter().map(|op| op.to_string()).collect();
    format!("{head}; {}", ops.join("; "))
}
