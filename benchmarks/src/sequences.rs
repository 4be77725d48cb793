//! The sequences: W1 to W5 on addresses, and ids. Each is made once, beside two BTreeMaps, and then played to every side.
//!
//! No operation in them is one on which the Rust departs from its documentation: `departs` is asked before each.
use crate::definition::State;
use crate::departs::departs;
use crate::maps::{Maps, Sets};
use crate::words::{Answer, IdAnswer, IdOp, Op, Policy};

/// A generator of numbers from a seed: splitmix64.
struct Dice(u64);

impl Dice {
    fn roll(&mut self) -> u64 {
        self.0 = self.0.wrapping_add(0x9e37_79b9_7f4a_7c15);
        let mut z = self.0;
        z = (z ^ (z >> 30)).wrapping_mul(0xbf58_476d_1ce4_e5b9);
        z = (z ^ (z >> 27)).wrapping_mul(0x94d0_49bb_1331_11eb);
        z ^ (z >> 31)
    }

    fn below(&mut self, n: u64) -> u64 {
        self.roll() % n
    }
}

/// What is played: the operations that warm up, and those that count.
pub struct Sequence<O> {
    pub warm: Vec<O>,
    pub ops: Vec<O>,
    /// The fewest and the most ranges, free and granted, or ids granted, while it counts.
    pub least: usize,
    pub most: usize,
}

const PAGE: u64 = 0x1000;
/// Pools begin here: far from 0, and none of them comes near the highest address.
pub const BASE: u64 = 1 << 40;
/// A table of the library holds 4,096 ranges. Above this many, ranges are only given back.
const CROWDED: usize = 4088;

#[derive(Clone, Copy, PartialEq, Eq, Debug)]
pub enum Work {
    W1,
    W2,
    W3,
    W4,
    W5,
}

pub const WORKS: [Work; 5] = [Work::W1, Work::W2, Work::W3, Work::W4, Work::W5];

impl Work {
    pub fn says(self) -> &'static str {
        match self {
            Work::W1 => "sizes of 1 to 16 pages, first, last and exact, fragmented",
            Work::W2 => "sizes of powers of two from 4 KiB to 1 GiB, aligned to themselves, first and last",
            Work::W3 => "sizes of 1 to 16 pages, five in six requests exact",
            Work::W4 => "cuts and melts in one place, the rest of the pool in pieces",
            Work::W5 => "as W1, in a pool so full that about one request in four is refused, after a search through all of it",
        }
    }

    /// How many pages of pool there are for each range wanted. W1 and W2 have so few that a search goes far, W5 still fewer.
    fn pages(self) -> u64 {
        match self {
            Work::W1 => 7,
            Work::W2 => 32_000,
            Work::W3 => 26,
            Work::W4 => 8,
            Work::W5 => 4,
        }
    }

    /// How many ranges are to be granted for a thousand wanted, free and granted together.
    fn granted(self) -> u64 {
        match self {
            Work::W1 | Work::W5 => 770,
            Work::W2 => 760,
            Work::W3 => 650,
            Work::W4 => 500,
        }
    }

    pub fn size(self, ranges: usize) -> u64 {
        self.pages() * PAGE * ranges as u64
    }
}

/// The place of W4: how many ranges are granted in it at most, and the pages that it takes.
fn place(ranges: usize) -> (usize, u64) {
    let most = (ranges / 4).min(40);
    (most, 8 * most as u64)
}

struct Maker {
    work: Work,
    ranges: usize,
    maps: Maps,
    held: Vec<(u64, u64)>,
    dice: Dice,
    ops: Vec<Op>,
}

impl Maker {
    fn end(&self) -> u64 {
        BASE + (self.work.size(self.ranges) - 1)
    }

    /// Adds the operation, unless the Rust departs on it, and keeps what is held.
    fn add(&mut self, op: Op) -> bool {
        let address = match op {
            Op::Allocate { policy: Policy::Exact(at), .. } => at,
            Op::Allocate { .. } => BASE,
            Op::Free { start, .. } => start,
        };
        let right = self.maps.would_answer(&op).unwrap_or(Answer::Done);
        // The condition looks at the range of the address and at those beside it, and asks whether M is free: it is not.
        let state = State { base: BASE, end: self.end(), granted: Vec::new() };
        if departs(&state, &self.maps.around(address), &op, right).is_some() {
            return false;
        }
        if let Answer::Granted(start, end) = self.maps.run(&op) {
            self.held.push((start, end));
        }
        self.ops.push(op);
        true
    }

    fn give_back(&mut self, i: usize) {
        let (start, end) = self.held[i];
        // One in 32 names a range that is not granted: one page more.
        if self.dice.below(32) == 0 && self.add(Op::Free { start, end: end + PAGE }) {
            return;
        }
        if self.add(Op::Free { start, end }) {
            self.held.swap_remove(i);
        }
    }

    /// An exact request inside a free range; one in eight may be larger than the range.
    fn exact(&mut self, pages: u64) {
        let near = BASE + self.dice.below(self.end() - BASE);
        let Some((start, end)) = self.maps.free_from(near) else { return };
        let room = (end - start + 1) / PAGE;
        let pages = if self.dice.below(8) == 0 { pages } else { pages.min(room) };
        let at = start + PAGE * self.dice.below(room.saturating_sub(pages) + 1);
        self.add(Op::Allocate { size: PAGE * pages, align: PAGE, policy: Policy::Exact(at) });
    }

    fn request(&mut self) {
        let pages = 1 + self.dice.below(16);
        let end = if self.dice.below(2) == 0 { Policy::First } else { Policy::Last };
        let exact = match self.work {
            Work::W1 | Work::W5 => self.dice.below(3) == 0,
            Work::W3 => self.dice.below(6) != 0,
            _ => false,
        };
        if exact {
            self.exact(pages);
        } else if self.work == Work::W2 {
            let size = PAGE << self.dice.below(19);
            self.add(Op::Allocate { size, align: size, policy: end });
        } else {
            self.add(Op::Allocate { size: PAGE * pages, align: PAGE, policy: end });
        }
    }

    /// One more operation, chosen so that about as many ranges are granted as wanted.
    fn mixed(&mut self) {
        let wanted = self.work.granted() * self.ranges as u64 / 1000;
        let crowded = self.maps.count() > CROWDED;
        // Never at half as many, every time at half as many again.
        let too_many = wanted / 2 + self.dice.below(wanted) < self.held.len() as u64;
        if !self.held.is_empty() && (crowded || too_many) {
            let i = self.dice.below(self.held.len() as u64) as usize;
            self.give_back(i);
        } else {
            self.request();
        }
    }

    /// Every other page is granted, up to the ranges wanted, but for the place in the middle.
    fn chequer(&mut self) {
        let (most, pages) = place(self.ranges);
        let outside = (self.ranges - most) as u64 & !3;
        for i in 0..outside / 2 {
            let gap = if i < outside / 4 { 0 } else { pages };
            let at = BASE + PAGE * (2 * i + 1 + gap);
            self.add(Op::Allocate { size: PAGE, align: PAGE, policy: Policy::Exact(at) });
        }
        self.held.clear();
    }

    /// In the place: one to four pages are granted at a time until it is crowded, then given back in any order, and again.
    fn cut_and_melt(&mut self, cutting: &mut bool) {
        let (most, pages) = place(self.ranges);
        let first = BASE + PAGE * ((((self.ranges - most) as u64) & !3) / 2 + 1);
        if self.held.is_empty() {
            *cutting = true;
        } else if self.held.len() >= most {
            *cutting = false;
        }
        if *cutting {
            let at = first + PAGE * self.dice.below(pages - 2);
            let size = PAGE * (1 + self.dice.below(4));
            if self.maps.around(at).iter().any(|t| t.free && t.start <= at && at <= t.end) {
                self.add(Op::Allocate { size, align: PAGE, policy: Policy::Exact(at) });
            }
        } else {
            let i = self.dice.below(self.held.len() as u64) as usize;
            self.give_back(i);
        }
    }
}

/// The sequence of a workload at about so many ranges, with so many operations that count.
pub fn addresses(work: Work, ranges: usize, count: usize, seed: u64) -> Sequence<Op> {
    let maps = Maps::new(BASE, work.size(ranges), true);
    let mut maker = Maker { work, ranges, maps, held: Vec::new(), dice: Dice(seed), ops: Vec::new() };
    let mut cutting = true;
    let wanted = (work.granted() * ranges as u64 / 1000) as usize;
    if work == Work::W4 {
        maker.chequer();
    } else {
        while maker.held.len() < wanted * 9 / 10 && maker.ops.len() < 4 * ranges {
            maker.request();
        }
    }
    let mut step = |maker: &mut Maker| match work {
        Work::W4 => maker.cut_and_melt(&mut cutting),
        _ => maker.mixed(),
    };
    let filled = maker.ops.len();
    while maker.ops.len() < filled + 2 * ranges + 500 {
        step(&mut maker);
    }
    let warm = std::mem::take(&mut maker.ops);
    let (mut least, mut most) = (usize::MAX, 0);
    while maker.ops.len() < count {
        step(&mut maker);
        least = least.min(maker.maps.count());
        most = most.max(maker.maps.count());
    }
    Sequence { warm, ops: maker.ops, least, most }
}

/// Ids 1 to `ids`: all are granted and then given back in any order until `granted` are left; from there on one is granted or
/// given back at random. One in 128 operations gives back an id that is not granted.
pub fn ids(ids: u32, granted: u32, count: usize, seed: u64) -> Sequence<IdOp> {
    let mut dice = Dice(seed);
    let mut sets = Sets::new(1, ids);
    let mut held: Vec<u32> = (1..=ids).collect();
    let mut warm = vec![IdOp::Allocate; ids as usize];
    for op in &warm {
        sets.run(*op);
    }
    while held.len() > granted as usize {
        let id = held.swap_remove(dice.below(held.len() as u64) as usize);
        warm.push(IdOp::Free(id));
        sets.run(IdOp::Free(id));
    }
    // Half and half, but at most ten more or fewer than wanted.
    let (fewest, most_held) = (granted.saturating_sub(10) as usize, (granted + 10).min(ids) as usize);
    let mut ops = Vec::new();
    let mut released = 0;
    let (mut least, mut most) = (usize::MAX, 0);
    while ops.len() < count {
        let op = if dice.below(128) == 0 {
            let wrong = if sets.is_granted(released) { ids + 1 } else { released };
            IdOp::Free(wrong)
        } else if held.len() <= fewest || held.len() < most_held && dice.below(2) == 0 {
            IdOp::Allocate
        } else {
            released = held.swap_remove(dice.below(held.len() as u64) as usize);
            IdOp::Free(released)
        };
        if let (IdOp::Allocate, IdAnswer::Id(id)) = (op, sets.run(op)) {
            held.push(id);
        }
        ops.push(op);
        least = least.min(sets.granted());
        most = most.max(sets.granted());
    }
    Sequence { warm, ops, least, most }
}
