//! The library under comparison: what the driver and the replayer ask of it, and its C interface.
//!
//! Built with `--cfg port` the library is linked. Without it only the trait is there, and every part that
//! needs the library is reported as skipped.
use crate::words::{Answer, IdAnswer, IdOp, Op, Reason, Tile};

/// An address allocator in lent memory. Equality is of the memory, word for word.
pub trait Port: Clone + PartialEq {
    fn run(&mut self, op: &Op) -> Answer;
    /// The ranges in order, asked for one after the other from the pool's base on.
    fn tiles(&self, base: u64, end: u64) -> Vec<Tile>;
    /// How many addresses are free and the size of the largest free range; nothing where that is refused.
    fn left(&self) -> Option<(u64, u64)>;
}

/// An id allocator in lent memory.
pub trait PortIds: Clone + PartialEq {
    fn run(&mut self, op: IdOp) -> IdAnswer;
    fn is_allocated(&self, id: u32) -> bool;
    fn free_count(&self) -> u64;
}

/// How an address allocator is made: of a base, a size and a limit.
pub type Make<'a, P> = &'a (dyn Fn(u64, u64, usize) -> Result<P, Reason> + Sync);

/// How an id allocator is made: of the lowest and the highest id.
pub type MakeIds<'a, Q> = &'a (dyn Fn(u32, u32) -> Result<Q, Reason> + Sync);

#[cfg(port)]
mod native {
    use super::*;
    use crate::words::Policy;

    // The declarations of include/rangekeeper.h that are compared.
    extern "C" {
        fn rk_address_words(limit: usize) -> usize;
        fn rk_address_new(mem: *mut u64, words: usize, base: u64, size: u64, limit: usize) -> u32;
        fn rk_address_allocate(
            mem: *mut u64,
            words: usize,
            size: u64,
            alignment: u64,
            policy: u32,
            address: u64,
            start: *mut u64,
        ) -> u32;
        fn rk_address_free(mem: *mut u64, words: usize, start: u64, end: u64) -> u32;
        fn rk_address_at(mem: *const u64, words: usize, address: u64, start: *mut u64, end: *mut u64, tag: *mut u64) -> u32;
        fn rk_address_count(mem: *const u64, words: usize) -> u64;
        fn rk_address_left(mem: *const u64, words: usize, free: *mut u64, largest: *mut u64) -> u32;
        fn rk_id_words(lowest: u32, highest: u32) -> usize;
        fn rk_id_new(mem: *mut u64, words: usize, lowest: u32, highest: u32) -> u32;
        fn rk_id_allocate(mem: *mut u64, words: usize, id: *mut u32) -> u32;
        fn rk_id_free(mem: *mut u64, words: usize, id: u32) -> u32;
        fn rk_id_is_allocated(mem: *const u64, words: usize, id: u32) -> u32;
        fn rk_id_free_count(mem: *const u64, words: usize) -> u64;
    }

    /// What lent memory holds before an allocator is made in it: nothing that a correct one depends on.
    const JUNK: u64 = 0xdead_beef_0bad_cafe;

    #[derive(PartialEq)]
    pub struct Native {
        block: Vec<u64>,
    }

    impl Clone for Native {
        fn clone(&self) -> Native {
            Native { block: self.block.clone() }
        }

        fn clone_from(&mut self, other: &Native) {
            self.block.clone_from(&other.block);
        }
    }

    impl Native {
        pub fn new(base: u64, size: u64, limit: usize) -> Result<Native, Reason> {
            // SAFETY: the block is as long as it is said to be.
            let mut block = vec![JUNK; unsafe { rk_address_words(limit) }];
            let before = block.clone();
            let reason = unsafe { rk_address_new(block.as_mut_ptr(), block.len(), base, size, limit) };
            match reason {
                0 => Ok(Native { block }),
                _ if block != before => Err(Reason::Strange),
                r => Err(Reason::from_number(r)),
            }
        }
    }

    impl Port for Native {
        fn run(&mut self, op: &Op) -> Answer {
            let (mem, words) = (self.block.as_mut_ptr(), self.block.len());
            match *op {
                Op::Allocate { size, align, policy } => {
                    // The address is given only meaning by exact: the others get one that must not matter.
                    let (kind, address) = match policy {
                        Policy::First => (0, size ^ 0x55),
                        Policy::Last => (1, size ^ 0xaa),
                        Policy::Exact(at) => (2, at),
                    };
                    let mut start = JUNK;
                    // SAFETY: the block is as long as it is said to be, and `start` is a number of this frame.
                    match unsafe { rk_address_allocate(mem, words, size, align, kind, address, &mut start) } {
                        0 => Answer::Granted(start, start.wrapping_add(size).wrapping_sub(1)),
                        r => Answer::Refused(Reason::from_number(r)),
                    }
                }
                // SAFETY: as above.
                Op::Free { start, end } => match unsafe { rk_address_free(mem, words, start, end) } {
                    0 => Answer::Done,
                    r => Answer::Refused(Reason::from_number(r)),
                },
            }
        }

        fn tiles(&self, base: u64, end: u64) -> Vec<Tile> {
            let mut tiles = Vec::new();
            let mut at = base;
            loop {
                let (mut start, mut last, mut tag) = (JUNK, JUNK, JUNK);
                // SAFETY: the block is as long as it is said to be; the three numbers are of this frame.
                let reason =
                    unsafe { rk_address_at(self.block.as_ptr(), self.block.len(), at, &mut start, &mut last, &mut tag) };
                if reason != 0 || start != at || last < at {
                    return Vec::new();
                }
                tiles.push(Tile { start, end: last, free: tag == 0 });
                if last >= end {
                    break;
                }
                at = last + 1;
            }
            // SAFETY: as above.
            let count = unsafe { rk_address_count(self.block.as_ptr(), self.block.len()) };
            if count == tiles.len() as u64 {
                tiles
            } else {
                Vec::new()
            }
        }

        fn left(&self) -> Option<(u64, u64)> {
            let (mut free, mut largest) = (JUNK, JUNK);
            // SAFETY: the block is as long as it is said to be; the two numbers are of this frame.
            let reason = unsafe { rk_address_left(self.block.as_ptr(), self.block.len(), &mut free, &mut largest) };
            (reason == 0).then_some((free, largest))
        }
    }

    #[derive(Clone, PartialEq)]
    pub struct NativeIds {
        block: Vec<u64>,
    }

    impl NativeIds {
        pub fn new(lowest: u32, highest: u32) -> Result<NativeIds, Reason> {
            // SAFETY: the block is as long as it is said to be.
            let mut block = vec![JUNK; unsafe { rk_id_words(lowest, highest) }];
            let before = block.clone();
            let reason = unsafe { rk_id_new(block.as_mut_ptr(), block.len(), lowest, highest) };
            match reason {
                0 => Ok(NativeIds { block }),
                _ if block != before => Err(Reason::Strange),
                r => Err(Reason::from_number(r)),
            }
        }
    }

    impl PortIds for NativeIds {
        fn run(&mut self, op: IdOp) -> IdAnswer {
            let (mem, words) = (self.block.as_mut_ptr(), self.block.len());
            let mut id = 0;
            // SAFETY: the block is as long as it is said to be, and `id` is a number of this frame.
            let reason = match op {
                IdOp::Allocate => unsafe { rk_id_allocate(mem, words, &mut id) },
                IdOp::Free(freed) => {
                    id = freed;
                    unsafe { rk_id_free(mem, words, freed) }
                }
            };
            match reason {
                0 => IdAnswer::Id(id),
                r => IdAnswer::Refused(Reason::from_number(r)),
            }
        }

        fn is_allocated(&self, id: u32) -> bool {
            // SAFETY: the block is as long as it is said to be.
            unsafe { rk_id_is_allocated(self.block.as_ptr(), self.block.len(), id) != 0 }
        }

        fn free_count(&self) -> u64 {
            // SAFETY: as above.
            unsafe { rk_id_free_count(self.block.as_ptr(), self.block.len()) }
        }
    }
}

#[cfg(port)]
pub use native::{Native, NativeIds};
