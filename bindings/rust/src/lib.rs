//! Address ranges and interrupt numbers for virtual machine monitors.
//!
//! [`AddressAllocator`] grants ranges of a pool of addresses, [`IdAllocator`] numbers of an interval. The names and signatures are those of
//! the crate vm-allocator 0.1.4, so that a program changes over by one line of its `Cargo.toml`:
//!
//! ```toml
//! vm-allocator = { package = "rangekeeper", path = "rangekeeper/bindings/rust" }
//! ```
//!
//! The work is done by a library whose every function is proved against its contract, for every input; this crate owns the memory that the
//! library works in and lends it for each call. What an allocator answers follows from what is granted now, and from nothing else.
//!
//! # Example
//!
//! A monitor that hands a window of addresses and a number to each of its devices, and takes them back.
//!
//! ```
//! use rangekeeper::{AddressAllocator, AllocPolicy, Error, IdAllocator, RangeInclusive, Result};
//! use std::collections::HashMap;
//!
//! const PAGE: u64 = 0x1000;
//! // 768 MiB below 4 GiB.
//! const WINDOWS_SIZE: u64 = 768 << 20;
//! const WINDOWS_BASE: u64 = (1 << 32) - WINDOWS_SIZE;
//!
//! struct Devices {
//!     numbers: IdAllocator,
//!     windows: AddressAllocator,
//!     plugged: HashMap<u32, RangeInclusive>,
//! }
//!
//! impl Devices {
//!     fn new() -> Result<Self> {
//!         Ok(Devices {
//!             numbers: IdAllocator::new(0, 100)?,
//!             windows: AddressAllocator::new(WINDOWS_BASE, WINDOWS_SIZE)?,
//!             plugged: HashMap::new(),
//!         })
//!     }
//!
//!     fn plug(&mut self) -> Result<(u32, RangeInclusive)> {
//!         let window = self.windows.allocate(PAGE, PAGE, AllocPolicy::FirstMatch)?;
//!         let number = self.numbers.allocate_id()?;
//!         self.plugged.insert(number, window);
//!         Ok((number, window))
//!     }
//!
//!     fn unplug(&mut self, number: u32) -> Result<()> {
//!         let window = self.plugged.remove(&number).ok_or(Error::NeverAllocated(number))?;
//!         self.numbers.free_id(number)?;
//!         self.windows.free(&window)
//!     }
//! }
//!
//! # fn main() -> Result<()> {
//! let mut devices = Devices::new()?;
//! let (number, window) = devices.plug()?;
//! assert_eq!((number, window), (0, RangeInclusive::new(0xd000_0000, 0xd000_0fff)?));
//! devices.unplug(number)?;
//! assert_eq!(devices.unplug(number), Err(Error::NeverAllocated(number)));
//! # Ok(())
//! # }
//! ```

#![no_std]
#![deny(missing_docs)]
#![deny(unsafe_code)]

extern crate alloc;

mod address_allocator;
mod constraint;
mod error;
mod id_allocator;
mod native;
mod range;
mod saved;
mod together;

pub use address_allocator::{AddressAllocator, DEFAULT_LIMIT};
pub use constraint::{AllocPolicy, Constraint, DEFAULT_CONSTRAINT_ALIGN};
pub use error::{Error, Result};
pub use id_allocator::IdAllocator;
pub use range::RangeInclusive;
pub use saved::{Flaw, Unreadable};
pub use together::{all_three, both, Refused, Which};

/// A block of so many words, to be lent; of none where there is no memory for it, which the library then refuses as too short.
fn block(words: usize) -> alloc::vec::Vec<u64> {
    let mut block = alloc::vec::Vec::new();
    if block.try_reserve_exact(words).is_ok() {
        block.resize(words, 0);
    }
    block
}

/// Word i of bytes that begin with a saved allocator.
fn word(bytes: &[u8], i: usize) -> u64 {
    bytes[8 * i..].iter().take(8).rev().fold(0, |word, &byte| word << 8 | u64::from(byte))
}

/// So many bytes, to be lent.
fn zeros(bytes: usize) -> alloc::vec::Vec<u8> {
    let mut zeros = alloc::vec::Vec::new();
    zeros.resize(bytes, 0);
    zeros
}
