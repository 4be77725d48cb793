//! The names, signatures and traits of vm-allocator 0.1.4: a program that is written for it compiles if this does.

use rangekeeper::{
    AddressAllocator, AllocPolicy, Constraint, Error, IdAllocator, RangeInclusive, Result, DEFAULT_CONSTRAINT_ALIGN,
};
use std::fmt::{Debug, Display};
use std::hash::Hash;

const _: fn(u64, u64) -> Result<RangeInclusive> = RangeInclusive::new;
const _: fn(&RangeInclusive) -> u64 = RangeInclusive::len;
const _: fn(&RangeInclusive) -> u64 = RangeInclusive::start;
const _: fn(&RangeInclusive) -> u64 = RangeInclusive::end;
const _: fn(&RangeInclusive, &RangeInclusive) -> bool = RangeInclusive::overlaps;
const _: fn(&RangeInclusive, &RangeInclusive) -> bool = RangeInclusive::contains;

const _: fn(u64, u64, AllocPolicy) -> Result<Constraint> = Constraint::new;
const _: fn(Constraint) -> u64 = Constraint::size;
const _: fn(Constraint) -> u64 = Constraint::align;
const _: u64 = DEFAULT_CONSTRAINT_ALIGN;

const _: fn(u64, u64) -> std::result::Result<AddressAllocator, Error> = AddressAllocator::new;
const _: fn(&mut AddressAllocator, u64, u64, AllocPolicy) -> Result<RangeInclusive> = AddressAllocator::allocate;
const _: fn(&mut AddressAllocator, &RangeInclusive) -> Result<()> = AddressAllocator::free;
const _: fn(&AddressAllocator) -> u64 = AddressAllocator::base;
const _: fn(&AddressAllocator) -> u64 = AddressAllocator::end;

const _: fn(u32, u32) -> Result<IdAllocator> = IdAllocator::new;
const _: fn(&mut IdAllocator) -> Result<u32> = IdAllocator::allocate_id;
const _: fn(&mut IdAllocator, u32) -> Result<u32> = IdAllocator::free_id;
const _: fn(&IdAllocator, u32) -> bool = IdAllocator::is_allocated;

fn range<T: Copy + Ord + Hash + Debug>() {}
fn request<T: Copy + Eq + Debug>() {}
fn policy<T: Copy + Eq + Debug + Default>() {}
fn error<T: Copy + Ord + Debug + Display + std::error::Error>() {}
fn pool<T: Clone + Ord + Debug>() {}
fn ids<T: Clone + Debug>() {}

#[test]
fn the_traits_are_there() {
    range::<RangeInclusive>();
    request::<Constraint>();
    policy::<AllocPolicy>();
    error::<Error>();
    pool::<AddressAllocator>();
    ids::<IdAllocator>();
}

#[test]
fn the_errors_have_its_order() {
    let range = RangeInclusive::new(1, 2).unwrap();
    let in_order = [
        Error::Overflow,
        Error::OutOfRange(1),
        Error::AlreadyReleased(1),
        Error::NeverAllocated(1),
        Error::ResourceNotAvailable,
        Error::InvalidRange(2, 1),
        Error::InvalidAlignment,
        Error::Overlap(range, range),
        Error::UnalignedAddress,
        Error::Underflow,
        Error::InvalidSize(0),
    ];
    assert!(in_order.windows(2).all(|pair| pair[0] < pair[1]));
}
