//! What the traits say: copies, equality and order of states, what is printed.

use rangekeeper::{AddressAllocator, AllocPolicy, Error, IdAllocator, RangeInclusive, DEFAULT_LIMIT};
use std::error::Error as _;
use AllocPolicy::{ExactMatch, FirstMatch};

fn pool() -> AddressAllocator {
    AddressAllocator::new(0x1000, 0x1000).unwrap()
}

#[test]
fn equal_whatever_was_done_before() {
    let mut long = pool();
    let low = long.allocate(0x100, 0x100, FirstMatch).unwrap();
    let next = long.allocate(0x100, 0x100, FirstMatch).unwrap();
    long.free(&low).unwrap();

    let mut short = pool();
    assert_ne!(long, short);
    short.allocate(0x100, 0x100, ExactMatch(next.start())).unwrap();
    assert_eq!(long, short);
    short.free(&next).unwrap();
    assert_eq!(short, pool());
}

#[test]
fn unequal_by_pool_limit_or_granted_ranges() {
    assert_ne!(pool(), AddressAllocator::new(0x1000, 0x1001).unwrap());
    assert_ne!(pool(), AddressAllocator::new(0xfff, 0x1001).unwrap());
    assert_ne!(pool(), AddressAllocator::with_limit(0x1000, 0x1000, DEFAULT_LIMIT - 1).unwrap());
    let (mut a, mut b) = (pool(), pool());
    a.allocate(0x10, 1, ExactMatch(0x1000)).unwrap();
    a.allocate(0x10, 1, ExactMatch(0x1010)).unwrap();
    b.allocate(0x20, 1, ExactMatch(0x1000)).unwrap();
    assert_ne!(a, b);
}

#[test]
fn ordered() {
    let (mut a, b, mut c) = (pool(), pool(), pool());
    a.allocate(0x10, 1, ExactMatch(0x1100)).unwrap();
    c.allocate(0x10, 1, ExactMatch(0x1200)).unwrap();
    assert!(b < a && a < c && b < c);
    assert!(c < AddressAllocator::new(0x1001, 1).unwrap());
}

#[test]
fn a_copy_goes_its_own_way() {
    let mut first = pool();
    let mut copy = first.clone();
    let granted = first.allocate(0x100, 1, FirstMatch).unwrap();
    assert_eq!(copy.free(&granted), Err(Error::ResourceNotAvailable));
    assert_eq!(copy.allocate(0x100, 1, FirstMatch), Ok(granted));
    assert_eq!(first, copy);

    let mut ids = IdAllocator::new(1, 3).unwrap();
    let mut other = ids.clone();
    assert_eq!((ids.allocate_id(), ids.allocate_id(), other.allocate_id()), (Ok(1), Ok(2), Ok(1)));
    assert_ne!(ids, other);
    other.allocate_id().unwrap();
    assert_eq!(ids, other);
    // As many ids were ever granted, but not the same are now.
    other.free_id(1).unwrap();
    assert_ne!(ids, other);
    // The same are granted now, but not as many ever were.
    let fresh = IdAllocator::new(1, 3).unwrap();
    ids.free_id(1).unwrap();
    ids.free_id(2).unwrap();
    assert_ne!(ids, fresh);
}

#[test]
fn limits() {
    assert_eq!(pool().limit(), 4096);
    for limit in [0, 4097, usize::MAX] {
        assert_eq!(AddressAllocator::with_limit(0, 1, limit).unwrap_err(), Error::NoRoom);
        // What is wrong with the pool is said first.
        assert_eq!(AddressAllocator::with_limit(0, 0, limit).unwrap_err(), Error::Underflow);
    }
    // As many ranges as there can be, and the limit before there is no place.
    let mut pool = AddressAllocator::new(0, 1 << 20).unwrap();
    for i in 0..2047 {
        pool.allocate(1, 1, ExactMatch(1 + 2 * i)).unwrap();
    }
    assert_eq!(pool.allocate(1, 1, ExactMatch(1 << 19)), Err(Error::NoRoom));
    assert_eq!(pool.allocate(1, 1, FirstMatch).map(|r| r.start()), Ok(0));
}

#[test]
fn printed() {
    let mut pool = AddressAllocator::with_limit(0, 16, 8).unwrap();
    pool.allocate(4, 4, ExactMatch(8)).unwrap();
    let expected = "AddressAllocator { base: 0, end: 15, limit: 8, granted: [RangeInclusive { start: 8, end: 11 }] }";
    assert_eq!(format!("{pool:?}"), expected);

    let mut ids = IdAllocator::new(5, 23).unwrap();
    for _ in 0..3 {
        ids.allocate_id().unwrap();
    }
    ids.free_id(6).unwrap();
    assert_eq!(format!("{ids:?}"), "IdAllocator { lowest: 5, highest: 23, next: Some(8), freed: [6] }");

    let error = Error::InvalidRange(2, 1);
    assert_eq!((error.to_string().as_str(), error.source().is_none()), ("0x2 to 0x1 is no range", true));
}

#[test]
fn the_variants_that_name_a_range_are_there() {
    let range = RangeInclusive::new(1, 2).unwrap();
    let error = Error::Overlap(range, range);
    // As a program that was written for vm-allocator tells them apart.
    let named = match error {
        Error::Overlap(a, b) => Some((a, b)),
        Error::InvalidStateTransition(a, _) => Some((a, a)),
        _ => None,
    };
    assert_eq!(named, Some((range, range)));
}

#[test]
fn sent_to_another_thread() {
    fn sendable<T: Send + Sync + 'static>(value: T) -> T {
        value
    }
    assert_eq!(sendable(pool()), pool());
    assert_eq!(sendable(IdAllocator::new(0, 1).unwrap()), IdAllocator::new(0, 1).unwrap());
}
