//! The id allocator.

use rangekeeper::{Error, IdAllocator};

fn ids(lowest: u32, highest: u32) -> IdAllocator {
    IdAllocator::new(lowest, highest).unwrap()
}

#[test]
fn an_interval_that_is_none() {
    assert_eq!(IdAllocator::new(23, 5).unwrap_err(), Error::InvalidRange(23, 5));
    assert_eq!(IdAllocator::new(u32::MAX, 0).unwrap_err(), Error::InvalidRange(u32::MAX.into(), 0));
}

#[test]
fn all_of_them_in_order_and_no_more() {
    let mut irqs = ids(5, 23);
    for expected in 5..=23 {
        assert_eq!(irqs.allocate_id(), Ok(expected));
    }
    assert_eq!(irqs.allocate_id(), Err(Error::ResourceNotAvailable));
    let mut one = ids(7, 7);
    assert_eq!((one.allocate_id(), one.allocate_id()), (Ok(7), Err(Error::ResourceNotAvailable)));
}

#[test]
fn overflow_past_the_highest_number() {
    let mut high = ids(u32::MAX - 1, u32::MAX);
    assert_eq!(high.allocate_id(), Ok(u32::MAX - 1));
    assert_eq!(high.allocate_id(), Ok(u32::MAX));
    assert_eq!(high.allocate_id(), Err(Error::Overflow));
    assert_eq!(high.free_id(u32::MAX), Ok(u32::MAX));
    assert_eq!(high.free_id(u32::MAX), Err(Error::AlreadyReleased(u32::MAX)));
    assert_eq!(high.allocate_id(), Ok(u32::MAX));
}

#[test]
fn given_back_and_granted_again() {
    let mut irqs = ids(5, 23);
    assert_eq!(irqs.free_id(3), Err(Error::OutOfRange(3)));
    assert_eq!(irqs.free_id(24), Err(Error::OutOfRange(24)));
    for expected in 5..14 {
        assert_eq!(irqs.allocate_id(), Ok(expected));
    }
    assert_eq!(irqs.free_id(10), Ok(10));
    assert_eq!(irqs.free_id(10), Err(Error::AlreadyReleased(10)));
    assert_eq!(irqs.free_id(9), Ok(9));
    assert_eq!(irqs.allocate_id(), Ok(9));
    assert_eq!(irqs.free_id(21), Err(Error::NeverAllocated(21)));
    assert_eq!(irqs.free_id(14), Err(Error::NeverAllocated(14)));
    assert_eq!(irqs.allocate_id(), Ok(10));
    for expected in 14..=23 {
        assert_eq!(irqs.allocate_id(), Ok(expected));
    }
    assert_eq!(irqs.allocate_id(), Err(Error::ResourceNotAvailable));
}

#[test]
fn the_next_id_was_never_granted() {
    let mut irqs = ids(5, 23);
    assert_eq!(irqs.free_id(5), Err(Error::NeverAllocated(5)));
    for _ in 0..3 {
        irqs.allocate_id().unwrap();
    }
    let before = irqs.clone();
    assert_eq!(irqs.free_id(8), Err(Error::NeverAllocated(8)));
    assert_eq!(irqs, before);
    // Refused, so that it is not handed out twice.
    assert_eq!((irqs.allocate_id(), irqs.allocate_id()), (Ok(8), Ok(9)));
}

#[test]
fn a_large_interval() {
    let mut many = ids(0, 99_999);
    for expected in 0..100_000 {
        assert_eq!(many.allocate_id(), Ok(expected));
    }
    for id in [99_999, 64, 4095, 63] {
        assert_eq!(many.free_id(id), Ok(id));
    }
    for expected in [63, 64, 4095, 99_999] {
        assert_eq!(many.allocate_id(), Ok(expected));
    }
    assert_eq!(many.allocate_id(), Err(Error::ResourceNotAvailable));
}

fn told(ids: &IdAllocator, asked: &[u32]) -> Vec<bool> {
    asked.iter().map(|id| ids.is_allocated(*id)).collect()
}

#[test]
fn granted_is_told_and_nothing_else() {
    let mut irqs = ids(5, 23);
    assert_eq!(told(&irqs, &[4, 24, 10]), [false, false, false]);
    assert_eq!(irqs.allocate_id(), Ok(5));
    assert_eq!(told(&irqs, &[5, 6]), [true, false]);
    irqs.free_id(5).unwrap();
    assert!(!irqs.is_allocated(5));
    assert_eq!(irqs.allocate_id(), Ok(5));
    assert!(irqs.is_allocated(5));
    // and no question changed anything
    let before = irqs.clone();
    assert_eq!(told(&irqs, &[0, 5, 23, u32::MAX]), [false, true, false, false]);
    assert_eq!(irqs, before);
}

#[test]
fn the_highest_numbers_are_told() {
    let (first, last) = (u32::MAX - 1, u32::MAX);
    let mut high = ids(first, last);
    assert_eq!(told(&high, &[first, last]), [false, false]);
    assert_eq!(high.allocate_id(), Ok(first));
    assert_eq!(told(&high, &[first, last]), [true, false]);
    assert_eq!(high.allocate_id(), Ok(last));
    assert_eq!(told(&high, &[first, last]), [true, true]);
    high.free_id(last).unwrap();
    assert_eq!(told(&high, &[first, last, 0]), [true, false, false]);
}

#[test]
fn what_was_given_back_is_told() {
    let mut irqs = ids(5, 23);
    assert_eq!((irqs.allocate_id(), irqs.allocate_id()), (Ok(5), Ok(6)));
    assert_eq!(told(&irqs, &[5, 6, 7]), [true, true, false]);
    irqs.free_id(5).unwrap();
    assert_eq!(told(&irqs, &[5, 6, 7]), [false, true, false]);
}

#[test]
fn what_is_left_is_counted() {
    let mut irqs = ids(5, 23);
    assert_eq!(irqs.free_count(), 19);
    for left in (0..19).rev() {
        irqs.allocate_id().unwrap();
        assert_eq!(irqs.free_count(), left);
    }
    irqs.free_id(7).unwrap();
    assert_eq!(irqs.free_id(7), Err(Error::AlreadyReleased(7)));
    assert_eq!(irqs.free_count(), 1);
    for last in [0, 62, 63, 64, 127, 128, 4095, 4096, 99_999] {
        let mut many = ids(0, last);
        assert_eq!(many.free_count(), u64::from(last) + 1);
        many.allocate_id().unwrap();
        assert_eq!(many.free_count(), u64::from(last));
    }
}
