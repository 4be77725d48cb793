//! Ranges and requests.

use rangekeeper::{AllocPolicy, Constraint, Error, RangeInclusive, DEFAULT_CONSTRAINT_ALIGN};

fn range(start: u64, end: u64) -> RangeInclusive {
    RangeInclusive::new(start, end).unwrap()
}

#[test]
fn a_pair_that_is_no_range() {
    for (start, end) in [(2, 1), (0, u64::MAX), (u64::MAX, 0)] {
        assert_eq!(RangeInclusive::new(start, end), Err(Error::InvalidRange(start, end)));
    }
    assert_eq!(range(0, u64::MAX - 1).len(), u64::MAX);
    assert_eq!(range(1, u64::MAX).len(), u64::MAX);
    assert_eq!(range(u64::MAX, u64::MAX).len(), 1);
}

#[test]
fn its_ends_and_its_length() {
    let r = range(3, 5);
    assert_eq!((r.start(), r.end(), r.len()), (3, 5, 3));
    assert_eq!(range(1, 4).len(), 4);
}

#[test]
fn overlaps() {
    let r = range(1, 4);
    for (other, expected) in
        [(range(4, 6), true), (range(2, 3), true), (range(5, 6), false), (range(0, 0), false), (r, true)]
    {
        assert_eq!(r.overlaps(&other), expected, "{other:?}");
        assert_eq!(other.overlaps(&r), expected, "{other:?}");
    }
}

#[test]
fn contains() {
    let r = range(2, 6);
    for inside in [range(2, 3), range(3, 4), range(5, 6), r] {
        assert!(r.contains(&inside), "{inside:?}");
    }
    for outside in [range(1, 2), range(1, 3), range(1, 7), range(7, 8), range(6, 7)] {
        assert!(!r.contains(&outside), "{outside:?}");
    }
}

#[test]
fn ordered_by_start_then_end() {
    let r = range(1, 4);
    assert_eq!(r, range(1, 4));
    assert!(range(1, 3) < r && r < range(1, 5) && r < range(2, 2));
}

#[test]
fn requests() {
    let request = Constraint::new(0x1000, 0x1000, AllocPolicy::default()).unwrap();
    assert_eq!((request.size(), request.align()), (0x1000, 0x1000));
    assert_eq!(AllocPolicy::default(), AllocPolicy::FirstMatch);
    assert_eq!(DEFAULT_CONSTRAINT_ALIGN, 4);
    assert!(Constraint::new(1, 1 << 63, AllocPolicy::ExactMatch(1 << 63)).is_ok());

    let refused = |size, align, policy| Constraint::new(size, align, policy).unwrap_err();
    assert_eq!(refused(0x1000, 0x1000, AllocPolicy::ExactMatch(0xc)), Error::UnalignedAddress);
    assert_eq!(refused(4, 4, AllocPolicy::ExactMatch(3)), Error::UnalignedAddress);
    assert_eq!(refused(4, 3, AllocPolicy::LastMatch), Error::InvalidAlignment);
    // Size before alignment, alignment before address.
    assert_eq!(refused(0, 0, AllocPolicy::ExactMatch(3)), Error::InvalidSize(0));
    assert_eq!(refused(4, 0, AllocPolicy::ExactMatch(3)), Error::InvalidAlignment);
}
