//! Copies, and several things or none, beside the same calls one after the other.

use rangekeeper::{all_three, both, AddressAllocator, AllocPolicy, Constraint, Error, IdAllocator, Which};

fn lowest(size: u64) -> Constraint {
    Constraint::new(size, 1, AllocPolicy::FirstMatch).unwrap()
}

/// Two pools and ids with some of each granted, each time a little less left.
fn filled(windows: u64, ports: u64, ids: u32) -> (AddressAllocator, AddressAllocator, IdAllocator) {
    let mut a = AddressAllocator::with_limit(0x1000, 16, 8).unwrap();
    let mut b = AddressAllocator::with_limit(u64::MAX - 15, 16, 8).unwrap();
    let mut c = IdAllocator::new(5, 8).unwrap();
    for i in 0..windows {
        a.allocate(1, 1, AllocPolicy::ExactMatch(0x1000 + 3 * i)).unwrap();
    }
    for _ in 0..ports {
        b.allocate(3, 1, AllocPolicy::LastMatch).unwrap();
    }
    for _ in 0..ids {
        c.allocate_id().unwrap();
    }
    (a, b, c)
}

#[test]
fn both_is_one_after_the_other_or_nothing() {
    for (windows, ports) in (0..4).flat_map(|w| (0..6).map(move |p| (w, p))) {
        for (one, two) in (1..17).flat_map(|x| (1..17).map(move |y| (x, y))) {
            let (mut a, mut b, _) = filled(windows, ports, 0);
            let (mut x, mut y) = (a.clone(), b.clone());
            let alone = x.allocate(one, 1, AllocPolicy::FirstMatch).map_err(|e| (Which::First, e)).and_then(|r| {
                let s = y.allocate(two, 1, AllocPolicy::FirstMatch).map_err(|e| (Which::Second, e))?;
                Ok((r, s))
            });
            let before = (a.clone(), b.clone());
            let together = both(&mut a, lowest(one), &mut b, lowest(two)).map_err(|r| (r.which, r.error));
            assert_eq!(together, alone);
            assert_eq!((a, b), if together.is_ok() { (x, y) } else { before });
        }
    }
}

#[test]
fn all_three_or_nothing() {
    for (ports, ids) in (0..6).flat_map(|p| (0..5).map(move |i| (p, i))) {
        let (mut a, mut b, mut c) = filled(1, ports, ids);
        let before = (a.clone(), b.clone(), c.clone());
        match all_three(&mut a, lowest(2), &mut b, lowest(3), &mut c) {
            Ok((r, s, id)) => {
                assert!(ports < 5 && ids < 4);
                assert_eq!((r.start(), r.len(), s.len(), id), (0x1001, 2, 3, 5 + ids));
                assert!(c.is_allocated(id));
            }
            Err(refused) => {
                assert_eq!(refused.which, if ports == 5 { Which::Second } else { Which::Ids });
                assert_eq!(refused.error, Error::ResourceNotAvailable);
                assert_eq!((a, b, c), before);
            }
        }
    }
}

#[test]
fn a_copy_has_the_limit_that_is_given() {
    let (a, _, _) = filled(2, 0, 0);
    for limit in 0..16 {
        match a.copy_with_limit(limit) {
            Ok(copy) => {
                assert!(limit >= 8);
                assert_eq!(copy.limit(), limit);
                assert_eq!(copy == a, limit == 8);
                assert_eq!(copy.free_addresses(), a.free_addresses());
            }
            Err(e) => assert!(limit < 8 && e == Error::NoRoom),
        }
    }
    assert_eq!(a.copy_with_limit(4097), Err(Error::NoRoom));
}
