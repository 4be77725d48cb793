//! Saved and read again: what to_bytes and from_bytes promise.

use rangekeeper::{AddressAllocator, AllocPolicy, Flaw, IdAllocator, Unreadable};
use AllocPolicy::{ExactMatch, FirstMatch};

fn pool() -> AddressAllocator {
    let mut pool = AddressAllocator::with_limit(0x1000, 0x100, 5).unwrap();
    pool.allocate(0x10, 1, FirstMatch).unwrap();
    pool.allocate(0x20, 1, ExactMatch(0x1040)).unwrap();
    pool
}

fn ids() -> IdAllocator {
    let mut ids = IdAllocator::new(5, 23).unwrap();
    for _ in 0..4 {
        ids.allocate_id().unwrap();
    }
    ids.free_id(6).unwrap();
    ids
}

fn word(bytes: &[u8], i: usize) -> u64 {
    u64::from_le_bytes(bytes[8 * i..8 * i + 8].try_into().unwrap())
}

#[test]
fn a_pool_goes_on_as_it_would_have() {
    let mut first = pool();
    let mut bytes = first.to_bytes();
    assert_eq!(bytes.len(), 64 + 4 * 16);
    assert_eq!(&bytes[..8], b"RKsavedA");
    let words: Vec<u64> = (1..16).map(|i| word(&bytes, i)).collect();
    assert_eq!(words[..5], [1, 0x1000, 0x10ff, 5, 8]);
    assert_eq!(words[6..14], [0x1000, 1, 0x1010, 0, 0x1040, 1, 0x1060, 0]);
    // as docs/FORMAT.md has them
    assert_eq!((words[5], words[14]), (0x124c_4f5e_8072_c835, 0xd6f8_93e7_f78e_3346));
    bytes.extend([7; 9]);
    let (mut second, read) = AddressAllocator::from_bytes(&bytes).unwrap();
    assert_eq!((read, second.limit()), (128, 5));
    assert_eq!(first, second);
    for _ in 0..4 {
        assert_eq!(first.allocate(0x18, 8, FirstMatch), second.allocate(0x18, 8, FirstMatch));
    }
    assert_eq!(first.to_bytes(), second.to_bytes());
}

#[test]
fn ids_go_on_as_they_would_have() {
    let mut first = ids();
    let bytes = first.to_bytes();
    assert_eq!(&bytes[..8], b"RKsavedI");
    assert_eq!((1..6).map(|i| word(&bytes, i)).collect::<Vec<_>>(), [1, 5, 23, 9, 1]);
    assert_eq!((word(&bytes, 7), bytes.len()), (6, 72));
    // as docs/FORMAT.md has them
    assert_eq!((word(&bytes, 6), word(&bytes, 8)), (0xaa4c_4f5e_8070_8099, 0xfb93_b86e_0546_0732));
    let (mut second, read) = IdAllocator::from_bytes(&bytes).unwrap();
    assert_eq!((read, &second), (72, &first));
    assert_eq!((first.allocate_id(), first.allocate_id()), (second.allocate_id(), second.allocate_id()));
    assert_eq!(first.to_bytes(), second.to_bytes());
}

#[test]
fn what_is_wrong_is_named_with_its_place() {
    let bytes = pool().to_bytes();
    let read = |bytes: &[u8]| AddressAllocator::from_bytes(bytes).map(|(_, read)| read);
    assert_eq!(read(&bytes[..100]), Err(Unreadable { flaw: Flaw::Short, place: 100 }));
    assert_eq!(read(&[]), Err(Unreadable { flaw: Flaw::Short, place: 0 }));
    assert_eq!(IdAllocator::from_bytes(&bytes).unwrap_err(), Unreadable { flaw: Flaw::Kind, place: 0 });
    for bit in 0..8 * bytes.len() {
        let mut flipped = bytes.clone();
        flipped[bit / 8] ^= 1 << (bit % 8);
        assert!(read(&flipped).is_err());
    }
    let message = AddressAllocator::from_bytes(&bytes[..100]).unwrap_err().to_string();
    assert_eq!(message, "not a saved allocator: they end too early, at byte 100");
}

#[test]
fn a_large_interval_in_damaged_bytes_takes_no_memory() {
    let mut bytes = ids().to_bytes();
    bytes[24..32].copy_from_slice(&u64::from(u32::MAX).to_le_bytes());
    assert_eq!(IdAllocator::from_bytes(&bytes).unwrap_err(), Unreadable { flaw: Flaw::Check, place: 48 });
}
