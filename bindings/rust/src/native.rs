//! The library's functions, with slices and references for pointers: all of this crate's unsafe code.
//!
//! The library demands nothing of the contents of a block or of the numbers. What it asks of pointers, references give: a slice's pointer
//! and length belong together, a `&mut` is not NULL and overlaps nothing else that is lent. It keeps no pointer after it returns, and
//! writes to a block or an out-parameter only through those that are `&mut` here.

#![allow(unsafe_code)]

/// The reasons' numbers, as in `rangekeeper.h`.
pub mod reason {
    pub const DONE: u32 = 0;
    pub const OVERFLOW: u32 = 1;
    pub const OUT_OF_RANGE: u32 = 2;
    pub const ALREADY_RELEASED: u32 = 3;
    pub const NEVER_ALLOCATED: u32 = 4;
    pub const RESOURCE_NOT_AVAILABLE: u32 = 5;
    pub const INVALID_RANGE: u32 = 6;
    pub const INVALID_ALIGNMENT: u32 = 7;
    pub const UNALIGNED_ADDRESS: u32 = 8;
    pub const UNDERFLOW: u32 = 9;
    pub const INVALID_SIZE: u32 = 10;
    pub const NO_ROOM: u32 = 11;
    pub const INVALID_POLICY: u32 = 12;
    pub const NO_STATE: u32 = 13;
}

extern "C" {
    fn rk_address_words(limit: usize) -> usize;
    fn rk_address_new(mem: *mut u64, words: usize, base: u64, size: u64, limit: usize) -> u32;
    fn rk_address_allocate(
        mem: *mut u64,
        words: usize,
        size: u64,
        alignment: u64,
        policy: u32,
        address: u64,
        start: *mut u64,
    ) -> u32;
    fn rk_address_free(mem: *mut u64, words: usize, start: u64, end: u64) -> u32;
    fn rk_address_at(mem: *const u64, words: usize, address: u64, start: *mut u64, end: *mut u64, tag: *mut u64) -> u32;
    fn rk_address_base(mem: *const u64, words: usize) -> u64;
    fn rk_address_end(mem: *const u64, words: usize) -> u64;
    fn rk_address_saved_bytes(mem: *const u64, words: usize) -> usize;
    fn rk_address_save(mem: *const u64, words: usize, bytes: *mut u8, length: usize, written: *mut usize) -> u32;
    fn rk_address_load(bytes: *const u8, length: usize, mem: *mut u64, words: usize, at: *mut usize) -> u32;
    fn rk_address_left(mem: *const u64, words: usize, free: *mut u64, largest: *mut u64) -> u32;
    fn rk_id_words(lowest: u32, highest: u32) -> usize;
    fn rk_id_new(mem: *mut u64, words: usize, lowest: u32, highest: u32) -> u32;
    fn rk_id_allocate(mem: *mut u64, words: usize, id: *mut u32) -> u32;
    fn rk_id_free(mem: *mut u64, words: usize, id: u32) -> u32;
    fn rk_id_saved_bytes(mem: *const u64, words: usize) -> usize;
    fn rk_id_save(mem: *const u64, words: usize, bytes: *mut u8, length: usize, written: *mut usize) -> u32;
    fn rk_id_load(bytes: *const u8, length: usize, mem: *mut u64, words: usize, at: *mut usize) -> u32;
    fn rk_id_is_allocated(mem: *const u64, words: usize, id: u32) -> u32;
    fn rk_id_free_count(mem: *const u64, words: usize) -> u64;
    fn rk_address_copy(mem: *const u64, words: usize, copy: *mut u64, copy_words: usize, limit: usize) -> u32;
    fn rk_both(
        first: *mut u64,
        words1: usize,
        size1: u64,
        alignment1: u64,
        policy1: u32,
        address1: u64,
        second: *mut u64,
        words2: usize,
        size2: u64,
        alignment2: u64,
        policy2: u32,
        address2: u64,
        start1: *mut u64,
        start2: *mut u64,
        refused: *mut u32,
    ) -> u32;
    fn rk_all_three(
        first: *mut u64,
        words1: usize,
        size1: u64,
        alignment1: u64,
        policy1: u32,
        address1: u64,
        second: *mut u64,
        words2: usize,
        size2: u64,
        alignment2: u64,
        policy2: u32,
        address2: u64,
        ids: *mut u64,
        id_words: usize,
        start1: *mut u64,
        start2: *mut u64,
        id: *mut u32,
        refused: *mut u32,
    ) -> u32;
}

pub fn address_words(limit: usize) -> usize {
    // SAFETY: numbers alone are handed over.
    unsafe { rk_address_words(limit) }
}

pub fn address_new(block: &mut [u64], base: u64, size: u64, limit: usize) -> u32 {
    // SAFETY: the pointer and the length are those of a slice that nobody else uses during the call.
    unsafe { rk_address_new(block.as_mut_ptr(), block.len(), base, size, limit) }
}

pub fn address_allocate(block: &mut [u64], size: u64, alignment: u64, policy: u32, address: u64, start: &mut u64) -> u32 {
    // SAFETY: the pointer and the length are those of a slice that nobody else uses during the call, and `start` lies outside it.
    unsafe { rk_address_allocate(block.as_mut_ptr(), block.len(), size, alignment, policy, address, start) }
}

pub fn address_free(block: &mut [u64], start: u64, end: u64) -> u32 {
    // SAFETY: the pointer and the length are those of a slice that nobody else uses during the call.
    unsafe { rk_address_free(block.as_mut_ptr(), block.len(), start, end) }
}

pub fn address_at(block: &[u64], address: u64, start: &mut u64, end: &mut u64, tag: &mut u64) -> u32 {
    // SAFETY: the pointer and the length are those of a slice that nobody changes during the call; the three others lie outside it and
    // apart.
    unsafe { rk_address_at(block.as_ptr(), block.len(), address, start, end, tag) }
}

pub fn address_base(block: &[u64]) -> u64 {
    // SAFETY: the pointer and the length are those of a slice that nobody changes during the call.
    unsafe { rk_address_base(block.as_ptr(), block.len()) }
}

pub fn address_end(block: &[u64]) -> u64 {
    // SAFETY: the pointer and the length are those of a slice that nobody changes during the call.
    unsafe { rk_address_end(block.as_ptr(), block.len()) }
}

pub fn address_left(block: &[u64], free: &mut u64, largest: &mut u64) -> u32 {
    // SAFETY: the pointer and the length are those of a slice that nobody changes during the call; the two others lie outside it and apart.
    unsafe { rk_address_left(block.as_ptr(), block.len(), free, largest) }
}

pub fn id_words(lowest: u32, highest: u32) -> usize {
    // SAFETY: numbers alone are handed over.
    unsafe { rk_id_words(lowest, highest) }
}

pub fn id_new(block: &mut [u64], lowest: u32, highest: u32) -> u32 {
    // SAFETY: the pointer and the length are those of a slice that nobody else uses during the call.
    unsafe { rk_id_new(block.as_mut_ptr(), block.len(), lowest, highest) }
}

pub fn id_allocate(block: &mut [u64], id: &mut u32) -> u32 {
    // SAFETY: the pointer and the length are those of a slice that nobody else uses during the call, and `id` lies outside it.
    unsafe { rk_id_allocate(block.as_mut_ptr(), block.len(), id) }
}

pub fn id_free(block: &mut [u64], id: u32) -> u32 {
    // SAFETY: the pointer and the length are those of a slice that nobody else uses during the call.
    unsafe { rk_id_free(block.as_mut_ptr(), block.len(), id) }
}

pub fn address_saved_bytes(block: &[u64]) -> usize {
    // SAFETY: the pointer and the length are those of a slice that nobody changes during the call.
    unsafe { rk_address_saved_bytes(block.as_ptr(), block.len()) }
}

pub fn address_save(block: &[u64], bytes: &mut [u8], written: &mut usize) -> u32 {
    // SAFETY: the pointers and the lengths are those of two slices, of which nobody changes the first or uses the second during the call, and
    // `written` lies outside both.
    unsafe { rk_address_save(block.as_ptr(), block.len(), bytes.as_mut_ptr(), bytes.len(), written) }
}

pub fn address_load(bytes: &[u8], block: &mut [u64], at: &mut usize) -> u32 {
    // SAFETY: the pointers and the lengths are those of two slices, of which nobody changes the first or uses the second during the call, and
    // `at` lies outside both.
    unsafe { rk_address_load(bytes.as_ptr(), bytes.len(), block.as_mut_ptr(), block.len(), at) }
}

pub fn id_saved_bytes(block: &[u64]) -> usize {
    // SAFETY: the pointer and the length are those of a slice that nobody changes during the call.
    unsafe { rk_id_saved_bytes(block.as_ptr(), block.len()) }
}

pub fn id_save(block: &[u64], bytes: &mut [u8], written: &mut usize) -> u32 {
    // SAFETY: the pointers and the lengths are those of two slices, of which nobody changes the first or uses the second during the call, and
    // `written` lies outside both.
    unsafe { rk_id_save(block.as_ptr(), block.len(), bytes.as_mut_ptr(), bytes.len(), written) }
}

pub fn id_load(bytes: &[u8], block: &mut [u64], at: &mut usize) -> u32 {
    // SAFETY: the pointers and the lengths are those of two slices, of which nobody changes the first or uses the second during the call, and
    // `at` lies outside both.
    unsafe { rk_id_load(bytes.as_ptr(), bytes.len(), block.as_mut_ptr(), block.len(), at) }
}

pub fn id_is_allocated(block: &[u64], id: u32) -> bool {
    // SAFETY: the pointer and the length are those of a slice that nobody changes during the call.
    unsafe { rk_id_is_allocated(block.as_ptr(), block.len(), id) != 0 }
}

pub fn id_free_count(block: &[u64]) -> u64 {
    // SAFETY: the pointer and the length are those of a slice that nobody changes during the call.
    unsafe { rk_id_free_count(block.as_ptr(), block.len()) }
}

pub fn address_copy(block: &[u64], copy: &mut [u64], limit: usize) -> u32 {
    // SAFETY: the pointers and the lengths are those of two slices that do not overlap; nobody changes the one and nobody else uses the
    // other during the call.
    unsafe { rk_address_copy(block.as_ptr(), block.len(), copy.as_mut_ptr(), copy.len(), limit) }
}

/// A request in numbers: size, alignment, policy, address.
pub type Request = (u64, u64, u32, u64);

pub fn both(
    first: &mut [u64],
    one: Request,
    second: &mut [u64],
    two: Request,
    starts: &mut [u64; 2],
    refused: &mut u32,
) -> u32 {
    let [start1, start2] = starts;
    // SAFETY: the pointers and the lengths are those of two slices that do not overlap and that nobody else uses during the call; the three
    // others lie outside them and apart.
    unsafe {
        rk_both(
            first.as_mut_ptr(),
            first.len(),
            one.0,
            one.1,
            one.2,
            one.3,
            second.as_mut_ptr(),
            second.len(),
            two.0,
            two.1,
            two.2,
            two.3,
            start1,
            start2,
            refused,
        )
    }
}

#[allow(clippy::too_many_arguments)]
pub fn all_three(
    first: &mut [u64],
    one: Request,
    second: &mut [u64],
    two: Request,
    ids: &mut [u64],
    starts: &mut [u64; 2],
    id: &mut u32,
    refused: &mut u32,
) -> u32 {
    let [start1, start2] = starts;
    // SAFETY: the pointers and the lengths are those of three slices that do not overlap and that nobody else uses during the call; the four
    // others lie outside them and apart.
    unsafe {
        rk_all_three(
            first.as_mut_ptr(),
            first.len(),
            one.0,
            one.1,
            one.2,
            one.3,
            second.as_mut_ptr(),
            second.len(),
            two.0,
            two.1,
            two.2,
            two.3,
            ids.as_mut_ptr(),
            ids.len(),
            start1,
            start2,
            id,
            refused,
        )
    }
}
