//! The exported calls, declared as in `include/nivruska.h`: the only unsafe code of this crate.
//!
//! Why each call is sound: the library is proved to return on any bytes and to stay inside the slices it is lent. What it leaves to its
//! caller holds of every Rust slice: the pointer is not null, the length is below 2^63, and a `&mut` slice overlaps no other. It writes
//! through no pointer declared const and has no state outside the slices, so calls that share a store may run at once.

/// What a call returns: its number, and the two values beside it.
#[repr(C)]
#[derive(Clone, Copy, Debug, PartialEq, Eq)]
pub struct Reply {
    pub number: u32,
    pub first: u64,
    pub second: u64,
}

extern "C" {
    fn nivruska_setup(store: *mut u8, store_length: usize, m: u64, l: u64, tau: u64) -> Reply;
    fn nivruska_add(
        store: *mut u8,
        store_length: usize,
        path: *const u8,
        path_length: usize,
        value: u64,
        reference: *const u8,
        reference_length: usize,
    ) -> Reply;
    fn nivruska_search(
        store: *const u8,
        store_length: usize,
        pattern: *const u8,
        pattern_length: usize,
        low: u64,
        high: u64,
        answer: *mut u8,
        answer_length: usize,
    ) -> Reply;
    fn nivruska_read_level(store: *const u8, store_length: usize, level: u64, answer: *mut u8, answer_length: usize) -> Reply;
    fn nivruska_fits(pattern: *const u8, pattern_length: usize, path: *const u8, path_length: usize) -> bool;
}

pub fn setup(store: &mut [u8], m: u64, l: u64, tau: u64) -> Reply {
    unsafe { nivruska_setup(store.as_mut_ptr(), store.len(), m, l, tau) }
}

pub fn add(store: &mut [u8], path: &[u8], value: u64, reference: &[u8]) -> Reply {
    let (store, store_length) = (store.as_mut_ptr(), store.len());
    unsafe { nivruska_add(store, store_length, path.as_ptr(), path.len(), value, reference.as_ptr(), reference.len()) }
}

pub fn search(store: &[u8], pattern: &[u8], low: u64, high: u64, answer: &mut [u8]) -> Reply {
    let (answer, answer_length) = (answer.as_mut_ptr(), answer.len());
    unsafe { nivruska_search(store.as_ptr(), store.len(), pattern.as_ptr(), pattern.len(), low, high, answer, answer_length) }
}

pub fn read_level(store: &[u8], level: u64, answer: &mut [u8]) -> Reply {
    unsafe { nivruska_read_level(store.as_ptr(), store.len(), level, answer.as_mut_ptr(), answer.len()) }
}

pub fn fits(pattern: &[u8], path: &[u8]) -> bool {
    unsafe { nivruska_fits(pattern.as_ptr(), pattern.len(), path.as_ptr(), path.len()) }
}

#[cfg(test)]
mod tests {
    use super::*;

    /// `Entry` has a reference of 20 bytes by its type, so that only the call itself can be asked for 3.
    #[test]
    fn a_reference_of_19_bytes_is_3() {
        let mut store = vec![0; crate::need(1, 1).unwrap()];
        assert_eq!(setup(&mut store, 1, 1, 1).number, 0);
        let before = store.clone();
        assert_eq!(add(&mut store, b"/north", 7, &[0; 19]), Reply { number: 3, first: 0, second: 0 });
        assert_eq!(store, before);
    }

    #[test]
    fn empty_slices_are_lent_safely() {
        assert_eq!(setup(&mut [], 1, 1, 1).number, 6);
        assert_eq!(add(&mut [], &[], 0, &[]).number, 4);
        assert_eq!(search(&[], &[], 0, 0, &mut []).number, 4);
        assert_eq!(read_level(&[], 0, &mut []).number, 4);
        assert!(!fits(&[], &[]));
    }
}
