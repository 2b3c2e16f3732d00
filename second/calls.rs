//! The exported calls, on lent memory with guard bytes around it.

use crate::book::Reply;
use crate::cases::Call;

extern "C" {
    fn nivruska_setup(store: *mut u8, store_len: usize, m: u64, l: u64, tau: u64) -> Reply;
    fn nivruska_add(
        store: *mut u8,
        store_len: usize,
        path: *const u8,
        path_len: usize,
        value: u64,
        reference: *const u8,
        reference_len: usize,
    ) -> Reply;
    fn nivruska_search(
        store: *const u8,
        store_len: usize,
        pattern: *const u8,
        pattern_len: usize,
        low: u64,
        high: u64,
        answer: *mut u8,
        answer_len: usize,
    ) -> Reply;
    fn nivruska_read_level(store: *const u8, store_len: usize, level: u64, answer: *mut u8, answer_len: usize) -> Reply;
    fn nivruska_fits(pattern: *const u8, pattern_len: usize, path: *const u8, path_len: usize) -> bool;
}

const GUARD: usize = 64;

/// Bytes with guard bytes on both sides.
pub struct Guarded {
    all: Vec<u8>,
}

fn guard_byte(at: usize) -> u8 {
    (at as u8).wrapping_mul(37) ^ 0xA5
}

impl Guarded {
    pub fn new(bytes: &[u8]) -> Guarded {
        let guard: Vec<u8> = (0..GUARD).map(guard_byte).collect();
        Guarded { all: [&guard[..], bytes, &guard].concat() }
    }

    pub fn bytes(&self) -> &[u8] {
        &self.all[GUARD..self.all.len() - GUARD]
    }

    pub fn bytes_mut(&mut self) -> &mut [u8] {
        let end = self.all.len() - GUARD;
        &mut self.all[GUARD..end]
    }

    fn pointer(&mut self) -> *mut u8 {
        self.all[GUARD..].as_mut_ptr()
    }

    pub fn guards_stand(&self) -> bool {
        let (front, rest) = self.all.split_at(GUARD);
        let back = &rest[rest.len() - GUARD..];
        (0..GUARD).all(|at| front[at] == guard_byte(at) && back[at] == guard_byte(at))
    }
}

/// An argument that a call only reads; `read_only` says afterwards whether it and its guards stand as they were.
struct Argument<'a> {
    lent: Guarded,
    bytes: &'a [u8],
}

impl<'a> Argument<'a> {
    fn new(bytes: &'a [u8]) -> Self {
        Argument { lent: Guarded::new(bytes), bytes }
    }

    fn stands(&self) -> Result<(), String> {
        let same = self.lent.guards_stand() && self.lent.bytes() == self.bytes;
        same.then_some(()).ok_or("an argument that is only read has changed".to_string())
    }
}

fn run_add(store: &mut Guarded, lent: usize, path: &[u8], value: u64, reference: &[u8]) -> Result<Reply, String> {
    let (mut path, mut reference) = (Argument::new(path), Argument::new(reference));
    let (path_len, reference_len) = (path.bytes.len(), reference.bytes.len());
    let (path_at, reference_at) = (path.lent.pointer(), reference.lent.pointer());
    let reply = unsafe { nivruska_add(store.pointer(), lent, path_at, path_len, value, reference_at, reference_len) };
    path.stands()?;
    reference.stands()?;
    Ok(reply)
}

fn run_search(store: &mut Guarded, lent: usize, pattern: &[u8], range: (u64, u64), answer: &mut Guarded) -> Result<Reply, String> {
    let mut pattern = Argument::new(pattern);
    let (pattern_at, pattern_len, answer_len) = (pattern.lent.pointer(), pattern.bytes.len(), answer.bytes().len());
    let (low, high) = range;
    let reply = unsafe { nivruska_search(store.pointer(), lent, pattern_at, pattern_len, low, high, answer.pointer(), answer_len) };
    pattern.stands()?;
    Ok(reply)
}

/// The reply and the answer buffer afterwards; an error where bytes have changed that no call may change.
pub fn run(store: &mut Guarded, call: &Call) -> Result<(Reply, Vec<u8>), String> {
    let mut answer = Guarded::new(call.answer());
    let reply = match call {
        Call::Setup { lent, numbers: n } => unsafe { nivruska_setup(store.pointer(), *lent, n.m, n.l, n.tau) },
        Call::Add { lent, entry: e } => run_add(store, *lent, &e.path, e.value, &e.reference)?,
        Call::Search { lent, pattern, low, high, .. } => run_search(store, *lent, pattern, (*low, *high), &mut answer)?,
        Call::ReadLevel { lent, level, .. } => unsafe {
            nivruska_read_level(store.pointer(), *lent, *level, answer.pointer(), call.answer().len())
        },
    };
    if !store.guards_stand() {
        return Err("bytes around the store have changed".to_string());
    }
    if !answer.guards_stand() {
        return Err("bytes around the answer buffer have changed".to_string());
    }
    Ok((reply, answer.bytes().to_vec()))
}

pub fn fits(pattern: &[u8], path: &[u8]) -> bool {
    unsafe { nivruska_fits(pattern.as_ptr(), pattern.len(), path.as_ptr(), path.len()) }
}
