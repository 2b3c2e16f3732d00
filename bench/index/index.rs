//! The index through its exported calls.

use crate::data::{Entry, Query};

#[allow(dead_code)] // not every call is measured
#[path = "../../bindings/rust/src/calls.rs"]
mod calls;

/// docs/STORE-FORMAT.md: where the small trie begins, and a node's bytes before its strings.
const TRIES_AT: usize = 4096;
const HEAD: usize = 7;

#[derive(Clone, Copy)]
pub struct Numbers {
    pub m: usize,
    pub l: usize,
    pub tau: usize,
}

impl Numbers {
    /// M 256 where its largest store holds n entries, else 1,024; the smallest L.
    pub fn for_entries(n: usize, tau: usize) -> Numbers {
        let m = if n < 256 << 8 { 256 } else { 1024 };
        let l = (1..=8).find(|&l| n < m << l).expect("a store for so many entries");
        Numbers { m, l, tau }
    }

    pub fn need(&self) -> usize {
        TRIES_AT + ((1024 * self.m) << self.l)
    }
}

pub struct Store {
    numbers: Numbers,
    bytes: Vec<u8>,
}

impl Store {
    pub fn new(numbers: Numbers) -> Store {
        Store { numbers, bytes: vec![0; numbers.need()] }
    }

    pub fn setup(&mut self) {
        let Numbers { m, l, tau } = self.numbers;
        let reply = calls::setup(&mut self.bytes, m as u64, l as u64, tau as u64);
        assert_eq!(reply.number, 0, "a setup turned down");
    }

    pub fn add(&mut self, entry: &Entry) {
        let reply = calls::add(&mut self.bytes, &entry.path, entry.value, &entry.reference);
        assert_eq!(reply.number, 0, "an addition turned down");
    }

    /// Rows and nodes entered.
    pub fn search(&self, query: &Query, answer: &mut [u8]) -> (usize, u64) {
        let reply = calls::search(&self.bytes, &query.pattern, query.low, query.high, answer);
        assert_eq!(reply.number, 0, "a search turned down");
        (reply.first as usize, reply.second)
    }

    /// The small trie and the levels, each from its first byte on.
    pub fn tries(&self) -> impl Iterator<Item = &[u8]> {
        let small = 1024 * self.numbers.m;
        let levels = (0..self.numbers.l).map(move |i| TRIES_AT + (small << i));
        std::iter::once(TRIES_AT).chain(levels).map(|at| &self.bytes[at..])
    }

    /// All nodes of all tries, read from the store's bytes.
    pub fn nodes(&self) -> u64 {
        self.tries().map(trie_nodes).sum()
    }
}

fn body_length(node: &[u8]) -> usize {
    u32::from_be_bytes(node[3..HEAD].try_into().expect("four bytes")) as usize
}

/// A trie is its nodes in pre-order: behind an inner node's strings stands its first child, behind a leaf the next node.
fn trie_nodes(trie: &[u8]) -> u64 {
    let strings = |node: &[u8]| HEAD + node[1] as usize + node[2] as usize;
    if body_length(trie) == 0 {
        return 0;
    }
    let end = strings(trie) + body_length(trie);
    let (mut at, mut count) = (0, 0);
    while at < end {
        let node = &trie[at..];
        let is_leaf = node[0] == 0;
        at += strings(node) + if is_leaf { body_length(node) } else { 0 };
        count += 1;
    }
    count
}
