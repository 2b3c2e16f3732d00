//! Document 01, "The book": what each call of a list has to answer, from its arguments and the length lent alone.

use crate::patterns::{fits, is_path, is_pattern, is_pattern_too_long, LONGEST};
use crate::tries::{encode, entered, key_of, level, record, row, small, walks, Key, Node, Query};

pub const ROW: usize = 229;
pub const RECORD: usize = 860;
pub const FRONT: usize = 4096;
pub const ROOM: u64 = 1024;
pub const REFERENCE: usize = 20;

#[repr(C)]
#[derive(Clone, Copy, Debug, PartialEq)]
pub struct Reply {
    pub number: u32,
    pub first: u64,
    pub second: u64,
}

fn reply(number: u32, first: usize, second: u64) -> Reply {
    Reply { number, first: first as u64, second }
}

#[derive(Clone, PartialEq)]
pub struct Entry {
    pub path: Vec<u8>,
    pub value: u64,
    pub reference: Vec<u8>,
}

#[derive(Clone, Copy, Debug, PartialEq)]
pub struct Numbers {
    pub m: u64,
    pub l: u64,
    pub tau: u64,
}

impl Numbers {
    pub fn in_limits(&self) -> bool {
        (1..=4096).contains(&self.m) && (1..=8).contains(&self.l) && (1..=100).contains(&self.tau)
    }

    pub fn need(&self) -> usize {
        (ROOM * (self.m << self.l)) as usize + FRONT
    }

    /// "The store can hold M × 2^L − 1."
    pub fn limit(&self) -> usize {
        (self.m << self.l) as usize - 1
    }
}

/// No numbers before the first accepted setup: every other call is then 4.
#[derive(Clone, Default)]
pub struct Book {
    pub numbers: Option<Numbers>,
    pub entries: Vec<Entry>,
}

impl Book {
    /// The numbers, if the length lent reaches the need; else 4.
    fn open(&self, lent: usize) -> Option<Numbers> {
        self.numbers.filter(|numbers| numbers.need() <= lent)
    }

    /// Checks 5, 6.
    pub fn setup(&mut self, lent: usize, m: u64, l: u64, tau: u64) -> Reply {
        let numbers = Numbers { m, l, tau };
        if !numbers.in_limits() {
            return reply(5, 0, 0);
        }
        if lent < numbers.need() {
            return reply(6, 0, 0);
        }
        *self = Book { numbers: Some(numbers), entries: Vec::new() };
        reply(0, 0, 0)
    }

    /// Checks 4, 2, 1, 3, 9, then 100.
    pub fn add(&mut self, lent: usize, path: &[u8], value: u64, reference: &[u8]) -> Reply {
        let Some(numbers) = self.open(lent) else {
            return reply(4, 0, 0);
        };
        if path.len() > LONGEST {
            return reply(2, 0, 0);
        }
        if !is_path(path) {
            return reply(1, 0, 0);
        }
        if reference.len() != REFERENCE {
            return reply(3, 0, 0);
        }
        if self.entries.len() == numbers.limit() {
            return reply(9, 0, 0);
        }
        let entry = Entry { path: path.to_vec(), value, reference: reference.to_vec() };
        if self.entries.contains(&entry) {
            return reply(100, self.entries.len(), 0);
        }
        self.entries.push(entry);
        reply(0, self.entries.len(), 0)
    }

    /// Checks 4, 8, 7, 10, 11.
    pub fn search(&self, lent: usize, pattern: &[u8], low: u64, high: u64, answer: &mut [u8]) -> Reply {
        let Some(numbers) = self.open(lent) else {
            return reply(4, 0, 0);
        };
        if is_pattern_too_long(pattern) {
            return reply(8, 0, 0);
        }
        if !is_pattern(pattern) {
            return reply(7, 0, 0);
        }
        if low > high {
            return reply(10, 0, 0);
        }
        let query = Query { pattern, low, high };
        let tries = self.tries(numbers);
        let nodes = tries.iter().flatten().map(|root| entered(root, &Default::default(), &query)).sum();
        fill(&self.rows(&query), ROW, nodes, answer)
    }

    /// Checks 4, 11.
    pub fn read_level(&self, lent: usize, level: u64, answer: &mut [u8]) -> Reply {
        let Some(numbers) = self.open(lent) else {
            return reply(4, 0, 0);
        };
        let mut found = Vec::new();
        if let Some(root) = self.level(numbers, level) {
            walks(&root, &Default::default(), &[], &mut found);
        }
        found.sort();
        let records: Vec<Vec<u8>> = found.iter().map(|(key, steps)| record(key, steps)).collect();
        fill(&records, RECORD, 0, answer)
    }

    /// "the entries whose path matches and whose value is in range", by value, then path, then reference.
    fn rows(&self, query: &Query) -> Vec<Vec<u8>> {
        let is_row = |entry: &&Entry| query.low <= entry.value && entry.value <= query.high && fits(query.pattern, &entry.path);
        let mut keys: Vec<Key> = self.entries.iter().filter(is_row).map(key).collect();
        keys.sort();
        keys.iter().map(row).collect()
    }

    /// "as many as held ÷ M leaves over" are in the small trie; the number returned is that of those in levels.
    fn in_levels(&self, m: u64) -> usize {
        self.entries.len() - self.entries.len() % m as usize
    }

    /// The trie of a level: level i has M × 2^i entries where digit i is 1, the oldest entries are in the highest level.
    fn level(&self, numbers: Numbers, wanted: u64) -> Option<Node> {
        let mut from = 0;
        for i in (0..numbers.l).rev() {
            let size = (numbers.m << i) as usize;
            if self.in_levels(numbers.m) - from >= size {
                if i == wanted {
                    let keys: Vec<Key> = self.entries[from..from + size].iter().map(key).collect();
                    return Some(level(&keys, numbers.tau as usize));
                }
                from += size;
            }
        }
        None
    }

    /// The small trie, then the levels from 0 on.
    fn tries(&self, numbers: Numbers) -> Vec<Option<Node>> {
        let last: Vec<Key> = self.entries[self.in_levels(numbers.m)..].iter().map(key).collect();
        let mut tries = vec![small(&last)];
        tries.extend((0..numbers.l).map(|i| self.level(numbers, i)));
        tries
    }

    /// The store's bytes up to its need, docs/STORE-FORMAT.md.
    pub fn image(&self) -> Vec<u8> {
        let Some(numbers) = self.numbers else {
            return Vec::new();
        };
        let front = [numbers.m, numbers.l, numbers.tau, self.entries.len() as u64];
        let mut bytes: Vec<u8> = front.iter().flat_map(|&number| (number as u32).to_be_bytes()).collect();
        let mut end = FRONT;
        bytes.resize(end, 0);
        for (i, trie) in self.tries(numbers).iter().enumerate() {
            bytes.extend(trie.as_ref().map_or(Vec::new(), encode));
            end += (ROOM * (numbers.m << i.saturating_sub(1))) as usize;
            bytes.resize(end, 0);
        }
        bytes
    }
}

fn key(entry: &Entry) -> Key {
    key_of(&entry.path, entry.value, &entry.reference)
}

/// 11, or rows from the beginning of the answer buffer on.
fn fill(rows: &[Vec<u8>], size: usize, second: u64, answer: &mut [u8]) -> Reply {
    if rows.len() * size > answer.len() {
        return reply(11, rows.len(), 0);
    }
    answer[..rows.len() * size].copy_from_slice(&rows.concat());
    reply(0, rows.len(), second)
}
