//! A simple reader of a store's bytes without any check, to see what checks and sorting cost. It believes every length, leaves a branch out by its
//! branching byte alone (against the range, and against the pattern before its first `*`), tests whole paths by the plain matcher of the scan, and
//! does not sort its rows. No bound: a cleverer one would walk less.

use crate::data::Query;
use crate::scan::{fits, put_row, ROW};

const HEAD: usize = 7;
const SUFFIX: usize = 22;
const LONGEST: usize = 256;

struct Reader<'a> {
    query: &'a Query,
    literal: usize,
    path: [u8; LONGEST],
    answer: &'a mut [u8],
    rows: usize,
}

/// The bytes with which every path that the pattern fits begins: the `/` before a `**` is not among them.
fn literal(pattern: &[u8]) -> usize {
    match pattern.iter().position(|&byte| byte == b'*') {
        Some(at) if pattern[at..].starts_with(b"**") => at - 1,
        Some(at) => at,
        None => pattern.len(),
    }
}

/// # Safety
/// `n` bytes at `at`, and no more than 8 with the `v` before them.
unsafe fn value(known: u64, v: usize, at: *const u8, n: usize) -> u64 {
    (0..n).fold(known, |value, i| value | (*at.add(i) as u64) << (56 - 8 * (v + i)))
}

impl Reader<'_> {
    /// # Safety
    /// t..end are the suffixes of a leaf of a sound trie; the p bytes of the path known above it stand in `path`.
    unsafe fn leaf(&mut self, mut t: *const u8, end: *const u8, known: u64, v: usize, p: usize) {
        while t < end {
            let (value_bytes, path_bytes) = (*t as usize, *t.add(1) as usize);
            let value = value(known, v, t.add(SUFFIX), value_bytes);
            let path = t.add(SUFFIX + value_bytes);
            if (self.query.low..=self.query.high).contains(&value) && self.begins(path, p, path_bytes) {
                path.copy_to_nonoverlapping(self.path.as_mut_ptr().add(p), path_bytes);
                let whole = self.path.get_unchecked(..p + path_bytes - 1);
                if fits(&self.query.pattern, whole) {
                    let row = self.answer.get_unchecked_mut(self.rows * ROW..(self.rows + 1) * ROW);
                    put_row(row, value, whole, std::slice::from_raw_parts(t.add(2), SUFFIX - 2));
                    self.rows += 1;
                }
            }
            t = path.add(path_bytes);
        }
    }

    /// # Safety
    /// `n` bytes at `at`, the path from p on.
    unsafe fn begins(&self, at: *const u8, p: usize, n: usize) -> bool {
        (p..self.literal.min(p + n)).all(|i| *self.query.pattern.get_unchecked(i) == *at.add(i - p))
    }

    /// # Safety
    /// t..end are sound tries below a node of the kind (256: below none), with the v bytes of `known` and the p bytes of `path` above them.
    unsafe fn walk(&mut self, mut t: *const u8, end: *const u8, kind: u16, known: u64, v: usize, p: usize) {
        if kind == 0 {
            return self.leaf(t, end, known, v, p);
        }
        while t < end {
            let (own, value_bytes, path_bytes) = (*t as u16, *t.add(1) as usize, *t.add(2) as usize);
            let body = t.add(HEAD + value_bytes + path_bytes);
            let next = body.add(u32::from_be(t.add(3).cast::<u32>().read_unaligned()) as usize);
            let (value_at, path_at) = (t.add(HEAD), t.add(HEAD + value_bytes));
            t = next;
            if kind == 1 {
                let lowest = value(known, v, value_at, 1);
                if lowest > self.query.high {
                    return;
                }
                if lowest | (1 << (56 - 8 * v)) - 1 < self.query.low {
                    continue;
                }
            }
            if kind == 2 && !self.begins(path_at, p, 1) {
                continue;
            }
            path_at.copy_to_nonoverlapping(self.path.as_mut_ptr().add(p), path_bytes);
            self.walk(body, next, own, value(known, v, value_at, value_bytes), v + value_bytes, p + path_bytes);
        }
    }
}

/// The rows of the tries that begin at these bytes.
///
/// # Safety
/// Each trie is sound or empty, as the index leaves it, and the answer has room for every row.
pub unsafe fn search<'a>(tries: impl Iterator<Item = &'a [u8]>, query: &Query, answer: &mut [u8]) -> usize {
    let mut reader = Reader { query, literal: literal(&query.pattern), path: [0; LONGEST], answer, rows: 0 };
    for trie in tries {
        let body = u32::from_be_bytes(trie[3..HEAD].try_into().expect("four bytes")) as usize;
        let end = if body == 0 { 0 } else { HEAD + trie[1] as usize + trie[2] as usize + body };
        let bytes = &trie[..end];
        reader.walk(bytes.as_ptr(), bytes.as_ptr_range().end, 256, 0, 0, 0);
    }
    reader.rows
}
