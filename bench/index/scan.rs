//! A plain scan of a sorted vector with a plain matcher, and the rows that all write.

use crate::data::{Entry, Query};

pub const ROW: usize = 229;
const REFERENCE_AT: usize = 8;
const LENGTH_AT: usize = 28;
const PATH_AT: usize = 29;

pub fn put_row(row: &mut [u8], value: u64, path: &[u8], reference: &[u8]) {
    row[..REFERENCE_AT].copy_from_slice(&value.to_be_bytes());
    row[REFERENCE_AT..LENGTH_AT].copy_from_slice(reference);
    row[LENGTH_AT] = path.len() as u8;
    row[PATH_AT..PATH_AT + path.len()].copy_from_slice(path);
    row[PATH_AT + path.len()..].fill(0);
}

/// The first label without its `/`, and what follows.
fn split(text: &[u8]) -> (&[u8], &[u8]) {
    let end = text[1..].iter().position(|&byte| byte == b'/').map_or(text.len(), |at| at + 1);
    (&text[1..end], &text[end..])
}

/// On a mismatch the last `*` takes one byte more.
fn label_fits(pattern: &[u8], label: &[u8]) -> bool {
    let (mut i, mut k, mut retry) = (0, 0, None);
    while k < label.len() {
        if pattern.get(i) == Some(&b'*') {
            retry = Some((i + 1, k));
            i += 1;
        } else if pattern.get(i) == Some(&label[k]) {
            (i, k) = (i + 1, k + 1);
        } else if let Some((after, from)) = retry {
            (i, k) = (after, from + 1);
            retry = Some((after, from + 1));
        } else {
            return false;
        }
    }
    pattern[i..].iter().all(|&byte| byte == b'*')
}

/// For a pattern and a path that are well formed.
pub fn fits(pattern: &[u8], path: &[u8]) -> bool {
    if pattern.is_empty() {
        return path.is_empty();
    }
    let (wanted, rest) = split(pattern);
    if wanted == b"**" {
        return rest.is_empty() || fits(rest, path) || !path.is_empty() && fits(pattern, split(path).1);
    }
    if path.is_empty() {
        return false;
    }
    let (label, path_rest) = split(path);
    label_fits(wanted, label) && fits(rest, path_rest)
}

/// Tests each entry, the value first; the number of rows. Inlined: by a call it takes up to half as long again.
#[inline(always)]
pub fn search(sorted: &[Entry], query: &Query, answer: &mut [u8]) -> usize {
    let mut rows = answer.chunks_exact_mut(ROW);
    let mut count = 0;
    for entry in sorted {
        if (query.low..=query.high).contains(&entry.value) && fits(&query.pattern, &entry.path) {
            put_row(rows.next().expect("room for a row"), entry.value, &entry.path, &entry.reference);
            count += 1;
        }
    }
    count
}

/// A vector kept sorted.
pub fn insert(sorted: &mut Vec<Entry>, entry: &Entry) {
    if let Err(at) = sorted.binary_search(entry) {
        sorted.insert(at, entry.clone());
    }
}
