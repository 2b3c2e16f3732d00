//! Document 01, "Entries and patterns": how paths and patterns are formed, what fits, what can be continued.

pub const LONGEST: usize = 200;
pub const MOST_LABELS: usize = 32;
pub const END: u8 = 0;

/// "from 20 to 7E or 80 to FF hex, other than `/` and `*`"
pub fn is_label_byte(byte: u8) -> bool {
    (0x20..=0x7E).contains(&byte) && byte != b'/' && byte != b'*' || byte >= 0x80
}

/// The labels of a text, each begun by `/` and not empty; `None` where it is not made of such labels.
fn labels(text: &[u8]) -> Option<Vec<&[u8]>> {
    let rest = text.strip_prefix(b"/")?;
    let labels: Vec<&[u8]> = rest.split(|&byte| byte == b'/').collect();
    labels.iter().all(|label| !label.is_empty()).then_some(labels)
}

pub fn is_path(text: &[u8]) -> bool {
    let is_label = |label: &&[u8]| label.iter().all(|&byte| is_label_byte(byte));
    text.len() <= LONGEST && labels(text).is_some_and(|found| found.iter().all(is_label))
}

/// Reason 8, which is tested before 7.
pub fn is_pattern_too_long(text: &[u8]) -> bool {
    text.len() > LONGEST || text.iter().filter(|&&byte| byte == b'/').count() > MOST_LABELS
}

fn is_pattern_label(label: &[u8]) -> bool {
    let bytes_allowed = label.iter().all(|&byte| byte == b'*' || is_label_byte(byte));
    label == b"**" || bytes_allowed && !label.windows(2).any(|two| two == b"**")
}

pub fn is_pattern(text: &[u8]) -> bool {
    !is_pattern_too_long(text) && labels(text).is_some_and(|found| found.into_iter().all(is_pattern_label))
}

/// A `*` takes zero or more bytes. `fit[i][k]`: what is left of the pattern from i fits what is left of the label from k.
fn label_fits(pattern: &[u8], label: &[u8]) -> bool {
    let mut fit = vec![vec![false; label.len() + 1]; pattern.len() + 1];
    fit[pattern.len()][label.len()] = true;
    for i in (0..pattern.len()).rev() {
        for k in (0..=label.len()).rev() {
            let byte_left = k < label.len();
            fit[i][k] = match pattern[i] {
                b'*' => fit[i + 1][k] || byte_left && fit[i][k + 1],
                byte => byte_left && label[k] == byte && fit[i + 1][k + 1],
            };
        }
    }
    fit[0][0]
}

/// "A `**` either takes one label and is tried again, or gives way to the next label of the pattern." The table is over labels.
fn labels_fit(pattern: &[&[u8]], path: &[&[u8]]) -> bool {
    let mut fit = vec![vec![false; path.len() + 1]; pattern.len() + 1];
    fit[pattern.len()][path.len()] = true;
    for i in (0..pattern.len()).rev() {
        for k in (0..=path.len()).rev() {
            let label_left = k < path.len();
            fit[i][k] = match pattern[i] {
                b"**" => fit[i + 1][k] || label_left && fit[i][k + 1],
                label => label_left && fit[i + 1][k + 1] && label_fits(label, path[k]),
            };
        }
    }
    fit[0][0]
}

/// False for what is not formed.
pub fn fits(pattern: &[u8], path: &[u8]) -> bool {
    match (labels(pattern), labels(path)) {
        (Some(wanted), Some(found)) if is_pattern(pattern) && is_path(path) => labels_fit(&wanted, &found),
        _ => false,
    }
}

/// Where reading a path can stand in a pattern. `filled`: the path's label has a byte.
#[derive(Clone, Copy, PartialEq)]
enum State {
    /// Between labels, with the pattern's labels from `i` on still to come.
    Between(usize),
    /// In a label that the pattern's label `i` takes, with its bytes from `j` on still to come.
    Inside(usize, usize, bool),
    /// In a label that the `**` at `i` takes.
    Taken(usize, bool),
    /// The end byte was read, and the pattern fits.
    Ended,
}
use State::*;

/// A state and all that it turns into without a byte being read.
fn enter(pattern: &[&[u8]], state: State, states: &mut Vec<State>) {
    if states.contains(&state) {
        return;
    }
    states.push(state);
    match state {
        Between(i) if i < pattern.len() && pattern[i] == b"**" => enter(pattern, Between(i + 1), states),
        Inside(i, j, filled) if j < pattern[i].len() && pattern[i][j] == b'*' => enter(pattern, Inside(i, j + 1, filled), states),
        Inside(i, j, true) if j == pattern[i].len() => enter(pattern, Between(i + 1), states),
        Taken(i, true) => enter(pattern, Between(i), states),
        _ => {}
    }
}

/// The state after one byte; `None` where it cannot be read.
fn after(pattern: &[&[u8]], state: State, byte: u8) -> Option<State> {
    match state {
        Between(i) if i == pattern.len() => (byte == END).then_some(Ended),
        Between(_) if byte != b'/' => None,
        Between(i) if pattern[i] == b"**" => Some(Taken(i, false)),
        Between(i) => Some(Inside(i, 0, false)),
        Taken(i, _) => is_label_byte(byte).then_some(Taken(i, true)),
        Inside(i, j, _) if j == pattern[i].len() => None,
        Inside(i, j, _) if pattern[i][j] == b'*' => is_label_byte(byte).then_some(Inside(i, j, true)),
        Inside(i, j, _) => (byte == pattern[i][j]).then_some(Inside(i, j + 1, true)),
        Ended => None,
    }
}

/// Whether the bytes known can be continued to a path of any length, with its end byte, that a formed pattern fits. The one state that no
/// bytes lead on from, a label without a byte that may take none, never stands alone: the state before its `*` stands beside it.
pub fn can_continue(pattern: &[u8], known: &[u8]) -> bool {
    let pattern = labels(pattern).expect("a formed pattern");
    if known.first().is_some_and(|&byte| byte != b'/') {
        return false;
    }
    let mut states = Vec::new();
    enter(&pattern, Between(0), &mut states);
    for &byte in known {
        let mut next = Vec::new();
        for &state in &states {
            if let Some(state) = after(&pattern, state, byte) {
                enter(&pattern, state, &mut next);
            }
        }
        states = next;
    }
    !states.is_empty()
}
