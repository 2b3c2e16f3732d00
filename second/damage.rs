//! Stores that our calls did not leave. What is decided there: refusals but for 11, that search and reading back leave the store as it
//! was, that nothing changes beyond the need and after the last row, that 11 is said only where held rows would not fit, that a level
//! numbered L or above has no rows, and that an addition counts its entry, keeps M, L and τ, and gives the held number.

use crate::book::{Book, Entry, Numbers, Reply, RECORD, ROW};
use crate::calls::{run, Guarded};
use crate::cases::{self, Call, Random, Style};
use crate::parts::Outcome;
use crate::patterns::{is_path, is_pattern, is_pattern_too_long};
use crate::session::{difference, Session};

fn word(bytes: &[u8], at: usize) -> u64 {
    u32::from_be_bytes(bytes[at..at + 4].try_into().unwrap()) as u64
}

/// The numbers and held of the store that the bytes say; `None` is 4.
fn front(lent: &[u8]) -> Option<(Numbers, u64)> {
    if lent.len() < 16 {
        return None;
    }
    let (numbers, held) = (Numbers { m: word(lent, 0), l: word(lent, 4), tau: word(lent, 8) }, word(lent, 12));
    (numbers.in_limits() && numbers.need() <= lent.len() && held <= numbers.limit() as u64).then_some((numbers, held))
}

fn add_refusal(numbers: Numbers, held: u64, entry: &Entry) -> u32 {
    match entry {
        Entry { path, .. } if path.len() > 200 => 2,
        Entry { path, .. } if !is_path(path) => 1,
        Entry { reference, .. } if reference.len() != 20 => 3,
        _ if held == numbers.limit() as u64 => 9,
        _ => 0,
    }
}

fn search_refusal(pattern: &[u8], low: u64, high: u64) -> u32 {
    match pattern {
        _ if is_pattern_too_long(pattern) => 8,
        _ if !is_pattern(pattern) => 7,
        _ if low > high => 10,
        _ => 0,
    }
}

/// Rows in the answer buffer and nothing after them; 11 only for want of space.
fn check_answer(call: &Call, held: u64, got: Reply, answer: &[u8], size: usize) -> Result<(), String> {
    let before = call.answer();
    let space = before.len() as u64;
    match got.number {
        0 if got.first > space / size as u64 => Err("more rows than there is space for".to_string()),
        0 => difference("after the last row", &answer[got.first as usize * size..], &before[got.first as usize * size..]),
        11 if held * size as u64 <= space => Err("11 with space for all that are held".to_string()),
        11 if got.first <= space / size as u64 => Err("11 with a row count that there is space for".to_string()),
        11 if got.first > held => Err("11 with more rows than are held".to_string()),
        11 if got.second != 0 => Err("11 with a second value".to_string()),
        11 => difference("answer buffer after 11", answer, before),
        _ => Err("neither 0 nor 11".to_string()),
    }
}

/// 0, with one more held and M, L and τ as before, or 100 and no change; the values are the held number afterwards and zero.
fn check_addition(before: &[u8], after: &[u8], need: usize, got: Reply) -> Result<(), String> {
    match got {
        Reply { number: 0, .. } if word(after, 12) != word(before, 12) + 1 => return Err("the entry is not counted".to_string()),
        Reply { number: 0, .. } => {
            difference("M, L and tau", &after[..12], &before[..12])?;
            difference("beyond the need", &after[need..], &before[need..])?
        }
        Reply { number: 100, .. } => difference("memory after 100", after, before)?,
        _ => return Err("neither 0 nor 100".to_string()),
    }
    ((got.first, got.second) == (word(after, 12), 0)).then_some(()).ok_or("values other than held and zero".to_string())
}

/// What holds of a call on any store.
fn check(call: &Call, before: &[u8], after: &[u8], got: Reply, answer: &[u8]) -> Result<(), String> {
    let lent = match call {
        Call::Setup { lent, .. } | Call::Add { lent, .. } | Call::Search { lent, .. } | Call::ReadLevel { lent, .. } => *lent,
    };
    let opened = front(&before[..lent]);
    let refusal = match (opened, call) {
        (None, _) => 4,
        (Some((numbers, held)), Call::Add { entry, .. }) => add_refusal(numbers, held, entry),
        (_, Call::Search { pattern, low, high, .. }) => search_refusal(pattern, *low, *high),
        _ => 0,
    };
    if refusal != 0 {
        difference("memory after a refusal", after, before)?;
        difference("answer buffer after a refusal", answer, call.answer())?;
        let wanted = Reply { number: refusal, first: 0, second: 0 };
        return (got == wanted).then_some(()).ok_or(format!("not {wanted:?}"));
    }
    let (numbers, held) = opened.expect("not refused");
    match call {
        Call::Add { .. } => check_addition(before, after, numbers.need(), got),
        Call::ReadLevel { .. } if got.second != 0 => Err("a level read back with a second value".to_string()),
        Call::ReadLevel { level, .. } if *level >= numbers.l && (got.number, got.first) != (0, 0) => Err("rows of no level".to_string()),
        _ => {
            difference("a store that is only read", after, before)?;
            check_answer(call, held, got, answer, if matches!(call, Call::Search { .. }) { ROW } else { RECORD })
        }
    }
}

fn call_on(store: &mut Guarded, call: &Call) -> Result<(), String> {
    let before = store.bytes().to_vec();
    let (got, answer) = run(store, call).map_err(|fault| format!("{fault}\n  {}", call.brief()))?;
    let checked = check(call, &before, store.bytes(), got, &answer);
    checked.map_err(|fault| format!("{fault}, the reply is {got:?}\n  {}", call.brief()))
}

/// The regions of the tries: from, length.
fn regions(numbers: Numbers) -> Vec<(usize, usize)> {
    let unit = 1024 * numbers.m as usize;
    let levels = (0..numbers.l).map(|i| (4096 + (unit << i), unit << i));
    std::iter::once((4096, unit)).chain(levels).collect()
}

/// A node's seven bytes, with a body of what is left or of another length.
fn head(random: &mut Random, left: usize) -> [u8; 7] {
    let lengths = [left as u32, left as u32 - 1, 0, 7, 1, u32::MAX, 1 << 31, left as u32 + 1];
    let length = if random.chance(95) { left as u32 } else { *random.pick(&lengths) };
    let mut bytes = [*random.pick(&[1, 2]), random.chance(3) as u8, random.chance(3) as u8, 0, 0, 0, 0];
    bytes[3..].copy_from_slice(&length.to_be_bytes());
    bytes
}

/// Nodes inside nodes as deep as the region is long, or side by side.
fn nest(random: &mut Random, region: &mut [u8]) {
    let side_by_side = random.chance(40);
    let mut at = 0;
    while at + 40 < region.len() {
        let left = region.len() - at - 7;
        let node = head(random, if side_by_side && at > 0 { 0 } else { left });
        region[at..at + 7].copy_from_slice(&node);
        at += 7;
        if random.chance(5) {
            region[at] = random.next() as u8;
            at += 1;
        }
    }
}

fn used(region: &[u8]) -> usize {
    region.iter().rposition(|&byte| byte != 0).map_or(1, |at| at + 1)
}

/// Flips bytes where the trie is.
fn flip(random: &mut Random, region: &mut [u8]) {
    let end = used(region);
    for _ in 0..1 + random.below(6) {
        let at = random.below(end);
        region[at] = *random.pick(&[0, 1, 2, 0xFF, region[at] ^ 1 << (random.0 % 8), random.0 as u8, region[at].wrapping_add(1)]);
    }
}

fn spoil(random: &mut Random, bytes: &mut [u8], numbers: Numbers) {
    let regions = regions(numbers);
    let kind = random.below(6);
    for &(from, length) in &regions {
        let region = &mut bytes[from..from + length];
        match kind {
            0 | 1 => flip(random, region),
            2 => nest(random, region),
            3 => region.fill_with(|| random.next() as u8),
            4 => region.fill_with(|| *random.pick(&[0, 0, 0, 1, 2, 7, 255])),
            _ => {}
        }
    }
    if kind == 5 {
        let [(a, m), (b, n)] = [0, 0].map(|_| *random.pick(&regions));
        bytes.copy_within(a..a + m.min(n), b);
    }
    if random.chance(60) {
        let held = *random.pick(&[1, numbers.m as usize, numbers.limit() - 1, numbers.limit(), random.0 as usize % (numbers.limit() + 2)]);
        bytes[12..16].copy_from_slice(&(held as u32).to_be_bytes());
    }
    if random.chance(10) {
        let at = random.below(16);
        bytes[at] = *random.pick(&[0, 1, 2, 3, 8, 9, 255]);
    }
    let zeros = random.chance(70);
    bytes[16..4096].fill_with(|| if zeros { 0 } else { random.next() as u8 });
}

/// A sound store with a book, some of it filled.
fn sound(random: &mut Random, style: &mut Style) -> Result<Session, String> {
    style.faults = 3;
    style.setups = 0;
    let (m, l) = *random.pick(&[(1, 8), (1, 3), (2, 2), (4, 2), (8, 3), (9, 1), (60, 1), (250, 1)]);
    style.numbers = Numbers { m, l, tau: style.numbers.tau };
    style.memory = style.numbers.need() + random.below(3) * 500;
    let mut session = Session::new(random.bytes(style.memory));
    session.every_byte = false;
    session.call(&Call::Setup { lent: style.memory, numbers: style.numbers })?;
    for _ in 0..random.below(style.numbers.limit() + 3) {
        let add = cases::add(random, style, &session.book);
        session.call(&add)?;
    }
    Ok(session)
}

/// A call whose buffer fits what the store says it holds, or not.
fn call(random: &mut Random, style: &Style, book: &Book, held: usize) -> Call {
    let mut call = cases::call(random, style, book);
    match &mut call {
        Call::Search { answer, .. } if random.chance(50) => *answer = random.bytes(ROW * held),
        Call::ReadLevel { answer, .. } if random.chance(50) => *answer = random.bytes(RECORD * held),
        _ => {}
    }
    call
}

/// A damaged store, some calls on it, then a setup, after which the book is right again.
pub fn damage(seed: u64) -> Outcome {
    let mut random = Random(seed);
    let mut style = cases::style(&mut random);
    let mut session = sound(&mut random, &mut style)?;
    spoil(&mut random, session.store.bytes_mut(), style.numbers);
    let count = 4 + random.below(12);
    for _ in 0..count {
        let held = word(session.store.bytes(), 12).min(600) as usize;
        let call = call(&mut random, &style, &session.book, held);
        call_on(&mut session.store, &call)?;
    }
    let left = session.store.bytes().to_vec();
    let mut after = Session::new(left);
    after.call(&Call::Setup { lent: style.memory, numbers: style.numbers })?;
    for _ in 0..5 {
        let call = cases::call(&mut random, &style, &after.book);
        after.call(&call)?;
    }
    Ok(session.calls + count as u64 + after.calls)
}
