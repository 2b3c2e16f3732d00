//! The parts of a run on sound stores. Each case of a part is a number; it fails with what differs.

use crate::book::{Book, Entry, Numbers, RECORD, ROW};
use crate::calls;
use crate::cases::{self, Call, Random, Style};
use crate::patterns::{can_continue, fits};
use crate::session::Session;

pub type Outcome = Result<u64, String>;

fn setup(numbers: Numbers, lent: usize) -> Call {
    Call::Setup { lent, numbers }
}

/// Lists of random calls. On memory that is all zero, calls before the first setup too.
pub fn lists(seed: u64) -> Outcome {
    let mut random = Random(seed);
    let style = cases::style(&mut random);
    let zeros = random.chance(30);
    let memory = if zeros { vec![0; style.memory] } else { random.bytes(style.memory) };
    let mut session = Session::new(memory);
    for _ in 0..if zeros { random.below(4) } else { 0 } {
        let call = cases::call(&mut random, &style, &session.book);
        session.call(&call)?;
    }
    session.call(&setup(style.numbers, style.memory))?;
    for _ in 0..10 + random.below(90) {
        let call = cases::call(&mut random, &style, &session.book);
        session.call(&call)?;
    }
    Ok(session.calls)
}

/// All rows, then each level, with a buffer that is just enough and one that is one byte short.
fn read_all(session: &mut Session, random: &mut Random, lent: usize) -> Result<(), String> {
    let held = session.book.entries.len();
    let levels = session.book.numbers.map_or(0, |numbers| numbers.l);
    for short in 0..2 {
        let answer = random.bytes((held * ROW).saturating_sub(short));
        session.call(&Call::Search { lent, pattern: b"/**".to_vec(), low: 0, high: u64::MAX, answer })?;
    }
    for level in 0..=levels {
        let rows = session.book.read_level(lent, level, &mut []).first as usize;
        for short in 0..2 {
            let answer = random.bytes((rows * RECORD).saturating_sub(short));
            session.call(&Call::ReadLevel { lent, level, answer })?;
        }
    }
    Ok(())
}

/// Adds until `count` entries are held; some additions are repeats.
fn fill(session: &mut Session, random: &mut Random, style: &Style, count: usize) -> Result<(), String> {
    let mut tries = 0;
    while session.book.entries.len() < count {
        let mut call = cases::add(random, style, &session.book);
        tries += 1;
        if let (Call::Add { entry, .. }, true) = (&mut call, tries > 2 * count) {
            entry.reference = random.bytes(20);
        }
        session.call(&call)?;
    }
    Ok(())
}

/// M, L, τ of the stores that are filled.
const FULL: &[(u64, u64, u64)] = &[
    (1, 1, 1),
    (1, 8, 100),
    (1, 8, 1),
    (1, 8, 2),
    (2, 7, 1),
    (3, 6, 2),
    (4, 2, 1),
    (9, 1, 2),
    (5, 5, 5),
    (16, 3, 1),
    (50, 1, 100),
    (100, 1, 1),
    (7, 4, 3),
    (130, 1, 50),
    (33, 2, 10),
];

/// M × 2^L − 1 entries and one more, with readings around the overflows.
pub fn full(seed: u64) -> Outcome {
    let mut random = Random(seed);
    let (m, l, tau) = FULL[seed as usize % FULL.len()];
    let numbers = Numbers { m, l, tau };
    let mut style = cases::style(&mut random);
    (style.numbers, style.memory, style.faults) = (numbers, numbers.need() + random.below(2) * 1000, 0);
    let mut session = Session::new(random.bytes(style.memory));
    session.call(&setup(numbers, style.memory))?;
    for digits in 0..1 << l {
        if digits < 6 || digits % 16 >= 15 || digits + 2 >= 1 << l {
            fill(&mut session, &mut random, &style, ((digits + 1) * m as usize).saturating_sub(1))?;
            read_all(&mut session, &mut random, style.memory)?;
            for _ in 0..4 {
                let search = cases::search(&mut random, &style, &session.book);
                session.call(&search)?;
            }
        }
    }
    for _ in 0..3 {
        let fresh = Entry { path: b"/one/more".to_vec(), value: random.next(), reference: random.bytes(20) };
        let held = session.book.entries[random.below(numbers.limit())].clone();
        for entry in [fresh, held] {
            session.call(&Call::Add { lent: style.memory, entry })?;
        }
    }
    read_all(&mut session, &mut random, style.memory)?;
    session.call(&setup(numbers, style.memory))?;
    read_all(&mut session, &mut random, style.memory)?;
    Ok(session.calls)
}

/// Paths that are each a beginning of the next, and values that go with them: tries of some 200 nodes deep.
pub fn deep(seed: u64) -> Outcome {
    let mut random = Random(seed);
    let numbers = Numbers { m: *random.pick(&[1, 1, 2, 60, 255, 128]), l: 1, tau: 1 + seed % 2 };
    let numbers = Numbers { l: if numbers.m < 3 { 8 - numbers.m / 2 } else { 1 }, ..numbers };
    let lent = numbers.need();
    let mut session = Session::new(random.bytes(lent));
    session.call(&setup(numbers, lent))?;
    let mut lengths: Vec<usize> = (1..200).collect();
    match seed % 3 {
        0 => lengths.reverse(),
        1 => lengths.sort_by_cached_key(|_| random.next()),
        _ => {}
    }
    for (at, length) in lengths.into_iter().enumerate() {
        let value = [1 << (length % 64), length as u64, 0][random.below(3)];
        let entry = Entry { path: [b"/".to_vec(), vec![b'a'; length]].concat(), value, reference: vec![at as u8; 20] };
        session.call(&Call::Add { lent, entry })?;
        if at % 30 == 29 || at == 198 {
            let pattern = [b"/".to_vec(), vec![b'a'; random.below(190)], b"*".to_vec()].concat();
            let answer = random.bytes(199 * ROW);
            session.call(&Call::Search { lent, pattern, low: 0, high: random.next(), answer })?;
            read_all(&mut session, &mut random, lent)?;
        }
    }
    Ok(session.calls)
}

/// Five entries in every sequence, at one M: the shape of the small trie.
pub fn sequences(seed: u64) -> Outcome {
    let mut random = Random(seed);
    let mut style = cases::style(&mut random);
    style.faults = 0;
    let mut scratch = Book::default();
    scratch.setup(usize::MAX, 100, 1, 1);
    while scratch.entries.len() < 5 {
        if let Call::Add { entry: e, .. } = cases::add(&mut random, &style, &scratch) {
            scratch.add(usize::MAX, &e.path, e.value, &e.reference);
        }
    }
    let numbers = Numbers { m: 2 + seed % 7, l: 2, tau: 1 + seed % 3 };
    let mut session = Session::new(random.bytes(numbers.need()));
    for order in 0..120 {
        session.call(&setup(numbers, numbers.need()))?;
        let (mut left, mut code) = (scratch.entries.clone(), order);
        while !left.is_empty() {
            let entry = left.remove(code % left.len());
            code /= left.len() + 1;
            session.call(&Call::Add { lent: numbers.need(), entry })?;
        }
        for _ in 0..2 {
            style.memory = numbers.need();
            let search = cases::search(&mut random, &style, &session.book);
            session.call(&search)?;
        }
    }
    Ok(session.calls)
}

/// A path, a pattern and a reference for each way to be wrong or right.
const PATHS: &[(&[u8], usize)] = &[(b"/a/b", 1), (b"/north//pond", 1), (b"/a", 101), (b"//", 101)];
const PATTERNS: &[(&[u8], usize)] = &[(b"/**", 1), (b"/a**b", 1), (b"/a", 33), (b"//", 17), (b"/a", 101), (b"/*", 32)];

/// All combinations of wrong and right arguments of every call.
fn combinations(memory: usize, need: usize, held: Option<&Entry>) -> Vec<Call> {
    let mut calls = Vec::new();
    for lent in [0, 15, 16, need - 1, need, memory] {
        for (path, times) in PATHS {
            for length in [19, 20, 21] {
                let entry = Entry { path: path.repeat(*times), value: 7, reference: vec![1; length] };
                calls.push(Call::Add { lent, entry });
            }
        }
        calls.extend(held.map(|entry| Call::Add { lent, entry: entry.clone() }));
        for (pattern, times) in PATTERNS {
            for (low, high, length) in [(0, u64::MAX, 0), (9, 8, 0), (0, u64::MAX, 300_000), (9, 8, 228), (7, 7, ROW)] {
                calls.push(Call::Search { lent, pattern: pattern.repeat(*times), low, high, answer: vec![0xEE; length] });
            }
        }
        for (level, length) in [(0, 0), (0, RECORD - 1), (1, 40_000), (8, 0), (u64::MAX, 10)] {
            calls.push(Call::ReadLevel { lent, level, answer: vec![0xEE; length] });
        }
    }
    calls
}

fn setups(memory: usize, need: usize, numbers: Numbers) -> Vec<Call> {
    let mut calls = Vec::new();
    for lent in [0, 15, 16, need - 1, need, memory] {
        for change in [0, 4097, (1 << 32) + 1, u64::MAX] {
            calls.push(setup(Numbers { m: change, ..numbers }, lent));
            calls.push(setup(Numbers { l: change, ..numbers }, lent));
            calls.push(setup(Numbers { tau: change, ..numbers }, lent));
        }
        calls.push(setup(Numbers { l: 9, ..numbers }, lent));
        calls.push(setup(Numbers { tau: 101, ..numbers }, lent));
        calls.push(setup(Numbers { m: 4096, l: 8, tau: 100 }, lent));
        if lent < need {
            calls.push(setup(numbers, lent));
        }
    }
    calls
}

/// Every refusal at every position of a list of additions that fills the store. Calls that would be accepted are made on the way too,
/// but for the addition of an entry that is not there.
pub fn refused(seed: u64) -> Outcome {
    let mut random = Random(seed);
    let mut style = cases::style(&mut random);
    (style.numbers, style.faults) = (Numbers { m: 1 + seed % 4, l: 1 + seed / 4 % 2, tau: 1 + seed % 2 }, 0);
    let need = style.numbers.need();
    style.memory = need + 100 * (seed as usize % 2);
    let mut session = Session::new(vec![0; style.memory]);
    for call in combinations(style.memory, need, None) {
        session.call(&call)?;
    }
    session.call(&setup(style.numbers, style.memory))?;
    for count in 0..=style.numbers.limit() {
        fill(&mut session, &mut random, &style, count)?;
        let held = session.book.entries.first().cloned();
        for call in setups(style.memory, need, style.numbers) {
            session.call(&call)?;
        }
        for call in combinations(style.memory, need, held.as_ref()) {
            if cases::expected(&mut session.book.clone(), &call).0.number != 0 || !matches!(call, Call::Add { .. }) {
                session.call(&call)?;
            }
        }
    }
    Ok(session.calls)
}

/// M 4,096, L 1: memory is compared now and then.
pub fn large(seed: u64) -> Outcome {
    let mut random = Random(seed);
    let mut style = cases::style(&mut random);
    (style.numbers, style.faults, style.kinds) =
        (Numbers { m: 4096, l: 1, tau: 1 + 99 * (seed % 2) }, 0, [1 + 4 * (seed as usize % 2), 3, 2]);
    style.memory = style.numbers.need();
    let mut session = Session::new(random.bytes(style.memory));
    session.call(&setup(style.numbers, style.memory))?;
    session.every_byte = false;
    for count in [1, 1000, 4094, 4095, 4096, 4097, 6000, 8190, 8191] {
        fill(&mut session, &mut random, &style, count)?;
        session.compare_memory(true)?;
        let search = cases::search(&mut random, &style, &session.book);
        session.call(&search)?;
    }
    let entry = Entry { path: b"/one/more".to_vec(), value: 0, reference: vec![9; 20] };
    session.call(&Call::Add { lent: style.memory, entry })?;
    read_all(&mut session, &mut random, style.memory)?;
    session.compare_memory(false)?;
    Ok(session.calls)
}

/// All texts over an alphabet of up to `longest` bytes.
pub fn texts(alphabet: &[u8], longest: usize) -> Vec<Vec<u8>> {
    let mut all: Vec<Vec<u8>> = vec![Vec::new()];
    let mut from = 0;
    for _ in 0..longest {
        let end = all.len();
        for at in from..end {
            all.extend(alphabet.iter().map(|&byte| [&all[at][..], &[byte]].concat()).collect::<Vec<_>>());
        }
        from = end;
    }
    all
}

fn compare_fits(pattern: &[u8], path: &[u8]) -> Result<(), String> {
    let (got, wanted) = (calls::fits(pattern, path), fits(pattern, path));
    if got != wanted {
        return Err(format!("fits(\"{}\", \"{}\") is {got}", pattern.escape_ascii(), path.escape_ascii()));
    }
    // the book's two ways to decide: a whole path with its end byte can be continued exactly when it fits
    let whole = [path, &[0]].concat();
    if crate::patterns::is_pattern(pattern) && path.len() <= 200 && can_continue(pattern, &whole) != wanted {
        return Err(format!("the book disagrees with itself on \"{}\", \"{}\"", pattern.escape_ascii(), path.escape_ascii()));
    }
    Ok(())
}

/// The matcher alone: case 0 is every short pattern on every short path, the others are random.
pub fn matcher(seed: u64) -> Outcome {
    let mut random = Random(seed);
    let mut count = 0;
    if seed == 0 {
        let paths = texts(b"/ab", 5);
        for pattern in texts(b"/a*", 6) {
            for path in &paths {
                compare_fits(&pattern, path)?;
                count += 1;
            }
        }
        return Ok(count);
    }
    let style = cases::style(&mut random);
    let mut book = Book::default();
    for _ in 0..300 {
        let path = cases::path(&mut random, &style, &book);
        if crate::patterns::is_path(&path) && random.chance(40) {
            book.entries.push(Entry { path: path.clone(), value: 0, reference: Vec::new() });
        }
        let pattern = cases::pattern(&mut random, &style, &book);
        compare_fits(&pattern, &path)?;
        count += 1;
    }
    Ok(count)
}
