//! Seeded calls: arguments that are often near what the book holds, and often wrong.

use crate::book::{Book, Entry, Numbers, Reply, RECORD, ROW};
use crate::patterns::is_label_byte;

/// splitmix64
pub struct Random(pub u64);

impl Random {
    pub fn next(&mut self) -> u64 {
        self.0 = self.0.wrapping_add(0x9E37_79B9_7F4A_7C15);
        let mut x = self.0;
        x = (x ^ x >> 30).wrapping_mul(0xBF58_476D_1CE4_E5B9);
        x = (x ^ x >> 27).wrapping_mul(0x94D0_49BB_1331_11EB);
        x ^ x >> 31
    }

    pub fn below(&mut self, end: usize) -> usize {
        (self.next() % end as u64) as usize
    }

    pub fn chance(&mut self, percent: usize) -> bool {
        self.below(100) < percent
    }

    pub fn pick<'a, T>(&mut self, from: &'a [T]) -> &'a T {
        &from[self.below(from.len())]
    }

    pub fn bytes(&mut self, length: usize) -> Vec<u8> {
        (0..length).map(|_| self.next() as u8).collect()
    }
}

#[derive(Clone)]
pub enum Call {
    Setup { lent: usize, numbers: Numbers },
    Add { lent: usize, entry: Entry },
    Search { lent: usize, pattern: Vec<u8>, low: u64, high: u64, answer: Vec<u8> },
    ReadLevel { lent: usize, level: u64, answer: Vec<u8> },
}

impl Call {
    /// One line that says the call, bytes as hex after an x.
    pub fn text(&self) -> String {
        match self {
            Call::Setup { lent, numbers: n } => format!("setup {lent} {} {} {}", n.m, n.l, n.tau),
            Call::Add { lent, entry: e } => format!("add {lent} x{} {} x{}", hex(&e.path), e.value, hex(&e.reference)),
            Call::Search { lent, pattern, low, high, answer } => format!("search {lent} x{} {low} {high} x{}", hex(pattern), hex(answer)),
            Call::ReadLevel { lent, level, answer } => format!("read_level {lent} {level} x{}", hex(answer)),
        }
    }

    /// As much of it as a report needs.
    pub fn brief(&self) -> String {
        self.text().chars().take(600).collect()
    }

    /// The bytes of the answer buffer that the call is lent.
    pub fn answer(&self) -> &[u8] {
        match self {
            Call::Search { answer, .. } | Call::ReadLevel { answer, .. } => answer,
            _ => &[],
        }
    }
}

pub fn hex(bytes: &[u8]) -> String {
    bytes.iter().map(|byte| format!("{byte:02x}")).collect()
}

/// The book's reply, and the answer buffer afterwards.
pub fn expected(book: &mut Book, call: &Call) -> (Reply, Vec<u8>) {
    let mut answer = call.answer().to_vec();
    let reply = match call {
        Call::Setup { lent, numbers: n } => book.setup(*lent, n.m, n.l, n.tau),
        Call::Add { lent, entry: e } => book.add(*lent, &e.path, e.value, &e.reference),
        Call::Search { lent, pattern, low, high, .. } => book.search(*lent, pattern, *low, *high, &mut answer),
        Call::ReadLevel { lent, level, .. } => book.read_level(*lent, *level, &mut answer),
    };
    (reply, answer)
}

/// What the calls of one list have in common.
pub struct Style {
    pub memory: usize,
    pub numbers: Numbers,
    /// Which paths, values and references: see `path`, `value` and `reference`.
    pub kinds: [usize; 3],
    /// Percent of the arguments that are wrong, and of the setups after the first.
    pub faults: usize,
    pub setups: usize,
}

const TINY: &[&str] = &["a", "b", "ab", "aa", "ba", "aab"];
const WORDS: &[&str] = &["north", "south", "pond", "pond3", "map.c", "edge", "n", "no", "sub"];
/// The path bytes at the edges of what is allowed.
const EDGES: &[u8] = &[0x20, 0x21, 0x29, 0x2B, 0x2E, 0x30, 0x7E, 0x80, 0x81, 0xFE, 0xFF];
const NO_PATHS: &[&[u8]] =
    &[b"", b"/", b"a", b"//", b"/a/", b"/a//b", b"/a*", b"/*", b"/\x7f", b"/\x1f", b"/\x00", b"/a\x00", b"a/b", b"/a/\x0a", b" /a", b"/**"];
const NO_PATTERNS: &[&[u8]] = &[
    b"", b"/", b"*", b"**", b"//", b"/a/", b"/a//b", b"/a**b", b"/***", b"/**a", b"/a**", b"/*/**x", b"/\x7f", b"/a\x00", b"a", b"/a/*/",
    b"/****", b"/\x1f",
];
const PATH_KINDS: usize = 8;

fn joined_labels(labels: &[Vec<u8>]) -> Vec<u8> {
    labels.iter().flat_map(|label| [b"/", &label[..]].concat()).collect()
}

fn label_of(random: &mut Random, bytes: &[u8], longest: usize) -> Vec<u8> {
    (0..1 + random.below(longest)).map(|_| *random.pick(bytes)).collect()
}

/// 199 to 201 bytes that agree but for a few.
fn long_path(random: &mut Random) -> Vec<u8> {
    let length = *random.pick(&[199, 200, 200, 200, 201]);
    let mut path: Vec<u8> = (0..length).map(|at| if at % 40 == 0 { b'/' } else { b'a' }).collect();
    for _ in 0..random.below(3) {
        let at = 1 + random.below(length - 1);
        path[at] = if path[at] == b'/' { b'/' } else { *random.pick(b"ab") };
    }
    path
}

fn new_path(random: &mut Random, kind: usize) -> Vec<u8> {
    let all: Vec<u8> = (0..=255).filter(|&byte| is_label_byte(byte)).collect();
    let labels = match kind {
        0 => (0..1 + random.below(3)).map(|_| random.pick(TINY).as_bytes().to_vec()).collect(),
        1 => (0..1 + random.below(5)).map(|_| random.pick(WORDS).as_bytes().to_vec()).collect(),
        2 => (0..*random.pick(&[31, 32, 33, 34, 99, 100])).map(|_| random.pick(&[b"a", b"a", b"a", b"b"]).to_vec()).collect(),
        3 => return long_path(random),
        4 => (0..1 + random.below(4)).map(|_| label_of(random, EDGES, 3)).collect::<Vec<_>>(),
        5 => (0..1 + random.below(4)).map(|_| label_of(random, &all, 12)).collect(),
        6 => (0..1 + random.below(4)).map(|_| vec![b'a'; 1 + random.below(4)]).collect(),
        _ => {
            let other = random.below(PATH_KINDS - 1);
            return new_path(random, other);
        }
    };
    joined_labels(&labels)
}

/// A path like another one.
fn near_path(random: &mut Random, path: &[u8]) -> Vec<u8> {
    let mut near = path.to_vec();
    match random.below(5) {
        0 => near.extend(random.pick(&["/a", "a", "b", "/pond"]).bytes()),
        1 => drop(near.pop()),
        2 | 3 => {
            let at = random.below(near.len());
            near[at] = *random.pick(&[b'a', b'b', b'/', 0x20, 0xFF, near[at] ^ 1]);
        }
        _ => {}
    }
    near
}

fn no_path(random: &mut Random, kind: usize) -> Vec<u8> {
    let mut path = new_path(random, kind);
    match random.below(4) {
        0 => random.pick(NO_PATHS).to_vec(),
        1 => {
            let at = random.below(path.len());
            path[at] = *random.pick(&[0, 0x1F, 0x7F, b'*', b'/', random.0 as u8]);
            path
        }
        2 => [b"/".to_vec(), vec![b'a'; *random.pick(&[198, 199, 200, 201, 255, 256, 400])]].concat(),
        _ => vec![*random.pick(b"/a*\x7f"); *random.pick(&[200, 201, 202, 300, 456, 5000])],
    }
}

pub fn path(random: &mut Random, style: &Style, book: &Book) -> Vec<u8> {
    if random.chance(style.faults) {
        return no_path(random, style.kinds[0]);
    }
    if !book.entries.is_empty() && random.chance(30) {
        let held = random.pick(&book.entries).path.clone();
        return near_path(random, &held);
    }
    new_path(random, style.kinds[0])
}

pub fn value(random: &mut Random, style: &Style, book: &Book) -> u64 {
    if !book.entries.is_empty() && random.chance(30) {
        return random.pick(&book.entries).value;
    }
    let ends = [0, 1, 255, 256, 65535, (1 << 63) - 1, 1 << 63, (1 << 63) + 1, u64::MAX - 1, u64::MAX];
    match style.kinds[1] {
        0 => random.below(4) as u64,
        1 => *random.pick(&ends),
        2 => random.next(),
        3 => 0x5D00_0000 + (random.below(3) << 16 | random.below(3) << 8 | random.below(300)) as u64,
        _ => 1 << random.below(64),
    }
}

fn reference(random: &mut Random, style: &Style, book: &Book) -> Vec<u8> {
    if random.chance(style.faults) {
        let length = *random.pick(&[0, 1, 19, 21, 40, 276]);
        return random.bytes(length);
    }
    if !book.entries.is_empty() && random.chance(20) {
        return random.pick(&book.entries).reference.clone();
    }
    let mut bytes = match style.kinds[2] {
        0 => vec![0; 20],
        1 => vec![0xFF; 20],
        _ => return random.bytes(20),
    };
    bytes[19 * random.below(2)] = random.below(3) as u8;
    bytes
}

/// An entry that is held already now and then.
fn entry(random: &mut Random, style: &Style, book: &Book) -> Entry {
    if !book.entries.is_empty() && random.chance(12) {
        return random.pick(&book.entries).clone();
    }
    Entry { path: path(random, style, book), value: value(random, style, book), reference: reference(random, style, book) }
}

/// Stars in place of parts of a label.
fn starred(random: &mut Random, label: &[u8]) -> Vec<u8> {
    let [mut from, mut to] = [0, 0].map(|_| random.below(label.len() + 1));
    if from > to {
        (from, to) = (to, from);
    }
    match random.below(6) {
        0 => b"*".to_vec(),
        1 => b"**".to_vec(),
        2 => [&label[..from], b"*", &label[to..]].concat(),
        3 => [b"*", &label[from..to], b"*"].concat(),
        _ => label.to_vec(),
    }
}

fn near_pattern(random: &mut Random, path: &[u8]) -> Vec<u8> {
    let mut labels: Vec<Vec<u8>> = path[1.min(path.len())..].split(|&byte| byte == b'/').map(|label| starred(random, label)).collect();
    for _ in 0..random.below(3) {
        let at = random.below(labels.len() + 1);
        match random.below(3) {
            0 if labels.len() > 1 => drop(labels.remove(at.min(labels.len() - 1))),
            1 => labels.insert(at, random.pick(&[&b"**"[..], b"*", b"a"]).to_vec()),
            _ => {}
        }
    }
    joined_labels(&labels)
}

fn no_pattern(random: &mut Random) -> Vec<u8> {
    let piece = *random.pick(&[&b"/a"[..], b"/*", b"/**", b"/", b"/a*", b"/x", b"/7f\x7f"]);
    match random.below(3) {
        0 => random.pick(NO_PATTERNS).to_vec(),
        1 => piece.repeat(*random.pick(&[31, 32, 33, 66, 67, 100])),
        _ => [b"/".to_vec(), vec![*random.pick(b"a*/"); *random.pick(&[198, 199, 200, 201, 255, 400])]].concat(),
    }
}

pub fn pattern(random: &mut Random, style: &Style, book: &Book) -> Vec<u8> {
    if random.chance(style.faults) {
        return no_pattern(random);
    }
    let from = if book.entries.is_empty() || random.chance(20) {
        new_path(random, style.kinds[0])
    } else {
        random.pick(&book.entries).path.clone()
    };
    match random.below(8) {
        0 => b"/**".to_vec(),
        1 => [b"/**", &from[from.iter().rposition(|&byte| byte == b'/').unwrap()..]].concat(),
        2 => from,
        _ => near_pattern(random, &from),
    }
}

fn range(random: &mut Random, style: &Style, book: &Book) -> (u64, u64) {
    let mut end = || {
        let value = value(random, style, book);
        *random.pick(&[value, value, value.wrapping_add(1), value.wrapping_sub(1), value & !0xFF, value | 0xFFFF, 0, u64::MAX])
    };
    let (low, high) = (end(), end());
    if random.chance(style.faults) || low <= high {
        (low, high)
    } else {
        (high, low)
    }
}

/// A buffer around what is needed: `rows` of `size` bytes.
fn answer(random: &mut Random, rows: usize, size: usize) -> Vec<u8> {
    let exact = rows * size;
    let length = *random.pick(&[exact, exact, exact + 1, exact + 300, exact.saturating_sub(1), exact + size, 0, exact / 2]);
    random.bytes(length)
}

fn lent(random: &mut Random, style: &Style, book: &Book) -> usize {
    if !random.chance(style.faults) {
        return style.memory;
    }
    let need = book.numbers.unwrap_or(style.numbers).need();
    let some = random.below(style.memory + 1);
    let lengths = [0, 1, 4, 15, 16, 17, 4095, 4096, need - 1, need - 1, need, need + 1, style.memory - 1, some];
    (*random.pick(&lengths)).min(style.memory)
}

fn numbers(random: &mut Random, style: &Style) -> Numbers {
    let mut numbers = style.numbers;
    let wrong = [0, 4097, 9, 101, (1 << 32) + 1, (1 << 32) + 4, 1 << 63, u64::MAX];
    match random.below(8) {
        0 => numbers.m = *random.pick(&wrong),
        1 => numbers.l = *random.pick(&wrong),
        2 => numbers.tau = *random.pick(&wrong),
        3 => numbers.m = 1 + random.below(6) as u64,
        4 => numbers.l = 1 + random.below(8) as u64,
        5 => numbers.tau = 1 + random.below(100) as u64,
        _ => {}
    }
    numbers
}

pub fn setup(random: &mut Random, style: &Style, book: &Book) -> Call {
    Call::Setup { lent: lent(random, style, book), numbers: numbers(random, style) }
}

pub fn add(random: &mut Random, style: &Style, book: &Book) -> Call {
    Call::Add { lent: lent(random, style, book), entry: entry(random, style, book) }
}

pub fn search(random: &mut Random, style: &Style, book: &Book) -> Call {
    let (lent, pattern, (low, high)) = (lent(random, style, book), pattern(random, style, book), range(random, style, book));
    let rows = book.search(lent, &pattern, low, high, &mut []).first as usize;
    Call::Search { lent, pattern, low, high, answer: answer(random, rows, ROW) }
}

pub fn read_level(random: &mut Random, style: &Style, book: &Book) -> Call {
    let lent = lent(random, style, book);
    let other = *random.pick(&[style.numbers.l, 8, 63, 64, 256, 1 << 32, u64::MAX]);
    let level = if random.chance(10) { other } else { random.below(style.numbers.l as usize) as u64 };
    let rows = book.read_level(lent, level, &mut []).first as usize;
    Call::ReadLevel { lent, level, answer: answer(random, rows, RECORD) }
}

/// Any call, additions more often than not while the store is not full.
pub fn call(random: &mut Random, style: &Style, book: &Book) -> Call {
    let full = book.numbers.is_some_and(|numbers| book.entries.len() == numbers.limit());
    match random.below(100) {
        at if at < style.setups => setup(random, style, book),
        at if at < if full { 25 } else { 70 } => add(random, style, book),
        at if at < 90 => search(random, style, book),
        _ => read_level(random, style, book),
    }
}

/// The style of a list: mostly small stores.
pub fn style(random: &mut Random) -> Style {
    const SIZES: &[(u64, u64)] =
        &[(1, 1), (1, 2), (1, 3), (1, 5), (1, 6), (2, 1), (2, 2), (2, 4), (3, 3), (4, 2), (5, 1), (5, 3), (8, 2), (9, 1), (16, 1), (30, 1)];
    let (m, l) = *random.pick(SIZES);
    let tau = *random.pick(&[1, 1, 1, 2, 2, 3, 5, 100]);
    let numbers = Numbers { m, l, tau };
    let memory = numbers.need() + *random.pick(&[0, 0, 1, 100, 5000, 70_000]);
    let kinds = [random.below(PATH_KINDS), random.below(5), random.below(3)];
    Style { memory, numbers, kinds, faults: *random.pick(&[0, 2, 2, 10, 30]), setups: *random.pick(&[0, 0, 1, 5]) }
}
