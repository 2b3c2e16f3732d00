//! Entries as a farm's archive has them, and queries with the selectivities of the paper's Table 7.

use crate::scan::fits;

/// Compared by value, path, reference: row sequence, since no path has a byte 00.
#[derive(Clone, PartialEq, Eq, PartialOrd, Ord)]
pub struct Entry {
    pub value: u64,
    pub path: Box<[u8]>,
    pub reference: [u8; 20],
}

pub struct Query {
    pub name: &'static str,
    pub pattern: Vec<u8>,
    pub low: u64,
    pub high: u64,
}

const SEED: u64 = 20261116;
/// Entries for each file: how often one is changed.
const REVISIONS: usize = 4;
const FIRST_TIME: u64 = 1_420_070_400;
const TEN_YEARS: u64 = 10 * 365 * 24 * 3600;
/// Each with its share of a thousand files.
const FARMS: [(&str, u64); 7] =
    [("lakeside", 320), ("hillside", 250), ("northend", 180), ("orchard", 110), ("mill", 80), ("glebe", 43), ("marsh", 17)];
const FIELDS: u64 = 16;
const YEARS: u64 = 10;
const LAYERS: [&str; 8] = ["soil", "rain", "spray", "yield", "weed", "gate", "drone1", "drone2"];

/// Splitmix64.
struct Random(u64);

impl Random {
    fn next(&mut self) -> u64 {
        self.0 = self.0.wrapping_add(0x9E37_79B9_7F4A_7C15);
        let x = (self.0 ^ (self.0 >> 30)).wrapping_mul(0xBF58_476D_1CE4_E5B9);
        let x = (x ^ (x >> 27)).wrapping_mul(0x94D0_49BB_1331_11EB);
        x ^ (x >> 31)
    }

    fn below(&mut self, n: u64) -> u64 {
        self.next() % n
    }

    fn one_of<T: Copy>(&mut self, from: &[T]) -> T {
        from[self.below(from.len() as u64) as usize]
    }
}

fn farm(random: &mut Random) -> &'static str {
    let mut left = random.below(1000);
    for (name, share) in FARMS {
        if left < share {
            return name;
        }
        left -= share;
    }
    unreachable!("the shares make a thousand")
}

/// The labels below a layer; the shares of ten thousand give Q4, Q5, Q6 and Q8 their selectivities.
fn file(random: &mut Random, layer: &str) -> String {
    match random.below(10_000) {
        0..=2 => format!("legend.{}", random.one_of(&["json", "png"])),
        3..=162 => "index".to_string(),
        163..=432 => format!("probe{:02}.{}.txt", random.below(24), random.one_of(&["ph", "n", "k"])),
        433..=1432 => "README".to_string(),
        _ if layer.starts_with("drone") => format!("flight{}/tile{:02}.tif", random.below(10), random.below(64)),
        _ => format!("plot{:02}.csv", random.below(48)),
    }
}

fn path(random: &mut Random) -> Box<[u8]> {
    let layer = random.one_of(&LAYERS);
    let (farm, field, year) = (farm(random), random.below(FIELDS), 2015 + random.below(YEARS));
    format!("/{farm}/field{field:02}/{year}/{layer}/{}", file(random, layer)).into_bytes().into()
}

/// In a sequence that follows neither value nor path.
pub fn entries(n: usize) -> Vec<Entry> {
    let mut random = Random(SEED);
    let files: Vec<Box<[u8]>> = (0..n.div_ceil(REVISIONS)).map(|_| path(&mut random)).collect();
    let mut entry = || {
        let mut reference = [0; 20];
        reference.fill_with(|| random.next() as u8);
        let file = random.below(files.len() as u64) as usize;
        Entry { value: FIRST_TIME + random.below(TEN_YEARS), path: files[file].clone(), reference }
    };
    (0..n).map(|_| entry()).collect()
}

/// A pattern, and the share of all entries that the range takes. Q1 to Q12 follow Table 7; in Q1 and Q2 the pattern is a file's path.
const QUERIES: [(&str, &str, f64); 14] = [
    ("Q1", "", 4.8e-5),
    ("Q2", "", 1.1e-2),
    ("Q3", "/lakeside/field03/**", 5.1e-4),
    ("Q4", "/hillside/**/soil/**/*.*.txt", 3.2e-3),
    ("Q5", "/**/index", 1.6e-3),
    ("Q6", "/**/drone*/legend.*", 1.0e-2),
    ("Q7", "/orchard/**", 0.39),
    ("Q8", "/northend/field05/**/README", 3.6e-2),
    ("Q9", "/glebe/**", 4.8e-2),
    ("Q10", "/marsh/field1*/2019/**", 4.0e-2),
    ("Q11", "/lakeside/**/*.*", 0.10),
    ("Q12", "/marsh/**", 0.10),
    ("Q13", "/**/*2*/**/d*/**/*1*", 0.05),
    ("Q14", "/**", 1.0),
];

/// The range lies around the middle one of the entries that the pattern fits, so that the answer is not empty where there is one.
fn range(sorted: &[Entry], pattern: &[u8], share: f64) -> (u64, u64) {
    let fitting: Vec<usize> = (0..sorted.len()).filter(|&at| fits(pattern, &sorted[at].path)).collect();
    let middle = fitting.get(fitting.len() / 2).copied().unwrap_or(sorted.len() / 2);
    let width = ((sorted.len() as f64 * share).round() as usize).clamp(1, sorted.len());
    let from = middle.saturating_sub(width / 2).min(sorted.len() - width);
    (sorted[from].value, sorted[from + width - 1].value)
}

pub fn queries(sorted: &[Entry]) -> Vec<Query> {
    let query = |(name, pattern, share): (&'static str, &str, f64)| {
        let pattern = if pattern.is_empty() { sorted[sorted.len() / 2].path.to_vec() } else { pattern.as_bytes().to_vec() };
        let (low, high) = range(sorted, &pattern, share);
        Query { name, pattern, low, high }
    };
    QUERIES.into_iter().map(query).collect()
}
