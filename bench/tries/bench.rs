// Times one addition to a small trie (Rattle's `trie_add::add::add`) and one insertion into a BTreeMap of the same keys.
use std::collections::BTreeMap;
use std::time::Instant;

extern "C" {
    fn bench_add(
        s: *mut u8, len: usize, used: usize, value: *const u8, value_len: usize, path: *const u8, path_len: usize, reference: *const u8,
        reference_len: usize,
    ) -> usize;
}

// Value, path with its end byte, reference: in row sequence.
type Key = ([u8; 8], Vec<u8>, [u8; 20]);

// The most bytes that an addition makes a trie longer.
const GROWTH: usize = 245;

const ROUNDS: usize = 301;

fn add(s: &mut [u8], used: usize, k: &Key) -> usize {
    unsafe { bench_add(s.as_mut_ptr(), s.len(), used, k.0.as_ptr(), 8, k.1.as_ptr(), k.1.len(), k.2.as_ptr(), 20) }
}

struct Random(u64);

impl Random {
    fn below(&mut self, n: u64) -> u64 {
        self.0 = self.0.wrapping_mul(6364136223846793005).wrapping_add(1442695040888963407);
        (self.0 >> 33) % n
    }
}

// A path such as /south/field07/row113/soil.log, a time within some weeks, a random reference.
fn key(random: &mut Random) -> Key {
    let side = ["north", "south", "east", "west"][random.below(4) as usize];
    let kind = ["soil", "rain", "spray", "gate", "pump"][random.below(5) as usize];
    let path = format!("/{}/field{:02}/row{}/{}.log\0", side, random.below(40), random.below(200), kind);
    let value = 1_700_000_000 + random.below(3_000_000);
    let mut reference = [0; 20];
    reference.iter_mut().for_each(|b| *b = random.below(256) as u8);
    (value.to_be_bytes(), path.into_bytes(), reference)
}

// The keys of the nodes side by side in t, below what is known of value and path.
fn keys(mut t: &[u8], known: (&[u8], &[u8]), out: &mut Vec<Key>) {
    while !t.is_empty() {
        let path = 7 + t[1] as usize;
        let body = path + t[2] as usize;
        let next = body + u32::from_be_bytes(t[3..7].try_into().unwrap()) as usize;
        let value = [known.0, &t[7..path]].concat();
        let whole = [known.1, &t[path..body]].concat();
        if t[0] == 0 {
            for suffix in t[body..next].chunks(22) {
                out.push((value.clone().try_into().unwrap(), whole.clone(), suffix[2..].try_into().unwrap()));
            }
        } else {
            keys(&t[body..next], (&value, &whole), out);
        }
        t = &t[next..];
    }
}

fn trie_of(given: &[Key]) -> Vec<u8> {
    let mut s = vec![0; GROWTH * given.len()];
    let used = given.iter().fold(0, |used, k| used + add(&mut s, used, k));
    s.truncate(used);
    s
}

fn assert_holds(trie: &[u8], map: &BTreeMap<Key, ()>) {
    let mut found = Vec::new();
    keys(trie, (b"", b""), &mut found);
    found.sort();
    assert!(found.iter().eq(map.keys()), "the trie holds other keys");
}

fn restore(trie: &[u8], tries: &mut [Vec<u8>]) {
    for s in tries {
        s[..trie.len()].copy_from_slice(trie);
    }
}

// The mean time of one addition in nanoseconds, each of another key to a trie of its own.
fn time_adds(trie: &[u8], tries: &mut [Vec<u8>], more: &[Key]) -> f64 {
    restore(trie, tries);
    let start = Instant::now();
    for (s, k) in tries.iter_mut().zip(more) {
        std::hint::black_box(add(s, trie.len(), k));
    }
    start.elapsed().as_secs_f64() * 1e9 / more.len() as f64
}

fn time_inserts(map: &BTreeMap<Key, ()>, more: &[Key]) -> f64 {
    let mut maps: Vec<_> = more.iter().map(|_| map.clone()).collect();
    let new = more.to_vec();
    let start = Instant::now();
    for (m, k) in maps.iter_mut().zip(new) {
        std::hint::black_box(m.insert(k, ()));
    }
    start.elapsed().as_secs_f64() * 1e9 / more.len() as f64
}

// What an addition moves on average, half of the trie, by Rust's `copy_within`.
fn time_moves(trie: &[u8], tries: &mut [Vec<u8>]) -> f64 {
    restore(trie, tries);
    let half = trie.len() / 2;
    let start = Instant::now();
    for s in tries.iter_mut() {
        std::hint::black_box(s).copy_within(half..trie.len(), half + GROWTH / 3);
    }
    start.elapsed().as_secs_f64() * 1e9 / tries.len() as f64
}

// How many times the figure for the size before.
fn growth(x: f64, before: Option<f64>) -> String {
    before.map_or("".into(), |b| format!("{:.2}", x / b))
}

fn median(mut x: Vec<f64>) -> f64 {
    x.sort_by(f64::total_cmp);
    x[x.len() / 2]
}

fn main() {
    println!("entries    bytes  addition ns  growth  BTreeMap ns  growth  ratio  half moved ns");
    let mut before: Option<[f64; 2]> = None;
    for (n, copies) in [(16usize, 256usize), (256, 64), (4096, 4)] {
        let mut random = Random(n as u64);
        let given: Vec<Key> = (0..n).map(|_| key(&mut random)).collect();
                let trie = trie_of(&given);
        let map: BTreeMap<Key, ()> = given.iter().map(|k| (k.clone(), ())).collect();
        let mut tries = vec![vec![0; trie.len() + GROWTH]; copies];
        assert_holds(&trie, &map);
        // By turns, so that other load on the machine meets all.
        let (mut a, mut b, mut c) = (Vec::new(), Vec::new(), Vec::new());
        for _ in 0..ROUNDS {
            let more: Vec<Key> = (0..copies).map(|_| key(&mut random)).collect();
            a.push(time_adds(&trie, &mut tries, &more));
            b.push(time_inserts(&map, &more));
            c.push(time_moves(&trie, &mut tries));
        }
        let (a, b, c) = (median(a), median(b), median(c));
        let (ga, gb) = (growth(a, before.map(|x| x[0])), growth(b, before.map(|x| x[1])));
        println!("{:7} {:8} {:12.0} {:>7} {:12.0} {:>7} {:6.2} {:14.0}", n, trie.len(), a, ga, b, gb, a / b, c);
        before = Some([a, b]);
    }
}
