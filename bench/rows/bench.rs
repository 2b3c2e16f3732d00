// Sorts records of 229 bytes by Rattle's `rows::sort::sort` and by Rust's `sort_unstable_by`, compares the results and prints the times.
use std::cmp::Ordering;
use std::time::Instant;

const WIDTH: usize = 229;
type Record = [u8; WIDTH];

extern "C" {
    fn bench_sort(s: *mut u8, len: usize, n: usize, width: usize);
}

fn rattle_sort(s: &mut [Record]) {
    let n = s.len();
    unsafe { bench_sort(s.as_mut_ptr() as *mut u8, n * WIDTH, n, WIDTH) }
}

// Value, path with its zeros, reference and path length.
fn compare(x: &Record, y: &Record) -> Ordering {
    x[..8].cmp(&y[..8]).then_with(|| x[29..].cmp(&y[29..])).then_with(|| x[8..29].cmp(&y[8..29]))
}

struct Random(u64);

impl Random {
    fn next(&mut self) -> u64 {
        self.0 = self.0.wrapping_mul(6364136223846793005).wrapping_add(1442695040888963407);
        self.0 >> 33
    }
}

// Records with values below `values` (or of 64 bits where it is 0), paths of 2 to 200 bytes out of `paths` (or all different where it is 0).
fn make(n: usize, values: u64, paths: u64, seed: u64) -> Vec<Record> {
    let mut random = Random(seed);
    (0..n)
        .map(|_| {
            let mut r = [0u8; WIDTH];
            let value = if values == 0 { random.next() << 32 ^ random.next() } else { random.next() % values };
            r[..8].copy_from_slice(&value.to_be_bytes());
            for b in &mut r[8..28] {
                *b = random.next() as u8;
            }
            let mut path = Random(if paths == 0 { random.next() } else { random.next() % paths });
            let length = 12 + (path.next() % 40) as usize;
            r[28] = length as u8;
            r[29..41].copy_from_slice(b"/north/field");
            for b in &mut r[41..29 + length] {
                *b = b'a' + (path.next() % 26) as u8;
            }
            r
        })
        .collect()
}

// Sorts a copy of the records and keeps the least time.
fn timed(given: &[Record], out: &mut [Record], least: &mut f64, f: impl Fn(&mut [Record])) {
    out.copy_from_slice(given);
    let start = Instant::now();
    f(out);
    *least = least.min(start.elapsed().as_secs_f64());
}

// The records as they come: in sequence, in reverse, in runs of 60 that are each in sequence, or all equal.
fn arrange(records: &mut [Record], kind: &str) {
    match kind {
        "in sequence" => records.sort_unstable_by(compare),
        "in reverse" => records.sort_unstable_by(|x, y| compare(y, x)),
        "runs of 60" => records.chunks_mut(60).for_each(|run| run.sort_unstable_by(compare)),
        "all equal" => records.fill(records[0]),
        _ => {}
    }
}

const KINDS: [(&str, u64, u64); 7] = [
    ("random values", 0, 0),
    ("100 values, own paths", 100, 0),
    ("100 values, 50 paths", 100, 50),
    ("runs of 60", 0, 0),
    ("in sequence", 0, 0),
    ("in reverse", 0, 0),
    ("all equal", 1, 1),
];

fn main() {
    println!("records  kind                      rattle ms   rust ms  ratio");
    for n in [100usize, 1_000, 10_000, 100_000] {
        for (kind, values, paths) in KINDS {
            let mut given = make(n, values, paths, 7);
            arrange(&mut given, kind);
            let (mut x, mut y) = (given.clone(), given.clone());
            let (mut a, mut b) = (f64::INFINITY, f64::INFINITY);
            // By turns, so that other load on the machine meets both.
            for _ in 0..if n == 100_000 { 8 } else { 40 } {
                timed(&given, &mut x, &mut a, rattle_sort);
                timed(&given, &mut y, &mut b, |s| s.sort_unstable_by(compare));
            }
            assert!(x == y, "results differ");
            println!("{:7}  {:24} {:10.4} {:9.4} {:6.2}", n, kind, a * 1e3, b * 1e3, a / b);
        }
    }
}
