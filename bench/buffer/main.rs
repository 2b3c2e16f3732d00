// Bytes per nanosecond of buffer's writers beside memmove and memset, in one run. Results are compared before anything is timed.
use std::hint::black_box;
use std::time::Instant;

extern "C" {
    fn bench_copy(s: *mut u8, n: usize, at: usize, src: *const u8, m: usize);
    fn bench_move(s: *mut u8, n: usize, from: usize, to: usize, len: usize);
    fn bench_clear(s: *mut u8, n: usize, at: usize, len: usize);
}

const ROUNDS: usize = 20_000;

fn copy(s: &mut [u8], at: usize, src: &[u8]) {
    unsafe { bench_copy(s.as_mut_ptr(), s.len(), at, src.as_ptr(), src.len()) }
}
fn shift(s: &mut [u8], from: usize, to: usize, n: usize) {
    unsafe { bench_move(s.as_mut_ptr(), s.len(), from, to, n) }
}
fn clear(s: &mut [u8], at: usize, n: usize) {
    unsafe { bench_clear(s.as_mut_ptr(), s.len(), at, n) }
}

// the best of five, in bytes per nanosecond
fn speed(n: usize, mut f: impl FnMut()) -> f64 {
    let mut best = 0.0f64;
    for _ in 0..5 {
        let t = Instant::now();
        for _ in 0..ROUNDS {
            f();
        }
        best = best.max((n * ROUNDS) as f64 / t.elapsed().as_nanos() as f64);
    }
    best
}

fn line(name: &str, ours: f64, theirs: f64) {
    println!("{name:<28} {ours:7.1} {theirs:7.1} {:6.2}", theirs / ours);
}

fn main() {
    let n = 65_536;
    let mut a: Vec<u8> = (0..4 * n).map(|i| (i * 7 + i / 251) as u8).collect();
    let src: Vec<u8> = (0..n).map(|i| (i * 13 + 5) as u8).collect();
    for (from, to, len) in [(0, 64, n), (64, 0, n), (0, 1, n), (1, 0, n), (0, 2 * n, n), (2 * n, 0, n), (5, 5, n), (9, 3, 0)] {
        let mut b = a.clone();
        b.copy_within(from..from + len, to);
        let mut c = a.clone();
        shift(&mut c, from, to, len);
        assert!(b == c);
    }
    let mut b = a.clone();
    b[3..3 + n].copy_from_slice(&src);
    let mut c = a.clone();
    copy(&mut c, 3, &src);
    assert!(b == c);
    b[77..77 + n].fill(0);
    clear(&mut c, 77, n);
    assert!(b == c);

    println!("{:<28} {:>7} {:>7} {:>6}   (bytes/ns; ratio = std / buffer)", "64 KiB", "buffer", "std", "ratio");
    let o = speed(n, || copy(black_box(&mut a), 3, black_box(&src)));
    let t = speed(n, || black_box(&mut a)[3..3 + n].copy_from_slice(black_box(&src)));
    line("copy_from", o, t);
    for (name, from, to) in [("move up by 1", 0, 1), ("move up by 7", 0, 7), ("move up by 29", 0, 29), ("move up by 64", 0, 64), ("move up by 2,000", 0, 2000), ("move down by 1", 1, 0), ("move down by 7", 7, 0), ("move down by 29", 29, 0), ("move down by 64", 64, 0), ("move down by 2,000", 2000, 0), ("move, apart, up", 0, 2 * n), ("move, apart, down", 2 * n, 0)] {
        let o = speed(n, || shift(black_box(&mut a), from, to, n));
        let t = speed(n, || black_box(&mut a).copy_within(from..from + n, to));
        line(name, o, t);
    }
    let o = speed(n, || clear(black_box(&mut a), 77, n));
    let t = speed(n, || black_box(&mut a)[77..77 + n].fill(0));
    line("clear", o, t);
    let m = 229;
    let o = speed(m, || copy(black_box(&mut a), 3, black_box(&src[..m])));
    let t = speed(m, || black_box(&mut a)[3..3 + m].copy_from_slice(black_box(&src[..m])));
    line("copy_from, 229 bytes", o, t);
}
