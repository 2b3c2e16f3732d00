// Times the level builder on rows in row sequence: values in no sequence of their own among few paths, and the other way round.
use std::time::Instant;

extern "C" {
    fn bench_level(s: *mut u8, len: usize, n: usize, tau: usize) -> usize;
}

const SLOT: usize = 256;

fn random(x: &mut u64) -> u64 {
    *x ^= *x << 13;
    *x ^= *x >> 7;
    *x ^= *x << 17;
    *x
}

// n rows: values below `values`, paths of three labels, each one of `labels`
fn rows(n: usize, values: u64, labels: u64) -> Vec<[u8; SLOT]> {
    let mut x = 88172645463325252u64;
    let mut keys: Vec<(u64, Vec<u8>, u64)> = (0..n)
        .map(|i| {
            let path = format!("/dir{}/sub{}/file{}.c", random(&mut x) % labels, random(&mut x) % labels, random(&mut x) % labels);
            (1_500_000_000 + random(&mut x) % values, path.into_bytes(), i as u64)
        })
        .collect();
    keys.sort();
    keys.iter()
        .map(|(value, path, reference)| {
            let mut slot = [0u8; SLOT];
            slot[..8].copy_from_slice(&value.to_be_bytes());
            slot[20..28].copy_from_slice(&reference.to_be_bytes());
            slot[28] = path.len() as u8;
            slot[29..29 + path.len()].copy_from_slice(path);
            slot
        })
        .collect()
}

fn main() {
    for (name, values, labels) in [("values many, paths many", 100_000_000, 1000), ("values few", 16, 1000), ("paths few", 100_000_000, 3)] {
        for n in [1000usize, 10_000, 100_000] {
            for tau in [1usize, 100] {
                let slots = rows(n, values, labels);
                let mut s = vec![0u8; 3 * n * SLOT];
                for (k, slot) in slots.iter().enumerate() {
                    s[n * SLOT + k * SLOT..][..SLOT].copy_from_slice(slot);
                }
                let start = Instant::now();
                let size = unsafe { bench_level(s.as_mut_ptr(), s.len(), n, tau) };
                let ns = start.elapsed().as_nanos();
                println!("{name}: {n} rows, tau {tau}: {size} bytes, {} ns a row", ns / n as u128);
            }
        }
    }
}
