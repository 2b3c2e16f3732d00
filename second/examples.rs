//! What documents 01 and 000 print, held against the book, and the same calls against the index.

use crate::book::{Entry, Numbers, RECORD, ROW};
use crate::cases::Call;
use crate::parts::{texts, Outcome};
use crate::patterns::{can_continue, fits, is_path, is_pattern};
use crate::session::Session;
use crate::tries::{key_of, position, value_can_continue, Key, P, V};
use std::collections::HashSet;

/// Table 1 of document 000: path, value, the first bytes of the reference. Keys 1 to 9.
const TABLE_1: [(&str, u64, u64); 9] = [
    ("/Sources/Map.go", 0x5DA8942A, 0xA1A606B0B3),
    ("/crypto/ecc.h", 0x5FBD8DC4, 0xD44739D8F8),
    ("/crypto/ecc.c", 0x5FBD8DC4, 0xD44739D8F8),
    ("/Sources/Schema.go", 0x5DA8948C, 0x41D17A7B4D),
    ("/fs/ext3/inode.c", 0x5EF29C59, 0x9698D9F506),
    ("/fs/ext4/inode.h", 0x5EBD23C2, 0xFFCAAE8F57),
    ("/fs/ext4/inode.c", 0x5FBD3D5A, 0x688D973CBE),
    ("/Sources/Schedule.go", 0x5DA8978B, 0x9907EE0A7B),
    ("/Sources/Scheduler.go", 0x5DA8978B, 0x9907EE0A7B),
];

/// Table 5 as read back: for each key the dimension, path position and value position of its nodes.
const TABLE_5: [(usize, &[[u8; 3]]); 9] = [
    (1, &[[1, 2, 5], [2, 10, 7], [0, 17, 9]]),
    (2, &[[1, 2, 5], [2, 2, 7], [0, 13, 9]]),
    (3, &[[1, 2, 5], [2, 2, 7], [0, 13, 9]]),
    (4, &[[1, 2, 5], [2, 10, 7], [1, 14, 7], [0, 20, 9]]),
    (5, &[[1, 2, 5], [0, 8, 6]]),
    (6, &[[1, 2, 5], [0, 8, 6]]),
    (7, &[[1, 2, 5], [2, 2, 7], [0, 18, 9]]),
    (8, &[[1, 2, 5], [2, 10, 7], [1, 14, 7], [0, 18, 9]]),
    (9, &[[1, 2, 5], [2, 10, 7], [1, 14, 7], [0, 18, 9]]),
];

fn table_1(number: usize) -> Entry {
    let (path, value, first) = TABLE_1[number - 1];
    let mut reference = vec![0; 20];
    reference[..5].copy_from_slice(&first.to_be_bytes()[3..]);
    Entry { path: path.as_bytes().to_vec(), value, reference }
}

fn positions(numbers: &[usize]) -> (usize, usize) {
    let entries: Vec<Entry> = numbers.iter().map(|&number| table_1(number)).collect();
    let keys: Vec<Key> = entries.iter().map(|e| key_of(&e.path, e.value, &e.reference)).collect();
    let keys: Vec<&Key> = keys.iter().collect();
    (position(&keys, P), position(&keys, V))
}

fn hold(name: &str, holds: bool) -> Result<(), String> {
    holds.then_some(()).ok_or(format!("{name} does not hold of the book"))
}

/// P4, Table 5 whole, is in `read_back`.
fn fields() -> Result<(), String> {
    hold("P1", positions(&[1, 2, 3, 4, 5, 6, 7, 8, 9]) == (2, 5))?;
    hold("P2", positions(&[4, 8, 9]) == (14, 7))?;
    hold("P3", positions(&[9]) == (23, 9))?;
    hold("P5", fits(b"/**/pond*/*.c", b"/north/pond3/map.c"))?;
    hold("P6", !fits(b"/**/pond*/*.c", b"/north/pond3/sub/map.c"))?;
    hold("P7", !fits(b"/a*a", b"/a"))?;
    hold("P8", fits(b"/a*a", b"/aa"))?;
    hold("P9", fits(b"/north/**", b"/north"))?;
    hold("P10", !can_continue(b"/fs/*", b"/gs/"))?;
    hold("P11", !value_can_continue(&[0; 7], 256, 300))?;
    hold("P12", value_can_continue(&[0; 7], 255, 300))?;
    hold("`/**/a/b` fits `/a/a/b`", fits(b"/**/a/b", b"/a/a/b"))
}

/// Table 5: M 9, L 1, τ 2.
fn read_back() -> Outcome {
    let numbers = Numbers { m: 9, l: 1, tau: 2 };
    let lent = numbers.need();
    let mut session = Session::new(vec![0; lent]);
    session.call(&Call::Setup { lent, numbers })?;
    for number in 1..=9 {
        session.call(&Call::Add { lent, entry: table_1(number) })?;
    }
    let mut answer = vec![0xEE; 9 * RECORD];
    session.call(&Call::ReadLevel { lent, level: 0, answer: answer.clone() })?;
    session.book.read_level(lent, 0, &mut answer);
    for (number, nodes) in TABLE_5 {
        let path = table_1(number).path;
        let of_key = |record: &&[u8]| record[29..29 + path.len()] == path && record[28] as usize == path.len();
        let record = answer.chunks(RECORD).find(of_key).ok_or("Table 5: a key is missing")?;
        let same = record[ROW] as usize == nodes.len() && record[ROW + 1..][..3 * nodes.len()] == nodes.concat();
        hold(&format!("Table 5, key {number}"), same)?;
    }
    Ok(session.calls)
}

/// The listing of `fieldlog` in document 01, as calls.
fn listing() -> Outcome {
    let numbers = Numbers { m: 4, l: 2, tau: 1 };
    let lent = 65_536;
    let mut session = Session::new(vec![0; lent]);
    session.call(&Call::Setup { lent, numbers })?;
    for (path, value, last) in [("/north/pond", 7, 1), ("/north/edge", 7, 1), ("/south/edge", 9, 2)] {
        let reference = [vec![0; 19], vec![last]].concat();
        session.call(&Call::Add { lent, entry: Entry { path: path.into(), value, reference } })?;
    }
    let reply = session.call(&Call::Search { lent, pattern: b"/**/edge".to_vec(), low: 0, high: 8, answer: vec![0xEE; 16_384] })?;
    hold("the listing", (reply.first, reply.second) == (1, 4))?;
    let short = session.call(&Call::Setup { lent: 20_479, numbers })?;
    hold("the example of 6", short.number == 6)?;
    Ok(session.calls)
}

/// What can be continued, against all short paths: each beginning of a path that fits, with its end byte, and nothing else.
fn continuations() -> Result<(), String> {
    let (paths, known) = (texts(b"/ab", 9), texts(b"/ab\0", 4));
    let paths: Vec<&Vec<u8>> = paths.iter().filter(|path| is_path(path)).collect();
    for pattern in texts(b"/a*", 5).iter().filter(|pattern| is_pattern(pattern)) {
        let fitting = paths.iter().filter(|path| fits(pattern, path)).map(|path| [&path[..], &[0]].concat());
        let begins: HashSet<Vec<u8>> = fitting.flat_map(|whole| (0..=whole.len().min(4)).map(move |end| whole[..end].to_vec())).collect();
        for bytes in &known {
            let name = format!("\"{}\" continued for {}", bytes.escape_ascii(), pattern.escape_ascii());
            hold(&name, can_continue(pattern, bytes) == begins.contains(bytes))?;
        }
    }
    Ok(())
}

/// Each of the 256 bytes in a path and in a pattern: 221 are path bytes.
fn every_byte() -> Outcome {
    let numbers = Numbers { m: 16, l: 4, tau: 2 };
    let lent = numbers.need();
    let mut session = Session::new(vec![0xEE; lent]);
    session.call(&Call::Setup { lent, numbers })?;
    for byte in 0..=255 {
        let entry = Entry { path: vec![b'/', byte], value: byte as u64, reference: vec![byte; 20] };
        session.call(&Call::Add { lent, entry })?;
        session.call(&Call::Search { lent, pattern: vec![b'/', byte, b'*'], low: 0, high: 255, answer: vec![0xEE; 2 * ROW] })?;
    }
    hold("221 path bytes", session.book.entries.len() == 221)?;
    Ok(session.calls)
}

pub fn examples(_: u64) -> Outcome {
    fields()?;
    continuations()?;
    Ok(read_back()? + listing()? + every_byte()?)
}
