//! The layout of rows and records, and Table 5 of the RSCAS paper read back.

use nivruska::{need, Branch, Entry, Node, Store, RECORD_SIZE, ROW_SIZE};

#[test]
fn a_row_has_the_entry_and_bytes_after_the_last_row_stay() {
    let mut memory = vec![0; need(4, 2).unwrap()];
    let mut store = Store::setup(&mut memory, 4, 2, 1).unwrap();
    let reference = std::array::from_fn(|at| at as u8 + 1);
    let entry = Entry { path: b"/north/\xFFpond", value: 0x0102_0304_0506_0708, reference };
    store.add(entry).unwrap();

    let mut answer = [0xEE; ROW_SIZE + 7];
    let found = store.search(b"/**", 0..=u64::MAX, &mut answer).unwrap();
    let row = found.rows().next().unwrap();
    assert_eq!((found.rows().len(), row.entry()), (1, entry));
    let mut expected = [0; ROW_SIZE];
    expected[..8].copy_from_slice(&[1, 2, 3, 4, 5, 6, 7, 8]);
    expected[8..28].copy_from_slice(&reference);
    expected[28] = 12;
    expected[29..41].copy_from_slice(b"/north/\xFFpond");
    assert_eq!(row.bytes(), expected);
    assert_eq!(answer[ROW_SIZE..], [0xEE; 7]);
}

#[test]
fn rows_come_by_value_then_path_then_reference() {
    let mut memory = vec![0; need(2, 3).unwrap()];
    let mut store = Store::setup(&mut memory, 2, 3, 1).unwrap();
    let sorted = [(1, "/z", 9), (2, "/a", 1), (2, "/a", 2), (2, "/a b", 0), (2, "/a/b", 0), (3, "/a", 0)];
    for at in [4, 2, 0, 5, 1, 3] {
        let (value, path, mark): (u64, &str, u8) = sorted[at];
        store.add(Entry { path: path.as_bytes(), value, reference: [mark; 20] }).unwrap();
    }
    let mut answer = [0; 6 * ROW_SIZE];
    let found = store.search(b"/**", 0..=9, &mut answer).unwrap();
    let rows: Vec<(u64, &str, u8)> =
        found.rows().map(|row| (row.value(), std::str::from_utf8(row.path()).unwrap(), row.reference()[0])).collect();
    assert_eq!(rows, sorted);
}

/// Table 1: path, value, the first bytes of the reference; and Table 5: the nodes (M 9, L 1, τ 2).
type Key = (&'static str, u64, u64, &'static [(Branch, u8, u8)]);
use Branch::{Leaf, Path, Value};
const TABLES: [Key; 9] = [
    ("/Sources/Map.go", 0x5DA8942A, 0xA1A606B0B3, &[(Value, 2, 5), (Path, 10, 7), (Leaf, 17, 9)]),
    ("/crypto/ecc.h", 0x5FBD8DC4, 0xD44739D8F8, &[(Value, 2, 5), (Path, 2, 7), (Leaf, 13, 9)]),
    ("/crypto/ecc.c", 0x5FBD8DC4, 0xD44739D8F8, &[(Value, 2, 5), (Path, 2, 7), (Leaf, 13, 9)]),
    ("/Sources/Schema.go", 0x5DA8948C, 0x41D17A7B4D, &[(Value, 2, 5), (Path, 10, 7), (Value, 14, 7), (Leaf, 20, 9)]),
    ("/fs/ext3/inode.c", 0x5EF29C59, 0x9698D9F506, &[(Value, 2, 5), (Leaf, 8, 6)]),
    ("/fs/ext4/inode.h", 0x5EBD23C2, 0xFFCAAE8F57, &[(Value, 2, 5), (Leaf, 8, 6)]),
    ("/fs/ext4/inode.c", 0x5FBD3D5A, 0x688D973CBE, &[(Value, 2, 5), (Path, 2, 7), (Leaf, 18, 9)]),
    ("/Sources/Schedule.go", 0x5DA8978B, 0x9907EE0A7B, &[(Value, 2, 5), (Path, 10, 7), (Value, 14, 7), (Leaf, 18, 9)]),
    ("/Sources/Scheduler.go", 0x5DA8978B, 0x9907EE0A7B, &[(Value, 2, 5), (Path, 10, 7), (Value, 14, 7), (Leaf, 18, 9)]),
];

fn entry(key: &Key) -> Entry<'static> {
    let mut reference = [0; 20];
    reference[..5].copy_from_slice(&key.2.to_be_bytes()[3..]);
    Entry { path: key.0.as_bytes(), value: key.1, reference }
}

#[test]
fn table_5_read_back() {
    let mut memory = vec![0; need(9, 1).unwrap()];
    let mut store = Store::setup(&mut memory, 9, 1, 2).unwrap();
    for key in &TABLES {
        store.add(entry(key)).unwrap();
    }
    let mut answer = [0xEE; 9 * RECORD_SIZE + 1];
    let records = store.read_level(0, &mut answer).unwrap();
    assert_eq!(records.len(), 9);
    for key in &TABLES {
        let record = records.clone().find(|record| record.row().path() == key.0.as_bytes()).unwrap();
        assert_eq!(record.row().entry(), entry(key));
        let nodes: Vec<Node> = record.nodes().collect();
        let node = |&(branch, path_position, value_position): &(Branch, u8, u8)| Node { branch, path_position, value_position };
        assert_eq!(nodes, key.3.iter().map(node).collect::<Vec<Node>>());
        assert!(record.bytes()[ROW_SIZE + 1 + 3 * nodes.len()..].iter().all(|&byte| byte == 0));
    }
    assert_eq!(answer[9 * RECORD_SIZE], 0xEE);
    assert_eq!(store.read_level(1, &mut []).unwrap().len(), 0);
}

/// Bytes that no call wrote, behind a plausible front: every call returns and every row can be read.
#[test]
fn a_damaged_store_does_not_break_the_types() {
    let mut memory = vec![0; need(4, 2).unwrap()];
    Store::setup(&mut memory, 4, 2, 1).unwrap();
    for (fill, held) in [(0xFF, 15), (0x01, 7), (0x00, 9)] {
        memory[4096..].fill(fill);
        memory[15] = held;
        let mut store = Store::open(&mut memory).unwrap();
        let mut answer = [0xFF; 20 * RECORD_SIZE];
        if let Ok(found) = store.search(b"/**", 0..=u64::MAX, &mut answer) {
            found.rows().for_each(|row| assert!(row.path().len() <= 200));
        }
        for level in 0..3 {
            if let Ok(records) = store.read_level(level, &mut answer) {
                records.for_each(|record| assert!(record.nodes().len() <= 210));
            }
        }
        let _ = store.add(Entry { path: b"/north", value: 1, reference: [0; 20] });
    }
}
