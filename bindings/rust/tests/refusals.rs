//! Each refusal with its number, and that it changes nothing. (3 stands in src/calls.rs: the types of this crate shut it out.)

use nivruska::{need, Added, Entry, Refusal, Store};
use std::error::Error;

const ENTRY: Entry = Entry { path: b"/north/pond", value: 7, reference: [1; 20] };

fn memory(m: u64, l: u64) -> Vec<u8> {
    vec![0; need(m, l).unwrap()]
}

#[track_caller]
fn assert_number<T: std::fmt::Debug>(result: Result<T, Refusal>, number: u32) {
    let refusal = result.unwrap_err();
    assert_eq!(refusal.number(), number, "{refusal}");
    assert!(!matches!(refusal, Refusal::Other(_)));
    let sentence: Box<dyn Error> = Box::new(refusal);
    assert!(sentence.to_string().len() > 20);
}

#[test]
fn paths() {
    let mut memory = memory(4, 2);
    let mut store = Store::setup(&mut memory, 4, 2, 1).unwrap();
    for path in [&b""[..], b"/", b"north", b"/north//pond", b"/north/", b"/a*", b"/a\0", b"/a\x7F"] {
        assert_number(store.add(Entry { path, ..ENTRY }), 1);
    }
    let longest = [&b"/"[..], &[b'n'; 200]].concat();
    assert_number(store.add(Entry { path: &longest, ..ENTRY }), 2);
    assert_eq!(store.add(Entry { path: &longest[..200], ..ENTRY }), Ok(Added::New { held: 1 }));
}

#[test]
fn stores() {
    assert_number(Store::open(&mut [0; 15]), 4);
    let mut memory = memory(4, 2);
    assert_number(Store::open(&mut memory), 4);
    Store::setup(&mut memory, 4, 2, 1).unwrap();
    assert_number(Store::open(&mut memory[..20_479]), 4);
    assert_eq!(Store::open(&mut memory).unwrap().held(), 0);
    memory[15] = 16;
    assert_number(Store::open(&mut memory), 4);
}

#[test]
fn setups() {
    let mut memory = vec![7; 20_480];
    for (m, l, tau) in [(0, 2, 1), (4097, 2, 1), (4, 0, 1), (4, 9, 1), (4, 2, 0), (4, 2, 101)] {
        assert_number(Store::setup(&mut memory, m, l, tau), 5);
    }
    assert_number(Store::setup(&mut memory[..20_479], 4, 2, 1), 6);
    assert!(memory.iter().all(|&byte| byte == 7));
}

#[test]
fn patterns_and_ranges() {
    let mut memory = memory(4, 2);
    let mut store = Store::setup(&mut memory, 4, 2, 1).unwrap();
    store.add(ENTRY).unwrap();
    let mut answer = [7; 228];
    for pattern in [&b""[..], b"/", b"a", b"/a**b", b"/***", b"//a"] {
        assert_number(store.search(pattern, 0..=9, &mut answer), 7);
    }
    assert_number(store.search(&b"/a".repeat(33), 0..=9, &mut answer), 8);
    assert_number(store.search(&[&b"/"[..], &[b'a'; 200]].concat(), 0..=9, &mut answer), 8);
    assert_eq!(store.search(&b"/a".repeat(32), 0..=9, &mut answer).unwrap().rows().len(), 0);
    let (low, high) = (9, 8);
    assert_number(store.search(b"/**", low..=high, &mut answer), 10);
    assert_eq!(store.search(b"/**", 0..=9, &mut answer).unwrap_err(), Refusal::AnswerTooShort { rows: 1 });
    assert_number(store.search(b"/**", 0..=9, &mut answer), 11);
    assert_eq!(answer, [7; 228]);
}

#[test]
fn full() {
    let mut memory = memory(1, 1);
    let mut store = Store::setup(&mut memory, 1, 1, 1).unwrap();
    assert_eq!(store.add(ENTRY), Ok(Added::New { held: 1 }));
    let before = store.bytes().to_vec();
    assert_number(store.add(Entry { value: 8, ..ENTRY }), 9);
    assert_number(store.read_level(0, &mut [0; 859]), 11);
    assert_eq!(store.bytes(), before);
}
