//! The exported calls made from the book: what the driver is tried on. A store is known by its bytes; on bytes that no call of late has
//! left, searches find nothing.

mod book;
mod patterns;
mod tries;

use book::{Book, Numbers, Reply};
use std::slice::{from_raw_parts, from_raw_parts_mut};
use std::sync::Mutex;

/// The images of late, with their books.
static BOOKS: Mutex<Vec<(Vec<u8>, Book)>> = Mutex::new(Vec::new());
const KEPT: usize = 4;

fn word(bytes: &[u8], at: usize) -> u64 {
    u32::from_be_bytes(bytes[at..at + 4].try_into().unwrap()) as u64
}

/// The book of a store; 4 is `Book::default()`, which has no numbers.
fn book_of(store: &[u8]) -> Book {
    if store.len() < 16 {
        return Book::default();
    }
    let (numbers, held) = (Numbers { m: word(store, 0), l: word(store, 4), tau: word(store, 8) }, word(store, 12));
    if !numbers.in_limits() || store.len() < numbers.need() || held > numbers.limit() as u64 {
        return Book::default();
    }
    let books = BOOKS.lock().unwrap();
    let known = books.iter().rev().find(|(image, _)| image[..] == store[..numbers.need()]);
    known.map_or_else(|| damaged(numbers, held), |(_, book)| book.clone())
}

/// A book for bytes that are not known: only what the front says, with one entry as often as it says.
fn damaged(numbers: Numbers, held: u64) -> Book {
    let entry = book::Entry { path: b"/?".to_vec(), value: 0, reference: vec![0; 20] };
    Book { numbers: Some(numbers), entries: vec![entry; held as usize] }
}

fn keep(store: &mut [u8], book: Book) {
    let image = book.image();
    store[..image.len()].copy_from_slice(&image);
    let mut books = BOOKS.lock().unwrap();
    if books.len() == KEPT {
        books.remove(0);
    }
    books.push((image, book));
}

#[no_mangle]
pub extern "C" fn nivruska_setup(store: *mut u8, store_len: usize, m: u64, l: u64, tau: u64) -> Reply {
    let store = unsafe { from_raw_parts_mut(store, store_len) };
    let mut book = Book::default();
    let reply = book.setup(store_len, m, l, tau);
    if reply.number == 0 {
        keep(store, book);
    }
    reply
}

#[no_mangle]
pub extern "C" fn nivruska_add(
    store: *mut u8,
    store_len: usize,
    path: *const u8,
    path_len: usize,
    value: u64,
    reference: *const u8,
    reference_len: usize,
) -> Reply {
    let store = unsafe { from_raw_parts_mut(store, store_len) };
    let (path, reference) = unsafe { (from_raw_parts(path, path_len), from_raw_parts(reference, reference_len)) };
    let mut book = book_of(store);
    let reply = book.add(store_len, path, value, reference);
    if reply.number == 0 {
        keep(store, book);
    }
    reply
}

#[no_mangle]
pub extern "C" fn nivruska_search(
    store: *const u8,
    store_len: usize,
    pattern: *const u8,
    pattern_len: usize,
    low: u64,
    high: u64,
    answer: *mut u8,
    answer_len: usize,
) -> Reply {
    let (store, pattern) = unsafe { (from_raw_parts(store, store_len), from_raw_parts(pattern, pattern_len)) };
    let answer = unsafe { from_raw_parts_mut(answer, answer_len) };
    book_of(store).search(store_len, pattern, low, high, answer)
}

#[no_mangle]
pub extern "C" fn nivruska_read_level(store: *const u8, store_len: usize, level: u64, answer: *mut u8, answer_len: usize) -> Reply {
    let store = unsafe { from_raw_parts(store, store_len) };
    let answer = unsafe { from_raw_parts_mut(answer, answer_len) };
    book_of(store).read_level(store_len, level, answer)
}

#[no_mangle]
pub extern "C" fn nivruska_fits(pattern: *const u8, pattern_len: usize, path: *const u8, path_len: usize) -> bool {
    let (pattern, path) = unsafe { (from_raw_parts(pattern, pattern_len), from_raw_parts(path, path_len)) };
    patterns::fits(pattern, path)
}
