//! Nivruska: a field archive index in memory that the caller lends.
//!
//! An [`Entry`] is a path, a value and a reference. A [`Store`] finds entries by a pattern for the path and a range of values. In a pattern
//! `*` takes zero or more bytes inside one label, and the whole label `**` takes zero or more labels. The index itself is written in Rattle
//! and proved; this crate links it (`bin/staticlib nivruska` builds it) and adds types. It takes no heap and has no dependency.
//!
//! ```
//! use nivruska::{need, Entry, Refusal, Store, ROW_SIZE};
//!
//! let mut memory = vec![0; need(4, 2).unwrap()];
//! let mut store = Store::setup(&mut memory, 4, 2, 1)?;
//! store.add(Entry { path: b"/north/pond", value: 7, reference: [1; 20] })?;
//! store.add(Entry { path: b"/north/edge", value: 7, reference: [1; 20] })?;
//! store.add(Entry { path: b"/south/edge", value: 9, reference: [2; 20] })?;
//!
//! let mut answer = [0; 15 * ROW_SIZE]; // this store holds at most 4 × 2^2 − 1 entries
//! let found = store.search(b"/**/edge", 0..=8, &mut answer)?;
//! for row in found.rows() {
//!     println!("{} {}", row.value(), String::from_utf8_lossy(row.path()));
//! }
//! assert_eq!((found.rows().len(), found.nodes()), (1, 4));
//! # Ok::<(), Refusal>(())
//! ```
#![cfg_attr(not(test), no_std)]
#![deny(missing_docs, unsafe_code)]

#[allow(unsafe_code)]
mod calls;
mod refusal;
mod rows;
mod store;

pub use refusal::Refusal;
pub use rows::{Branch, Entry, Node, Record, Records, Reference, Row, Rows};
pub use store::{fits, need, Added, Found, Store};

/// The bytes of a row.
pub const ROW_SIZE: usize = 229;
/// The bytes of a record.
pub const RECORD_SIZE: usize = 860;
/// The bytes of a reference.
pub const REFERENCE_SIZE: usize = 20;
/// The most bytes of a path, and of a pattern.
pub const PATH_LIMIT: usize = 200;
/// The most labels of a pattern.
pub const PATTERN_LABEL_LIMIT: usize = 32;
/// The most nodes of a record.
pub const NODE_LIMIT: usize = 210;
/// The greatest M.
pub const M_LIMIT: u64 = 4096;
/// The greatest L.
pub const L_LIMIT: u64 = 8;
/// The greatest τ.
pub const TAU_LIMIT: u64 = 100;

/// What a store needs before its first trie, and for each entry.
const FRONT_ROOM: usize = 4096;
const ENTRY_ROOM: usize = 1024;
