//! SQLite 3 in memory: one table, ordered by (value, path) or by (path, value).

use crate::data::{Entry, Query};
use crate::scan::{fits, put_row, ROW};
use std::ffi::{c_char, c_int, c_void, CStr, CString};
use std::ptr::{null, null_mut};

#[link(name = "sqlite3")]
extern "C" {
    fn sqlite3_libversion() -> *const c_char;
    fn sqlite3_open_v2(name: *const c_char, db: *mut *mut c_void, flags: c_int, system: *const c_char) -> c_int;
    fn sqlite3_close(db: *mut c_void) -> c_int;
    fn sqlite3_errmsg(db: *mut c_void) -> *const c_char;
    fn sqlite3_exec(db: *mut c_void, sql: *const c_char, call: *const c_void, arg: *mut c_void, error: *mut *mut c_char) -> c_int;
    fn sqlite3_prepare_v2(db: *mut c_void, sql: *const c_char, len: c_int, made: *mut *mut c_void, tail: *mut *const c_char) -> c_int;
    fn sqlite3_bind_int64(statement: *mut c_void, at: c_int, value: i64) -> c_int;
    fn sqlite3_bind_text(statement: *mut c_void, at: c_int, text: *const u8, len: c_int, free: *const c_void) -> c_int;
    fn sqlite3_bind_blob(statement: *mut c_void, at: c_int, bytes: *const u8, len: c_int, free: *const c_void) -> c_int;
    fn sqlite3_step(statement: *mut c_void) -> c_int;
    fn sqlite3_reset(statement: *mut c_void) -> c_int;
    fn sqlite3_finalize(statement: *mut c_void) -> c_int;
    fn sqlite3_column_int64(statement: *mut c_void, at: c_int) -> i64;
    fn sqlite3_column_text(statement: *mut c_void, at: c_int) -> *const u8;
    fn sqlite3_column_blob(statement: *mut c_void, at: c_int) -> *const u8;
    fn sqlite3_column_bytes(statement: *mut c_void, at: c_int) -> c_int;
}

/// To read, write and create; used by one thread, so without locks.
const READ_WRITE_NO_MUTEX: c_int = 0x2 | 0x4 | 0x8000;
const OK: c_int = 0;
const ROW_READY: c_int = 100;
const DONE: c_int = 101;

pub fn version() -> String {
    unsafe { CStr::from_ptr(sqlite3_libversion()) }.to_string_lossy().into_owned()
}

fn c_string(text: &str) -> CString {
    CString::new(text).expect("no byte 00")
}

pub struct Database {
    db: *mut c_void,
}

impl Drop for Database {
    fn drop(&mut self) {
        unsafe { sqlite3_close(self.db) };
    }
}

impl Database {
    /// The key has the reference too: no entry twice, rows in key sequence, and no second lookup for the rest of a row.
    pub fn new(key: &str) -> Database {
        let mut db = null_mut();
        assert_eq!(unsafe { sqlite3_open_v2(c_string(":memory:").as_ptr(), &mut db, READ_WRITE_NO_MUTEX, null()) }, OK);
        let made = Database { db };
        made.run("PRAGMA journal_mode = OFF; PRAGMA synchronous = OFF;");
        let columns = "value INTEGER NOT NULL, path TEXT NOT NULL, reference BLOB NOT NULL";
        made.run(&format!("CREATE TABLE entries ({columns}, PRIMARY KEY ({key}, reference)) WITHOUT ROWID;"));
        made
    }

    fn run(&self, sql: &str) {
        let result = unsafe { sqlite3_exec(self.db, c_string(sql).as_ptr(), null(), null_mut(), null_mut()) };
        assert_eq!(result, OK, "{sql}: {}", self.error());
    }

    fn error(&self) -> String {
        unsafe { CStr::from_ptr(sqlite3_errmsg(self.db)) }.to_string_lossy().into_owned()
    }

    fn prepare(&self, sql: &str) -> Statement {
        let mut made = null_mut();
        let result = unsafe { sqlite3_prepare_v2(self.db, c_string(sql).as_ptr(), -1, &mut made, null_mut()) };
        assert_eq!(result, OK, "{sql}: {}", self.error());
        Statement { made }
    }

    /// All in one transaction, by one prepared statement.
    pub fn add(&self, entries: &[Entry]) {
        let statement = self.prepare("INSERT OR IGNORE INTO entries VALUES (?, ?, ?)");
        self.run("BEGIN");
        entries.iter().for_each(|entry| statement.insert(entry));
        self.run("COMMIT");
    }

    pub fn search(&self, query: &Query) -> Search {
        let is_exact = glob_is_exact(pattern_text(query));
        Search { statement: self.prepare(&select(query)), still_to_test: if is_exact { None } else { Some(query.pattern.clone()) } }
    }

    /// What SQLite says of its way to the answer.
    pub fn plan(&self, query: &Query) -> String {
        self.prepare(&format!("EXPLAIN QUERY PLAN {}", select(query))).texts(3).join("; ")
    }
}

fn pattern_text(query: &Query) -> &str {
    std::str::from_utf8(&query.pattern).expect("the harness makes ASCII")
}

/// Pattern and range stand in the text, so that SQLite can take a GLOB's beginning as a range of paths.
fn select(query: &Query) -> String {
    let text = pattern_text(query).replace('\'', "''");
    let path = if text.contains('*') { format!("GLOB '{}'", glob(&text)) } else { format!("= '{text}'") };
    let chosen = format!("value BETWEEN {} AND {} AND path {path}", query.low, query.high);
    format!("SELECT value, path, reference FROM entries WHERE {chosen} ORDER BY value, path, reference")
}

/// A GLOB that takes every path that the pattern fits: its `*` also takes `/`, so a `**` and its `/` become one.
fn glob(pattern: &str) -> String {
    let mut made = String::new();
    for label in pattern[1..].split('/') {
        if label == "**" {
            made.push('*');
        } else {
            made.push('/');
            made.push_str(&label.replace('[', "[[]").replace('?', "[?]"));
        }
    }
    made.replace("**", "*")
}

/// Then it takes no other path: no star, or a `**` in front and no other.
fn glob_is_exact(pattern: &str) -> bool {
    !pattern.strip_prefix("/**").unwrap_or(pattern).contains('*')
}

struct Statement {
    made: *mut c_void,
}

impl Drop for Statement {
    fn drop(&mut self) {
        unsafe { sqlite3_finalize(self.made) };
    }
}

impl Statement {
    fn insert(&self, entry: &Entry) {
        let (path, reference) = (&entry.path, &entry.reference);
        unsafe {
            sqlite3_bind_int64(self.made, 1, entry.value as i64);
            sqlite3_bind_text(self.made, 2, path.as_ptr(), path.len() as c_int, null());
            sqlite3_bind_blob(self.made, 3, reference.as_ptr(), reference.len() as c_int, null());
            assert_eq!(sqlite3_step(self.made), DONE);
            sqlite3_reset(self.made);
        }
    }

    /// The bytes of a column of the row that was stepped to; they last until the next step.
    fn bytes(&self, column: c_int, text: bool) -> &[u8] {
        unsafe {
            let from = if text { sqlite3_column_text(self.made, column) } else { sqlite3_column_blob(self.made, column) };
            std::slice::from_raw_parts(from, sqlite3_column_bytes(self.made, column) as usize)
        }
    }

    /// Whether there is one more row; after the last the statement is ready to run again.
    fn step(&self) -> bool {
        let result = unsafe { sqlite3_step(self.made) };
        assert!(result == ROW_READY || result == DONE);
        if result == DONE {
            unsafe { sqlite3_reset(self.made) };
        }
        result == ROW_READY
    }

    fn texts(&self, column: c_int) -> Vec<String> {
        let mut found = Vec::new();
        while self.step() {
            found.push(String::from_utf8_lossy(self.bytes(column, true)).into_owned());
        }
        found
    }
}

/// A prepared search. Where the GLOB takes too much, each row it gives is tested by the plain matcher.
pub struct Search {
    statement: Statement,
    still_to_test: Option<Vec<u8>>,
}

impl Search {
    pub fn run(&self, answer: &mut [u8]) -> usize {
        let mut rows = answer.chunks_exact_mut(ROW);
        let mut count = 0;
        while self.statement.step() {
            let path = self.statement.bytes(1, true);
            if self.still_to_test.as_ref().is_none_or(|pattern| fits(pattern, path)) {
                let value = unsafe { sqlite3_column_int64(self.statement.made, 0) } as u64;
                put_row(rows.next().expect("room for a row"), value, path, self.statement.bytes(2, false));
                count += 1;
            }
        }
        count
    }
}
