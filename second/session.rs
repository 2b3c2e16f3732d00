//! One memory, the index on it and the book beside it.

use crate::book::{Book, Reply};
use crate::calls::{self, Guarded};
use crate::cases::{expected, Call};

pub struct Session {
    pub book: Book,
    pub store: Guarded,
    /// What the memory has to be.
    memory: Vec<u8>,
    pub calls: u64,
    /// Whether the memory is compared after each call (else the caller asks for it).
    pub every_byte: bool,
}

/// Where two stretches of bytes first differ.
pub fn difference(what: &str, got: &[u8], wanted: &[u8]) -> Result<(), String> {
    match got.iter().zip(wanted).position(|(a, b)| a != b) {
        Some(at) => Err(format!("{what}: byte {at} is {:02x}, not {:02x}", got[at], wanted[at])),
        None => Ok(()),
    }
}

impl Session {
    pub fn new(memory: Vec<u8>) -> Session {
        Session { book: Book::default(), store: Guarded::new(&memory), memory, calls: 0, every_byte: true }
    }

    /// One call through both.
    pub fn call(&mut self, call: &Call) -> Result<Reply, String> {
        self.calls += 1;
        self.compare(call).map_err(|fault| {
            let held = self.book.entries.len();
            format!("call {}, {held} held afterwards by the book: {fault}\n  {}", self.calls, call.brief())
        })
    }

    fn compare(&mut self, call: &Call) -> Result<Reply, String> {
        let (wanted, wanted_answer) = expected(&mut self.book, call);
        let (got, answer) = calls::run(&mut self.store, call)?;
        if got != wanted {
            return Err(format!("the reply is {got:?}, not {wanted:?}"));
        }
        difference("answer buffer", &answer, &wanted_answer)?;
        if self.every_byte {
            let changed = wanted.number == 0 && matches!(call, Call::Setup { .. } | Call::Add { .. });
            self.compare_memory(changed)?;
        }
        Ok(wanted)
    }

    /// `changed`: whether the book has changed since the last time.
    pub fn compare_memory(&mut self, changed: bool) -> Result<(), String> {
        if changed {
            let image = self.book.image();
            self.memory[..image.len()].copy_from_slice(&image);
        }
        difference("memory", self.store.bytes(), &self.memory)
    }
}
