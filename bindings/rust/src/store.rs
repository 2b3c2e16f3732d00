use core::ops::RangeInclusive;

use crate::calls::{self, Reply};
use crate::rows::{Entry, Records, Rows};
use crate::{Refusal, ENTRY_ROOM, FRONT_ROOM, L_LIMIT, M_LIMIT};

const ACCEPTED: u32 = 0;
const ALREADY_THERE: u32 = 100;
const HELD_AT: usize = 12;

/// The bytes that a store for M and L needs: 1,024 × M × 2^L + 4,096. `None` where M is not from 1 to 4,096 or L not from 1 to 8.
///
/// ```
/// assert_eq!(nivruska::need(4, 2), Some(20_480));
/// assert_eq!(nivruska::need(0, 2), None);
/// ```
pub const fn need(m: u64, l: u64) -> Option<usize> {
    if m < 1 || M_LIMIT < m || l < 1 || L_LIMIT < l {
        return None;
    }
    Some(((ENTRY_ROOM * m as usize) << l) + FRONT_ROOM)
}

/// Whether the path fits the pattern; false where either is not formed or too long.
///
/// ```
/// assert!(nivruska::fits(b"/**/pond*/*.c", b"/north/pond3/map.c"));
/// assert!(!nivruska::fits(b"/**/pond*/*.c", b"/north/pond3/sub/map.c"));
/// ```
pub fn fits(pattern: &[u8], path: &[u8]) -> bool {
    calls::fits(pattern, path)
}

/// An index in lent memory. It is its bytes and nothing else: what [`bytes`](Store::bytes) gives, copied or kept in a file, can be opened again.
#[derive(Debug)]
pub struct Store<'a> {
    memory: &'a mut [u8],
}

/// What an accepted addition did.
#[derive(Clone, Copy, Debug, PartialEq, Eq)]
pub enum Added {
    /// The entry was put in.
    New {
        /// The number of entries held, this one included.
        held: u64,
    },
    /// An equal entry was there (number 100), and nothing has changed.
    AlreadyThere {
        /// The number of entries held.
        held: u64,
    },
}

/// What a search found.
#[derive(Clone, Debug)]
pub struct Found<'b> {
    rows: Rows<'b>,
    nodes: u64,
}

impl<'b> Found<'b> {
    /// The rows, in their sequence.
    pub fn rows(&self) -> Rows<'b> {
        self.rows.clone()
    }

    /// The number of trie nodes that the search entered.
    pub fn nodes(&self) -> u64 {
        self.nodes
    }
}

/// The reply of an accepted call, or why it was refused.
fn accepted(reply: Reply) -> Result<Reply, Refusal> {
    match reply.number {
        ACCEPTED => Ok(reply),
        _ => Err(Refusal::of(reply)),
    }
}

impl<'a> Store<'a> {
    /// Sets a store up in the first [`need`]`(m, l)` bytes of the memory; what stands there is lost, what stands beyond stays.
    ///
    /// The small trie is emptied into the levels at `m` entries (1 to 4,096), there are `l` levels (1 to 8), and a set of at most `tau` entries
    /// (1 to 100) is not split further. The store can hold `m` × 2^`l` − 1 entries. Refused with 5 or 6.
    ///
    /// ```
    /// use nivruska::{Refusal, Store};
    ///
    /// let mut memory = vec![0; 20_480];
    /// assert_eq!(Store::setup(&mut memory, 4, 9, 1).unwrap_err(), Refusal::SetupNumbers);
    /// assert_eq!(Store::setup(&mut memory[1..], 4, 2, 1).unwrap_err(), Refusal::SetupMemory);
    /// assert_eq!(Store::setup(&mut memory, 4, 2, 1)?.held(), 0);
    /// # Ok::<(), Refusal>(())
    /// ```
    pub fn setup(memory: &'a mut [u8], m: u64, l: u64, tau: u64) -> Result<Store<'a>, Refusal> {
        accepted(calls::setup(memory, m, l, tau))?;
        Ok(Store { memory })
    }

    /// Takes memory in which a store stands. Refused with 4 where the first 16 bytes or the length show that none does; other damage is not
    /// looked for. On a damaged store every call still returns, but its answers may be wrong.
    ///
    /// ```
    /// use nivruska::{Entry, Refusal, Store};
    ///
    /// let mut memory = vec![0; 20_480];
    /// assert_eq!(Store::open(&mut memory).unwrap_err(), Refusal::NotAStore);
    /// Store::setup(&mut memory, 4, 2, 1)?.add(Entry { path: b"/north", value: 7, reference: [0; 20] })?;
    /// assert_eq!(Store::open(&mut memory)?.held(), 1);
    /// # Ok::<(), Refusal>(())
    /// ```
    pub fn open(memory: &'a mut [u8]) -> Result<Store<'a>, Refusal> {
        // A level that no store has: no records, and 4 exactly where no store is there.
        accepted(calls::read_level(memory, L_LIMIT, &mut []))?;
        Ok(Store { memory })
    }

    /// Adds an entry. Refused with 4, 2, 1 or 9.
    ///
    /// ```
    /// use nivruska::{Added, Entry, Refusal, Store};
    ///
    /// let mut memory = vec![0; 20_480];
    /// let mut store = Store::setup(&mut memory, 4, 2, 1)?;
    /// let entry = Entry { path: b"/north/pond", value: 7, reference: [1; 20] };
    /// assert_eq!(store.add(entry)?, Added::New { held: 1 });
    /// assert_eq!(store.add(entry)?, Added::AlreadyThere { held: 1 });
    /// assert_eq!(store.add(Entry { path: b"/north//pond", ..entry }), Err(Refusal::PathNotFormed));
    /// # Ok::<(), Refusal>(())
    /// ```
    pub fn add(&mut self, entry: Entry<'_>) -> Result<Added, Refusal> {
        let reply = calls::add(self.memory, entry.path, entry.value, &entry.reference);
        match reply.number {
            ALREADY_THERE => Ok(Added::AlreadyThere { held: reply.first }),
            _ => accepted(reply).map(|reply| Added::New { held: reply.first }),
        }
    }

    /// Finds the entries whose path fits the pattern and whose value is in the range, and writes their rows of 229 bytes into the answer buffer.
    /// Refused with 4, 8, 7, 10, or 11, which says how many rows the buffer has to have room for.
    ///
    /// ```
    /// use nivruska::{Entry, Refusal, Store, ROW_SIZE};
    ///
    /// let mut memory = vec![0; 20_480];
    /// let mut store = Store::setup(&mut memory, 4, 2, 1)?;
    /// store.add(Entry { path: b"/north/pond", value: 7, reference: [1; 20] })?;
    /// store.add(Entry { path: b"/south/pond/map", value: 9, reference: [2; 20] })?;
    ///
    /// let mut answer = [0; 10 * ROW_SIZE];
    /// let found = store.search(b"/**/pond/**", 0..=9, &mut answer)?;
    /// let paths: Vec<&[u8]> = found.rows().map(|row| row.path()).collect();
    /// assert_eq!(paths, [&b"/north/pond"[..], b"/south/pond/map"]);
    /// assert_eq!(store.search(b"/**", 0..=9, &mut [0; 457]).unwrap_err(), Refusal::AnswerTooShort { rows: 2 });
    /// # Ok::<(), Refusal>(())
    /// ```
    pub fn search<'b>(&self, pattern: &[u8], range: RangeInclusive<u64>, answer: &'b mut [u8]) -> Result<Found<'b>, Refusal> {
        let reply = accepted(calls::search(self.memory, pattern, *range.start(), *range.end(), answer))?;
        Ok(Found { rows: Rows::new(answer, reply.first), nodes: reply.second })
    }

    /// Reads a level back: a record of 860 bytes for each entry there, written into the answer buffer. None for an empty level and for one that is
    /// not there. Refused with 4 or 11.
    ///
    /// ```
    /// use nivruska::{Branch, Entry, Refusal, Store, RECORD_SIZE};
    ///
    /// let mut memory = vec![0; 8_192];
    /// let mut store = Store::setup(&mut memory, 2, 1, 1)?;
    /// store.add(Entry { path: b"/north/edge", value: 7, reference: [1; 20] })?;
    /// store.add(Entry { path: b"/north/pond", value: 7, reference: [1; 20] })?;
    ///
    /// let mut answer = [0; 2 * RECORD_SIZE];
    /// let records = store.read_level(0, &mut answer)?;
    /// for record in records {
    ///     let branches: Vec<Branch> = record.nodes().map(|node| node.branch).collect();
    ///     assert_eq!(branches, [Branch::Path, Branch::Leaf]);
    /// }
    /// # Ok::<(), Refusal>(())
    /// ```
    pub fn read_level<'b>(&self, level: u64, answer: &'b mut [u8]) -> Result<Records<'b>, Refusal> {
        let reply = accepted(calls::read_level(self.memory, level, answer))?;
        Ok(Records::new(answer, reply.first))
    }

    /// The number of entries held, from the store's front.
    pub fn held(&self) -> u64 {
        self.memory[HELD_AT..HELD_AT + 4].iter().fold(0, |held, &byte| held << 8 | u64::from(byte))
    }

    /// The memory lent, with the store at its beginning.
    pub fn bytes(&self) -> &[u8] {
        self.memory
    }
}
