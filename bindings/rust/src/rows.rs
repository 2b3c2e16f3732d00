use core::fmt;
use core::slice::ChunksExact;

use crate::{NODE_LIMIT, PATH_LIMIT, RECORD_SIZE, REFERENCE_SIZE, ROW_SIZE};

/// The 20 bytes that an entry leads to, such as the hash of a file.
pub type Reference = [u8; REFERENCE_SIZE];

const REFERENCE_AT: usize = 8;
const PATH_LENGTH_AT: usize = REFERENCE_AT + REFERENCE_SIZE;
const PATH_AT: usize = PATH_LENGTH_AT + 1;
const NODE_COUNT_AT: usize = ROW_SIZE;
const NODES_AT: usize = NODE_COUNT_AT + 1;
const NODE_SIZE: usize = 3;

/// What a store holds: a path, a value and a reference.
#[derive(Clone, Copy, PartialEq, Eq, Hash)]
pub struct Entry<'a> {
    /// 2 to 200 bytes: labels, each `/` and at least one byte from 20 to 7E or 80 to FF hex, other than `/` and `*`.
    pub path: &'a [u8],
    /// Any number, such as a time in seconds.
    pub value: u64,
    /// The bytes that the entry leads to.
    pub reference: Reference,
}

impl fmt::Debug for Entry<'_> {
    fn fmt(&self, f: &mut fmt::Formatter<'_>) -> fmt::Result {
        write!(f, "{} {} ", self.value, self.path.escape_ascii())?;
        self.reference.iter().try_for_each(|byte| write!(f, "{byte:02x}"))
    }
}

/// A row of an answer: 229 bytes, which hold an entry.
#[derive(Clone, Copy, PartialEq, Eq, Hash)]
pub struct Row<'a> {
    bytes: &'a [u8],
}

impl<'a> Row<'a> {
    /// The row as it stands in the answer buffer: value 8 (highest byte first), reference 20, path length 1, path with zeros to 200.
    pub fn bytes(&self) -> &'a [u8] {
        self.bytes
    }

    /// The entry's value.
    pub fn value(&self) -> u64 {
        self.bytes[..REFERENCE_AT].iter().fold(0, |value, &byte| value << 8 | u64::from(byte))
    }

    /// The entry's reference.
    pub fn reference(&self) -> Reference {
        let mut reference = [0; REFERENCE_SIZE];
        reference.copy_from_slice(&self.bytes[REFERENCE_AT..PATH_LENGTH_AT]);
        reference
    }

    /// The entry's path. Its length is held to the limit: a damaged store's rows may have any bytes.
    pub fn path(&self) -> &'a [u8] {
        let length = usize::from(self.bytes[PATH_LENGTH_AT]).min(PATH_LIMIT);
        &self.bytes[PATH_AT..PATH_AT + length]
    }

    /// The entry.
    pub fn entry(&self) -> Entry<'a> {
        Entry { path: self.path(), value: self.value(), reference: self.reference() }
    }
}

impl fmt::Debug for Row<'_> {
    fn fmt(&self, f: &mut fmt::Formatter<'_>) -> fmt::Result {
        self.entry().fmt(f)
    }
}

/// What a node of a level branches by.
#[derive(Clone, Copy, Debug, PartialEq, Eq, Hash)]
pub enum Branch {
    /// By a byte of the value (1 in the record).
    Value,
    /// By a byte of the path (2 in the record).
    Path,
    /// The node is a leaf (0 in the record).
    Leaf,
}

/// A node from a level's root to an entry's leaf.
#[derive(Clone, Copy, Debug, PartialEq, Eq, Hash)]
pub struct Node {
    /// What the node branches by.
    pub branch: Branch,
    /// The first position, counted from 1, at which two of the node's paths differ; one past the end if none do.
    pub path_position: u8,
    /// The same of its values.
    pub value_position: u8,
}

/// A record of a level read back: 860 bytes, which hold a row and the nodes from the root to its leaf.
#[derive(Clone, Copy, PartialEq, Eq, Hash)]
pub struct Record<'a> {
    bytes: &'a [u8],
}

impl<'a> Record<'a> {
    /// The record as it stands in the answer buffer: row 229, number of nodes 1, three bytes a node with zeros to 210 nodes.
    pub fn bytes(&self) -> &'a [u8] {
        self.bytes
    }

    /// The row.
    pub fn row(&self) -> Row<'a> {
        Row { bytes: &self.bytes[..ROW_SIZE] }
    }

    /// The nodes, from the root to the leaf. Their number is held to the limit: a damaged store's records may have any bytes.
    pub fn nodes(&self) -> impl ExactSizeIterator<Item = Node> + 'a {
        let count = usize::from(self.bytes[NODE_COUNT_AT]).min(NODE_LIMIT);
        self.bytes[NODES_AT..NODES_AT + count * NODE_SIZE].chunks_exact(NODE_SIZE).map(node)
    }
}

impl fmt::Debug for Record<'_> {
    fn fmt(&self, f: &mut fmt::Formatter<'_>) -> fmt::Result {
        write!(f, "{:?}, {} nodes", self.row(), self.nodes().len())
    }
}

fn node(bytes: &[u8]) -> Node {
    let branch = match bytes[0] {
        1 => Branch::Value,
        2 => Branch::Path,
        _ => Branch::Leaf,
    };
    Node { branch, path_position: bytes[1], value_position: bytes[2] }
}

/// The rows of an answer: by value, then path (the end of a path before any byte), then reference.
#[derive(Clone, Debug)]
pub struct Rows<'a> {
    chunks: ChunksExact<'a, u8>,
}

impl<'a> Rows<'a> {
    /// The first `count` rows of an answer buffer.
    pub(crate) fn new(answer: &'a [u8], count: u64) -> Rows<'a> {
        Rows { chunks: beginning(answer, ROW_SIZE, count).chunks_exact(ROW_SIZE) }
    }
}

impl<'a> Iterator for Rows<'a> {
    type Item = Row<'a>;

    fn next(&mut self) -> Option<Row<'a>> {
        self.chunks.next().map(|bytes| Row { bytes })
    }

    fn size_hint(&self) -> (usize, Option<usize>) {
        self.chunks.size_hint()
    }
}

impl ExactSizeIterator for Rows<'_> {}

/// The records of a level, in the sequence of rows.
#[derive(Clone, Debug)]
pub struct Records<'a> {
    chunks: ChunksExact<'a, u8>,
}

impl<'a> Records<'a> {
    /// The first `count` records of an answer buffer.
    pub(crate) fn new(answer: &'a [u8], count: u64) -> Records<'a> {
        Records { chunks: beginning(answer, RECORD_SIZE, count).chunks_exact(RECORD_SIZE) }
    }
}

impl<'a> Iterator for Records<'a> {
    type Item = Record<'a>;

    fn next(&mut self) -> Option<Record<'a>> {
        self.chunks.next().map(|bytes| Record { bytes })
    }

    fn size_hint(&self) -> (usize, Option<usize>) {
        self.chunks.size_hint()
    }
}

impl ExactSizeIterator for Records<'_> {}

/// The first `count` pieces of `size` bytes. An accepted call never counts more than fit.
fn beginning(answer: &[u8], size: usize, count: u64) -> &[u8] {
    let count = usize::try_from(count).unwrap_or(usize::MAX);
    &answer[..count.saturating_mul(size).min(answer.len())]
}
