//! Document 01, "Building a level", "The small trie and its overflow" and "Searching": tries, their searches, records and bytes.

use crate::patterns::{can_continue, END};
use std::collections::BTreeMap;

pub const V: usize = 0;
pub const P: usize = 1;
pub const RECORD_NODES: usize = 210;
const PATH_ROOM: usize = 200;

/// A key, or what remains of one: the strings of V and path, then the reference. Their order is that of rows.
#[derive(Clone, PartialEq, Eq, PartialOrd, Ord)]
pub struct Key {
    pub strings: [Vec<u8>; 2],
    pub reference: Vec<u8>,
}

pub fn key_of(path: &[u8], value: u64, reference: &[u8]) -> Key {
    let path_bytes = [path, &[END]].concat();
    Key { strings: [value.to_be_bytes().to_vec(), path_bytes], reference: reference.to_vec() }
}

impl Key {
    /// What remains of a key from these offsets on.
    fn rest(&self, from: [usize; 2]) -> Key {
        Key { strings: [V, P].map(|d| self.strings[d][from[d]..].to_vec()), reference: self.reference.clone() }
    }
}

/// A node: the dimension it branches in (`None` for a leaf), its strings, and children or what remains of each key.
#[derive(Clone)]
pub struct Node {
    pub branch: Option<usize>,
    pub strings: [Vec<u8>; 2],
    pub children: Vec<Node>,
    pub suffixes: Vec<Key>,
}

/// Definition 5: the first position, from 1, at which two keys differ; one past the end if none do.
pub fn position(keys: &[&Key], d: usize) -> usize {
    let first = &keys[0].strings[d];
    let differ_at = |at: usize| keys.iter().any(|key| key.strings[d].get(at) != first.get(at));
    1 + (0..first.len()).find(|&at| differ_at(at)).unwrap_or(first.len())
}

/// Definition 6: the keys grouped by their byte at a position.
fn parts<'a>(keys: &[&'a Key], d: usize, position: usize) -> Vec<Vec<&'a Key>> {
    let mut groups: BTreeMap<u8, Vec<&Key>> = BTreeMap::new();
    for key in keys {
        groups.entry(key.strings[d][position - 1]).or_default().push(key);
    }
    groups.into_values().collect()
}

/// Definitions 7 and 8: `above` are the parent's positions.
fn build(keys: &[&Key], tau: usize, wanted: usize, above: [usize; 2]) -> Node {
    let here = [position(keys, V), position(keys, P)];
    let strings = [V, P].map(|d| keys[0].strings[d][above[d] - 1..here[d] - 1].to_vec());
    let differs = |d: &usize| here[*d] <= keys[0].strings[*d].len();
    let branch = if keys.len() > tau { [wanted, 1 - wanted].into_iter().find(differs) } else { None };
    let children = match branch {
        Some(d) => parts(keys, d, here[d]).iter().map(|part| build(part, tau, 1 - d, here)).collect(),
        None => Vec::new(),
    };
    let suffixes = match branch {
        Some(_) => Vec::new(),
        None => keys.iter().map(|key| key.rest([here[V] - 1, here[P] - 1])).collect(),
    };
    Node { branch, strings, children, suffixes }
}

/// The trie of a level. Its keys are in row sequence in each leaf.
pub fn level(keys: &[Key], tau: usize) -> Node {
    let mut sorted: Vec<&Key> = keys.iter().collect();
    sorted.sort();
    build(&sorted, tau, V, [1, 1])
}

fn small_leaf(key: &Key) -> Node {
    let empty = Key { strings: [Vec::new(), Vec::new()], reference: key.reference.clone() };
    Node { branch: None, strings: key.strings.clone(), children: Vec::new(), suffixes: vec![empty] }
}

fn sort_children(node: &mut Node) {
    let d = node.branch.expect("a node with children branches");
    node.children.sort_by_key(|child| child.strings[d][0]);
}

/// "a new parent takes, in each dimension, the node's bytes before the first difference, or all of them where none differs; the old
/// node and a new leaf keep the rest"
fn split(node: &mut Node, key: &Key, same: [usize; 2], d: usize) {
    let strings = [V, P].map(|d| node.strings[d][..same[d]].to_vec());
    let parent = Node { branch: Some(d), strings, children: Vec::new(), suffixes: Vec::new() };
    let mut old = std::mem::replace(node, parent);
    old.strings = [V, P].map(|d| old.strings[d][same[d]..].to_vec());
    node.children = vec![old, small_leaf(&key.rest(same))];
    sort_children(node);
}

/// One addition: `key` is what remains of it at this node, `above` the dimension of the node above.
fn add_below(node: &mut Node, key: &Key, above: Option<usize>) {
    let same = [V, P].map(|d| node.strings[d].iter().zip(&key.strings[d]).take_while(|(a, b)| a == b).count());
    match [V, P].map(|d| same[d] < node.strings[d].len()) {
        [true, true] => return split(node, key, same, above.map_or(V, |d| 1 - d)),
        [true, false] => return split(node, key, same, V),
        [false, true] => return split(node, key, same, P),
        [false, false] => {}
    }
    let rest = key.rest(same);
    let Some(d) = node.branch else {
        return node.suffixes.push(rest);
    };
    match node.children.iter_mut().find(|child| child.strings[d][0] == rest.strings[d][0]) {
        Some(child) => add_below(child, &rest, Some(d)),
        None => {
            node.children.push(small_leaf(&rest));
            sort_children(node);
        }
    }
}

/// The small trie that these additions make, in this sequence; `None` if there are none.
pub fn small(keys: &[Key]) -> Option<Node> {
    let (first, others) = keys.split_first()?;
    let mut root = small_leaf(first);
    for key in others {
        add_below(&mut root, key, None);
    }
    Some(root)
}

/// A search's pattern and range.
pub struct Query<'a> {
    pub pattern: &'a [u8],
    pub low: u64,
    pub high: u64,
}

/// Whether some value in range begins with the bytes known.
pub fn value_can_continue(known: &[u8], low: u64, high: u64) -> bool {
    let filled = |byte: u8| {
        let mut bytes = [byte; 8];
        bytes[..known.len()].copy_from_slice(known);
        u64::from_be_bytes(bytes)
    };
    filled(0x00) <= high && low <= filled(0xFF)
}

/// The nodes entered from a node that is entered. `known`: the strings from the root to its parent.
pub fn entered(node: &Node, known: &[Vec<u8>; 2], query: &Query) -> u64 {
    let known = [V, P].map(|d| [&known[d][..], &node.strings[d]].concat());
    let mut count = 1;
    for child in &node.children {
        let d = node.branch.expect("a node with children branches");
        let mut seen = known.clone();
        seen[d].push(child.strings[d][0]);
        if value_can_continue(&seen[V], query.low, query.high) && can_continue(query.pattern, &seen[P]) {
            count += entered(child, &known, query);
        }
    }
    count
}

pub fn row(key: &Key) -> Vec<u8> {
    let path = &key.strings[P][..key.strings[P].len() - 1];
    let mut bytes = [&key.strings[V][..], &key.reference, &[path.len() as u8], path].concat();
    bytes.resize(8 + 20 + 1 + PATH_ROOM, 0);
    bytes
}

/// Each key of a trie with the three bytes of each node from the root to its leaf. Positions are one past the bytes known.
pub fn walks(node: &Node, known: &[Vec<u8>; 2], steps: &[[u8; 3]], found: &mut Vec<(Key, Vec<[u8; 3]>)>) {
    let known = [V, P].map(|d| [&known[d][..], &node.strings[d]].concat());
    let dimension = node.branch.map_or(0, |d| d as u8 + 1);
    let step = [dimension, known[P].len() as u8 + 1, known[V].len() as u8 + 1];
    let steps = [steps, &[step]].concat();
    for child in &node.children {
        walks(child, &known, &steps, found);
    }
    for suffix in &node.suffixes {
        let strings = [V, P].map(|d| [&known[d][..], &suffix.strings[d]].concat());
        found.push((Key { strings, reference: suffix.reference.clone() }, steps.clone()));
    }
}

pub fn record(key: &Key, steps: &[[u8; 3]]) -> Vec<u8> {
    let mut nodes = steps.concat();
    nodes.resize(3 * RECORD_NODES, 0);
    [row(key), vec![steps.len() as u8], nodes].concat()
}

/// The bytes of a trie, docs/STORE-FORMAT.md.
pub fn encode(node: &Node) -> Vec<u8> {
    let mut body: Vec<u8> = node.children.iter().flat_map(encode).collect();
    for suffix in &node.suffixes {
        let lengths = [V, P].map(|d| suffix.strings[d].len() as u8);
        body.extend([&lengths[..], &suffix.reference, &suffix.strings[V], &suffix.strings[P]].concat());
    }
    let head = [node.branch.map_or(0, |d| d as u8 + 1), node.strings[V].len() as u8, node.strings[P].len() as u8];
    [&head[..], &(body.len() as u32).to_be_bytes(), &node.strings[V], &node.strings[P], &body].concat()
}
