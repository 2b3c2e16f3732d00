"""Tries the driver: each wrong index below is the book with one edit, built as the library, and the driver has to catch it.

    second/mutants.py [NAME ..]

Prints the part and the case that catch each. Run second/run --stand-in first (it builds the driver).
"""
import os
import pathlib
import shutil
import subprocess
import sys

HERE = pathlib.Path(__file__).resolve().parent
BUILT = HERE.parent / "target/second/stand_in"
PLACE = HERE.parent / "target/second/mutant"
SOURCES = ["stand_in.rs", "book.rs", "tries.rs", "patterns.rs"]
PARTS = ["lists", "refused", "sequences", "full", "deep", "matcher", "damage", "examples"]

# name: file, old (stands exactly once), new
MUTANTS = {
    # the impostors of document 01
    "rows always the same": ("book.rs", "fill(&self.rows(&query), ROW,", 'fill(&self.rows(&Query { pattern: b"/**", ..query }), ROW,'),
    "adds nothing": ("stand_in.rs", "    let reply = book.add(store_len, path, value, reference);\n    if reply.number == 0 {", "    let reply = book.add(store_len, path, value, reference);\n    if reply.number == 0 && reply.first > 99 {"),
    "only the first entry": ("book.rs", "        self.entries.push(entry);\n        reply(0, self.entries.len(), 0)", "        if self.entries.is_empty() {\n            self.entries.push(entry);\n        }\n        reply(0, self.entries.len(), 0)"),
    "full one early": ("book.rs", "self.entries.len() == numbers.limit()", "self.entries.len() + 1 == numbers.limit().max(2)"),
    "node count invented": ("book.rs", "fill(&self.rows(&query), ROW, nodes, answer)", "fill(&self.rows(&query), ROW, std::cmp::min::<u64>(nodes, self.entries.len() as u64), answer)"),
    "node count one more": ("tries.rs", "    let mut count = 1;", "    let mut count = 1 + (node.children.len() == 3) as u64;"),
    "refuses all": ("book.rs", "numbers.need() <= lent)", "numbers.need() <= lent && false)"),
    "11 with space enough": ("book.rs", "rows.len() * size > answer.len()", "rows.len() * size >= answer.len() && !rows.is_empty()"),
    "small trie never overflows": ("book.rs", "self.entries.len() - self.entries.len() % m as usize", "self.entries.len() * 0 + m as usize * 0"),
    "a bare list of entries": ("book.rs", "bytes.extend(trie.as_ref().map_or(Vec::new(), encode));", "bytes.extend(trie.as_ref().map_or(Vec::new(), |_| vec![0]));"),
    # bytes that stay
    "a byte after the last row": ("book.rs", "    reply(0, rows.len(), second)\n", "    if let Some(byte) = answer.get_mut(rows.len() * size) {\n        *byte = 0;\n    }\n    reply(0, rows.len(), second)\n"),
    "11 writes what fits": ("book.rs", "        return reply(11, rows.len(), 0);", "        let whole = answer.len() / size * size;\n        answer[..whole].copy_from_slice(&rows.concat()[..whole]);\n        return reply(11, rows.len(), 0);"),
    "11 with the node count": ("book.rs", "return reply(11, rows.len(), 0);", "return reply(11, rows.len(), second);"),
    "setup leaves a byte": ("stand_in.rs", "    let reply = book.setup(store_len, m, l, tau);\n    if reply.number == 0 {\n        keep(store, book);", "    let reply = book.setup(store_len, m, l, tau);\n    if reply.number == 0 {\n        let (at, byte) = (store_len.min(4095), store[4095]);\n        keep(store, book);\n        store[at] = byte;"),
    "a byte beyond the need": ("stand_in.rs", "    store[..image.len()].copy_from_slice(&image);", "    store[..image.len()].copy_from_slice(&image);\n    if let Some(byte) = store.get_mut(image.len()) {\n        *byte = 0;\n    }"),
    "a byte behind the memory": ("stand_in.rs", "    store[..image.len()].copy_from_slice(&image);", "    store[..image.len()].copy_from_slice(&image);\n    unsafe { *store.as_mut_ptr().add(store.len()) = 0 };"),
    "a byte before the answer": ("stand_in.rs", "    book_of(store).search(store_len", "    unsafe { *answer.as_mut_ptr().sub(1) = 0 };\n    book_of(store).search(store_len"),
    "refusal with the held number": ("book.rs", "            return reply(3, 0, 0);", "            return reply(3, self.entries.len(), 0);"),
    # numbers and their sequence
    "1 before 2": ("book.rs", "        if path.len() > LONGEST {", "        if path.len() > LONGEST && path[0] == b'/' {"),
    "7 before 8": ("book.rs", "        if is_pattern_too_long(pattern) {", "        if is_pattern_too_long(pattern) && !pattern.starts_with(b\"//\") {"),
    "10 before 7": ("book.rs", "        if !is_pattern(pattern) {", "        if !is_pattern(pattern) && low <= high {"),
    "3 before 1": ("book.rs", "        if !is_path(path) {", "        if !is_path(path) && reference.len() == REFERENCE {"),
    "100 before 9": ("book.rs", "        if self.entries.len() == numbers.limit() {", "        if self.entries.len() == numbers.limit() && !self.entries.iter().any(|e| e.path == path && e.value == value && e.reference == reference) {"),
    "6 before 5": ("book.rs", "        if !numbers.in_limits() {", "        if !numbers.in_limits() && lent >= 16 {"),
    "setup cut to 32 bits": ("book.rs", "let numbers = Numbers { m, l, tau };", "let numbers = Numbers { m: m as u32 as u64, l, tau };"),
    "4 at the need": ("book.rs", "numbers.need() <= lent)", "numbers.need() < lent)"),
    "level number cut to 8 bits": ("book.rs", "self.level(numbers, level)", "self.level(numbers, level & 0xFF)"),
    "100 for path and value": ("book.rs", "self.entries.contains(&entry)", "self.entries.iter().any(|e| e.path == entry.path && e.value == entry.value)"),
    "100 from the small trie only": ("book.rs", "self.entries.contains(&entry)", "self.entries[self.in_levels(numbers.m)..].contains(&entry)"),
    "100 with zero": ("book.rs", "reply(100, self.entries.len(), 0)", "reply(100, 0, 0)"),
    # paths and patterns
    "7F allowed": ("patterns.rs", "|| byte >= 0x80", "|| byte >= 0x7F"),
    "80 not allowed": ("patterns.rs", "|| byte >= 0x80", "|| byte > 0x80"),
    "20 not allowed": ("patterns.rs", "(0x20..=0x7E)", "(0x21..=0x7E)"),
    "paths of 32 labels at most": ("patterns.rs", "    text.len() <= LONGEST && labels(text)", "    !is_pattern_too_long(text) && labels(text)"),
    "31 labels at most": ("patterns.rs", ".count() > MOST_LABELS", ".count() >= MOST_LABELS"),
    "199 bytes at most": ("patterns.rs", "    text.len() <= LONGEST && labels(text)", "    text.len() < LONGEST && labels(text)"),
    "** gives way once": ("patterns.rs", 'b"**" => fit[i + 1][k] || label_left && fit[i][k + 1]', 'b"**" => fit[i + 1][k] || label_left && fit[i + 1][k + 1]'),
    "** takes one label at least": ("patterns.rs", 'b"**" => fit[i + 1][k] || label_left && fit[i][k + 1]', 'b"**" => label_left && (fit[i][k + 1] || fit[i + 1][k + 1])'),
    "* takes one byte at least": ("patterns.rs", "b'*' => fit[i + 1][k] || byte_left && fit[i][k + 1]", "b'*' => byte_left && (fit[i + 1][k + 1] || fit[i][k + 1])"),
    # pruning
    "the end byte after ** entered": ("patterns.rs", "        Taken(i, _) => is_label_byte(byte)", "        Taken(i, true) if byte == END => Some(Taken(i, true)),\n        Taken(i, _) => is_label_byte(byte)"),
    "a slash after the last label continued": ("patterns.rs", "(byte == END).then_some(Ended)", "(byte == END || byte == b'/').then_some(Ended)"),
    "paths of 200 bytes at most continued": ("patterns.rs", "    if known.first().is_some_and", "    if known.len() + pattern.len() > 200 {\n        return known.last() == Some(&END);\n    }\n    if known.first().is_some_and"),
    "prunes on the child's string": ("tries.rs", "        seen[d].push(child.strings[d][0]);", "        seen[d].extend(&child.strings[d]);"),
    "prunes in one dimension": ("tries.rs", "        if value_can_continue(&seen[V], query.low, query.high) && can_continue", "        if (d == P || value_can_continue(&seen[V], query.low, query.high)) && can_continue"),
    "root entered only if it may hold rows": ("book.rs", "tries.iter().flatten().map(", "tries.iter().flatten().filter(|root| crate::patterns::can_continue(pattern, &root.strings[1])).map("),
    "high not included": ("tries.rs", "filled(0x00) <= high && low", "filled(0x00) < high.max(1) && low"),
    "rows without high": ("book.rs", "entry.value <= query.high", "entry.value < query.high"),
    "values with a sign": ("book.rs", "query.low <= entry.value", "query.low as i64 <= entry.value as i64"),
    "value bytes lowest first": ("tries.rs", "value.to_be_bytes()", "value.to_le_bytes()"),
    # levels and tries
    "parts from tau on": ("tries.rs", "keys.len() > tau", "keys.len() >= tau.max(2)"),
    "same dimension again": ("tries.rs", "build(part, tau, 1 - d, here)", "build(part, tau, d, here)"),
    "path first": ("tries.rs", "build(&sorted, tau, V, [1, 1])", "build(&sorted, tau, P, [1, 1])"),
    "leaf in sequence of age": ("tries.rs", "    sorted.sort();\n    build", "    build"),
    "newest in the highest level": ("book.rs", "self.entries[from..from + size].iter().map(key)", "self.entries[self.in_levels(numbers.m) - from - size..self.in_levels(numbers.m) - from].iter().map(key)"),
    "small root branches in path": ("tries.rs", "above.map_or(V, |d| 1 - d)", "above.map_or(P, |d| 1 - d)"),
    "small node branches as above": ("tries.rs", "above.map_or(V, |d| 1 - d)", "above.unwrap_or(V)"),
    "children as they came": ("tries.rs", "            node.children.push(small_leaf(&rest));\n            sort_children(node);", "            node.children.push(small_leaf(&rest));"),
    "parent takes no bytes where none differs": ("tries.rs", "[true, false] => return split(node, key, same, V)", "[true, false] => return split(node, key, [same[V], 0], V)"),
    "rows by reference before path": ("book.rs", "        keys.sort();\n        keys.iter()", "        keys.sort_by_key(|key| (key.strings[0].clone(), key.reference.clone(), key.strings[1].clone()));\n        keys.iter()"),
    "records in sequence of the trie": ("book.rs", "        found.sort();\n", ""),
    "positions swapped": ("tries.rs", "let step = [dimension, known[P].len() as u8 + 1, known[V].len() as u8 + 1];", "let step = [dimension, known[V].len() as u8 + 1, known[P].len() as u8 + 1];"),
    "dimension of a leaf": ("tries.rs", "let dimension = node.branch.map_or(0,", "let dimension = node.branch.map_or(3,"),
    "refused setup strikes out": ("stand_in.rs", "    if reply.number == 0 {\n        keep(store, book);\n    }\n    reply\n}\n\n#[no_mangle]\npub extern \"C\" fn nivruska_add", "    if reply.number == 0 {\n        keep(store, book);\n    } else if reply.number == 5 && store_len > 16 {\n        store[15] = 0;\n    }\n    reply\n}\n\n#[no_mangle]\npub extern \"C\" fn nivruska_add"),
    # damaged stores
    "damage: 11 always": ("stand_in.rs", "    let answer = unsafe { from_raw_parts_mut(answer, answer_len) };\n    book_of(store).search(", "    let answer = unsafe { from_raw_parts_mut(answer, answer_len) };\n    let found = book_of(store);\n    if found.entries.iter().all(|entry| entry.path == b\"/?\") && store_len > 16 && word(store, 12) > 0 && patterns::is_pattern(pattern) && low <= high && found.numbers.is_some() {\n        return Reply { number: 11, first: 1 << 40, second: 0 };\n    }\n    found.search("),
    "damage: never returns": ("stand_in.rs", "    Book { numbers: Some(numbers), entries: vec![entry; held as usize] }", "    loop {\n        std::hint::spin_loop();\n    }\n    #[allow(unreachable_code)]\n    Book { numbers: Some(numbers), entries: vec![entry; held as usize] }"),
    "damage: deep recursion": ("stand_in.rs", "    Book { numbers: Some(numbers), entries: vec![entry; held as usize] }", "    fn dive(depth: u64) -> u64 {\n        let bytes = std::hint::black_box([depth; 64]);\n        if depth == 0 { 0 } else { bytes[7] + dive(depth - 1) }\n    }\n    std::hint::black_box(dive(20_000));\n    Book { numbers: Some(numbers), entries: vec![entry; held as usize] }"),
    "damage: 4": ("stand_in.rs", "known.map_or_else(|| damaged(numbers, held), |(_, book)| book.clone())", "known.map_or_else(|| if held % 2 == 1 { Book::default() } else { damaged(numbers, held) }, |(_, book)| book.clone())"),
    "damage: search mends the store": ("stand_in.rs", "    book_of(store).read_level(store_len", "    unsafe { *(store.as_ptr() as *mut u8).add(store_len.min(20)) = 0 };\n    book_of(store).read_level(store_len"),
    "damage: an addition is not counted": ("stand_in.rs", "    let reply = book.add(store_len, path, value, reference);", "    let damaged = book.entries.first().is_some_and(|entry| entry.path == b\"/?\");\n    let reply = book.add(store_len, path, value, reference);\n    if damaged {\n        return reply;\n    }"),
    "damage: a level above L": ("stand_in.rs", "    book_of(store).read_level(store_len, level, answer)", "    let book = book_of(store);\n    let damaged = book.entries.first().is_some_and(|entry| entry.path == b\"/?\");\n    let reply = book.read_level(store_len, level, answer);\n    if damaged && reply == (Reply { number: 0, first: 0, second: 0 }) && answer_len > 860 {\n        return Reply { number: 0, first: 1, second: 0 };\n    }\n    reply"),
    "damage: held is not looked at": ("stand_in.rs", " || held > numbers.limit() as u64", ""),
}


def build(name):
    file, old, new = MUTANTS[name]
    shutil.rmtree(PLACE, ignore_errors=True)
    PLACE.mkdir(parents=True)
    for source in SOURCES:
        text = (HERE / source).read_text()
        if source == file:
            assert text.count(old) == 1, f"{name}: old stands {text.count(old)} times"
            text = text.replace(old, new)
        (PLACE / source).write_text(text)
    command = ["rustc", "--edition", "2021", "-C", "opt-level=1", "-A", "warnings", "--crate-type", "cdylib", "--crate-name", "nivruska"]
    subprocess.run([*command, "-o", PLACE / "libnivruska.so", PLACE / "stand_in.rs"], check=True)


def caught_by(name):
    environment = {**os.environ, "LD_LIBRARY_PATH": str(PLACE)}
    for part in ["damage"] if name.startswith("damage") else PARTS:
        command = [BUILT / "driver", part]
        ran = subprocess.run(command, env=environment, stdout=subprocess.PIPE, stderr=subprocess.DEVNULL, text=True, check=False)
        if ran.returncode != 0:
            return ran.stdout.splitlines()[0]
    return None


def main():
    missed = 0
    for name in sys.argv[1:] or MUTANTS:
        build(name)
        line = caught_by(name)
        missed += line is None
        print(f"{name}: {(line or 'NOT CAUGHT')[:170]}", flush=True)
    print(f"{missed} not caught")
    sys.exit(missed > 0)


main()
