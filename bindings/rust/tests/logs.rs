//! The logs in `examples/`, carried out through this crate, against their outputs, which tools/oracle/fieldlog.py made.
//! `first.log` is document 01's example. A line is read here as these logs need it, without the checks of `fieldlog`.

use nivruska::{Added, Entry, Refusal, Row, Store};
use std::fmt::Write;

fn reference(digits: &str) -> [u8; 20] {
    std::array::from_fn(|at| u8::from_str_radix(&digits[2 * at..2 * at + 2], 16).unwrap())
}

fn row_line(row: Row) -> String {
    let digits: String = row.reference().iter().map(|byte| format!("{byte:02x}")).collect();
    format!("-,{},{digits},{}\n", row.value(), String::from_utf8_lossy(row.path()))
}

fn add(memory: &mut [u8], entry: Entry) -> Result<(u32, u64, u64), Refusal> {
    match Store::open(memory)?.add(entry)? {
        Added::New { held } => Ok((0, held, 0)),
        Added::AlreadyThere { held } => Ok((100, held, 0)),
    }
}

fn search(memory: &mut [u8], low: &str, high: &str, pattern: &str, out: &mut String) -> Result<(u32, u64, u64), Refusal> {
    let (mut answer, range) = ([0; 16_384], low.parse().unwrap()..=high.parse().unwrap());
    let store = Store::open(memory)?;
    let found = store.search(pattern.as_bytes(), range, &mut answer)?;
    out.extend(found.rows().map(row_line));
    Ok((0, found.rows().len() as u64, found.nodes()))
}

fn carry_out(log: &str) -> String {
    let (mut memory, mut out) = ([0; 65_536], String::new());
    for line in log.lines() {
        let fields: Vec<&str> = line.splitn(4, ',').collect();
        let reply = match fields[..] {
            ["+", value, digits, path] => {
                add(&mut memory, Entry { path: path.as_bytes(), value: value.parse().unwrap(), reference: reference(digits) })
            }
            ["?", low, high, pattern] => search(&mut memory, low, high, pattern, &mut out),
            [m, l, tau] => {
                let setup = Store::setup(&mut memory, m.parse().unwrap(), l.parse().unwrap(), tau.parse().unwrap());
                setup.map(|_| (0, 0, 0))
            }
            _ => panic!("{line}"),
        };
        let (number, first, second) = reply.unwrap_or_else(|refusal| (refusal.number(), 0, 0));
        writeln!(out, "=,{number},{first},{second}").unwrap();
    }
    out
}

#[test]
fn first() {
    assert_eq!(carry_out(include_str!("../../../examples/first.log")), include_str!("../../../examples/first.out"));
}

#[test]
fn farm() {
    assert_eq!(carry_out(include_str!("../../../examples/farm.log")), include_str!("../../../examples/farm.out"));
}
