//! Runs seeded cases through the exported calls and through the book. See README.md.
//!
//!     driver                       every part
//!     driver PART ..               these parts
//!     driver case PART FROM TO     cases of one part, in this process

mod book;
mod calls;
mod cases;
mod damage;
mod examples;
mod parts;
mod patterns;
mod session;
mod tries;

use std::io::{BufRead, BufReader};
use std::process::{exit, Child, Command, Stdio};
use std::sync::mpsc;
use std::time::{Duration, Instant};

type Part = (&'static str, fn(u64) -> parts::Outcome, u64);

/// Name, one case, and how many of them a whole run has.
const PARTS: &[Part] = &[
    ("examples", examples::examples, 1),
    ("lists", parts::lists, 4000),
    ("full", parts::full, 60),
    ("refused", parts::refused, 32),
    ("sequences", parts::sequences, 300),
    ("deep", parts::deep, 24),
    ("matcher", parts::matcher, 1000),
    ("large", parts::large, 2),
    ("damage", damage::damage, 2000),
];

/// A call that takes longer than this is taken never to return.
const PATIENCE: Duration = Duration::from_secs(30);
/// The stack of the thread that the calls are made in.
const STACK: usize = 1 << 20;

/// Cases in this process. A line before each tells the parent where it stands, should the process end.
fn run_cases(case: fn(u64) -> parts::Outcome, from: u64, to: u64) -> Result<u64, String> {
    let mut calls = 0;
    for seed in from..to {
        println!("{seed}");
        calls += case(seed).map_err(|fault| format!("case {seed}, {fault}"))?;
    }
    Ok(calls)
}

fn run_child(part: &Part, from: u64, to: u64) -> ! {
    let case = part.1;
    let thread = std::thread::Builder::new().stack_size(STACK).spawn(move || run_cases(case, from, to)).expect("a thread");
    match thread.join() {
        Ok(Ok(calls)) => println!("calls {calls}"),
        Ok(Err(fault)) => println!("{fault}"),
        Err(_) => println!("the driver itself has failed"),
    }
    exit(0)
}

/// The last line that a child writes, and whether it went silent before its end.
fn watch(child: &mut Child) -> (String, bool) {
    let output = BufReader::new(child.stdout.take().expect("a pipe"));
    let (sender, receiver) = mpsc::channel();
    let reader = std::thread::spawn(move || output.lines().map_while(Result::ok).for_each(|line| drop(sender.send(line))));
    let mut last: Vec<String> = Vec::new();
    let silent = loop {
        match receiver.recv_timeout(PATIENCE) {
            Ok(line) if line.starts_with(' ') => last.push(line),
            Ok(line) => last = vec![line],
            Err(mpsc::RecvTimeoutError::Timeout) => break true,
            Err(mpsc::RecvTimeoutError::Disconnected) => break false,
        }
    };
    if silent {
        child.kill().expect("our own child");
    }
    child.wait().expect("our own child");
    reader.join().expect("the reader");
    (last.join("\n"), silent)
}

/// Runs a part in a process of its own; whether all its cases hold.
fn run_part((name, _, count): &Part) -> bool {
    let begin = Instant::now();
    let me = std::env::current_exe().expect("this program");
    let mut child = Command::new(me).args(["case", name, "0", &count.to_string()]).stdout(Stdio::piped()).spawn().expect("a child");
    let (last, silent) = watch(&mut child);
    let seconds = begin.elapsed().as_secs_f64();
    match last.strip_prefix("calls ") {
        Some(calls) => println!("{name}: {count} cases, {calls} calls, {seconds:.1} s"),
        None if silent => println!("{name}: FAILED, case {last} did not return in {} s", PATIENCE.as_secs()),
        None if last.starts_with("case") => println!("{name}: FAILED, {last}"),
        None => println!("{name}: FAILED, the process ended in case {last}"),
    }
    last.starts_with("calls ")
}

fn main() {
    let arguments: Vec<String> = std::env::args().skip(1).collect();
    let part_of = |name: &String| PARTS.iter().find(|part| part.0 == name).expect("the name of a part");
    if let [case, name, from, to] = &arguments[..] {
        if case == "case" {
            run_child(part_of(name), from.parse().expect("a number"), to.parse().expect("a number"));
        }
    }
    let wanted: Vec<&Part> = if arguments.is_empty() { PARTS.iter().collect() } else { arguments.iter().map(part_of).collect() };
    let failed = wanted.iter().filter(|part| !run_part(part)).count();
    println!("{} parts passed, {failed} failed", wanted.len() - failed);
    exit((failed > 0) as i32);
}
