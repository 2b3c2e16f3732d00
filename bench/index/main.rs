//! Additions and searches of the index against SQLite and a plain scan: ratios of one run. What is measured and how: README.md.

mod bare;
mod data;
mod index;
mod plot;
mod scan;
mod sqlite;

use data::{Entry, Query};
use index::{Numbers, Store};
use scan::ROW;
use sqlite::Database;
use std::time::Instant;

const SIZES: [usize; 3] = [1_000, 10_000, 100_000];
/// The paper's largest leaf.
const TAU: usize = 100;
/// Of searches; a third as many of additions.
const ROUNDS: usize = 15;
/// A search is repeated until about so many seconds have passed between two looks at the clock.
const BLOCK: f64 = 1e-3;
/// Keeping a vector sorted moves half of it for each entry: too slow above.
const MOST_IN_VECTOR: usize = 10_000;
/// A predicate is called selective below this share of the entries.
const SELECTIVE: f64 = 0.01;
const CONTESTANTS: [&str; 4] = ["index", "scan", "SQLite (value, path)", "SQLite (path, value)"];

struct Options {
    sizes: Vec<usize>,
    tau: usize,
    rounds: usize,
    show_plans: bool,
    show_bare: bool,
}

struct Found {
    query: Query,
    rows: usize,
    path_share: f64,
    value_share: f64,
    nodes: u64,
    /// For each contestant the seconds of a search, the best of the rounds.
    seconds: [f64; 4],
}

impl Found {
    fn class(&self) -> &'static str {
        match (self.path_share < SELECTIVE, self.value_share < SELECTIVE) {
            (true, true) => "both",
            (true, false) => "path",
            (false, true) => "value",
            (false, false) => "neither",
        }
    }

    fn to_scan(&self) -> f64 {
        self.seconds[1] / self.seconds[0]
    }

    fn to_better_sqlite(&self) -> f64 {
        self.seconds[2].min(self.seconds[3]) / self.seconds[0]
    }
}

struct Tables {
    store: Store,
    sorted: Vec<Entry>,
    by_value: Database,
    by_path: Database,
}

fn seconds(work: impl FnOnce()) -> f64 {
    let start = Instant::now();
    work();
    start.elapsed().as_secs_f64()
}

fn tables(entries: &[Entry], numbers: Numbers) -> Tables {
    let mut store = Store::new(numbers);
    store.setup();
    entries.iter().for_each(|entry| store.add(entry));
    let (by_value, by_path) = (Database::new("value, path"), Database::new("path, value"));
    by_value.add(entries);
    by_path.add(entries);
    let mut sorted = entries.to_vec();
    sorted.sort();
    Tables { store, sorted, by_value, by_path }
}

fn seconds_of_inserts(entries: &[Entry]) -> f64 {
    let mut sorted = Vec::with_capacity(entries.len());
    seconds(|| entries.iter().for_each(|entry| scan::insert(&mut sorted, entry)))
}

fn seconds_of_sqlite(entries: &[Entry], key: &str) -> f64 {
    let database = Database::new(key);
    seconds(|| database.add(entries))
}

/// Setup, then the additions by the index, both tables and the vector: the best of the rounds, by turns so that other load meets all.
fn time_additions(entries: &[Entry], store: &mut Store, rounds: usize) -> [f64; 5] {
    let mut best = [f64::INFINITY; 5];
    for _ in 0..rounds {
        let round = [
            seconds(|| store.setup()),
            seconds(|| entries.iter().for_each(|entry| store.add(entry))),
            seconds_of_sqlite(entries, "value, path"),
            seconds_of_sqlite(entries, "path, value"),
            if entries.len() <= MOST_IN_VECTOR { seconds_of_inserts(entries) } else { f64::INFINITY },
        ];
        best = std::array::from_fn(|at| best[at].min(round[at]));
    }
    best
}

/// The rate against SQLite's faster table.
fn print_additions(sequence: &str, entries: &[Entry], numbers: Numbers, rounds: usize) -> f64 {
    let [setup, index, by_value, by_path, vector] = time_additions(entries, &mut Store::new(numbers), rounds);
    let to_vector = if vector.is_finite() { format!("{:.2}", vector / index) } else { "-".to_string() };
    println!(
        "{sequence:9} {:11.0} {:26.2} {:21.2} {to_vector:>14} {:23.2}",
        entries.len() as f64 / index,
        by_value / index,
        by_path / index,
        setup / index,
    );
    by_value.min(by_path) / index
}

/// Without the zeros behind the path.
fn show(row: &[u8]) -> String {
    let shown = row.len() - row.iter().rev().take_while(|&&byte| byte == 0).count();
    row[..shown].escape_ascii().to_string()
}

fn assert_same_rows(name: &str, query: &Query, expected: &[u8], found: &[u8]) {
    if expected == found {
        return;
    }
    let at = expected.chunks(ROW).zip(found.chunks(ROW)).position(|(a, b)| a != b).unwrap_or(expected.len().min(found.len()) / ROW);
    println!("{} {} from {} to {}", query.name, String::from_utf8_lossy(&query.pattern), query.low, query.high);
    println!("scan: {} rows; {name}: {} rows; they differ from row {at} on", expected.len() / ROW, found.len() / ROW);
    for (who, rows) in [("scan", expected), (name, found)] {
        println!("{who}: {}", rows.chunks(ROW).nth(at).map_or("no row".to_string(), show));
    }
    std::process::exit(1);
}

type Run<'a> = Box<dyn FnMut(&mut [u8]) -> usize + 'a>;

/// In the sequence of `CONTESTANTS`.
fn runs<'a>(tables: &'a Tables, query: &'a Query) -> [Run<'a>; 4] {
    let (by_value, by_path) = (tables.by_value.search(query), tables.by_path.search(query));
    [
        Box::new(|answer| tables.store.search(query, answer).0),
        Box::new(|answer| scan::search(&tables.sorted, query, answer)),
        Box::new(move |answer| by_value.run(answer)),
        Box::new(move |answer| by_path.run(answer)),
    ]
}

/// Holds every answer against the scan's; each is given other bytes to write over.
fn compare(runs: &mut [Run; 4], query: &Query, room: usize) -> usize {
    let mut expected = vec![0x55; room];
    let rows = runs[1](&mut expected);
    for (run, name) in runs.iter_mut().zip(CONTESTANTS) {
        let mut answer = vec![0xAA; room];
        let count = run(&mut answer);
        assert_same_rows(name, query, &expected[..rows * ROW], &answer[..count * ROW]);
    }
    rows
}

/// Seconds of one run in a block of them.
fn time_block(run: &mut Run, repeats: usize, answer: &mut [u8]) -> f64 {
    let block = || {
        for _ in 0..repeats {
            std::hint::black_box(run(answer));
        }
    };
    seconds(block) / repeats as f64
}

fn time_runs<const N: usize>(runs: &mut [Run; N], answer: &mut [u8], rounds: usize) -> [f64; N] {
    let repeats: Vec<usize> = runs.iter_mut().map(|run| (BLOCK / time_block(run, 1, answer)).ceil() as usize).collect();
    let mut best = [f64::INFINITY; N];
    for _ in 0..rounds {
        for (at, run) in runs.iter_mut().enumerate() {
            best[at] = best[at].min(time_block(run, repeats[at], answer));
        }
    }
    best
}

/// The rows in any one sequence, to compare answers that come in different ones.
fn sorted_rows(rows: &[u8]) -> Vec<&[u8]> {
    let mut rows: Vec<&[u8]> = rows.chunks(ROW).collect();
    rows.sort();
    rows
}

/// Seconds of the reader without checks and of the scan, by turns, once both have given the same rows.
fn time_bare(tables: &Tables, query: &Query, answer: &mut [u8], rounds: usize) -> [f64; 2] {
    let mut runs: [Run; 2] = [
        // Only the index has written the store, and there is room for every entry.
        Box::new(|answer| unsafe { bare::search(tables.store.tries(), query, answer) }),
        Box::new(|answer| scan::search(&tables.sorted, query, answer)),
    ];
    let mut expected = vec![0x55; answer.len()];
    let rows = runs[1](&mut expected);
    let count = runs[0](answer);
    let same = sorted_rows(&expected[..rows * ROW]) == sorted_rows(&answer[..count * ROW]);
    assert!(same, "rows of the reader without checks, {}", query.name);
    time_runs(&mut runs, answer, rounds)
}

fn print_bare(tables: &Tables, answer: &mut [u8], rounds: usize) {
    println!("\na reader without checks, its rows not sorted: µs, and times the scan");
    for query in data::queries(&tables.sorted) {
        let [bare, scan] = time_bare(tables, &query, answer, rounds);
        println!("{:>3} {:10.2} {:6.2}", query.name, bare * 1e6, scan / bare);
    }
}

fn share(sorted: &[Entry], chosen: impl Fn(&Entry) -> bool) -> f64 {
    sorted.iter().filter(|entry| chosen(entry)).count() as f64 / sorted.len() as f64
}

fn measure(tables: &Tables, query: Query, answer: &mut [u8], rounds: usize) -> Found {
    let mut runs = runs(tables, &query);
    let rows = compare(&mut runs, &query, answer.len());
    let seconds = time_runs(&mut runs, answer, rounds);
    drop(runs);
    let nodes = tables.store.search(&query, answer).1;
    let path_share = share(&tables.sorted, |entry| scan::fits(&query.pattern, &entry.path));
    let value_share = share(&tables.sorted, |entry| (query.low..=query.high).contains(&entry.value));
    Found { query, rows, path_share, value_share, nodes, seconds }
}

fn print_search(found: &Found, nodes_there: u64, n: usize) {
    let [index, scan, by_value, by_path] = found.seconds;
    println!(
        "{:>3} {:7} {:8.1e} {:8.1e} {:8.1e} {:7} {:7.2}% {:10.1} {:6.2} {:10.2} {:10.2}  {}",
        found.query.name,
        found.class(),
        found.rows as f64 / n as f64,
        found.path_share,
        found.value_share,
        found.nodes,
        100.0 * found.nodes as f64 / nodes_there as f64,
        index * 1e6,
        scan / index,
        by_value / index,
        by_path / index,
        String::from_utf8_lossy(&found.query.pattern),
    );
}

/// What the goals speak of, for one number of entries.
struct Outcome {
    n: usize,
    m: usize,
    additions: f64,
    searches: Vec<Found>,
}

fn print_heads() {
    println!();
    for heads in [
        ["", "selec-", "share of", "share of", "share of", "nodes", "of nodes", "index", "times", "times", "times", ""],
        ["", "tive", "rows", "path", "value", "entered", "there", "µs", "scan", "value,path", "path,value", "pattern"],
    ] {
        let [name, class, rows, path, value, nodes, part, index, scan, by_value, by_path, pattern] = heads;
        print!("{name:>3} {class:7} {rows:>8} {path:>8} {value:>8} {nodes:>7} {part:>8} ");
        println!("{index:>10} {scan:>6} {by_value:>10} {by_path:>10}  {pattern}");
    }
}

fn run_searches(tables: &Tables, there: u64, options: &Options) -> Vec<Found> {
    print_heads();
    let n = tables.sorted.len();
    let mut answer = vec![0; n * ROW];
    let mut searches = Vec::new();
    for query in data::queries(&tables.sorted) {
        let plans = options.show_plans.then(|| (tables.by_value.plan(&query), tables.by_path.plan(&query)));
        let found = measure(tables, query, &mut answer, options.rounds);
        print_search(&found, there, n);
        plans.into_iter().for_each(|(by_value, by_path)| println!("    {by_value} | {by_path}"));
        searches.push(found);
    }
    if options.show_bare {
        print_bare(tables, &mut answer, options.rounds);
    }
    assert_eq!(searches.last().map(|all| all.nodes), Some(there), "the search for everything enters every node");
    searches
}

fn run_size(n: usize, options: &Options) -> Outcome {
    let numbers = Numbers::for_entries(n, options.tau);
    let entries = data::entries(n);
    let tables = tables(&entries, numbers);
    let there = tables.store.nodes();
    let Numbers { m, l, tau } = numbers;
    println!("\n{n} entries, M {m}, L {l}, τ {tau}; a store of {} bytes with {there} nodes", numbers.need());
    println!("\nadditions    a second  rate to SQLite value,path  to SQLite path,value  to sorted Vec  setup's time to theirs");
    let rounds = options.rounds.div_ceil(3);
    let mixed = print_additions("mixed", &entries, numbers, rounds);
    let ascending = print_additions("by value", &tables.sorted, numbers, rounds);
    let searches = run_searches(&tables, there, options);
    Outcome { n, m, additions: mixed.min(ascending), searches }
}

/// The least of the ratios, and the queries that miss the goal.
fn print_goal(goal: &str, outcome: &Outcome, ratio: impl Fn(&Found) -> Option<f64>) {
    let ratios: Vec<(f64, &str)> = outcome.searches.iter().filter_map(|found| Some((ratio(found)?, found.query.name))).collect();
    let missed: Vec<&str> = ratios.iter().filter(|one| one.0 < 1.0).map(|one| one.1).collect();
    let least = ratios.iter().map(|one| one.0).fold(f64::INFINITY, f64::min);
    let verdict =
        if missed.is_empty() { "met".to_string() } else { format!("missed by {} of {}: {}", missed.len(), ratios.len(), missed.join(" ")) };
    println!("{:7} entries: {goal}: from {least:.2} on; goal 1, {verdict}", outcome.n);
}

fn print_goals(outcome: &Outcome) {
    print_goal("time of the scan to the index's", outcome, |found| Some(found.to_scan()));
    print_goal("time of SQLite's better table to the index's, neither predicate selective", outcome, |found| {
        (found.class() == "neither").then(|| found.to_better_sqlite())
    });
    if outcome.m == 256 {
        let (n, rate) = (outcome.n, outcome.additions);
        let verdict = if rate >= 0.2 { "met" } else { "missed" };
        println!("{n:7} entries: rate of additions to that of SQLite's faster table: from {rate:.2} on; goal 0.2, {verdict}");
    }
}

fn panel(outcome: &Outcome) -> plot::Panel {
    // An answer without rows is drawn at half a row.
    let share = |found: &Found| (found.rows as f64).max(0.5) / outcome.n as f64;
    let series = |at: usize| outcome.searches.iter().map(|found| (share(found), found.seconds[at] * 1e6)).collect();
    plot::Panel { title: format!("{} entries", outcome.n), series: (0..CONTESTANTS.len()).map(series).collect() }
}

/// `[ENTRIES ..] [--tau τ] [--rounds N] [--plans] [--bare]`
fn options() -> Options {
    let mut options = Options { sizes: Vec::new(), tau: TAU, rounds: ROUNDS, show_plans: false, show_bare: false };
    let mut arguments = std::env::args().skip(1);
    let number = |text: Option<String>| text.and_then(|text| text.parse().ok()).expect("a number");
    while let Some(argument) = arguments.next() {
        match argument.as_str() {
            "--tau" => options.tau = number(arguments.next()),
            "--rounds" => options.rounds = number(arguments.next()),
            "--plans" => options.show_plans = true,
            "--bare" => options.show_bare = true,
            _ => options.sizes.push(number(Some(argument))),
        }
    }
    options
}

/// Only a run of all sizes writes the plot into docs/.
fn main() {
    let mut options = options();
    let target = if options.sizes.is_empty() { "docs/search-latency.svg" } else { "target/bench/search-latency.svg" };
    if options.sizes.is_empty() {
        options.sizes = SIZES.to_vec();
    }
    let load = std::fs::read_to_string("/proc/loadavg").unwrap_or_default();
    println!("load before: {}", load.split(' ').next().unwrap_or("unknown"));
    println!("SQLite {}; each figure the best of {} rounds (additions: {})", sqlite::version(), options.rounds, options.rounds.div_ceil(3));
    let outcomes: Vec<Outcome> = options.sizes.iter().map(|&n| run_size(n, &options)).collect();
    println!();
    outcomes.iter().for_each(print_goals);
    let panels: Vec<plot::Panel> = outcomes.iter().map(panel).collect();
    std::fs::write(target, plot::svg(&panels, &CONTESTANTS)).expect("the plot can be written");
    println!("plot: {target}");
}
