//! What calls cost beside plain Rust caches of ordered maps, of hash maps, and written for speed:
//!
//!     cargo bench --bench cost                  all rows
//!     cargo bench --bench cost -- takes gets    the rows of these calls (takes, gets, lists, subscribes, bytes)
//!     cargo bench --bench cost -- 1000          the rows of at most so many peers, messages, or waiters
//!
//! It prints three tables in Markdown: nanoseconds a call; where valgrind is found, instructions a call, which no
//! neighbour disturbs; and the growth of resident memory for each cached message, without the message itself.
//!
//! Other work on a machine slows some moments down by a half. So the calls of a row are timed in stretches of `STRETCH`,
//! and a stretch counts by its least time in `ROUNDS` rounds, in which the four caches take turns. Where memory lies differs
//! from process to process. So a row is measured by `RUNS` processes: each number, and each ratio, is the median of theirs.

mod expert;
mod hashed;
mod loads;
mod plain;
mod sides;

use expert::Expert;
use hashed::Hashed;
use loads::{Call, Load, State, measured_calls};
use plain::Plain;
use sides::{Bytes32, Keyed, Shared, Side, Verified};
use std::env;
use std::fs::read_to_string;
use std::process::{Command, Output};
use std::time::{Duration, Instant};

const RUNS: usize = 5;
const ROUNDS: usize = 9;
const STRETCH: usize = 500;
/// The most calls whose instructions are counted.
const COUNTED: usize = 20_000;

type Ordered = Keyed<Plain<Bytes32, Shared>>;
type ByHash = Keyed<Hashed<Bytes32, Shared>>;
type ForSpeed = Keyed<Expert<Bytes32, Shared>>;
const SIDES: usize = 4;

/// The calls by the word that chooses them, the name of a row around its number, and the numbers.
const ROWS: [(&str, Call, [&str; 2], &[usize]); 4] = [
    ("takes", Call::Takes, ["`take`, ", " peers"], &[10, 100, 1_000, 10_000]),
    ("gets", Call::Gets, ["`get`, of ", ""], &[100, 1_000, 10_000, 100_000, 1_000_000]),
    ("lists", Call::Lists, ["`list`, of ", ""], &[10, 100, 1_000]),
    (
        "subscribes",
        Call::Subscribes,
        ["`subscribe` and `cancel`, ", " wait"],
        &[10, 100, 1_000, 10_000, 100_000],
    ),
];
/// The numbers of cached messages whose memory is measured.
const BYTES: [usize; 3] = [10_000, 100_000, 1_000_000];

/// The variable that says what a process measures: its kind, the calls, their number, and for some kinds the side.
const WHAT: &str = "BROADCAST_BENCH";

/// Prints the nanoseconds that a call takes on each side.
fn print_times(load: &Load) {
    let mut one: State<Verified> = load.state();
    let mut two: State<Ordered> = load.state();
    let mut three: State<ByHash> = load.state();
    let mut four: State<ForSpeed> = load.state();
    load.compare(&one, &two);
    load.compare(&one, &three);
    load.compare(&one, &four);
    let mut least = vec![[Duration::MAX; SIDES]; load.calls().div_ceil(STRETCH)];
    for _ in 0..ROUNDS {
        round(load, &mut one, 0, &mut least);
        round(load, &mut two, 1, &mut least);
        round(load, &mut three, 2, &mut least);
        round(load, &mut four, 3, &mut least);
    }
    for side in 0..SIDES {
        let sum: Duration = least.iter().map(|it| it[side]).sum();
        println!("{}", sum.as_nanos() as f64 / load.calls() as f64);
    }
}

/// Makes the calls of a round, and lowers the time of each stretch to what it took, if that was less.
fn round<S: Side>(load: &Load, state: &mut State<S>, side: usize, least: &mut [[Duration; SIDES]]) {
    for (stretch, least) in least.iter_mut().enumerate() {
        let first = stretch * STRETCH;
        let start = Instant::now();
        measured_calls(load, state, first..load.calls().min(first + STRETCH));
        least[side] = start.elapsed().min(least[side]);
    }
}

/// Fills a cache and makes the calls that are counted, of which it prints the number.
fn make_calls<S: Side>(load: &Load) {
    let mut state: State<S> = load.state();
    let calls = load.calls().min(COUNTED);
    measured_calls(load, &mut state, 0..calls);
    println!("{calls}");
}

/// Prints how much the resident memory grows for each message that is cached.
fn print_growth<S: Side>(load: &Load) {
    let before = resident();
    let state: State<S> = load.state();
    println!("{}", (resident() - before) / state.side.cached() as f64);
}

/// The resident memory of this process, in bytes.
fn resident() -> f64 {
    let status = read_to_string("/proc/self/status").expect("Linux");
    let line = status.lines().find_map(|it| it.strip_prefix("VmRSS:")).expect("Linux");
    1_024.0 * line.trim().trim_end_matches(" kB").parse::<f64>().expect("a number")
}

/// Does what the variable says.
fn measure(what: &str) {
    let words: Vec<&str> = what.split(' ').collect();
    let [kind, name, number, side] = words[..] else { panic!("{what:?}") };
    let call = ROWS.iter().find(|it| it.0 == name).expect("a name").1;
    let load = Load::new(call, number.parse().expect("a number"));
    match (kind, side) {
        ("times", _) => print_times(&load),
        ("instructions", "0") => make_calls::<Verified>(&load),
        ("instructions", "1") => make_calls::<Ordered>(&load),
        ("instructions", "2") => make_calls::<ByHash>(&load),
        ("instructions", _) => make_calls::<ForSpeed>(&load),
        (_, "0") => print_growth::<Verified>(&load),
        (_, "1") => print_growth::<Ordered>(&load),
        (_, "2") => print_growth::<ByHash>(&load),
        _ => print_growth::<ForSpeed>(&load),
    }
}

/// Calls this program anew, behind these words, for what the variable is to say. Returns the numbers that it printed, and
/// what it said besides.
fn ask(before: &[&str], what: String) -> (Vec<f64>, String) {
    let program = env::current_exe().expect("the path of this program");
    let mut words = before.iter().map(|it| it.as_ref()).chain([program.as_os_str()]);
    let mut command = Command::new(words.next().expect("a program"));
    let ran = command.args(words).env(WHAT, what).output().expect("it starts");
    let Output { status, stdout, stderr } = ran;
    let said = String::from_utf8_lossy(&stderr).into_owned();
    assert!(status.success(), "{said}");
    let told = String::from_utf8_lossy(&stdout).into_owned();
    (told.lines().map(|it| it.parse().expect("a number")).collect(), said)
}

/// The nanoseconds of each run.
fn times(name: &str, number: usize) -> Vec<Vec<f64>> {
    (0..RUNS).map(|_| ask(&[], format!("times {name} {number} -")).0).collect()
}

/// The instructions that valgrind counts within `measured_calls`.
fn instructions(name: &str, number: usize) -> Vec<Vec<f64>> {
    let words = [
        "valgrind",
        "--tool=callgrind",
        "--toggle-collect=*measured_calls*",
        "--callgrind-out-file=/dev/null",
    ];
    let of = |side| {
        let (calls, said) = ask(&words, format!("instructions {name} {number} {side}"));
        let line = said.lines().find_map(|it| it.split_once("Collected :")).expect("a count").1;
        line.trim().parse::<f64>().expect("a number") / calls[0]
    };
    vec![(0..SIDES).map(of).collect()]
}

fn bytes(name: &str, number: usize) -> Vec<Vec<f64>> {
    vec![(0..SIDES).map(|side| ask(&[], format!("bytes {name} {number} {side}")).0[0]).collect()]
}

fn median(mut numbers: Vec<f64>) -> f64 {
    numbers.sort_by(f64::total_cmp);
    numbers[numbers.len() / 2]
}

fn head(what: &str) {
    println!(
        "\n| {what} | this crate | ordered maps | hash maps | for speed | / ordered maps | / hash maps | / for speed |"
    );
    println!("|---|---|---|---|---|---|---|---|");
}

/// Prints a row of the numbers of each run.
fn row(name: &str, runs: &[Vec<f64>]) {
    let number = |side: usize| median(runs.iter().map(|it| it[side]).collect());
    let ratio = |side: usize| median(runs.iter().map(|it| it[0] / it[side]).collect());
    let numbers = (0..SIDES).map(|it| grouped(number(it)));
    let ratios = (1..SIDES).map(|it| format!("{:.2}", ratio(it)));
    let cells: Vec<String> = numbers.chain(ratios).collect();
    println!("| {name} | {} |", cells.join(" | "));
}

/// A number without a fraction, with a comma before each three digits.
fn grouped(number: f64) -> String {
    let digits = format!("{number:.0}");
    let at = |it: usize| it > 0 && (digits.len() - it).is_multiple_of(3);
    digits
        .char_indices()
        .flat_map(|(it, digit)| at(it).then_some(',').into_iter().chain([digit]))
        .collect()
}

fn main() {
    if let Ok(what) = env::var(WHAT) {
        return measure(&what);
    }
    let words: Vec<String> = env::args().skip(1).filter(|it| !it.starts_with('-')).collect();
    let most = words.iter().find_map(|it| it.parse().ok()).unwrap_or(usize::MAX);
    let names: Vec<&String> = words.iter().filter(|it| it.parse::<usize>().is_err()).collect();
    let is_wanted = |name: &str| names.is_empty() || names.iter().any(|it| *it == name);
    let table = |what: &str, measured: fn(&str, usize) -> Vec<Vec<f64>>| {
        head(what);
        for (name, _, [before, after], numbers) in ROWS {
            for number in numbers.iter().filter(|it| is_wanted(name) && **it <= most) {
                let name_of_row = format!("{before}{}{after}", grouped(*number as f64));
                row(&name_of_row, &measured(name, *number));
            }
        }
    };
    if names.is_empty() || names.iter().any(|it| *it != "bytes") {
        table("nanoseconds a call", times);
        if Command::new("valgrind").arg("--version").output().is_ok_and(|it| it.status.success()) {
            table("instructions a call", instructions);
        }
    }
    if is_wanted("bytes") && most >= BYTES[0] {
        head("bytes");
        for number in BYTES.into_iter().filter(|it| *it <= most) {
            let name = format!("a cached message, of {}", grouped(number as f64));
            row(&name, &bytes("gets", number));
        }
    }
}
