//! Lines through relays over TLS on loopback, as fast as they may, and at a rate. `RELAY_BINARY` names another relay to be measured, and
//! words name the rows that are wanted.

#[path = "../tests/support/mod.rs"]
mod support;

use std::collections::HashMap;
use std::fs;
use std::io::Write;
use std::process::ChildStdin;
use std::thread::{sleep, spawn};
use std::time::{Duration, Instant};
use support::lab::Lab;
use support::{Printed, Relay, folder, wait_for};

/// An author may send as fast as it can.
const LIMITS: &str =
    "[limits]\nauthor_messages_per_second = 1000000\nauthor_bytes_per_second = 1000000000";
const SIZE: usize = 1_000;
/// How many deliveries each row has, of lines of a kilobyte.
const DELIVERIES: usize = 120_000;

#[derive(Clone, Copy)]
enum Shape {
    Mesh,
    Ring,
    Row,
}

impl Shape {
    fn joins(self, count: usize, one: usize, other: usize) -> bool {
        let apart = one.abs_diff(other);
        match self {
            Shape::Mesh => true,
            Shape::Ring => apart == 1 || apart == count - 1,
            Shape::Row => apart == 1,
        }
    }

    fn name(self) -> &'static str {
        match self {
            Shape::Mesh => "mesh",
            Shape::Ring => "ring",
            Shape::Row => "row",
        }
    }
}

fn start(shape: Shape, count: usize) -> Vec<Relay> {
    let joins = |one: usize, other: usize| shape.joins(count, one, other);
    let mut relays = Relay::wired(&Lab::loopback(), &folder("bench"), count, &[], LIMITS, joins);
    relays.iter_mut().for_each(Relay::start);
    wait_for("all are connected", || {
        (0..count).all(|it| {
            (0..count)
                .all(|to| it == to || !joins(it, to) || relays[it].is_connected(&format!("r{to}")))
        })
    });
    relays
}

/// The processor time of all relays in seconds.
fn processor(relays: &[Relay]) -> f64 {
    let of = |it: &Relay| {
        let stat = fs::read_to_string(format!("/proc/{}/stat", it.id())).unwrap_or_default();
        let fields = stat.rsplit(')').next().unwrap_or_default().split_whitespace();
        fields.skip(11).take(2).filter_map(|it| it.parse::<f64>().ok()).sum::<f64>() / 100.0
    };
    relays.iter().map(of).sum()
}

fn at(part: f64, sorted: &[Duration]) -> f64 {
    sorted.get((sorted.len() as f64 * part) as usize).map_or(0.0, |it| it.as_secs_f64() * 1e3)
}

/// What is measured: authors that write lines, as fast as their relays read them or at a rate.
#[derive(Clone, Copy)]
struct Load {
    shape: Shape,
    count: usize,
    authors: usize,
    lines: usize,
    rate: Option<u32>,
}

/// When each line was written, by its first word.
type Written = HashMap<String, Instant>;

impl Load {
    fn name(self) -> String {
        let Load { shape, count, authors, rate, .. } = self;
        let rate = rate.map(|it| format!(" {it} a second")).unwrap_or_default();
        format!("{} of {count}, {authors} type{rate}", shape.name())
    }

    /// Writes an author's lines.
    fn write(self, author: usize, begin: Instant, mut input: ChildStdin) -> Written {
        let filler = "x".repeat(if self.rate.is_some() { 190 } else { SIZE - 10 });
        let mut written = HashMap::new();
        for number in 0..self.lines {
            if let Some(rate) = self.rate {
                let due = begin + Duration::from_secs(1) * number as u32 / rate;
                sleep(due.saturating_duration_since(Instant::now()));
            }
            let head = format!("{author}-{number}");
            input.write_all(format!("{head} {filler}\n").as_bytes()).unwrap();
            written.insert(head, Instant::now());
        }
        // The relay reads on until it ends.
        std::mem::forget(input);
        written
    }

    /// Runs it until all lines are printed everywhere, and prints a row of the table.
    fn run(self) {
        let Load { shape, count, authors, lines, .. } = self;
        let mut relays = start(shape, count);
        let inputs: Vec<_> = relays[..authors].iter_mut().map(Relay::take_input).collect();
        let (begin, before) = (Instant::now(), processor(&relays));
        let writers = inputs.into_iter().enumerate();
        let writers: Vec<_> = writers
            .map(|(author, input)| spawn(move || self.write(author, begin, input)))
            .collect();
        let expected = |number: usize| lines * (authors - usize::from(number < authors));
        let (deliveries, mut polls) = ((0..count).map(expected).sum::<usize>() as f64, 0);
        wait_for("all lines", || {
            polls += 1;
            // Now and then those count that this program read too slowly.
            let dropped = |it| if polls % 20 == 0 { dropped(&relays[it]) } else { 0 };
            (0..count).all(|it| relays[it].printed_count() + dropped(it) == expected(it))
        });
        let spent = processor(&relays) - before;
        let written: Written = writers.into_iter().flat_map(|it| it.join().unwrap()).collect();
        let printed: Vec<_> = relays.iter().flat_map(Relay::printed).collect();
        let took = printed.iter().map(|it| it.at).max().unwrap_or(begin) - begin;
        let mut ages: Vec<Duration> = printed.iter().map(|it| age(it, &written)).collect();
        ages.sort();
        println!(
            "| {} | {:.0} | {:.0} | {:.1} | {:.0} | {:.0} | {:.3} | {} |",
            self.name(),
            (lines * authors) as f64 / took.as_secs_f64(),
            deliveries / took.as_secs_f64(),
            spent * 1e6 / deliveries,
            at(0.5, &ages),
            at(0.99, &ages),
            again(&relays) / deliveries,
            relays.iter().map(|it| it.memory("VmHWM") >> 20).max().unwrap_or(0),
        );
    }
}

/// How long a line took to come.
fn age(printed: &Printed, written: &Written) -> Duration {
    let head = printed.text.split(' ').next().unwrap_or_default();
    printed.at.saturating_duration_since(written[head])
}

fn dropped(relay: &Relay) -> usize {
    relay.metric("relay_output_dropped_total") as usize
}

/// How many messages came again.
fn again(relays: &[Relay]) -> f64 {
    let of = |it: &Relay, to| it.metric(&format!("relay_again_total{{peer=\"r{to}\"}}"));
    relays.iter().flat_map(|it| (0..relays.len()).map(move |to| of(it, to))).sum()
}

fn main() {
    println!(
        "| | lines a second | deliveries a second | µs of processor a delivery | p50, ms | p99, ms | copies for nothing a delivery | MiB |"
    );
    println!("|---|---|---|---|---|---|---|---|");
    let sizes = [
        (Shape::Mesh, &[2, 4, 8, 16][..]),
        (Shape::Ring, &[4, 8, 16]),
        (Shape::Row, &[3, 4, 8, 16]),
    ];
    let sizes =
        sizes.into_iter().flat_map(|(shape, counts)| counts.iter().map(move |it| (shape, *it)));
    let all = sizes.map(|(shape, count)| {
        let lines = DELIVERIES / (count * (count - 1));
        Load { shape, count, authors: count, lines, rate: None }
    });
    let others = [
        Load { shape: Shape::Row, count: 3, authors: 1, lines: DELIVERIES / 2, rate: None },
        Load { shape: Shape::Mesh, count: 8, authors: 8, lines: 500, rate: Some(50) },
        Load { shape: Shape::Row, count: 3, authors: 1, lines: 2_000, rate: Some(500) },
    ];
    let wanted: Vec<String> = std::env::args().skip(1).filter(|it| it != "--bench").collect();
    let is_wanted = |it: &Load| wanted.is_empty() || wanted.contains(&it.name());
    all.chain(others).filter(is_wanted).for_each(Load::run);
}
