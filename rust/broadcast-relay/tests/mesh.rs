//! Meshes and rows under full load: none stands still, and nothing is lost.

mod support;

use std::thread::{sleep, spawn};
use std::time::Duration;
use support::lab::Lab;
use support::{Relay, folder, wait_for};

/// How many lines of others a relay took. Of those it drops what its output does not read in time.
fn delivered(relay: &Relay) -> usize {
    let text = relay.http("/metrics");
    let counters = text.lines().filter(|it| it.starts_with("relay_delivered_total"));
    let counts = counters.filter_map(|it| it.rsplit(' ').next()?.parse::<f64>().ok());
    counts.sum::<f64>() as usize
}

fn are_connected(relays: &[Relay], are_near: impl Fn(usize, usize) -> bool) {
    wait_for("all are connected", || {
        (0..relays.len()).all(|it| {
            (0..relays.len()).all(|to| {
                it == to || !are_near(it, to) || relays[it].is_connected(&format!("r{to}"))
            })
        })
    });
}

/// Relays once waited for each other in a circle here.
#[test]
fn a_mesh_of_four_makes_progress() {
    let mut relays = Relay::network(&Lab::loopback(), &folder("mesh"), 4, &[]);
    relays.iter_mut().for_each(Relay::start);
    are_connected(&relays, |_, _| true);
    for it in 0..2_000 {
        for relay in &mut relays {
            relay.write(&format!("{it} {}", "x".repeat(1_000)));
        }
    }
    wait_for("all lines", || relays.iter().all(|it| delivered(it) == 6_000));
    let again = |it: &Relay| {
        (0..4).map(|to| it.metric(&format!("relay_again_total{{peer=\"r{to}\"}}"))).sum::<f64>()
    };
    let copies: f64 = relays.iter().map(again).sum();
    assert!(copies < 6_000.0, "{copies} of 24,000 came again");
    assert!(relays.iter_mut().all(Relay::terminate));
}

/// A batch was once as long as a short list, and lines were lost.
#[test]
fn a_row_with_short_lists_loses_nothing() {
    let near = |from: usize, to: usize| from.abs_diff(to) == 1;
    let limits = "[limits]\nbytes_per_peer = 1048576";
    let mut relays = Relay::wired(&Lab::loopback(), &folder("short"), 3, &[], limits, near);
    relays.iter_mut().for_each(Relay::start);
    are_connected(&relays, near);
    // Six lists of them, short and long ones.
    for it in 0..6_000 {
        relays[0].write(&format!("{it} {}", "x".repeat(it % 2 * 1_700)));
    }
    wait_for("all lines", || delivered(&relays[2]) == 6_000);
    assert!(relays.iter_mut().all(Relay::terminate));
}

/// Most of them were once lost here.
#[test]
fn a_relay_that_stands_still_gets_all_that_is_on_the_lists() {
    // One of two dials, so no connection is replaced by another that the standing relay does not know of.
    let dials = |from: usize, to: usize| from + 1 == to;
    let mut relays = Relay::wired(&Lab::loopback(), &folder("stopped"), 3, &[], "", dials);
    relays.iter_mut().for_each(Relay::start);
    are_connected(&relays, |from, to| from.abs_diff(to) == 1);
    relays[2].signal("-STOP");
    let filler = "x".repeat(2_000);
    let mut author = relays.remove(0);
    // The author may be held back meanwhile, and its input with it.
    let writer = spawn(move || {
        (0..3_001).for_each(|it| author.write(&format!("{it} {filler}")));
        author
    });
    sleep(Duration::from_secs(4));
    relays[1].signal("-CONT");
    wait_for("all lines", || delivered(&relays[1]) == 3_001);
    assert!(writer.join().unwrap().terminate());
}
