//! Strangers take no peer's place: from other addresses, from the peer's own, and with few descriptors.

mod support;

use std::process::Stdio;
use std::thread::sleep;
use std::time::Duration;
use support::hostile::{Hostile, is_closed};
use support::lab::Lab;
use support::strangers::{Habit, Strangers};
use support::{Relay, folder, keygen, wait_for};

/// How long a test waits for what must come, whatever else the machine does.
const PATIENCE: Duration = Duration::from_secs(120);
/// How long strangers are there before the peer dials: longer than one handshake may take, so a place that is free then is not
/// one that was never taken.
const SETTLED: Duration = Duration::from_millis(3_500);
const FEW_PLACES: &str = "[limits]\nhandshakes = 64\nhandshakes_per_address = 8";

/// Two relays, of which the second alone dials.
fn pair(lab: &Lab, name: &str, limits: &str) -> Vec<Relay> {
    Relay::wired(lab, &folder(name), 2, &[], limits, |from, _| from == 1)
}

/// Starts the second relay, and waits until its message is printed by the first.
fn must_get_in(past: &str, relays: &mut [Relay]) {
    relays[1].start();
    relays[1].write(past);
    wait_for(past, || relays[0].has_printed("r1", past));
}

#[test]
fn a_peer_gets_in_past_strangers_of_many_addresses() {
    Lab::run("a_peer_gets_in_past_strangers_of_many_addresses", 2, |lab| {
        let mut relays = pair(lab, "many-addresses", FEW_PLACES);
        relays[0].start();
        let to = relays[0].address;
        // 64 that trickle and 200 that are silent, of 32 addresses: more than there are places.
        let habit = |it| if it < 64 { Habit::Trickles } else { Habit::IsSilent };
        let strangers = (0..264).map(|it| (habit(it), lab.stranger(it), to)).collect();
        let strangers = Strangers::start(strangers);
        sleep(SETTLED);
        must_get_in("264 strangers of 32 addresses", &mut relays);
        assert!(relays[0].metric("relay_pushed_out_total") > 0.0, "the places were never full");
        drop(strangers);
    });
}

#[test]
fn a_peer_gets_in_past_strangers_of_its_own_address() {
    let mut relays = pair(&Lab::loopback(), "own-address", FEW_PLACES);
    relays[0].start();
    let to = relays[0].address;
    let strangers = (0..64).map(|_| (Habit::Trickles, to.ip(), to)).collect();
    let strangers = Strangers::start(strangers);
    sleep(SETTLED);
    must_get_in("64 strangers of the same address", &mut relays);
    assert!(relays[0].metric("relay_pushed_out_total") > 0.0, "the places were never full");
    drop(strangers);
}

#[test]
fn a_connected_peer_comes_back_past_strangers() {
    let lab = Lab::loopback();
    let mut relays = pair(&lab, "comes-back", FEW_PLACES);
    relays[0].start();
    must_get_in("no strangers", &mut relays);
    let to = relays[0].address;
    let strangers = (0..64).map(|it| (Habit::IsSilent, lab.stranger(it), to)).collect();
    let strangers = Strangers::start(strangers);
    sleep(Duration::from_secs(1));
    relays[1].kill();
    must_get_in("64 silent strangers, as a peer that comes back,", &mut relays);
    drop(strangers);
}

#[test]
fn refused_descriptors_and_threads_do_not_make_a_relay_deaf() {
    let lab = Lab::loopback();
    let mut relays = pair(&lab, "refused", "[limits]\nbytes_per_peer = 1048576");
    // No more than 128 descriptors, where it wants a thousand; and from its start on no thread more.
    relays[0].prefix = ["prlimit", "--nofile=128:128"].map(str::to_owned).to_vec();
    relays[0].start();
    wait_for("a warning", || relays[0].log().contains("few descriptors"));
    let threads = std::process::Command::new("prlimit")
        .args(["--pid", &relays[0].id().to_string(), "--nproc=1:1"])
        .stderr(Stdio::inherit())
        .status();
    assert!(threads.unwrap().success());
    let to = relays[0].address;
    let strangers = (0..200).map(|it| (Habit::IsSilent, lab.stranger(it), to)).collect();
    let strangers = Strangers::start(strangers);
    sleep(SETTLED);
    must_get_in("200 strangers with 128 descriptors", &mut relays);
    // 4 MB, so the journal begins new files meanwhile.
    (0..80).for_each(|it| relays[1].write(&format!("{it} {}", "x".repeat(50_000))));
    wait_for("all lines", || relays[0].delivered("r1") == 81);
    drop(strangers);
    assert!(relays[0].is_running() && relays[0].terminate());
}

#[test]
fn a_key_that_is_not_listed_is_refused() {
    let folder = folder("unlisted");
    let (listed, stranger) = (keygen(&folder, "listed"), keygen(&folder, "stranger"));
    let mut relays = Relay::network(&Lab::loopback(), &folder, 1, &[("listed", &listed)]);
    relays[0].start();
    let is_closed = |key, patience| Hostile::new(key).send(relays[0].address, &[], patience);
    assert!(!is_closed(&listed, Duration::from_secs(1)));
    assert!(is_closed(&stranger, PATIENCE));
    let counter = "relay_strangers_total";
    wait_for(counter, || relays[0].metric(counter) >= 1.0);
    assert!(!relays[0].http("/metrics").contains(&stranger.text));
}

/// A stranger's chain could have certificates whose signatures take long to check.
#[test]
fn a_certificate_with_a_chain_above_it_is_refused() {
    let folder = folder("chain");
    let key = keygen(&folder, "listed");
    let mut relays = Relay::network(&Lab::loopback(), &folder, 1, &[("listed", &key)]);
    relays[0].start();
    let is_refused = |peer: Hostile| {
        let stream = peer.connect(relays[0].address);
        stream.is_none_or(|mut it| is_closed(&mut it, Duration::from_secs(2)))
    };
    assert!(!is_refused(Hostile::new(&key)));
    assert!(is_refused(Hostile::with_chain(&key)));
}
