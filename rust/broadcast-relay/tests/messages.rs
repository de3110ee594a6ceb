//! What hostile peers can't do with messages: speak in another's name, replay, censor, push out.

mod support;

use std::io::Write;
use std::sync::atomic::{AtomicBool, Ordering::Relaxed};
use std::thread::sleep;
use std::time::Duration;
use support::follower::Follower;
use support::hostile::{Hostile, frame, hello, is_closed, now, report};
use support::lab::Lab;
use support::{Key, Relay, folder, keygen, wait_for};

const SHORT: Duration = Duration::from_millis(300);
/// How long a test waits for what must come, whatever else the machine does.
const PATIENCE: Duration = Duration::from_secs(120);

/// A relay with peers that are not relays.
fn relay_and<const N: usize>(name: &str, limits: &str, peers: [&str; N]) -> (Relay, [Hostile; N]) {
    let folder = folder(name);
    let keys = peers.map(|it| keygen(&folder, it));
    let others: Vec<(&str, &Key)> = peers.into_iter().zip(&keys).collect();
    let mut relays = Relay::wired(&Lab::loopback(), &folder, 1, &others, limits, |_, _| true);
    relays[0].start();
    (relays.remove(0), keys.each_ref().map(Hostile::new))
}

/// Sends bytes, again and again until something is so.
fn send_until(peer: &Hostile, relay: &Relay, bytes: &[u8], what: &str, is_so: impl Fn() -> bool) {
    wait_for(what, || {
        peer.send(relay.address, bytes, SHORT);
        is_so()
    });
}

#[test]
fn no_peer_speaks_in_anothers_name() {
    // Each changes another byte: of the signature, the public key, the stamp, the stamp before and the text.
    let changes =
        [(0, "first"), (63, "last"), (64, "key"), (100, "stamp"), (108, "prev"), (114, "text")];
    let names = ["other", "first", "last", "key", "stamp", "prev", "text"];
    let (mut relay, peers) = relay_and("forged", "", names);
    let (other, stamp) = (&peers[0], now());
    // One of them is the stamp before that is changed below.
    let said = [(stamp ^ 1 << 24, "before"), (stamp, "said")];
    let said = said.map(|(stamp, text)| frame(1, &other.message(stamp, text.as_bytes()))).concat();
    send_until(other, &relay, &said, "the message", || relay.has_printed("other", "said"));
    for ((at, name), hostile) in changes.into_iter().zip(&peers[1..]) {
        // It goes on where something was had, else it would be left out before its signature is checked.
        let mut forged = other.message_after(stamp, stamp + 1 + at as u64, b"never said");
        forged[at] ^= 1;
        // Another public key makes another author, whom nobody lists: that is no breach.
        let counter = if at == 64 { "unlisted" } else { "invalid" };
        let counter = format!("relay_{counter}_total{{peer=\"{name}\"}}");
        let bytes = frame(1, &forged);
        send_until(hostile, &relay, &bytes, &counter, || relay.metric(&counter) >= 1.0);
    }
    // What the other did say may come over anyone, also over who is not banned any more.
    let said = frame(1, &other.message_after(stamp, stamp + 1_000, b"said too"));
    send_until(&peers[1], &relay, &said, "the ban ends", || relay.has_printed("other", "said too"));
    let printed = relay.counted();
    assert_eq!(printed.len(), 3, "{printed:?}");
    assert!(printed.values().all(|it| *it == 1));
    assert!(relay.terminate());
}

/// While a ban lasts its connections cost no more than a stranger's.
#[test]
fn a_banned_peer_does_not_get_to_prove_its_key() {
    let (relay, [hostile, _]) = relay_and("banned", "", ["hostile", "other"]);
    let refused = "relay_strangers_total";
    send_until(&hostile, &relay, &frame(7, &[]), refused, || relay.metric(refused) >= 1.0);
    assert!(relay.metric("relay_invalid_total{peer=\"hostile\"}") >= 1.0);
}

#[test]
fn a_replayed_message_is_not_printed_again() {
    // A journal's file begins anew after 1 MiB.
    let limits = "[limits]\nbytes_per_peer = 1048576\nauthor_bytes_per_second = 100000000";
    let (mut relay, [hostile, other]) = relay_and("replayed", limits, ["hostile", "other"]);
    let stamp = now();
    let said = frame(1, &other.message(stamp, b"said"));
    // The author's own later messages: 3 MiB of them, so that the first is in no file any more.
    let later = (1..60_u64).flat_map(|it| frame(1, &other.message(stamp + it, &[b'x'; 55_000])));
    let mut stream = other.connect(relay.address).unwrap();
    stream.get_ref().set_write_timeout(Some(PATIENCE)).unwrap();
    stream.write_all(&[said.clone(), later.collect()].concat()).unwrap();
    wait_for("all came", || relay.printed().len() == 60);
    let counter = |name: &str, peer: &str| format!("relay_{name}_total{{peer=\"{peer}\"}}");
    // One is in no file any more, the other is. Who brings them again breaks no rule.
    let newest = frame(1, &other.message(stamp + 59, &[b'x'; 55_000]));
    for message in [said, newest] {
        relay.kill();
        relay.start();
        for (peer, name) in [(&hostile, "hostile"), (&other, "other")] {
            let again = counter("again", name);
            send_until(peer, &relay, &message.repeat(20), &again, || relay.metric(&again) >= 20.0);
            assert_eq!(relay.metric(&counter("invalid", name)), 0.0);
        }
    }
    assert_eq!(relay.counted()[&("other".to_owned(), "said".to_owned())], 1);
    assert_eq!(relay.printed().len(), 60);
    // Two files of little more than 1 MiB each.
    let files = std::fs::read_dir(relay.journal_folder()).unwrap();
    let bytes: u64 = files.map(|it| it.unwrap().metadata().unwrap().len()).sum();
    assert!(bytes < (5 << 20) / 2, "{bytes}");
}

#[test]
fn a_message_that_two_peers_bring_at_once_is_printed_once() {
    let (relay, peers) = relay_and("twice", "", ["one", "two", "author"]);
    let stamp = now();
    let said = |it| frame(1, &peers[2].message(stamp + it, format!("said {it}").as_bytes()));
    let said: Vec<u8> = (0..200).flat_map(said).collect();
    std::thread::scope(|threads| {
        for peer in &peers {
            threads.spawn(|| peer.send(relay.address, &said, Duration::from_secs(2)));
        }
    });
    send_until(&peers[2], &relay, &said, "all came", || relay.counted().len() == 200);
    let journal = relay.journal();
    assert!(journal.len() == 200 && journal.values().all(|it| *it == 1));
    assert!(relay.counted().values().all(|it| *it == 1));
}

#[test]
fn false_reports_keep_no_message_away() {
    let (mut relay, [hostile, other]) = relay_and("false-reports", "", ["hostile", "other"]);
    let own = relay.key.id();
    // The hostile peer reports of each author that it has everything, or nothing, with all room there is or none, and brings none.
    let mut stream = hostile.connect(relay.address).unwrap();
    for author in [&other.id, &own] {
        for (runs, since, room) in [
            (vec![(0, u64::MAX)], 0, u64::MAX),
            (vec![], u64::MAX, 0),
            (vec![(0, u64::MAX - 1)], 0, u64::MAX),
        ] {
            stream.write_all(&report(author, &runs, since, room)).unwrap();
        }
    }
    let stamp = now();
    let said = frame(1, &other.message(stamp, b"said"));
    send_until(&other, &relay, &said, "the message", || relay.has_printed("other", "said"));
    // The relay's own input goes out, whatever was reported of it.
    let mut follower = Follower::new(&other, relay.address, own);
    (0..20).for_each(|it| relay.write(&format!("own {it}")));
    wait_for("the own lines", || {
        let _ = follower.turn();
        follower.texts.len() == 20
    });
    // Messages of the other come as ever.
    let more = frame(1, &other.message(stamp + 1, b"said too"));
    send_until(&other, &relay, &more, "another", || relay.has_printed("other", "said too"));
}

#[test]
fn a_returning_peer_gets_what_is_on_each_list() {
    // A row: the ends know each other as authors alone.
    let folder = folder("returning");
    let key = keygen(&folder, "hostile");
    let near = |from: usize, to: usize| from.abs_diff(to) == 1;
    let limits = "[limits]\nbytes_per_peer = 1048576\nauthor_bytes_per_second = 100000000";
    let mut relays = Relay::wired(&Lab::loopback(), &folder, 3, &[("hostile", &key)], limits, near);
    relays[0].start();
    relays[1].start();
    wait_for("connected", || relays[1].is_connected("r0"));
    (0..10).for_each(|it| relays[0].write(&format!("honest {it}")));
    wait_for("the middle has all", || relays[1].printed().len() == 10);
    // A hostile author fills its own list thrice, as fast as its rate allows.
    let (hostile, stamp) = (Hostile::new(&key), now());
    let mut stream = hostile.connect(relays[0].address).unwrap();
    stream.get_ref().set_write_timeout(Some(PATIENCE)).unwrap();
    for it in 0..60 {
        let text = format!("{it} {}", "x".repeat(55_000));
        let message = hostile.message_after(stamp + it, stamp + it + 1, text.as_bytes());
        stream.write_all(&frame(1, &message)).unwrap();
    }
    // It ignores its room, so some of it may have left the first relay's list before the second had it.
    let has_last = |it: &Relay| it.printed().iter().any(|it| it.text.starts_with("59 "));
    wait_for("the middle has it", || has_last(&relays[1]));
    relays[2].start();
    wait_for("the end has it", || has_last(&relays[2]) && relays[2].printed().len() >= 20);
    let counted = relays[2].counted();
    assert!(counted.values().all(|it| *it == 1));
    for it in 0..10 {
        assert_eq!(counted[&("r0".to_owned(), format!("honest {it}"))], 1);
    }
}

#[test]
fn a_newer_connection_replaces_the_older_once_it_speaks() {
    let (relay, [hostile, _]) = relay_and("replaced", "", ["hostile", "other"]);
    let mut first = hostile.connect(relay.address).unwrap();
    wait_for("connected", || relay.is_connected("hostile"));
    let mut second = hostile.connect_silently(relay.address).unwrap();
    assert!(!is_closed(&mut first, SHORT));
    let said = frame(1, &hostile.message(now(), b"said"));
    second.write_all(&[hello(), said].concat()).unwrap();
    wait_for("the second is heard", || relay.has_printed("hostile", "said"));
    assert!(is_closed(&mut first, PATIENCE) && !is_closed(&mut second, SHORT));
    assert!(relay.is_connected("hostile"));
}

#[test]
fn another_version_is_no_breach() {
    let (relay, [peer, _]) = relay_and("version", "", ["peer", "other"]);
    let mut stream = peer.connect_silently(relay.address).unwrap();
    let unheard = frame(1, &peer.message(now(), b"unheard"));
    stream.write_all(&[frame(3, &9_u16.to_be_bytes()), unheard].concat()).unwrap();
    assert!(is_closed(&mut stream, PATIENCE));
    let mut stream = peer.connect(relay.address).unwrap();
    stream.write_all(&frame(1, &peer.message(now(), b"said"))).unwrap();
    wait_for("it is heard at once", || relay.has_printed("peer", "said"));
    assert!(!relay.has_printed("peer", "unheard"));
    assert_eq!(relay.metric("relay_invalid_total{peer=\"peer\"}"), 0.0);
}

/// The author sends as fast as the relay in the middle takes it, and ignores its room.
#[test]
fn a_flood_of_one_author_loses_nothing_of_another() {
    let folder = folder("flood");
    let key = keygen(&folder, "hostile");
    let near = |from: usize, to: usize| from.abs_diff(to) == 1;
    let limits = "[limits]\nbytes_per_peer = 1048576";
    let mut relays = Relay::wired(&Lab::loopback(), &folder, 3, &[("hostile", &key)], limits, near);
    relays.iter_mut().for_each(Relay::start);
    wait_for("connected", || relays[1].is_connected("r0") && relays[1].is_connected("r2"));
    let to = relays[1].address;
    let stop = AtomicBool::new(false);
    std::thread::scope(|threads| {
        threads.spawn(|| {
            let hostile = Hostile::new(&key);
            let mut stamp = now();
            while !stop.load(Relaxed) {
                let Some(mut stream) = hostile.connect(to) else { continue };
                let said = |stamp| frame(1, &hostile.message_after(stamp - 1, stamp, &[b'x'; 400]));
                while !stop.load(Relaxed) {
                    let some: Vec<u8> = (stamp + 1..=stamp + 50).flat_map(said).collect();
                    stamp += 50;
                    if stream.write_all(&some).is_err() {
                        break;
                    }
                }
            }
        });
        wait_for("the flood", || relays[2].delivered("hostile") > 0);
        for it in 0..200 {
            relays[0].write(&format!("honest {it}"));
            sleep(Duration::from_millis(5));
        }
        wait_for("all honest lines", || relays[2].delivered("r0") == 200);
        stop.store(true, Relaxed);
    });
    assert!(relays.iter_mut().all(Relay::terminate));
}

/// Stamps order the messages of one author. No relay compares them with its clock.
#[test]
fn a_clock_that_was_wrong_keeps_no_message_away() {
    const HOUR: u64 = 3_600_000_000_000;
    let (relay, [ahead, behind]) = relay_and("clocks", "", ["ahead", "behind"]);
    // The clock was an hour ahead for one message. The next one has the stamp behind it.
    let stamp = now() + HOUR;
    for (name, author, stamp, text) in [
        ("ahead", &ahead, stamp, "said"),
        ("ahead", &ahead, stamp + 1, "said later"),
        ("behind", &behind, now() - HOUR, "said"),
    ] {
        let said = frame(1, &author.message(stamp, text.as_bytes()));
        send_until(author, &relay, &said, text, || relay.has_printed(name, text));
    }
}

#[test]
fn authors_that_nobody_lists_take_no_memory() {
    const REPORTS: u64 = 40_000;
    let (relay, [hostile]) = relay_and("unlisted-authors", "", ["hostile"]);
    let mut stream = hostile.connect(relay.address).unwrap();
    stream.get_ref().set_write_timeout(Some(PATIENCE)).unwrap();
    wait_for("connected", || relay.is_connected("hostile"));
    let before = relay.memory("VmRSS");
    let runs: Vec<(u64, u64)> = (1..=63).map(|it| (2 * it, 2 * it + 1)).collect();
    for it in 0..REPORTS {
        let mut author = [7; 32];
        author[..8].copy_from_slice(&it.to_be_bytes());
        stream.write_all(&report(&author, &runs, 0, u64::MAX)).unwrap();
    }
    stream.write_all(&frame(1, &hostile.message(now(), b"said"))).unwrap();
    wait_for("all is read", || relay.has_printed("hostile", "said"));
    // The reports alone have 40 MiB.
    let more = relay.memory("VmHWM").saturating_sub(before);
    assert!(more < 16 << 20, "{more}");
}

#[test]
fn own_messages_that_come_back_are_not_printed() {
    let folder = folder("own-again");
    let key = keygen(&folder, "peer");
    let mut relays = Relay::network(&Lab::loopback(), &folder, 1, &[("peer", &key)]);
    let (relay, peer) = (&mut relays[0], Hostile::new(&key));
    relay.forget_journal();
    relay.start();
    relay.write("own");
    let mut follower = Follower::new(&peer, relay.address, relay.key.id());
    wait_for("the own line", || follower.turn().is_ok_and(|it| it));
    let own = frame(1, &follower.messages[0]);
    relay.kill();
    relay.start();
    // It knows nothing of what it said before.
    let said = frame(1, &peer.message(now(), b"said"));
    let both = [own, said].concat();
    send_until(&peer, relay, &both, "the message", || relay.has_printed("peer", "said"));
    assert_eq!(relay.counted().into_keys().collect::<Vec<_>>(), [("peer".into(), "said".into())]);
}
