//! What operators rely on: ends, reloads, input and output, and that no line is lost.

mod support;

use std::fs;
use std::io;
use std::io::Write;
use std::net::{TcpListener, TcpStream};
use std::os::fd::OwnedFd;
use std::os::unix::fs::{OpenOptionsExt, PermissionsExt};
use std::os::unix::net::UnixStream;
use std::path::Path;
use std::process::{Command, Stdio};
use std::thread::{sleep, spawn};
use std::time::{Duration, Instant};
use support::follower::Follower;
use support::hostile::{Hostile, frame, now};
use support::lab::Lab;
use support::link::Link;
use support::{RELAY, Relay, folder, keygen, wait_for};

/// How long a test waits for what must come, whatever else the machine does.
const PATIENCE: Duration = Duration::from_secs(120);

fn pair(name: &str) -> Vec<Relay> {
    Relay::network(&Lab::loopback(), &folder(name), 2, &[])
}

#[test]
fn of_many_lines_at_once_none_is_lost() {
    for (name, count, filler) in [("many-short", 10_000, 0), ("many-long", 1_000, 10_000)] {
        let mut relays = pair(name);
        relays.iter_mut().for_each(Relay::start);
        wait_for("connected", || relays[0].is_connected("r1"));
        (0..count).for_each(|it| relays[0].write(&format!("{it} {}", "x".repeat(filler))));
        wait_for("all lines", || relays[1].delivered("r0") == count);
        let dropped = || relays[1].metric("relay_output_dropped_total") as usize;
        wait_for("the output", || relays[1].printed().len() + dropped() == count);
        assert!(relays[1].counted().values().all(|it| *it == 1));
        assert!(relays.iter_mut().all(Relay::terminate));
    }
}

#[test]
fn what_was_read_is_sent_before_the_end() {
    let mut relays = pair("drains");
    relays.iter_mut().for_each(Relay::start);
    wait_for("connected", || relays[0].is_connected("r1"));
    (0..60).for_each(|it| relays[0].write(&format!("{it} {}", "x".repeat(1_000))));
    wait_for("some are published", || relays[0].metric("relay_published_total") > 0.0);
    assert!(relays[0].terminate());
    let published = relays[0].journal().len();
    // All but what was in the pipe.
    wait_for("all that was published", || relays[1].printed().len() == published);
    let log = relays[0].log();
    for word in ["listening", "connected", "SIGTERM", "relay_published_total", "ended"] {
        assert!(log.contains(word), "no {word} in\n{log}");
    }
    wait_for("the other sees it", || relays[1].log().contains("away"));
}

#[test]
fn a_slow_peer_reads_all_before_the_end() {
    let folder = folder("slow");
    let key = keygen(&folder, "slow");
    let mut relays = Relay::network(&Lab::loopback(), &folder, 1, &[("slow", &key)]);
    let relay = &mut relays[0];
    relay.start();
    let mut follower = Follower::new(&Hostile::new(&key), relay.address, relay.key.id());
    wait_for("connected", || relay.is_connected("slow"));
    (0..100).for_each(|it| relay.write(&format!("{it} {}", "x".repeat(10_000))));
    wait_for("published", || relay.metric("relay_published_total") == 100.0);
    let reader = spawn(move || {
        sleep(Duration::from_millis(500));
        loop {
            match follower.turn() {
                Err(why) if why.kind() == io::ErrorKind::UnexpectedEof => return follower.texts,
                Err(why) if why.kind() != io::ErrorKind::WouldBlock => panic!("{why}"),
                _ => {}
            }
        }
    });
    assert!(relay.terminate());
    assert_eq!(reader.join().unwrap().len(), 100);
}

#[test]
fn no_input_and_no_output_end_nothing() {
    let mut relays = pair("no-ends");
    relays[0].start_with(Stdio::null(), Stdio::null());
    relays[1].start();
    wait_for("connected", || relays[0].is_connected("r1"));
    relays[1].close_input();
    sleep(Duration::from_millis(300));
    assert!(relays.iter_mut().all(|it| it.is_running()));
    assert!(relays[0].http("/healthz").ends_with("ok\n"));
    assert!(relays[0].http("/nothing").starts_with("HTTP/1.1 404"));
    // What did not happen is counted too.
    assert!(relays[0].http("/metrics").contains("relay_invalid_total{peer=\"r1\"} 0\n"));
    assert!(relays.iter_mut().all(Relay::terminate));
}

#[test]
fn an_input_that_does_not_block_is_read_on() {
    let mut relays = pair("does-not-block");
    let (mut input, far) = UnixStream::pair().unwrap();
    far.set_nonblocking(true).unwrap();
    relays[0].start_with(Stdio::from(OwnedFd::from(far)), Stdio::null());
    relays[1].start();
    wait_for("connected", || relays[0].is_connected("r1"));
    for text in ["said", "said too"] {
        writeln!(input, "{text}").unwrap();
        wait_for("the line", || relays[1].has_printed("r0", text));
    }
}

#[test]
fn a_second_start_changes_nothing() {
    let mut relays = pair("second-start");
    relays.iter_mut().for_each(Relay::start);
    wait_for("connected", || relays[0].is_connected("r1"));
    let config = fs::read_to_string(relays[0].config()).unwrap();
    // With other ports too: the journal is the first one's.
    let free = |it: &str, address| it.replace(&format!("\"{address}\""), "\"127.0.0.1:0\"");
    let other = free(&free(&config, relays[0].address), relays[0].metrics);
    for (text, why) in [(config, relays[0].address.to_string()), (other, "another relay".into())] {
        let file = relays[0].folder.join("second.toml");
        fs::write(&file, text).unwrap();
        let out = Command::new(RELAY).arg("run").arg(file).output().unwrap();
        let said = String::from_utf8(out.stderr).unwrap();
        assert!(out.status.code() == Some(1) && said.contains(&why), "{said}");
        relays[0].write(&why);
        wait_for("the first goes on", || relays[1].has_printed("r0", &why));
    }
    assert_eq!(relays[0].journal().len(), 2);
}

/// The middle of a row of three.
fn row(name: &str) -> Vec<Relay> {
    let near = |from: usize, to: usize| from.abs_diff(to) == 1;
    Relay::wired(&Lab::loopback(), &folder(name), 3, &[], "", near)
}

#[test]
fn an_output_that_nobody_reads_stops_nothing() {
    let mut relays = row("unread");
    relays[1].start_with(Stdio::null(), Stdio::piped());
    relays[0].start();
    relays[2].start();
    wait_for("connected", || relays[1].is_connected("r0") && relays[1].is_connected("r2"));
    (0..3_000).for_each(|it| relays[0].write(&format!("{it} {}", "x".repeat(1_000))));
    wait_for("all lines", || relays[2].delivered("r0") == 3_000);
    let dropped = "relay_output_dropped_total";
    wait_for("a warning", || relays[1].log().contains("nobody reads the output in time"));
    assert!(relays[1].metric(dropped) > 0.0);
    // What waits for the reader at the end is counted too.
    assert!(relays[1].terminate() && relays[1].log().contains(" unprinted="));
}

#[test]
fn a_log_that_nobody_reads_stops_nothing() {
    for name in ["log-unread", "log-gone", "log-full"] {
        let (mut relays, is_gone) = (row(name), name == "log-gone");
        // The pipe has place for 64 KiB. Each request of the metrics' page is logged at this level.
        let full = || fs::OpenOptions::new().write(true).open("/dev/full").unwrap().into();
        relays[1].log_to = Some(if name == "log-full" { full() } else { Stdio::piped() });
        relays[1].prefix = ["env", "RUST_LOG=trace"].map(str::to_owned).to_vec();
        relays[1].start();
        let log = relays[1].take_log().filter(|_| !is_gone);
        relays[0].start();
        relays[2].start();
        wait_for("connected", || relays[1].is_connected("r0") && relays[1].is_connected("r2"));
        let dropped = |it: &Relay| it.metric("relay_log_dropped_total") > 0.0;
        wait_for("the log is full", || is_gone || dropped(&relays[1]));
        // Who comes and goes is logged.
        relays[0].kill();
        relays[0].start();
        wait_for("it comes back", || relays[1].is_connected("r0"));
        relays[0].write("said");
        wait_for("the line", || relays[2].has_printed("r0", "said"));
        assert!(relays.iter_mut().all(Relay::terminate));
        drop(log);
    }
}

#[test]
fn the_metrics_are_served_beside_silent_connections() {
    let mut relays = pair("silent-scrapers");
    relays[0].start();
    let silent: Vec<TcpStream> =
        (0..64).map(|_| TcpStream::connect(relays[0].metrics).unwrap()).collect();
    let words = "no peer is connected\n";
    wait_for(words, || relays[0].http("/healthz").ends_with(words));
    drop(silent);
}

#[test]
fn a_relay_that_is_not_listed_is_told() {
    let mut relays = pair("not-listed");
    // The first does not list the second.
    let config = fs::read_to_string(relays[0].config()).unwrap();
    fs::write(relays[0].config(), config.split("[[peer]]").next().unwrap()).unwrap();
    relays.iter_mut().for_each(Relay::start);
    let words = "refused: r0 does not list this relay's key";
    wait_for(words, || relays[1].log().contains(words));
    assert!(!relays[1].log().contains("connected"));
}

/// The next process reads on where this one ended, as from a FIFO.
#[test]
fn an_end_loses_no_line_that_was_read() {
    const COUNT: usize = 600;
    let mut relays = pair("ends");
    relays[1].start();
    let (input, mut lines) = io::pipe().unwrap();
    let writer = spawn(move || {
        for it in 0..COUNT {
            writeln!(lines, "{it}").unwrap();
            sleep(Duration::from_millis(5));
        }
        lines
    });
    for part in 1..4 {
        relays[0].start_with(Stdio::from(OwnedFd::from(input.try_clone().unwrap())), Stdio::null());
        wait_for("some lines", || relays[1].delivered("r0") > COUNT * part / 5);
        assert!(relays[0].terminate());
    }
    relays[0].start_with(Stdio::from(OwnedFd::from(input)), Stdio::null());
    wait_for("all lines", || relays[1].delivered("r0") == COUNT);
    drop(writer.join().unwrap());
    wait_for("the output", || relays[1].printed_count() == COUNT);
    assert!(relays[1].counted().values().all(|it| *it == 1));
}

/// The list has two thirds of what is typed before anybody is there.
#[test]
fn input_waits_for_the_first_peer() {
    let mut relays = pair("first");
    relays[0].start();
    let mut author = relays.remove(0);
    let writer = spawn(move || {
        (0..600).for_each(|it| author.write(&format!("{it} {}", "x".repeat(10_000))));
        author
    });
    sleep(Duration::from_secs(1));
    relays[0].start();
    wait_for("all lines", || relays[0].delivered("r0") == 600);
    assert!(writer.join().unwrap().terminate());
}

/// A file is read faster than the link carries it, which is long and breaks once.
#[test]
fn a_file_arrives_over_a_long_link_that_breaks() {
    const COUNT: usize = 20_000;
    let mut relays =
        Relay::wired(&Lab::loopback(), &folder("long"), 2, &[], "", |from, to| from < to);
    let link = Link::to(relays[1].address, Duration::from_millis(50));
    let config = fs::read_to_string(relays[0].config()).unwrap();
    let [near, far] = [relays[1].address, link.address].map(|it| it.to_string());
    fs::write(relays[0].config(), config.replace(&near, &far)).unwrap();
    let (filler, file) = ("x".repeat(200), relays[0].folder.join("lines"));
    let lines: String = (0..COUNT).map(|it| format!("{it} {filler}\n")).collect();
    fs::write(&file, lines).unwrap();
    relays[1].start();
    relays[0].start_with(fs::File::open(&file).unwrap().into(), Stdio::null());
    wait_for("a quarter", || relays[1].delivered("r0") > COUNT / 4);
    link.cut();
    wait_for("all lines", || relays[1].delivered("r0") == COUNT);
    assert!(relays.iter_mut().all(Relay::terminate));
}

/// Where nobody says anything a relay wakes once a second. A slow machine wakes no more often.
#[test]
fn authors_that_are_away_wake_nobody() {
    let mut relays = pair("away");
    let config = fs::read_to_string(relays[0].config()).unwrap();
    let away = (0..1_000).map(|it| format!("[[peer]]\nname = \"n{it}\"\nkey = \"{it:064x}\"\n"));
    fs::write(relays[0].config(), config + &away.collect::<String>()).unwrap();
    relays.iter_mut().for_each(Relay::start);
    wait_for("connected", || relays[0].is_connected("r1"));
    relays[1].write("said");
    wait_for("the line", || relays[0].has_printed("r1", "said"));
    sleep(Duration::from_secs(2));
    let wakes = || relays[0].metric("relay_wakes_total");
    let (before, start) = (wakes(), Instant::now());
    sleep(Duration::from_secs(5));
    let (woken, seconds) = (wakes() - before, start.elapsed().as_secs_f64() + 1.0);
    assert!(woken < 3.0 * seconds, "{woken} wakes in {seconds} s");
}

/// As after the copy of a folder or a machine: both connect to a third, which each time ends the other's connection.
#[test]
fn a_key_in_two_places_is_told() {
    let mut relays =
        Relay::wired(&Lab::loopback(), &folder("twofold"), 3, &[], "", |_, to| to == 1);
    let config = fs::read_to_string(relays[0].config()).unwrap();
    let ports = |it: usize| (relays[it].address.to_string(), relays[it].metrics.to_string());
    let (old, new) = (ports(0), ports(2));
    let copied = config.replace(&old.0, &new.0).replace(&old.1, &new.1);
    fs::write(relays[2].config(), copied.replace("r0.journal", "r2.journal")).unwrap();
    relays.iter_mut().for_each(Relay::start);
    wait_for("a warning", || relays[1].log().contains("is its key in two places?"));
    assert!(relays[1].metric("relay_replaced_total{peer=\"r0\"}") >= 5.0);
    // Each hears what the other says in its name.
    let mut is_told = || {
        relays[0].write("one");
        relays[2].write("other");
        sleep(Duration::from_millis(50));
        [0, 2].iter().any(|it| relays[*it].log().contains("is it in two places?"))
    };
    wait_for("another warning", &mut is_told);
    assert!([0, 2].iter().any(|it| relays[*it].metric("relay_elsewhere_total") > 0.0));
}

#[test]
fn authors_that_only_one_lists_are_told() {
    let folder = folder("only-one");
    let key = keygen(&folder, "third");
    let mut relays = Relay::network(&Lab::loopback(), &folder, 2, &[]);
    let config = fs::read_to_string(relays[0].config()).unwrap();
    let third = format!("[[peer]]\nname = \"third\"\nkey = \"{}\"\n", key.text);
    fs::write(relays[0].config(), config + &third).unwrap();
    relays.iter_mut().for_each(Relay::start);
    wait_for("a warning", || relays[1].log().contains("authors that this relay does not list"));
    assert!(relays[1].metric("relay_unlisted_total{peer=\"r0\"}") > 0.0);
    assert_eq!(relays[0].metric("relay_unlisted_total{peer=\"r1\"}"), 0.0);
}

/// A bit of the length of the second record changes while the relay is down.
#[test]
fn a_damaged_journal_prints_nothing_twice() {
    const COUNT: usize = 20;
    let mut relays = pair("damaged");
    relays.iter_mut().for_each(Relay::start);
    wait_for("connected", || relays[0].is_connected("r1"));
    for it in 0..COUNT {
        relays[0].write(&format!("line {it}"));
        wait_for("the line", || relays[1].printed_count() == it + 1);
    }
    relays[1].kill();
    let file = relays[1].journal_folder().join(&relays[0].key.text);
    let mut bytes = fs::read(&file).unwrap();
    let texts = |it: &[u8]| it.windows(5).filter(|it| it == b"line ").count();
    assert_eq!(texts(&bytes), COUNT);
    let first = bytes.windows(6).position(|it| it == b"line 0").unwrap();
    bytes[first + 6 + 3] ^= 4;
    fs::write(&file, bytes).unwrap();
    relays[1].start();
    relays[0].write("after it");
    wait_for("the line", || relays[1].has_printed("r0", "after it"));
    assert!(relays[1].log().contains("damaged"));
    // The message comes again, and is kept again.
    wait_for("the journal", || texts(&fs::read(&file).unwrap()) == COUNT + 1);
    assert_eq!(relays[1].printed_count(), COUNT + 1);
    assert!(relays[1].counted().values().all(|it| *it == 1));
}

/// Somebody deletes the journal of a relay that runs.
#[test]
fn a_journal_that_is_deleted_is_begun_anew() {
    let mut relays = pair("deleted");
    relays.iter_mut().for_each(Relay::start);
    wait_for("connected", || relays[0].is_connected("r1"));
    relays[0].write("before");
    wait_for("before", || relays[1].has_printed("r0", "before"));
    fs::remove_file(relays[1].journal_folder().join(&relays[0].key.text)).unwrap();
    relays[0].write("after");
    wait_for("after", || relays[1].has_printed("r0", "after"));
    assert!(relays[1].log().contains("deleted while the relay runs"));
    relays[1].kill();
    relays[1].start();
    relays[0].write("again");
    wait_for("again", || relays[1].has_printed("r0", "again"));
    assert_eq!(relays[1].printed_count(), 3);
}

#[test]
fn a_text_is_printed_as_it_was_typed_if_asked_for() {
    let mut relays = pair("raw");
    let config = fs::read_to_string(relays[1].config()).unwrap();
    fs::write(relays[1].config(), format!("output = \"raw\"\n{config}")).unwrap();
    let printed = relays[1].folder.join("printed");
    relays[1].start_with(Stdio::null(), fs::File::create(&printed).unwrap().into());
    relays[0].start();
    let text = b"tab\there \x1b[2J \xff \xe2\x80\x8d";
    let mut input = relays[0].take_input();
    input.write_all(&[&text[..], b"\n"].concat()).unwrap();
    let end = [format!(" {}\n", text.len()).as_bytes(), text, b"\n"].concat();
    wait_for("the text", || {
        let printed = fs::read(&printed).unwrap();
        printed.starts_with(b"r0 ") && printed.ends_with(&end)
    });
    let folder = relays[1].journal_folder();
    let out = Command::new(RELAY).args(["log", "--raw"]).arg(folder).output().unwrap();
    assert!(out.stdout.starts_with(relays[0].key.text.as_bytes()) && out.stdout.ends_with(&end));
}

/// A peer stands still for longer than it is waited for, and what it lacks leaves the list of an author at full speed.
#[test]
fn what_is_lost_is_counted_and_logged() {
    let limits = "[limits]\npatience_seconds = 2";
    let mut relays = Relay::wired(&Lab::loopback(), &folder("lost"), 2, &[], limits, |_, _| true);
    relays.iter_mut().for_each(Relay::start);
    wait_for("connected", || relays[0].is_connected("r1"));
    relays[0].write("first");
    wait_for("the first line", || relays[1].has_printed("r0", "first"));
    relays[1].signal("-STOP");
    let (filler, count) = ("x".repeat(10_000), 1_500);
    let mut author = relays.remove(0);
    let writer = spawn(move || {
        (0..count).for_each(|it| author.write(&format!("{it} {filler}")));
        author
    });
    let mut author = writer.join().unwrap();
    wait_for("all is published", || author.metric("relay_published_total") > f64::from(count));
    let left_behind = "relay_left_behind_total{peer=\"r1\"}";
    assert!(author.metric(left_behind) > 0.0 && author.metric("relay_stalled{peer=\"r1\"}") == 1.0);
    let words = ["it stands still", "what it lacks leaves"];
    wait_for("warnings", || words.iter().all(|it| author.log().contains(it)));
    relays[0].signal("-CONT");
    wait_for("the loss", || relays[0].metric("relay_lost_total{author=\"r0\"}") > 0.0);
    wait_for("a warning", || relays[0].log().contains("no connected peer has it any more"));
    wait_for("it moves", || author.metric("relay_stalled{peer=\"r1\"}") == 0.0);
    wait_for("its end", || author.log().contains("over: it stands still"));
    assert!(relays[0].terminate() && author.terminate());
}

/// As where the disk is full: the place of a new file of the journal is taken.
#[test]
fn a_journal_that_cannot_be_written_is_told() {
    let limits = "[limits]\nbytes_per_peer = 1048576";
    let mut relays =
        Relay::wired(&Lab::loopback(), &folder("unwritten"), 2, &[], limits, |_, _| true);
    let file = relays[1].journal_folder().join(&relays[0].key.text).with_extension("new");
    fs::create_dir_all(&file).unwrap();
    relays.iter_mut().for_each(Relay::start);
    wait_for("connected", || relays[0].is_connected("r1"));
    assert!(relays[1].http("/healthz").ends_with("ok\n"));
    (0..125).for_each(|it| relays[0].write(&format!("{it} {}", "x".repeat(9_000))));
    wait_for("it is told", || relays[1].http("/healthz").contains("503 Service Unavailable"));
    wait_for("the file", || relays[1].http("/healthz").contains(&relays[0].key.text));
    fs::remove_dir(&file).unwrap();
    wait_for("all lines", || relays[1].delivered("r0") == 125);
    wait_for("it is well", || relays[1].http("/healthz").ends_with("ok\n"));
    let log = relays[1].log();
    assert!(
        log.contains("the journal is not written") && log.contains("is written again"),
        "{log}"
    );
}

/// Takes connections, and passes each on to another address.
fn pass_on(to: std::net::SocketAddr) -> (std::net::SocketAddr, std::sync::mpsc::Receiver<()>) {
    let listener = TcpListener::bind("127.0.0.1:0").unwrap();
    let address = listener.local_addr().unwrap();
    let (sender, passed) = std::sync::mpsc::channel();
    spawn(move || {
        for stream in listener.incoming().map_while(Result::ok) {
            let Ok(onward) = TcpStream::connect(to) else { continue };
            let pairs = [(&stream, &onward), (&onward, &stream)]
                .map(|(from, to)| (from.try_clone().unwrap(), to.try_clone().unwrap()));
            for (mut from, mut to) in pairs {
                spawn(move || {
                    let _ = io::copy(&mut from, &mut to);
                    let _ = to.shutdown(std::net::Shutdown::Both);
                });
            }
            if sender.send(()).is_err() {
                return;
            }
        }
    });
    (address, passed)
}

#[test]
fn a_dial_that_is_passed_on_cuts_no_link() {
    let folder = folder("passed-on");
    let key = keygen(&folder, "hostile");
    let mut relays =
        Relay::wired(&Lab::loopback(), &folder, 2, &[], "", |from, to| (from, to) == (0, 1));
    // At the hostile peer's address somebody passes connections on to the second relay.
    let (address, passed) = pass_on(relays[1].address);
    let mut config = fs::read_to_string(relays[0].config()).unwrap();
    config +=
        &format!("[[peer]]\nname = \"hostile\"\nkey = \"{}\"\naddress = \"{address}\"\n", key.text);
    fs::write(relays[0].config(), config).unwrap();
    relays[1].prefix = ["env", "RUST_LOG=broadcast_relay=debug"].map(str::to_owned).to_vec();
    relays[1].start();
    relays[0].start();
    wait_for("connected", || relays[1].is_connected("r0"));
    (0..5).for_each(|_| passed.recv_timeout(PATIENCE).unwrap());
    relays[0].write("said");
    wait_for("the line", || relays[1].has_printed("r0", "said"));
    wait_for("a warning", || relays[0].log().contains("another key listens there"));
    assert!(!relays[1].log().contains("replaced"), "{}", relays[1].log());
    assert!(relays[1].metric("relay_strangers_total") >= 1.0);
    // The first relay ended the handshakes itself, and did not show its key.
    let log = relays[1].log();
    let mut refused = log.lines().filter(|it| it.contains("refused"));
    assert!(refused.all(|it| it.contains("alert")), "{log}");
}

#[test]
fn a_reload_that_fails_changes_nothing() {
    let mut relays = pair("reload-fails");
    relays.iter_mut().for_each(Relay::start);
    wait_for("connected", || relays[0].is_connected("r1") && relays[1].is_connected("r0"));
    // The address of a connected peer changes, and the journal of a new one cannot be opened.
    let config = fs::read_to_string(relays[0].config()).unwrap();
    let moved = config.replace(&format!("address = \"{}\"", relays[1].address), "");
    let id = "ab".repeat(32);
    fs::create_dir_all(relays[0].journal_folder().join(&id)).unwrap();
    let new = format!("[[peer]]\nname = \"new\"\nkey = \"{id}\"\n");
    fs::write(relays[0].config(), moved + &new).unwrap();
    relays[0].signal("-HUP");
    wait_for("not reloaded", || relays[0].log().contains("not reloaded"));
    let log = relays[0].log();
    let why = log.lines().find(|it| it.contains("not reloaded")).unwrap();
    assert!(why.contains(&id), "it names no file: {why}");
    relays[0].write("after it");
    wait_for("the line", || relays[1].has_printed("r0", "after it"));
}

/// Makes a journal of a peer that is read only once somebody has written it.
fn endless_journal(relay: &Relay, peer: &str) -> std::path::PathBuf {
    fs::create_dir_all(relay.journal_folder()).unwrap();
    let file = relay.journal_folder().join(peer).with_extension("old");
    assert!(Command::new("mkfifo").arg(&file).status().unwrap().success());
    file
}

/// Waits until a journal is being read, which goes on until what is returned is dropped.
fn reads(file: &Path) -> fs::File {
    const O_NONBLOCK: i32 = 0o4000;
    let open = || fs::OpenOptions::new().write(true).custom_flags(O_NONBLOCK).open(file);
    // It fails for as long as nobody reads.
    let mut writer = None;
    wait_for("the journal is read", || {
        writer = open().ok();
        writer.is_some()
    });
    writer.unwrap()
}

#[test]
fn a_reload_that_reads_stops_nothing() {
    let mut relays = pair("reload-reads");
    relays.iter_mut().for_each(Relay::start);
    wait_for("connected", || relays[0].is_connected("r1") && relays[1].is_connected("r0"));
    let id = "ab".repeat(32);
    let journal = endless_journal(&relays[0], &id);
    let config = fs::read_to_string(relays[0].config()).unwrap();
    let new = format!("[[peer]]\nname = \"new\"\nkey = \"{id}\"\n");
    fs::write(relays[0].config(), config + &new).unwrap();
    relays[0].signal("-HUP");
    let reading = reads(&journal);
    relays[0].write("out");
    relays[1].write("in");
    wait_for("lines", || relays[1].has_printed("r0", "out") && relays[0].has_printed("r1", "in"));
    assert!(!relays[0].log().contains("reloaded"));
    drop(reading);
    wait_for("reloaded", || relays[0].log().contains("reloaded changed=1"));
}

#[test]
fn a_start_that_reads_is_well() {
    let mut relays = pair("start-reads");
    let journal = endless_journal(&relays[0], &relays[1].key.text);
    relays[0].start();
    let reading = reads(&journal);
    assert!(relays[0].http("/healthz").ends_with("ok\n"));
    drop(reading);
    relays[1].start();
    wait_for("connected", || relays[0].is_connected("r1"));
}

#[test]
fn a_start_names_the_file_that_it_cannot_read() {
    let relays = pair("unreadable");
    let id = &relays[1].key.text;
    fs::create_dir_all(relays[0].journal_folder().join(id)).unwrap();
    let config = relays[0].config();
    let (status, _, said) = run_in(&relays[0].folder, &["run", config.to_str().unwrap()]);
    assert!(status == Some(1) && said.contains(id), "{said}");
}

/// The relay's terminal, which is closed at the end of the input.
const TERMINAL: &str = "import os, pty, sys
if pty.fork()[0] == 0: os.execv(sys.argv[1], sys.argv[1:])
sys.stdin.read()";

#[test]
fn a_terminal_that_closes_ends_the_relay_that_reads_it() {
    let mut relays = pair("terminal");
    relays[0].prefix = ["python3", "-c", TERMINAL].map(str::to_owned).to_vec();
    relays[0].start();
    relays[1].start();
    wait_for("connected", || relays[0].is_connected("r1"));
    relays[0].close_input();
    wait_for("its end", || TcpStream::connect(relays[0].metrics).is_err());
    wait_for("the other sees it", || !relays[1].is_connected("r0"));
}

#[test]
fn a_hangup_changes_the_peers() {
    let folder = folder("hangup");
    let key = keygen(&folder, "third");
    let mut relays = Relay::network(&Lab::loopback(), &folder, 2, &[]);
    relays.iter_mut().for_each(Relay::start);
    wait_for("connected", || relays[0].is_connected("r1"));
    let before = fs::read_to_string(relays[0].config()).unwrap();
    let third = Hostile::new(&key);
    assert!(third.send(relays[0].address, &[], PATIENCE));

    // A peer is added, and one is removed.
    let without = before.split("[[peer]]").next().unwrap().to_owned();
    let added = format!("{without}[[peer]]\nname = \"third\"\nkey = \"{}\"\n", key.text);
    fs::write(relays[0].config(), added).unwrap();
    relays[0].signal("-HUP");
    wait_for("reloaded", || relays[0].log().contains("reloaded"));
    assert!(!third.send(relays[0].address, &[], Duration::from_secs(1)));
    wait_for("removed", || !relays[0].is_connected("r1"));
    sleep(Duration::from_millis(500));
    assert!(!relays[0].is_connected("r1"));
    // Who dials is connected for a moment each time, until it hears that it is refused.
    wait_for("removed there", || !relays[1].is_connected("r0"));

    // A wrong configuration changes nothing.
    fs::write(relays[0].config(), "nonsense").unwrap();
    relays[0].signal("-HUP");
    wait_for("not reloaded", || relays[0].log().contains("not reloaded"));
    assert!(!third.send(relays[0].address, &[], Duration::from_secs(1)));

    // The peer comes back, and gets what was said meanwhile.
    relays[0].write("meanwhile");
    fs::write(relays[0].config(), before).unwrap();
    relays[0].signal("-HUP");
    wait_for("back", || relays[1].has_printed("r0", "meanwhile"));
    assert!(relays.iter_mut().all(Relay::terminate));
}

#[test]
fn who_is_listed_again_is_not_printed_again() {
    let folder = folder("listed-again");
    let key = keygen(&folder, "third");
    let mut relays = Relay::network(&Lab::loopback(), &folder, 1, &[("third", &key)]);
    let (relay, third, stamp) = (&mut relays[0], Hostile::new(&key), now());
    relay.forget_journal();
    relay.start();
    let said = |it: u64| frame(1, &third.message(stamp + it, format!("{it}").as_bytes()));
    let all: Vec<u8> = (0..20).flat_map(said).collect();
    third.send(relay.address, &all, Duration::from_millis(300));
    wait_for("all", || relay.printed_count() == 20);
    let config = fs::read_to_string(relay.config()).unwrap();
    let without = config.split("[[peer]]").next().unwrap();
    let renamed = config.replace("\"third\"", "\"again\"");
    for (config, done) in [(without, 1), (&renamed, 2)] {
        fs::write(relay.config(), config).unwrap();
        relay.signal("-HUP");
        wait_for("reloaded", || relay.log().matches("reloaded changed").count() == done);
    }
    wait_for("it is heard again", || {
        third.send(relay.address, &[all.clone(), said(20)].concat(), Duration::from_millis(300));
        relay.has_printed("again", "20")
    });
    assert_eq!(relay.printed_count(), 21);
}

#[test]
fn what_came_while_its_author_was_not_listed_comes() {
    let folder = folder("not-listed");
    let is_beside = |one: usize, other: usize| one.abs_diff(other) == 1;
    let mut relays = Relay::wired(&Lab::loopback(), &folder, 3, &[], "", is_beside);
    relays.iter_mut().for_each(Relay::start);
    relays[2].write("before");
    wait_for("before", || relays[0].has_printed("r2", "before"));
    let config = fs::read_to_string(relays[0].config()).unwrap();
    let parts: Vec<&str> = config.split("[[peer]]").filter(|it| !it.contains("\"r2\"")).collect();
    let reload = |relay: &Relay, config: &str, done| {
        fs::write(relay.config(), config).unwrap();
        relay.signal("-HUP");
        wait_for("reloaded", || relay.log().matches("reloaded changed").count() == done);
    };
    reload(&relays[0], &parts.join("[[peer]]"), 1);
    relays[2].write("meanwhile");
    let unlisted = "relay_unlisted_total{peer=\"r1\"}";
    wait_for("it came", || relays[0].metric(unlisted) > 0.0);
    reload(&relays[0], &config, 2);
    wait_for("meanwhile", || relays[0].has_printed("r2", "meanwhile"));
    assert!(relays.iter_mut().all(Relay::terminate));
}

#[test]
fn a_key_that_others_may_read_is_named() {
    let mut relays = pair("open-key");
    let file = relays[0].key.file.clone();
    fs::set_permissions(&file, fs::Permissions::from_mode(0o644)).unwrap();
    relays.iter_mut().for_each(Relay::start);
    let warns = |it: &Relay| it.log().contains("others may read");
    wait_for("a warning", || warns(&relays[0]));
    assert!(!warns(&relays[1]) && relays[0].log().contains(&*file.to_string_lossy()));
}

/// Runs a command in a folder. Returns its status, and what it printed.
fn run_in(folder: &Path, words: &[&str]) -> (Option<i32>, String, String) {
    let out = Command::new(RELAY).args(words).current_dir(folder).output().unwrap();
    let [said, why] = [out.stdout, out.stderr].map(|it| String::from_utf8(it).unwrap());
    (out.status.code(), said, why)
}

#[test]
fn the_commands_make_relays_that_know_each_other() {
    let folder = folder("told");
    let run = |words: &[&str]| run_in(&folder, words);
    assert_eq!(
        run(&["--version"]).1.trim(),
        format!("broadcast-relay {}", env!("CARGO_PKG_VERSION"))
    );
    assert!(run(&["--help"]).1.contains("keygen"));
    assert_eq!(run(&["nonsense"]).0, Some(2));
    let (status, entry, _) = run(&["init", "a", "--listen", "127.0.0.1:7001"]);
    assert!(status == Some(0) && entry.contains("name = \"a\""));
    let (status, _, said) = run(&["init", "b", "--listen", "127.0.0.1:7002", "--with", "a"]);
    assert!(status == Some(0) && said.contains("b is a peer in a/relay.toml now"), "{said}");
    for name in ["a", "b"] {
        let file = format!("{name}/relay.toml");
        let (status, said, _) = run(&["run", "--check-config", &file]);
        assert!(status == Some(0) && said.contains("peers: 1\nmemory"), "{said}");
    }
    assert_eq!(run(&["entry", "a/relay.toml", "a"]).1, entry);
    assert!(run(&["completions", "bash"]).1.contains("--check-config"));
}

/// A key is never written over, and nothing is made under a name that would break a configuration.
#[test]
fn a_command_that_fails_makes_and_changes_nothing() {
    let folder = folder("refused-commands");
    let run = |words: &[&str]| run_in(&folder, words);
    let init = |name| run(&["init", name, "--listen", "127.0.0.1:7001", "--with", "a"]);
    assert_eq!(run(&["init", "a", "--listen", "127.0.0.1:7001"]).0, Some(0));
    assert_eq!((init("b").0, init("c").0), (Some(0), Some(0)));
    fs::create_dir(folder.join("deep")).unwrap();
    let before = fs::read_to_string(folder.join("a/relay.toml")).unwrap();
    for (name, why) in [
        ("a b", "is no name"),
        ("own", "is no name"),
        ("deep/b", "two peers have the name b"),
        ("b", "b/key.pem: "),
    ] {
        let (status, said, error) = init(name);
        assert!(status == Some(1) && said.is_empty() && error.contains(why), "{error}");
    }
    for words in [&["keygen", "a/key.pem"][..], &["entry", "a/relay.toml", "own"]] {
        assert_eq!(run(words).0, Some(1), "{words:?}");
    }
    let (status, _, error) = run(&["key", "a/relay.toml"]);
    assert!(status == Some(1) && error.contains("a/relay.toml: not a private key"), "{error}");
    assert_eq!(fs::read_to_string(folder.join("a/relay.toml")).unwrap(), before);
    let made =
        fs::read_dir(&folder).unwrap().count() + fs::read_dir(folder.join("deep")).unwrap().count();
    assert_eq!(made, 4);
}

#[test]
fn a_wrong_configuration_is_refused() {
    let folder = folder("wrong");
    keygen(&folder, "a");
    let run = |words: &[&str]| run_in(&folder, words);
    for (text, why) in [("", "key"), ("key = \"none\"\nlisten = \"127.0.0.1:1\"", "No such file")] {
        fs::write(folder.join("wrong.toml"), text).unwrap();
        let (status, _, said) = run(&["run", "--check-config", "wrong.toml"]);
        assert!(status == Some(1) && said.contains(why), "{said}");
    }
    let listener = std::net::TcpListener::bind("127.0.0.1:0").unwrap();
    let taken = listener.local_addr().unwrap();
    fs::write(folder.join("taken.toml"), format!("key = \"a.pem\"\nlisten = \"{taken}\"")).unwrap();
    let (status, _, said) = run(&["run", "taken.toml"]);
    assert!(status == Some(1) && said.contains(&taken.to_string()), "{said}");
}
