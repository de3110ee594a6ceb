//! Five relays under load and attack: each honest message arrives everywhere, once.

mod support;

use std::collections::{HashMap, HashSet};
use std::env;
use std::io::Write;
use std::net::SocketAddr;
use std::process::{Child, Command, Stdio};
use std::thread::{sleep, spawn};
use std::time::{Duration, Instant};
use support::hostile::{Hostile, frame, now, report};
use support::lab::Lab;
use support::strangers::{Habit, Strangers};
use support::{Key, Relay, folder, keygen, wait_for};

const RELAYS: usize = 5;
const KILLED: usize = 2;
/// The ticks of a round, and those in which the killed relay is away. A soak has many rounds.
const ROUND: usize = 600;
const AWAY: std::ops::Range<usize> = 200..300;
const TICK: Duration = Duration::from_millis(20);
const TRICKLE: usize = 64;
const SILENT: usize = 200;
const HOSTILE: usize = 60;
/// How long a test waits for what must come, whatever else the machine does.
const PATIENCE: Duration = Duration::from_secs(120);
const LIMITS: &str = "[limits]\nhandshakes = 128\nhandshakes_per_address = 16";

/// Becomes a process with no greater claim to the processors than any other.
const ORDINARY: &str = "echo 0 2> /dev/null > /proc/self/autogroup; exec nice -n 10 \"$@\"";

/// The attackers are a process of their own, with less claim to the processors than relays have: else it, and not what it sends,
/// would slow the relays down. (Sixty threads that only compute did so, to a p99 of half a second.) It is this test.
struct Attackers(Child);

impl Attackers {
    fn start(relays: &[Relay], key: &Key) -> Attackers {
        let to: Vec<String> = relays.iter().map(|it| it.address.to_string()).collect();
        let process = Command::new("setsid")
            .args(["sh", "-c", ORDINARY, "sh"])
            .arg(env::current_exe().unwrap())
            .args(["attackers", "--exact", "--ignored", "--nocapture"])
            .env("ATTACK", to.join(","))
            .env("ATTACK_KEY", &key.file)
            .stdout(Stdio::null())
            .spawn();
        Attackers(process.unwrap())
    }
}

impl Drop for Attackers {
    fn drop(&mut self) {
        let _ = self.0.kill();
        let _ = self.0.wait();
    }
}

#[test]
#[ignore = "it is started by the test of five relays"]
fn attackers() {
    let Ok(to) = env::var("ATTACK") else { return };
    let to: Vec<SocketAddr> = to.split(',').map(|it| it.parse().unwrap()).collect();
    let file = env::var("ATTACK_KEY").unwrap();
    for number in 0..HOSTILE {
        let (file, to) = (file.clone().into(), to[number % to.len()]);
        spawn(move || flood(&Hostile::new(&Key { file, text: String::new() }), to, number));
    }
    // Should the test be killed, they end all the same.
    sleep(TICK * ticks() as u32 + Duration::from_secs(300));
}

/// Sends to a relay at full speed, and connects again whenever it is thrown out.
fn flood(hostile: &Hostile, to: SocketAddr, number: usize) -> ! {
    let mut noise = vec![0; 60_000];
    openssl::rand::rand_bytes(&mut noise).unwrap();
    for round in number.. {
        let Some(mut stream) = hostile.connect(to) else {
            sleep(Duration::from_millis(10));
            continue;
        };
        let end = Instant::now() + Duration::from_millis(500);
        while Instant::now() < end {
            let stamp = now();
            noise[..8].copy_from_slice(&stamp.to_be_bytes());
            let bytes = match round % 6 {
                // No frame, a wrong message, and reports: of everything, and of nothing with all room.
                0 => noise.clone(),
                1 => frame(1, &noise),
                2 => report(&hostile.id, &[(0, u64::MAX)], 0, 0).repeat(400),
                3 => report(&hostile.id, &[], u64::MAX, u64::MAX).repeat(400),
                // Large fresh messages of its own, and small ones.
                4 => frame(1, &hostile.message(stamp, &noise[..59_000])),
                _ => frame(1, &hostile.message(stamp, &noise[..100])),
            };
            if stream.write_all(&bytes).is_err() {
                break;
            }
        }
    }
    unreachable!()
}

fn strangers(lab: &Lab, relays: &[Relay]) -> Strangers {
    let to = |it: usize| relays[it % RELAYS].address;
    let trickling = (0..TRICKLE).map(|it| (Habit::Trickles, lab.stranger(it), to(it)));
    let silent = (0..SILENT).map(|it| (Habit::IsSilent, lab.stranger(it / 8), to(it)));
    Strangers::start(trickling.chain(silent).collect())
}

/// How many ticks lines are typed: a round, or as long as a soak is asked to take.
fn ticks() -> usize {
    let seconds = env::var("SOAK_SECONDS").ok().and_then(|it| it.parse::<usize>().ok());
    seconds.map_or(ROUND, |it| it * 1_000 / TICK.as_millis() as usize)
}

/// What was typed into each relay, and when.
struct Typed {
    lines: Vec<Vec<(String, Instant)>>,
    /// What the killed relay had journaled by then, and does not print again.
    journaled: HashSet<String>,
}

impl Typed {
    fn new() -> Typed {
        Typed { lines: vec![Vec::new(); RELAYS], journaled: HashSet::new() }
    }

    fn write(&mut self, relays: &mut [Relay], number: usize, tick: usize) {
        let line = format!("{number}-{tick} {}", "x".repeat(tick % ROUND));
        self.lines[number].push((line.clone(), Instant::now()));
        relays[number].write(&line);
    }

    /// Notes what the killed relay has journaled, and forgets what was typed into it after the newest line of these.
    fn lose(&mut self, killed: &Relay) {
        self.journaled.extend(killed.journal().into_keys().map(|it| it.1));
        let lines = &mut self.lines[KILLED];
        let newest = lines.iter().rposition(|it| self.journaled.contains(&it.0));
        lines.truncate(newest.map_or(0, |it| it + 1));
    }

    /// Of the messages of the others, those that a relay has neither printed nor journaled.
    fn lacking(&self, relays: &[Relay], number: usize) -> usize {
        let printed = relays[number].printed();
        let mut has: HashSet<String> = printed.into_iter().map(|it| it.text).collect();
        if number == KILLED {
            has.extend(self.journaled.iter().cloned());
        }
        let others = || (0..RELAYS).filter(|it| *it != number).flat_map(|it| &self.lines[it]);
        if others().any(|it| !has.contains(&it.0)) {
            // It takes long on a busy machine.
            has.extend(relays[number].journal().into_keys().map(|it| it.1));
        }
        others().filter(|it| !has.contains(&it.0)).count()
    }

    fn of_others(&self, number: usize) -> usize {
        (0..RELAYS).filter(|it| *it != number).map(|it| self.lines[it].len()).sum()
    }

    /// How long messages took that were typed since then, between relays that were never killed, in rising order.
    fn latencies(&self, relays: &[Relay], since: Instant) -> Vec<Duration> {
        let lines = self.lines.iter().flatten().filter(|it| it.1 >= since);
        let sent: HashMap<&str, Instant> = lines.map(|it| (it.0.as_str(), it.1)).collect();
        let lives = |name: &str| name.starts_with('r') && name != relays[KILLED].name;
        let mut took: Vec<Duration> = relays
            .iter()
            .filter(|it| lives(&it.name))
            .flat_map(Relay::printed)
            .filter(|it| lives(&it.author))
            .filter_map(|it| Some(it.at.saturating_duration_since(*sent.get(it.text.as_str())?)))
            .collect();
        took.sort();
        took
    }
}

/// Starts the killed relay, and waits until it is connected to all others.
fn come_back(killed: &mut Relay) {
    killed.start();
    wait_for("the killed relay is back", || {
        (0..RELAYS).all(|it| it == KILLED || killed.is_connected(&format!("r{it}")))
    });
}

/// What stays the same over all loads.
struct Network<'a> {
    relays: &'a mut [Relay],
    typed: Typed,
    /// The ticks that have passed.
    ticks: usize,
    /// The most memory that the killed relay had, in bytes.
    memory: u64,
}

impl Network<'_> {
    /// Types a line into each relay each tick; one is killed in between.
    fn load(&mut self) {
        let (start, first) = (Instant::now(), self.ticks);
        for tick in first..first + ticks() {
            if tick % ROUND == AWAY.start {
                self.memory = self.memory.max(self.relays[KILLED].memory("VmHWM"));
                self.relays[KILLED].kill();
                self.typed.lose(&self.relays[KILLED]);
            }
            if tick % ROUND == AWAY.end {
                come_back(&mut self.relays[KILLED]);
            }
            let is_away = AWAY.contains(&(tick % ROUND));
            for number in (0..RELAYS).filter(|it| *it != KILLED || !is_away) {
                self.typed.write(self.relays, number, tick);
            }
            let next = start + TICK * (tick - first) as u32;
            sleep(next.saturating_duration_since(Instant::now()));
        }
        self.ticks = first + ticks();
    }

    /// Loads the relays, and waits until all have come. Says how long they took, which is not judged.
    fn meet(&mut self) {
        let since = Instant::now();
        self.load();
        arrive(self.relays, &self.typed);
        let took = self.typed.latencies(self.relays, since);
        let at = |part: f64| took[(took.len() as f64 * part) as usize];
        println!("p50 {:?}, p99 {:?}, p99.9 {:?}", at(0.5), at(0.99), at(0.999));
    }
}

/// Waits until each relay has all messages of the others.
fn arrive(relays: &[Relay], typed: &Typed) {
    let start = Instant::now();
    loop {
        // A look that begins in time counts, however long it takes.
        let is_late = start.elapsed() > PATIENCE;
        let lacking: Vec<usize> = (0..RELAYS).map(|it| typed.lacking(relays, it)).collect();
        if lacking.iter().all(|it| *it == 0) {
            let all: usize = typed.lines.iter().map(Vec::len).sum();
            println!("{all} messages were everywhere {:?} after the last", start.elapsed());
            return;
        }
        if is_late {
            for relay in relays {
                println!("--- {}\n{}\n{}", relay.name, relay.log(), relay.http("/metrics"));
            }
            panic!("lacking: {lacking:?}");
        }
        sleep(Duration::from_millis(200));
    }
}

/// Ends all relays, and looks whether each has printed each message once.
fn end(relays: &mut [Relay], typed: &Typed) {
    let keys: HashSet<String> = relays.iter().map(|it| it.key.text.clone()).collect();
    for (number, relay) in relays.iter_mut().enumerate() {
        assert!(relay.terminate(), "{} did not end at SIGTERM", relay.name);
        let counted = relay.counted();
        let honest: Vec<_> = counted.iter().filter(|it| it.0.0.starts_with('r')).collect();
        assert!(honest.iter().all(|it| *it.1 == 1), "{}: a line was printed twice", relay.name);
        let journal = relay.journal();
        let mut honest_ones = journal.iter().filter(|it| keys.contains(&it.0.0));
        assert!(honest_ones.all(|it| *it.1 == 1), "{}: one came twice", relay.name);
        // What a killed relay had journaled and not printed is not printed again.
        if number != KILLED {
            assert_eq!(honest.len(), typed.of_others(number), "{}", relay.name);
        }
    }
}

#[test]
fn each_honest_message_arrives_everywhere_once() {
    Lab::run("each_honest_message_arrives_everywhere_once", RELAYS, |lab| {
        let folder = folder("network");
        let key = keygen(&folder, "hostile");
        let others = [("hostile", &key)];
        let mut relays = Relay::wired(lab, &folder, RELAYS, &others, LIMITS, |_, _| true);
        relays.iter_mut().for_each(Relay::start);
        wait_for("all are connected", || {
            relays.iter().all(|it| {
                (0..RELAYS).all(|other| {
                    it.name == format!("r{other}") || it.is_connected(&format!("r{other}"))
                })
            })
        });
        let strangers = strangers(lab, &relays);
        let attackers = Attackers::start(&relays, &key);
        sleep(Duration::from_secs(1));
        let mut network = Network { relays: &mut relays, typed: Typed::new(), ticks: 0, memory: 0 };
        network.meet();
        let Network { typed, memory, .. } = network;
        let memory = relays.iter().map(|it| it.memory("VmHWM")).max().unwrap().max(memory);
        let metric = |it: &str| relays.iter().map(|relay| relay.metric(it)).collect::<Vec<_>>();
        let bound = relays[0].memory_bound();
        println!(
            "memory {} MiB of {}; the hostile peer had {:?} messages taken and was thrown out {:?} times",
            memory >> 20,
            bound >> 20,
            metric("relay_delivered_total{author=\"hostile\"}"),
            metric("relay_invalid_total{peer=\"hostile\"}"),
        );
        drop((strangers, attackers));
        assert!(memory < bound);
        end(&mut relays, &typed);
    });
}
