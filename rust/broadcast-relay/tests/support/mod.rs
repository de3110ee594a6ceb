//! Relays as processes, and who attacks them.

#![allow(dead_code, reason = "each test file uses some of it")]

pub mod follower;
pub mod hostile;
pub mod lab;
pub mod link;
pub mod strangers;

use lab::Lab;
use std::collections::HashMap;
use std::fs::{self, File};
use std::io::{BufRead, BufReader, Read, Write};
use std::net::{IpAddr, SocketAddr, TcpListener, TcpStream};
use std::path::{Path, PathBuf};
use std::process::{self, Child, ChildStderr, ChildStdin, Command, Stdio};
use std::sync::atomic::{AtomicU32, Ordering};
use std::sync::{Arc, Mutex};
use std::thread::{JoinHandle, panicking, sleep, spawn};
use std::time::{Duration, Instant};

pub const RELAY: &str = env!("CARGO_BIN_EXE_broadcast-relay");

/// The relay that is tested, or another that is to be measured.
fn binary() -> String {
    std::env::var("RELAY_BINARY").unwrap_or_else(|_| RELAY.to_owned())
}

pub fn folder(name: &str) -> PathBuf {
    let folder = Path::new(env!("CARGO_TARGET_TMPDIR")).join(name);
    let _ = fs::remove_dir_all(&folder);
    fs::create_dir_all(&folder).unwrap();
    folder
}

/// A key in a file, and as peers name it.
#[derive(Clone)]
pub struct Key {
    pub file: PathBuf,
    pub text: String,
}

impl Key {
    /// What peers know it by.
    pub fn id(&self) -> [u8; 32] {
        let digit = |it: usize| u8::from_str_radix(&self.text[2 * it..2 * it + 2], 16).unwrap();
        std::array::from_fn(digit)
    }
}

pub fn keygen(folder: &Path, name: &str) -> Key {
    let file = folder.join(format!("{name}.pem"));
    let out = Command::new(RELAY).arg("keygen").arg(&file).output().unwrap();
    assert!(out.status.success(), "{out:?}");
    Key { file, text: String::from_utf8(out.stdout).unwrap().trim().to_owned() }
}

/// How long a test waits for what must come, whatever else the machine does. How long it took is never judged.
const PATIENCE: Duration = Duration::from_secs(120);

/// Waits until something is so.
pub fn wait_for(what: &str, mut is_so: impl FnMut() -> bool) {
    let start = Instant::now();
    while !is_so() {
        assert!(start.elapsed() < PATIENCE, "{what}: not in {PATIENCE:?}");
        sleep(Duration::from_millis(10));
    }
}

/// A line that was printed, and when.
#[derive(Clone, Debug)]
pub struct Printed {
    pub author: String,
    pub text: String,
    pub at: Instant,
}

pub struct Relay {
    pub name: String,
    pub key: Key,
    pub address: SocketAddr,
    pub metrics: SocketAddr,
    pub folder: PathBuf,
    namespace: Option<String>,
    /// Words before the command, as `prlimit ..`.
    pub prefix: Vec<String>,
    /// Where it logs to, if not to its file.
    pub log_to: Option<Stdio>,
    process: Option<Child>,
    input: Option<ChildStdin>,
    printed: Arc<Mutex<Vec<Printed>>>,
    /// Reads what is printed, until the process has ended.
    reader: Option<JoinHandle<()>>,
}

/// A port that is free, and below those that the system gives to whoever connects: a stranger would take one of these before
/// its relay listens.
fn free_port(address: IpAddr) -> u16 {
    static NEXT: AtomicU32 = AtomicU32::new(0);
    loop {
        let number = process::id() * 100 + NEXT.fetch_add(1, Ordering::Relaxed);
        let port = 10_000 + (number % 20_000) as u16;
        if TcpListener::bind((address, port)).is_ok() {
            return port;
        }
    }
}

impl Relay {
    /// Makes relays that name each other, and also a peer without an address for each key.
    pub fn network(lab: &Lab, folder: &Path, count: usize, others: &[(&str, &Key)]) -> Vec<Relay> {
        Relay::wired(lab, folder, count, others, "", |_, _| true)
    }

    /// The same, where a relay has the addresses of some others alone, and more stands in each configuration.
    pub fn wired(
        lab: &Lab,
        folder: &Path,
        count: usize,
        others: &[(&str, &Key)],
        limits: &str,
        dials: impl Fn(usize, usize) -> bool,
    ) -> Vec<Relay> {
        let relays: Vec<Relay> = (0..count).map(|it| Relay::new(lab, folder, it)).collect();
        for (number, relay) in relays.iter().enumerate() {
            let mut text = format!(
                "key = \"{0}.pem\"\nlisten = \"{1}\"\nmetrics = \"{2}\"\njournal = \"{0}.journal\"\ninput = true\n{limits}\n",
                relay.name, relay.address, relay.metrics
            );
            for (other, peer) in relays.iter().enumerate().filter(|it| it.0 != number) {
                text += &peer.entry(dials(number, other));
            }
            for (name, key) in others {
                text += &format!("[[peer]]\nname = \"{name}\"\nkey = \"{}\"\n", key.text);
            }
            fs::write(relay.config(), text).unwrap();
        }
        relays
    }

    fn new(lab: &Lab, folder: &Path, number: usize) -> Relay {
        let name = format!("r{number}");
        let host = lab.address(number);
        let port = || if lab.has_namespaces() { 7_001 } else { free_port(host) };
        let address = SocketAddr::new(host, port());
        let metrics = if lab.has_namespaces() { 9_101 } else { port() };
        Relay {
            key: keygen(folder, &name),
            name,
            address,
            metrics: SocketAddr::new(host, metrics),
            folder: folder.into(),
            namespace: lab.namespace(number),
            prefix: Vec::new(),
            log_to: None,
            process: None,
            input: None,
            printed: Arc::default(),
            reader: None,
        }
    }

    pub fn entry(&self, has_address: bool) -> String {
        let address = match has_address {
            true => format!("address = \"{}\"\n", self.address),
            false => String::new(),
        };
        format!("[[peer]]\nname = \"{}\"\nkey = \"{}\"\n{address}", self.name, self.key.text)
    }

    pub fn config(&self) -> PathBuf {
        self.folder.join(format!("{}.toml", self.name))
    }

    pub fn journal_folder(&self) -> PathBuf {
        self.folder.join(format!("{}.journal", self.name))
    }

    /// Lets it run without a journal.
    pub fn forget_journal(&self) {
        let config = fs::read_to_string(self.config()).unwrap();
        let lines = config.lines().filter(|it| !it.starts_with("journal"));
        fs::write(self.config(), lines.collect::<Vec<_>>().join("\n")).unwrap();
    }

    fn command(&mut self) -> Command {
        let words = ["ip", "netns", "exec"].map(str::to_owned);
        let mut words: Vec<String> = match &self.namespace {
            Some(name) => words.into_iter().chain([name.clone()]).collect(),
            None => Vec::new(),
        };
        words.extend(self.prefix.iter().cloned());
        words.extend([binary(), "run".to_owned()]);
        let mut command = Command::new(&words[0]);
        command.args(&words[1..]).arg(self.config());
        let log = File::options().append(true).create(true).open(self.log_file()).unwrap();
        command.stderr(self.log_to.take().unwrap_or(log.into()));
        command
    }

    fn log_file(&self) -> PathBuf {
        self.folder.join(format!("{}.log", self.name))
    }

    /// Starts it with pipes for input and output, and waits until it listens.
    pub fn start(&mut self) {
        let mut command = self.command();
        let mut process = command.stdin(Stdio::piped()).stdout(Stdio::piped()).spawn().unwrap();
        self.input = process.stdin.take();
        let output = process.stdout.take().unwrap();
        let printed = self.printed.clone();
        let reader = spawn(move || {
            for line in BufReader::with_capacity(1 << 18, output).lines().map_while(Result::ok) {
                let at = Instant::now();
                let mut words = line.splitn(3, ' ').map(str::to_owned);
                if let (Some(author), Some(_), Some(text)) =
                    (words.next(), words.next(), words.next())
                {
                    printed.lock().unwrap().push(Printed { author, text, at });
                }
            }
        });
        self.reader = Some(reader);
        self.process = Some(process);
        self.wait_until_it_listens();
    }

    /// Starts it with these ends.
    pub fn start_with(&mut self, input: Stdio, output: Stdio) {
        self.process = Some(self.command().stdin(input).stdout(output).spawn().unwrap());
        self.wait_until_it_listens();
    }

    fn wait_until_it_listens(&self) {
        wait_for(&format!("{} listens", self.name), || TcpStream::connect(self.metrics).is_ok());
    }

    pub fn id(&self) -> u32 {
        self.process.as_ref().unwrap().id()
    }

    pub fn is_running(&mut self) -> bool {
        self.process.as_mut().is_some_and(|it| it.try_wait().unwrap().is_none())
    }

    /// The end of a pipe that it logs to, if it does.
    pub fn take_log(&mut self) -> Option<ChildStderr> {
        self.process.as_mut().unwrap().stderr.take()
    }

    pub fn write(&mut self, line: &str) {
        writeln!(self.input.as_mut().unwrap(), "{line}").unwrap();
    }

    /// The end of the pipe that it reads.
    pub fn take_input(&mut self) -> ChildStdin {
        self.input.take().unwrap()
    }

    pub fn close_input(&mut self) {
        self.input = None;
    }

    /// The resident memory in bytes, now and at most so far.
    pub fn memory(&self, field: &str) -> u64 {
        let status = fs::read_to_string(format!("/proc/{}/status", self.id())).unwrap();
        let line = status.lines().find(|it| it.starts_with(field)).unwrap();
        line.split_whitespace().nth(1).unwrap().parse::<u64>().unwrap() << 10
    }

    /// What the relay says that it takes at most, in bytes.
    pub fn memory_bound(&self) -> u64 {
        let out = Command::new(RELAY)
            .args(["run", "--check-config"])
            .arg(self.config())
            .output()
            .unwrap();
        let text = String::from_utf8(out.stdout).unwrap();
        let line = text.lines().find(|it| it.starts_with("memory")).unwrap();
        line.split_whitespace().nth(3).unwrap().parse::<u64>().unwrap() << 20
    }

    pub fn signal(&self, name: &str) {
        let status = Command::new("kill").args([name, &self.id().to_string()]).status();
        assert!(status.unwrap().success());
    }

    /// SIGKILL. What it had printed is read then.
    pub fn kill(&mut self) {
        let mut process = self.process.take().unwrap();
        process.kill().unwrap();
        process.wait().unwrap();
        self.input = None;
        self.read_all();
    }

    /// Waits until all is read that a process printed before it ended.
    fn read_all(&mut self) {
        if let Some(reader) = self.reader.take() {
            let _ = reader.join();
        }
    }

    /// SIGTERM. Returns whether it ended with success. What it printed is read then.
    pub fn terminate(&mut self) -> bool {
        self.signal("-TERM");
        let mut process = self.process.take().unwrap();
        let end = Instant::now() + PATIENCE;
        while Instant::now() < end {
            if let Some(status) = process.try_wait().unwrap() {
                self.read_all();
                return status.success();
            }
            sleep(Duration::from_millis(10));
        }
        process.kill().unwrap();
        process.wait().unwrap();
        false
    }

    /// Ends it, and shows what it logged last, its counters too: so a test that fails tells what its relays have seen.
    fn show_end(&mut self) {
        self.terminate();
        let log = self.log();
        let lines: Vec<&str> = log.lines().collect();
        let last = &lines[lines.len().saturating_sub(40)..];
        println!("{} logged:\n{}", self.name, last.join("\n"));
    }

    /// How often each message is in the journal, by the author's key and text.
    pub fn journal(&self) -> HashMap<(String, String), usize> {
        let out = Command::new(RELAY).arg("log").arg(self.journal_folder()).output().unwrap();
        let text = String::from_utf8(out.stdout).unwrap();
        let mut counts = HashMap::new();
        for line in text.lines() {
            let mut words = line.splitn(3, ' ').map(str::to_owned);
            if let (Some(author), Some(_), Some(text)) = (words.next(), words.next(), words.next())
            {
                *counts.entry((author, text)).or_default() += 1;
            }
        }
        counts
    }

    /// What was printed, since the first start.
    pub fn printed(&self) -> Vec<Printed> {
        self.printed.lock().unwrap().clone()
    }

    pub fn printed_count(&self) -> usize {
        self.printed.lock().unwrap().len()
    }

    pub fn has_printed(&self, author: &str, text: &str) -> bool {
        let printed = self.printed.lock().unwrap();
        printed.iter().any(|it| it.author == author && it.text == text)
    }

    /// How often each message was printed, by the author's name and text.
    pub fn counted(&self) -> HashMap<(String, String), usize> {
        let mut counts = HashMap::new();
        for it in self.printed() {
            *counts.entry((it.author, it.text)).or_default() += 1;
        }
        counts
    }

    pub fn log(&self) -> String {
        fs::read_to_string(self.log_file()).unwrap_or_default()
    }

    /// The body of an answer of the relay's HTTP server.
    pub fn http(&self, path: &str) -> String {
        let mut stream = TcpStream::connect(self.metrics).unwrap();
        stream.set_read_timeout(Some(PATIENCE)).unwrap();
        write!(stream, "GET {path} HTTP/1.1\r\nHost: x\r\nConnection: close\r\n\r\n").unwrap();
        let mut text = String::new();
        stream.read_to_string(&mut text).unwrap();
        text
    }

    /// The value of a metric, as of `relay_invalid_total{peer="r1"}`, or 0.
    pub fn metric(&self, line: &str) -> f64 {
        let text = self.http("/metrics");
        let value = text.lines().find_map(|it| it.strip_prefix(line));
        value.and_then(|it| it.trim().parse().ok()).unwrap_or(0.0)
    }

    /// How many messages of an author it took. Of those it drops what its output does not read in time.
    pub fn delivered(&self, author: &str) -> usize {
        self.metric(&format!("relay_delivered_total{{author=\"{author}\"}}")) as usize
    }

    pub fn is_connected(&self, peer: &str) -> bool {
        self.metric(&format!("relay_connected{{peer=\"{peer}\"}}")) == 1.0
    }
}

impl Drop for Relay {
    fn drop(&mut self) {
        if panicking() && self.process.is_some() {
            self.show_end();
        }
        if let Some(process) = &mut self.process {
            let _ = process.kill();
            let _ = process.wait();
        }
    }
}
