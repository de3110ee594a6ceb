//! Broadcasts the lines of the standard input.

use crate::intake::Intake;
use crate::message::{MAX_BATCH, MAX_TEXT};
use crate::{clock, now};
use std::fs::File;
use std::io::{self, ErrorKind, Read};
use std::os::fd::{AsFd, AsRawFd};
use std::sync::Arc;
use std::sync::atomic::{AtomicU64, Ordering::Relaxed};
use std::thread;
use std::time::Duration;
use tokio::io::Interest;
use tokio::io::unix::AsyncFd;
use tokio::runtime::Handle;
use tokio::sync::mpsc::{self, Receiver};
use tokio::sync::oneshot;
use tokio::time::{Instant, sleep, sleep_until, timeout_at};
use tracing::{error, info};

/// How many lines wait. Whoever writes more has to wait too.
const WAITING: usize = 64;
/// The most bytes of a batch that is signed at once, and how often one is signed at most: what is written meanwhile is
/// signed together.
const MAX_BYTES: usize = 256 << 10;
const PACE: Duration = Duration::from_millis(2);
/// How long an input without a line rests that does not block, and how long lines that were not broadcast.
const REST: Duration = Duration::from_millis(10);
const RETRY: Duration = Duration::from_secs(1);

/// The lines that are read, until the input ends or is to be read no more.
pub struct Lines {
    lines: Receiver<Vec<u8>>,
    end: Option<oneshot::Sender<()>>,
    read: Arc<AtomicU64>,
}

impl Lines {
    /// No lines.
    pub fn none() -> Lines {
        Lines { lines: mpsc::channel(1).1, end: None, read: Arc::default() }
    }

    /// Lets no more be read. What was read before is among the lines.
    pub fn stop(&mut self) {
        self.end = None;
    }

    /// How many lines were read.
    pub fn read(&self) -> u64 {
        self.read.load(Relaxed)
    }
}

/// Starts to read lines in a thread of its own.
pub fn start() -> io::Result<Lines> {
    let (sender, lines) = mpsc::channel(WAITING);
    let (end, ends) = oneshot::channel();
    let (input, runtime) = (io::stdin().as_fd().try_clone_to_owned()?.into(), Handle::current());
    let read = Arc::new(AtomicU64::new(0));
    let count = read.clone();
    thread::Builder::new().name("input".into()).spawn(move || {
        let why = read_lines(input, ends, &runtime, |it| {
            count.fetch_add(u64::from(!it.is_empty()), Relaxed);
            it.is_empty() || sender.blocking_send(it).is_ok()
        });
        info!(why, "the input is not read any more");
    })?;
    Ok(Lines { lines, end: Some(end), read })
}

/// Calls `each` with the lines of an input, until that or the relay ends, or `each` refuses one. Returns why.
fn read_lines(
    mut input: File,
    mut ends: oneshot::Receiver<()>,
    runtime: &Handle,
    mut each: impl FnMut(Vec<u8>) -> bool,
) -> &'static str {
    let (mut bytes, mut line) = (vec![0; 16 << 10], Vec::new());
    loop {
        // What is read at the end would be lost for who reads this input next.
        if !runtime.block_on(is_readable(&input, &mut ends)) {
            each(text(line));
            return "the relay ends";
        }
        let read = match input.read(&mut bytes) {
            Ok(len) if len > 0 => &bytes[..len],
            // Whoever started the relay may have set it not to block.
            Err(why) if why.kind() == ErrorKind::WouldBlock => {
                thread::sleep(REST);
                continue;
            }
            _ => {
                each(text(line));
                return "it has ended";
            }
        };
        for mut part in read.split_inclusive(|it| *it == b'\n') {
            // A longer line is cut into several.
            while !part.is_empty() {
                let (some, others) = part.split_at(part.len().min(MAX_TEXT - line.len()));
                line.extend_from_slice(some);
                part = others;
                let is_whole = line.ends_with(b"\n") || line.len() == MAX_TEXT;
                if is_whole && !each(text(std::mem::take(&mut line))) {
                    return "the relay has ended";
                }
            }
        }
    }
}

/// Waits until there is something to be read, or the relay ends. Returns whether it is to be read.
async fn is_readable(input: &File, ends: &mut oneshot::Receiver<()>) -> bool {
    // A file is always readable.
    let waits = AsyncFd::with_interest(input.as_raw_fd(), Interest::READABLE);
    let readable = async {
        if let Ok(waits) = &waits {
            let _ = waits.readable().await;
        }
    };
    tokio::select! {
        biased;
        _ = ends => false,
        () = readable => true,
    }
}

/// A line without its end.
fn text(mut line: Vec<u8>) -> Vec<u8> {
    while line.last().is_some_and(|it| matches!(it, b'\n' | b'\r')) {
        line.pop();
    }
    line
}

/// Publishes all lines, those that have come meanwhile together. Returns at the end of the input. From a time on it waits for nobody,
/// if the relay ends. Dropping the future loses no line: none is taken before it may be published.
pub async fn publish(intake: &Intake, lines: &mut Lines, end: Option<Instant>) {
    loop {
        match end {
            Some(end) => drop(timeout_at(end, intake.may_publish()).await),
            None => intake.may_publish().await,
        }
        let Some(line) = lines.lines.recv().await else { return };
        let next = Instant::now() + PACE;
        let (mut bytes, mut batch) = (line.len(), vec![line]);
        while batch.len() < MAX_BATCH
            && bytes < MAX_BYTES
            && let Ok(line) = lines.lines.try_recv()
        {
            bytes += line.len();
            batch.push(line);
        }
        // Again and again until it succeeds, as on a full disk.
        let mut has_failed = false;
        while let Err(why) = intake.publish(now(), clock(), &batch) {
            if !has_failed {
                error!(%why, "lines are not broadcast, and tried again");
                has_failed = true;
            }
            sleep(RETRY).await;
        }
        sleep_until(next).await;
    }
}
