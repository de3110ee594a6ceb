//! Writes lines in a thread of its own: a reader of the output or of the log that does not read stops nothing else.

use crate::identity::PeerId;
use crate::lock::Mutex;
use crate::message::Signed;
use std::collections::VecDeque;
use std::fs::File;
use std::io::{self, ErrorKind, Write};
use std::os::fd::AsFd;
use std::sync::{Arc, Condvar, PoisonError};
use std::thread;
use std::time::Duration;
use tracing_subscriber::EnvFilter;

/// The most bytes of an author that wait for the reader, and of the log. What has no room is not printed, and counted; the journal
/// has it.
pub const MAX_WAITING: usize = 2 << 20;
const MAX_LOG: usize = 128 << 10;
/// How long an output that failed rests.
const REST: Duration = Duration::from_millis(100);

#[derive(Default)]
struct Lines {
    /// Authors in turn, so that who writes much holds up no other: how many bytes wait of each, and its lines.
    waiting: VecDeque<OfAuthor>,
    is_writing: bool,
    /// Whoever read them is gone.
    is_closed: bool,
    dropped: u64,
}

#[derive(Clone)]
pub struct Output {
    shared: Arc<(Mutex<Lines>, Condvar)>,
    most: usize,
}

impl Output {
    /// Starts to write to a file, of which at most so many bytes wait of each author.
    pub fn start(name: &str, file: impl AsFd, most: usize) -> io::Result<Output> {
        let output = Output { shared: Arc::default(), most };
        let shared = output.shared.clone();
        // Not by `Stdout`, which keeps what it could not write.
        let mut out = File::from(file.as_fd().try_clone_to_owned()?);
        thread::Builder::new().name(name.into()).spawn(move || {
            let unread = loop {
                let (batch, count) = next(&shared);
                if !write_all(&mut out, &batch) {
                    break count;
                }
            };
            let mut lines = shared.0.lock();
            lines.is_closed = true;
            lines.dropped +=
                unread + std::mem::take(&mut lines.waiting).iter().map(count).sum::<u64>();
            drop(lines);
            tracing::warn!("nobody reads the output any more");
        })?;
        Ok(output)
    }

    /// Starts the log, which goes to standard error.
    pub fn start_log() -> io::Result<Output> {
        let output = Output::start("log", io::stderr(), MAX_LOG)?;
        let filter = EnvFilter::try_from_default_env()
            .unwrap_or_else(|_| "warn,broadcast_relay=info".into());
        let log = tracing_subscriber::fmt().with_env_filter(filter).log_internal_errors(false);
        let writer = output.clone();
        log.with_writer(move || writer.clone()).init();
        Ok(output)
    }

    /// Prints a line of an author, or drops and counts it where there is no room.
    pub fn print(&self, author: PeerId, line: Vec<u8>) {
        let mut lines = self.shared.0.lock();
        let waiting = lines.waiting.iter().find(|it| it.0 == author).map_or(0, |it| it.1);
        if lines.is_closed || waiting + line.len() > self.most {
            lines.dropped += 1;
            return;
        }
        match lines.waiting.iter_mut().find(|it| it.0 == author) {
            Some((_, bytes, of_author)) => {
                *bytes += line.len();
                of_author.push_back(line);
            }
            None => lines.waiting.push_back((author, line.len(), VecDeque::from([line]))),
        }
        self.shared.1.notify_one();
    }

    /// How many lines were not printed, and never will be.
    pub fn dropped(&self) -> u64 {
        self.shared.0.lock().dropped
    }

    /// How many lines wait.
    pub fn waiting(&self) -> u64 {
        self.shared.0.lock().waiting.iter().map(count).sum()
    }

    /// Whether all is written, or will never be.
    pub fn is_done(&self) -> bool {
        let lines = self.shared.0.lock();
        lines.is_closed || (lines.waiting.is_empty() && !lines.is_writing)
    }
}

/// Each line of the log is one write.
impl Write for Output {
    fn write(&mut self, line: &[u8]) -> io::Result<usize> {
        self.print([0; 32], line.to_vec());
        Ok(line.len())
    }

    fn flush(&mut self) -> io::Result<()> {
        Ok(())
    }
}

type OfAuthor = (PeerId, usize, VecDeque<Vec<u8>>);

fn count((.., lines): &OfAuthor) -> u64 {
    lines.len() as u64
}

/// Waits for lines, and takes up to 16 KiB of them, and at least one. Returns them, and how many. What was taken before is written then.
fn next((lines, filled): &(Mutex<Lines>, Condvar)) -> (Vec<u8>, u64) {
    let mut lines = lines.lock();
    lines.is_writing = false;
    let lines = filled.wait_while(lines, |it| it.waiting.is_empty());
    let mut lines = lines.unwrap_or_else(PoisonError::into_inner);
    lines.is_writing = true;
    let (mut batch, mut count) = (Vec::new(), 0);
    while batch.len() < 1 << 14
        && let Some((author, bytes, mut of_author)) = lines.waiting.pop_front()
        && let Some(line) = of_author.pop_front()
    {
        batch.extend_from_slice(&line);
        count += 1;
        if !of_author.is_empty() {
            lines.waiting.push_back((author, bytes - line.len(), of_author));
        }
    }
    (batch, count)
}

/// Writes all, and tries again what fails, as on a full disk. Returns whether somebody may still read it.
fn write_all(out: &mut File, mut batch: &[u8]) -> bool {
    let mut has_failed = false;
    while !batch.is_empty() {
        match out.write(batch) {
            Ok(len) => batch = &batch[len..],
            Err(why) if why.kind() == ErrorKind::BrokenPipe => return false,
            Err(why) => {
                if why.kind() != ErrorKind::WouldBlock && !has_failed {
                    tracing::warn!(%why, "not printed, and tried again");
                    has_failed = true;
                }
                thread::sleep(REST);
            }
        }
    }
    true
}

/// How messages are printed.
#[derive(Clone, Copy, Debug, PartialEq, Eq)]
pub enum Form {
    /// `AUTHOR STAMP TEXT`, without what a terminal obeys.
    Shown,
    /// `AUTHOR STAMP LENGTH` and, on a line of its own, the text as it was typed.
    Raw,
}

/// How a message is printed.
pub fn line(form: Form, author: &str, message: &Signed) -> Vec<u8> {
    let (stamp, text) = (message.stamp, message.text());
    match form {
        Form::Shown => format!("{author} {stamp} {}\n", shown(text)).into_bytes(),
        Form::Raw => {
            [format!("{author} {stamp} {}\n", text.len()).as_bytes(), text, b"\n"].concat()
        }
    }
}

/// The text without what a terminal obeys, or what turns it round.
fn shown(text: &[u8]) -> String {
    let hides = |it: char| {
        (it.is_control() && it != '\t')
            || matches!(it, '\u{61c}' | '\u{200b}'..='\u{200f}' | '\u{2028}'..='\u{202e}' | '\u{2066}'..='\u{2069}' | '\u{feff}')
    };
    let shown = String::from_utf8_lossy(text);
    match text.iter().all(|it| matches!(it, b'\t' | b' '..=b'~')) {
        true => shown.into_owned(),
        false => shown.replace(hides, "\u{fffd}"),
    }
}

#[cfg(test)]
mod tests {
    use super::*;
    use std::io::Read;
    use std::os::fd::OwnedFd;
    use std::os::unix::net::UnixStream;

    /// An output that refuses more until it is read, as a full disk does.
    #[test]
    fn what_fails_is_tried_again_until_nobody_reads() {
        let (out, mut reader) = UnixStream::pair().unwrap();
        out.set_nonblocking(true).unwrap();
        let mut out = File::from(OwnedFd::from(out));
        let lines = vec![b'x'; 4 << 20];
        thread::scope(|threads| {
            let printed = threads.spawn(|| write_all(&mut out, &lines));
            let mut read = vec![0; lines.len()];
            reader.read_exact(&mut read).unwrap();
            assert!(printed.join().unwrap() && read == lines);
        });
        drop(reader);
        assert!(!write_all(&mut out, &lines));
    }

    #[test]
    fn what_is_being_written_is_not_done() {
        let (out, mut reader) = UnixStream::pair().unwrap();
        let output = Output::start("test", &out, MAX_WAITING).unwrap();
        drop(out);
        // More than the system keeps.
        let line = vec![b'x'; MAX_WAITING];
        output.print([1; 32], line.clone());
        assert!(output.dropped() == 0 && !output.is_done());
        while !output.shared.0.lock().waiting.is_empty() {
            thread::sleep(REST);
        }
        assert!(!output.is_done());
        let mut read = vec![0; line.len()];
        reader.read_exact(&mut read).unwrap();
        while !output.is_done() {
            thread::sleep(REST);
        }
        drop(reader);
        while output.dropped() == 0 || !output.is_done() {
            output.print([1; 32], line.clone());
            thread::sleep(REST);
        }
    }

    #[test]
    fn an_author_that_writes_much_takes_no_room_and_no_turn_of_another() {
        let output = Output { shared: Arc::default(), most: 6 };
        for line in ["a1", "a2", "a3", "a4", "b1", "b2"] {
            output.print([line.as_bytes()[0]; 32], line.into());
        }
        assert_eq!((next(&output.shared), output.dropped()), ((b"a1b1a2b2a3".to_vec(), 5), 1));
        // What was taken has room again.
        output.print([b'a'; 32], b"a5 a6.".to_vec());
        assert_eq!((next(&output.shared), output.dropped()), ((b"a5 a6.".to_vec(), 1), 1));
    }

    #[test]
    fn what_a_terminal_obeys_is_not_shown() {
        assert_eq!(shown("ä \u{1b}[2J\u{202e}x\u{2066}\u{61c}\n".as_bytes()), "ä �[2J�x���");
        assert_eq!(shown(&[0xff, b'a', b'\t', b'b']), "�a\tb");
        assert_eq!((shown(b"a\tb"), shown("ä\tb".as_bytes())), ("a\tb".into(), "ä\tb".into()));
    }
}
