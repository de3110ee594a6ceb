//! The journal: a folder with two files for each author, of all messages of it that were delivered or broadcast.
//!
//! So a relay that was killed delivers none again, and still has what is on the lists. When the newer file has as many bytes as the
//! author's list may have, it becomes the older one: so both together have the whole list, and an author that writes much takes no
//! other's place. A file begins with the floor of the author's log, and what is listed that no file would have any more. Each record
//! has a checksum. A start reads floor and list, and nothing else.
//!
//! A message is written by one call before it is printed or passed on; the system is not told to sync. A kill of the process loses
//! nothing of it, a loss of power may lose the newest messages.

use crate::gossip::{self, Past, log_with_floor};
use crate::identity::PeerId;
use crate::message::{MAX_MESSAGE, Signed, hash};
use crate::of;
use broadcast_node::log::{AuthorLog, Message as Entry};
use bytes::Bytes;
use hex::FromHex;
use std::collections::BTreeSet;
use std::fs::{self, File, OpenOptions, TryLockError};
use std::io::{self, ErrorKind, Write};
use std::os::unix::fs::{DirBuilderExt, FileExt, MetadataExt, OpenOptionsExt};
use std::path::{Path, PathBuf};

/// Begins each file: what it is, and its version.
const MAGIC: &[u8; 8] = b"relay\0\0\x03";
const CHECK: usize = 8;
/// The head of a file: what it is, a floor, and zeros, where versions up to 0.5 have what was had above the floor.
const HEAD: usize = MAGIC.len() + 8 + 16 * 63 + CHECK;
/// A length and a checksum stand before each message.
const RECORD: usize = 4 + CHECK;

/// Makes the folder of a journal, and locks it for as long as the file lives: another relay would write into the same files.
pub fn lock_folder(folder: &Path) -> io::Result<File> {
    fs::DirBuilder::new().recursive(true).mode(0o700).create(folder).map_err(of(folder))?;
    let path = folder.join("lock");
    let file = private().open(&path).map_err(of(&path))?;
    file.try_lock().map_err(|why| match why {
        TryLockError::WouldBlock => of(folder)(io::Error::other("another relay uses this journal")),
        TryLockError::Error(why) => of(&path)(why),
    })?;
    Ok(file)
}

/// The older and the newer file of an author.
fn files(folder: &Path, author: &PeerId) -> [PathBuf; 2] {
    let newer = folder.join(hex::encode(author));
    [newer.with_extension("old"), newer]
}

/// To write files that only their owner may read.
fn private() -> OpenOptions {
    OpenOptions::new().write(true).create(true).mode(0o600).clone()
}

fn check(parts: &[&[u8]]) -> [u8; CHECK] {
    hash(parts).first_chunk().copied().unwrap_or_default()
}

/// What files have of an author: the floor of its log, and messages, in the order in which they came.
#[derive(Default)]
struct Found {
    floor: u64,
    messages: Vec<Signed>,
    /// The stamps, above the first and up to the second, that stood in damaged records.
    torn: Vec<(u64, u64)>,
}

/// The files of one author.
#[derive(Debug)]
pub struct Journal {
    older: PathBuf,
    newer: PathBuf,
    file: File,
    len: u64,
    most: u64,
    /// The floor and the list of what was written to any file. The handle of a message is the number of its file.
    log: AuthorLog,
    number: u64,
    /// The stamps that stood in damaged records when the files were opened.
    torn: Vec<(u64, u64)>,
}

/// Adds a message of a file to a log.
fn note(log: &mut AuthorLog, it: &Signed, number: u64) -> io::Result<()> {
    let (prev, stamp, bytes) = (it.prev, it.stamp, it.bytes.len() as u64);
    let entry = Entry { prev, stamp, bytes, handle: number };
    log.arrive(entry, u64::MAX, &mut Vec::new()).map(drop).map_err(io::Error::other)
}

impl Journal {
    /// Opens the files of an author, which may have some more than `most` bytes each. Returns besides what was had, in which the author
    /// has the number 0 until it is listed.
    pub fn open(folder: &Path, author: &PeerId, most: u64) -> io::Result<(Journal, Past)> {
        let [older, newer] = files(folder, author);
        let (mut found, mut in_older) = (Found::default(), 0);
        for path in [&older, &newer] {
            in_older = found.messages.len();
            if path.exists() {
                recover(path, &mut found).map_err(of(path))?;
            }
        }
        let mut log = log_with_floor(most, found.floor).map_err(io::Error::other)?;
        for (place, it) in found.messages.iter().enumerate() {
            note(&mut log, it, u64::from(place >= in_older))?;
        }
        found.floor = found.floor.max(log.floor());
        found.messages.retain(|it| it.stamp > found.floor && log.has(it.stamp));
        let file = private().open(&newer).map_err(of(&newer))?;
        let len = file.metadata()?.len();
        let torn = found.torn;
        let mut journal = Journal { older, newer, file, len, most, log, number: 1, torn };
        if len == 0 {
            journal.write(&head(found.floor))?;
        }
        let numbered = |it: Signed| {
            let (stamp, prev, bytes) = (it.stamp, it.prev, it.bytes);
            gossip::Message { author: 0, stamp, prev, bytes }
        };
        let messages = found.messages.into_iter().map(numbered).collect();
        Ok((journal, Past { floor: found.floor, messages }))
    }

    /// Whether a message may have stood in a damaged record, so that it was delivered before.
    pub fn may_have_had(&self, stamp: u64) -> bool {
        self.torn.iter().any(|&(after, upto)| after < stamp && stamp <= upto)
    }

    /// Appends messages, all or none.
    pub fn append(&mut self, messages: &[Signed]) -> io::Result<()> {
        if self.len >= self.most {
            self.rotate().map_err(of(&self.newer))?;
        }
        self.write(&records(messages))?;
        messages.iter().try_for_each(|it| note(&mut self.log, it, self.number))
    }

    /// Writes by one call, which a kill of the process leaves whole or undone. What an error leaves of it is cut off.
    fn write(&mut self, bytes: &[u8]) -> io::Result<()> {
        let there = self.file.metadata()?;
        if there.nlink() == 0 {
            tracing::warn!(file = %self.newer.display(), "deleted while the relay runs: begun anew");
            // What was had is in no file any more, and is not to be delivered again after the next start.
            let last = self.log.len().checked_sub(1).and_then(|it| self.log.get(it));
            self.begin(&head(last.map_or(self.log.floor(), |it| it.stamp)))
                .map_err(of(&self.newer))?;
        } else if there.len() != self.len {
            self.file.set_len(self.len)?;
        }
        self.file.write_all_at(bytes, self.len).map_err(of(&self.newer))?;
        self.len += bytes.len() as u64;
        Ok(())
    }

    /// Begins a new file with what is listed and in no other.
    fn rotate(&mut self) -> io::Result<()> {
        self.begin(&[head(self.log.floor()), records(&self.carried()?)].concat())
    }

    /// Begins a new file. Whenever it is cut short, the files that are there say what was had.
    fn begin(&mut self, bytes: &[u8]) -> io::Result<()> {
        let fresh = self.newer.with_extension("new");
        let file = private().truncate(true).open(&fresh)?;
        file.write_all_at(bytes, 0)?;
        match fs::rename(&self.newer, &self.older) {
            Err(why) if why.kind() != ErrorKind::NotFound => return Err(why),
            _ => fs::rename(&fresh, &self.newer)?,
        }
        (self.file, self.len, self.number) = (file, bytes.len() as u64, self.number + 1);
        Ok(())
    }

    /// What is listed and only in the older file, which goes: messages that came long before others of lesser stamps.
    fn carried(&self) -> io::Result<Vec<Signed>> {
        let is_older = |it: &Entry| it.handle < self.number;
        if !(0..self.log.len()).filter_map(|it| self.log.get(it)).any(|it| is_older(&it)) {
            return Ok(Vec::new());
        }
        let mut found = Found::default();
        if self.older.exists() {
            parse(&fs::read(&self.older)?, &mut found);
        }
        found.messages.retain(|it| self.log.find(it.stamp).is_some_and(|it| is_older(&it)));
        Ok(found.messages)
    }
}

/// The records of messages.
fn records(messages: &[Signed]) -> Vec<u8> {
    let mut records = Vec::new();
    for message in messages {
        let len = (message.bytes.len() as u32).to_be_bytes();
        records.extend(len);
        records.extend(check(&[&len, &message.bytes]));
        records.extend_from_slice(&message.bytes);
    }
    records
}

fn head(floor: u64) -> Vec<u8> {
    let mut head = MAGIC.to_vec();
    head.extend(floor.to_be_bytes());
    head.resize(HEAD - CHECK, 0);
    let check = check(&[&head]);
    head.extend(check);
    head
}

/// Calls `each` with the messages of all authors in a folder, until it fails.
pub fn read(folder: &Path, mut each: impl FnMut(Signed) -> io::Result<()>) -> io::Result<()> {
    let mut authors = BTreeSet::new();
    for it in fs::read_dir(folder).map_err(of(folder))? {
        authors.extend(it?.path().file_stem().and_then(|it| <PeerId>::from_hex(it.to_str()?).ok()));
    }
    for file in authors.iter().flat_map(|it| files(folder, it)).filter(|it| it.exists()) {
        let mut found = Found::default();
        parse(&fs::read(&file).map_err(of(&file))?, &mut found);
        found.messages.into_iter().try_for_each(&mut each)?;
    }
    Ok(())
}

/// Reads a file. What cannot be read is kept aside and cut off, or passed over if it is one record.
fn recover(path: &Path, found: &mut Found) -> io::Result<()> {
    let bytes = fs::read(path)?;
    let (whole, wrong) = parse(&bytes, found);
    let cut = bytes.len() - whole;
    if cut == 0 && wrong == 0 {
        return Ok(());
    }
    let (file, aside) = (path.display(), format!("{}.damaged", path.display()));
    tracing::warn!(%file, wrong, cut, kept = aside, "damaged records or bytes at the end");
    private().truncate(true).open(&aside)?.write_all(&bytes)?;
    if cut > 0 {
        OpenOptions::new().write(true).open(path)?.set_len(whole as u64)?;
    }
    Ok(())
}

/// Returns how many bytes of a file are whole records, and how many of these are wrong.
fn parse(bytes: &[u8], found: &mut Found) -> (usize, usize) {
    let Some(head) = bytes.get(..HEAD).filter(|it| it.starts_with(MAGIC)) else { return (0, 0) };
    let floor = parse_head(head);
    found.floor = found.floor.max(floor.unwrap_or(0));
    let (mut at, mut wrong) = (HEAD, usize::from(floor.is_none()));
    let mut parsed = (at, wrong);
    let (mut before, mut is_torn) =
        (found.messages.last().map_or(found.floor, |it| it.stamp), false);
    // Wrong records at the end may be no records at all. Behind a wrong one, the next may begin anywhere, also within a text of the
    // author: so from there on it counts only with a signature.
    let mut is_sure = true;
    while at < bytes.len() {
        match parse_record(bytes, at).filter(|(it, _)| is_sure || it.is_signed()) {
            Some((message, end)) => {
                if std::mem::take(&mut is_torn) {
                    found.torn.push((before, message.prev));
                }
                before = message.stamp;
                found.messages.push(message);
                at = end;
                parsed = (at, wrong);
            }
            None => {
                wrong += usize::from(is_sure);
                (at, is_sure, is_torn) = (at + 1, false, true);
            }
        }
    }
    parsed
}

fn parse_head(head: &[u8]) -> Option<u64> {
    let (rest, found) = head.split_last_chunk::<CHECK>()?;
    let (floor, _) = rest.strip_prefix(MAGIC)?.split_first_chunk()?;
    (*found == check(&[rest])).then(|| u64::from_be_bytes(*floor))
}

/// Reads the record at a place. Returns the message, if it is whole, and where the record ends.
fn parse_record(bytes: &[u8], at: usize) -> Option<(Signed, usize)> {
    let (len, rest) = bytes.get(at..)?.split_first_chunk::<4>()?;
    let (found, rest) = rest.split_first_chunk::<CHECK>()?;
    let message = rest.get(..u32::from_be_bytes(*len) as usize)?;
    if message.len() > MAX_MESSAGE {
        return None;
    }
    let end = at + RECORD + message.len();
    let is_whole = *found == check(&[len, message]);
    let message = is_whole.then(|| Signed::decode(Bytes::copy_from_slice(message)).ok()).flatten();
    message.map(|it| (it, end))
}

#[cfg(test)]
mod tests {
    use super::*;
    use crate::identity::Identity;
    use std::os::unix::fs::PermissionsExt;

    const MOST: u64 = 10_000;

    fn folder(name: &str) -> PathBuf {
        let folder = std::env::temp_dir().join(format!("{name}-{}", std::process::id()));
        let _ = fs::remove_dir_all(&folder);
        fs::create_dir_all(&folder).unwrap();
        folder
    }

    fn message(author: &Identity, stamp: u64) -> Vec<Signed> {
        Signed::batch(author, (stamp - 1, stamp), &[vec![7; 500]]).unwrap()
    }

    fn stamps(past: &Past) -> Vec<u64> {
        past.messages.iter().map(|it| it.stamp).collect()
    }

    #[test]
    fn a_journal_has_a_whole_list_and_no_more_than_two() {
        let (folder, author) = (folder("journal-rotates"), Identity::generate().unwrap());
        for round in 1..=300 {
            // It is opened anew now and then, as after a kill.
            let (mut journal, past) = Journal::open(&folder, &author.id, MOST).unwrap();
            for more in 0..7 {
                journal.append(&message(&author, round * 7 + more)).unwrap();
            }
            if round > 1 {
                assert!(round < 5 || past.floor > 0);
                assert!(
                    stamps(&past).is_sorted() && stamps(&past).last() == Some(&(round * 7 - 1))
                );
                let bytes: usize = past.messages.iter().map(|it| it.bytes.len()).sum();
                assert!(bytes <= MOST as usize && (round < 5 || bytes >= 8_500), "{bytes}");
                let files = fs::read_dir(&folder).unwrap();
                let bytes: u64 = files.map(|it| it.unwrap().metadata().unwrap().len()).sum();
                assert!(bytes <= 2 * (MOST + 700), "{bytes}");
            }
        }
        fs::remove_dir_all(&folder).unwrap();
    }

    #[test]
    fn a_kill_within_a_rotation_forgets_nothing() {
        let (folder, author) = (folder("journal-killed"), Identity::generate().unwrap());
        let (mut journal, _) = Journal::open(&folder, &author.id, MOST).unwrap();
        let mut last = 0;
        while last < 50 || journal.len < MOST {
            last += 1;
            journal.append(&message(&author, last)).unwrap();
        }
        let file = folder.join(hex::encode(author.id));
        // Between the two steps, and with a new file that has no head yet.
        fs::rename(&file, file.with_extension("old")).unwrap();
        let (_, past) = Journal::open(&folder, &author.id, MOST).unwrap();
        let is_whole = |past: &Past, upto| stamps(past).into_iter().eq(past.floor + 1..=upto);
        assert!(past.floor > last - 16 && is_whole(&past, last));
        fs::write(&file, [0; 20]).unwrap();
        let (mut journal, past) = Journal::open(&folder, &author.id, MOST).unwrap();
        assert!(past.floor > last - 16 && is_whole(&past, last));
        journal.append(&message(&author, last + 1)).unwrap();
        let (_, past) = Journal::open(&folder, &author.id, MOST).unwrap();
        assert!(past.floor > last - 16 && is_whole(&past, last + 1));
        fs::remove_dir_all(&folder).unwrap();
    }

    /// It came long before others of lesser stamps, so the file that it was written to is gone.
    #[test]
    fn what_is_listed_is_in_a_file() {
        let (folder, author) = (folder("journal-early"), Identity::generate().unwrap());
        let (mut journal, _) = Journal::open(&folder, &author.id, MOST).unwrap();
        journal.append(&message(&author, 1_000)).unwrap();
        (1..=300).for_each(|it| journal.append(&message(&author, it)).unwrap());
        let (_, past) = Journal::open(&folder, &author.id, MOST).unwrap();
        assert!(past.floor > 280 && stamps(&past).contains(&1_000));
        fs::remove_dir_all(&folder).unwrap();
    }

    #[test]
    fn a_rotation_that_fails_is_tried_again() {
        let (folder, author) = (folder("journal-refused"), Identity::generate().unwrap());
        let (mut journal, _) = Journal::open(&folder, &author.id, MOST).unwrap();
        let mut stamp = 0;
        let mut append = || {
            stamp += 1;
            journal.append(&message(&author, stamp))
        };
        (0..15).for_each(|_| append().unwrap());
        // As where no descriptor is left, or the disk is full.
        let fresh = folder.join(hex::encode(author.id)).with_extension("new");
        fs::create_dir(&fresh).unwrap();
        assert!(append().unwrap_err().to_string().contains(&hex::encode(author.id)));
        fs::remove_dir(&fresh).unwrap();
        (0..9).for_each(|_| append().unwrap());
        let (_, past) = Journal::open(&folder, &author.id, MOST).unwrap();
        assert_eq!(stamps(&past).last(), Some(&25));
        let is_private = |it: fs::DirEntry| it.metadata().unwrap().permissions().mode() & 0o77 == 0;
        assert!(fs::read_dir(&folder).unwrap().all(|it| is_private(it.unwrap())));
        fs::remove_dir_all(&folder).unwrap();
    }

    #[test]
    fn what_is_damaged_is_kept_aside_and_the_rest_is_read() {
        let (folder, author) = (folder("journal-damaged"), Identity::generate().unwrap());
        let (mut journal, _) = Journal::open(&folder, &author.id, 1 << 20).unwrap();
        (1..=5).for_each(|it| journal.append(&message(&author, it)).unwrap());
        let file = folder.join(hex::encode(author.id));
        let good = fs::read(&file).unwrap();
        let record = (good.len() - HEAD) / 5;
        let second = HEAD + record;
        // A bit of the second text, of its stamp, and of its length; an unfinished end; another version.
        for (at, len, left) in [
            (second + record - 9, good.len(), &[1, 3, 4, 5][..]),
            (second + RECORD + 103, good.len(), &[1, 3, 4, 5]),
            (second + 1, good.len(), &[1, 3, 4, 5]),
            (good.len(), good.len() - 3, &[1, 2, 3, 4]),
            (MAGIC.len() - 1, good.len(), &[]),
        ] {
            let mut bytes = good.clone();
            bytes.iter_mut().skip(at).take(1).for_each(|it| *it ^= 4);
            bytes.truncate(len);
            fs::write(&file, &bytes).unwrap();
            let (mut journal, past) = Journal::open(&folder, &author.id, 1 << 20).unwrap();
            assert_eq!(stamps(&past), left);
            assert_eq!(fs::read(file.with_extension("damaged")).unwrap(), bytes);
            journal.append(&message(&author, 9)).unwrap();
            let (_, past) = Journal::open(&folder, &author.id, 1 << 20).unwrap();
            assert_eq!(stamps(&past), [left, &[9]].concat());
        }
        fs::remove_dir_all(&folder).unwrap();
    }

    /// Behind damage a record may stand within a text, as its author likes.
    #[test]
    fn what_stands_in_a_text_is_read_only_with_a_signature() {
        let (folder, author) = (folder("journal-nested"), Identity::generate().unwrap());
        let record = |bytes: &[u8]| {
            let len = (bytes.len() as u32).to_be_bytes();
            [&len[..], &check(&[&len, bytes]), bytes].concat()
        };
        let mut forged = message(&author, 7)[0].bytes.to_vec();
        forged[0] ^= 1;
        let text = record(&forged);
        let (mut journal, _) = Journal::open(&folder, &author.id, 1 << 20).unwrap();
        journal.append(&Signed::batch(&author, (1, 2), &[text]).unwrap()).unwrap();
        journal.append(&message(&author, 3)).unwrap();
        let file = folder.join(hex::encode(author.id));
        let mut bytes = fs::read(&file).unwrap();
        bytes[HEAD + 1] ^= 4;
        fs::write(&file, &bytes).unwrap();
        let (_, past) = Journal::open(&folder, &author.id, 1 << 20).unwrap();
        assert_eq!(stamps(&past), [3]);
        fs::remove_dir_all(&folder).unwrap();
    }

    #[test]
    fn a_folder_has_one_relay() {
        let folder = folder("journal-locked");
        let lock = lock_folder(&folder).unwrap();
        assert!(lock_folder(&folder).unwrap_err().to_string().contains("another relay"));
        drop(lock);
        assert!(lock_folder(&folder).is_ok());
        fs::remove_dir_all(&folder).unwrap();
    }
}
