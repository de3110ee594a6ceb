//! What the commands of the program do. Each writes what it prints to its last argument.

use crate::config::{Config, check_name};
pub use crate::daemon::run;
use crate::identity::{Identity, may_others_read};
use crate::journal;
use crate::output::{self, Form};
use crate::{invalid, of};
use std::fs::{self, File};
use std::io::{self, ErrorKind, Write};
use std::net::SocketAddr;
use std::path::{self, Path, PathBuf};

/// The names of the files in a folder that `init` makes.
const KEY: &str = "key.pem";
const CONFIG: &str = "relay.toml";

/// Makes a key and a configuration in a folder, and names it and others to each other. Nothing is made before all names and
/// configurations are known to be right.
pub fn init(
    folder: &Path,
    listen: SocketAddr,
    with: &[PathBuf],
    out: &mut impl Write,
) -> io::Result<()> {
    let (own, identity) = (name(folder)?, Identity::generate()?);
    let [key, config] = [KEY, CONFIG].map(|it| folder.join(it));
    if let Some(old) = [&key, &config].into_iter().find(|it| it.exists()) {
        return Err(of(old)(ErrorKind::AlreadyExists.into()));
    }
    let mut text = format!(
        "key = \"{KEY}\"\nlisten = \"{listen}\"\n# metrics = \"127.0.0.1:9101\"\njournal = \"journal\"\ninput = true\n"
    );
    let entry = Config::parse(&text).map_err(invalid)?.entry_of(&own, &identity);
    for other in with {
        let file = other.join(CONFIG);
        text += &format!("\n{}", Config::load(&file)?.entry(&name(other)?)?);
        let theirs = format!("{}\n{entry}", fs::read_to_string(&file)?);
        Config::parse(&theirs).map_err(invalid).map_err(of(&file))?;
    }
    Config::parse(&text).map_err(invalid).map_err(of(&config))?;
    fs::create_dir_all(folder).map_err(of(folder))?;
    identity.save(&key)?;
    File::create_new(&config)?.write_all(text.as_bytes())?;
    for file in with.iter().map(|it| it.join(CONFIG)) {
        let mut theirs = File::options().append(true).open(&file)?;
        theirs.write_all(format!("\n{entry}").as_bytes())?;
        eprintln!(
            "{own} is a peer in {} now: a relay that runs reads it after SIGHUP",
            file.display()
        );
    }
    eprintln!("to run it: broadcast-relay run {}", config.display());
    write!(out, "{entry}")
}

/// The name of the relay in a folder, which need not exist.
fn name(folder: &Path) -> io::Result<String> {
    let path = fs::canonicalize(folder).or_else(|_| path::absolute(folder))?;
    let name = path.file_name().unwrap_or_default().to_string_lossy();
    check_name(&name).map(|()| name.into_owned()).map_err(invalid)
}

/// Makes a key in a new file, and prints it as peers name it.
pub fn keygen(file: &Path, out: &mut impl Write) -> io::Result<()> {
    let identity = Identity::generate()?;
    identity.save(file)?;
    writeln!(out, "{}", hex::encode(identity.id))
}

/// Prints the key of a file as peers name it.
pub fn key(file: &Path, out: &mut impl Write) -> io::Result<()> {
    writeln!(out, "{}", hex::encode(Identity::load(file)?.id))
}

/// Prints what the configurations of other relays need to name that of a configuration.
pub fn entry(file: &Path, name: &str, out: &mut impl Write) -> io::Result<()> {
    check_name(name).map_err(invalid)?;
    write!(out, "{}", Config::load(file)?.entry(name)?)
}

/// Checks a configuration, and prints what it takes.
pub fn check(file: &Path, out: &mut impl Write) -> io::Result<()> {
    let config = Config::load(file)?;
    let id = Identity::load(&config.key)?.id;
    if config.peers.iter().any(|it| it.key == id) {
        return Err(of(file)(io::Error::other("the own key is among the peers")));
    }
    if may_others_read(&config.key)? {
        eprintln!("{}: others may read this key", config.key.display());
    }
    writeln!(out, "peers: {}", config.peers.len())?;
    writeln!(out, "memory: at most {} MiB", config.memory_bound() >> 20)?;
    writeln!(out, "descriptors: at most {}", config.descriptors())
}

/// Prints the messages of a journal, as `AUTHOR STAMP TEXT`, or as they were typed.
pub fn log(folder: &Path, is_raw: bool, out: &mut impl Write) -> io::Result<()> {
    let form = if is_raw { Form::Raw } else { Form::Shown };
    journal::read(folder, |it| out.write_all(&output::line(form, &hex::encode(it.author), &it)))
}
