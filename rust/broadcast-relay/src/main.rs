//! The program `broadcast-relay`: its command line.

use broadcast_relay::commands;
use clap::{CommandFactory, Parser, Subcommand};
use clap_complete::Shell;
use std::io;
use std::net::SocketAddr;
use std::path::PathBuf;
use std::process::ExitCode;

/// A gossip relay over mutual TLS.
#[derive(Parser)]
#[command(version, after_help = STATUSES)]
struct Arguments {
    #[command(subcommand)]
    command: Command,
}

const STATUSES: &str = "Exit status: 0 after success, or once a signal has ended a relay; 1 after an error, which is printed; \
2 if the command line is wrong.";

#[derive(Subcommand)]
enum Command {
    /// Run a relay until SIGTERM or SIGINT. SIGHUP reads the peers of the configuration again.
    ///
    /// Each message of a peer is printed once, as `AUTHOR STAMP TEXT`. RUST_LOG sets what is logged to standard error.
    Run {
        /// The configuration, a TOML file. Paths in it are relative to its folder.
        config: PathBuf,
        /// Check the configuration, say what memory and descriptors it takes, and end.
        #[arg(long)]
        check_config: bool,
    },
    /// Make a folder with a key and a configuration.
    Init {
        /// The new folder, whose name becomes the name of the relay.
        folder: PathBuf,
        /// Where the relay listens: an IP address and a port.
        #[arg(long, value_name = "ADDRESS")]
        listen: SocketAddr,
        /// The folder of another relay on this machine: each becomes a peer of the other.
        #[arg(long, value_name = "FOLDER")]
        with: Vec<PathBuf>,
    },
    /// Make a key in a new file, and print it as peers name it.
    Keygen {
        /// The new file, which only its owner may read.
        file: PathBuf,
    },
    /// Print a key as peers name it.
    Key {
        /// A file of `keygen` or `init`.
        file: PathBuf,
    },
    /// Print what the configurations of other relays need to name this one.
    Entry {
        /// The configuration of this relay.
        config: PathBuf,
        /// What the others call it: a word without quotes.
        name: String,
    },
    /// Print the messages of a journal, as `AUTHOR STAMP TEXT`, where AUTHOR is a key.
    Log {
        /// The folder of the journal.
        journal: PathBuf,
        /// Print lines `AUTHOR STAMP LENGTH`, and behind each the bytes as they were typed.
        #[arg(long)]
        raw: bool,
    },
    /// Print the completions of a shell.
    Completions {
        /// Whose completions.
        shell: Shell,
    },
}

fn main() -> ExitCode {
    match run(Arguments::parse().command) {
        Ok(()) => ExitCode::SUCCESS,
        // Whoever reads what is printed has seen enough.
        Err(why) if why.kind() == io::ErrorKind::BrokenPipe => ExitCode::SUCCESS,
        Err(why) => {
            eprintln!("broadcast-relay: {why}");
            ExitCode::FAILURE
        }
    }
}

fn run(command: Command) -> io::Result<()> {
    let out = &mut io::stdout().lock();
    match command {
        Command::Run { config, check_config: false } => commands::run(&config),
        Command::Run { config, check_config: true } => commands::check(&config, out),
        Command::Init { folder, listen, with } => commands::init(&folder, listen, &with, out),
        Command::Keygen { file } => commands::keygen(&file, out),
        Command::Key { file } => commands::key(&file, out),
        Command::Entry { config, name } => commands::entry(&config, &name, out),
        Command::Log { journal, raw } => commands::log(&journal, raw, out),
        Command::Completions { shell } => {
            let mut page = Vec::new();
            clap_complete::generate(shell, &mut Arguments::command(), "broadcast-relay", &mut page);
            io::Write::write_all(out, &page)
        }
    }
}

#[cfg(test)]
mod tests {
    use super::*;

    #[test]
    fn each_command_and_argument_has_a_text_and_a_place_in_the_manual() {
        let manual = include_str!("../man/broadcast-relay.1");
        assert!(manual.contains(concat!("broadcast-relay ", env!("CARGO_PKG_VERSION"), "\"")));
        for command in Arguments::command().get_subcommands() {
            let name = command.get_name();
            assert!(manual.contains(&format!("\n.BI {name} \"")), "{name} is not in the manual");
            for argument in command.get_arguments() {
                let id = argument.get_id();
                assert!(argument.get_help().is_some(), "{name} {id} has no text");
                let word = match argument.get_long() {
                    Some(long) => format!("--{long}"),
                    None => id.as_str().to_uppercase(),
                };
                assert!(manual.contains(&word), "{name} {word} is not in the manual");
            }
        }
        assert!(["0", "1", "2"].iter().all(|it| manual.contains(&format!("\n.B {it}\n"))));
    }
}
