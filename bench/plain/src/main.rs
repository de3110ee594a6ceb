//! `replay_plain OWN SIZE [MAX [BUDGET]]`: the command line, the input and the output of `replay`.

use replay_plain::engine::{Engine, Limits};
use replay_plain::{parse, report};
use std::io::{self, Read};
use std::process::ExitCode;

fn fault(text: &str, status: u8) -> ExitCode {
    eprintln!("{text}");
    ExitCode::from(status)
}

fn main() -> ExitCode {
    let numbers: Option<Vec<u64>> = std::env::args_os()
        .skip(1)
        .map(|word| parse::number(word.as_encoded_bytes()))
        .collect();
    let (own, size, limits) = match numbers.as_deref() {
        Some([own, size, limits @ ..]) if limits.len() <= 2 => (*own, *size, limits),
        _ => return fault("usage: replay OWN SIZE [MAX [BUDGET]]", 2),
    };
    let longest = limits.first().copied().unwrap_or(u64::MAX);
    let limits = Limits {
        digests: size as usize,
        bytes: limits.get(1).copied().unwrap_or(u64::MAX),
    };
    let mut input = Vec::new();
    if io::stdin().lock().read_to_end(&mut input).is_err() {
        return fault("read failed", 3);
    }
    let events = match parse::events(&input) {
        Ok(events) => events,
        Err(line) => return fault(&format!("line {line}: syntax"), 2),
    };
    drop(input);
    let mut engine = Engine::new(own, limits, longest);
    let answers = engine.run(events);
    if report::write(UnbufferedStdout, answers, &engine).is_err() {
        return fault("write failed", 3);
    }
    // The system frees what the process holds, which is no part of the work.
    std::mem::forget(engine);
    ExitCode::SUCCESS
}

/// Standard output without the line buffer of `std::io::stdout`: it is written in large pieces.
struct UnbufferedStdout;

impl io::Write for UnbufferedStdout {
    fn write(&mut self, bytes: &[u8]) -> io::Result<usize> {
        use std::mem::ManuallyDrop;
        use std::os::fd::FromRawFd;
        // SAFETY: descriptor 1 is open for the whole run and is not closed here.
        let mut out = ManuallyDrop::new(unsafe { std::fs::File::from_raw_fd(1) });
        out.write(bytes)
    }

    fn flush(&mut self) -> io::Result<()> {
        Ok(())
    }
}
