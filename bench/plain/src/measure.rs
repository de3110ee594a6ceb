//! `measure IN OUT PROGRAM WORD..` runs a program once, and prints on one line its status, its
//! processor time in microseconds and its peak of resident memory in KiB.
//!
//! It is a small program so that the peak is the child's: a child begins with the peak of the
//! process that started it, and that of a script's interpreter hides the peak of a small program.

use std::fs::File;
use std::process::{Command, ExitCode};

#[repr(C)]
struct Usage {
    /// Seconds and microseconds, of the program and of the system for it.
    times: [i64; 4],
    peak_kib: i64,
    others: [i64; 13],
}

unsafe extern "C" {
    fn getrusage(who: i32, usage: *mut Usage) -> i32;
}

const CHILDREN: i32 = -1;

fn main() -> ExitCode {
    let mut words = std::env::args_os().skip(1);
    let (Some(input), Some(output), Some(program)) = (words.next(), words.next(), words.next())
    else {
        eprintln!("usage: measure IN OUT PROGRAM WORD..");
        return ExitCode::from(2);
    };
    let mut command = Command::new(program);
    command.args(words);
    command.stdin(File::open(input).expect("the input opens"));
    command.stdout(File::create(output).expect("the output opens"));
    let status = command.status().expect("the program starts");
    let mut usage = Usage {
        times: [0; 4],
        peak_kib: 0,
        others: [0; 13],
    };
    // SAFETY: `usage` has the layout that the call fills.
    unsafe { getrusage(CHILDREN, &mut usage) };
    let _ = usage.others;
    let [user, user_micros, system, system_micros] = usage.times;
    let micros = (user + system) * 1_000_000 + user_micros + system_micros;
    println!("{} {} {}", status.code().unwrap_or(-1), micros, usage.peak_kib);
    ExitCode::SUCCESS
}
