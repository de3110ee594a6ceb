//! A plain Rust program with the command line, input and output of `replay`, over ordered maps and
//! deques of the standard library. It is here to be timed, and nothing of it is proved.

pub mod codec;
pub mod engine;
pub mod hexa;
pub mod parse;
pub mod report;
pub mod sha;
