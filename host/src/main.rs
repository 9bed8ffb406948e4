//! `mitrophel`: record lists of the 82810 hub written, read, replayed and explained on the command
//! line.

// But for the few C functions of `cli::system`.
#![deny(unsafe_code)]

mod cli;

use std::process::ExitCode;

fn main() -> ExitCode {
    cli::main()
}
