//! The command `release`: asks the proved calls about record files, and turns records into text and back.
#![forbid(unsafe_code)]

mod command;

use std::process::ExitCode;

fn main() -> ExitCode {
    ExitCode::from(command::run(std::env::args_os().skip(1).collect()))
}
