//! The command line tool `hailfeather`.
#![forbid(unsafe_code)]

mod answer;
mod args;
mod command;
mod draw;
mod failure;
mod hall;
mod halls;
mod hash;
mod help;
mod hex;
mod input;
mod lines;
mod options;
mod output;
mod plan;
mod rows;
mod seal;
mod target;

use failure::Failure;
use std::env;
use std::ffi::OsString;
use std::io::{self, Write};
use std::process::ExitCode;

fn main() -> ExitCode {
    let words: Vec<OsString> = env::args_os().skip(1).collect();
    let Err((failure, command)) = command::run(&words) else {
        return ExitCode::SUCCESS;
    };
    let mut said = format!("{failure}\n");
    if let Failure::Usage(_) = failure {
        said += &format!("hailfeather: {} --help says more\n", format!("hailfeather {command}").trim_end());
    }
    // Where standard error is closed the status still tells.
    let _ = io::stderr().write_all(said.as_bytes());
    ExitCode::from(failure.status())
}
