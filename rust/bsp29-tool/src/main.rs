//! bsp29: may a map from a stranger be played, and if not, why and where?
//!
//! Every answer about a map comes from the safe crate `bsp29`, whose code beneath is proved. Here are
//! only the arguments, the words and the pictures.

#![forbid(unsafe_code)]

mod args;
mod commands;
mod entity;
mod failure;
mod faults;
mod file;
mod layout;
mod map;
mod out;
mod picture;
mod place;
mod pool;
mod rows;
mod text;
mod trees;
mod verdict;

use args::Args;
use clap::error::ErrorKind;
use clap::{CommandFactory, Parser};
use failure::Failure;
use std::process::ExitCode;

/// All that was asked is so: every map passes, two files are the same.
pub const YES: u8 = 0;
/// It is not so, or a call was refused, or a file could not be read or written.
pub const NO: u8 = 1;
/// The arguments are wrong.
pub const USAGE: u8 = 2;

fn main() -> ExitCode {
    let args = match Args::try_parse() {
        Ok(args) => args,
        Err(error) => return ExitCode::from(out::usage(&error)),
    };
    let json = args.json;
    ExitCode::from(commands::run(args).unwrap_or_else(|failure| end(&failure, json)))
}

/// Says what went wrong, and gives the status to end with.
fn end(failure: &Failure, json: bool) -> u8 {
    if let Failure::Usage(why) = failure {
        return out::usage(&Args::command().error(ErrorKind::ValueValidation, why));
    }
    out::failure(failure, json);
    NO
}
