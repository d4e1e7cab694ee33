//! One module a command.

mod at;
mod check;
mod diff;
mod entities;
mod info;
mod made_up;
mod picture;
mod records;
mod textures;
mod trace;
mod tree;
mod vis;
mod why;
mod worker;

pub use check::Checked;

use crate::args::{Args, Command};
use crate::failure::Failure;

/// Runs a command and gives the status to end with.
pub fn run(args: Args) -> Result<u8, Failure> {
    let json = args.json;
    match args.command {
        Command::Info(args) => info::run(&args, json),
        Command::Check(args) => check::run(&args, json),
        Command::Why(args) => why::run(&args, json),
        Command::Entities(args) => entities::run(&args, json),
        Command::Records(args) => records::run(&args, json),
        Command::At(args) => at::run(&args, json),
        Command::Trace(args) => trace::run(&args, json),
        Command::Tree(args) => tree::run(&args, json),
        Command::Vis(args) => vis::run(&args, json),
        Command::Textures(args) => textures::run(&args, json),
        Command::MadeUp(args) => made_up::run(&args, json),
        Command::Diff(args) => diff::run(&args, json),
        Command::Picture(args) => picture::run(&args, json),
        Command::Worker => worker::run(),
    }
}
