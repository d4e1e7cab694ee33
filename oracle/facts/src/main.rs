//! What the published Rust answers by itself. `oracle/run rust-facts` and `oracle/run notes` build and
//! start it.

mod extents;
mod facts;
mod loading;
mod marked;
mod notes;
mod records;
mod trials;
mod walks;

use std::process::exit;

/// `load` reserves room for every record that a file names.
#[global_allocator]
static ROOM: richter::room::Room = richter::room::Room;

fn main() {
    let right = match std::env::args().nth(1).as_deref() {
        Some("rust-facts") => facts::run(),
        Some("notes") => notes::run(),
        _ => {
            eprintln!("facts: rust-facts or notes");
            exit(2);
        }
    };
    if !right {
        exit(1);
    }
}
