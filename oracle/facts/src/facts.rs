//! The trials of document 01, and facts that its text states, as the published Rust answers them.
//! A disagreement is printed with both answers.

use crate::extents::extents;
use crate::loading::loading;
use crate::marked::marked;
use crate::records::{planes, records};
use crate::trials::Trials;
use crate::walks::{visibility, walks};

pub fn run() -> bool {
    let mut trials = Trials { run: 0, wrong: 0 };
    println!("trials (marked ones are proved about the definitions too)");
    marked(&mut trials);
    println!("loading");
    loading(&mut trials);
    println!("extents");
    extents(&mut trials);
    println!("records");
    records(&mut trials);
    println!("planes");
    planes(&mut trials);
    println!("hulls, walks and traces");
    walks(&mut trials);
    println!("visibility");
    visibility(&mut trials);
    println!("{} trials, {} disagree", trials.run, trials.wrong);
    trials.wrong == 0
}
