//! `made-up`: a map made from a seed.

use crate::args::MadeUp;
use crate::failure::Failure;
use crate::file;
use crate::out::{self, Report};
use crate::text::path_text;
use serde::Serialize;
use std::io::{self, Write};

#[derive(Serialize)]
struct Written {
    file: String,
    seed: u32,
    nodes: usize,
    bytes: usize,
}

/// Makes the map and writes it.
pub fn run(args: &MadeUp, json: bool) -> Result<u8, Failure> {
    let bytes = bsp29::made_up(args.seed, args.nodes)
        .map_err(|refusal| Failure::refused(&args.output, "making a map up", refusal))?;
    file::write(&args.output, &bytes)?;
    let written = Written {
        file: path_text(&args.output),
        seed: args.seed,
        nodes: args.nodes,
        bytes: bytes.len(),
    };
    out::print(&written, json)?;
    Ok(crate::YES)
}

impl Report for Written {
    fn text(&self, out: &mut dyn Write) -> io::Result<()> {
        let Written { file, seed, nodes, bytes } = self;
        writeln!(out, "{file}: {bytes} bytes, {nodes} nodes from seed {seed}")
    }
}
