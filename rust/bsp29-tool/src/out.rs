//! How answers are printed: as text or as JSON.

use crate::failure::Failure;
use crate::text::{ascii, plain_lines};
use serde::Serialize;
use std::io::{self, BufWriter, Write};

/// An answer of a command. Its fields are the keys of its JSON, which stay as they are.
pub trait Report: Serialize {
    /// The answer for a person.
    fn text(&self, out: &mut dyn Write) -> io::Result<()>;
}

/// Prints an answer to standard output.
pub fn print(report: &impl Report, json: bool) -> Result<(), Failure> {
    let mut out = BufWriter::new(io::stdout().lock());
    let written = match json {
        true => write_json(report, &mut out),
        false => report.text(&mut out),
    };
    written.and_then(|()| out.flush()).or_else(closed_is_fine)
}

/// A reader that closes the pipe (`bsp29 .. | head`) has had enough.
pub fn closed_is_fine(error: io::Error) -> Result<(), Failure> {
    match error.kind() {
        io::ErrorKind::BrokenPipe => Ok(()),
        _ => Err(Failure::Write(error)),
    }
}

/// Writes JSON in ASCII, as it is made: an answer may be long.
fn write_json(value: &impl Serialize, out: &mut dyn Write) -> io::Result<()> {
    serde_json::to_writer_pretty(InAscii(out), value)?;
    writeln!(out)
}

/// Hands JSON on in ASCII. What is written to it are whole parts of a text.
struct InAscii<'a>(&'a mut dyn Write);

impl Write for InAscii<'_> {
    fn write(&mut self, bytes: &[u8]) -> io::Result<usize> {
        let text = std::str::from_utf8(bytes).map_err(|_| io::ErrorKind::InvalidData)?;
        self.0.write_all(ascii(text).as_bytes())?;
        Ok(bytes.len())
    }

    fn flush(&mut self) -> io::Result<()> {
        self.0.flush()
    }
}

/// Says why a command has no answer: on standard error, or as JSON on standard output.
pub fn failure(failure: &Failure, json: bool) {
    // there is nobody left to tell where this fails, too
    let _ = match json {
        true => write_json(&failure.said(), &mut io::stdout()),
        false => writeln!(io::stderr(), "bsp29: {}", plain_lines(&failure.to_string())),
    };
}

/// Says what is wrong with the arguments, or prints the help that was asked for, and gives the status.
pub fn usage(error: &clap::Error) -> u8 {
    let said = plain_lines(&error.to_string());
    let _ = match error.use_stderr() {
        true => write!(io::stderr(), "{said}"),
        false => write!(io::stdout(), "{said}"),
    };
    match error.use_stderr() {
        true => crate::USAGE,
        false => crate::YES,
    }
}
