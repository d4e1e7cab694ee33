//! What a command ends with where it has no answer.

use crate::text::path_text;
use bsp29::Refusal;
use serde::Serialize;
use std::fmt;
use std::io;
use std::path::Path;

/// Why a command has no answer.
#[derive(Debug)]
pub enum Failure {
    /// Arguments that fit no map or no format: status 2.
    Usage(String),
    /// A file that could not be read or written.
    File { path: String, why: String },
    /// A call that was refused.
    Refused { path: String, what: &'static str, refusal: Refusal },
    /// The answer could not be written.
    Write(io::Error),
}

impl Failure {
    /// A file that could not be read or written.
    pub fn file(path: &Path, why: impl fmt::Display) -> Failure {
        Failure::File { path: path_text(path), why: why.to_string() }
    }

    /// A call that was refused, and what was asked.
    pub fn refused(path: &Path, what: &'static str, refusal: Refusal) -> Failure {
        Failure::Refused { path: path_text(path), what, refusal }
    }

    /// The file that it is about.
    pub fn path(&self) -> String {
        self.said().error.file.unwrap_or_default()
    }

    /// Why, without the file's name.
    pub fn why(&self) -> String {
        match self {
            Failure::File { why, .. } => why.clone(),
            other => other.to_string(),
        }
    }

    /// The same for a program.
    pub fn said(&self) -> Said {
        let (file, number) = match self {
            Failure::Usage(_) | Failure::Write(_) => (None, None),
            Failure::File { path, .. } => (Some(path.clone()), None),
            Failure::Refused { path, refusal, .. } => (Some(path.clone()), Some(refusal.number())),
        };
        Said { error: Error { file, number, message: self.to_string() } }
    }
}

/// A failure as JSON says it.
#[derive(Serialize)]
pub struct Said {
    error: Error,
}

#[derive(Serialize)]
struct Error {
    file: Option<String>,
    number: Option<u32>,
    message: String,
}

impl fmt::Display for Failure {
    fn fmt(&self, f: &mut fmt::Formatter<'_>) -> fmt::Result {
        match self {
            Failure::Usage(why) => f.write_str(why),
            Failure::File { path, why } => write!(f, "{path}: {why}"),
            Failure::Refused { path, what, refusal } => {
                write!(f, "{path}: {what}: refused {}, {refusal}", refusal.number())
            }
            Failure::Write(error) => write!(f, "the answer could not be written: {error}"),
        }
    }
}

impl From<io::Error> for Failure {
    fn from(error: io::Error) -> Failure {
        Failure::Write(error)
    }
}
