//! `worker`: the other end of `pool`, started by `check`.

use crate::failure::Failure;
use crate::map::Source;
use crate::picture;
use crate::pool::{Answer, Asked};
use crate::verdict::{judge, Verdict, Word};
use std::ffi::OsString;
use std::io::{self, BufRead, Write};
use std::os::unix::ffi::OsStringExt;
use std::path::{Path, PathBuf};

/// Answers one line after the other until the input ends.
pub fn run() -> Result<u8, Failure> {
    for line in io::stdin().lock().lines() {
        let asked: Asked = serde_json::from_str(&line?)
            .map_err(|error| Failure::Usage(format!("worker is for check alone: {error}")))?;
        let picture = asked.picture.map(path);
        look(&path(asked.path), picture.as_deref())?;
    }
    Ok(crate::YES)
}

fn path(bytes: Vec<u8>) -> PathBuf {
    PathBuf::from(OsString::from_vec(bytes))
}

/// Looks at one map.
fn look(map: &Path, drawn: Option<&Path>) -> Result<(), Failure> {
    let source = match Source::read(map) {
        Ok(source) => source,
        Err(failure) => return unread(&failure, drawn),
    };
    let judged = judge(&source.bytes);
    answer(&Answer::Verdict(judged.verdict.clone()))?;
    match drawn {
        Some(drawn) if !judged.verdict.passes() => {
            let failed = picture::of_fault(&source, &judged, drawn).err();
            answer(&Answer::Picture(failed.map(|failure| failure.to_string())))
        }
        _ => Ok(()),
    }
}

fn unread(failure: &Failure, drawn: Option<&Path>) -> Result<(), Failure> {
    answer(&Answer::Verdict(Verdict::other(Word::Unread, failure.why())))?;
    match drawn {
        Some(_) => answer(&Answer::Picture(Some("the file was not read".to_string()))),
        None => Ok(()),
    }
}

fn answer(answer: &Answer) -> Result<(), Failure> {
    let line = serde_json::to_string(answer).map_err(io::Error::from)?;
    let mut out = io::stdout().lock();
    writeln!(out, "{line}")?;
    Ok(out.flush()?)
}
