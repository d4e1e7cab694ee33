//! `check`: one verdict a map.

use crate::args::Check;
use crate::failure::Failure;
use crate::file;
use crate::out::{self, Report};
use crate::picture::page;
use crate::pool::{self, Asked, Done};
use crate::text::path_text;
use crate::verdict::{Verdict, Word};
use indicatif::{ProgressBar, ProgressStyle};
use serde::Serialize;
use std::collections::BTreeMap;
use std::io::{self, Write};
use std::num::NonZeroUsize;
use std::os::unix::ffi::OsStrExt;
use std::path::{Path, PathBuf};
use std::thread;
use std::time::Duration;

#[derive(Serialize)]
struct Verdicts {
    maps: Vec<Checked>,
    summary: Summary,
}

/// What is said of one map.
#[derive(Serialize)]
pub struct Checked {
    pub file: String,
    #[serde(flatten)]
    pub verdict: Verdict,
    /// The name of the picture that was drawn, in the directory of pictures.
    pub picture: Option<String>,
    /// Why none was, where one was due.
    pub no_picture: Option<String>,
}

#[derive(Default, Serialize)]
struct Summary {
    maps: usize,
    passed: usize,
    refused_on_loading: usize,
    refused_on_acceptance: usize,
    out_of_time: usize,
    not_read: usize,
    ended: usize,
}

impl Summary {
    fn count(&mut self, verdict: Word) {
        self.maps += 1;
        *match verdict {
            Word::Passes => &mut self.passed,
            Word::Load => &mut self.refused_on_loading,
            Word::Accept => &mut self.refused_on_acceptance,
            Word::Time => &mut self.out_of_time,
            Word::Unread => &mut self.not_read,
            Word::Ended => &mut self.ended,
        } += 1;
    }

    /// Every map passes, and there is one.
    fn status(&self) -> u8 {
        match self.maps > 0 && self.passed == self.maps {
            true => crate::YES,
            false => crate::NO,
        }
    }
}

/// Checks every map that is named.
pub fn run(args: &Check, json: bool) -> Result<u8, Failure> {
    let mut sheet = Sheet::new(args, json);
    if let Some(directory) = &args.pictures {
        std::fs::create_dir_all(directory).map_err(|error| Failure::file(directory, error))?;
    }
    let (asked, numbers) = sheet.ask(file::maps(&args.files));
    let jobs = args.jobs.map_or_else(processors, |jobs| jobs as usize);
    let limit = Duration::from_secs(args.seconds);
    let mut failed = Ok(());
    pool::all(&asked, jobs, limit, |at, done| {
        let written = sheet.take(numbers[at], done);
        if failed.is_ok() {
            failed = written;
        }
    });
    failed.or_else(out::closed_is_fine)?;
    sheet.end(args.pictures.as_deref())
}

fn processors() -> usize {
    thread::available_parallelism().map_or(1, NonZeroUsize::get)
}

/// The verdicts as they come, printed in the order of the maps.
struct Sheet {
    json: bool,
    quiet: bool,
    pictures: Option<PathBuf>,
    bar: ProgressBar,
    /// The name of each map, and of its picture.
    names: Vec<(String, Option<String>)>,
    /// Verdicts whose turn has not come.
    early: BTreeMap<usize, Checked>,
    /// Those that were printed.
    report: Verdicts,
}

impl Sheet {
    fn new(args: &Check, json: bool) -> Sheet {
        Sheet {
            json,
            quiet: args.quiet,
            pictures: args.pictures.clone(),
            bar: ProgressBar::hidden(),
            names: Vec::new(),
            early: BTreeMap::new(),
            report: Verdicts { maps: Vec::new(), summary: Summary::default() },
        }
    }

    /// What the workers are asked, each with its number; a directory that could not be read has its
    /// verdict already.
    fn ask(&mut self, found: Vec<Result<PathBuf, Failure>>) -> (Vec<Asked>, Vec<usize>) {
        let (mut asked, mut numbers) = (Vec::new(), Vec::new());
        for (number, map) in found.into_iter().enumerate() {
            match map {
                Ok(path) => {
                    let picture = self.pictures.as_ref().map(|_| page::name(number, &path));
                    let drawn = self.pictures.as_ref().zip(picture.as_ref());
                    let drawn = drawn.map(|(directory, name)| bytes(&directory.join(name)));
                    asked.push(Asked { path: bytes(&path), picture: drawn });
                    numbers.push(number);
                    self.names.push((path_text(&path), picture));
                }
                Err(failure) => {
                    self.names.push((failure.path(), None));
                    let verdict = Verdict::other(Word::Unread, failure.why());
                    self.early
                        .insert(number, self.checked(number, Done { verdict, picture: None }));
                }
            }
        }
        self.bar = bar(self.names.len());
        (asked, numbers)
    }

    fn checked(&self, number: usize, done: Done) -> Checked {
        let (file, name) = self.names[number].clone();
        let (picture, no_picture) = match done.picture {
            Some(Ok(())) => (name, None),
            Some(Err(why)) => (None, Some(why)),
            None => (None, None),
        };
        Checked { file, verdict: done.verdict, picture, no_picture }
    }

    /// Takes a verdict, and prints those whose turn has come.
    fn take(&mut self, number: usize, done: Done) -> io::Result<()> {
        self.early.insert(number, self.checked(number, done));
        self.bar.inc(1);
        self.print()
    }

    fn print(&mut self) -> io::Result<()> {
        while let Some(checked) = self.early.remove(&self.report.maps.len()) {
            self.report.summary.count(checked.verdict.verdict);
            let left_out = self.json || self.quiet && checked.verdict.passes();
            if !left_out {
                self.bar.suspend(|| line(&mut io::stdout().lock(), &checked))?;
            }
            self.report.maps.push(checked);
        }
        Ok(())
    }

    /// The page of pictures and the summary; the status.
    fn end(mut self, pictures: Option<&Path>) -> Result<u8, Failure> {
        self.print().or_else(out::closed_is_fine)?;
        self.bar.finish_and_clear();
        if let Some(directory) = pictures {
            page::write(directory, &self.report.maps)?;
        }
        out::print(&self.report, self.json)?;
        Ok(self.report.summary.status())
    }
}

fn bytes(path: &Path) -> Vec<u8> {
    path.as_os_str().as_bytes().to_vec()
}

/// A bar on standard error, if that is a terminal.
fn bar(maps: usize) -> ProgressBar {
    let bar = ProgressBar::new(maps as u64);
    match ProgressStyle::with_template("{bar:40} {pos} of {len} maps, {eta} left") {
        Ok(style) => bar.with_style(style),
        Err(_) => bar,
    }
}

fn line(out: &mut dyn Write, checked: &Checked) -> io::Result<()> {
    write!(out, "{:<8} {}", checked.verdict.verdict.shown(), checked.file)?;
    if let Some(reason) = checked.verdict.reason() {
        write!(out, ": {reason}")?;
    }
    if let Some(why) = &checked.no_picture {
        write!(out, " (no picture: {why})")?;
    }
    writeln!(out)
}

impl Report for Verdicts {
    /// The summary; the lines were printed as they came.
    fn text(&self, out: &mut dyn Write) -> io::Result<()> {
        let Summary { maps, passed, .. } = self.summary;
        if maps == 0 {
            return writeln!(out, "no map was found");
        }
        write!(out, "{maps} map{}: {passed} passed", if maps == 1 { "" } else { "s" })?;
        let others = [
            (self.summary.refused_on_loading, "refused on loading"),
            (self.summary.refused_on_acceptance, "refused on acceptance"),
            (self.summary.out_of_time, "out of time"),
            (self.summary.not_read, "not read"),
            (self.summary.ended, "ended without an answer"),
        ];
        for (count, what) in others.iter().filter(|(count, _)| *count > 0) {
            write!(out, ", {count} {what}")?;
        }
        writeln!(out)
    }
}
