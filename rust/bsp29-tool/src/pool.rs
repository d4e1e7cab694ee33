//! Maps looked at side by side, each in a process of its own that can be ended: a crafted file can
//! make loading or acceptance take long, and a thread cannot be stopped.
//!
//! A worker is this program itself (`bsp29 worker`). It is asked by lines of JSON on its standard
//! input and answers on its standard output, one map after the other. One that does not answer in
//! time is ended, and another takes its place.

use crate::verdict::{Verdict, Word};
use serde::{Deserialize, Serialize};
use std::env;
use std::io::{self, BufRead, BufReader, Write};
use std::process::{Child, ChildStdin, Command, Stdio};
use std::sync::atomic::{AtomicUsize, Ordering};
use std::sync::mpsc::{self, Receiver, RecvTimeoutError, Sender};
use std::thread;
use std::time::Duration;

/// What a worker is asked. Names of files are bytes, of any kind.
#[derive(Clone, Serialize, Deserialize)]
pub struct Asked {
    pub path: Vec<u8>,
    /// Where to draw a picture if the map does not pass.
    pub picture: Option<Vec<u8>>,
}

/// A line of a worker's answer: the verdict, and after it what became of the picture, if one was
/// asked for and the map does not pass.
#[derive(Serialize, Deserialize)]
pub enum Answer {
    Verdict(Verdict),
    /// None if it was drawn, else why it was not.
    Picture(Option<String>),
}

/// What came of a map.
pub struct Done {
    pub verdict: Verdict,
    /// Whether a picture was drawn, or why it was not; none where none was due.
    pub picture: Option<Result<(), String>>,
}

/// Asks about every map, with so many workers, and gives each answer with its number to `done`, in the
/// order in which they come.
pub fn all(asked: &[Asked], jobs: usize, limit: Duration, mut done: impl FnMut(usize, Done)) {
    let next = AtomicUsize::new(0);
    let (sender, receiver) = mpsc::channel();
    thread::scope(|scope| {
        for _ in 0..jobs.min(asked.len()) {
            let (next, sender) = (&next, sender.clone());
            scope.spawn(move || drive(asked, next, limit, &sender));
        }
        drop(sender);
        for (number, answer) in receiver {
            done(number, answer);
        }
    });
}

/// Takes one map after the other until none is left.
fn drive(asked: &[Asked], next: &AtomicUsize, limit: Duration, sender: &Sender<(usize, Done)>) {
    let mut worker = None;
    loop {
        let number = next.fetch_add(1, Ordering::Relaxed);
        let Some(map) = asked.get(number) else { return };
        let done = one(&mut worker, map, limit);
        if sender.send((number, done)).is_err() {
            return;
        }
    }
}

/// Asks a worker, which is started if there is none, about one map.
fn one(worker: &mut Option<Worker>, asked: &Asked, limit: Duration) -> Done {
    let started = match worker.take() {
        Some(worker) => Ok(worker),
        None => Worker::start(),
    };
    let mut hand = match started {
        Ok(hand) => hand,
        Err(error) => {
            return without(Word::Ended, format!("a worker could not be started: {error}"));
        }
    };
    match hand.verdict(asked, limit) {
        Ok(verdict) if asked.picture.is_none() || verdict.passes() => {
            *worker = Some(hand);
            Done { verdict, picture: None }
        }
        Ok(verdict) => {
            let (picture, alive) = hand.picture(limit);
            *worker = alive.then_some(hand);
            Done { verdict, picture: Some(picture) }
        }
        Err((word, why)) => without(word, why),
    }
}

/// A map about which no worker answered.
fn without(word: Word, why: String) -> Done {
    Done { verdict: Verdict::other(word, why), picture: None }
}

/// A process that answers about maps.
struct Worker {
    child: Child,
    input: ChildStdin,
    lines: Receiver<String>,
}

/// What was heard from a worker.
enum Heard {
    Answer(Answer),
    Late,
    Gone,
}

impl Worker {
    fn start() -> io::Result<Worker> {
        let mut child = Command::new(env::current_exe()?)
            .arg("worker")
            .stdin(Stdio::piped())
            .stdout(Stdio::piped())
            .stderr(Stdio::null())
            .spawn()?;
        let (input, output) = match (child.stdin.take(), child.stdout.take()) {
            (Some(input), Some(output)) => (input, output),
            _ => return Err(io::Error::from(io::ErrorKind::BrokenPipe)),
        };
        let (sender, lines) = mpsc::channel();
        thread::spawn(move || {
            for line in BufReader::new(output).lines().map_while(Result::ok) {
                if sender.send(line).is_err() {
                    return;
                }
            }
        });
        Ok(Worker { child, input, lines })
    }

    fn ask(&mut self, asked: &Asked) -> io::Result<()> {
        let line = serde_json::to_string(asked)?;
        writeln!(self.input, "{line}")?;
        self.input.flush()
    }

    fn hear(&mut self, limit: Duration) -> Heard {
        match self.lines.recv_timeout(limit) {
            Ok(line) => serde_json::from_str(&line).map_or(Heard::Gone, Heard::Answer),
            Err(RecvTimeoutError::Timeout) => Heard::Late,
            Err(RecvTimeoutError::Disconnected) => Heard::Gone,
        }
    }

    /// The verdict, or why there is none.
    fn verdict(&mut self, asked: &Asked, limit: Duration) -> Result<Verdict, (Word, String)> {
        self.ask(asked)
            .map_err(|error| (Word::Ended, format!("a worker could not be asked: {error}")))?;
        match self.hear(limit) {
            Heard::Answer(Answer::Verdict(verdict)) => Ok(verdict),
            Heard::Late => Err((Word::Time, format!("no answer within {} s", limit.as_secs()))),
            Heard::Answer(_) | Heard::Gone => Err((Word::Ended, self.gone())),
        }
    }

    /// What became of the picture, and whether the worker can go on.
    fn picture(&mut self, limit: Duration) -> (Result<(), String>, bool) {
        match self.hear(limit) {
            Heard::Answer(Answer::Picture(None)) => (Ok(()), true),
            Heard::Answer(Answer::Picture(Some(why))) => (Err(why), true),
            Heard::Late => (Err(format!("not drawn within {} s", limit.as_secs())), false),
            Heard::Answer(_) | Heard::Gone => (Err(self.gone()), false),
        }
    }

    /// How the worker ended; one that answers what it was not asked is ended.
    fn gone(&mut self) -> String {
        let _ = self.child.kill();
        match self.child.wait() {
            Ok(status) => format!("the process that looked at it ended: {status}"),
            Err(error) => format!("the process that looked at it ended: {error}"),
        }
    }
}

impl Drop for Worker {
    fn drop(&mut self) {
        // a worker has nothing to finish; it may have ended already
        let _ = self.child.kill();
        let _ = self.child.wait();
    }
}
