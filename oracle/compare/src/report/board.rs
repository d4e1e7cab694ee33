//! The calls of the C interface beside what is expected of them: cases, refusals, differences.
//!
//! Lists are lent longer than the answer and filled beforehand, so that a word written outside the
//! answer, or at all by a refusal, differs.

use std::collections::BTreeMap;
use std::fmt::Debug;

use crate::calls::words::Words;
use maps::Seed;

/// How many cases, from which seed on.
#[derive(Clone, Debug)]
pub struct Plan {
    pub cases: u64,
    /// The first case, to repeat a single one.
    pub from: u64,
    pub seed: u64,
    pub quick: bool,
}

impl Plan {
    /// Each case with its number and its own run of numbers.
    pub fn seeds(&self, name: &'static str) -> impl Iterator<Item = (u64, Seed)> + '_ {
        let first = Seed::named(self.seed, name).next();
        (self.from..self.from + self.cases)
            .map(move |case| (case, Seed::named(first.wrapping_add(case), name)))
    }
}

/// What each side that can answer says. The Rust decides where it can; what the interface itself
/// states (lists too short, sections that are none) counts as the paper's.
pub struct Sides<T> {
    pub rust: Option<T>,
    pub paper: Option<T>,
}

impl<T> Sides<T> {
    pub fn paper(answer: T) -> Sides<T> {
        Sides { rust: None, paper: Some(answer) }
    }

    pub fn both(rust: T, paper: T) -> Sides<T> {
        Sides { rust: Some(rust), paper: Some(paper) }
    }
}

/// Whose answer a case was held against.
#[derive(Copy, Clone, Debug, Eq, PartialEq)]
pub enum Side {
    Rust,
    Paper,
}

/// The cases of one refusal in which both sides gave it: held against the Rust, and against the
/// program on paper alone.
#[derive(Copy, Clone, Debug, Default)]
pub struct Agreed {
    pub rust: u64,
    pub paper: u64,
}

/// One line of the table.
#[derive(Debug, Default)]
pub struct Line {
    pub name: String,
    /// The program on paper beside the Rust, not the call.
    pub paper: bool,
    pub cases: u64,
    /// The refusals that the call gave.
    pub refusals: BTreeMap<u32, u64>,
    /// The refusals that it gave where it should; 0 stands for an answer.
    pub agreed: BTreeMap<u32, Agreed>,
    pub differed: u64,
    /// The smallest input that differed, with its size.
    pub smallest: Option<(usize, String)>,
}

impl Line {
    pub fn title(&self) -> String {
        match self.paper {
            true => format!("paper, {}", self.name),
            false => self.name.clone(),
        }
    }

    /// Whether the line is about a call of the C interface.
    pub fn is_call(&self) -> bool {
        !self.paper && self.name.starts_with("bsp_")
    }

    fn count(&mut self, difference: Option<String>, input: impl FnOnce() -> (usize, String)) {
        self.cases += 1;
        let Some(difference) = difference else { return };
        self.differed += 1;
        let (size, text) = input();
        if self.smallest.as_ref().is_none_or(|(least, _)| size < *least) {
            self.smallest = Some((size, format!("{text}: {difference}")));
        }
    }

    /// Takes in the counts of another part of the same comparison.
    fn join(&mut self, other: Line) {
        self.cases += other.cases;
        self.differed += other.differed;
        for (number, times) in other.refusals {
            *self.refusals.entry(number).or_default() += times;
        }
        for (number, times) in other.agreed {
            let agreed = self.agreed.entry(number).or_default();
            agreed.rust += times.rust;
            agreed.paper += times.paper;
        }
        let least = self.smallest.as_ref().map_or(usize::MAX, |(size, _)| *size);
        if other.smallest.as_ref().is_some_and(|(size, _)| *size < least) {
            self.smallest = other.smallest;
        }
    }
}

#[derive(Debug, Default)]
pub struct Board {
    lines: Vec<Line>,
    /// Cases left out since a trace took too long.
    pub given_up: u64,
}

/// What lists hold before a call.
const FILL: u64 = 0xa5a5_a5a5_a5a5_a5a5;
pub const FILL_WORD: u32 = 0xa5a5_a5a5;

impl Board {
    pub fn new() -> Board {
        Board::default()
    }

    pub fn lines(&self) -> &[Line] {
        &self.lines
    }

    /// Takes in the lines of another board.
    pub fn join(&mut self, other: Board) {
        self.given_up += other.given_up;
        for line in other.lines {
            self.line(&line.name, line.paper).join(line);
        }
    }

    /// How many calls were compared.
    pub fn calls(&self) -> u64 {
        self.lines.iter().filter(|line| line.is_call()).map(|line| line.cases).sum()
    }

    fn line(&mut self, name: &str, paper: bool) -> &mut Line {
        let found = self.lines.iter().position(|line| line.paper == paper && line.name == name);
        let at = found.unwrap_or_else(|| {
            self.lines.push(Line { name: name.to_string(), paper, ..Line::default() });
            self.lines.len() - 1
        });
        &mut self.lines[at]
    }

    /// Counts one case of a call that answered this refusal, or 0. `input` gives the input's size
    /// and what to print of it.
    pub fn count(
        &mut self,
        name: &str,
        (refusal, side): (u32, Side),
        difference: Option<String>,
        input: impl FnOnce() -> (usize, String),
    ) {
        let line = self.line(name, false);
        if refusal != 0 {
            *line.refusals.entry(refusal).or_default() += 1;
        }
        if difference.is_none() {
            let agreed = line.agreed.entry(refusal).or_default();
            match side {
                Side::Rust => agreed.rust += 1,
                Side::Paper => agreed.paper += 1,
            }
        }
        line.count(difference, input);
    }

    /// Counts one case of the program on paper beside the Rust.
    pub fn count_paper(
        &mut self,
        name: &str,
        difference: Option<String>,
        input: impl FnOnce() -> (usize, String),
    ) {
        self.line(name, true).count(difference, input);
    }

    /// What is expected: the Rust's answer, else the paper's. Where both answer they must agree.
    fn expected<T: PartialEq + Debug>(
        &mut self,
        name: &str,
        sides: Sides<T>,
        input: impl FnOnce() -> (usize, String),
    ) -> (T, Side) {
        let (rust, paper) = match sides {
            Sides { rust: Some(rust), paper: Some(paper) } => (rust, paper),
            Sides { rust: Some(rust), paper: None } => return (rust, Side::Rust),
            Sides { paper, .. } => return (paper.expect("a side that answers"), Side::Paper),
        };
        let difference = match rust == paper {
            true => None,
            false => Some(format!("paper {}, Rust {}", shown(&paper), shown(&rust))),
        };
        self.count_paper(name, difference, input);
        (rust, Side::Rust)
    }

    /// A call that fills a list of words, lent `lent` of them.
    pub fn words(
        &mut self,
        name: &str,
        lent: usize,
        sides: Sides<Words>,
        call: impl FnOnce(&mut [u64]) -> u32,
        input: impl Fn() -> (usize, String),
    ) {
        let (expected, side) = self.expected(name, sides, &input);
        let mut out = [FILL; 40];
        let out = &mut out[..lent];
        let refusal = call(out);
        let mut wanted = [FILL; 40];
        if let Ok(words) = &expected {
            wanted[..words.len()].copy_from_slice(words);
        }
        let equal = refusal == *expected.as_ref().err().unwrap_or(&0) && *out == wanted[..lent];
        let difference = match equal {
            true => None,
            false => {
                Some(format!("answers {refusal} {}, expected {}", shown(&out), shown(&expected)))
            }
        };
        self.count(name, (refusal, side), difference, input);
    }

    /// A call that fills a list of numbers and one word with their count, lent `lent` numbers and
    /// `words` words. The answer is what a list long enough gets.
    pub fn list(
        &mut self,
        name: &str,
        (lent, words): (usize, usize),
        sides: Sides<Result<Vec<u32>, u32>>,
        call: impl FnOnce(&mut [u32], &mut [u64]) -> u32,
        input: impl Fn() -> (usize, String),
    ) {
        let (expected, side) = match self.expected(name, sides, &input) {
            _ if words == 0 => (Err(22), Side::Paper),
            (Ok(list), _) if list.len() > lent => (Err(22), Side::Paper),
            other => other,
        };
        let mut list = vec![FILL_WORD; lent];
        let mut out = vec![FILL; words];
        let refusal = call(&mut list, &mut out);
        let (mut wanted_list, mut wanted_out) = (vec![FILL_WORD; lent], vec![FILL; words]);
        if let Ok(entries) = &expected {
            wanted_list[..entries.len()].copy_from_slice(entries);
            wanted_out[0] = entries.len() as u64;
        }
        let equal = refusal == *expected.as_ref().err().unwrap_or(&0)
            && list == wanted_list
            && out == wanted_out;
        let difference = match equal {
            true => None,
            false => Some(format!(
                "answers {refusal} {} {}, expected {}",
                shown(&out),
                shown(&list),
                shown(&expected)
            )),
        };
        self.count(name, (refusal, side), difference, input);
    }

    /// Prints the table; true if nothing differed and something ran.
    pub fn print(&self) -> bool {
        for line in &self.lines {
            let name = line.title();
            println!("{name:<32} {:>10} cases {:>8} differ", line.cases, line.differed);
            if !line.refusals.is_empty() {
                let parts: Vec<String> = line
                    .refusals
                    .iter()
                    .map(|(number, times)| format!("{number}: {times}"))
                    .collect();
                println!("{:<32} refusals {}", "", parts.join(", "));
            }
            if let Some((size, text)) = &line.smallest {
                println!("{:<32} smallest input ({size} bytes): {text}", "");
            }
        }
        if self.given_up > 0 {
            println!("{:<32} {:>10} traces left out: too long", "", self.given_up);
        }
        !self.lines.is_empty() && self.lines.iter().all(|line| line.differed == 0)
    }

    /// The names of the lines in which a case differed.
    #[cfg(test)]
    pub fn blamed(&self) -> Vec<String> {
        self.lines.iter().filter(|l| l.differed > 0).map(|l| l.title()).collect()
    }
}

/// A value for a message, in hexadecimal, cut where it is long.
pub fn shown(value: &impl Debug) -> String {
    let text = format!("{value:x?}").replace("a5a5a5a5a5a5a5a5", "-").replace("a5a5a5a5", "-");
    match text.char_indices().nth(400) {
        None => text,
        Some((at, _)) => format!("{}...", &text[..at]),
    }
}

/// A file for a message: its bytes where they are few.
pub fn file_shown(file: &[u8]) -> String {
    if file.len() > 256 {
        return format!("a file of {} bytes", file.len());
    }
    let hex: String = file.iter().map(|byte| format!("{byte:02x}")).collect();
    format!("file {hex}")
}
