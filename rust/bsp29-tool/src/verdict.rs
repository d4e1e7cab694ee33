//! May a map be played? Loading and acceptance, and where they refused.

use crate::faults::{self, Fault};
use crate::map::Map;
use crate::place::{self, Place};
use bsp29::Refusal;
use serde::{Deserialize, Serialize};

/// What is to be said of a map.
#[derive(Copy, Clone, Debug, PartialEq, Eq, Serialize, Deserialize)]
#[serde(rename_all = "snake_case")]
pub enum Word {
    /// It loads and is accepted.
    Passes,
    /// Loading refused it.
    Load,
    /// It loads, and acceptance refused it.
    Accept,
    /// No answer within the time that it was given.
    Time,
    /// The file could not be read.
    Unread,
    /// The process that looked at it ended without an answer.
    Ended,
}

impl Word {
    /// The word at the front of a line.
    pub fn shown(self) -> &'static str {
        match self {
            Word::Passes => "passes",
            Word::Load | Word::Accept => "refused",
            Word::Time => "no time",
            Word::Unread => "unread",
            Word::Ended => "ended",
        }
    }
}

/// What is said of a map.
#[derive(Clone, Debug, PartialEq, Serialize, Deserialize)]
pub struct Verdict {
    pub verdict: Word,
    /// The refusal's number.
    pub number: Option<u32>,
    /// Its sentence, or another reason.
    pub sentence: Option<String>,
    /// Where it is.
    pub place: Option<Place>,
}

impl Verdict {
    /// A verdict for another reason than a refusal.
    pub fn other(verdict: Word, why: String) -> Verdict {
        Verdict { verdict, number: None, sentence: Some(why), place: None }
    }

    fn refused(verdict: Word, refusal: Refusal, place: Option<Place>) -> Verdict {
        let sentence = Some(refusal.to_string());
        Verdict { verdict, number: Some(refusal.number()), sentence, place }
    }

    pub fn passes(&self) -> bool {
        self.verdict == Word::Passes
    }

    /// The verdict in one line, without its word.
    pub fn reason(&self) -> Option<String> {
        let sentence = self.sentence.as_ref()?;
        let mut reason = match (self.number, self.verdict) {
            (Some(number), Word::Accept) => format!("{number} on acceptance, {sentence}"),
            (Some(number), _) => format!("{number} on loading, {sentence}"),
            (None, _) => sentence.clone(),
        };
        if let Some(place) = &self.place {
            reason += &format!("; {}", place.words());
            if let Some(what) = &place.what {
                reason += &format!(": {what}");
            }
        }
        Some(reason)
    }
}

/// A verdict, with the map where it loads and the fault where acceptance found one.
pub struct Judged<'a> {
    pub verdict: Verdict,
    pub map: Option<Map<'a>>,
    pub fault: Option<Fault>,
}

/// Loads a file and asks for acceptance.
pub fn judge(bytes: &[u8]) -> Judged<'_> {
    let map = match Map::load(bytes) {
        Ok(map) => map,
        Err(refusal) => {
            let place = place::of_loading(bytes);
            let verdict = Verdict::refused(Word::Load, refusal, place);
            return Judged { verdict, map: None, fault: None };
        }
    };
    match map.accept() {
        Ok(()) => {
            let verdict =
                Verdict { verdict: Word::Passes, number: None, sentence: None, place: None };
            Judged { verdict, map: Some(map), fault: None }
        }
        Err(refusal) => {
            let fault = faults::of_acceptance(&map, refusal);
            let place = fault.as_ref().map(|fault| fault.place.clone());
            let verdict = Verdict::refused(Word::Accept, refusal, place);
            Judged { verdict, map: Some(map), fault }
        }
    }
}
