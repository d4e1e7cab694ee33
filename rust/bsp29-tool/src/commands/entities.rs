//! `entities`: the entities of a map, all or those of a class.

use crate::args::Entities;
use crate::entity::{class, parse};
use crate::failure::Failure;
use crate::map::Source;
use crate::out::{self, Report};
use crate::text::{path_text, Plain};
use bsp29::Entity;
use serde::Serialize;
use std::io::{self, Write};

#[derive(Serialize)]
struct Listed<'a> {
    file: String,
    /// How many the text has.
    count: usize,
    entities: Vec<Numbered<'a>>,
    /// Where the text is no row of entities any more.
    wrong: Option<Wrong>,
}

#[derive(Serialize)]
struct Numbered<'a> {
    index: usize,
    class: &'a str,
    /// In the order of the text; a key may stand twice.
    pairs: Vec<Pair<'a>>,
}

#[derive(Serialize)]
struct Pair<'a> {
    key: &'a str,
    value: &'a str,
}

/// What is wrong with the text, and where in it.
#[derive(Serialize)]
struct Wrong {
    byte: usize,
    line: usize,
    what: String,
}

/// Lists the entities; status 1 where the text is none of entities.
pub fn run(args: &Entities, json: bool) -> Result<u8, Failure> {
    let source = Source::read(&args.file)?;
    let map = source.map()?;
    let text = map
        .entity_text()
        .map_err(|refusal| Failure::refused(&source.path, "the entity text", refusal))?;
    let (entities, wrong) = parse(text);
    let listed = Listed {
        file: path_text(&source.path),
        count: entities.len(),
        entities: numbered(entities, args.class.as_deref()),
        wrong: wrong.map(|wrong| Wrong {
            byte: wrong.byte,
            line: wrong.line,
            what: wrong.to_string(),
        }),
    };
    out::print(&listed, json)?;
    Ok(if listed.wrong.is_none() { crate::YES } else { crate::NO })
}

fn numbered<'a>(entities: Vec<Entity<'a>>, asked: Option<&str>) -> Vec<Numbered<'a>> {
    let numbered = |(index, entity): (usize, Entity<'a>)| {
        let pairs = entity.pairs().iter().map(|&(key, value)| Pair { key, value });
        Numbered { index, class: class(&entity), pairs: pairs.collect() }
    };
    let numbered = entities.into_iter().enumerate().map(numbered);
    numbered.filter(|entity| asked.map_or(true, |asked| fits(asked, entity.class))).collect()
}

/// Whether a name fits a pattern, in which a star stands for any characters. The parts between the
/// stars are looked for one after the other, so that no pattern takes long.
fn fits(pattern: &str, name: &str) -> bool {
    let Some((first, rest)) = pattern.split_once('*') else { return pattern == name };
    let Some(mut left) = name.strip_prefix(first) else { return false };
    let mut parts: Vec<&str> = rest.split('*').collect();
    let last = parts.pop().unwrap_or("");
    for part in parts {
        match left.find(part) {
            Some(at) => left = &left[at + part.len()..],
            None => return false,
        }
    }
    left.ends_with(last)
}

impl Report for Listed<'_> {
    fn text(&self, out: &mut dyn Write) -> io::Result<()> {
        for entity in &self.entities {
            writeln!(out, "entity {}  {}", entity.index, Plain(entity.class))?;
            for Pair { key, value } in &entity.pairs {
                writeln!(out, "  \"{}\" \"{}\"", Plain(key), Plain(value))?;
            }
        }
        writeln!(out, "{} of {} entities", self.entities.len(), self.count)?;
        match &self.wrong {
            Some(wrong) => writeln!(out, "the text goes wrong at {}", wrong.what),
            None => Ok(()),
        }
    }
}

#[cfg(test)]
mod tests {
    use super::fits;

    #[test]
    fn a_star_stands_for_any_characters() {
        for (pattern, name) in [
            ("light", "light"),
            ("light*", "light_torch"),
            ("*", ""),
            ("*o*r*", "func_door"),
            ("a*a", "aa"),
        ] {
            assert!(fits(pattern, name), "{pattern} {name}");
        }
        for (pattern, name) in [("light", "lights"), ("a*a", "a"), ("*b", "bc"), ("x*", "")] {
            assert!(!fits(pattern, name), "{pattern} {name}");
        }
    }
}
