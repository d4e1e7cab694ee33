//! The entity text taken apart: any text gives pairs or an error with its place.

mod common;

use bsp29::{Entities, EntityError, EntityFault, Map};

type Pairs<'t> = Vec<Vec<(&'t str, &'t str)>>;

fn parse(text: &str) -> Result<Pairs<'_>, EntityError> {
    Entities::new(text).map(|entity| entity.map(|entity| entity.pairs().to_vec())).collect()
}

fn fault(text: &str) -> (EntityFault, usize, usize) {
    let error = parse(text).unwrap_err();
    (error.fault, error.line, error.byte)
}

#[test]
fn texts_without_fault() {
    assert_eq!(parse(""), Ok(vec![]));
    assert_eq!(parse(" \t\r\n\0"), Ok(vec![]));
    assert_eq!(parse("// nothing"), Ok(vec![]));
    assert_eq!(parse("{}{ }"), Ok(vec![vec![], vec![]]));
    assert_eq!(parse("{\"a\"\"b\"}"), Ok(vec![vec![("a", "b")]]));
    assert_eq!(parse("{\"\" \"\"}"), Ok(vec![vec![("", "")]]));
    assert_eq!(
        parse("{ // {\n\"k // k\" // \"x\"\n\"{v}\n\\\" }"),
        Ok(vec![vec![("k // k", "{v}\n\\")]])
    );
    assert_eq!(parse("{ \"é\" \"\u{1F5FA}\" }"), Ok(vec![vec![("é", "\u{1F5FA}")]]));
}

#[test]
fn faults_and_their_places() {
    assert_eq!(fault("x"), (EntityFault::NoEntity, 1, 0));
    assert_eq!(fault("}"), (EntityFault::NoEntity, 1, 0));
    assert_eq!(fault("{}\n \"a\""), (EntityFault::NoEntity, 2, 4));
    assert_eq!(fault("/"), (EntityFault::NoEntity, 1, 0));
    assert_eq!(fault("{"), (EntityFault::NoKey, 1, 1));
    assert_eq!(fault("{ // }"), (EntityFault::NoKey, 1, 6));
    assert_eq!(fault("{\n\nkey"), (EntityFault::NoKey, 3, 3));
    assert_eq!(fault("{ {"), (EntityFault::NoKey, 1, 2));
    assert_eq!(fault("{ \"a\" }"), (EntityFault::NoValue, 1, 6));
    assert_eq!(fault("{ \"a\""), (EntityFault::NoValue, 1, 5));
    assert_eq!(fault("{ \"a\" \"b"), (EntityFault::OpenString, 1, 6));
    assert_eq!(fault("{ \"a \n }"), (EntityFault::OpenString, 1, 2));
}

#[test]
fn after_an_error_there_is_nothing() {
    let mut entities = Entities::new("{ \"a\" \"1\" } { 7 } { \"b\" \"2\" }");
    assert_eq!(entities.next().unwrap().unwrap().get("a"), Some("1"));
    assert!(entities.next().unwrap().is_err());
    assert!(entities.next().is_none() && entities.next().is_none());
}

#[test]
fn of_a_map() {
    let file = common::rooms();
    let map = Map::load(&file).unwrap();
    let entities: Vec<_> = map.parsed_entities().unwrap().map(Result::unwrap).collect();
    let classes: Vec<_> = entities.iter().map(|entity| entity.get("classname")).collect();
    assert_eq!(classes, [Some("worldspawn"), Some("func_door")]);
    let text = map.entity_text().unwrap();
    assert!(entities.iter().all(|entity| text.as_bytes()[entity.byte()] == b'{'));
}

/// A text of the characters that matter, and of any others.
fn some_text(mut next: impl FnMut() -> u64) -> String {
    let mut text = String::from(["", "{"][next() as usize % 2]);
    for _ in 0..next() % 16 {
        match next() % 12 {
            0 | 1 => text.push('{'),
            2 | 3 => text.push('}'),
            4 | 5 => text.push('"'),
            6..=8 => text += "\"a\" \"b\"",
            9 => text.push(['/', '\n', ' ', '\0'][next() as usize % 4]),
            10 => text.push(char::from_u32(next() as u32 % 0x11_0000).unwrap_or('a')),
            _ => text += "//",
        }
    }
    text
}

/// Any text: pairs or an error, whose place is in the text.
#[test]
fn any_text() {
    let mut state = 29u64;
    let mut next = move || {
        state ^= state << 13;
        state ^= state >> 7;
        state ^= state << 17;
        state
    };
    let (mut pairs, mut errors) = (0, 0);
    for _ in 0..200_000 {
        let text = some_text(&mut next);
        for entity in Entities::new(&text) {
            match entity {
                Ok(entity) => {
                    pairs += entity.pairs().len();
                    assert_eq!(text.as_bytes()[entity.byte()], b'{');
                    for (key, value) in entity.pairs() {
                        assert!(!key.contains('"') && !value.contains('"'));
                        assert!(text.contains(key) && entity.get(key).is_some());
                    }
                }
                Err(error) => {
                    errors += 1;
                    assert!(error.byte <= text.len() && text.is_char_boundary(error.byte));
                    assert_eq!(error.line, 1 + text[..error.byte].matches('\n').count());
                }
            }
        }
    }
    assert!(pairs > 4_000 && errors > 100_000, "{pairs} {errors}");
}

/// The time grows with the text: a megabyte of pairs, of entities and of strings that do not end.
#[test]
fn long_texts() {
    let pairs = format!("{{{}}}", "\"a\" \"b\" ".repeat(1 << 17));
    assert_eq!(parse(&pairs).unwrap()[0].len(), 1 << 17);
    assert_eq!(parse(&"{}".repeat(1 << 19)).unwrap().len(), 1 << 19);
    assert_eq!(parse(&"//\n".repeat(1 << 18)), Ok(vec![]));
    assert_eq!(fault(&"{\"".repeat(1 << 19)).0, EntityFault::NoValue);
}
