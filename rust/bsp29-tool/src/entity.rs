//! The entities of a map's text, by the parser of the crate.

use bsp29::{Entities, Entity, EntityError};

/// The entities of a text up to its first fault, and the fault.
pub fn parse(text: &str) -> (Vec<Entity<'_>>, Option<EntityError>) {
    let mut wrong = None;
    let entities =
        Entities::new(text).map_while(|entity| entity.map_err(|error| wrong = Some(error)).ok());
    (entities.collect(), wrong)
}

/// The class of an entity; one without has the empty class.
pub fn class<'t>(entity: &Entity<'t>) -> &'t str {
    entity.get("classname").unwrap_or("")
}

/// The value of a key that is three numbers, as an origin is.
pub fn point(entity: &Entity<'_>, key: &str) -> Option<[f32; 3]> {
    let numbers: Result<Vec<f32>, _> =
        entity.get(key)?.split_whitespace().map(str::parse).collect();
    numbers.ok()?.try_into().ok()
}

#[cfg(test)]
mod tests {
    use super::*;

    #[test]
    fn a_text_is_read_to_its_first_fault() {
        let (entities, wrong) = parse("{\"classname\" \"a\"}{}{\"b\"}{}");
        let classes: Vec<&str> = entities.iter().map(class).collect();
        assert_eq!((classes, wrong.map(|wrong| wrong.byte)), (vec!["a", ""], Some(23)));
    }

    #[test]
    fn an_origin_is_three_numbers() {
        let (entities, _) = parse("{\"origin\" \"-1 2.5  3\"}{\"origin\" \"1 2\"}{}");
        let origins: Vec<_> = entities.iter().map(|entity| point(entity, "origin")).collect();
        assert_eq!(origins, [Some([-1.0, 2.5, 3.0]), None, None]);
    }
}
