//! So much of JSON as bspinfo writes: values of text, read whole.

use std::collections::BTreeMap;

#[derive(Debug)]
pub enum Json {
    /// Null, true or false.
    Word,
    Number(f64),
    Text(String),
    List(Vec<Json>),
    Object(BTreeMap<String, Json>),
}

impl Json {
    pub fn parse(text: &str) -> Option<Json> {
        let mut reader = Reader { bytes: text.as_bytes(), at: 0 };
        let value = reader.value()?;
        reader.blanks();
        (reader.at == reader.bytes.len()).then_some(value)
    }

    /// The member of an object; none where it has no such member or is no object.
    pub fn get(&self, name: &str) -> Option<&Json> {
        match self {
            Json::Object(members) => members.get(name),
            _ => None,
        }
    }

    pub fn list(&self, name: &str) -> &[Json] {
        match self.get(name) {
            Some(Json::List(list)) => list,
            _ => &[],
        }
    }

    pub fn text(&self, name: &str) -> Option<&str> {
        match self.get(name) {
            Some(Json::Text(text)) => Some(text),
            _ => None,
        }
    }

    pub fn number(&self) -> Option<f64> {
        match self {
            Json::Number(number) => Some(*number),
            _ => None,
        }
    }

    /// The numbers of a list, or of one number.
    pub fn numbers(&self, name: &str) -> Vec<f64> {
        match self.get(name) {
            Some(Json::List(list)) => list.iter().filter_map(Json::number).collect(),
            Some(Json::Number(number)) => vec![*number],
            _ => Vec::new(),
        }
    }
}

struct Reader<'a> {
    bytes: &'a [u8],
    at: usize,
}

impl Reader<'_> {
    fn blanks(&mut self) {
        while self.bytes.get(self.at).is_some_and(|byte| byte.is_ascii_whitespace()) {
            self.at += 1;
        }
    }

    /// Whether this is what stands next, which is passed over.
    fn next_is(&mut self, word: &str) -> bool {
        self.blanks();
        let there = self.bytes[self.at..].starts_with(word.as_bytes());
        if there {
            self.at += word.len();
        }
        there
    }

    fn value(&mut self) -> Option<Json> {
        self.blanks();
        match self.bytes.get(self.at)? {
            b'{' => self.object(),
            b'[' => self.list(),
            b'"' => self.text().map(Json::Text),
            b'n' if self.next_is("null") => Some(Json::Word),
            b't' if self.next_is("true") => Some(Json::Word),
            b'f' if self.next_is("false") => Some(Json::Word),
            _ => self.number(),
        }
    }

    fn object(&mut self) -> Option<Json> {
        self.at += 1;
        let mut members = BTreeMap::new();
        if self.next_is("}") {
            return Some(Json::Object(members));
        }
        loop {
            self.blanks();
            let name = self.text()?;
            if !self.next_is(":") {
                return None;
            }
            members.insert(name, self.value()?);
            if self.next_is("}") {
                return Some(Json::Object(members));
            }
            if !self.next_is(",") {
                return None;
            }
        }
    }

    fn list(&mut self) -> Option<Json> {
        self.at += 1;
        let mut list = Vec::new();
        if self.next_is("]") {
            return Some(Json::List(list));
        }
        loop {
            list.push(self.value()?);
            if self.next_is("]") {
                return Some(Json::List(list));
            }
            if !self.next_is(",") {
                return None;
            }
        }
    }

    fn text(&mut self) -> Option<String> {
        if *self.bytes.get(self.at)? != b'"' {
            return None;
        }
        self.at += 1;
        let mut text = Vec::new();
        loop {
            let byte = *self.bytes.get(self.at)?;
            self.at += 1;
            match byte {
                b'"' => return String::from_utf8(text).ok(),
                b'\\' => {
                    let escaped = self.escaped()?;
                    text.extend(escaped.to_string().as_bytes());
                }
                _ => text.push(byte),
            }
        }
    }

    fn escaped(&mut self) -> Option<char> {
        let byte = *self.bytes.get(self.at)?;
        self.at += 1;
        match byte {
            b'n' => Some('\n'),
            b't' => Some('\t'),
            b'r' => Some('\r'),
            b'b' => Some('\u{8}'),
            b'f' => Some('\u{c}'),
            b'u' => {
                let digits = std::str::from_utf8(self.bytes.get(self.at..self.at + 4)?).ok()?;
                self.at += 4;
                char::from_u32(u32::from_str_radix(digits, 16).ok()?)
            }
            other => Some(other as char),
        }
    }

    fn number(&mut self) -> Option<Json> {
        let from = self.at;
        while self.bytes.get(self.at).is_some_and(|byte| b"+-.0123456789eE".contains(byte)) {
            self.at += 1;
        }
        let digits = std::str::from_utf8(&self.bytes[from..self.at]).ok()?;
        digits.parse().ok().map(Json::Number)
    }
}

#[cfg(test)]
mod tests {
    use super::*;

    #[test]
    fn values_are_read() {
        let text = r#" { "a" : [1, -2.5e1, null, {"b": "x\n\"\u0041"}], "c": true, "d": [] } "#;
        let value = Json::parse(text).expect("a value");
        assert_eq!(value.list("a").len(), 4);
        assert_eq!(value.numbers("a"), [1.0, -25.0]);
        assert_eq!(value.list("a")[3].text("b"), Some("x\n\"A"));
        assert!(value.list("d").is_empty());
        for wrong in ["", "{", "[1 2]", "{\"a\" 1}", "[1]x", "\"a", "nul"] {
            assert!(Json::parse(wrong).is_none(), "{wrong}");
        }
    }
}
