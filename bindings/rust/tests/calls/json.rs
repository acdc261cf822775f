//! JSON, as the files of `rows/` have it: no exponents, and of escapes in texts those of a quote and a backslash.

/// A value.
#[derive(Clone, Debug, PartialEq)]
pub enum Json {
    Null,
    Bool(bool),
    Number(i64),
    Text(String),
    Array(Vec<Json>),
    /// The members in their order.
    Object(Vec<(String, Json)>),
}

impl Json {
    /// Reads a text that is one value.
    pub fn read(text: &str) -> Json {
        let mut reader = Reader { rest: text };
        let value = reader.value();
        assert_eq!(reader.next(), "", "it is one value");
        value
    }

    /// A member of an object, if it has it.
    pub fn get(&self, name: &str) -> Option<&Json> {
        let Json::Object(members) = self else {
            panic!("{self:?} is no object");
        };
        let found = members.iter().find(|(it, _)| it == name);
        found.map(|(_, value)| value)
    }

    pub fn text(&self) -> &str {
        match self {
            Json::Text(text) => text,
            other => panic!("{other:?} is no text"),
        }
    }

    pub fn number(&self) -> i64 {
        match self {
            Json::Number(number) => *number,
            other => panic!("{other:?} is no number"),
        }
    }

    pub fn items(&self) -> &[Json] {
        match self {
            Json::Array(items) => items,
            other => panic!("{other:?} is no array"),
        }
    }
}

/// Reads values from the beginning of a text.
struct Reader<'t> {
    rest: &'t str,
}

impl<'t> Reader<'t> {
    /// What is left, without blanks before it.
    fn next(&mut self) -> &'t str {
        self.rest = self.rest.trim_start();
        self.rest
    }

    /// Whether a word comes next, which is then read.
    fn takes(&mut self, word: &str) -> bool {
        let found = self.next().strip_prefix(word);
        self.rest = found.unwrap_or(self.rest);
        found.is_some()
    }

    fn value(&mut self) -> Json {
        let words = [
            ("null", Json::Null),
            ("true", Json::Bool(true)),
            ("false", Json::Bool(false)),
        ];
        for (word, value) in words {
            if self.takes(word) {
                return value;
            }
        }
        match self.next().as_bytes().first() {
            Some(b'"') => Json::Text(self.string()),
            Some(b'[') => Json::Array(self.listed("[", "]", Self::value)),
            Some(b'{') => Json::Object(self.listed("{", "}", Self::member)),
            _ => self.number(),
        }
    }

    fn number(&mut self) -> Json {
        let is_part = |it: char| it == '-' || it.is_ascii_digit();
        let end = self.rest.find(|it| !is_part(it)).expect("a number ends");
        let (digits, rest) = self.rest.split_at(end);
        self.rest = rest;
        Json::Number(digits.parse().expect("a whole number"))
    }

    fn string(&mut self) -> String {
        assert!(self.takes("\""), "a text begins");
        let mut text = String::new();
        loop {
            let end = self.rest.find(['"', '\\']).expect("a text ends");
            text.push_str(&self.rest[..end]);
            let is_end = self.rest[end..].starts_with('"');
            self.rest = &self.rest[end + 1..];
            if is_end {
                return text;
            }
            let escaped = self.rest.chars().next().expect("a character is escaped");
            assert!(['"', '\\'].contains(&escaped), "\\{escaped} isn't read");
            text.push(escaped);
            self.rest = &self.rest[1..];
        }
    }

    fn member(&mut self) -> (String, Json) {
        self.next();
        let name = self.string();
        assert!(self.takes(":"), "a colon is after {name}");
        (name, self.value())
    }

    /// What is between brackets, with commas between.
    fn listed<T>(&mut self, first: &str, last: &str, read: fn(&mut Self) -> T) -> Vec<T> {
        assert!(self.takes(first));
        let mut found = Vec::new();
        while !self.takes(last) {
            assert!(found.is_empty() || self.takes(","), "a comma is between");
            found.push(read(self));
        }
        found
    }
}

#[test]
fn values() {
    let text = |it: &str| Json::Text(it.to_string());
    let value = Json::read(r#" { "a" : [ 1 , -2 , "x\"\\" , [ ] ] , "b" : true, "c": null } "#);
    let items = vec![
        Json::Number(1),
        Json::Number(-2),
        text("x\"\\"),
        Json::Array(vec![]),
    ];
    assert_eq!(value.get("a"), Some(&Json::Array(items)));
    let others = (value.get("b"), value.get("c"), value.get("d"));
    assert_eq!(others, (Some(&Json::Bool(true)), Some(&Json::Null), None));
}
