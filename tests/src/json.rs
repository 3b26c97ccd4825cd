//! A reader for the JSON of the vectors: objects, arrays, strings, whole numbers and null.

use std::{iter::Peekable, str::Chars};

#[derive(Clone, Debug, PartialEq)]
pub enum Json {
    Null,
    Number(i64),
    Text(String),
    Array(Vec<Json>),
    Object(Vec<(String, Json)>),
}

impl Json {
    pub fn parse(text: &str) -> Json {
        let mut parser = Parser { rest: text.chars().peekable() };
        let json = parser.value();
        assert_eq!(parser.token(), None, "text after the value");
        json
    }

    /// A member of an object; null if it has none of that name.
    pub fn get(&self, name: &str) -> &Json {
        match self {
            Json::Object(members) => members.iter().find(|(key, _)| key == name).map_or(&Json::Null, |(_, json)| json),
            _ => panic!("{self:?} has no members"),
        }
    }

    pub fn has(&self, name: &str) -> bool {
        *self.get(name) != Json::Null
    }

    pub fn text(&self, name: &str) -> &str {
        match self.get(name) {
            Json::Text(text) => text,
            other => panic!("{name} is {other:?}, not a text"),
        }
    }

    /// A number in the range of its place.
    pub fn number<T: TryFrom<i64>>(&self, name: &str) -> T {
        self.get(name).as_number()
    }

    pub fn numbers<T: TryFrom<i64>>(&self, name: &str) -> Vec<T> {
        match self.get(name) {
            Json::Array(items) => items.iter().map(Json::as_number).collect(),
            other => panic!("{name} is {other:?}, not an array"),
        }
    }

    fn as_number<T: TryFrom<i64>>(&self) -> T {
        match self {
            Json::Number(number) => T::try_from(*number).ok().expect("a number in range"),
            other => panic!("{other:?} is not a number"),
        }
    }
}

struct Parser<'a> {
    rest: Peekable<Chars<'a>>,
}

impl Parser<'_> {
    /// The first character of the next token.
    fn token(&mut self) -> Option<char> {
        while self.rest.next_if(|character| character.is_whitespace()).is_some() {}
        self.rest.peek().copied()
    }

    fn expect(&mut self, expected: char) {
        assert_eq!(self.token(), Some(expected));
        self.rest.next();
    }

    fn value(&mut self) -> Json {
        match self.token().expect("a value") {
            '{' => Json::Object(self.items('{', '}', |parser| {
                let name = parser.string();
                parser.expect(':');
                (name, parser.value())
            })),
            '[' => Json::Array(self.items('[', ']', Parser::value)),
            '"' => Json::Text(self.string()),
            'n' => self.null(),
            _ => self.whole_number(),
        }
    }

    fn items<T>(&mut self, open: char, close: char, item: impl Fn(&mut Self) -> T) -> Vec<T> {
        let mut items = Vec::new();
        self.expect(open);
        while self.token() != Some(close) {
            if !items.is_empty() {
                self.expect(',');
            }
            items.push(item(self));
        }
        self.expect(close);
        items
    }

    fn string(&mut self) -> String {
        let mut text = String::new();
        self.expect('"');
        loop {
            match self.rest.next().expect("the end of a string") {
                '"' => return text,
                '\\' => text.push(self.escaped()),
                character => text.push(character),
            }
        }
    }

    fn escaped(&mut self) -> char {
        match self.rest.next().expect("an escaped character") {
            'n' => '\n',
            plain @ ('"' | '\\' | '/') => plain,
            other => panic!("the escape \\{other} is not read here"),
        }
    }

    fn null(&mut self) -> Json {
        "null".chars().for_each(|character| self.expect(character));
        Json::Null
    }

    fn whole_number(&mut self) -> Json {
        let mut digits = String::new();
        while let Some(digit) = self.rest.next_if(|character| character.is_ascii_digit() || *character == '-') {
            digits.push(digit);
        }
        Json::Number(digits.parse().expect("a whole number"))
    }
}
