//! A small reader of JSON, for what a command prints: all of a text is one value, or the test fails.

/// A value; a number stays the text that it is.
#[derive(Clone, Debug, PartialEq)]
pub enum Value {
    /// null, true, false, or a number.
    Word(String),
    Text(String),
    List(Vec<Value>),
    Object(Vec<(String, Value)>),
}

impl Value {
    /// The one value of the text.
    pub fn read(text: &str) -> Value {
        let mut reader = Reader { rest: text };
        let value = reader.value();
        assert_eq!(reader.next(), None, "behind the value");
        value
    }

    /// The value under a name of an object.
    pub fn at(&self, name: &str) -> &Value {
        let Value::Object(members) = self else { panic!("no object with {name}: {self:?}") };
        let found: Vec<&Value> =
            members.iter().filter(|member| member.0 == name).map(|member| &member.1).collect();
        assert_eq!(found.len(), 1, "{name} of {members:?}");
        found[0]
    }

    /// The names of an object, in order.
    pub fn names(&self) -> Vec<&str> {
        let Value::Object(members) = self else { panic!("no object: {self:?}") };
        members.iter().map(|member| &member.0[..]).collect()
    }

    pub fn list(&self) -> &[Value] {
        let Value::List(values) = self else { panic!("no list: {self:?}") };
        values
    }

    pub fn text(&self) -> &str {
        let Value::Text(text) = self else { panic!("no text: {self:?}") };
        text
    }

    /// What stands there without quotation marks.
    pub fn word(&self) -> &str {
        let Value::Word(word) = self else { panic!("no word: {self:?}") };
        word
    }

    /// A whole number, exactly.
    pub fn number(&self) -> u64 {
        self.word().parse().unwrap_or_else(|_| panic!("no whole number: {self:?}"))
    }
}

struct Reader<'a> {
    rest: &'a str,
}

impl Reader<'_> {
    /// The next character that is no space, without taking it.
    fn next(&mut self) -> Option<char> {
        self.rest = self.rest.trim_start_matches([' ', '\n', '\t', '\r']);
        self.rest.chars().next()
    }

    fn take(&mut self, expected: char) {
        assert_eq!(self.next(), Some(expected), "before {:?}", self.rest);
        self.rest = &self.rest[expected.len_utf8()..];
    }

    fn value(&mut self) -> Value {
        match self.next() {
            Some('{') => Value::Object(self.row('{', '}', |reader| {
                let name = reader.text();
                reader.take(':');
                (name, reader.value())
            })),
            Some('[') => Value::List(self.row('[', ']', Reader::value)),
            Some('"') => Value::Text(self.text()),
            _ => self.word(),
        }
    }

    /// Values between these, parted by commas.
    fn row<T>(&mut self, open: char, close: char, one: fn(&mut Self) -> T) -> Vec<T> {
        self.take(open);
        let mut row = Vec::new();
        while self.next() != Some(close) {
            if !row.is_empty() {
                self.take(',');
            }
            row.push(one(self));
        }
        self.take(close);
        row
    }

    fn word(&mut self) -> Value {
        let end = self.rest.find(|c: char| !c.is_ascii_alphanumeric()).unwrap_or(self.rest.len());
        let (word, rest) = self.rest.split_at(end);
        let number = word.bytes().all(|byte| byte.is_ascii_digit()) && !word.is_empty();
        let plain = number && (word == "0" || !word.starts_with('0'));
        assert!(plain || ["null", "true", "false"].contains(&word), "{word:?}");
        self.rest = rest;
        Value::Word(word.into())
    }

    fn text(&mut self) -> String {
        self.take('"');
        let mut text = String::new();
        loop {
            let c = self.rest.chars().next().expect("the end of a text");
            self.rest = &self.rest[c.len_utf8()..];
            match c {
                '"' => return text,
                '\\' => text.push(self.escaped()),
                c => {
                    assert!(c >= ' ', "a control character in a text");
                    text.push(c);
                }
            }
        }
    }

    fn escaped(&mut self) -> char {
        let (c, rest) = self.rest.split_at(1);
        self.rest = rest;
        match c {
            "\"" | "\\" => c.chars().next().unwrap(),
            "u" => {
                let (digits, rest) = self.rest.split_at(4);
                self.rest = rest;
                char::from_u32(u32::from_str_radix(digits, 16).unwrap()).unwrap()
            }
            other => panic!("\\{other}"),
        }
    }
}
