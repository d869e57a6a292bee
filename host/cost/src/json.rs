//! The program as the toolchain keeps it beside a library: JSON, in which `{"Name": ..}` or `"Name"` is one of several
//! cases.

#[derive(Debug)]
pub enum Json {
    Null,
    Flag(bool),
    /// Its digits, as one may have more than 64 bits.
    Number(String),
    Text(String),
    List(Vec<Json>),
    Record(Vec<(String, Json)>),
}

impl Json {
    /// The case's name.
    pub fn case(&self) -> &str {
        match self {
            Json::Text(name) => name,
            Json::Record(fields) if fields.len() == 1 => &fields[0].0,
            other => panic!("{:?} is no case", other),
        }
    }

    /// What the case has.
    pub fn inner(&self) -> &Json {
        match self {
            Json::Record(fields) if fields.len() == 1 => &fields[0].1,
            other => panic!("{:?} has nothing inside", other),
        }
    }

    pub fn list(&self) -> &[Json] {
        match self {
            Json::List(elements) => elements,
            other => panic!("{:?} is no list", other),
        }
    }

    pub fn at(&self, index: usize) -> &Json {
        &self.list()[index]
    }

    pub fn field(&self, name: &str) -> &Json {
        match self {
            Json::Record(fields) => fields.iter().find(|(key, _)| key == name).map(|(_, value)| value),
            _ => None,
        }
        .unwrap_or_else(|| panic!("{:?} has no field `{}`", self, name))
    }

    pub fn text(&self) -> &str {
        match self {
            Json::Text(text) => text,
            other => panic!("{:?} is no text", other),
        }
    }

    pub fn number(&self) -> u64 {
        match self {
            Json::Number(digits) => digits.parse().expect("a number of 64 bits"),
            other => panic!("{:?} is no number", other),
        }
    }

    pub fn flag(&self) -> bool {
        match self {
            Json::Flag(flag) => *flag,
            other => panic!("{:?} is no flag", other),
        }
    }
}

struct Reader<'a> {
    text: &'a [u8],
    at: usize,
}

impl Reader<'_> {
    fn peek(&mut self) -> Option<u8> {
        while self.text.get(self.at).map_or(false, u8::is_ascii_whitespace) {
            self.at += 1;
        }
        self.text.get(self.at).copied()
    }

    fn take(&mut self, byte: u8) {
        assert_eq!(self.peek(), Some(byte), "at byte {}", self.at);
        self.at += 1;
    }

    fn takes(&mut self, byte: u8) -> bool {
        let is_next = self.peek() == Some(byte);
        self.at += usize::from(is_next);
        is_next
    }

    /// A run of such bytes.
    fn run(&mut self, belongs: fn(u8) -> bool) -> &str {
        let begin = self.at;
        while self.text.get(self.at).map_or(false, |&byte| belongs(byte)) {
            self.at += 1;
        }
        std::str::from_utf8(&self.text[begin..self.at]).expect("UTF-8")
    }

    /// None of the names that are looked at has an escaped character, so that one stays as it is written.
    fn string(&mut self) -> String {
        self.take(b'"');
        let mut text = String::new();
        loop {
            text.push_str(self.run(|byte| byte != b'"' && byte != b'\\'));
            if self.text[self.at] == b'"' {
                self.at += 1;
                return text;
            }
            text.push_str(std::str::from_utf8(&self.text[self.at..self.at + 2]).expect("an escaped character"));
            self.at += 2;
        }
    }

    /// Elements up to the closing byte, with commas between them.
    fn elements<T>(&mut self, close: u8, element: fn(&mut Self) -> T) -> Vec<T> {
        let mut elements = Vec::new();
        self.at += 1;
        while !self.takes(close) {
            elements.push(element(self));
            self.takes(b',');
        }
        elements
    }

    fn entry(&mut self) -> (String, Json) {
        let key = self.string();
        self.take(b':');
        (key, self.value())
    }

    fn value(&mut self) -> Json {
        match self.peek().expect("a value") {
            b'[' => Json::List(self.elements(b']', Self::value)),
            b'{' => Json::Record(self.elements(b'}', Self::entry)),
            b'"' => Json::Text(self.string()),
            _ => match self.run(|byte| byte == b'-' || byte.is_ascii_alphanumeric()) {
                "null" => Json::Null,
                "true" => Json::Flag(true),
                "false" => Json::Flag(false),
                word if word.bytes().any(|byte| byte.is_ascii_alphabetic()) => panic!("`{}` is no value", word),
                digits => Json::Number(digits.to_string()),
            },
        }
    }
}

/// The values of a text that has one after the other.
pub fn parse(text: &str) -> Vec<Json> {
    let mut reader = Reader { text: text.as_bytes(), at: 0 };
    let mut values = Vec::new();
    while reader.peek().is_some() {
        values.push(reader.value());
    }
    values
}
