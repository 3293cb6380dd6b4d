//! Reads a text of JSON (RFC 8259), as far as a node's answers need it.

/// How deep lists and objects may be nested.
const DEEPEST: usize = 100;

/// A value of JSON.
#[derive(Clone, Debug, PartialEq)]
pub(crate) enum Json {
    Null,
    Truth(bool),
    /// A whole number from 0 to 2^64 - 1.
    Number(u64),
    /// Any other number, of which no answer that is read has one.
    OtherNumber,
    Text(String),
    List(Vec<Json>),
    /// The fields in their order.
    Object(Vec<(String, Json)>),
}

impl Json {
    /// The value at a key of an object. If the key is there twice, the last counts.
    pub(crate) fn get(&self, key: &str) -> Option<&Json> {
        match self {
            Json::Object(fields) => fields.iter().rev().find(|it| it.0 == key).map(|it| &it.1),
            _ => None,
        }
    }
}

/// The value of a whole text, or in words what is wrong with it.
pub(crate) fn read(bytes: &[u8]) -> Result<Json, String> {
    let text = std::str::from_utf8(bytes).map_err(|error| error.to_string())?;
    let mut reader = Reader { text, at: 0 };
    let value = reader.value(0)?;
    reader.skip();
    if reader.at < text.len() {
        return reader.fault("more text");
    }
    Ok(value)
}

/// A text, and how far it was read.
struct Reader<'a> {
    text: &'a str,
    at: usize,
}

impl<'a> Reader<'a> {
    fn fault<T>(&self, what: &str) -> Result<T, String> {
        Err(format!("{what} at byte {}", self.at))
    }

    fn peek(&self) -> Option<u8> {
        self.text.as_bytes().get(self.at).copied()
    }

    /// Takes a byte if it is the next one.
    fn takes(&mut self, byte: u8) -> bool {
        let is_next = self.peek() == Some(byte);
        self.at += usize::from(is_next);
        is_next
    }

    /// Takes all bytes from here on that are such.
    fn take_while(&mut self, is_such: impl Fn(u8) -> bool) -> &'a str {
        let text = self.text;
        let from = self.at;
        while self.peek().map_or(false, &is_such) {
            self.at += 1;
        }
        &text[from..self.at]
    }

    fn skip(&mut self) {
        self.take_while(|it| matches!(it, b' ' | b'\t' | b'\n' | b'\r'));
    }

    fn value(&mut self, depth: usize) -> Result<Json, String> {
        if depth > DEEPEST {
            return self.fault("values nested too deep");
        }
        self.skip();
        match self.peek() {
            Some(b'{') => self.object(depth),
            Some(b'[') => self.list(depth),
            Some(b'"') => Ok(Json::Text(self.string()?)),
            Some(b'-' | b'0'..=b'9') => self.number(),
            _ => match self.take_while(|it| it.is_ascii_alphabetic()) {
                "null" => Ok(Json::Null),
                "true" => Ok(Json::Truth(true)),
                "false" => Ok(Json::Truth(false)),
                _ => self.fault("no value"),
            },
        }
    }

    fn list(&mut self, depth: usize) -> Result<Json, String> {
        let mut items = Vec::new();
        self.at += 1;
        self.skip();
        if self.takes(b']') {
            return Ok(Json::List(items));
        }
        loop {
            items.push(self.value(depth + 1)?);
            self.skip();
            if self.takes(b']') {
                return Ok(Json::List(items));
            }
            if !self.takes(b',') {
                return self.fault("a list that doesn't go on");
            }
        }
    }

    fn object(&mut self, depth: usize) -> Result<Json, String> {
        let mut fields = Vec::new();
        self.at += 1;
        self.skip();
        if self.takes(b'}') {
            return Ok(Json::Object(fields));
        }
        loop {
            self.skip();
            let key = self.string()?;
            self.skip();
            if !self.takes(b':') {
                return self.fault("a key without a value");
            }
            fields.push((key, self.value(depth + 1)?));
            self.skip();
            if self.takes(b'}') {
                return Ok(Json::Object(fields));
            }
            if !self.takes(b',') {
                return self.fault("an object that doesn't go on");
            }
        }
    }

    fn digits(&mut self) -> Result<&'a str, String> {
        match self.take_while(|it| it.is_ascii_digit()) {
            "" => self.fault("a number without a digit"),
            digits => Ok(digits),
        }
    }

    fn number(&mut self) -> Result<Json, String> {
        let is_negative = self.takes(b'-');
        let digits = self.digits()?;
        if digits.len() > 1 && digits.starts_with('0') {
            return self.fault("a number that begins with 0");
        }
        let mut is_whole = !is_negative;
        if self.takes(b'.') {
            self.digits()?;
            is_whole = false;
        }
        if self.takes(b'e') || self.takes(b'E') {
            let _has_sign = self.takes(b'+') || self.takes(b'-');
            self.digits()?;
            is_whole = false;
        }
        match digits.parse() {
            Ok(number) if is_whole => Ok(Json::Number(number)),
            _ => Ok(Json::OtherNumber),
        }
    }

    fn string(&mut self) -> Result<String, String> {
        if !self.takes(b'"') {
            return self.fault("no text");
        }
        let mut text = String::new();
        loop {
            text.push_str(self.take_while(|it| it >= 0x20 && it != b'"' && it != b'\\'));
            if self.takes(b'"') {
                return Ok(text);
            }
            if !self.takes(b'\\') {
                return self.fault("a text that doesn't end");
            }
            text.push(self.escaped()?);
        }
    }

    /// The character that stands behind a backslash.
    fn escaped(&mut self) -> Result<char, String> {
        let kind = self.peek();
        self.at += usize::from(kind.is_some());
        match kind {
            Some(it @ (b'"' | b'\\' | b'/')) => Ok(char::from(it)),
            Some(b'b') => Ok('\u{8}'),
            Some(b'f') => Ok('\u{c}'),
            Some(b'n') => Ok('\n'),
            Some(b'r') => Ok('\r'),
            Some(b't') => Ok('\t'),
            Some(b'u') => self.unit(),
            _ => self.fault("a backslash before something else"),
        }
    }

    /// The character of one unit of UTF-16, or of two. A half of such a pair is read as U+FFFD.
    fn unit(&mut self) -> Result<char, String> {
        let first = self.hex()?;
        if !(0xd800..0xdc00).contains(&first) || !self.text[self.at..].starts_with("\\u") {
            return Ok(char::from_u32(first).unwrap_or('\u{fffd}'));
        }
        let before = self.at;
        self.at += 2;
        let second = self.hex()?;
        if (0xdc00..0xe000).contains(&second) {
            let both = 0x10000 + ((first - 0xd800) << 10) + (second - 0xdc00);
            return Ok(char::from_u32(both).unwrap_or('\u{fffd}'));
        }
        self.at = before;
        Ok('\u{fffd}')
    }

    fn hex(&mut self) -> Result<u32, String> {
        let digits = self.text.get(self.at..self.at + 4).unwrap_or("");
        if digits.len() != 4 || !digits.bytes().all(|it| it.is_ascii_hexdigit()) {
            return self.fault("four hex digits are missing");
        }
        self.at += 4;
        u32::from_str_radix(digits, 16).map_err(|error| error.to_string())
    }
}

#[cfg(test)]
mod tests {
    use super::{read, Json, DEEPEST};

    fn text(it: &str) -> Json {
        Json::Text(it.into())
    }

    #[test]
    fn values() {
        let list = |items: &[Json]| Json::List(items.to_vec());
        let rows = [
            ("null", Json::Null),
            (" \t\r\n true ", Json::Truth(true)),
            ("false", Json::Truth(false)),
            ("0", Json::Number(0)),
            ("18446744073709551615", Json::Number(u64::MAX)),
            ("18446744073709551616", Json::OtherNumber),
            ("-0", Json::OtherNumber),
            ("-12", Json::OtherNumber),
            ("1.0", Json::OtherNumber),
            ("1e0", Json::OtherNumber),
            ("2.5E-3", Json::OtherNumber),
            ("[]", list(&[])),
            ("[ ]", list(&[])),
            (
                "[1 , [2],{}]",
                list(&[
                    Json::Number(1),
                    list(&[Json::Number(2)]),
                    Json::Object(vec![]),
                ]),
            ),
            (r#""""#, text("")),
            (
                r#""é\u00e9\"\\\/\b\f\n\r\t""#,
                text("éé\"\\/\u{8}\u{c}\n\r\t"),
            ),
            (
                r#""\ud83d\ude00 \uD83D \ud83d\u0041 \ude00""#,
                text("😀 \u{fffd} \u{fffd}A \u{fffd}"),
            ),
        ];
        for (from, wanted) in rows {
            assert_eq!(read(from.as_bytes()), Ok(wanted), "{from}");
        }
    }

    #[test]
    fn fields() {
        let value = read(br#" { "a" : 1 ,"b":{"a":2}, "a":[3] } "#).unwrap();
        assert_eq!(value.get("a"), Some(&Json::List(vec![Json::Number(3)])));
        assert_eq!(
            value.get("b").and_then(|it| it.get("a")),
            Some(&Json::Number(2))
        );
        assert_eq!(value.get("A"), None);
        assert_eq!(Json::Null.get("a"), None);
    }

    #[test]
    fn faults() {
        let rows = [
            "",
            " ",
            "nul",
            "nulll",
            "True",
            "01",
            "-",
            "-a",
            "1.",
            ".5",
            "1e",
            "1e+",
            "+1",
            "[",
            "[1",
            "[1,",
            "[1,]",
            "[,1]",
            "[1 2]",
            "]",
            "{",
            "{}}",
            "{1:2}",
            r#"{"a"}"#,
            r#"{"a":}"#,
            r#"{"a":1,}"#,
            r#"{"a":1 "b":2}"#,
            r#"""#,
            r#""a"#,
            "\"\n\"",
            r#""\"#,
            r#""\x""#,
            r#""\u12""#,
            r#""\u12g4""#,
            r#""\u+123""#,
            r#""\ud83d\u""#,
            "1 2",
            "\u{feff}1",
            "'a'",
            "NaN",
        ];
        for from in rows {
            assert!(read(from.as_bytes()).is_err(), "{from}");
        }
        assert!(read(b"\"\xff\"").is_err());
    }

    #[test]
    fn depths() {
        let nested = |depth: usize| format!("{}{}", "[".repeat(depth), "]".repeat(depth));
        assert!(read(nested(DEEPEST).as_bytes()).is_ok());
        assert!(read(nested(DEEPEST + 2).as_bytes()).is_err());
        assert!(read("[".repeat(1_000_000).as_bytes()).is_err());
    }

    /// A value that is cut off behind any of its bytes is none, and does no harm.
    #[test]
    fn beginnings() {
        let whole = r#"{"name":"\u00e9é","n":[10,{"t":true,"z":null,"x":"\ud83d\ude00"}]}"#;
        for end in 0..whole.len() {
            assert!(read(&whole.as_bytes()[..end]).is_err(), "{end}");
        }
        assert!(read(whole.as_bytes()).is_ok());
    }
}
