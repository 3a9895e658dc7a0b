//! As much of JSON as lines need: the numbers of the program are whole, and it names no member twice.

use std::fmt::Write;

/// How deep values may nest, as in the program.
const MOST_DEPTH: usize = 127;

/// A JSON value.
#[derive(Clone, Debug, PartialEq, Eq)]
pub enum Value {
    Null,
    Bool(bool),
    Number(u64),
    Text(String),
    Array(Vec<Value>),
    /// Members in their order.
    Object(Vec<(String, Value)>),
}

impl Value {
    /// The member of this name, where the value is an object that has one.
    pub fn get(&self, name: &str) -> Option<&Value> {
        match self {
            Value::Object(members) => members.iter().find(|(it, _)| it == name).map(|(_, value)| value),
            _ => None,
        }
    }

    /// The same, of several members of this name the last one.
    pub(crate) fn last(&self, name: &str) -> Option<&Value> {
        match self {
            Value::Object(members) => members.iter().rfind(|(it, _)| it == name).map(|(_, value)| value),
            _ => None,
        }
    }

    pub fn as_bool(&self) -> Option<bool> {
        match self {
            Value::Bool(it) => Some(*it),
            _ => None,
        }
    }

    pub fn as_number(&self) -> Option<u64> {
        match self {
            Value::Number(it) => Some(*it),
            _ => None,
        }
    }

    pub fn as_text(&self) -> Option<&str> {
        match self {
            Value::Text(it) => Some(it),
            _ => None,
        }
    }

    pub fn as_array(&self) -> Option<&[Value]> {
        match self {
            Value::Array(it) => Some(it),
            _ => None,
        }
    }

    /// Reads a text that is one value; none of any other text.
    pub fn read(text: &str) -> Option<Value> {
        let mut reader = Reader { text, at: 0 };
        let value = reader.value(0)?;
        reader.skip();
        (reader.at == text.len()).then_some(value)
    }

    /// Writes the value behind what stands in `out`, without white space.
    pub fn write(&self, out: &mut String) {
        match self {
            Value::Null => out.push_str("null"),
            Value::Bool(it) => out.push_str(if *it { "true" } else { "false" }),
            Value::Number(it) => out.push_str(&it.to_string()),
            Value::Text(it) => write_text(it, out),
            Value::Array(items) => {
                out.push('[');
                for (place, it) in items.iter().enumerate() {
                    out.push_str(if place > 0 { "," } else { "" });
                    it.write(out);
                }
                out.push(']');
            }
            Value::Object(members) => {
                out.push('{');
                for (place, (name, it)) in members.iter().enumerate() {
                    out.push_str(if place > 0 { "," } else { "" });
                    write_text(name, out);
                    out.push(':');
                    it.write(out);
                }
                out.push('}');
            }
        }
    }
}

/// Writes a text in quotes.
pub fn write_text(text: &str, out: &mut String) {
    out.push('"');
    for letter in text.chars() {
        match letter {
            '"' => out.push_str("\\\""),
            '\\' => out.push_str("\\\\"),
            '\0'..='\x1f' => write!(out, "\\u{:04x}", letter as u32).expect("a string takes all"),
            _ => out.push(letter),
        }
    }
    out.push('"');
}

struct Reader<'a> {
    text: &'a str,
    at: usize,
}

impl Reader<'_> {
    fn rest(&self) -> &[u8] {
        &self.text.as_bytes()[self.at..]
    }

    fn skip(&mut self) {
        self.at += self.rest().iter().take_while(|it| b" \t\r\n".contains(it)).count();
    }

    /// Reads these bytes behind white space; none where others stand there.
    fn take(&mut self, word: &str) -> Option<()> {
        self.skip();
        self.rest().starts_with(word.as_bytes()).then(|| self.at += word.len())
    }

    fn value(&mut self, depth: usize) -> Option<Value> {
        self.skip();
        match *self.rest().first()? {
            b'n' => self.take("null").map(|()| Value::Null),
            b't' => self.take("true").map(|()| Value::Bool(true)),
            b'f' => self.take("false").map(|()| Value::Bool(false)),
            b'"' => self.string().map(Value::Text),
            b'0'..=b'9' => self.number(),
            b'[' if depth < MOST_DEPTH => self.list('[', ']', |it| it.value(depth + 1)).map(Value::Array),
            b'{' if depth < MOST_DEPTH => self.list('{', '}', |it| it.member(depth + 1)).map(Value::Object),
            _ => None,
        }
    }

    /// Items between brackets, with commas between them.
    fn list<T>(&mut self, open: char, close: char, item: impl Fn(&mut Self) -> Option<T>) -> Option<Vec<T>> {
        self.take(open.encode_utf8(&mut [0; 4]))?;
        let mut items = Vec::new();
        if self.take(close.encode_utf8(&mut [0; 4])).is_some() {
            return Some(items);
        }
        loop {
            items.push(item(self)?);
            if self.take(",").is_none() {
                return self.take(close.encode_utf8(&mut [0; 4])).map(|()| items);
            }
        }
    }

    fn member(&mut self, depth: usize) -> Option<(String, Value)> {
        let name = self.string()?;
        self.take(":")?;
        Some((name, self.value(depth)?))
    }

    /// A whole number of 64 bits. The program writes no others.
    fn number(&mut self) -> Option<Value> {
        let count = self.rest().iter().take_while(|it| it.is_ascii_digit()).count();
        let digits = &self.text[self.at..self.at + count];
        self.at += count;
        let is_whole = !matches!(self.rest().first(), Some(b'.' | b'e' | b'E'));
        let is_plain = digits == "0" || !digits.starts_with('0');
        if is_whole && is_plain {
            digits.parse().ok().map(Value::Number)
        } else {
            None
        }
    }

    fn string(&mut self) -> Option<String> {
        self.take("\"")?;
        let mut text = String::new();
        loop {
            let letter = self.text[self.at..].chars().next()?;
            self.at += letter.len_utf8();
            match letter {
                '"' => return Some(text),
                '\\' => text.push(self.escaped()?),
                '\0'..='\x1f' => return None,
                _ => text.push(letter),
            }
        }
    }

    /// The letter that is told behind a backslash.
    fn escaped(&mut self) -> Option<char> {
        let sign = *self.rest().first()?;
        self.at += 1;
        match sign {
            b'"' | b'\\' | b'/' => Some(sign as char),
            b'b' => Some('\u{8}'),
            b'f' => Some('\u{c}'),
            b'n' => Some('\n'),
            b'r' => Some('\r'),
            b't' => Some('\t'),
            b'u' => self.told_by_number(),
            _ => None,
        }
    }

    /// The letter of four digits, or of a pair of surrogates.
    fn told_by_number(&mut self) -> Option<char> {
        let first = self.four_digits()?;
        if !(0xd800..0xdc00).contains(&first) {
            return char::from_u32(first);
        }
        let is_pair = self.rest().starts_with(b"\\u");
        self.at += if is_pair { 2 } else { 0 };
        let second = if is_pair { self.four_digits()? } else { 0 };
        let low = second.checked_sub(0xdc00).filter(|it| *it < 0x400)?;
        char::from_u32(0x10000 + ((first - 0xd800) << 10) + low)
    }

    fn four_digits(&mut self) -> Option<u32> {
        let digits = self.text.get(self.at..self.at + 4).filter(|it| it.bytes().all(|byte| byte.is_ascii_hexdigit()))?;
        self.at += 4;
        u32::from_str_radix(digits, 16).ok()
    }
}

#[cfg(test)]
mod tests {
    use super::Value::{self, Array, Bool, Null, Number, Object, Text};

    fn text(it: &str) -> Value {
        Text(it.to_string())
    }

    #[test]
    fn values_are_read() {
        for (told, value) in [
            ("null", Null),
            (" true ", Bool(true)),
            ("0", Number(0)),
            ("18446744073709551615", Number(u64::MAX)),
            ("\"\"", text("")),
            ("[]", Array(vec![])),
            ("[ ]", Array(vec![])),
            ("{}", Object(vec![])),
            ("[1,[false]]", Array(vec![Number(1), Array(vec![Bool(false)])])),
            ("{\"a\" : 1 , \"b\":{}}\r\n", Object(vec![("a".to_string(), Number(1)), ("b".to_string(), Object(vec![]))])),
            // RFC 8259, 7: the G clef is told by a pair of surrogates
            (r#""\u0061\"\\\/\b\f\n\r\t\uD834\uDD1Eé""#, text("a\"\\/\u{8}\u{c}\n\r\t\u{1d11e}é")),
        ] {
            assert_eq!(Value::read(told), Some(value), "{told}");
        }
    }

    #[test]
    fn what_is_no_value_is_refused() {
        let bad = [
            "",
            " ",
            "nul",
            "truex",
            "1 2",
            "01",
            "1.0",
            "1e0",
            "-1",
            "18446744073709551616",
            "\"",
            "\"\\\"",
            "\"\\x\"",
            "\"\\u00\"",
            "\"\\u+061\"",
            "\"\\ud834\"",
            "\"\\ud834\\u0061\"",
            "\"\\udd1e\"",
            "\"\t\"",
            "[",
            "[1",
            "[1,]",
            "[,1]",
            "[1 2]",
            "{",
            "{\"a\"}",
            "{\"a\":}",
            "{a:1}",
            "{\"a\":1,}",
            "]",
        ];
        for told in bad {
            assert_eq!(Value::read(told), None, "{told}");
        }
    }

    #[test]
    fn values_nest_as_deep_as_in_the_program() {
        for (depth, is_read) in [(1, true), (127, true), (128, false), (100_000, false)] {
            let told = "[".repeat(depth) + &"]".repeat(depth);
            assert_eq!(Value::read(&told).is_some(), is_read, "{depth}");
        }
    }

    #[test]
    fn values_are_written() {
        let value = Object(vec![("a\"".to_string(), Array(vec![Null, Bool(true), Number(7)])), ("é".to_string(), text("\\\u{1}\n"))]);
        let mut told = String::from(">");
        value.write(&mut told);
        assert_eq!(told, ">{\"a\\\"\":[null,true,7],\"é\":\"\\\\\\u0001\\u000a\"}");
        assert_eq!(Value::read(&told[1..]), Some(value));
    }
}
