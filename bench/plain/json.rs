//! Values of properties, and their JSON.

use std::str::Chars;

const MAX_DEPTH: u32 = 16;

#[derive(Clone)]
pub enum Value {
    Number(i64),
    Truth(bool),
    Color(u32),
    Text(String),
    List(Vec<Value>),
}

/// The value that a JSON text stands for.
pub fn read(bytes: &[u8]) -> Option<Value> {
    let mut reader = Reader {
        rest: std::str::from_utf8(bytes).ok()?,
    };
    let value = reader.value(0)?;
    reader.skip_blanks();
    reader.rest.is_empty().then(|| value)
}

struct Reader<'a> {
    rest: &'a str,
}

impl Reader<'_> {
    fn value(&mut self, depth: u32) -> Option<Value> {
        self.skip_blanks();
        match self.rest.bytes().next()? {
            b'"' => Some(Value::Text(self.text()?)),
            b'[' => self.array(depth),
            b't' => self.word("true").then(|| Value::Truth(true)),
            b'f' => self.word("false").then(|| Value::Truth(false)),
            _ => Some(Value::Number(self.number()?)),
        }
    }

    fn array(&mut self, depth: u32) -> Option<Value> {
        self.rest = &self.rest[1..];
        self.skip_blanks();
        match self.text()?.as_str() {
            "rgba" => {
                let members = self.members(depth)?;
                match members[..] {
                    [Value::Number(color)] => Some(Value::Color(color.try_into().ok()?)),
                    _ => None,
                }
            }
            "list" if depth < MAX_DEPTH => Some(Value::List(self.members(depth)?)),
            _ => None,
        }
    }

    /// The values after an array's first member, and its end.
    fn members(&mut self, depth: u32) -> Option<Vec<Value>> {
        let mut members = Vec::new();
        loop {
            self.skip_blanks();
            if self.word("]") {
                return Some(members);
            }
            if !self.word(",") {
                return None;
            }
            members.push(self.value(depth + 1)?);
        }
    }

    fn number(&mut self) -> Option<i64> {
        let is_part = |c: char| c.is_ascii_digit() || "+-.eE".contains(c);
        let end = self.rest.find(|c| !is_part(c)).unwrap_or(self.rest.len());
        let (word, rest) = self.rest.split_at(end);
        self.rest = rest;
        let digits = word.strip_prefix('-').unwrap_or(word);
        let is_zero_first = digits.starts_with('0') && word != "0";
        let is_whole = digits.bytes().all(|b| b.is_ascii_digit()) && !is_zero_first;
        is_whole.then(|| word.parse().ok()).flatten()
    }

    fn text(&mut self) -> Option<String> {
        let mut chars = self.rest.strip_prefix('"')?.chars();
        let mut text = String::new();
        loop {
            match chars.next()? {
                '"' => break,
                '\\' => text.push(escaped(&mut chars)?),
                c if c < ' ' => return None,
                c => text.push(c),
            }
        }
        self.rest = chars.as_str();
        Some(text)
    }

    fn word(&mut self, word: &str) -> bool {
        match self.rest.strip_prefix(word) {
            Some(rest) => {
                self.rest = rest;
                true
            }
            None => false,
        }
    }

    fn skip_blanks(&mut self) {
        self.rest = self.rest.trim_start_matches([' ', '\t', '\n', '\r']);
    }
}

/// The character of an escape, after its backslash.
fn escaped(chars: &mut Chars) -> Option<char> {
    Some(match chars.next()? {
        'b' => '\u{8}',
        'f' => '\u{c}',
        'n' => '\n',
        'r' => '\r',
        't' => '\t',
        'u' => return unicode(chars),
        c if "\"\\/".contains(c) => c,
        _ => return None,
    })
}

/// The character of four hexadecimal digits, or of a pair of surrogates.
fn unicode(chars: &mut Chars) -> Option<char> {
    let first = hex(chars)?;
    if !(0xd800..0xdc00).contains(&first) {
        return char::from_u32(first);
    }
    let is_escape = chars.next()? == '\\' && chars.next()? == 'u';
    let second = hex(chars)?;
    let is_pair = is_escape && (0xdc00..0xe000).contains(&second);
    is_pair
        .then(|| char::from_u32(0x10000 + ((first & 0x3ff) << 10) + (second & 0x3ff)))
        .flatten()
}

fn hex(chars: &mut Chars) -> Option<u32> {
    (0..4).try_fold(0, |sum, _| Some(sum * 16 + chars.next()?.to_digit(16)?))
}

/// Writes the JSON of a value, without blanks between tokens.
pub fn write(value: &Value, out: &mut Vec<u8>) {
    match value {
        Value::Number(number) => out.extend(number.to_string().bytes()),
        Value::Truth(truth) => out.extend(truth.to_string().bytes()),
        Value::Color(color) => out.extend(format!("[\"rgba\",{color}]").bytes()),
        Value::Text(text) => write_text(text, out),
        Value::List(members) => {
            out.extend(b"[\"list\"");
            for member in members {
                out.push(b',');
                write(member, out);
            }
            out.push(b']');
        }
    }
}

fn write_text(text: &str, out: &mut Vec<u8>) {
    out.push(b'"');
    for byte in text.bytes() {
        match byte {
            b'"' => out.extend(b"\\\""),
            b'\\' => out.extend(b"\\\\"),
            8 => out.extend(b"\\b"),
            12 => out.extend(b"\\f"),
            b'\n' => out.extend(b"\\n"),
            b'\r' => out.extend(b"\\r"),
            b'\t' => out.extend(b"\\t"),
            0..=31 => out.extend(format!("\\u{byte:04x}").bytes()),
            _ => out.push(byte),
        }
    }
    out.push(b'"');
}
