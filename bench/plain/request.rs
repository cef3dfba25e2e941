//! The lines of a log, read as requests.

use crate::json::{self, Value};
use crate::position;
use crate::rules::{Change, Id, Kind, Place};

pub enum Request {
    Join,
    Edit { author: u32, change: Change },
}

/// The requests of the lines before the first that can't be read, and the number of that line.
pub fn read_requests(text: &[u8]) -> (Vec<Request>, Option<usize>) {
    let text = text.strip_suffix(b"\n").unwrap_or(text);
    let mut requests = Vec::new();
    let mut is_begun = false;
    for (i, line) in text.split(|b| *b == b'\n').enumerate() {
        if line.is_empty() || line[0] == b'#' {
            continue;
        }
        if !is_begun && line == b"log" {
            is_begun = true;
            continue;
        }
        match read_request(line) {
            Some(request) if is_begun => requests.push(request),
            _ => return (requests, Some(i + 1)),
        }
    }
    (requests, None)
}

fn read_request(line: &[u8]) -> Option<Request> {
    if line == b"join" {
        return Some(Request::Join);
    }
    let (author, rest) = cut(line, b' ')?;
    let author = read_number(author)?;
    let change = read_change(rest)?;
    Some(Request::Edit { author, change })
}

fn read_change(line: &[u8]) -> Option<Change> {
    let (verb, rest) = cut(line, b' ')?;
    if verb == b"delete" {
        return Some(Change::Delete(read_id(rest)?));
    }
    let (id, rest) = cut(rest, b' ')?;
    let id = read_id(id)?;
    match verb {
        b"create" => {
            let (kind, rest) = cut(rest, b' ')?;
            Some(Change::Create(id, Kind::read(kind)?, read_place(rest)?))
        }
        b"set" => {
            let (name, rest) = cut(rest, b' ')?;
            Some(Change::Set(id, read_name(name)?, Some(read_value(rest)?)))
        }
        b"clear" => Some(Change::Set(id, read_name(rest)?, None)),
        b"move" => Some(Change::Move(id, read_place(rest)?)),
        _ => None,
    }
}

fn read_place(words: &[u8]) -> Option<Place> {
    let (parent, pos) = cut(words, b' ')?;
    Some(Place {
        parent: read_id(parent)?,
        pos: position::read(pos)?,
    })
}

fn read_id(word: &[u8]) -> Option<Id> {
    let (client, counter) = cut(word, b':')?;
    Some(Id {
        client: read_number(client)?,
        counter: read_number(counter)?,
    })
}

fn read_number(word: &[u8]) -> Option<u32> {
    let is_zero_first = word.len() > 1 && word[0] == b'0';
    if is_zero_first || !word.iter().all(u8::is_ascii_digit) {
        return None;
    }
    std::str::from_utf8(word).ok()?.parse().ok()
}

fn read_name(word: &[u8]) -> Option<String> {
    let is_part = |b: &u8| b.is_ascii_lowercase() || b.is_ascii_digit() || *b == b'_';
    let is_name = (1..=32).contains(&word.len()) && word.iter().all(is_part);
    is_name
        .then(|| String::from_utf8(word.to_vec()).ok())
        .flatten()
}

fn read_value(words: &[u8]) -> Option<Value> {
    json::read(words)
}

/// What stands before the first of these bytes, and after it.
fn cut(words: &[u8], at: u8) -> Option<(&[u8], &[u8])> {
    let i = words.iter().position(|b| *b == at)?;
    Some((&words[..i], &words[i + 1..]))
}
