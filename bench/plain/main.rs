//! plain maps|hash < LOG, plain sqlite FILE < LOG: what `scene` does with a log, in ordinary Rust
//! without proofs, byte for byte the same output. The document stands in two ordered maps, in hash
//! maps, or in the tables of a SQLite file.

mod hash;
mod json;
mod maps;
mod play;
mod position;
mod request;
mod rules;
#[cfg(sqlite)]
mod sqlite;

use crate::play::{play, write_report};
use crate::request::read_requests;
use crate::rules::Store;
use std::io::{self, Read, Write};
use std::process::exit;

fn main() -> io::Result<()> {
    let words: Vec<String> = std::env::args().skip(1).collect();
    let words: Vec<&str> = words.iter().map(String::as_str).collect();
    match words[..] {
        ["maps"] => run(maps::Maps::new()),
        ["hash"] => run(hash::Hash::new()),
        #[cfg(sqlite)]
        ["sqlite", file] => run(sqlite::Tables::new(file)),
        _ => {
            eprintln!("usage: plain maps|hash < LOG, plain sqlite FILE < LOG");
            exit(2)
        }
    }
}

fn run(mut store: impl Store) -> io::Result<()> {
    let mut text = Vec::new();
    io::stdin().read_to_end(&mut text)?;
    let (requests, bad_line) = read_requests(&text);
    let mut out = Vec::new();
    let log = play(&mut store, requests, &mut out)?;
    if bad_line.is_none() {
        writeln!(out, "version {}", log.len())?;
        write_report(&store, &mut out)?;
    }
    io::stdout().write_all(&out)?;
    if let Some(line) = bad_line {
        eprintln!("line {line}: cannot read");
        exit(2)
    }
    Ok(())
}
