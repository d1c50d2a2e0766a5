//! The reference: a second program for the rules of `docs/`, which shares no
//! code with the core. It is plain and slow on purpose.
//!
//!     reference script    answers one script
//!     reference scripts   answers scripts that byte 30 separates; a line `--` follows the answers to each
//!     reference tables    answers tables, see tables.rs
//!     reference fuzz MAPPER SCRIPTS SEED
//!                         compares the program MAPPER with the reference on random scripts
//!
//! All but the last read standard input.

mod fuzz;
mod mapping;
mod random;
mod rules;
mod script;
mod tables;
#[cfg(test)]
mod tests;

use std::io::{Read, Write};

/// Every order is tried for sheets of up to this many rows.
const ORDERS_UP_TO: usize = 6;

fn main() {
    let arguments: Vec<String> = std::env::args().skip(1).collect();
    let words: Vec<&str> = arguments.iter().map(String::as_str).collect();
    match words[..] {
        ["script"] => write(&script::answers(&input(), ORDERS_UP_TO)),
        ["scripts"] => write(&many(&input())),
        ["tables"] => {
            let text = String::from_utf8(input()).expect("tables are ASCII");
            write(tables::answers(&text, ORDERS_UP_TO).as_bytes());
        }
        ["fuzz", mapper, scripts, seed] => {
            let (scripts, seed) = (scripts.parse().expect("a number of scripts"), seed.parse().expect("a seed"));
            if !fuzz::fuzz(mapper, scripts, seed) {
                std::process::exit(1);
            }
        }
        _ => {
            eprintln!("reference script | scripts | tables | fuzz MAPPER SCRIPTS SEED");
            std::process::exit(2);
        }
    }
}

fn input() -> Vec<u8> {
    let mut bytes = Vec::new();
    std::io::stdin().read_to_end(&mut bytes).expect("standard input can be read");
    bytes
}

fn write(bytes: &[u8]) {
    std::io::stdout().write_all(bytes).expect("standard output can be written");
}

/// The answers to scripts that byte 30 separates.
fn many(scripts: &[u8]) -> Vec<u8> {
    let mut text = Vec::new();
    for script in scripts.split(|byte| *byte == 30) {
        text.extend(script::answers(script, ORDERS_UP_TO));
        text.extend(b"--\n");
    }
    text
}
