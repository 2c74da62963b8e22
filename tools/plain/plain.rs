//! A program of the same work as `siman show`, `check`, `audit`, `convert`, and `log` and `review` without filters, in
//! Rust with nothing but its standard library and without any proof, written to be fast: it is the yardstick that siman
//! is timed beside (`tools/growth.py`), and its answers are compared with those of siman. It goes over a recording
//! once, and for `log` once more to print it; it hashes each datagram once, keeps what it finds in columns of small
//! numbers, and writes its lines into one buffer. What it makes is on the disk before it stands in its place. Its
//! tables are as hard to flood as siman's: their keys are hashed under seeds that are drawn anew in each run.
//!
//! It is no more than that: it ends at the first thing that is wrong with a file, and does not say what.
//!
//!     rustc -O --edition 2021 -o plain plain.rs
//!     ./plain sum FILE, ./plain show REC, ./plain check REC CERT, ./plain audit REC CERT, ./plain convert OLD NEW
//!     ./plain log REC, ./plain review REC

mod audit;
mod check;
mod convert;
mod entities;
mod facts;
mod findings;
mod lives;
mod log;
mod made;
mod order;
mod orders;
mod others;
mod pdu;
mod recording;
mod review;
mod show;
mod tables;
mod text;

use std::io::{self, Write};
use std::process::ExitCode;
use std::{env, fs};
use text::Text;

const USAGE: &str = "sum FILE, show REC, check REC CERT, audit REC CERT, convert OLD NEW, log REC or review REC";

fn bad_file() -> io::Error {
    io::Error::other("bad file")
}

fn run(words: &[&str], out: &mut Text) -> io::Result<u8> {
    match words {
        ["sum", name] => {
            let sum = fs::read(name)?.iter().map(|b| u64::from(*b)).sum();
            out.number(sum)?.word("\n")?;
            Ok(0)
        }
        ["show", name] => {
            let file = fs::read(name)?;
            show::show(&recording::read(&file).ok_or_else(bad_file)?, out)
        }
        ["check", name, certificate] => {
            let file = fs::read(name)?;
            let log = recording::read(&file).ok_or_else(bad_file)?;
            let certificate = fs::read(certificate)?;
            check::check(&log, check::steps_of(&certificate).ok_or_else(bad_file)?, out)
        }
        ["audit", name, certificate] => {
            let file = fs::read(name)?;
            audit::audit(&recording::read(&file).ok_or_else(bad_file)?, certificate, out)
        }
        ["convert", old, new] => {
            let file = fs::read(old)?;
            convert::convert(&recording::read(&file).ok_or_else(bad_file)?, new, out)
        }
        ["log", name] => {
            let file = fs::read(name)?;
            log::log(&recording::read(&file).ok_or_else(bad_file)?, out)
        }
        ["review", name] => {
            let file = fs::read(name)?;
            review::review(&recording::read(&file).ok_or_else(bad_file)?, out)
        }
        _ => Err(io::Error::other(USAGE)),
    }
}

fn main() -> ExitCode {
    let words: Vec<String> = env::args().skip(1).collect();
    let words: Vec<&str> = words.iter().map(String::as_str).collect();
    let mut out = Text::new();
    match run(&words, &mut out).and_then(|status| out.flush().map(|()| status)) {
        Ok(status) => ExitCode::from(status),
        Err(error) => {
            let _ = writeln!(io::stderr(), "plain: {error}");
            ExitCode::from(2)
        }
    }
}
