// The Rust as judge. README.md says what the commands do.

// The given Rust names these crates; the root of this one has what it wants of them.
extern crate self as eyre;
extern crate self as libc;
extern crate self as memchr;
extern crate self as memmap2;
extern crate self as rayon;
extern crate self as rustc_hash;

mod answer;
mod compare;
mod make;
mod plain;
mod rust;
#[cfg(test)]
mod sheet;
mod stand_in;
mod text;
pub use stand_in::*;

// The given Rust: modules bpe, token, input and pretokenize.
include!(concat!(env!("OUT_DIR"), "/given/modules.rs"));

use std::io::{self, BufRead, BufWriter, Write};
use std::process::ExitCode;

fn answer() -> io::Result<()> {
    let mut out = BufWriter::new(io::stdout().lock());
    let mut answerer = answer::Answerer::default();
    for line in io::stdin().lock().lines() {
        writeln!(out, "{}", answerer.line(&line?))?;
    }
    out.flush()
}

fn make(seed: u64, commands: u64) -> io::Result<()> {
    let mut out = BufWriter::new(io::stdout().lock());
    let mut left = commands;
    for number in 0.. {
        if left == 0 {
            break;
        }
        let most = left.min(make::CHUNK as u64);
        for line in make::chunk(seed, number, most as usize).0 {
            writeln!(out, "{line}")?;
        }
        left -= most;
    }
    out.flush()
}

// Done, or one line of what is wrong.
fn run(words: &[&str]) -> Result<bool, String> {
    let number = |word: &str| word.parse::<u64>().map_err(|_| format!("{word} is no number"));
    let done = match *words {
        ["answer"] => answer().map(|()| true),
        ["make", seed, commands] => make(number(seed)?, number(commands)?).map(|()| true),
        ["compare", program, seed, commands] => compare::compare(program, number(seed)?, number(commands)?, 2),
        ["compare", program, seed, commands, threads] => {
            compare::compare(program, number(seed)?, number(commands)?, number(threads)?)
        }
        _ => return Err("oracle answer | oracle make SEED N | oracle compare PROGRAM SEED N [THREADS]".into()),
    };
    done.map_err(|e| e.to_string())
}

fn main() -> ExitCode {
    let words: Vec<String> = std::env::args().skip(1).collect();
    let words: Vec<&str> = words.iter().map(String::as_str).collect();
    match run(&words) {
        Ok(true) => ExitCode::SUCCESS,
        Ok(false) => ExitCode::FAILURE,
        Err(why) => {
            eprintln!("{why}");
            ExitCode::from(2)
        }
    }
}
