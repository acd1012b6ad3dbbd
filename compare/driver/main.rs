//! Answers the commands of the line tool with zarrs, and makes up commands to ask both.
//!
//! `driver answer` reads commands on standard input; `driver generate SEED COUNT BYTES` makes up at least COUNT commands,
//! over arrays of up to BYTES bytes. Both print each command after `> `, and on the next line what zarrs answers. Where the
//! rules have another answer, ` | `, the class of the difference and the answer by the rules follow on that line. `driver cache`
//! holds the cache places of all lists of singles against the rule.

mod answer;
mod chain;
mod chunk;
mod codecs;
mod fletcher32_padded;
mod generate;
mod numbers;
mod rules;
mod session;
mod singles;
mod words;

use std::env;
use std::io::{self, BufRead, BufWriter, Write};
use std::process::ExitCode;

use session::Session;

const USAGE: &str = "usage: driver answer < COMMANDS, driver generate SEED COUNT BYTES, or driver cache";

fn answer_all(out: &mut dyn Write) -> io::Result<()> {
    let mut session = Session::default();
    for line in io::stdin().lock().lines() {
        let line = line?;
        if !line.trim().is_empty() && !line.starts_with('#') {
            writeln!(out, "> {line}\n{}", session.answer(&line))?;
        }
    }
    Ok(())
}

fn main() -> ExitCode {
    answer::keep_panics_quiet();
    codecs::register_all();
    let arguments: Vec<String> = env::args().skip(1).collect();
    let arguments: Vec<&str> = arguments.iter().map(String::as_str).collect();
    let mut out = BufWriter::new(io::stdout().lock());
    let done = match arguments.as_slice() {
        ["answer"] => answer_all(&mut out),
        ["cache"] => singles::cache_all(&mut out),
        ["generate", seed, count, bytes] => match (seed.parse(), count.parse(), bytes.parse()) {
            (Ok(seed), Ok(count), Ok(bytes)) => generate::generate(seed, count, bytes, &mut out),
            _ => Err(io::Error::other(USAGE)),
        },
        _ => Err(io::Error::other(USAGE)),
    };
    match done.and_then(|()| out.flush()) {
        Ok(()) => ExitCode::SUCCESS,
        Err(error) => {
            eprintln!("driver: {error}");
            ExitCode::FAILURE
        }
    }
}
