//! Answers a script of calls, one answer line a call, as the Python model of document 01 does.
//!
//! `variant-script --help` says how they are written (help.txt).
mod beside;
mod parse;
mod poke;
mod session;
mod sha256;

use session::Session;
use std::fs::File;
use std::io::{self, BufRead, BufReader, BufWriter, Read, Write};
use std::process::ExitCode;

fn main() -> ExitCode {
    match run() {
        Ok(()) => ExitCode::SUCCESS,
        Err(message) => {
            eprintln!("variant-script: {message}");
            ExitCode::from(2)
        }
    }
}

fn run() -> Result<(), String> {
    let mut words: Vec<_> = std::env::args().skip(1).collect();
    if words == ["--help"] {
        print!("{}", include_str!("help.txt"));
        return Ok(());
    }
    let listing = words.first().is_some_and(|w| w == "--listing");
    words.drain(..usize::from(listing));
    let input: Box<dyn Read> = match &words[..] {
        [] => Box::new(io::stdin()),
        [file] if !file.starts_with('-') => Box::new(File::open(file).map_err(|e| format!("{file}: {e}"))?),
        _ => return Err("usage: variant-script [--listing] [FILE], or --help".into()),
    };
    let mut out = BufWriter::with_capacity(1 << 16, io::stdout().lock());
    let answered = answers(BufReader::with_capacity(1 << 16, input), &mut out, listing);
    let written = out.flush();
    match answered.and(written.map_err(|e| e.to_string())) {
        // whoever reads the answers has had enough
        Err(message) if message.contains("Broken pipe") => Ok(()),
        result => result,
    }
}

/// The answer to each line, written out. A line ends with a line feed, a carriage return, or both.
fn answers(mut input: impl BufRead, out: &mut impl Write, listing: bool) -> Result<(), String> {
    let mut session = Session::new(listing);
    let (mut line, mut answer) = (Vec::new(), String::new());
    let mut number = 0;
    while input.read_until(b'\n', &mut line).map_err(|e| e.to_string())? != 0 {
        let text = String::from_utf8_lossy(&line);
        let ended = text.strip_suffix('\n').unwrap_or(&text);
        for text in ended.strip_suffix('\r').unwrap_or(ended).split('\r') {
            number += 1;
            answer.clear();
            session.answer(text, &mut answer).map_err(|expected| format!("line {number}: expected {expected}"))?;
            out.write_all(answer.as_bytes()).map_err(|e| e.to_string())?;
        }
        line.clear();
    }
    Ok(())
}
