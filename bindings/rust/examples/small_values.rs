//! Writes every small value that is read over the dictionary 01 00 00 as one batch file: `small_values LENGTH FILE`, LENGTH 1, 2 or 3.
use std::env::args;
use std::process::ExitCode;
use std::{fs, io};
use variant_writer::{small_values, BatchReader};

fn main() -> ExitCode {
    let words: Vec<_> = args().skip(1).collect();
    let [length, path] = &words[..] else {
        eprintln!("usage: small_values LENGTH FILE");
        return ExitCode::from(2);
    };
    match write(length, path) {
        Ok(told) => {
            println!("{told}");
            ExitCode::SUCCESS
        }
        Err(message) => {
            eprintln!("small_values: {message}");
            ExitCode::FAILURE
        }
    }
}

fn write(length: &str, path: &str) -> Result<String, String> {
    let length = length.parse().map_err(|_| format!("a number of bytes, 1, 2 or 3, for {length:?}"))?;
    let file = small_values(length).map_err(|refusal| refusal.to_string())?;
    fs::write(path, &file).map_err(|e: io::Error| format!("{path}: {e}"))?;
    let count = BatchReader::new(&file).map_err(|refusal| refusal.to_string())?.count();
    Ok(format!("{path}: {count} values, {} bytes", file.len()))
}
