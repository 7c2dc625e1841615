//! `symbols FILE`: prints the value and the name of each symbol of an ELF-64 file; of any other file
//! the first rule that it breaks and where, with status 1.

use std::io::{self, Write};
use std::process::ExitCode;

fn main() -> io::Result<ExitCode> {
    let path = match std::env::args_os().nth(1) {
        Some(path) => path,
        None => {
            eprintln!("usage: symbols FILE");
            return Ok(ExitCode::from(2));
        }
    };
    let bytes = std::fs::read(path)?;
    let file = match elfmap::File::parse(&bytes) {
        Ok(file) => file,
        Err(refusal) => {
            println!("refused {} {}", refusal.rule, refusal.offset);
            return Ok(ExitCode::from(1));
        }
    };
    let mut out = io::stdout().lock();
    for index in 0..file.sections().len() {
        for symbol in file.symbols(index).into_iter().flatten() {
            // Other bytes are escaped, because a terminal may obey them.
            writeln!(out, "{:#x} {}", symbol.st_value, symbol.name.escape_ascii())?;
        }
    }
    Ok(ExitCode::SUCCESS)
}
