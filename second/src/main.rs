//! `second list`: the listing of standard input, with `sheet.txt` of the working folder, if there is one. `second calls`: an answer for
//! each request line.

use std::fs;
use std::io::{self, BufRead, BufReader, BufWriter, Read, Write};
use std::process::ExitCode;

fn main() -> ExitCode {
    let arguments: Vec<_> = std::env::args_os().skip(1).collect();
    let done = match arguments.as_slice() {
        [only] if only == "list" => list(),
        [only] if only == "calls" => calls(),
        _ => {
            eprintln!("usage: second list | second calls");
            return ExitCode::from(2);
        }
    };
    match done {
        Ok(()) => ExitCode::SUCCESS,
        Err(_) => ExitCode::FAILURE,
    }
}

fn list() -> io::Result<()> {
    let mut input = Vec::new();
    io::stdin().lock().read_to_end(&mut input)?;
    let mut output = io::stdout().lock();
    output.write_all(&listed(&input))?;
    output.flush()
}

/// Only a file that is not there means that there is no sheet. One that cannot be read is a bad one, as LF alone is. What is wrong with a
/// sheet is said on standard error.
fn listed(input: &[u8]) -> Vec<u8> {
    let text = match fs::read("sheet.txt") {
        Ok(text) => text,
        Err(why) if why.kind() == io::ErrorKind::NotFound => return second::listing(input),
        Err(why) => {
            eprintln!("sheet.txt: {why}");
            return second::listing_with(input, b"\n");
        }
    };
    let listing = second::listing_with(input, &text);
    if let (REFUSED, Some(fault)) = (&listing[..], second::sheet::fault(&text)) {
        eprintln!("sheet.txt: line {}: {}", fault.line, fault.test.name());
    }
    listing
}

/// What a bad sheet gives.
const REFUSED: &[u8] = b"{\"refused\":10}\n";

/// Answers are handed on when no further request has arrived.
fn calls() -> io::Result<()> {
    let mut input = BufReader::with_capacity(1 << 20, io::stdin().lock());
    let mut output = BufWriter::new(io::stdout().lock());
    let mut line = Vec::new();
    while input.read_until(b'\n', &mut line)? > 0 {
        let request = line.strip_suffix(b"\n").unwrap_or(&line);
        output.write_all(&second::answer(request))?;
        output.write_all(b"\n")?;
        if input.buffer().is_empty() {
            output.flush()?;
        }
        line.clear();
    }
    output.flush()
}
