//! `bench`: lists the kit of standard input by the proved monitor, with an exit status.

use model::{listing, proved};
use std::io::{self, Read, Write};
use std::process::ExitCode;

/// The exit status where the input cannot be read, and where the output cannot be written.
const UNREAD: u8 = 1;
const UNWRITTEN: u8 = 2;

fn main() -> ExitCode {
    let kit = match read() {
        Ok(kit) => kit,
        Err(error) => return failed("standard input", &error, UNREAD),
    };
    match write(&proved::text(&kit)) {
        Ok(()) => ExitCode::SUCCESS,
        Err(error) => failed("standard output", &error, UNWRITTEN),
    }
}

/// The input, up to one word behind the largest kit: more cannot change the answer.
fn read() -> io::Result<Vec<u8>> {
    let mut kit = Vec::new();
    io::stdin()
        .take(listing::LARGEST as u64 + 4)
        .read_to_end(&mut kit)?;
    Ok(kit)
}

fn write(text: &[u8]) -> io::Result<()> {
    let mut output = io::stdout().lock();
    output.write_all(text)?;
    output.flush()
}

fn failed(what: &str, error: &io::Error, status: u8) -> ExitCode {
    // The status says it too, so a standard error that cannot be written is left alone.
    let _ = writeln!(io::stderr(), "bench: {what}: {error}");
    ExitCode::from(status)
}
