//! `kit`: from the text form of a kit to its bytes, back again, and to the model's listing.

use model::plot::{self, Range};
use model::{conformance, kit, listing, script, Deviation};
use std::io::{Read, Write};
use std::path::Path;
use std::process::ExitCode;

const USAGE: &str = "kit assemble FILE   a kit's text to its bytes
kit show FILE       a kit's bytes to text
kit list FILE       the model's listing of a kit
kit tell FILE       the deviations that a kit tells from document 01
kit plot FILE [FROM TO]
                    a timing picture of a kit's cycles, as SVG; FILE may be a text, NAME.txt
kit power KITS      for each deviation the kits of a folder that tell it
kit conformance KITS CRATE
                    a folder's kits to data/, args and stdout of a crate's folder
kit script FILE.txt a script of calls, run by the model
kit scripts SCRIPTS a folder's scripts, run by the model, in the plain form for a board
FILE may be -, for standard input.
";

fn main() -> ExitCode {
    let arguments: Vec<String> = std::env::args_os()
        .skip(1)
        .map(|argument| argument.to_string_lossy().into_owned())
        .collect();
    let answer = match arguments.iter().map(String::as_str).collect::<Vec<_>>()[..] {
        ["assemble", file] => read(file).and_then(|text| assemble(file, &text)),
        ["show", file] => read(file).map(|bytes| kit::show(&bytes).into_bytes()),
        ["list", file] => read(file).map(|bytes| listing::list(&bytes).into_bytes()),
        ["tell", file] => read(file).map(|bytes| tell(&bytes).into_bytes()),
        ["plot", file] => plot(file, Range::default()),
        ["plot", file, from, to] => range(from, to).and_then(|range| plot(file, range)),
        ["power", kits] => power(kits),
        ["conformance", kits, folder] => make_conformance(kits, folder),
        ["script", file] => run_script(file),
        ["scripts", folder] => plain_scripts(folder),
        _ => Err(USAGE.into()),
    };
    match answer.and_then(|bytes| write(&bytes)) {
        Ok(()) => ExitCode::SUCCESS,
        Err(reason) => {
            let _ = writeln!(std::io::stderr(), "{}", reason.trim_end());
            ExitCode::from(1)
        }
    }
}

fn read(file: &str) -> Result<Vec<u8>, String> {
    let mut bytes = Vec::new();
    let read = match file {
        "-" => std::io::stdin().read_to_end(&mut bytes).map(|_| bytes),
        _ => std::fs::read(file),
    };
    read.map_err(|error| format!("{file}: {error}"))
}

fn write(bytes: &[u8]) -> Result<(), String> {
    let mut out = std::io::stdout().lock();
    out.write_all(bytes)
        .and_then(|()| out.flush())
        .map_err(|error| format!("standard output: {error}"))
}

fn assemble(file: &str, bytes: &[u8]) -> Result<Vec<u8>, String> {
    let assembled = kit::text(bytes).and_then(kit::assemble);
    assembled.map_err(|fault| format!("{file}: {fault}"))
}

fn plot(file: &str, range: Range) -> Result<Vec<u8>, String> {
    let picture = plot::file(file, &read(file)?, range);
    let picture = picture.map_err(|fault| format!("{file}: {fault}"))?;
    Ok(picture.into_bytes())
}

/// The cycles from one to another.
fn range(from: &str, to: &str) -> Result<Range, String> {
    let number = |text: &str| text.parse().ok();
    let range = number(from).zip(number(to));
    let range = range.and_then(|(from, to)| Range::new(from, to));
    range.ok_or_else(|| format!("{from} to {to}: cycles count from 1 on, FROM up to TO"))
}

/// The files of a crate that runs a folder's kits: what was written.
fn make_conformance(kits: &str, folder: &str) -> Result<Vec<u8>, String> {
    let kits = conformance::read(Path::new(kits))?;
    conformance::write(&kits, Path::new(folder))?;
    Ok(format!("{} kits\n", kits.len()).into_bytes())
}

/// Runs a script by the model: how many calls it makes.
fn run_script(file: &str) -> Result<Vec<u8>, String> {
    let script = script::file(Path::new(file))?;
    let calls = script::run::<script::Model>(&script).map_err(|told| told.to_string())?;
    Ok(format!("{} calls\n", calls.len()).into_bytes())
}

fn plain_scripts(folder: &str) -> Result<Vec<u8>, String> {
    let scripts = script::folder(Path::new(folder))?;
    let plain = script::plain(&scripts).map_err(|told| told.to_string())?;
    Ok(plain.into_bytes())
}

fn power(kits: &str) -> Result<Vec<u8>, String> {
    let kits = conformance::read(Path::new(kits))?;
    Ok(conformance::power(&kits).into_bytes())
}

fn tell(bytes: &[u8]) -> String {
    let paper = listing::list(bytes);
    let told = Deviation::ALL
        .iter()
        .filter(|&&deviation| listing::tells(bytes, &paper, deviation));
    told.map(|deviation| format!("{}: {}\n", deviation.name(), deviation.what()))
        .collect()
}
