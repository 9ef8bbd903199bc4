//! Boards as programs: compiled from the sources, many in one program, and tried with kits.
//!
//! A wrong board has one function changed. So that the compiler is not called for each of them,
//! a program holds many: the changed functions stand beside the unchanged one, which hands on to
//! the one of the board that the program is called with. What is changed outside a function has
//! a program of its own.

use crate::changes::Change;
use crate::names::Function;
use crate::tokens::Source;
use std::collections::BTreeSet;
use std::fs;
use std::io::{self, Read};
use std::ops::Range;
use std::path::{Path, PathBuf};
use std::process::{Command, ExitStatus, Stdio};
use std::time::{Duration, Instant};

/// The modules of a board: what a listing is made by.
pub const MODULES: [&str; 14] = [
    "words",
    "whole",
    "machine_data",
    "list",
    "gear",
    "stop",
    "selection",
    "direction",
    "causes",
    "nx",
    "channel",
    "device",
    "log",
    "listing",
];

/// The model's readings: a board reads document 01 only, so that it is compiled sooner.
const READINGS: &str = "deviation";
const BY_READING: &str =
    "$(if $r.deviates($crate::deviation::Deviation::$deviation) { $wrong } else)* { $right }";
const BY_PAPER: &str = "{ let _ = $r; $right }";

/// A program behind its modules. It is called with a file of kits, each with its length before
/// it and the hash of its listing behind it, and with a board's number; it prints the number of
/// the first kit that is listed otherwise, or if there is none the numbers of the functions that
/// were called.
const PROGRAM: &str = r#"
pub use channel::{Channel, Cycle, Report};
pub use deviation::{Deviant, Deviation, Paper, Reading};
pub use list::Refusal;
pub use machine_data::MachineData;
use std::sync::atomic::{AtomicBool, AtomicUsize, Ordering::Relaxed};

static BOARD: AtomicUsize = AtomicUsize::new(0);
static CALLED: [AtomicBool; 1000] = [const { AtomicBool::new(false) }; 1000];

pub fn board() -> usize {
    BOARD.load(Relaxed)
}

pub fn call(function: usize) {
    CALLED[function].store(true, Relaxed);
}

fn main() {
    let mut arguments = std::env::args().skip(1);
    let bytes = std::fs::read(arguments.next().expect("a file")).expect("a file of kits");
    let board = arguments.next().and_then(|board| board.parse().ok());
    BOARD.store(board.expect("a board"), Relaxed);
    let (mut rest, mut number) = (&bytes[..], 0);
    while let Some((length, behind)) = rest.split_first_chunk() {
        let (kit, behind) = behind.split_at(u32::from_be_bytes(*length) as usize);
        let (hash, behind) = behind.split_first_chunk().expect("a hash");
        let listing = listing::list(kit);
        let next = |hash: u64, &byte: &u8| (hash ^ u64::from(byte)).wrapping_mul(0x0100_0000_01b3);
        let listed = listing.as_bytes().iter().fold(0xcbf2_9ce4_8422_2325, next);
        if listed != u64::from_be_bytes(*hash) {
            println!("{number}");
            std::process::exit(1);
        }
        (rest, number) = (behind, number + 1);
    }
    let called = |&function: &usize| CALLED[function].load(Relaxed);
    (0..CALLED.len()).filter(called).for_each(|function| println!("{function}"));
}
"#;

/// A file of kits with the model's listings, for the programs.
pub fn write_kits<'a>(
    file: &Path,
    kits: impl Iterator<Item = (&'a [u8], &'a str)>,
) -> io::Result<()> {
    let next = |hash: u64, &byte: &u8| (hash ^ u64::from(byte)).wrapping_mul(0x0100_0000_01b3);
    let mut bytes = Vec::new();
    for (kit, listing) in kits {
        let hash = listing.as_bytes().iter().fold(0xcbf2_9ce4_8422_2325, next);
        bytes.extend((kit.len() as u32).to_be_bytes());
        bytes.extend(kit);
        bytes.extend(hash.to_be_bytes());
    }
    fs::write(file, bytes)
}

/// A wrong board to be compiled: the number of its source, its function and its change.
#[derive(Clone, Copy)]
pub struct Wrong<'a> {
    pub source: usize,
    pub of: Option<&'a Function>,
    pub change: &'a Change,
}

/// How a board went through a file of kits.
#[derive(Debug, PartialEq, Eq)]
pub enum Tried {
    /// It lists every kit as the model does; functions with these numbers were called.
    Alike(Vec<usize>),
    /// It lists the kit of this number otherwise.
    Differs(usize),
    Panics,
    TooSlow,
}

/// A folder in which one program after the other is made.
pub struct Bench<'a> {
    folder: PathBuf,
    sources: &'a [Source],
}

impl<'a> Bench<'a> {
    /// A bench for these sources, which stand in a folder beside the readings.
    pub fn new(folder: PathBuf, sources: &'a [Source], beside: &Path) -> io::Result<Bench<'a>> {
        fs::create_dir_all(&folder)?;
        let file = format!("{READINGS}.rs");
        let readings = fs::read_to_string(beside.join(&file))?;
        if !readings.contains(BY_READING) {
            let told = format!("{file}: the macro paper! is not as it was");
            return Err(io::Error::other(told));
        }
        fs::write(folder.join(&file), readings.replace(BY_READING, BY_PAPER))?;
        let modules = MODULES.iter().chain([&READINGS]);
        let modules: String = modules.map(|module| format!("mod {module};\n")).collect();
        fs::write(folder.join("main.rs"), modules + PROGRAM)?;
        let bench = Bench { folder, sources };
        for source in sources {
            bench.put(&source.file, &source.text)?;
        }
        Ok(bench)
    }

    /// Puts a text in the place of a source.
    pub fn put(&self, file: &str, text: &str) -> io::Result<()> {
        fs::write(self.folder.join(file), text)
    }

    /// Makes the program of the sources as they are; what the compiler says, none if all is well.
    pub fn compile(&self, whole: bool) -> io::Result<Option<String>> {
        let rustc = std::env::var_os("RUSTC").unwrap_or("rustc".into());
        let mut command = Command::new(rustc);
        command.args(["--edition=2021", "--crate-name=board", "--cap-lints=allow"]);
        command.args(["-Copt-level=1", "-Ccodegen-units=1", "-Coverflow-checks=on"]);
        command.args(["--error-format=short", "main.rs", "-o"]);
        command.args(if whole {
            &["board"][..]
        } else {
            &["checked", "--emit=metadata"]
        });
        let output = command.current_dir(&self.folder).output()?;
        let said = String::from_utf8_lossy(&output.stderr).into_owned();
        Ok((!output.status.success()).then_some(said))
    }

    /// Makes one program of boards whose functions are changed. Which of them are in it: one
    /// that does not compile is left out. None if it cannot be said which these are.
    pub fn together(&self, boards: &[Wrong]) -> io::Result<Option<Vec<bool>>> {
        let mut kept = vec![true; boards.len()];
        loop {
            let copies = self.put_copies(boards, &kept)?;
            let Some(said) = self.compile(false)? else {
                break;
            };
            let faulty = |copy: &&Copy| errors(&said).any(|(file, line)| copy.holds(file, line));
            let faulty: Vec<usize> = copies.iter().filter(faulty).map(|c| c.board).collect();
            if faulty.is_empty() {
                self.put_all()?;
                return Ok(None);
            }
            faulty.into_iter().for_each(|board| kept[board] = false);
        }
        let made = self.compile(true)?.is_none();
        self.put_all()?;
        Ok(made.then_some(kept))
    }

    /// Makes the program of one board; whether it compiles.
    pub fn alone(&self, board: Wrong) -> io::Result<bool> {
        let Source { file, text, .. } = &self.sources[board.source];
        let mut changed = text.clone();
        changed.replace_range(board.change.at.clone(), &board.change.new);
        self.put(file, &changed)?;
        let made = self.compile(true)?.is_none();
        self.put(file, text)?;
        Ok(made)
    }

    fn put_all(&self) -> io::Result<()> {
        let mut all = self.sources.iter();
        all.try_for_each(|source| self.put(&source.file, &source.text))
    }

    /// Puts the sources with a copy of a function for each board that is kept.
    fn put_copies(&self, boards: &[Wrong], kept: &[bool]) -> io::Result<Vec<Copy<'a>>> {
        let mut copies = Vec::new();
        for (number, source) in self.sources.iter().enumerate() {
            let here = |&board: &usize| kept[board] && boards[board].source == number;
            let here: Vec<usize> = (0..boards.len()).filter(here).collect();
            let starts = here.iter().filter_map(|&board| boards[board].of);
            let starts: BTreeSet<usize> = starts.map(|of| of.start).collect();
            let (mut text, mut place) = (String::new(), 0);
            for start in starts {
                let of = |&&board: &&usize| boards[board].of.is_some_and(|of| of.start == start);
                let of: Vec<usize> = here.iter().filter(of).copied().collect();
                place = copy(source, boards, &of, place, &mut text, &mut copies);
            }
            text.push_str(&source.text[place..]);
            self.put(&source.file, &text)?;
        }
        Ok(copies)
    }

    /// Tries a board of the program that was made last with a file of kits.
    pub fn try_kits(&self, kits: &Path, board: usize, limit: Duration) -> io::Result<Tried> {
        let mut command = Command::new(self.folder.join("board"));
        command.arg(kits).arg(board.to_string());
        command.stdin(Stdio::null()).stderr(Stdio::null());
        let mut program = command.stdout(Stdio::piped()).spawn()?;
        let start = Instant::now();
        let status = loop {
            match program.try_wait()? {
                Some(status) => break status,
                None if start.elapsed() > limit => {
                    program.kill()?;
                    program.wait()?;
                    return Ok(Tried::TooSlow);
                }
                None => std::thread::sleep(Duration::from_millis(1)),
            }
        };
        let mut said = String::new();
        if let Some(mut stdout) = program.stdout.take() {
            stdout.read_to_string(&mut said)?;
        }
        Ok(tried(status, &said))
    }
}

/// A function's copy for a board: its lines.
struct Copy<'a> {
    file: &'a str,
    lines: Range<usize>,
    board: usize,
}

impl Copy<'_> {
    fn holds(&self, file: &str, line: usize) -> bool {
        self.file == file && self.lines.contains(&line)
    }
}

/// Adds a source's text from a place up to a function's end to `text`, the function handing on
/// to copies for these boards; the place behind it.
fn copy<'a>(
    source: &'a Source,
    boards: &[Wrong],
    of: &[usize],
    place: usize,
    text: &mut String,
    copies: &mut Vec<Copy<'a>>,
) -> usize {
    let Some(function) = of.first().and_then(|&board| boards[board].of) else {
        return place;
    };
    let item = source.bytes(function.start..function.body.end);
    let brace = source.tokens[function.body.start].at.end;
    let name = source.tokens[function.start + 1].at.clone();
    // A constant function cannot ask for the board.
    let before = &source.text[place..item.start];
    text.push_str(before.strip_suffix("const ").unwrap_or(before));
    text.push_str(&source.text[item.start..brace]);
    text.push_str(" match crate::board() {");
    let (front, behind) = &function.call;
    for board in of {
        let number = board + 1;
        let name = &function.name;
        text.push_str(&format!(
            "{number} => return {front}{name}_{number}{behind},"
        ));
    }
    text.push_str("_ => () }");
    text.push_str(&source.text[brace..item.end]);
    for &board in of {
        let Change { at, new, .. } = boards[board].change;
        let first = text.matches('\n').count() + 2;
        text.push_str(&format!(
            "\n{}_{}{}{new}{}",
            &source.text[item.start..name.end],
            board + 1,
            &source.text[name.end..at.start],
            &source.text[at.end..item.end]
        ));
        copies.push(Copy {
            file: &source.file,
            lines: first..text.matches('\n').count() + 2,
            board,
        });
    }
    text.push('\n');
    item.end
}

/// The file and the line of each error: `causes.rs:12:5: error..`
fn errors(said: &str) -> impl Iterator<Item = (&str, usize)> {
    said.lines().filter_map(|line| {
        let (place, _) = line.split_once(": error")?;
        let mut parts = place.split(':');
        Some((parts.next()?, parts.next()?.parse().ok()?))
    })
}

fn tried(status: ExitStatus, said: &str) -> Tried {
    let mut numbers = said.lines().filter_map(|line| line.parse().ok());
    match (status.code(), numbers.next()) {
        (Some(0), first) => Tried::Alike(first.into_iter().chain(numbers).collect()),
        (Some(1), Some(kit)) => Tried::Differs(kit),
        _ => Tried::Panics,
    }
}
