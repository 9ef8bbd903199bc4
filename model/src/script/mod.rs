//! Scripts: texts of calls with the answers expected, for what no kit shows. `docs/SCRIPTS.md`
//! says how they are written.
//!
//! An answer is a row of words, the same as in the plain form: a further call is a case of
//! [`Call`], one in `read`, one in `run` and one in `plain`.

mod plain;
mod read;
mod run;

pub use plain::plain;
pub use run::{report_of, run, Asked, Board, Cycle, Difference, Model};

#[cfg(feature = "proved")]
pub use run::Proved;

use crate::conformance::{self, files, name_of, PAGE};
use crate::kit::{self, Fault};
use std::fs;
use std::path::Path;

/// What an output holds before it is lent.
pub const MARK: u32 = 0xa5a5_a5a5;

/// A call, with the channels by their places among the script's names.
#[derive(Clone, Debug, PartialEq, Eq)]
pub enum Call {
    List {
        of: usize,
        words: Vec<u32>,
    },
    Report {
        of: usize,
        position: i32,
        inputs: u32,
    },
    Cycle {
        of: usize,
        position: i32,
        inputs: u32,
        acknowledged: u32,
        report: Given,
    },
    Device {
        a: u32,
        b: u32,
    },
    Log {
        a: usize,
        b: usize,
        words: Vec<u32>,
        /// The output's words.
        room: usize,
    },
    /// A list is asked about, with what a cycle would be given.
    Ask {
        of: usize,
        position: i32,
        inputs: u32,
        report: Given,
        words: Vec<u32>,
    },
    /// The list that is pending is taken.
    Commit {
        of: usize,
    },
    Copy {
        from: usize,
        to: usize,
    },
    Like {
        one: usize,
        other: usize,
    },
    /// A word of a channel's state, as the library lays it out.
    State {
        of: usize,
        word: usize,
    },
    /// The caller writes such a word.
    Put {
        of: usize,
        word: usize,
        value: u32,
    },
}

/// The report that a cycle is given, or a list asked about with.
#[derive(Clone, Copy, Debug, PartialEq, Eq)]
pub enum Given {
    /// These words.
    Words([u32; 4]),
    /// What a channel reports.
    Of {
        of: usize,
        position: i32,
        inputs: u32,
    },
}

/// A call, the line on which it stands, and the answer expected.
#[derive(Clone, Debug, PartialEq, Eq)]
pub struct Step {
    pub line: usize,
    pub call: Call,
    pub answer: Vec<u32>,
}

/// A script.
#[derive(Clone, Debug, PartialEq, Eq)]
pub struct Script {
    pub name: String,
    /// The names of its channels.
    pub channels: Vec<String>,
    pub steps: Vec<Step>,
}

impl Script {
    /// The script of a text, with its quotes looked at.
    pub fn of(name: &str, text: &str) -> Result<Script, Fault> {
        conformance::quotes(text)?;
        read::script(name, text)
    }
}

/// The scripts of a folder, by their names; or what is wrong with each text that is none.
pub fn folder(folder: &Path) -> Result<Vec<Script>, String> {
    let mut texts = files(folder)?;
    texts.retain(|file| file != PAGE && !file.ends_with(".plain"));
    texts.sort();
    let (mut scripts, mut faults) = (Vec::new(), Vec::new());
    for text in texts {
        match file(&folder.join(&text)) {
            Ok(script) => scripts.push(script),
            Err(fault) => faults.push(fault),
        }
    }
    if scripts.is_empty() && faults.is_empty() {
        faults.push(format!("{}: no scripts", folder.display()));
    }
    match faults.is_empty() {
        true => Ok(scripts),
        false => Err(faults.join("\n")),
    }
}

/// The script of one file.
pub fn file(path: &Path) -> Result<Script, String> {
    let told = |reason: String| format!("{}: {reason}", path.display());
    let file = path.file_name().unwrap_or_default().to_string_lossy();
    let name = name_of(&file).map_err(told)?;
    let bytes = fs::read(path).map_err(|error| told(error.to_string()))?;
    let script = kit::text(&bytes).and_then(|text| Script::of(name, text));
    script.map_err(|fault| told(fault.to_string()))
}
