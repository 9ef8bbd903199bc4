//! The conformance kits: a folder of kits as text, the files made of them, and their power.
//!
//! Each kit is a file `NAME.txt`. A line `# 01 (SUPPLIER 7.2): "..."` quotes the sentence of
//! document 01 that it tries, beside the section of `docs/SUPPLIER.md` in which its rule stands;
//! `# 02 W1 (SUPPLIER 7.2): "..."` one of request W1 of document 02, and so on for each request that
//! has landed ([`LANDED`]). A comment
//! `#> 2 03000081 03000081 7` says a line of its listing, worked out by hand from these papers; a
//! kit that lists otherwise is refused here, so that it cannot go unnoticed.

use crate::kit::{self, Fault};
use crate::{listing, Deviation};
use std::fs;
use std::io;
use std::path::Path;

/// The requests of document 02 that have landed: those that a kit may quote.
pub const LANDED: &[&str] = &["W1", "W2", "W3", "W4", "W5", "W6", "W7"];

/// What may stand in the folder beside the kits.
pub(crate) const PAGE: &str = "README.md";

/// A kit of the folder.
#[derive(Clone, Debug, PartialEq, Eq)]
pub struct Kit {
    pub name: String,
    pub bytes: Vec<u8>,
    /// The model's listing.
    pub listing: String,
}

impl Kit {
    /// The kit of a text, with its quotes and the lines said in it looked at.
    pub fn of(name: &str, text: &str) -> Result<Kit, Fault> {
        let bytes = kit::assemble(text)?;
        let listing = listing::list(&bytes);
        quotes(text)?;
        said_lines(text, &listing)?;
        let name = name.into();
        Ok(Kit {
            name,
            bytes,
            listing,
        })
    }

    /// The name of its bytes' file.
    pub fn file(&self) -> String {
        format!("{}.kit", self.name)
    }

    /// Whether its listing tells a program with this deviation from the papers.
    pub fn tells(&self, deviation: Deviation) -> bool {
        listing::tells(&self.bytes, &self.listing, deviation)
    }
}

/// A sentence of a paper, or a part of one, and the section of `docs/SUPPLIER.md` in which its
/// rule stands.
#[derive(Clone, Debug, PartialEq, Eq)]
pub struct Quote {
    /// `01`, or `02 W1` for request W1 of document 02, and so on.
    pub paper: String,
    pub section: String,
    pub sentence: String,
}

/// The quotes of a text: one at least, and each with its section.
pub fn quotes(text: &str) -> Result<Vec<Quote>, Fault> {
    let lines = text.lines().enumerate();
    let lines = lines.filter(|(_, line)| is_quote(line));
    let quotes = lines.map(|(index, line)| {
        quote(line).ok_or(Fault {
            line: index + 1,
            reason: "a quote is # 01 (SUPPLIER 7.2): \"...\", or # 02 W1 (SUPPLIER 7.2): \"...\", with its section".into(),
        })
    });
    match quotes.collect::<Result<Vec<Quote>, Fault>>()? {
        none if none.is_empty() => Err(Fault {
            line: 1,
            reason: "no line # 01 (SUPPLIER 7.2): \"...\" quotes document 01, and no line # 02 W1 (SUPPLIER 7.2): \"...\" a request".into(),
        }),
        quotes => Ok(quotes),
    }
}

/// Whether a line is there to quote document 01 or 02.
pub fn is_quote(line: &str) -> bool {
    let behind = ["# 01", "# 02"]
        .iter()
        .find_map(|paper| line.strip_prefix(paper));
    behind.is_some_and(|rest| rest.starts_with([' ', ':', ',']))
}

/// `# 01 (SUPPLIER 7.2): "..."`, `# 02 W1 (SUPPLIER 7.2): "..."`
fn quote(line: &str) -> Option<Quote> {
    let (paper, rest) = line.strip_prefix("# ")?.split_once(" (SUPPLIER ")?;
    let (section, sentence) = rest.split_once("): \"")?;
    let sentence = sentence.strip_suffix('"')?;
    let number = |part: &str| !part.is_empty() && part.bytes().all(|b| b.is_ascii_digit());
    let request = paper.strip_prefix("02 ");
    let known = paper == "01" || request.is_some_and(|request| LANDED.contains(&request));
    (known && section.split('.').all(number) && !sentence.is_empty()).then(|| Quote {
        paper: paper.into(),
        section: section.into(),
        sentence: sentence.into(),
    })
}

/// Each line of the listing that a text says must be one.
fn said_lines(text: &str, listing: &str) -> Result<(), Fault> {
    for (index, line) in text.lines().enumerate() {
        let Some((_, said)) = line.split_once("#>") else {
            continue;
        };
        // Four fields are a line; plain words may follow them.
        let fields: Vec<&str> = said.split_whitespace().take(4).collect();
        let said = fields.join(" ");
        if !listing.lines().any(|line| line == said) {
            return Err(Fault {
                line: index + 1,
                reason: format!(
                    "'{said}' is no line of the listing{}",
                    instead(&said, listing)
                ),
            });
        }
    }
    Ok(())
}

/// The line that stands where another was said.
fn instead(said: &str, listing: &str) -> String {
    let cycle = |line: &str| line.split(' ').next().map(String::from);
    let line = listing.lines().find(|line| cycle(line) == cycle(said));
    let line = line.or_else(|| listing.lines().next());
    line.map_or(": it has no line".into(), |line| format!(": '{line}'"))
}

/// The kits of a folder, in the order of their bytes' files; or what is wrong with each text
/// that is no kit.
pub fn read(folder: &Path) -> Result<Vec<Kit>, String> {
    let mut texts = files(folder)?;
    texts.retain(|file| file != PAGE);
    texts.sort();
    let (mut kits, mut faults) = (Vec::new(), Vec::new());
    for file in texts {
        match read_kit(folder, &file) {
            Ok(kit) => kits.push(kit),
            Err(fault) => faults.push(fault),
        }
    }
    if kits.is_empty() && faults.is_empty() {
        faults.push(format!("{}: no kits", folder.display()));
    }
    if !faults.is_empty() {
        return Err(faults.join("\n"));
    }
    kits.sort_by_key(Kit::file);
    Ok(kits)
}

/// The kit of one file.
fn read_kit(folder: &Path, file: &str) -> Result<Kit, String> {
    let path = folder.join(file);
    let told = |reason: String| format!("{}: {reason}", path.display());
    let name = name_of(file).map_err(told)?;
    let bytes = fs::read(&path).map_err(|error| told(error.to_string()))?;
    let kit = kit::text(&bytes).and_then(|text| Kit::of(name, text));
    kit.map_err(|fault| told(fault.to_string()))
}

/// A kit's name from its file's.
pub(crate) fn name_of(file: &str) -> Result<&str, String> {
    let allowed = |c: char| c.is_ascii_lowercase() || c.is_ascii_digit() || c == '-';
    match file.strip_suffix(".txt") {
        None => Err("the file of a kit's text ends in .txt".into()),
        Some(name) if !name.is_empty() && name.chars().all(allowed) => Ok(name),
        Some(_) => Err("a kit's name is of lower case letters, digits and hyphens".into()),
    }
}

/// The names of a folder's files.
pub(crate) fn files(folder: &Path) -> Result<Vec<String>, String> {
    let names = |folder: &Path| -> io::Result<Vec<String>> {
        fs::read_dir(folder)?
            .map(|entry| Ok(entry?.file_name().to_string_lossy().into_owned()))
            .collect()
    };
    names(folder).map_err(|error| format!("{}: {error}", folder.display()))
}

/// `args`: the name of each kit's file.
pub fn args(kits: &[Kit]) -> String {
    kits.iter().map(|kit| kit.file() + "\n").collect()
}

/// `stdout`: each kit's name, and its listing.
pub fn stdout(kits: &[Kit]) -> String {
    let one = |kit: &Kit| format!("{}\n{}", kit.name, kit.listing);
    kits.iter().map(one).collect()
}

/// Writes `data/NAME.kit` of each kit, `args` and `stdout`, and takes away other `.kit` files.
pub fn write(kits: &[Kit], folder: &Path) -> Result<(), String> {
    let data = folder.join("data");
    at(&data, fs::create_dir_all)?;
    for file in stale(kits, &data)? {
        at(&data.join(file), fs::remove_file)?;
    }
    for kit in kits {
        at(&data.join(kit.file()), |path| fs::write(path, &kit.bytes))?;
    }
    at(&folder.join("args"), |path| fs::write(path, args(kits)))?;
    at(&folder.join("stdout"), |path| fs::write(path, stdout(kits)))
}

/// The `.kit` files of a folder that are of none of the kits.
pub fn stale(kits: &[Kit], data: &Path) -> Result<Vec<String>, String> {
    let mut stale = files(data)?;
    stale.retain(|file| file.ends_with(".kit") && !kits.iter().any(|kit| kit.file() == *file));
    Ok(stale)
}

/// Does something with a path, and names the path if that fails.
fn at<'a>(path: &'a Path, act: impl FnOnce(&'a Path) -> io::Result<()>) -> Result<(), String> {
    act(path).map_err(|error| format!("{}: {error}", path.display()))
}

/// The deviations that no kit tells apart.
pub fn untold(kits: &[Kit]) -> Vec<Deviation> {
    let told = |deviation| kits.iter().any(|kit| kit.tells(deviation));
    let all = Deviation::ALL.iter().copied();
    all.filter(|&deviation| !told(deviation)).collect()
}

/// For each deviation how many kits tell it, with the first of them; for each kit how many
/// deviations it tells, and how many of these no other does.
pub fn power(kits: &[Kit]) -> String {
    let all = Deviation::ALL;
    let told_by: Vec<Vec<usize>> = all.iter().map(|&one| telling(kits, one)).collect();
    let deviations = all.iter().zip(&told_by);
    let deviations = deviations.map(|(&deviation, by)| deviation_line(deviation, by, kits));
    let kits = kits.iter().enumerate();
    let kits = kits.map(|(index, kit)| kit_line(kit, index, &told_by));
    deviations.chain(kits).collect()
}

/// The kits that tell a deviation.
fn telling(kits: &[Kit], deviation: Deviation) -> Vec<usize> {
    let all = 0..kits.len();
    all.filter(|&index| kits[index].tells(deviation)).collect()
}

/// `RestsInStopA 290: acknowledged-at-rest acknowledged-both-channels ..`
fn deviation_line(deviation: Deviation, by: &[usize], kits: &[Kit]) -> String {
    let first = by.iter().take(4).map(|&index| kits[index].name.as_str());
    let first: Vec<&str> = first.collect();
    format!("{} {}: {}\n", deviation.name(), by.len(), first.join(" "))
}

/// `acknowledged-at-rest: tells 40, alone 0`
fn kit_line(kit: &Kit, index: usize, told_by: &[Vec<usize>]) -> String {
    let tells = told_by.iter().filter(|by| by.contains(&index)).count();
    let alone = told_by.iter().filter(|by| by[..] == [index]).count();
    format!("{}: tells {tells}, alone {alone}\n", kit.name)
}
