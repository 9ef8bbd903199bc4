//! The tracing of document 01 and of the requests: each sentence with its definition, its theorem or contract, its kits and
//! its wrong programs.

mod common;
use common::beside;
use model::conformance::{self, Quote, LANDED};
use std::collections::{BTreeMap, BTreeSet};
use std::fs;
use std::path::{Path, PathBuf};

const HEAD: &str =
    "| Id | Document 01 | Definition | Theorem or contract | Kits | Wrong programs |";

const SECTIONS: &str = "| Section | Sentences |";

/// What stands before a script's name.
const SCRIPT: &str = "script:";

/// A row of a table: an id and what is cited for its sentence.
struct Row {
    /// The paper, as a quote names it.
    paper: String,
    id: String,
    sentence: String,
    definitions: String,
    theorems: String,
    kits: String,
    edits: String,
}

/// What the page says.
#[derive(Default)]
struct Page {
    rows: Vec<Row>,
    /// The numbers of the notes, as they come.
    notes: Vec<String>,
    /// The sections of the supplier's paper, or a dash, each with its sentences.
    sections: Vec<(String, String)>,
    faults: Vec<String>,
}

/// What the repository has. A crate's names are told as `crate/name`.
#[derive(Default)]
struct Repository {
    definitions: BTreeSet<String>,
    theorems: BTreeSet<String>,
    edits: BTreeSet<String>,
    /// Each kit, and each script as `script:NAME`, with its quotes.
    kits: BTreeMap<String, Vec<Quote>>,
    /// The sections of the supplier's paper.
    sections: BTreeSet<String>,
}

// ---- the page

/// The cells of a table's line; `\|` is a bar within one.
fn cells(line: &str) -> Vec<String> {
    let bar = "\u{0}";
    let line = line.trim().replace("\\|", bar);
    let inner = line.trim_start_matches('|').trim_end_matches('|');
    inner
        .split('|')
        .map(|cell| cell.trim().replace(bar, "|"))
        .collect()
}

/// The head of a table of a request's sentences.
fn head_of(request: &str) -> String {
    HEAD.replace("Document 01", &format!("Request {request}"))
}

/// The paper whose sentences a table with this head holds, as a quote names it: document 01, or a request that has landed.
fn paper(head: &str) -> Option<String> {
    if head == HEAD {
        return Some("01".into());
    }
    let mut landed = LANDED.iter();
    let request = landed.find(|request| head == head_of(request))?;
    Some(format!("02 {request}"))
}

fn row(paper: String, line: &str) -> Result<Row, String> {
    match <[String; 6]>::try_from(cells(line)) {
        Ok([id, sentence, definitions, theorems, kits, edits]) => Ok(Row {
            paper,
            id,
            sentence,
            definitions,
            theorems,
            kits,
            edits,
        }),
        Err(cells) => Err(format!("{}: {} cells instead of 6", cells[0], cells.len())),
    }
}

/// The number of a note's line `(3) ..`, or of a cell's dash `– (3)`.
fn note(text: &str) -> Option<&str> {
    let (number, _) = text.strip_prefix('(')?.split_once(')')?;
    let digits = number.bytes().all(|b| b.is_ascii_digit());
    (digits && !number.is_empty()).then_some(number)
}

fn page(text: &str) -> Page {
    let mut page = Page::default();
    let mut table = "";
    for line in text.lines() {
        if line == SECTIONS || paper(line).is_some() {
            table = line;
        } else if !line.starts_with('|') {
            table = "";
            page.notes.extend(note(line).map(String::from));
        } else if let Some(paper) = paper(table).filter(|_| !line.starts_with("|--")) {
            match row(paper, line) {
                Ok(row) => page.rows.push(row),
                Err(fault) => page.faults.push(fault),
            }
        } else if table == SECTIONS && !line.starts_with("|--") {
            match <[String; 2]>::try_from(cells(line)) {
                Ok([section, ids]) => page.sections.push((section, ids)),
                Err(cells) => page.faults.push(format!("{}: no two cells", cells[0])),
            }
        }
    }
    page
}

/// What a cell cites: its parts in backquotes.
fn cited(cell: &str) -> impl Iterator<Item = &str> {
    cell.split('`').skip(1).step_by(2)
}

fn dash(cell: &str) -> Option<&str> {
    cell.strip_prefix('–').map(str::trim)
}

// ---- the repository

/// Whether a pattern, in which `*` stands for any part, is a name's.
fn matches(pattern: &str, name: &str) -> bool {
    match pattern.split_once('*') {
        None => pattern == name,
        Some((front, rest)) => name.strip_prefix(front).is_some_and(|name| {
            let mut ends = name.char_indices().map(|(i, _)| i).chain([name.len()]);
            ends.any(|i| matches(rest, &name[i..]))
        }),
    }
}

/// Whether a pattern is a name's, of scripts if it is one of scripts.
fn cites_name(pattern: &str, name: &str) -> bool {
    pattern.starts_with(SCRIPT) == name.starts_with(SCRIPT) && matches(pattern, name)
}

/// `kit k-1`, `script s-1`
fn called(what: &str, name: &str) -> String {
    match name.strip_prefix(SCRIPT) {
        Some(name) => format!("script {name}"),
        None => format!("{what} {name}"),
    }
}

/// The name at the front of a text.
fn name(text: &str) -> &str {
    let ends = |c: char| c.is_whitespace() || "(){}:<;,=".contains(c);
    &text[..text.find(ends).unwrap_or(text.len())]
}

/// A text behind the first of these words that it begins with.
fn behind<'a>(text: &'a str, words: &[&str]) -> &'a str {
    let found = words.iter().find_map(|word| text.strip_prefix(word));
    found.unwrap_or(text)
}

/// The names that a file of definitions or laws declares `pub`.
fn declared(text: &str) -> impl Iterator<Item = &str> {
    text.lines().filter_map(|line| {
        let line = behind(line.trim_start(), &["abbrev ", "unfoldable "]);
        let line = line.strip_prefix("pub ")?;
        (!line.starts_with("mod ")).then(|| name(behind(line, &["record ", "data "])))
    })
}

/// The function whose result a line `ghost from_gives = ..` tells: `from`, of an `impl From`.
fn given(line: &str) -> Option<&str> {
    let (name, _) = line.strip_prefix("ghost ")?.split_once("_gives = ")?;
    Some(name)
}

/// A function of a source: its name, whether it is public, and whether it ensures something, or a line above tells its result.
struct Function<'a> {
    name: &'a str,
    public: bool,
    ensures: bool,
}

fn functions(source: &str) -> Vec<Function<'_>> {
    let mut found: Vec<Function> = Vec::new();
    let mut told = None;
    for line in source.lines().map(str::trim_start) {
        told = given(line).or(told);
        let item = behind(
            line.strip_prefix("pub ").unwrap_or(line),
            &["extern \"C\" "],
        );
        if let Some(rest) = item.strip_prefix("fn ") {
            let name = name(rest);
            found.push(Function {
                name,
                public: line.starts_with("pub "),
                ensures: told.take() == Some(name),
            });
        } else if line.starts_with("ensures ") {
            if let Some(function) = found.last_mut() {
                function.ensures = true;
            }
        }
    }
    found
}

/// The types, constants and functions of a source.
fn items(source: &str) -> impl Iterator<Item = &str> {
    source.lines().filter_map(|line| {
        let line = line.trim_start();
        let line = behind(
            line.strip_prefix("pub ").unwrap_or(line),
            &["extern \"C\" "],
        );
        let kinds = ["fn ", "struct ", "enum ", "const "];
        let rest = kinds.iter().find_map(|kind| line.strip_prefix(kind))?;
        Some(name(rest))
    })
}

/// A folder's files that end so, in it and below; none where there is no folder.
fn files(folder: &Path, end: &str) -> Vec<PathBuf> {
    let mut found = Vec::new();
    for entry in fs::read_dir(folder).into_iter().flatten() {
        let path = entry.expect("an entry").path();
        if path.is_dir() {
            found.extend(files(&path, end));
        } else if path.to_string_lossy().ends_with(end) {
            found.push(path);
        }
    }
    found.sort();
    found
}

fn texts(folder: &Path, end: &str) -> Vec<String> {
    let read = |path: &PathBuf| fs::read_to_string(path).expect("a text");
    files(folder, end).iter().map(read).collect()
}

fn stem(path: &Path) -> String {
    path.file_stem().expect("a name").to_string_lossy().into()
}

/// The numbers of a paper's headings, `## 7. ..` and `### 7.2 ..`.
fn headings(text: &str) -> BTreeSet<String> {
    let heading = |line: &str| {
        let number = line.trim_start_matches('#').strip_prefix(' ')?;
        let number = number.split(' ').next()?.trim_end_matches('.');
        let is_number = number.starts_with(|c: char| c.is_ascii_digit());
        (line.starts_with("##") && is_number).then(|| number.to_string())
    };
    text.lines().filter_map(heading).collect()
}

fn add_crate(all: &mut Repository, folder: &Path) {
    let here = stem(folder);
    let of = |name: &str| format!("{here}/{name}");
    for text in texts(&folder.join("specs"), ".antt") {
        all.definitions.extend(declared(&text).map(of));
    }
    for text in texts(&folder.join("proofs"), ".antt") {
        all.theorems.extend(declared(&text).map(of));
    }
    for text in texts(&folder.join("src"), ".rt") {
        all.definitions.extend(items(&text).map(of));
        let ensuring = functions(&text).into_iter().filter(|f| f.ensures);
        all.theorems.extend(ensuring.map(|f| of(f.name)));
    }
    let edits = files(&folder.join("must-fail"), ".edit");
    all.edits.extend(edits.iter().map(|edit| of(&stem(edit))));
}

fn crates() -> Vec<PathBuf> {
    let entries = fs::read_dir(beside("crates")).expect("crates");
    entries
        .map(|entry| entry.expect("a crate").path())
        .collect()
}

fn repository() -> Repository {
    let mut all = Repository::default();
    for folder in crates() {
        add_crate(&mut all, &folder);
    }
    for (folder, kind) in [("kits", ""), ("scripts", SCRIPT)] {
        for path in files(&beside(folder), ".txt") {
            let text = fs::read_to_string(&path).expect("a text");
            let quotes = conformance::quotes(&text).unwrap_or_default();
            all.kits.insert(format!("{kind}{}", stem(&path)), quotes);
        }
    }
    let paper = fs::read_to_string(beside("docs").join("SUPPLIER.md")).expect("the paper");
    all.sections = headings(&paper);
    all
}

// ---- the check

/// A cell that must cite names which are there.
fn of_names(id: &str, what: &str, cell: &str, there: &BTreeSet<String>) -> Vec<String> {
    if cited(cell).next().is_none() {
        return vec![format!("{id}: no {what}")];
    }
    let gone = cited(cell).filter(|name| !there.contains(*name));
    gone.map(|name| format!("{id}: no {what} '{name}' is there"))
        .collect()
}

/// A cell that cites by patterns, or has a dash with a note.
fn of_patterns<'a>(
    id: &str,
    what: &str,
    cell: &str,
    there: impl Iterator<Item = &'a String> + Clone,
    notes: &[String],
) -> Vec<String> {
    if let Some(number) = dash(cell) {
        let told = note(number).is_some_and(|number| notes.iter().any(|n| n == number));
        let fault = format!("{id}: no {what}, and no note says why");
        return (!told).then_some(fault).into_iter().collect();
    }
    if cited(cell).next().is_none() {
        return vec![format!("{id}: no {what} and no dash")];
    }
    let idle = cited(cell).filter(|pattern| !there.clone().any(|name| cites_name(pattern, name)));
    idle.map(|pattern| match pattern.strip_prefix(SCRIPT) {
        Some(pattern) => format!("{id}: no script is '{pattern}'"),
        None => format!("{id}: no {what} is '{pattern}'"),
    })
    .collect()
}

fn of_row(row: &Row, there: &Repository, notes: &[String]) -> Vec<String> {
    let id = &row.id;
    let mut faults = Vec::new();
    if row.sentence.is_empty() {
        faults.push(format!("{id}: no sentence"));
    }
    faults.extend(of_names(
        id,
        "definition",
        &row.definitions,
        &there.definitions,
    ));
    faults.extend(of_names(id, "theorem", &row.theorems, &there.theorems));
    faults.extend(of_patterns(id, "kit", &row.kits, there.kits.keys(), notes));
    faults.extend(of_patterns(
        id,
        "edit",
        &row.edits,
        there.edits.iter(),
        notes,
    ));
    faults
}

/// What stands more than once.
fn twice<'a>(names: impl Iterator<Item = &'a String>) -> Vec<&'a String> {
    let mut seen = BTreeSet::new();
    names.filter(|name| !seen.insert(*name)).collect()
}

fn cites(cell: &str, name: &str) -> bool {
    cited(cell).any(|pattern| cites_name(pattern, name))
}

/// A quote stands in a sentence, or the sentence in the quote.
fn stands(quote: &str, sentence: &str) -> bool {
    sentence.contains(quote) || quote.contains(sentence)
}

/// The rows that a part of a cell names: `C5` one, `C5 to C9` those of the page from C5 to C9.
fn named<'a>(part: &str, rows: &'a [Row]) -> Option<&'a [Row]> {
    let (first, last) = part.split_once(" to ").unwrap_or((part, part));
    let at = |id: &str| rows.iter().position(|row| row.id == id);
    rows.get(at(first)?..=at(last)?)
        .filter(|rows| !rows.is_empty())
}

/// The sections of each sentence, by its id.
fn sections(page: &Page) -> BTreeMap<&str, Vec<&str>> {
    let mut sections: BTreeMap<&str, Vec<&str>> = BTreeMap::new();
    for (section, ids) in &page.sections {
        let rows = ids.split(", ").filter_map(|part| named(part, &page.rows));
        for row in rows.flatten() {
            sections.entry(&row.id).or_default().push(section);
        }
    }
    sections
}

/// Each sentence has a section or is behind the dash, and what is named is there.
fn of_sections(page: &Page, there: &BTreeSet<String>) -> Vec<String> {
    let mut faults = Vec::new();
    for (section, ids) in &page.sections {
        if section != "–" && !there.contains(section) {
            faults.push(format!("section {section}: the paper has none"));
        }
        let gone = ids
            .split(", ")
            .filter(|part| named(part, &page.rows).is_none());
        faults.extend(gone.map(|part| format!("section {section}: no rows '{part}'")));
    }
    let sections = sections(page);
    let ids = page.rows.iter().map(|row| row.id.as_str());
    let homeless = ids.filter(|id| !sections.contains_key(id));
    faults.extend(homeless.map(|id| format!("{id}: no section has it")));
    faults
}

/// A kit or a script is cited, and each of its quotes stands in a row that cites it and has its section.
fn of_kit(
    kit: &str,
    quotes: &[Quote],
    rows: &[Row],
    sections: &BTreeMap<&str, Vec<&str>>,
) -> Vec<String> {
    let citing: Vec<&Row> = rows.iter().filter(|row| cites(&row.kits, kit)).collect();
    let kit = called("kit", kit);
    if citing.is_empty() {
        return vec![format!("{kit}: no row cites it")];
    }
    if quotes.is_empty() {
        return vec![format!("{kit}: no quotes, or not each with its section")];
    }
    let fault = |quote: &Quote| {
        let Quote {
            paper,
            section,
            sentence,
        } = quote;
        let rows = citing.iter().filter(|row| row.paper == *paper);
        let rows = rows.filter(|row| stands(sentence, &row.sentence));
        let ids: Vec<&str> = rows.map(|row| row.id.as_str()).collect();
        if ids.is_empty() {
            return Some(format!("no row that cites it has \"{sentence}\""));
        }
        let theirs = ids.iter().filter_map(|id| sections.get(id)).flatten();
        let theirs: BTreeSet<&str> = theirs.copied().collect();
        // A row without a section is told of by itself.
        (!theirs.is_empty() && !theirs.contains(section.as_str())).then(|| {
            let theirs: Vec<&str> = theirs.into_iter().collect();
            let theirs = theirs.join(" or ");
            format!("{section} is beside \"{sentence}\", which stands in {theirs}")
        })
    };
    let faults = quotes.iter().filter_map(fault);
    faults.map(|fault| format!("{kit}: {fault}")).collect()
}

fn of_notes(page: &Page) -> Vec<String> {
    let used = |number: &str| {
        let cells = page.rows.iter().flat_map(|row| [&row.kits, &row.edits]);
        cells
            .filter_map(|cell| dash(cell))
            .any(|dash| note(dash) == Some(number))
    };
    let idle = page.notes.iter().filter(|number| !used(number));
    let mut faults: Vec<String> = idle
        .map(|number| format!("note ({number}): no dash has it"))
        .collect();
    faults.extend(
        twice(page.notes.iter())
            .iter()
            .map(|n| format!("note ({n}): twice")),
    );
    faults
}

/// All that is wrong with a page, beside a repository.
fn faults(page: &Page, there: &Repository) -> Vec<String> {
    let rows = &page.rows;
    let mut faults = page.faults.clone();
    let ids = rows.iter().map(|row| &row.id);
    faults.extend(twice(ids).iter().map(|id| format!("{id}: twice")));
    faults.extend(rows.iter().flat_map(|row| of_row(row, there, &page.notes)));
    faults.extend(of_notes(page));
    faults.extend(of_sections(page, &there.sections));
    let sections = sections(page);
    let kits = there.kits.iter();
    faults.extend(kits.flat_map(|(kit, quotes)| of_kit(kit, quotes, rows, &sections)));
    let uncited = |edit: &&String| !rows.iter().any(|row| cites(&row.edits, edit));
    let edits = there.edits.iter().filter(uncited);
    faults.extend(edits.map(|edit| format!("edit {edit}: no row cites it")));
    faults
}

#[test]
fn every_sentence_is_traced() {
    let text = fs::read_to_string(beside("docs").join("TRACE.md")).expect("the page");
    let page = page(&text);
    assert!(page.rows.len() > 100, "{} rows", page.rows.len());
    let faults = faults(&page, &repository());
    assert!(faults.is_empty(), "{}", faults.join("\n"));
}

/// "Every public function says something of its result."
#[test]
fn every_public_function_ensures_something() {
    let mut public = 0;
    for folder in crates() {
        for text in texts(&folder.join("src"), ".rt") {
            for function in functions(&text).iter().filter(|f| f.public) {
                assert!(function.ensures, "{}::{}", stem(&folder), function.name);
                public += 1;
            }
        }
    }
    assert!(public > 50, "{public}");
}

// ---- that the check can fail

/// A small repository: one crate, two kits, a script, two edits.
fn small() -> Repository {
    let set = |names: &[&str]| names.iter().map(|name| name.to_string()).collect();
    let kit = |name: &str, section: &str, sentence: &str| {
        let quote = Quote {
            paper: "01".into(),
            section: section.into(),
            sentence: sentence.into(),
        };
        (name.to_string(), vec![quote])
    };
    Repository {
        definitions: set(&["c/Def"]),
        theorems: set(&["c/law"]),
        edits: set(&["c/one", "c/two"]),
        kits: [
            kit("k-1", "1", "first part"),
            kit("k-2", "2.1", "The whole | sentence."),
            kit("script:k-3", "2.1", "whole"),
        ]
        .into(),
        sections: set(&["1", "2", "2.1"]),
    }
}

const GOOD: &str = "| X1 | The first part of it. | `c/Def` | `c/law` | `k-1` | `c/*` |
| X2 | whole \\| sentence | `c/Def` | `c/law` | `k-*`, `script:k-3` | – (1) |

(1) None.

| Section | Sentences |
|---|---|
| 1 | X1 |
| 2.1 | X1 to X2 |
";

/// What is found where `old` is changed to `new` in the small page.
fn found(old: &str, new: &str) -> String {
    assert!(GOOD.contains(old), "{old}");
    let text = format!("{HEAD}\n|---|---|---|---|---|---|\n{GOOD}").replacen(old, new, 1);
    faults(&page(&text), &small()).join("; ")
}

#[test]
fn a_good_page_has_no_fault() {
    assert_eq!(found("X1", "X1"), "");
}

#[test]
fn each_fault_of_a_row_is_found() {
    for (old, new, fault) in [
        ("X2", "X1", "X1: twice; section 2.1: no rows 'X1 to X2'; kit k-2: 2.1 is beside \"The whole | sentence.\", which stands in 1; script k-3: 2.1 is beside \"whole\", which stands in 1"),
        ("The first part of it.", "", "X1: no sentence"),
        ("`c/Def`", "", "X1: no definition"),
        ("`c/Def`", "– (1)", "X1: no definition"),
        ("`c/law`", "", "X1: no theorem"),
        ("`c/Def`", "`c/law`", "X1: no definition 'c/law' is there"),
        ("`c/law`", "`c/Def`", "X1: no theorem 'c/Def' is there"),
        ("`k-1`", "`k-1`, `l*`", "X1: no kit is 'l*'"),
        ("`k-1`", "`k-1`, `script:l*`", "X1: no script is 'l*'"),
        ("`c/*`", "`c/*`, `d/*`", "X1: no edit is 'd/*'"),
        ("– (1)", "–", "X2: no edit, and no note says why; note (1): no dash has it"),
        ("– (1)", "– (2)", "X2: no edit, and no note says why; note (1): no dash has it"),
        ("– (1)", "", "X2: no edit and no dash; note (1): no dash has it"),
        ("– (1)", "`c/one`", "note (1): no dash has it"),
        ("(1) None.", "(1) None.\n(1) None.", "note (1): twice"),
        ("| `c/law` ", "", "X1: 5 cells instead of 6; section 1: no rows 'X1'; section 2.1: no rows 'X1 to X2'; X2: no section has it; kit k-1: no row that cites it has \"first part\"; edit c/one: no row cites it; edit c/two: no row cites it"),
    ] {
        assert_eq!(found(old, new), fault, "{old} to {new}");
    }
}

#[test]
fn each_fault_of_a_kit_or_an_edit_is_found() {
    for (old, new, fault) in [
        ("`k-*`", "`k-1`", "kit k-2: no row cites it"),
        (", `script:k-3`", "", "script k-3: no row cites it"),
        ("`script:k-3`", "`script:k-*`", ""),
        (
            "`script:k-3`",
            "`*k-3`",
            "X2: no kit is '*k-3'; script k-3: no row cites it",
        ),
        ("`c/*`", "`c/t*`", "edit c/one: no row cites it"),
        (
            "first part",
            "first",
            "kit k-1: no row that cites it has \"first part\"",
        ),
        (
            "whole",
            "half",
            "kit k-2: no row that cites it has \"The whole | sentence.\"; script k-3: no row that cites it has \"whole\"",
        ),
    ] {
        assert_eq!(found(old, new), fault, "{old} to {new}");
    }
    let mut there = small();
    let quotes = conformance::quotes("# 01 (SUPPLIER 1): \"first part\"\n# 01: \"first part\"");
    there.kits.insert("k-3".into(), quotes.unwrap_or_default());
    let page = page(&format!("{HEAD}\n{GOOD}"));
    let told = "kit k-3: no quotes, or not each with its section";
    assert_eq!(faults(&page, &there), [told]);
}

/// A quote of one paper does not stand in a row of another.
#[test]
fn a_quote_stands_in_a_row_of_its_paper() {
    let (w1, w2) = (head_of("W1"), head_of("W2"));
    let told = "kit k-1: no row that cites it has \"first part\"";
    let mut there = small();
    for (head, paper, fault) in [
        (HEAD, "01", ""),
        (&*w1, "02 W1", ""),
        (&*w2, "02 W2", ""),
        (&*w1, "01", told),
        (&*w1, "02 W2", told),
        (HEAD, "02 W1", told),
    ] {
        // The first row stands below the head that is tried, all else below the other.
        let (first, rest) = GOOD.split_once('\n').expect("rows");
        let text = format!("{head}\n{first}\n\n{HEAD}\n{rest}");
        for quote in there.kits.get_mut("k-1").expect("k-1") {
            quote.paper = paper.into();
        }
        assert_eq!(faults(&page(&text), &there).join("; "), fault, "{paper}");
    }
    assert_eq!(paper("| Id | Request W1 | Definition |"), None);
    assert_eq!(paper(&head_of("W14")), None);
}

#[test]
fn each_fault_of_a_section_is_found() {
    for (old, new, fault) in [
        (
            "| 1 |",
            "| 2 |",
            "kit k-1: 1 is beside \"first part\", which stands in 2 or 2.1",
        ),
        (
            "| 1 |",
            "| – |",
            "kit k-1: 1 is beside \"first part\", which stands in 2.1 or –",
        ),
        (
            "| 1 | X1 |",
            "| 1 | X1 |\n| 3 | X1 |",
            "section 3: the paper has none",
        ),
        ("| 1 | X1 |", "| 1 | X1, X3 |", "section 1: no rows 'X3'"),
        (
            "| 1 | X1 |",
            "| 1 |",
            "1: no two cells; kit k-1: 1 is beside \"first part\", which stands in 2.1",
        ),
        (
            "X1 to X2",
            "X2 to X1",
            "section 2.1: no rows 'X2 to X1'; X2: no section has it",
        ),
    ] {
        assert_eq!(found(old, new), fault, "{old} to {new}");
    }
}

#[test]
fn sections_are_read_from_headings() {
    let text = "# 0 title\n## 7. A\n### 7.12 B\n##8 no\n## no 9\n10. no\n## 11. C";
    let expected = ["7", "7.12", "11"].map(String::from);
    assert_eq!(headings(text), expected.into());
}

#[test]
fn patterns_match_whole_names() {
    for (pattern, name) in [
        ("a", "a"),
        ("a*", "a"),
        ("*-c", "a-b-c"),
        ("a*b*c", "abbc"),
        ("*", ""),
    ] {
        assert!(matches(pattern, name), "{pattern} {name}");
    }
    for (pattern, name) in [
        ("a", "ab"),
        ("a*", "ba"),
        ("*-c", "c"),
        ("a*b", "abc"),
        ("", "a"),
    ] {
        assert!(!matches(pattern, name), "{pattern} {name}");
    }
}

#[test]
fn names_are_read_from_definitions_and_sources() {
    let antt = "-- pub no : A\nabbrev pub f : A\nunfoldable pub g : B\n  pub law-1 {l} : C\npub record R (x : A) : D where\npub data E : F where\npub mod M\nh : A";
    let names: Vec<&str> = declared(antt).collect();
    assert_eq!(names, ["f", "g", "law-1", "R", "E"]);
    let source = "pub struct S {\nenum E {\nconst K: u8 = 1;\nimpl S {\n    pub fn f<'a>(x: &'a u8)\n        ensures { }\n}\n// fn no()\n#[no_mangle]\npub extern \"C\" fn g() -> u8\n{\nfn h(\n";
    let names: Vec<&str> = items(source).collect();
    assert_eq!(names, ["S", "E", "K", "f", "g", "h"]);
    let told = |f: &Function| (f.name.to_string(), f.public, f.ensures);
    let functions: Vec<_> = functions(source).iter().map(told).collect();
    let expected = [("f", true, true), ("g", true, false), ("h", false, false)];
    assert_eq!(functions, expected.map(|(n, p, e)| (n.to_string(), p, e)));
}

/// What a `From` gives stands above its function, and tells of that one only.
#[test]
fn a_conversion_ensures_what_it_gives() {
    let source = "impl From<A> for B {\n    ghost from_gives = { f };\n\n    fn from(a: A) -> B {\n}\nimpl From<C> for D {\n    fn from(c: C) -> D {\n";
    let ensuring: Vec<bool> = functions(source).iter().map(|f| f.ensures).collect();
    assert_eq!(ensuring, [true, false]);
}
