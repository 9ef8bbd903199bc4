//! `wrong_boards`: boards with one thing changed, made from the model's own sources, and whether
//! the conformance kits tell each of them.

mod board;
mod changes;
mod names;
mod reasons;
mod skipped;
mod tokens;

use board::{Bench, Tried, Wrong, MODULES};
use changes::Change;
use model::{conformance, listing, random};
use names::{Function, Names};
use std::collections::{BTreeMap, BTreeSet};
use std::path::{Path, PathBuf};
use std::process::ExitCode;
use std::sync::atomic::{AtomicUsize, Ordering};
use std::sync::Mutex;
use std::time::{Duration, Instant};
use std::{fs, io, thread};
use tokens::Source;

const USAGE: &str = "wrong_boards [-j JOBS] [-r RANDOM] [-f FILE] [-l]
    makes a wrong board of each change of the model and tries it with the conformance kits,
    then with RANDOM random kits, 20,000 if not said otherwise; JOBS at a time.
    -f FILE: only the boards that have a line in FILE
    -l: prints the boards' lines and makes none
";

/// So many boards go into one program.
const TOGETHER: usize = 200;

/// A board to be made.
struct Board {
    /// The number of its source.
    source: usize,
    /// The number of the function that is changed.
    of: Option<usize>,
    change: Change,
    /// The number of its line.
    line: usize,
    /// `FILE FUNCTION | LINE | OLD -> NEW`
    key: String,
}

/// What became of a board.
#[derive(Clone, Debug, PartialEq, Eq)]
enum Outcome {
    NotCompiled,
    /// By a kit, by a panic or by taking too long.
    Told(String),
    /// By random kits only: a seed.
    Random(String),
    Neither,
}

struct Arguments {
    jobs: usize,
    random: u64,
    only: Option<BTreeSet<String>>,
    list: bool,
}

fn main() -> ExitCode {
    let answer = arguments().and_then(|arguments| work(&arguments));
    match answer {
        Ok(true) => ExitCode::SUCCESS,
        Ok(false) => ExitCode::from(1),
        Err(reason) => {
            eprintln!("{}", reason.trim_end());
            ExitCode::from(2)
        }
    }
}

fn arguments() -> Result<Arguments, String> {
    let mut arguments = Arguments {
        jobs: thread::available_parallelism().map_or(1, |jobs| jobs.get()),
        random: 20_000,
        only: None,
        list: false,
    };
    let mut given = std::env::args().skip(1);
    while let Some(argument) = given.next() {
        let mut number = || given.next().and_then(|number| number.parse().ok());
        match argument.as_str() {
            "-j" => arguments.jobs = number().ok_or(USAGE)? as usize,
            "-r" => arguments.random = number().ok_or(USAGE)?,
            "-f" => {
                let file = given.next().ok_or(USAGE)?;
                let lines = fs::read_to_string(&file).map_err(|e| format!("{file}: {e}"))?;
                arguments.only = Some(lines.lines().map(|line| line.trim().into()).collect());
            }
            "-l" => arguments.list = true,
            _ => return Err(USAGE.into()),
        }
    }
    Ok(arguments)
}

/// A path of the model's package.
fn package(path: &str) -> PathBuf {
    Path::new(env!("CARGO_MANIFEST_DIR")).join(path)
}

/// Whether all is as it must be.
fn work(arguments: &Arguments) -> Result<bool, String> {
    let folder = std::env::temp_dir().join(format!("wrong_boards-{}", std::process::id()));
    fs::create_dir_all(&folder).map_err(|e| e.to_string())?;
    let answer = work_in(&folder, arguments);
    let _ = fs::remove_dir_all(&folder);
    answer
}

fn work_in(folder: &Path, arguments: &Arguments) -> Result<bool, String> {
    let told = |error: io::Error| error.to_string();
    let sources = sources().map_err(told)?;
    let kits = Kits::new(folder, arguments.random)?;
    let trial = Trial::new(folder, &sources, kits).map_err(told)?;
    let mut all = All::new(&sources, &trial.called);
    if let Some(only) = &arguments.only {
        all.boards.retain(|board| only.contains(&board.key));
        all.idle.clear();
    }
    if arguments.list {
        all.boards
            .iter()
            .for_each(|board| println!("{}", board.key));
        return Ok(true);
    }
    let outcomes = trial.run(folder, &sources, &all, arguments.jobs);
    let outcomes = outcomes.map_err(told)?;
    let page = fs::read_to_string(package("docs/WRONG_BOARDS.md")).unwrap_or_default();
    let mut reasons = reasons::read(&page);
    if arguments.only.is_some() {
        reasons.retain(|key, _| all.boards.iter().any(|board| board.key == *key));
    }
    Ok(report(&sources, &all, &outcomes, &reasons))
}

/// Modules that no listing is made by: asks, commits, and a channel in the arrays of the library's caller.
const NOT_LISTED: [&str; 3] = ["pub mod ask;\n", "pub mod commit;\n", "pub mod image;\n"];

fn sources() -> io::Result<Vec<Source>> {
    let read = |module: &&str| {
        let file = format!("{module}.rs");
        let text = fs::read_to_string(package("src").join(&file))?;
        let without = |text: String, module: &&str| text.replace(module, "");
        Ok(Source::new(&file, NOT_LISTED.iter().fold(text, without)))
    };
    MODULES.iter().map(read).collect()
}

/// The kits, for the boards and by name.
struct Kits {
    conformance: PathBuf,
    random: PathBuf,
    names: Vec<String>,
}

impl Kits {
    fn new(folder: &Path, random: u64) -> Result<Kits, String> {
        let told = |error: io::Error| error.to_string();
        let chosen = conformance::read(&package("../kits"))?;
        let kits = Kits {
            conformance: folder.join("conformance"),
            random: folder.join("random"),
            names: chosen.iter().map(|kit| kit.name.clone()).collect(),
        };
        let all = chosen.iter().map(|kit| (&kit.bytes[..], &kit.listing[..]));
        board::write_kits(&kits.conformance, all).map_err(told)?;
        let random: Vec<Vec<u8>> = (0..random).map(random_kit).collect();
        let listings: Vec<String> = random.iter().map(|kit| listing::list(kit)).collect();
        let all = random.iter().zip(&listings);
        let all = all.map(|(kit, listing)| (&kit[..], &listing[..]));
        board::write_kits(&kits.random, all).map_err(told)?;
        Ok(kits)
    }
}

/// The random kit of a seed, as `compare` takes it: one in sixteen is but random bytes.
fn random_kit(seed: u64) -> Vec<u8> {
    if seed.is_multiple_of(16) {
        random::bytes(seed)
    } else {
        random::kit(seed)
    }
}

/// The kits, how long they may take, and what the unchanged board calls.
struct Trial {
    kits: Kits,
    limit: Duration,
    random_limit: Duration,
    /// The source and the place of each function that is called.
    called: BTreeSet<(usize, usize)>,
}

impl Trial {
    /// Tries the unchanged board, with a note of its calls.
    fn new(folder: &Path, sources: &[Source], kits: Kits) -> io::Result<Trial> {
        let bench = Bench::new(folder.join("unchanged"), sources, &package("src"))?;
        let mut numbers = Vec::new();
        for (number, source) in sources.iter().enumerate() {
            bench.put(&source.file, &with_calls(source, number, &mut numbers))?;
        }
        if let Some(said) = bench.compile(true)? {
            let told = format!("the unchanged board does not compile:\n{said}");
            return Err(io::Error::other(told));
        }
        let (mut called, mut limits) = (BTreeSet::new(), Vec::new());
        for file in [&kits.conformance, &kits.random] {
            let start = Instant::now();
            match bench.try_kits(file, 0, Duration::from_secs(600))? {
                Tried::Alike(functions) => called.extend(functions.iter().map(|&f| numbers[f])),
                tried => {
                    let told = format!("the unchanged board, {}: {tried:?}", file.display());
                    return Err(io::Error::other(told));
                }
            }
            limits.push(10 * start.elapsed() + Duration::from_secs(5));
        }
        Ok(Trial {
            kits,
            limit: limits[0],
            random_limit: limits[1],
            called,
        })
    }

    /// What becomes of each board, some programs at a time.
    fn run(
        &self,
        folder: &Path,
        sources: &[Source],
        all: &All,
        jobs: usize,
    ) -> io::Result<Vec<Outcome>> {
        let programs = all.programs();
        let next = AtomicUsize::new(0);
        let outcomes = Mutex::new(vec![Outcome::NotCompiled; all.boards.len()]);
        thread::scope(|scope| {
            let job = |job: usize| {
                let (next, outcomes, programs) = (&next, &outcomes, &programs);
                move || -> io::Result<()> {
                    let bench = Bench::new(folder.join(job.to_string()), sources, &package("src"))?;
                    loop {
                        let number = next.fetch_add(1, Ordering::Relaxed);
                        let Some(program) = programs.get(number) else {
                            return Ok(());
                        };
                        let came = self.outcomes(&bench, all, program)?;
                        let mut outcomes = outcomes.lock().unwrap_or_else(|e| e.into_inner());
                        for (&board, outcome) in program.iter().zip(came) {
                            outcomes[board] = outcome;
                        }
                        eprintln!("program {} of {}", number + 1, programs.len());
                    }
                }
            };
            let jobs: Vec<_> = (0..jobs.max(1)).map(|one| scope.spawn(job(one))).collect();
            jobs.into_iter()
                .try_for_each(|job| job.join().expect("a job that ends"))
        })?;
        Ok(outcomes.into_inner().unwrap_or_else(|e| e.into_inner()))
    }

    /// What becomes of the boards of one program.
    fn outcomes(&self, bench: &Bench, all: &All, program: &[usize]) -> io::Result<Vec<Outcome>> {
        let boards: Vec<Wrong> = program.iter().map(|&board| all.wrong(board)).collect();
        let alone = boards.iter().any(|board| board.of.is_none());
        let made = if alone {
            None
        } else {
            bench.together(&boards)?
        };
        let mut outcomes = Vec::new();
        for (number, &board) in boards.iter().enumerate() {
            let made = match &made {
                Some(made) => made[number],
                None => bench.alone(board)?,
            };
            outcomes.push(match made {
                true => self.outcome(bench, number + 1)?,
                false => Outcome::NotCompiled,
            });
        }
        Ok(outcomes)
    }

    /// What becomes of a board that is made.
    fn outcome(&self, bench: &Bench, board: usize) -> io::Result<Outcome> {
        let told = match bench.try_kits(&self.kits.conformance, board, self.limit)? {
            Tried::Alike(_) => None,
            Tried::Differs(kit) => Some(self.kits.names[kit].clone()),
            tried => Some(format!("{tried:?}")),
        };
        if let Some(told) = told {
            return Ok(Outcome::Told(told));
        }
        let tried = bench.try_kits(&self.kits.random, board, self.random_limit)?;
        Ok(match tried {
            Tried::Alike(_) => Outcome::Neither,
            Tried::Differs(seed) => Outcome::Random(format!("seed {seed}")),
            tried => Outcome::Random(format!("{tried:?}")),
        })
    }
}

/// A source in which each function notes its call; `numbers` gets its source and its place.
fn with_calls(source: &Source, number: usize, numbers: &mut Vec<(usize, usize)>) -> String {
    let tests = source.text.find("#[cfg(test)]");
    let (mut text, mut place) = (String::new(), 0);
    for function in names::functions(source, &vec![false; source.tokens.len()]) {
        let start = source.tokens[function.start].at.start;
        let brace = source.tokens[function.body.start].at.end;
        if tests.is_some_and(|tests| start > tests) {
            break;
        }
        let before = &source.text[place..start];
        text.push_str(before.strip_suffix("const ").unwrap_or(before));
        text.push_str(&source.text[start..brace]);
        text.push_str(&format!(" crate::call({});", numbers.len()));
        numbers.push((number, function.start));
        place = brace;
    }
    text + &source.text[place..]
}

/// Every wrong board, and the functions that are never called.
struct All {
    boards: Vec<Board>,
    functions: Vec<Function>,
    idle: Vec<String>,
}

impl All {
    fn new(sources: &[Source], called: &BTreeSet<(usize, usize)>) -> All {
        let skipped: Vec<Vec<bool>> = sources.iter().map(skipped::skipped).collect();
        let mut names = Names::default();
        for (source, skipped) in sources.iter().zip(&skipped) {
            names.add(source, skipped);
        }
        let mut all = All {
            boards: Vec::new(),
            functions: Vec::new(),
            idle: Vec::new(),
        };
        for (number, (source, skipped)) in sources.iter().zip(&skipped).enumerate() {
            let is_called = |of: &Function| called.contains(&(number, of.start));
            let functions = names::functions(source, skipped);
            let (functions, idle): (Vec<_>, Vec<_>) = functions.into_iter().partition(is_called);
            let of_idle = |&token: &usize| idle.iter().any(|of| of.holds(token));
            let tokens = 0..source.tokens.len();
            let tokens = tokens.filter(|&token| !skipped[token] && !of_idle(&token));
            all.add(number, source, &names, functions, tokens);
            let idle = idle.iter().map(|of| &of.name);
            let idle = idle.map(|name| format!("{} {name} | never called", source.file));
            all.idle.extend(idle);
        }
        all
    }

    /// Adds the boards that differ at these tokens of a source.
    fn add(
        &mut self,
        number: usize,
        source: &Source,
        names: &Names,
        functions: Vec<Function>,
        tokens: impl Iterator<Item = usize>,
    ) {
        let mut texts = BTreeSet::new();
        for token in tokens {
            let place = functions.iter().rposition(|of| of.holds(token));
            let function = place.map(|place| &functions[place]);
            let in_body = function.is_some_and(|of| of.body.contains(&token));
            let of = place.map(|place| self.functions.len() + place);
            for change in changes::changes(source, names, function, token) {
                let (before, behind) = (change.at.start, change.at.end);
                let text = [&source.text[..before], &change.new, &source.text[behind..]];
                // Another change may have given the same text.
                if !texts.insert(one_line(&text.concat())) {
                    continue;
                }
                let (line, key) = key(source, function.map_or("", |of| &of.name), &change);
                self.boards.push(Board {
                    source: number,
                    of: of.filter(|_| in_body),
                    change,
                    line,
                    key,
                });
            }
        }
        self.functions.extend(functions);
    }

    fn wrong(&self, board: usize) -> Wrong<'_> {
        let board = &self.boards[board];
        Wrong {
            source: board.source,
            of: board.of.map(|of| &self.functions[of]),
            change: &board.change,
        }
    }

    /// The boards of each program: many that change a function, or one that does not.
    fn programs(&self) -> Vec<Vec<usize>> {
        let all = 0..self.boards.len();
        let (of, alone): (Vec<usize>, Vec<usize>) =
            all.partition(|&board| self.boards[board].of.is_some());
        let together = of.chunks(TOGETHER).map(<[usize]>::to_vec);
        together
            .chain(alone.into_iter().map(|board| vec![board]))
            .collect()
    }
}

/// A board's line, its number and its key.
fn key(source: &Source, function: &str, change: &Change) -> (usize, String) {
    let (number, line) = source.line(change.at.start);
    let old = one_line(&source.text[change.at.clone()]);
    let start = source.text[..change.at.start].rfind('\n');
    let front = &source.text[start.map_or(0, |at| at + 1)..change.at.start];
    // The same may stand on the line before.
    let again = match front.matches(&old[..]).count() {
        times if times > 0 && !old.is_empty() => format!(" ({})", times + 1),
        _ => String::new(),
    };
    let new = match one_line(&change.new) {
        new if new.is_empty() => "left out".into(),
        new => new,
    };
    let (line, what) = match &change.in_state {
        // A statement that goes on behind the line is told by its front.
        Some(state) if old.starts_with(line) => (short(&old), state.clone()),
        Some(state) => (line.into(), state.clone()),
        None => {
            let what = format!("{}{again} -> {}", short(&old), short(&new));
            (line.into(), what)
        }
    };
    let key = format!("{} {function} | {line} | {what}", source.file);
    (number, key)
}

/// A text of some length.
fn short(text: &str) -> String {
    match text.char_indices().nth(60) {
        Some((end, _)) => format!("{} ..", &text[..end]),
        None => text.into(),
    }
}

/// A text with each run of blanks as one.
fn one_line(text: &str) -> String {
    text.split_whitespace().collect::<Vec<_>>().join(" ")
}

/// Prints the table; whether no board is told by random kits only, and those told by neither
/// are the ones with a reason.
fn report(
    sources: &[Source],
    all: &All,
    outcomes: &[Outcome],
    reasons: &BTreeMap<String, String>,
) -> bool {
    let table = Table { all, outcomes };
    println!("                            changed  in a state only");
    table.row("wrong boards made", |_| true);
    table.row("not compiled", |o| *o == Outcome::NotCompiled);
    table.row("told by a kit", |o| matches!(o, Outcome::Told(_)));
    let by = [
        ("  by a panic", Tried::Panics),
        ("  by taking too long", Tried::TooSlow),
    ];
    for (name, by) in by {
        table.row(name, |o| *o == Outcome::Told(format!("{by:?}")));
    }
    table.row("told by random kits only", |o| {
        matches!(o, Outcome::Random(_))
    });
    table.row("told by neither", |o| *o == Outcome::Neither);
    println!("functions never called      {:>7}", all.idle.len());
    let (mut by_random, mut neither) = (0, all.idle.clone());
    for (board, outcome) in all.boards.iter().zip(outcomes) {
        let place = format!("{}:{}", sources[board.source].file, board.line);
        match outcome {
            Outcome::Random(by) => {
                println!("\n{place}, told by random kits only, {by}:\n{}", board.key);
                by_random += 1;
            }
            Outcome::Neither => {
                if !reasons.contains_key(&board.key) {
                    println!("\n{place}, told by neither, no reason:\n{}", board.key);
                }
                neither.push(board.key.clone());
            }
            _ => (),
        }
    }
    for idle in all.idle.iter().filter(|idle| !reasons.contains_key(*idle)) {
        println!("\nno reason:\n{idle}");
    }
    let stale = reasons.keys().filter(|key| !neither.contains(key));
    let stale: Vec<&String> = stale.collect();
    for key in &stale {
        println!("\na reason without a wrong board:\n{key}");
    }
    let reasoned = neither.iter().all(|key| reasons.contains_key(key));
    by_random == 0 && reasoned && stale.is_empty()
}

/// How many boards there are of each kind.
struct Table<'a> {
    all: &'a All,
    outcomes: &'a [Outcome],
}

impl Table<'_> {
    fn row(&self, name: &str, wanted: impl Fn(&Outcome) -> bool) {
        let count = |in_state: bool| {
            let boards = self.all.boards.iter().zip(self.outcomes);
            let of = boards.filter(|(board, _)| board.change.in_state.is_some() == in_state);
            of.filter(|(_, outcome)| wanted(outcome)).count()
        };
        println!("{name:<27} {:>7}  {:>15}", count(false), count(true));
    }
}
