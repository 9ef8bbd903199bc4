//! `compare`: the proved monitor against the model, on random kits and on random lists of calls.

mod calls;
mod kits;

use std::io::Write;
use std::num::NonZero;
use std::process::ExitCode;
use std::{fmt, fs, thread};

const USAGE: &str =
    "compare [KITS] [SEED]         the proved monitor against the model, on random kits
compare calls [LISTS] [SEED]  the same on random lists of calls";

const SEED: u64 = 20_000_000;

/// What was compared, counted.
pub trait Tally: Default + fmt::Display + Send {
    /// So many seeds must reach everything; as many are taken if not said otherwise.
    const ENOUGH: u64;

    /// Compares what a seed gives.
    fn compare(&mut self, seed: u64) -> Option<Difference>;

    /// Adds what other seeds came to.
    fn add(&mut self, other: &Self);

    /// What was reached least often.
    fn scarcest(&self) -> (u64, String);
}

/// Where the two differ, and what repeats it.
pub struct Difference {
    pub what: String,
    pub file: String,
    pub bytes: Vec<u8>,
}

fn main() -> ExitCode {
    let mut arguments: Vec<_> = std::env::args_os().skip(1).collect();
    let answer = match arguments.first().is_some_and(|first| first == "calls") {
        true => {
            arguments.remove(0);
            run::<calls::Calls>(&arguments)
        }
        false => run::<kits::Kits>(&arguments),
    };
    let (Ok(text) | Err(text)) = &answer;
    // A reader that has gone away does not change the answer.
    let _ = writeln!(std::io::stdout(), "{text}");
    ExitCode::from(u8::from(answer.is_err()))
}

/// The comparison that the arguments ask for: how many seeds, and the first.
fn run<T: Tally>(arguments: &[std::ffi::OsString]) -> Result<String, String> {
    let number = |at: usize, default| match arguments.get(at) {
        None => Some(default),
        Some(argument) => argument.to_str()?.replace('_', "").parse().ok(),
    };
    match (number(0, T::ENOUGH), number(1, SEED), arguments.len()) {
        (Some(many), Some(seed), ..=2) => report(many, compare::<T>(many, seed)),
        _ => Err(USAGE.to_owned()),
    }
}

/// What a comparison came to, in words; an error where something differs or was never tried.
fn report<T: Tally>(many: u64, compared: Compared<T>) -> Result<String, String> {
    if let Some(difference) = compared.difference {
        return Err(format!("{}\n{}", difference.what, difference.keep()));
    }
    let tally = compared.tally;
    match tally.scarcest() {
        (0, name) if many >= T::ENOUGH => Err(format!("{tally}never reached: {name}")),
        _ => Ok(format!("{tally}0 differences")),
    }
}

/// What the comparison over some seeds came to.
#[derive(Default)]
struct Compared<T> {
    tally: T,
    /// The first one.
    difference: Option<Difference>,
}

/// The comparison over so many seeds, in equal shares: the same for any number of threads.
fn compare<T: Tally>(many: u64, seed: u64) -> Compared<T> {
    let threads = thread::available_parallelism().map_or(1, NonZero::get) as u64;
    let start = |share: u64| many / threads * share + share.min(many % threads);
    let shares = (0..threads).map(|share| start(share)..start(share + 1));
    thread::scope(|scope| {
        let running: Vec<_> = shares
            .map(|share| scope.spawn(move || compare_share(share.map(|n| seed.wrapping_add(n)))))
            .collect();
        let mut all = Compared::default();
        for share in running {
            match share.join() {
                Ok(share) => all.add(share),
                Err(panic) => std::panic::resume_unwind(panic),
            }
        }
        all
    })
}

/// The comparison over some seeds, up to the first difference.
fn compare_share<T: Tally>(seeds: impl Iterator<Item = u64>) -> Compared<T> {
    let mut compared = Compared::<T>::default();
    for seed in seeds {
        compared.difference = compared.tally.compare(seed);
        if compared.difference.is_some() {
            break;
        }
    }
    compared
}

impl<T: Tally> Compared<T> {
    /// Adds the next share.
    fn add(&mut self, next: Compared<T>) {
        self.tally.add(&next.tally);
        self.difference = self.difference.take().or(next.difference);
    }
}

impl Difference {
    /// Writes what repeats it to a file in the current folder, and says so.
    fn keep(&self) -> String {
        let file = &self.file;
        match fs::write(file, &self.bytes) {
            Ok(()) => format!("kept: {file}"),
            Err(error) => format!("cannot be kept: {file}: {error}"),
        }
    }
}
