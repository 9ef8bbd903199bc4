//! `speed`: what a cycle costs the proved monitor, the model and, where they are linked, the libraries of before, on the same
//! kits.

mod causes;
mod libraries;
mod logs;
mod turns;

use logs::{assemble, log, Kit, Pattern, GEARS, LISTS, LOGS, QUIET, STOPS};
use model::log::{self, Record};
use model::proved::Channel;
use model::{listing, proved, words};
use std::fmt;
use std::hint::black_box;
use std::io::Write;
use std::process::ExitCode;
use std::time::{Duration, Instant};

const USAGE: &str = "speed [ROUNDS]   nanoseconds a cycle, the proved monitor and the model";

const ROUNDS: usize = 301;

/// Cycles of a log: where the cost is linear, a cycle costs the same at every length.
const LENGTHS: [usize; 4] = [250, 500, 1000, 2000];

/// A sample repeats its call for about so long, well above the clock's grain.
const SAMPLE: Duration = Duration::from_micros(200);

fn main() -> ExitCode {
    let rounds = match std::env::args_os().nth(1) {
        None => Some(ROUNDS),
        Some(argument) => argument.to_str().and_then(|rounds| rounds.parse().ok()),
    };
    let answer = match rounds {
        Some(rounds @ 1..) => tables(rounds),
        _ => Err(USAGE.to_owned()),
    };
    let (Ok(text) | Err(text)) = &answer;
    // A reader that has gone away does not change the answer.
    let _ = writeln!(std::io::stdout(), "{}", text.trim_end());
    ExitCode::from(u8::from(answer.is_err()))
}

/// The tables, or why there are none.
fn tables(rounds: usize) -> Result<String, String> {
    let mut text = format!("Medians of {rounds} samples, in brackets the least.\n");
    text += &head("Nanoseconds a cycle");
    for (name, kit) in LOGS {
        text += &rows_of_log(name, kit, rounds)?;
    }
    text += &head("Nanoseconds a list, no log");
    for (name, lists) in LISTS {
        for cost in costs(vec![Bench::new(assemble(lists)?, 0)], rounds)? {
            text += &row(name, divided(cost, 2));
        }
    }
    text += &head_of_calls();
    for (name, pattern) in [
        ("quiet SG", QUIET),
        ("gears", GEARS),
        ("stops, F and acknowledgements", STOPS),
    ] {
        text += &Calls::new(pattern)?.row(name, rounds)?;
    }
    text += &format!("The clock takes {} of each of the million.\n", clock());
    text += "\n| Nanoseconds a call, quiet SG | |\n|---|---:|\n";
    text += &Calls::new(QUIET)?.rows_of_calls(rounds);
    text += &causes::table(rounds)?;
    text += &turns::table(rounds)?;
    Ok(text)
}

/// A log at each length, and what each further cycle costs, without the lists.
fn rows_of_log(name: &str, kit: fn(usize) -> Kit, rounds: usize) -> Result<String, String> {
    let mut kits = Vec::new();
    for cycles in LENGTHS {
        kits.push(Bench::new(kit(cycles)?, cycles));
    }
    let costs = costs(kits, rounds)?;
    let mut rows = String::new();
    for (cycles, &cost) in LENGTHS.into_iter().zip(&costs) {
        rows += &row(&format!("{name}, {cycles} cycles"), divided(cost, cycles));
    }
    if let ([short, .., long], [of_short, .., of_long]) = (LENGTHS, &costs[..]) {
        let further = divided(less(*of_long, *of_short), long - short);
        rows += &row(&format!("{name}, each further cycle"), further);
    }
    Ok(rows)
}

fn head(what: &str) -> String {
    format!(
        "\n| {what} | Log run, proved | Model | Ratio | Listing, proved | Model | Ratio |\n{}\n",
        "|---|---:|---:|---:|---:|---:|---:|"
    )
}

fn row(name: &str, [run, model_run, list, model_list]: Cost) -> String {
    let run_ratio = run.median / model_run.median;
    let list_ratio = list.median / model_list.median;
    format!("| {name} | {run} | {model_run} | {run_ratio:.2} | {list} | {model_list} | {list_ratio:.2} |\n")
}

/// Nanoseconds of a call that was timed often.
#[derive(Clone, Copy)]
struct Time {
    median: f64,
    least: f64,
}

impl Time {
    fn of(mut samples: Vec<f64>) -> Time {
        samples.sort_by(f64::total_cmp);
        let at = |place: usize| samples.get(place).copied().unwrap_or(f64::NAN);
        Time {
            median: at(samples.len() / 2),
            least: at(0),
        }
    }
}

impl fmt::Display for Time {
    fn fmt(&self, f: &mut fmt::Formatter) -> fmt::Result {
        write!(f, "{:.1} ({:.1})", self.median, self.least)
    }
}

/// The log run of the proved monitor and of the model, then the listing of both.
type Cost = [Time; 4];

fn divided(cost: Cost, by: usize) -> Cost {
    cost.map(|time| Time {
        median: time.median / by as f64,
        least: time.least / by as f64,
    })
}

fn less(cost: Cost, other: Cost) -> Cost {
    std::array::from_fn(|of| Time {
        median: cost[of].median - other[of].median,
        least: cost[of].least - other[of].least,
    })
}

/// What each kit costs. All take turns in every round, so that what else the machine does
/// meets all alike.
fn costs(mut kits: Vec<Bench>, rounds: usize) -> Result<Vec<Cost>, String> {
    for kit in &mut kits {
        kit.compare()?;
        kit.repeats = CALLS.map(|call| kit.repeats_of(call));
    }
    for _ in 0..rounds {
        for kit in &mut kits {
            kit.round();
        }
    }
    let costs = kits.into_iter().map(|kit| kit.samples.map(Time::of));
    Ok(costs.collect())
}

/// The calls that are timed, in the order of [`Cost`].
const CALLS: [Call; 4] = [Call::Run, Call::ModelRun, Call::List, Call::ModelList];

#[derive(Clone, Copy)]
enum Call {
    Run,
    ModelRun,
    List,
    ModelList,
}

/// A kit that is timed, with what it lends to the calls.
struct Bench {
    kit: Vec<u8>,
    words: Vec<u32>,
    cycles: usize,
    output: Vec<u32>,
    text: Vec<u8>,
    repeats: [u32; 4],
    samples: [Vec<f64>; 4],
}

impl Bench {
    fn new(kit: Vec<u8>, cycles: usize) -> Bench {
        Bench {
            words: words::of_bytes(&kit),
            kit,
            cycles,
            output: vec![0; 3 * cycles],
            text: vec![0; listing::LARGEST],
            repeats: [1; 4],
            samples: [const { Vec::new() }; 4],
        }
    }

    fn call(&mut self, call: Call) -> usize {
        let (kit, words) = (black_box(&self.kit), black_box(&self.words));
        let (output, text) = (black_box(&mut self.output), black_box(&mut self.text));
        match call {
            Call::Run => proved::run_kit(words, output).unwrap_or(0),
            Call::ModelRun => listing::run(words, output).unwrap_or(0),
            Call::List => proved::list_kit(kit, text),
            Call::ModelList => listing::list_into(kit, text).unwrap_or(0),
        }
    }

    /// Costs say something only where both do the same work.
    fn compare(&mut self) -> Result<(), String> {
        let answers = CALLS.map(|call| {
            self.output.fill(0);
            self.text.fill(0);
            let answer = self.call(call);
            (answer, self.output.clone(), self.text.clone())
        });
        let [run, model_run, list, model_list] = answers;
        match run.0 == self.cycles && run == model_run && list == model_list {
            true => Ok(()),
            false => Err(format!(
                "the answers differ for a log of {} cycles",
                self.cycles
            )),
        }
    }

    /// How often a call is repeated in a sample.
    fn repeats_of(&mut self, call: Call) -> u32 {
        let once = self.sample(call, 10);
        (SAMPLE.as_nanos() as f64 / once.max(1.0)).clamp(1.0, 1e6) as u32
    }

    /// Nanoseconds of one of so many calls.
    fn sample(&mut self, call: Call, repeats: u32) -> f64 {
        let start = Instant::now();
        for _ in 0..repeats {
            black_box(self.call(call));
        }
        start.elapsed().as_nanos() as f64 / f64::from(repeats)
    }

    /// One more sample of each call.
    fn round(&mut self) {
        for (of, call) in CALLS.into_iter().enumerate() {
            let sample = self.sample(call, self.repeats[of]);
            self.samples[of].push(sample);
        }
    }
}

fn head_of_calls() -> String {
    format!(
        "\n| Nanoseconds a device cycle | Inside the log run | By single calls | Ratio | A channel's cycle | {} |\n{}\n",
        "By single calls, of a million: median | 99.9 % below | worst",
        "|---|---:|---:|---:|---:|---:|---:|---:|"
    )
}

/// Nanoseconds that the clock itself takes between two looks at it.
fn clock() -> u128 {
    let mut times: Vec<_> = (0..10_000)
        .map(|_| Instant::now().elapsed().as_nanos())
        .collect();
    times.sort_unstable();
    times[times.len() / 2]
}

/// A loop over one call.
type Looped = fn(&mut Calls);

/// Device cycles that are timed one by one.
const MILLION: usize = 1_000_000;

/// A log that is run whole and cycle by cycle, as a board's loop does.
struct Calls {
    fresh: [Channel; 2],
    channels: [Channel; 2],
    lists: Vec<u32>,
    words: Vec<u32>,
    records: Vec<Record>,
    /// B's reports to A.
    reports: Vec<[u32; 4]>,
    output: Vec<u32>,
}

impl Calls {
    const CYCLES: usize = 2000;

    fn new(pattern: Pattern) -> Result<Calls, String> {
        let kit = words::of_bytes(&log(pattern, Calls::CYCLES)?);
        let mut fresh = [Channel::NONE; 2];
        let mut behind = 0;
        for channel in &mut fresh {
            let used = channel.read_list(&kit[behind..]);
            behind += used.map_err(|refusal| format!("{refusal:?}"))?;
        }
        let (lists, words) = (kit[..behind].to_vec(), kit[behind..].to_vec());
        Ok(Calls {
            fresh,
            channels: fresh,
            lists,
            records: log::records(&words).collect(),
            words,
            reports: vec![[0; 4]; Calls::CYCLES],
            output: vec![0; 3 * Calls::CYCLES],
        })
    }

    /// The log as one call.
    fn run(&mut self) {
        self.channels = self.fresh;
        let [a, b] = black_box(&mut self.channels);
        let ran = proved::run_log(a, b, black_box(&self.words), &mut self.output);
        black_box(ran.unwrap_or(0));
    }

    /// A device cycle: both reports, both channels, the device word.
    #[inline(always)]
    fn device_cycle(channels: &mut [Channel; 2], record: &Record) -> ([u32; 3], [u32; 4]) {
        let Record { a, b, acknowledged } = *record;
        let from_a = channels[0].report(a.position, a.inputs);
        let from_b = channels[1].report(b.position, b.inputs);
        let acknowledged = acknowledged.into();
        let of_a = channels[0].cycle(a.position, a.inputs, acknowledged, &from_b);
        let of_b = channels[1].cycle(b.position, b.inputs, acknowledged, &from_a);
        let device = proved::device_word(of_a.word, of_b.word);
        ([of_a.word, of_b.word, device], from_b)
    }

    /// The log by single calls.
    fn single(&mut self) {
        self.channels = self.fresh;
        let channels = black_box(&mut self.channels);
        let cycles = self.records.iter().zip(&mut self.reports);
        for ((record, report), three) in cycles.zip(self.output.chunks_exact_mut(3)) {
            let (words, from_b) = Calls::device_cycle(channels, record);
            *report = from_b;
            three.copy_from_slice(&words);
        }
    }

    /// Channel A alone, with the reports that B gave.
    fn one_channel(&mut self) {
        self.channels = self.fresh;
        let channel = black_box(&mut self.channels[0]);
        for (record, report) in self.records.iter().zip(&self.reports) {
            let side = record.a;
            let acknowledged = record.acknowledged.into();
            black_box(channel.cycle(side.position, side.inputs, acknowledged, report));
        }
    }

    /// The report of channel A.
    fn report(&mut self) {
        for record in &self.records {
            let channel = black_box(&self.channels[0]);
            black_box(channel.report(record.a.position, record.a.inputs));
        }
    }

    /// The device word.
    fn device_word(&mut self) {
        for three in self.output.chunks_exact(3) {
            black_box(proved::device_word(three[0], three[1]));
        }
    }

    /// List A.
    fn read_list(&mut self) {
        let (channel, lists) = (&mut self.channels[0], &self.lists);
        for _ in 0..Calls::CYCLES {
            black_box(channel.read_list(black_box(lists)).is_ok());
        }
    }

    /// What each call costs, by a loop over it.
    fn rows_of_calls(&mut self, rounds: usize) -> String {
        let calls: [(&str, Looped); 4] = [
            ("monitor_device_word", Calls::device_word),
            ("monitor_report", Calls::report),
            ("monitor_cycle", Calls::one_channel),
            ("monitor_read_list", Calls::read_list),
        ];
        self.single();
        let rows = calls.map(|(name, call)| {
            let samples = (0..rounds).map(|_| self.sample(call)).collect();
            format!("| `{name}` | {} |\n", Time::of(samples))
        });
        rows.concat()
    }

    /// Nanoseconds of one of the cycles that a function goes through.
    fn sample(&mut self, call: Looped) -> f64 {
        let start = Instant::now();
        call(self);
        start.elapsed().as_nanos() as f64 / Calls::CYCLES as f64
    }

    fn row(&mut self, name: &str, rounds: usize) -> Result<String, String> {
        self.run();
        let ran = (self.output.clone(), self.channels);
        self.output.fill(0);
        self.single();
        if ran != (self.output.clone(), self.channels) {
            return Err(format!("{name}: single calls and the log run differ"));
        }
        let calls = [Calls::run, Calls::single, Calls::one_channel];
        let mut samples = [const { Vec::new() }; 3];
        for _ in 0..rounds {
            for (call, samples) in calls.into_iter().zip(&mut samples) {
                samples.push(self.sample(call));
            }
        }
        let [run, single, channel] = samples.map(Time::of);
        let ratio = single.median / run.median;
        let [median, most, worst] = self.million();
        Ok(format!(
            "| {name} | {run} | {single} | {ratio:.2} | {channel} | {median} | {most} | {worst} |\n"
        ))
    }

    /// Each of a million device cycles by the clock, which costs some of it: the median, what
    /// 99.9 % are below, and the worst.
    fn million(&mut self) -> [u128; 3] {
        self.channels = self.fresh;
        let mut times = Vec::with_capacity(MILLION);
        for record in self.records.iter().cycle().take(MILLION) {
            let start = Instant::now();
            black_box(Calls::device_cycle(black_box(&mut self.channels), record));
            times.push(start.elapsed().as_nanos());
        }
        times.sort_unstable();
        [MILLION / 2, MILLION / 1000 * 999, MILLION - 1].map(|place| times[place])
    }
}
