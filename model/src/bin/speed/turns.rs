//! The monitors that are linked, on the same logs: a device cycle of a log run, and one channel's cycle. They take turns, and
//! a ratio is the median of each turn's own, since a machine's speed may move from one second to the next.

use crate::libraries::{self, Library};
use crate::logs::{self, Kit, ACROSS, FAR, LOGS};
use crate::Time;
use model::channel::image::Lent;
use model::deviation::Paper;
use model::log::{self, Record};
use model::proved::{lent, Channel};
use model::{listing, words, Report};
use std::hint::black_box;
use std::time::Instant;

const CYCLES: usize = 2000;

/// Logs by chance of which each turn takes another, so that no processor learns its way through one by heart.
const BY_CHANCE: u64 = 32;

#[derive(Clone, Copy)]
pub enum Monitor {
    Proved(Library),
    Model,
}

/// All that are linked, by name. The first is the one that the others are compared with.
pub fn monitors() -> Result<Vec<(&'static str, Monitor)>, String> {
    let mut all = vec![("proved", Monitor::Proved(libraries::NOW))];
    let before = libraries::before()?;
    all.extend(before.map(|library| ("before", Monitor::Proved(library))));
    all.push(("model", Monitor::Model));
    Ok(all)
}

/// Each log by each monitor, and the cams across their edges to the same far from them.
pub fn table(rounds: usize) -> Result<String, String> {
    let monitors = monitors()?;
    let mut text = head(&monitors);
    for (name, kit) in LOGS
        .into_iter()
        .filter(|(name, _)| ![ACROSS, FAR].contains(name))
    {
        let mut turns = Turns::new(name, &monitors, vec![kit(CYCLES)])?;
        for round in 0..rounds {
            turns.round(round);
        }
        text += &turns.row();
    }
    let by_chance =
        |kit: fn(u64, usize) -> Kit| (0..BY_CHANCE).map(|seed| kit(seed, CYCLES)).collect();
    let mut across = Turns::new(ACROSS, &monitors, by_chance(logs::across))?;
    let mut far = Turns::new(FAR, &monitors, by_chance(logs::far))?;
    for round in 0..rounds {
        across.round(round);
        far.round(round);
    }
    Ok(text + &across.row() + &far.row() + &across.row_to(&far))
}

fn head(monitors: &[(&str, Monitor)]) -> String {
    let names = ["Log run", "A channel's cycle"].map(|call| columns(call, monitors));
    let names = names.concat();
    format!(
        "\n| Least nanoseconds of {CYCLES} cycles, and medians of each turn's ratios |{names}\n|---|{}\n",
        "---:|".repeat(names.matches('|').count())
    )
}

/// A call's columns: a time of each monitor, and behind all but the first the ratio of the first to it.
pub fn columns(call: &str, monitors: &[(&str, Monitor)]) -> String {
    let names = monitors.iter().enumerate().map(|(of, (name, _))| match of {
        0 => format!(" {call}, {name} |"),
        _ => format!(" {name} | ratio |"),
    });
    names.collect()
}

/// What stands in them.
pub fn cells(samples: &[Vec<f64>]) -> String {
    let mut cells = String::new();
    for (of, monitor) in samples.iter().enumerate() {
        if monitor.is_empty() {
            cells += " | |";
            continue;
        }
        cells += &format!(" {:.1} |", Time::of(monitor.clone()).least);
        if of > 0 {
            cells += &format!(" {:.2} |", ratio(&samples[0], monitor));
        }
    }
    cells
}

/// What is timed of a log, in the order of the table's columns.
const CALLS: [fn(&mut Log, Monitor); 2] = [
    |log, monitor| {
        black_box(log.run(monitor));
    },
    Log::channel,
];

/// Logs that take turns, and the nanoseconds of a cycle in each turn: by call, then by monitor.
struct Turns {
    name: &'static str,
    /// An earlier library may refuse a log: then there is none.
    monitors: Vec<Option<Monitor>>,
    logs: Vec<Log>,
    samples: [Vec<Vec<f64>>; 2],
}

impl Turns {
    fn new(
        name: &'static str,
        monitors: &[(&str, Monitor)],
        kits: Vec<Kit>,
    ) -> Result<Turns, String> {
        let mut logs = Vec::new();
        for kit in kits {
            logs.push(Log::new(&kit?)?);
        }
        let mut takes = |monitor| logs.iter_mut().all(|log| log.run(monitor) == CYCLES);
        let monitors: Vec<_> = monitors
            .iter()
            .map(|&(_, monitor)| Some(monitor).filter(|&monitor| takes(monitor)))
            .collect();
        let taking: Vec<Monitor> = monitors.iter().flatten().copied().collect();
        if !logs.iter_mut().all(|log| log.alike(&taking)) {
            return Err(format!("{name}: the words of the monitors differ"));
        }
        Ok(Turns {
            samples: CALLS.map(|_| vec![Vec::new(); monitors.len()]),
            name,
            monitors,
            logs,
        })
    }

    /// One more sample of each call. Another monitor is first in each round, since the first finds the log cold.
    fn round(&mut self, round: usize) {
        let log = round % self.logs.len();
        for (call, samples) in CALLS.into_iter().zip(&mut self.samples) {
            for of in 0..self.monitors.len() {
                let of = (of + round) % self.monitors.len();
                let Some(monitor) = self.monitors[of] else {
                    continue;
                };
                let start = Instant::now();
                call(&mut self.logs[log], monitor);
                samples[of].push(start.elapsed().as_nanos() as f64 / CYCLES as f64);
            }
        }
    }

    fn row(&self) -> String {
        let cells: String = self.samples.iter().map(|samples| cells(samples)).collect();
        format!("| {} |{cells}\n", self.name)
    }

    /// The ratio of each monitor's times here to those there.
    fn row_to(&self, other: &Turns) -> String {
        let mut row = "| the one to the other |".to_owned();
        for (here, there) in self.samples.iter().zip(&other.samples) {
            for (of, (here, there)) in here.iter().zip(there).enumerate() {
                row += &format!(" {:.2} |", ratio(here, there));
                if of > 0 {
                    row += " |";
                }
            }
        }
        row + "\n"
    }
}

/// The median of each turn's ratio.
fn ratio(ones: &[f64], others: &[f64]) -> f64 {
    let ratios = ones.iter().zip(others).map(|(one, other)| one / other);
    Time::of(ratios.collect()).median
}

/// A log, with what its calls are given and lent.
struct Log {
    words: Vec<u32>,
    records: Vec<Record>,
    /// B's reports to A.
    reports: Vec<Report>,
    lent_reports: Vec<[u32; 4]>,
    /// Channel A, fresh.
    model: model::Channel,
    proved: Channel,
    /// Three words a cycle, A's first.
    output: Vec<u32>,
}

impl Log {
    fn new(kit: &[u8]) -> Result<Log, String> {
        let accepted = listing::accept(kit).map_err(|refused| format!("{refused:?}"))?;
        let (mut a, mut b) = (accepted.a, accepted.b);
        let mut reports = Vec::new();
        for &record in &accepted.records {
            reports.push(b.report(record.b.position, record.b.inputs));
            log::both(Paper, &mut a, &mut b, record);
        }
        let fresh = Lent::fresh(*accepted.a.data());
        Ok(Log {
            words: words::of_bytes(kit),
            records: accepted.records,
            lent_reports: reports.iter().copied().map(lent).collect(),
            reports,
            model: accepted.a,
            proved: Channel {
                data: *fresh.data(),
                state: *fresh.state(),
                pending: *fresh.pending(),
            },
            output: vec![0; 3 * CYCLES],
        })
    }

    /// Whether all monitors give the same words: three a cycle in the log run, and A's again cycle by cycle.
    fn alike(&mut self, monitors: &[Monitor]) -> bool {
        self.run(monitors[0]);
        let words = self.output.clone();
        monitors.iter().all(|&monitor| {
            self.output.fill(0);
            self.run(monitor);
            let ran = self.output == words;
            // A's words alone are written again.
            self.output.iter_mut().step_by(3).for_each(|word| *word = 0);
            self.channel(monitor);
            ran && self.output == words
        })
    }

    /// The whole log: how many cycles were run.
    fn run(&mut self, monitor: Monitor) -> usize {
        let (words, output) = (black_box(&self.words), black_box(&mut self.output));
        match monitor {
            Monitor::Proved(library) => library.run_kit(words, output),
            Monitor::Model => listing::run(words, output).unwrap_or(0),
        }
    }

    /// Channel A alone.
    fn channel(&mut self, monitor: Monitor) {
        match monitor {
            Monitor::Proved(library) => self.channel_by(library),
            Monitor::Model => self.channel_of_model(),
        }
    }

    fn channel_by(&mut self, library: Library) {
        let mut channel = *black_box(&self.proved);
        let given = self.records.iter().zip(&self.lent_reports);
        for ((record, report), three) in given.zip(self.output.chunks_exact_mut(3)) {
            let cycle = library.cycle(&mut channel, record.a, record.acknowledged, report);
            three[0] = cycle.word;
        }
    }

    fn channel_of_model(&mut self) {
        let mut channel = *black_box(&self.model);
        let given = self.records.iter().zip(&self.reports);
        for ((record, &report), three) in given.zip(self.output.chunks_exact_mut(3)) {
            let (side, acknowledged) = (record.a, record.acknowledged);
            let cycle = channel.cycle(side.position, side.inputs, acknowledged, report);
            // The libraries give the codes too.
            black_box(cycle.causes.list());
            three[0] = cycle.word;
        }
    }
}
