//! A channel's cycle from the same state again and again, by what it lists: the monitors that are linked take turns.

use crate::libraries::Library;
use crate::logs::{log, Pattern};
use crate::turns::{cells, columns, monitors, Monitor};
use crate::Calls;
use model::channel::image::{self, Lent};
use model::log::Side;
use model::proved::{lent, Channel, Cycle};
use model::{listing, Report};
use std::hint::black_box;
use std::time::Instant;

/// Each number of codes by each monitor.
pub fn table(rounds: usize) -> Result<String, String> {
    let monitors = monitors()?;
    let columns = columns("A channel's cycle", &monitors);
    let mut text = format!(
        "\n| Nanoseconds from the same state again and again |{columns}\n|---|{}\n",
        "---:|".repeat(columns.matches('|').count())
    );
    let monitors: Vec<Monitor> = monitors.into_iter().map(|(_, monitor)| monitor).collect();
    for (name, codes, pattern) in CAUSES {
        text += &Again::new(pattern)?.row(name, codes, &monitors, rounds)?;
    }
    Ok(text)
}

/// A channel's cycle with causes: what it is given, and the channel before it.
struct Again {
    side: Side,
    report: Report,
    lent: [u32; 4],
    proved: Channel,
    model: model::Channel,
}

impl Again {
    /// Channel A's cycle in the last record of a pattern.
    fn new(pattern: Pattern) -> Result<Again, String> {
        let kit = log(pattern, pattern.1.len())?;
        let kit = listing::accept(&kit).map_err(|refused| format!("{refused:?}"))?;
        let (mut a, mut b) = (Lent::fresh(*kit.a.data()), Lent::fresh(*kit.b.data()));
        let (last, before) = kit.records.split_last().ok_or("no record")?;
        for &record in before {
            image::both(&mut a, &mut b, record);
        }
        let report = b.report(last.b.position, last.b.inputs);
        Ok(Again {
            side: last.a,
            report,
            lent: lent(report),
            proved: Channel {
                data: *a.data(),
                state: *a.state(),
                pending: *a.pending(),
            },
            model: *a.channel(),
        })
    }

    /// A monitor's cycle, as often as a log has cycles.
    fn cycles(&self, monitor: Monitor) -> Cycle {
        match monitor {
            Monitor::Proved(library) => self.cycles_by(library),
            Monitor::Model => self.cycles_of_model(),
        }
    }

    fn cycles_by(&self, library: Library) -> Cycle {
        let mut channel = self.proved;
        let mut cycle = || {
            channel.state = *black_box(&self.proved.state);
            library.cycle(&mut channel, self.side, false, black_box(&self.lent))
        };
        for _ in 1..Calls::CYCLES {
            black_box(cycle());
        }
        cycle()
    }

    fn cycles_of_model(&self) -> Cycle {
        let cycle = || {
            let mut channel = *black_box(&self.model);
            let Side { position, inputs } = self.side;
            let cycle = channel.cycle(position, inputs, false, *black_box(&self.report));
            black_box(&channel);
            Cycle {
                word: cycle.word,
                codes: cycle.causes.list(),
            }
        };
        for _ in 1..Calls::CYCLES {
            black_box(cycle());
        }
        cycle()
    }

    /// Whether a monitor's word is this, and its codes are these as a set: one whose order is another can be timed, too.
    fn gives(&self, monitor: Monitor, wanted: Cycle) -> bool {
        let sorted = |mut cycle: Cycle| {
            cycle.codes.sort_unstable();
            cycle
        };
        sorted(self.cycles(monitor)) == sorted(wanted)
    }

    fn row(
        &self,
        name: &str,
        codes: usize,
        monitors: &[Monitor],
        rounds: usize,
    ) -> Result<String, String> {
        let first = self.cycles(monitors[0]);
        let stand = first.codes.iter().filter(|&&code| code != 0).count();
        if stand != codes || !monitors.iter().all(|&monitor| self.gives(monitor, first)) {
            return Err(format!("{name}: the cycles of the monitors differ"));
        }
        let mut samples = vec![Vec::new(); monitors.len()];
        for round in 0..rounds {
            for of in 0..monitors.len() {
                let of = (of + round) % monitors.len();
                let start = Instant::now();
                black_box(self.cycles(monitors[of]));
                samples[of].push(start.elapsed().as_nanos() as f64 / Calls::CYCLES as f64);
            }
        }
        Ok(format!("| {name} |{}\n", cells(&samples)))
    }
}

/// A cycle's name, how many codes it gives, and the pattern whose last record it is.
type Caused = (&'static str, usize, Pattern);

const CAUSES: [Caused; 4] = [
    ("no code", 0, ("lists A and B\n 0 = 12", &["both 0 off"])),
    (
        "one: 3",
        1,
        (
            "lists A and B
              0 = 12
              1 = 1
              3 = 2000",
            &["both 0 SG1", "both 401 SG1"],
        ),
    ),
    (
        "three: 13, 10, 12",
        3,
        (
            "list A
              0 = 12
              1 = 2
              32 = 1000
            list B, else as A
              0 = 13",
            &["A 0 off, B 1 off"],
        ),
    ),
    (
        "eleven: 3 to 13",
        11,
        (
            "list A
              0 = 12
              1 = 19
              2 = 10
              3 = 2000
              7 = 4
              12 = 50
              15 = 2
            list B, else as A
              1 = 18",
            &["both 0 SG1 stop-E", "A 401 SG1, B 77 SBH"],
        ),
    ),
];
