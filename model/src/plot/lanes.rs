//! The lanes of a picture: which there are, and what each shows.

use super::trace::{Channelled, Gear, Seen};
use crate::direction::Watched;
use crate::machine_data::{number, Function, MachineData, HEADS};
use crate::selection::Selection;
use crate::stop::Rank;
use crate::Paper;

/// A lane: what stands on its left, and what it shows over the cycles.
#[derive(Clone, Debug, PartialEq, Eq)]
pub struct Lane {
    pub name: String,
    /// Lines below the name, those of a curve or a bar with a sample of it.
    pub legend: Vec<(Option<Style>, String)>,
    pub shows: Shows,
}

#[derive(Clone, Debug, PartialEq, Eq)]
pub enum Shows {
    /// Numbers as staircases over one scale.
    Curves(Vec<Curve>, Scale),
    /// What stands or not, below one another.
    Rows(Vec<Row>),
}

/// A number in each cycle, if there is one.
#[derive(Clone, Debug, PartialEq, Eq)]
pub struct Curve {
    pub style: Style,
    pub values: Vec<Option<i64>>,
}

/// What a curve's numbers are.
#[derive(Clone, Copy, Debug, PartialEq, Eq)]
pub enum Scale {
    Whole,
    /// Hundredths, from zero on.
    Hundredths,
}

/// How a line or a bar looks: told apart without colour.
#[derive(Clone, Copy, Debug, PartialEq, Eq)]
pub enum Style {
    Plain,
    /// Broad and grey, so that it shows where another line lies on it.
    Broad,
    Dashed,
    Guide,
    Filled,
    Hollow,
}

#[derive(Clone, Debug, PartialEq, Eq)]
pub struct Row {
    pub label: String,
    pub cells: Cells,
}

#[derive(Clone, Debug, PartialEq, Eq)]
pub enum Cells {
    Bars(Vec<bool>),
    /// A hollow bar above a filled one.
    Pairs(Vec<bool>, Vec<bool>),
    /// A count in each cycle, if one runs.
    Numbers(Vec<Option<i64>>),
}

/// The cycles of one channel.
type Side<'a> = [&'a Channelled];

/// The lanes of these cycles, without those in which nothing happens.
pub fn of(seen: &[Seen]) -> Vec<Lane> {
    let a: Vec<&Channelled> = seen.iter().map(|seen| &seen.a).collect();
    let b: Vec<&Channelled> = seen.iter().map(|seen| &seen.b).collect();
    let mut lanes = Vec::new();
    lanes.extend(position(&a, &b));
    for of_channel in [speed, gear, selection, direction, causes, f, stop] {
        lanes.extend(both(of_channel, &a, &b));
    }
    lanes.extend(acknowledgement(seen, &a, &b));
    lanes.extend(device(seen));
    lanes.extend(both(signals, &a, &b));
    lanes
}

/// A lane of each channel, or one of both where they are alike.
fn both(of_channel: fn(&Side) -> Option<Lane>, a: &Side, b: &Side) -> Vec<Lane> {
    let (of_a, of_b) = (of_channel(a), of_channel(b));
    let alike = of_a == of_b;
    let named = |lane: Option<Lane>, channel: &str| lane.map(|lane| lane.of_channel(channel));
    let lanes = match alike {
        true => vec![named(of_a, BOTH)],
        false => vec![named(of_a, "A"), named(of_b, "B")],
    };
    lanes.into_iter().flatten().collect()
}

const BOTH: &str = "A and B";

impl Lane {
    fn of_channel(mut self, channel: &str) -> Lane {
        self.name = format!("{}, {channel}", self.name);
        self
    }

    /// A lane of curves with some more, all of one style and name.
    fn with<const N: usize>(
        mut self,
        style: Style,
        name: &str,
        more: [Vec<Option<i64>>; N],
    ) -> Lane {
        self.legend.push((Some(style), name.into()));
        if let Shows::Curves(curves, _) = &mut self.shows {
            curves.extend(more.map(|values| Curve { style, values }));
        }
        self
    }
}

/// A lane of rows, if there is one.
fn rows(name: &str, rows: Vec<Row>) -> Option<Lane> {
    (!rows.is_empty()).then(|| Lane {
        name: name.into(),
        legend: Vec::new(),
        shows: Shows::Rows(rows),
    })
}

/// A row of bars, if something stands in it.
fn bars(label: &str, stands: Vec<bool>) -> Option<Row> {
    stands.contains(&true).then(|| Row {
        label: label.into(),
        cells: Cells::Bars(stands),
    })
}

/// A row of numbers, if there is one.
fn numbers(label: &str, numbers: Vec<Option<i64>>) -> Option<Row> {
    numbers.iter().any(Option::is_some).then(|| Row {
        label: label.into(),
        cells: Cells::Numbers(numbers),
    })
}

/// Something of each cycle.
fn each<T>(side: &Side, of: impl Fn(&Channelled) -> T) -> Vec<T> {
    side.iter().map(|cycle| of(cycle)).collect()
}

/// The positions of both channels; with bounds that they are held against, where they are alike.
fn position(a: &Side, b: &Side) -> Option<Lane> {
    let positions = |side: &Side| each(side, |cycle| Some(i64::from(cycle.position)));
    let (of_a, of_b) = (positions(a), positions(b));
    let lane = Lane {
        name: "position".into(),
        legend: vec![(None, "µm".into())],
        shows: Shows::Curves(Vec::new(), Scale::Whole),
    };
    if of_a != of_b {
        let lane = lane.with(Style::Broad, "A", [of_a]);
        return Some(lane.with(Style::Dashed, "B", [of_b]));
    }
    if !changes(&of_a) {
        return None;
    }
    let guides: Vec<Guide> = match guides(a) == guides(b) {
        true => guides(a),
        false => Vec::new(),
    };
    let near = guides.into_iter().filter(|guide| guide.is_near(&of_a));
    let guides: Vec<Guide> = near.collect();
    let lane = lane.with(Style::Plain, BOTH, [of_a]);
    Some(guides.into_iter().fold(lane, |lane, guide| {
        let mut lane = lane.with(Style::Guide, &guide.name, guide.bounds);
        lane.legend.push((None, guide.apart));
        lane
    }))
}

/// Two bounds on either side of which something happens.
#[derive(Clone, Debug, PartialEq, Eq)]
struct Guide {
    name: String,
    /// How far apart they are.
    apart: String,
    bounds: [Vec<Option<i64>>; 2],
}

impl Guide {
    /// Whether all of it lies so near the positions that it leaves them their room.
    fn is_near(&self, positions: &[Option<i64>]) -> bool {
        let low = positions.iter().flatten().min().copied().unwrap_or(0);
        let high = positions.iter().flatten().max().copied().unwrap_or(0);
        let room = (high - low).max(1);
        let mut bounds = self.bounds.iter().flatten().flatten();
        bounds.all(|&bound| (low - room..=high + room).contains(&bound))
    }
}

/// The bounds that positions are held against in these cycles.
fn guides(side: &Side) -> Vec<Guide> {
    let positions = standstill(side).into_iter().chain(cam(side));
    let extremes = DIRECTIONS
        .iter()
        .filter_map(|direction| extreme(side, direction));
    positions.chain(extremes).collect()
}

/// The extreme of a direction's watch, and the farthest that its tolerance allows behind it.
fn extreme(side: &Side, direction: &Direction) -> Option<Guide> {
    let &(_, name, sign, of) = direction;
    let tolerance = side.first()?.after.data().get(number::DIRECTION_TOLERANCE);
    let bound = |behind: i32| {
        each(side, |cycle| {
            let watch = of(cycle).watch;
            watch.map(|extreme| i64::from(extreme) - sign * i64::from(behind))
        })
    };
    let bounds = [bound(0), bound(tolerance)];
    let apart = match sign {
        1 => format!("- tolerance {tolerance}"),
        _ => format!("+ tolerance {tolerance}"),
    };
    bounds[0].iter().any(Option::is_some).then(|| Guide {
        name: name.into(),
        apart,
        bounds,
    })
}

/// A direction: what it allows, what its extreme is, its sign, and what is kept of it.
type Direction = (&'static str, &'static str, i64, fn(&Channelled) -> Watched);

const DIRECTIONS: [Direction; 2] = [
    ("positive only", "highest", 1, |cycle| {
        cycle.after.directions().positive
    }),
    ("negative only", "lowest", -1, |cycle| {
        cycle.after.directions().negative
    }),
];

/// The directions that are asked for, each with its watch and, while it has none, its run.
fn direction(side: &Side) -> Option<Lane> {
    let delay = side.first()?.after.data().get(number::DIRECTION_DELAY);
    let mut directions = Vec::new();
    for (label, _, _, of) in DIRECTIONS {
        let asked = each(side, |cycle| cycle.d.is_some() && of(cycle).run > 0);
        if !asked.contains(&true) {
            continue;
        }
        let watched = each(side, |cycle| of(cycle).watch.is_some());
        let waits = each(side, |cycle| {
            let run = of(cycle).run;
            (cycle.d.is_some() && run > 0 && run <= i64::from(delay) + 1).then_some(run)
        });
        directions.push(Row {
            label: label.into(),
            cells: Cells::Pairs(asked, watched),
        });
        directions.extend(numbers(&format!("run, delay {delay}"), waits));
    }
    let mut lane = rows("direction", directions)?;
    lane.legend = vec![
        (Some(Style::Hollow), "asked for".into()),
        (Some(Style::Filled), "watched".into()),
    ];
    Some(lane)
}

/// Datum 2 on either side of the reference of a hold or of SBH, in the cycles that look at it.
fn standstill(side: &Side) -> Option<Guide> {
    let bound = |sign: i64| {
        each(side, |cycle| {
            let tolerance = i64::from(cycle.after.data().get(number::STANDSTILL));
            reference(cycle).map(|reference| i64::from(reference) + sign * tolerance)
        })
    };
    let bounds = [bound(-1), bound(1)];
    let tolerance = side.first()?.after.data().get(number::STANDSTILL);
    bounds[0].iter().any(Option::is_some).then(|| Guide {
        name: "hold or SBH".into(),
        apart: format!("± tolerance {tolerance}"),
        bounds,
    })
}

/// The reference of the hold, or else of SBH, that this cycle's position is held against.
fn reference(cycle: &Channelled) -> Option<i32> {
    cycle.d?;
    let of_sbh = || {
        let sbh = cycle.effective() == Selection::Sbh;
        sbh.then_some(cycle.after.selections().reference)
    };
    cycle.before.stop().held.or_else(of_sbh)
}

/// The edge of a cam and the end of its tolerance, if it is the only one whose signal changes:
/// those of several would hide the position.
fn cam(side: &Side) -> Option<Guide> {
    let changing: Vec<usize> = changing_signals(side).filter(|&at| at < 8).collect();
    let (&[cam], Some(first)) = (&changing[..], side.first()) else {
        return None;
    };
    let data = first.after.data();
    let edge = i64::from(data.get(number::CAM + cam));
    let tolerance = data.get(number::CAM_TOLERANCE);
    Some(Guide {
        name: format!("{} edge {edge}", SIGNALS[cam].0),
        apart: format!("+ tolerance {tolerance}"),
        bounds: [edge, edge + i64::from(tolerance)].map(|bound| vec![Some(bound); side.len()]),
    })
}

/// The speed |d|, times the ratio where there is one, with the limit in force, and nx with its hysteresis.
fn speed(side: &Side) -> Option<Lane> {
    let speeds = each(side, |cycle| cycle.d.map(|d| hundredths(cycle, d)));
    let limits = each(side, limit);
    let moves = speeds.iter().flatten().any(|&speed| speed > 0);
    if !moves && !changes(&limits) {
        return None;
    }
    let limited = limits.iter().any(Option::is_some);
    let lane = Lane {
        name: "speed".into(),
        legend: vec![(None, "mm/min".into())],
        shows: Shows::Curves(Vec::new(), Scale::Hundredths),
    };
    let lane = match limited {
        true => lane.with(Style::Broad, "limit in force", [limits]),
        false => lane,
    };
    let lane = nx_bounds(side)
        .into_iter()
        .fold(lane, |lane, (name, bound)| {
            lane.with(Style::Guide, &name, [vec![Some(bound); side.len()]])
        });
    let name = match geared(side) {
        true => "|d| × ratio",
        false => "|d|",
    };
    Some(lane.with(Style::Plain, name, [speeds]))
}

/// Whether these cycles show n<nx by a list that has its hysteresis and its filter.
fn shows_nx(side: &Side) -> bool {
    let data = side.first().map(|cycle| cycle.after.data());
    data.is_some_and(|data| data.head() >= HEADS[2] && data.has(Paper, Function::Nx))
}

/// nx, and nx plus hysteresis if that is another, as hundredths of mm/min.
fn nx_bounds(side: &Side) -> Vec<(String, i64)> {
    let Some(first) = side.first().filter(|_| shows_nx(side)) else {
        return Vec::new();
    };
    let of = |number: usize| i64::from(first.after.data().get(number));
    let (nx, hysteresis) = (of(number::NX), of(number::NX_HYSTERESIS));
    let sum = (
        format!("+ hysteresis {hysteresis}"),
        100 * (nx + hysteresis),
    );
    let nx = (format!("nx {nx}"), 100 * nx);
    let bounds = [nx, sum].into_iter();
    bounds.take(1 + usize::from(hysteresis > 0)).collect()
}

/// Whether some cycle has a ratio other than 1 to 1.
fn geared(side: &Side) -> bool {
    let gears = side.iter().filter_map(|cycle| cycle.gear);
    gears
        .into_iter()
        .any(|gear| gear.numerator != gear.denominator)
}

/// |d| times the ratio in T as hundredths of mm/min, for the eye only: the model compares without
/// dividing.
fn hundredths(cycle: &Channelled, d: i64) -> i64 {
    let t = i64::from(cycle.after.data().get(number::T)).max(1);
    let (numerator, denominator) = cycle
        .gear
        .map_or((1, 1), |gear| (gear.numerator, gear.denominator));
    let t = t * denominator;
    (d.abs() * numerator * 6000 + t / 2) / t
}

/// The gears, each with its ratio; none where all are 1 to 1.
fn gear(side: &Side) -> Option<Lane> {
    let mut gears: Vec<Gear> = side.iter().filter_map(|cycle| cycle.gear).collect();
    gears.sort_unstable();
    gears.dedup();
    let row = |gear: Gear| {
        let Gear {
            number,
            numerator,
            denominator,
        } = gear;
        let engaged = each(side, |cycle| cycle.gear == Some(gear));
        bars(&format!("{number}: {numerator} to {denominator}"), engaged)
    };
    let gears = gears.into_iter().filter_map(row).collect();
    rows("gear", gears).filter(|_| geared(side))
}

/// Limit × percent of the effective SG, which is the limit in hundredths.
fn limit(cycle: &Channelled) -> Option<i64> {
    cycle.d?;
    match cycle.effective() {
        effective @ Selection::Sg { .. } => Some(effective.leeway(Paper, cycle.after.data())),
        Selection::Nothing | Selection::Sbh => None,
    }
}

/// What is selected and what is effective, the loosest first, and the count of the delay.
fn selection(side: &Side) -> Option<Lane> {
    let data = side.first()?.after.data();
    let there = |cycle: &&Channelled| [cycle.selected, Some(cycle.effective())];
    let mut there: Vec<Selection> = side.iter().flat_map(there).flatten().collect();
    there.sort_by_key(|&one| (std::cmp::Reverse(one.leeway(Paper, data)), name(data, one)));
    let mut names: Vec<String> = there.iter().map(|&one| name(data, one)).collect();
    names.dedup();
    if names == ["nothing"] {
        return None;
    }
    let row = |label: String| {
        let is = |one: Selection| name(data, one) == label;
        let selected = each(side, |cycle| cycle.selected.is_some_and(is));
        let effective = each(side, |cycle| is(cycle.effective()));
        let cells = Cells::Pairs(selected, effective);
        Row { label, cells }
    };
    let mut selections: Vec<Row> = names.into_iter().map(row).collect();
    selections.extend(numbers("delay count", each(side, delay)));
    let mut lane = rows("selection", selections)?;
    lane.legend = vec![
        (Some(Style::Hollow), "selected".into()),
        (Some(Style::Filled), "effective".into()),
    ];
    Some(lane)
}

/// `SG2 50 %`; without the percent where no override applies.
fn name(data: &MachineData, selection: Selection) -> String {
    match selection {
        Selection::Nothing => "nothing".into(),
        Selection::Sbh => "SBH".into(),
        Selection::Sg {
            sg,
            override_number,
        } => match Selection::percent(Paper, data, sg, override_number) {
            100 => format!("SG{}", sg + 1),
            percent => format!("SG{} {percent} %", sg + 1),
        },
    }
}

/// The count of a lower selection, with the 0 that ends it.
fn delay(cycle: &Channelled) -> Option<i64> {
    let (before, after) = (cycle.before.selections(), cycle.after.selections());
    (before.count > 0 || after.count > 0).then_some(after.count)
}

/// The cause codes that stand, one to a row.
fn causes(side: &Side) -> Option<Lane> {
    let stands = |code: u8| each(side, |cycle| cycle.causes.stands(code));
    let causes = (1..).zip(CAUSES);
    let causes = causes.filter_map(|(code, name)| bars(&format!("{code} {name}"), stands(code)));
    rows("causes", causes.collect())
}

/// The causes, from code 1 on.
const CAUSES: [&str; 14] = [
    "unusable",
    "SBH",
    "SG",
    "SE",
    "external A",
    "external C",
    "external D",
    "external E",
    "hold left",
    "position",
    "inputs",
    "datum k or head",
    "F's time",
    "direction",
];

/// F, and its count while it is on.
fn f(side: &Side) -> Option<Lane> {
    let on = bars("F on", each(side, |cycle| cycle.after.f().on));
    let count = |cycle: &Channelled| {
        let f = cycle.after.f();
        f.on.then_some(f.count)
    };
    let count = numbers("F count", each(side, count));
    rows("F", on.into_iter().chain(count).collect())
}

/// Rank, hold, and the count of a stop that has a time.
fn stop(side: &Side) -> Option<Lane> {
    let mut stops = ranks(&each(side, |cycle| cycle.after.stop().rank));
    stops.extend(bars(
        "held",
        each(side, |cycle| cycle.after.stop().held.is_some()),
    ));
    let count = |cycle: &Channelled| {
        let stop = cycle.after.stop();
        stop.rank.time().map(|_| stop.count)
    };
    stops.extend(numbers("stop count", each(side, count)));
    rows("stop", stops)
}

/// A row for each rank that there is, the highest first; none if there never is a stop.
fn ranks(of_cycles: &[Rank]) -> Vec<Row> {
    if of_cycles.iter().all(|&rank| rank == Rank::None) {
        return Vec::new();
    }
    let row = |(rank, label): (Rank, &str)| {
        let is = of_cycles.iter().map(|&one| one == rank);
        bars(label, is.collect())
    };
    RANKS.into_iter().filter_map(row).collect()
}

const RANKS: [(Rank, &str); 6] = [
    (Rank::A, "STOP A"),
    (Rank::B, "STOP B"),
    (Rank::C, "STOP C"),
    (Rank::D, "STOP D"),
    (Rank::E, "STOP E"),
    (Rank::None, "no stop"),
];

/// The cycles that are acknowledged, and those that clear.
fn acknowledgement(seen: &[Seen], a: &Side, b: &Side) -> Option<Lane> {
    let given = bars("given", seen.iter().map(|seen| seen.acknowledged).collect());
    let clears = |side: &Side| each(side, |cycle| cycle.clears);
    let clears = match (clears(a), clears(b)) {
        (a, b) if a == b => vec![bars("clears", a)],
        (a, b) => vec![bars("clears A", a), bars("clears B", b)],
    };
    let all = given.into_iter().chain(clears.into_iter().flatten());
    rows("acknowledgement", all.collect())
}

/// The device rank, and the pulses.
fn device(seen: &[Seen]) -> Option<Lane> {
    let rank = |seen: &Seen| Rank::of((seen.device >> 1 & 7) as i32);
    let mut device = ranks(&seen.iter().map(rank).collect::<Vec<_>>());
    if !device.is_empty() {
        let pulses = seen.iter().map(|seen| seen.device & 1 == 1);
        let label = "pulses on".into();
        let cells = Cells::Bars(pulses.collect());
        device.push(Row { label, cells });
    }
    rows("device", device)
}

/// The signals that change: cams and n<nx as the channel word shows them; and the run of n<nx.
fn signals(side: &Side) -> Option<Lane> {
    let row = |signal: usize| {
        let (name, bit) = SIGNALS[signal];
        bars(name, shown(side, bit))
    };
    let mut signals: Vec<Row> = changing_signals(side).filter_map(row).collect();
    if shows_nx(side) {
        let run = |cycle: &Channelled| cycle.d.map(|_| cycle.after.nx().run);
        let filter = side
            .first()
            .map(|cycle| cycle.after.data().get(number::NX_FILTER));
        let label = format!("run, filter {}", filter.unwrap_or(0));
        signals.extend(numbers(&label, each(side, run)));
    }
    rows("signals", signals)
}

/// The numbers of the signals that change.
fn changing_signals<'a>(side: &'a Side) -> impl Iterator<Item = usize> + 'a {
    let changing = |&signal: &usize| changes(&shown(side, SIGNALS[signal].1));
    (0..SIGNALS.len()).filter(changing)
}

/// A bit of the channel word.
fn shown(side: &Side, bit: u32) -> Vec<bool> {
    each(side, |cycle| cycle.word >> bit & 1 == 1)
}

/// "8-15 cams in data order", "21 n<nx"
const SIGNALS: [(&str, u32); 9] = [
    ("SN1+", 8),
    ("SN1-", 9),
    ("SN2+", 10),
    ("SN2-", 11),
    ("SN3+", 12),
    ("SN3-", 13),
    ("SN4+", 14),
    ("SN4-", 15),
    ("n<nx", 21),
];

/// Whether not all of these are alike.
fn changes<T: PartialEq>(of_cycles: &[T]) -> bool {
    of_cycles.windows(2).any(|two| two[0] != two[1])
}
