//! Scripts of calls: all of them on the model and on the proved monitor, the plain form, and that the runner can fail.

mod common;
use common::beside;
use model::channel::image::{self, word, Lent};
use model::channel::Report;
use model::list::Refusal;
use model::machine_data::COUNT;
use model::script::{self, Asked, Board, Call, Cycle, Model, Script};
use model::{log, Deviant, Deviation, MachineData};
use std::cell::Cell;
use std::fs;

fn scripts() -> Vec<Script> {
    match script::folder(&beside("scripts")) {
        Ok(scripts) => scripts,
        Err(faults) => panic!("{faults}"),
    }
}

/// The first difference of each script that is told.
fn told<B: Board>(scripts: &[Script]) -> Vec<String> {
    let told = scripts.iter().filter_map(|one| script::run::<B>(one).err());
    told.map(|difference| difference.to_string()).collect()
}

const QUOTE: &str = "# 01 (SUPPLIER 5): \"An empty log is accepted.\"\n";

fn script_of(text: &str) -> Script {
    let text = format!("{QUOTE}{text}");
    Script::of("own", &text).unwrap_or_else(|fault| panic!("{fault}\n{text}"))
}

#[test]
fn every_script_on_the_model() {
    let scripts = scripts();
    assert!(scripts.len() >= 40, "{}", scripts.len());
    assert_eq!(told::<Model>(&scripts), [""; 0]);
}

#[cfg(feature = "proved")]
#[test]
fn every_script_on_the_proved_monitor() {
    assert_eq!(told::<script::Proved>(&scripts()), [""; 0]);
}

#[test]
fn the_plain_form_is_that_of_the_scripts() {
    let plain = script::plain(&scripts()).expect("the model agrees");
    let kept = fs::read_to_string(beside("scripts/calls.plain")).expect("the plain form");
    assert!(
        plain == kept,
        "make it anew: kit scripts scripts > scripts/calls.plain"
    );
    let longest = plain.lines().map(str::len).max();
    assert!(longest < Some(65_536), "{longest:?}");
    let channels = scripts().iter().map(|script| script.channels.len()).max();
    assert!(channels <= Some(8), "{channels:?}");
}

#[test]
fn the_page_s_script_runs() {
    let page = fs::read_to_string(beside("model/docs/SCRIPTS.md")).expect("the page");
    let (_, behind) = page.split_once("```script\n").expect("a script");
    let (text, _) = behind.split_once("```").expect("its end");
    let script = Script::of("page", text).unwrap_or_else(|fault| panic!("{fault}"));
    assert_eq!(told::<Model>(&[script]), [""; 0]);
}

#[test]
fn the_paper_s_function_is_the_example_s() {
    let paper = fs::read_to_string(beside("docs/SUPPLIER.md")).expect("the paper");
    let (_, behind) = paper.split_once("```c\n").expect("a function");
    let (function, _) = behind.split_once("```").expect("its end");
    let example = fs::read_to_string(beside("examples/scripts.c")).expect("the example");
    assert!(example.contains(function), "{function}");
}

// ---- that the runner can fail

/// The wrong board whose number is [`board`]; 0 is right. A type for each would be compiled for each.
struct Wrong;

thread_local! {
    static BOARD: Cell<u32> = const { Cell::new(0) };
}

fn board() -> u32 {
    BOARD.get()
}

/// What the scripts tell of a wrong board.
fn told_of(board: u32) -> impl Fn(&[Script]) -> Vec<String> {
    move |scripts| {
        BOARD.set(board);
        told::<Wrong>(scripts)
    }
}

/// Changes a word of a channel's state.
fn set(channel: &mut Lent, word: usize, value: u32) {
    let mut state = *channel.state();
    state[word] = value;
    *channel = Lent::of(*channel.data(), state, *channel.pending());
}

/// A new channel with the same data.
fn renew(channel: &mut Lent) {
    let head = channel.channel().data().head();
    let new = Lent::fresh(MachineData::lowest(head));
    *channel = Lent::of(*channel.data(), *new.state(), *channel.pending());
}

impl Board for Wrong {
    type Channel = Lent;

    fn none() -> Lent {
        Model::none()
    }

    fn list(channel: &mut Lent, words: &[u32]) -> Result<usize, Refusal> {
        let before = channel.clone();
        let answer = Model::list(channel, words);
        LAST.set([0; 13]);
        match board() {
            // A refused list leaves no channel.
            1 if answer.is_err() => *channel = Model::none(),
            // All the words are the list's.
            2 => return answer.map(|_| words.len()),
            // A shorter list leaves the data behind its own.
            46 if answer.is_ok() => {
                let mut data = *channel.data();
                let head = channel.channel().data().head();
                data[head..].copy_from_slice(&before.data()[head..]);
                *channel = Lent::of(data, *channel.state(), *channel.pending());
            }
            // Value or run of n<nx stay under a new list.
            54 if answer.is_ok() => set(channel, word::NX, before.state()[word::NX]),
            55 if answer.is_ok() => set(channel, word::NX_RUN, before.state()[word::NX_RUN]),
            // Runs, or watches with their extremes, of safe direction stay under a new list.
            140 if answer.is_ok() => keep(channel, before.state(), &RUNS),
            141 if answer.is_ok() => keep(channel, before.state(), &WATCHES),
            _ => (),
        }
        answer
    }

    fn report(channel: &Lent, position: i32, inputs: u32) -> [u32; 4] {
        let mut report = Model::report(channel, position, inputs);
        match board() {
            // Datum 0, the inputs that are used, a position of 28 bits.
            3 => report[2] = channel.data()[0] as u32,
            4 => report[1] &= 0xf03c_101b,
            5 => report[0] = ((report[0] << 4) as i32 >> 4) as u32,
            // The head is always 51.
            41 => report[3] = 51,
            // A list of 69 data, or of 72, reports less.
            56 if report[3] == 69 => report[3] = 67,
            139 => report[3] = report[3].min(69),
            _ => (),
        }
        report
    }

    fn cycle(
        channel: &mut Lent,
        position: i32,
        inputs: u32,
        acknowledged: u32,
        report: &[u32; 4],
    ) -> Cycle {
        let before = channel.clone();
        let (old, mut report) = (*before.state(), *report);
        let far = (report[0] as i32).abs_diff(position) > i32::MAX as u32;
        let acknowledged = match board() {
            // By bit 0.
            6 => acknowledged & 1,
            _ => acknowledged,
        };
        match board() {
            // Heads, or the bits of a gear, are not compared; a head by its lowest 8 bits.
            42 => report[3] = old[word::COUNT],
            43 => report[3] = old[word::COUNT] & !0xff | report[3] & 0xff,
            45 => report[1] = report[1] & !0x700 | inputs & 0x700,
            _ => (),
        }
        // A distance that 32 bits do not hold with a sign is none.
        if board() == 29 && far {
            report[0] = position as u32;
        }
        let mut cycle = Model::cycle(channel, position, inputs, acknowledged, &report);
        let unusable = cycle.codes[0] == 1;
        let stand = cycle.codes.iter().filter(|&&code| code != 0).count();
        match board() {
            // The first cause alone.
            7 => cycle.codes[1..].fill(0),
            // None where the rank is 5 already.
            8 if old[word::STOP] == 3 => cycle.codes.fill(0),
            // 13 is left out where the cycle clears.
            9 if acknowledged != 0 && cycle.word >> 24 == 0 => cycle.codes.fill(0),
            // A code twice.
            10 if stand > 0 => cycle.codes[stand] = cycle.codes[0],
            // Behind a 0.
            11 => cycle.codes.rotate_right(1),
            // The last code has another's number.
            12 if stand > 1 => cycle.codes[stand - 1] += 1,
            // F's count falls in unusable cycles; k does not rise in them.
            30 if unusable => set(channel, word::F_COUNT, old[word::F_COUNT].saturating_sub(1)),
            31 if unusable => set(channel, word::K, old[word::K]),
            // A further difference sets F's count anew.
            32 if old[word::F] == 1 && cycle.codes.contains(&10) => {
                set(channel, word::F_COUNT, channel.data()[34] as u32)
            }
            // Cause 13 stands once.
            33 if old[word::F] == 1 && old[word::F_COUNT] == 0 => leave_code_out(&mut cycle, 13),
            // Cams stay while their function is off.
            34 if channel.data()[1] & 4 == 0 => set(channel, word::CAMS, old[word::CAMS]),
            // SBH is effective as soon as it is selected.
            35 if !unusable && inputs & 3 == 0 && old[word::EFFECTIVE] == 1 => {
                set(channel, word::EFFECTIVE, 2);
                set(channel, word::SBH_REFERENCE, position as u32);
            }
            // k stops at 50.
            36 if old[word::K] == 50 => set(channel, word::K, 50),
            // k follows 50 by 0 whatever the head says.
            44 if old[word::K] == 50 => set(channel, word::K, 0),
            _ => (),
        }
        if !unusable && old[word::F] == 1 {
            by_what_is_active(channel, &old, &mut cycle);
        }
        by_nx(channel, &old, unusable);
        by_direction(channel, &old, unusable, inputs, position);
        let off = !unusable && channel.data()[1] & 32 == 0;
        let head = channel.channel().data().head();
        match board() {
            // 14 is left out: beside another cause, under STOP A, acknowledged; or listed for each direction; or beside 1.
            142 if stand > 1 => leave_code_out(&mut cycle, 14),
            143 if old[word::STOP] == 3 => leave_code_out(&mut cycle, 14),
            144 if acknowledged != 0 => leave_code_out(&mut cycle, 14),
            145 if both_overstepped(channel, position) => list_code(&mut cycle, 14),
            146 if unusable && is_overstepped(channel, position) => list_code(&mut cycle, 14),
            // It stands by a watch with the function off; in a list of 72 data, in a shorter one.
            218 if off && is_overstepped(channel, position) => list_code(&mut cycle, 14),
            219 if off && head == 72 && is_overstepped(channel, position) => {
                list_code(&mut cycle, 14)
            }
            220 if off && head < 72 && is_overstepped(channel, position) => {
                list_code(&mut cycle, 14)
            }
            221 if off && behind(channel, position)[1] > channel.data()[69].into() => {
                list_code(&mut cycle, 14)
            }
            // It has another's number: 3, 4.
            147 => other_code(&mut cycle, 14, 3),
            148 => other_code(&mut cycle, 14, 4),
            _ => (),
        }
        if let 0 | 77..=138 | 149..=161 = board() {
            let seen = Seen::of(channel, &old, inputs, acknowledged, &cycle);
            cycle.codes = in_order(&seen);
        }
        cycle
    }

    fn ask(
        channel: &mut Lent,
        words: &[u32],
        position: i32,
        inputs: u32,
        report: &[u32; 4],
    ) -> Asked {
        Model::ask(channel, words, position, inputs, report)
    }

    fn commit(channel: &mut Lent) -> Result<usize, Refusal> {
        Model::commit(channel)
    }

    fn but_for_pending(channel: &Lent, accepted: bool) -> Lent {
        Model::but_for_pending(channel, accepted)
    }

    fn state(channel: &Lent, word: usize) -> u32 {
        Model::state(channel, word)
    }

    fn put(channel: &mut Lent, word: usize, value: u32) {
        Model::put(channel, word, value)
    }

    fn device(a: u32, b: u32) -> u32 {
        match board() {
            13 => Model::device(a & !4, b & !4),
            14 => Model::device(a & !(u32::from(a >> 25 & 3 == 3) << 25), b),
            15 => Model::device(a, b) | a & 0x80,
            _ => Model::device(a, b),
        }
    }

    fn log(
        a: &mut Lent,
        b: &mut Lent,
        words: &[u32],
        output: &mut [u32],
    ) -> Result<usize, Refusal> {
        let before = (a.clone(), b.clone());
        let room = output.len();
        if board() == 47 {
            return log_by_own_heads(a, b, words, output);
        }
        match board() {
            // A log begins with new channels, or forgets the previous positions, or has one k for both.
            37 => (renew(a), renew(b)),
            38 => (set(a, word::HAS_PREVIOUS, 0), set(b, word::HAS_PREVIOUS, 0)),
            39 => (set(b, word::K, a.state()[word::K]), ()),
            // It forgets the runs or the watches of safe direction.
            162 => (clear(a, &RUNS), clear(b, &RUNS)),
            163 => (clear(a, &WATCHES), clear(b, &WATCHES)),
            // It forgets value or run of n<nx.
            57 => (set(a, word::NX, 0), set(b, word::NX, 0)),
            58 => (set(a, word::NX_RUN, 0), set(b, word::NX_RUN, 0)),
            _ => ((), ()),
        };
        let answer = Model::log(a, b, words, output);
        let refusal = |number, place| Err(Refusal { number, place });
        match (board(), answer) {
            (37..=39 | 57 | 58 | 162 | 163, Err(_)) => (*a, *b) = before,
            (164 | 165 | 211..=216, Ok(cycles)) => {
                by_direction_in_log(a, &before.0, cycles);
                by_direction_in_log(b, &before.1, cycles);
            }
            // Words of a log with the function off in A have the rank of cause 14.
            (217, Ok(1..)) if a.data()[1] & 32 == 0 && is_overstepped(a, last_of(a)) => {
                output[0] |= 1 << 24
            }
            // Cycles wanted, not words.
            (16, Err(Refusal { number: 7, place })) => return refusal(7, place / 3),
            // Words lacking.
            (17, Err(Refusal { number: 7, place })) => return refusal(7, place - room),
            // The length as the place.
            (
                18,
                Err(Refusal {
                    number: 6,
                    place: 16_384,
                }),
            ) => return refusal(6, words.len()),
            // As many cycles as there is room for are run all the same.
            (19, Err(Refusal { number: 7, .. })) => {
                let mut rest = vec![0; 30_000];
                let _ = Model::log(a, b, words, &mut rest);
                output.copy_from_slice(&rest[..room]);
            }
            // The channels alone are run on.
            (20, Err(Refusal { number: 7, .. })) => {
                let _ = Model::log(a, b, words, &mut vec![0; 30_000]);
            }
            // The rest of the output is cleared.
            (21, Ok(cycles)) => output[3 * cycles..].fill(0),
            // One word behind the last is.
            (22, Ok(cycles)) => output
                .iter_mut()
                .skip(3 * cycles)
                .take(1)
                .for_each(|w| *w = 0),
            // No channel comes back, or one.
            (23, Ok(_)) => (*a, *b) = before,
            (24, Ok(_)) => *b = before.1,
            (25, Ok(0)) => return refusal(6, 0),
            // 7 before 6.
            (26, Err(Refusal { number: 6, .. })) if room < words.len() / 7 * 3 => {
                return refusal(7, words.len() / 7 * 3)
            }
            // Every remark wants output.
            (27, Ok(cycles)) if 3 * cycles + words.len() % 7 > room => {
                return refusal(7, 3 * cycles + words.len() % 7)
            }
            // A refused log is a cycle for k.
            (40, Err(_)) => set(a, word::K, a.state()[word::K] + 1),
            // A's and B's words the other way about.
            (28, Ok(cycles)) => output[..3 * cycles]
                .chunks_exact_mut(3)
                .for_each(|three| three.swap(0, 1)),
            _ => (),
        }
        answer
    }
}

/// Wrong boards by what is active, in a usable cycle with F on before it.
fn by_what_is_active(channel: &mut Lent, old: &[u32], cycle: &mut Cycle) {
    let over = old[word::F_COUNT] == 0;
    let by_function = channel.data()[1] & 6 != 0;
    let was_active = by_function || old[word::EFFECTIVE] != 0;
    let active = by_function || channel.state()[word::EFFECTIVE] != 0;
    let cancelled = old[word::STOP] == 3;
    match board() {
        // 13 is listed without its rank while nothing is active; or once it has stood.
        48 if over && !active && cycle.word >> 28 == 1 => list_code(cycle, 13),
        49 if over && !active && was_active && old[word::STOP] != 0 => list_code(cycle, 13),
        // Its rank alone counts where a selection comes later; or what the cycle before had is listed.
        50 if over && active && !was_active => leave_code_out(cycle, 13),
        51 if over && cancelled && active != was_active => match active {
            true => leave_code_out(cycle, 13),
            false => list_code(cycle, 13),
        },
        // Under STOP A F's count waits while nothing is active.
        52 if cancelled && !active => set(channel, word::F_COUNT, old[word::F_COUNT]),
        // SBH and SG count only where there is a previous position.
        53 if !by_function && old[word::HAS_PREVIOUS] == 0 => leave_code_out(cycle, 13),
        _ => (),
    }
}

/// Wrong boards by what is kept of n<nx and no word shows at once.
fn by_nx(channel: &mut Lent, old: &[u32], unusable: bool) {
    let on = channel.data()[1] & 8 != 0;
    let filter = channel.data()[68] as u32;
    let head = channel.channel().data().head();
    let (value, run) = (channel.state()[word::NX], channel.state()[word::NX_RUN]);
    match board() {
        // With the function off value or run stay, or are 0; or an unusable cycle ends them.
        59 if !on => set(channel, word::NX, old[word::NX]),
        60 if !on => set(channel, word::NX_RUN, old[word::NX_RUN]),
        61 if !on => set(channel, word::NX, 0),
        62 if !on => set(channel, word::NX_RUN, 0),
        63 if !on && unusable => set(channel, word::NX, 0),
        64 if !on && unusable => set(channel, word::NX_RUN, 0),
        // The run stops one past datum 68, ends where n<nx is 1, or is counted on for ever.
        65 => set(channel, word::NX_RUN, run.min(filter + 1)),
        66 if value == 1 => set(channel, word::NX_RUN, 0),
        67 if run == 1_001 && !unusable => {
            set(channel, word::NX_RUN, old[word::NX_RUN].wrapping_add(1))
        }
        // The run is cut by an unusable cycle, or stops at 1,000 with a filter below.
        68 if unusable => set(channel, word::NX_RUN, run.min(1_001)),
        69 if filter < 1_000 => set(channel, word::NX_RUN, run.min(1_000)),
        // Of a word only bit 0 counts; a run by its lowest 16 bits.
        70 if old[word::NX] & 1 == 0 && run <= filter => set(channel, word::NX, 0),
        71 if old[word::NX_RUN] > 0xffff && run == 1_001 => {
            set(channel, word::NX_RUN, (old[word::NX_RUN] & 0xffff) + 1)
        }
        // The words are left as they are where the value is.
        72 if value == 1 && old[word::NX] > 1 => set(channel, word::NX, old[word::NX]),
        // A cycle under STOP A leaves the run.
        73 if old[word::STOP] == 3 && !unusable && value == 1 => {
            set(channel, word::NX_RUN, old[word::NX_RUN])
        }
        // The run begins anew where n<nx goes to 1.
        74 if value == 1 && old[word::NX] == 0 => set(channel, word::NX_RUN, 1),
        // An unusable cycle ends value or run under a list of 51 data.
        75 if unusable && head == 51 => set(channel, word::NX, 0),
        76 if unusable && head == 51 => set(channel, word::NX_RUN, 0),
        _ => (),
    }
}

/// The words of safe direction: its runs, and its watches with their extremes.
const RUNS: [usize; 2] = [word::POSITIVE_RUN, word::NEGATIVE_RUN];
const WATCHES: [usize; 4] = [
    word::POSITIVE_WATCH,
    word::POSITIVE_EXTREME,
    word::NEGATIVE_WATCH,
    word::NEGATIVE_EXTREME,
];

/// Puts these words back to what they were.
fn keep(channel: &mut Lent, old: &[u32], words: &[usize]) {
    for &word in words {
        set(channel, word, old[word]);
    }
}

/// Puts these words to 0.
fn clear(channel: &mut Lent, words: &[usize]) {
    for &word in words {
        set(channel, word, 0);
    }
}

/// Writes the watches' words as 0 or 1.
fn write_watches(channel: &mut Lent) {
    for watch in [word::POSITIVE_WATCH, word::NEGATIVE_WATCH] {
        set(channel, watch, channel.state()[watch].min(1));
    }
}

/// Writes 0 for the extreme of no watch.
fn write_extremes(channel: &mut Lent) {
    for watch in [word::POSITIVE_WATCH, word::NEGATIVE_WATCH] {
        if channel.state()[watch] == 0 {
            set(channel, watch + 1, 0);
        }
    }
}

/// Takes a position into the extremes of the watches.
fn take_in(channel: &mut Lent, position: i32) {
    let farther: [fn(i32, i32) -> i32; 2] = [i32::max, i32::min];
    let extremes = [word::POSITIVE_EXTREME, word::NEGATIVE_EXTREME];
    for (extreme, farther) in extremes.into_iter().zip(farther) {
        if channel.state()[extreme - 1] != 0 {
            let was = channel.state()[extreme] as i32;
            set(channel, extreme, farther(was, position) as u32);
        }
    }
}

/// Cuts the runs to 1,001.
fn cut_runs(channel: &mut Lent) {
    for run in RUNS {
        set(channel, run, channel.state()[run].min(1_001));
    }
}

/// Wrong boards by what an accepted log leaves of safe direction.
fn by_direction_in_log(channel: &mut Lent, before: &Lent, cycles: usize) {
    let off = channel.data()[1] & 32 == 0;
    let old = before.state();
    let as_before = channel.channel().directions() == before.channel().directions();
    match board() {
        // With the function off the words are left as they are, or runs or watches end, or runs are cut.
        211 if off => keep(channel, old, &WATCHES),
        212 if off => clear(channel, &RUNS),
        213 if off => clear(channel, &WATCHES),
        214 if off => cut_runs(channel),
        // They are left where the log changed nothing by its cycles; with the function on.
        215 if as_before && cycles > 0 => keep(channel, old, &WATCHES),
        216 if as_before && cycles > 0 && !off => keep(channel, old, &WATCHES),
        // A log without a cycle leaves them, or cuts a run.
        164 if cycles == 0 => keep(channel, old, &WATCHES),
        165 if cycles == 0 => cut_runs(channel),
        _ => (),
    }
}

/// How far a position lies behind the extreme of each watch, 0 where there is none.
fn behind(channel: &Lent, position: i32) -> [i64; 2] {
    let state = channel.state();
    let distance = |watch: usize| {
        let extreme = i64::from(state[watch + 1] as i32);
        i64::from(state[watch] != 0) * (extreme - i64::from(position))
    };
    [
        distance(word::POSITIVE_WATCH),
        -distance(word::NEGATIVE_WATCH),
    ]
}

fn is_overstepped(channel: &Lent, position: i32) -> bool {
    let tolerance = channel.data()[69].into();
    let mut behind = behind(channel, position).into_iter();
    behind.any(|behind| behind > tolerance)
}

/// The position of the last cycle, 0 if it was unusable.
fn last_of(channel: &Lent) -> i32 {
    channel.channel().previous().unwrap_or(0)
}

fn both_overstepped(channel: &Lent, position: i32) -> bool {
    let tolerance = channel.data()[69].into();
    let mut behind = behind(channel, position).into_iter();
    behind.all(|behind| behind > tolerance)
}

/// Gives a code another number.
fn other_code(cycle: &mut Cycle, code: u8, other: u8) {
    if let Some(place) = cycle.codes.iter_mut().find(|place| **place == code) {
        *place = other;
    }
}

/// Wrong boards by what is kept of safe direction and no word shows at once.
fn by_direction(channel: &mut Lent, old: &[u32], unusable: bool, inputs: u32, position: i32) {
    let on = channel.data()[1] & 32 != 0;
    let head = channel.channel().data().head();
    let delay = channel.data()[70] as u32;
    let directions = [(word::POSITIVE_RUN, 13), (word::NEGATIVE_RUN, 14)];
    if !on && !unusable {
        match board() {
            // With the function off runs, or watches, end; in a list of 72 data, in a shorter one.
            166 => clear(channel, &RUNS),
            167 => clear(channel, &WATCHES),
            168 if head < 72 => clear(channel, &RUNS),
            169 if head == 51 => clear(channel, &WATCHES),
            170 if head == 72 => clear(channel, &WATCHES),
            // A watch is written as 0 or 1, or the extreme of none as 0; in a shorter list.
            199 => write_watches(channel),
            200 => write_extremes(channel),
            201 if head < 72 => write_watches(channel),
            202 if head < 72 => write_extremes(channel),
            // A watch takes the position in, or a run is cut.
            203 => take_in(channel, position),
            204 => cut_runs(channel),
            _ => (),
        }
    }
    if unusable {
        match board() {
            // An unusable cycle writes them; with the function on, or off.
            205 => write_watches(channel),
            206 => write_extremes(channel),
            207 if on => write_watches(channel),
            208 if on => write_extremes(channel),
            209 if !on => write_watches(channel),
            210 if !on => write_extremes(channel),
            _ => (),
        }
    }
    if !on && unusable {
        match board() {
            // An unusable cycle ends them where the function is off; in a shorter list.
            171 => clear(channel, &RUNS),
            172 => clear(channel, &WATCHES),
            173 if head < 72 => clear(channel, &WATCHES),
            _ => (),
        }
    }
    for (run, bit) in directions {
        let (watch, extreme) = (run + 1, run + 2);
        let state = *channel.state();
        let goes_on = on && !unusable && state[watch] == 1 && old[watch] != 0;
        match board() {
            // The run waits while there is a watch, stops one past the delay, or is counted on for ever.
            174 if goes_on => set(channel, run, old[run]),
            175 if on => set(channel, run, state[run].min(delay + 1)),
            176 if state[run] == 1_001 && !unusable => set(channel, run, old[run].wrapping_add(1)),
            // It stops at 1,000 with a delay below; an unusable cycle cuts it; it is read by its lowest 16 bits.
            177 if delay < 1_000 => set(channel, run, state[run].min(1_000)),
            178 if unusable => set(channel, run, state[run].min(1_001)),
            179 if old[run] > 0xffff && state[run] == 1_001 => {
                set(channel, run, (old[run] & 0xffff) + 1)
            }
            // It begins anew with the watch, or is 0 in one.
            180 if state[watch] == 1 && old[watch] == 0 => set(channel, run, 1),
            181 if state[watch] == 1 => set(channel, run, 0),
            // A watch is "run > delay".
            182 if goes_on && state[run] <= delay => {
                set(channel, watch, 0);
                set(channel, extreme, 0);
            }
            183 if on && !unusable && state[watch] == 1 && old[watch] == 0 && old[run] > delay => {
                set(channel, watch, 0);
                set(channel, extreme, 0);
            }
            // Of a watch's word only bit 0 counts, or the lowest 8 bits.
            184 if goes_on && old[watch] & 1 == 0 => set(channel, extreme, position as u32),
            185 if goes_on && old[watch] & 0xff == 0 => set(channel, extreme, position as u32),
            // The word is left as it is; the extreme of no watch is left, or is the position.
            186 if state[watch] == 1 && old[watch] > 1 => set(channel, watch, old[watch]),
            187 if state[watch] == 0 => set(channel, extreme, old[extreme]),
            188 if state[watch] == 0 && !unusable => set(channel, extreme, position as u32),
            189 if state[watch] == 0 && old[watch] != 0 => set(channel, extreme, old[extreme]),
            // An unusable cycle takes the position in, or the bit; counts; ends runs without a watch.
            190 if unusable && state[watch] != 0 => set(channel, extreme, position as u32),
            191 if unusable && inputs >> bit & 1 == 1 => {
                set(channel, run, 0);
                set(channel, watch, 0);
                set(channel, extreme, 0);
            }
            192 if unusable && on => set(channel, run, state[run].saturating_add(1)),
            193 if unusable && state[watch] == 0 => set(channel, run, 0),
            // The extreme of the negative direction is the highest; both have the positive one's words.
            194 if goes_on && bit == 14 => {
                set(channel, extreme, (old[extreme] as i32).max(position) as u32)
            }
            195 if bit == 14 && on => {
                set(channel, run, state[word::POSITIVE_RUN]);
            }
            // The words of both directions stand the other way about.
            196 if bit == 13 => {
                for place in 0..3 {
                    set(channel, run + place, state[word::NEGATIVE_RUN + place]);
                    set(channel, word::NEGATIVE_RUN + place, state[run + place]);
                }
            }
            // An extreme by its lowest 28 bits.
            197 if goes_on => set(channel, extreme, ((state[extreme] << 4) as i32 >> 4) as u32),
            // A run under STOP A waits.
            198 if old[word::STOP] == 3 && !unusable => set(channel, run, old[run]),
            _ => (),
        }
    }
}

/// What wrong boards order the codes by.
struct Seen {
    /// The codes that stand, upwards.
    codes: Vec<u8>,
    data: [i32; COUNT],
    /// The list has as many data.
    head: u32,
    /// The effective SG, in this cycle and in the one before, and the one in the input word.
    sg: usize,
    sg_before: usize,
    sg_given: usize,
    acknowledged: bool,
    f_before: bool,
    /// The rank before this cycle, and the one that its word shows.
    rank_before: i32,
    rank_shown: i32,
    /// STOP B would be STOP A at once: by its time of 0, by the shutdown speed.
    at_once: bool,
    slow: bool,
}

impl Seen {
    fn of(channel: &Lent, old: &[u32], inputs: u32, acknowledged: u32, cycle: &Cycle) -> Seen {
        let (data, state) = (*channel.data(), channel.state());
        let mut codes: Vec<u8> = cycle.codes.into_iter().filter(|&code| code != 0).collect();
        codes.sort_unstable();
        let at_rest = old[word::HAS_PREVIOUS] == 0 || old[word::PREVIOUS] == state[word::PREVIOUS];
        Seen {
            codes,
            data,
            head: state[word::COUNT],
            sg: state[word::SG] as usize & 3,
            sg_before: old[word::SG] as usize & 3,
            sg_given: (inputs >> 3 & 3) as usize,
            acknowledged: acknowledged != 0,
            f_before: old[word::F] != 0,
            rank_before: match old[word::STOP] {
                3 => 5,
                _ => old[word::RANK] as i32,
            },
            rank_shown: (cycle.word >> 24 & 7) as i32,
            at_once: data[32] == 0,
            slow: at_rest && data[33] > 0,
        }
    }

    fn stands(&self, code: u8) -> bool {
        self.codes.contains(&code)
    }

    /// A cause's own rank, 0 for none.
    fn rank(&self, code: u8) -> i32 {
        match code {
            1 | 5 => 5,
            2 | 9 | 13 => 4,
            3 => self.data[7 + self.sg],
            4 => self.data[15],
            6 => 3,
            7 => 2,
            8 => 1,
            14 => self.data[71],
            _ => 0,
        }
    }

    fn strongest(&self) -> Option<u8> {
        let codes = self.codes.iter().rev().copied();
        codes.max_by_key(|&code| self.rank(code))
    }
}

/// The rank by which a wrong board sorts a cause, the greatest first.
fn wrong_rank(seen: &Seen, code: u8) -> i32 {
    let rank = seen.rank(code);
    match (board(), code) {
        // By code alone, as before; the weakest first, those without a rank last or first; those without a rank first.
        (77, _) => 0,
        (78, _) if rank > 0 => 6 - rank,
        (79, _) => -rank,
        (80, _) if rank == 0 => 6,
        // SG always before SE, or behind it.
        (90, 3) if seen.stands(4) => rank.max(seen.rank(4)),
        (91, 4) if seen.stands(3) => rank.max(seen.rank(3)),
        // SG and SE by a fixed rank: C, A, E.
        (92, 3) | (93, 4) => 3,
        (94, 3) => 5,
        (95, 4) | (96, 3) => 1,
        // SG by the stop of SG1, of the SG in the input word, of the one before, of the next one, or by SE's; SE by SG's.
        (97, 3) => seen.data[7],
        (98, 3) => seen.data[7 + seen.sg_given],
        (99, 3) => seen.data[7 + seen.sg_before],
        (100, 3) => seen.data[8 + seen.sg],
        (101, 3) => seen.rank(4),
        (102, 4) if seen.stands(3) => seen.rank(3),
        // 13 without a rank, behind 10 to 12 or before them; as A.
        (103 | 104, 13) => 0,
        (105, 13) => 5,
        // As A where STOP B is STOP A at once: 13, 9, 2, all of rank 4; these by the shutdown speed.
        (106, 13) | (107, 9) | (108, 2) if seen.at_once => 5,
        (109, _) if rank == 4 && seen.at_once => 5,
        (110, _) if rank == 4 && seen.slow => 5,
        // 9 by the rank of the stop that was held; without a rank.
        (111, 9) => seen.rank_before,
        (112, 9) => 0,
        // Those of the rank that the word shows first; those above the rank before; the first of the strongest.
        (113, _) => (rank == seen.rank_shown).into(),
        (114, _) if rank <= seen.rank_before => 0,
        (115, _) => (Some(code) == seen.strongest()).into(),
        // Two ranks the other way about: A and B, B and C, C and D, D and E.
        (116, _) => [0, 1, 2, 3, 5, 4][rank as usize],
        (117, _) => [0, 1, 2, 4, 3, 5][rank as usize],
        (118, _) => [0, 1, 3, 2, 4, 5][rank as usize],
        (119, _) => [0, 2, 1, 3, 4, 5][rank as usize],
        // 10 to 12 as B with 13; 5 to 8 as A, B, C, D, or as B, C, D, E.
        (120, 10..=12) if seen.stands(13) => 4,
        (121, 6..=8) => rank + 1,
        (122, 5) => 4,
        // Not sorted: under STOP A, where no stop is entered, acknowledged, with F on, by the list's number of data.
        (123, _) if seen.rank_before == 5 => 0,
        (124, _) if seen.rank_shown <= seen.rank_before => 0,
        (125, _) if seen.acknowledged => 0,
        (126, _) if seen.f_before => 0,
        (127, _) if seen.head == 51 => 0,
        (128, _) if seen.head == 67 => 0,
        (129, _) if seen.head == 69 => 0,
        (149, _) if seen.head == 72 => 0,
        // 14 by a fixed rank: none, E, C, B, A; by the stop of SG or SE.
        (150, 14) => 0,
        (151, 14) => 1,
        (152, 14) => 3,
        (153, 14) => 4,
        (154, 14) => 5,
        (155, 14) => seen.data[7 + seen.sg],
        (156, 14) => seen.data[15],
        // As A where STOP B is STOP A at once; with 13 behind it.
        (157, 14) if rank == 4 && seen.at_once => 5,
        (158, 14) if seen.stands(13) => rank.min(3),
        _ => rank,
    }
}

/// The number by which a wrong board sorts causes of equal rank, the least first.
fn wrong_tie(seen: &Seen, code: u8) -> i32 {
    let rank = seen.rank(code);
    match (board(), code) {
        // Downwards: all, those without a rank, those with one.
        (81, _) => -i32::from(code),
        (82, _) if rank == 0 => -i32::from(code),
        (83, _) if rank > 0 => -i32::from(code),
        // First among their equals: 13, 9, the external stops, 4, 12, 11.
        (84, 13) | (85, 9) | (87, 4) | (91, 4) | (104, 13) => 0,
        (86, 5..=8) => i32::from(code) - 14,
        (130, 12) | (131, 11) => 0,
        // 14 first among its equals, or behind 4 and before the external stops, or before 13.
        (159, 14) => 0,
        (160, 14) => 4,
        (161, 14) => 12,
        // Last among their equals: 2, 3 and 4.
        (88, 2) | (89, 3 | 4) => i32::from(code) + 14,
        _ => code.into(),
    }
}

thread_local! {
    /// What the cycle before gave, for boards that keep their array.
    static LAST: Cell<[u8; 13]> = const { Cell::new([0; 13]) };
}

/// The codes as a wrong board gives them.
fn in_order(seen: &Seen) -> [u8; 13] {
    let mut codes = seen.codes.clone();
    let key = |code: &u8| (-wrong_rank(seen, *code), wrong_tie(seen, *code));
    match board() {
        // Eight are sorted; or neighbours are put right once.
        132 => {
            let eight = codes.len().min(8);
            codes[..eight].sort_by_key(key);
        }
        133 => {
            for at in 1..codes.len() {
                if key(&codes[at - 1]) > key(&codes[at]) {
                    codes.swap(at - 1, at);
                }
            }
        }
        _ => codes.sort_by_key(key),
    }
    // Each code has its own place.
    if board() == 138 {
        codes = (1..=13)
            .map(|code| code * u8::from(seen.stands(code)))
            .collect();
    }
    // A 0 between those with a rank and those without.
    if let (134, Some(at)) = (board(), codes.iter().position(|&code| seen.rank(code) == 0)) {
        codes.insert(at, 0);
    }
    let mut array = match board() {
        // The places behind the codes are left as they are; or those behind a 1; or all where there is no code.
        135 => LAST.get(),
        136 if codes == [1] => LAST.get(),
        137 if codes.is_empty() => LAST.get(),
        _ => [0; 13],
    };
    array[..codes.len()].copy_from_slice(&codes);
    LAST.set(array);
    array
}

/// Puts a code behind those that stand.
fn list_code(cycle: &mut Cycle, code: u8) {
    if let Some(place) = cycle.codes.iter_mut().find(|place| **place == 0) {
        *place = code;
    }
}

/// Takes a code away.
fn leave_code_out(cycle: &mut Cycle, code: u8) {
    if let Some(at) = cycle.codes.iter().position(|&stands| stands == code) {
        cycle.codes.copy_within(at + 1.., at);
        cycle.codes[12] = 0;
    }
}

/// A log run in which each channel gets its own head as the other's.
fn log_by_own_heads(
    a: &mut Lent,
    b: &mut Lent,
    words: &[u32],
    output: &mut [u32],
) -> Result<usize, Refusal> {
    let ran = Model::log(&mut a.clone(), &mut b.clone(), words, output)?;
    for (record, three) in log::records(words).zip(output.chunks_exact_mut(3)) {
        let mut from_a = Model::report(a, record.a.position, record.a.inputs);
        let mut from_b = Model::report(b, record.b.position, record.b.inputs);
        (from_a[3], from_b[3]) = (from_b[3], from_a[3]);
        let acknowledged = record.acknowledged.into();
        let cycle = |channel: &mut Lent, side: log::Side, report: &[u32; 4]| {
            Model::cycle(channel, side.position, side.inputs, acknowledged, report).word
        };
        three[0] = cycle(a, record.a, &from_b);
        three[1] = cycle(b, record.b, &from_a);
        three[2] = Model::device(three[0], three[1]);
    }
    Ok(ran)
}

/// How many wrong boards there are.
const BOARDS: u32 = 221;

/// The wrong boards that no script tells.
fn untold(scripts: &[Script]) -> Vec<u32> {
    let told: Vec<_> = (0..=BOARDS)
        .map(|board| (board, told_of(board)(scripts).len()))
        .collect();
    assert_eq!(told[0], (0, 0));
    let untold = told[1..].iter().filter(|(_, scripts)| *scripts == 0);
    untold.map(|(board, _)| *board).collect()
}

#[test]
fn each_wrong_board_is_told() {
    assert_eq!(untold(&scripts()), [0; 0]);
}

// ---- request W7

/// The model with the deviation from request W7 that [`DEVIATION`] holds.
struct Deviating;

thread_local! {
    static DEVIATION: Cell<Deviation> = const { Cell::new(Deviation::OF_CALLS[0]) };
}

fn deviant() -> Deviant {
    Deviant(DEVIATION.get())
}

fn report_of(report: &[u32; 4]) -> Report {
    script::report_of(report)
}

impl Board for Deviating {
    type Channel = Lent;

    fn none() -> Lent {
        Model::none()
    }

    fn list(channel: &mut Lent, words: &[u32]) -> Result<usize, Refusal> {
        channel.read_list_as(deviant(), words)
    }

    fn report(channel: &Lent, position: i32, inputs: u32) -> [u32; 4] {
        Model::report(channel, position, inputs)
    }

    fn cycle(
        channel: &mut Lent,
        position: i32,
        inputs: u32,
        acknowledged: u32,
        report: &[u32; 4],
    ) -> Cycle {
        let report = report_of(report);
        let acknowledged = acknowledged != 0;
        let cycle = channel.cycle_as(deviant(), position, inputs, acknowledged, report, None);
        Cycle {
            word: cycle.word,
            codes: cycle.causes.list(),
        }
    }

    fn device(a: u32, b: u32) -> u32 {
        Model::device(a, b)
    }

    fn log(
        a: &mut Lent,
        b: &mut Lent,
        words: &[u32],
        output: &mut [u32],
    ) -> Result<usize, Refusal> {
        image::run_log_as(deviant(), a, b, words, output)
    }

    fn ask(
        channel: &mut Lent,
        words: &[u32],
        position: i32,
        inputs: u32,
        report: &[u32; 4],
    ) -> Asked {
        let asked = channel.ask_as(deviant(), words, position, inputs, report_of(report));
        Asked {
            told: asked.map(|asked| asked.used),
            codes: asked.map_or(Asked::BEFORE, |asked| asked.codes),
        }
    }

    fn commit(channel: &mut Lent) -> Result<usize, Refusal> {
        channel.commit_as(deviant())
    }

    fn but_for_pending(channel: &Lent, accepted: bool) -> Lent {
        Model::but_for_pending(channel, accepted)
    }

    fn state(channel: &Lent, word: usize) -> u32 {
        Model::state(channel, word)
    }

    fn put(channel: &mut Lent, word: usize, value: u32) {
        Model::put(channel, word, value)
    }
}

#[test]
fn each_deviation_from_w7_is_told() {
    let scripts: Vec<Script> = scripts().into_iter().filter(asks).collect();
    assert!(scripts.len() >= 34, "{}", scripts.len());
    let told_of = |deviation: Deviation| {
        DEVIATION.set(deviation);
        told::<Deviating>(&scripts).len()
    };
    let untold: Vec<&str> = Deviation::OF_CALLS
        .iter()
        .filter(|&&deviation| told_of(deviation) == 0)
        .map(|deviation| deviation.name())
        .collect();
    assert_eq!(untold, [""; 0]);
    // No other deviation is one of these calls.
    assert_eq!(told_of(Deviation::ALL[0]), 0);
}

fn told_by_deviating(scripts: &[Script]) -> Vec<String> {
    told::<Deviating>(scripts)
}

/// Whether a script asks or commits.
fn asks(script: &Script) -> bool {
    let mut calls = script.steps.iter().map(|step| &step.call);
    calls.any(|call| matches!(call, Call::Ask { .. } | Call::Commit { .. }))
}

/// Two channels, and a cycle of both.
const LISTS: &str = "lists X and Y -> accepted 154\n  0 = 12\n  34 = 9\n";

/// The first difference of a script behind these.
fn first(text: &str, told: impl Fn(&[Script]) -> Vec<String>) -> String {
    told(&[script_of(&format!("{LISTS}{text}"))]).concat()
}

#[test]
fn each_wrong_answer_is_told() {
    for (text, told) in [
        (
            "list X -> accepted 153",
            "line 2: expected accepted 153; found accepted 154",
        ),
        (
            "list X -> refused 4 1\n0 = 12",
            "line 2: expected refused 4 1; found accepted 154",
        ),
        (
            "list X -> refused 4 2\n0 = 26",
            "line 2: expected refused 4 2; found refused 4 1",
        ),
        (
            "list X -> accepted 154\nreport X 5 SG1 -> 5 SG1 datum 2",
            "line 3: expected 5 SG1 datum 2; found 5 SG1 datum 1",
        ),
        (
            "list X of 67 data -> accepted 202\nreport X 5 SG1 -> 5 SG1 datum 1",
            "line 3: expected 5 SG1 datum 1; found 5 SG1 datum 1 head 67",
        ),
        (
            "list X -> accepted 154\nreport X 5 SG1 gear 2 -> 5 SG1 datum 1 head 50",
            "line 3: expected 5 SG1 datum 1 head 50; found 5 SG1 gear 2 datum 1",
        ),
        (
            "list X -> accepted 154\ncycle X 0 off, report 1 off datum 2 -> 15000084 causes 10 13",
            "line 3: expected 15000084 causes 10 13; found 10000080 causes 10 12",
        ),
        (
            "list X -> accepted 154\ncycle X 0 off, report of X -> 00000080 cause 1",
            "line 3: expected 00000080 causes 1; found 00000080 no cause",
        ),
        (
            "list X -> accepted 154\ncycle X 0 off, report of X times 2 -> 00000081 no cause",
            "line 3: expected 00000081 no cause; found 00000080 no cause",
        ),
        (
            "device 0x00000004 0x00000000 -> b",
            "line 2: expected b; found a",
        ),
        (
            "list X -> accepted 154\ncopy X to Y\nlike X Y -> no",
            "line 4: expected no; found yes",
        ),
        (
            "list X -> accepted 154\nask X 0 off, report of X -> accepted 154 cause 3",
            "line 3: expected accepted 154 causes 3; found accepted 154 no cause",
        ),
        (
            "list X -> accepted 154\nask X 0 off bit 2, report of X -> refused 1 0",
            "line 3: expected refused 1 0; found accepted 154 causes 1",
        ),
        (
            "list X -> accepted 154\nask X 0 off, report of X -> accepted 154 no cause\n0 = 26",
            "line 3: expected accepted 154 no cause; found refused 4 1",
        ),
        (
            "list X -> accepted 154\ncommit X -> committed 51",
            "line 3: expected committed 51; found refused 8 0",
        ),
        (
            "list X -> accepted 154\nask X 0 off, report of X, list, else as X -> accepted 154 no cause\ncommit X -> committed 67",
            "line 4: expected committed 67; found committed 51",
        ),
    ] {
        let difference = script::run::<Model>(&script_of(text)).err().expect(text);
        assert_eq!(difference.to_string(), format!("own.txt: {told}"));
    }
    let cycle = "log X Y, output 5 -> ran 1\n  both 0 off -> 00000080 00000080 1\n";
    let short = "log X Y, output 2 -> refused 7 3\n  both 0 off\n";
    assert_eq!(first(cycle, told::<Model>), "");
    assert_eq!(
        first(cycle, told_of(22)),
        "own.txt: line 5: expected a5a5a5a5 in word 3 of the output; found 00000000 in word 3 of the output"
    );
    assert_eq!(
        first(&cycle.replace("80 1\n", "80 3\n"), told::<Model>),
        "own.txt: line 5: expected 00000003 in word 2 of the output; found 00000001 in word 2 of the output"
    );
    assert_eq!(
        first(short, told_of(20)),
        "own.txt: line 5: expected channel X as it was; found it changed"
    );
    assert_eq!(
        first(short, told_of(19)),
        "own.txt: line 5: expected a5a5a5a5 in word 0 of the output; found 00000080 in word 0 of the output"
    );
    assert_eq!(
        first("list X -> refused 4 1\n0 = 26", told_of(1)),
        "own.txt: line 5: expected channel X as it was; found it changed"
    );
    for (deviation, text, told) in [
        (
            Deviation::AskCountsK,
            "ask X 0 off, report of X, list, else as X -> accepted 154 no cause",
            "line 5: expected channel X as it was but for its pending list; found it changed",
        ),
        (
            Deviation::RefusedAskForgetsPrevious,
            "cycle X 5 off, report of X -> 00000080 no cause\nask X 0 off, report of X -> refused 4 1\n0 = 26",
            "line 6: expected channel X as it was but for its pending list; found it changed",
        ),
        (
            Deviation::EmptyCommitForgetsPrevious,
            "cycle X 5 off, report of X -> 00000080 no cause\ncommit X -> refused 8 0",
            "line 6: expected channel X as it was; found it changed",
        ),
        (
            Deviation::PendingDroppedBy7,
            "ask X 0 off, report of X, list, else as X -> accepted 154 no cause\nlog X Y, output 2 -> refused 7 3\nboth 0 off",
            "line 6: expected channel X as it was; found it changed",
        ),
    ] {
        DEVIATION.set(deviation);
        let found = first(text, told_by_deviating);
        assert_eq!(found, format!("own.txt: {told}"));
    }
}

#[test]
fn a_text_that_is_no_script_is_refused() {
    let fresh = "list X -> accepted 154\n";
    for (text, reason) in [
        ("", "line 1: no call"),
        ("both 0 SG1", "line 2: 'both' is no call"),
        ("list X", "line 2: -> and the answer are missing"),
        (
            "list x -> accepted 154",
            "line 2: 'x' is no name: one begins with a capital",
        ),
        (
            "list X -> yes",
            "line 2: 'yes' is not accepted N or refused NUMBER PLACE",
        ),
        (
            "list X -> accepted 154\n\n  51 = 1",
            "line 4: '51' is not a datum's number from 0 to 50",
        ),
        (
            "list X of 69 data -> accepted 208\n  69 = 1",
            "line 3: '69' is not a datum's number from 0 to 68",
        ),
        (
            "list X of 73 data -> accepted 220",
            "line 2: '73' is not a number of data from 1 to 72",
        ),
        (
            "list X -> accepted 154\n  0 = 1 -> 1",
            "line 3: no answer stands here",
        ),
        (
            "list X, else as Y -> accepted 154",
            "line 2: no channel 'Y' was made",
        ),
        (
            "list X -> accepted 154\n byte 1",
            "line 2: these are no whole words",
        ),
        (
            "list X -> refused 4 1\n0 = 26\nlike X X -> yes",
            "line 4: no channel 'X' was made",
        ),
        (
            "report X 0 SG1 -> 0 SG1 datum 1",
            "line 2: no channel 'X' was made",
        ),
        (
            "device 4 0x0 -> 1",
            "line 2: '4' is not 0x and a 32-bit word",
        ),
        ("device 0x4 0x0 0x0 -> 1", "line 2: '0x0' is surplus"),
    ] {
        let fault = Script::of("own", &format!("{QUOTE}{text}")).expect_err(text);
        assert_eq!(fault.to_string(), reason, "{text}");
    }
    let nine: String = ('A'..='I')
        .map(|name| format!("list {name} -> accepted 154\n"))
        .collect();
    let fault = Script::of("own", &format!("{QUOTE}{nine}")).expect_err("nine channels");
    assert_eq!(
        fault.to_string(),
        "line 10: a script has at most 8 channels"
    );
    for (text, reason) in [
        ("cycle X 0 SG1 -> 00000081 no cause", "'report' is missing"),
        (
            "cycle X 0 SG1, report of X -> 00000081",
            "'00000081' is no channel word with its causes, or with no cause",
        ),
        (
            "cycle X 0 SG1, report of X -> 81 no cause",
            "'81' is no word of 8 hexadecimal digits",
        ),
        (
            "cycle X 0 SG1, report of X -> 00000081 cause 15",
            "'15' is not a cause code from 1 to 14",
        ),
        (
            "cycle X 0 SG1, report 0 SG1 -> 00000081 no cause",
            "'datum' is missing",
        ),
        (
            "ask X 0 SG1, list -> accepted 154 no cause",
            "'report' is wanted, not 'list'",
        ),
        (
            "ask X 0 SG1, report of X -> accepted 154",
            "'accepted 154' is not accepted N with its causes or no cause, or refused NUMBER PLACE",
        ),
        (
            "ask X 0 SG1, report of X -> refused 1",
            "'refused 1' is not accepted N or refused NUMBER PLACE",
        ),
        (
            "ask X 0 SG1, report of X, list, else as Y -> accepted 154 no cause",
            "no channel 'Y' was made",
        ),
        (
            "commit X -> accepted 51",
            "'accepted 51' is not committed N or refused NUMBER PLACE",
        ),
        ("commit Y -> committed 51", "no channel 'Y' was made"),
        (
            "cycle X 2147483648 SG1, report of X -> 00000081 no cause",
            "'2147483648' is not a position of 32 bits from -2147483648 to 2147483647",
        ),
        ("log X X, output 3 -> ran 0", "a log runs two channels"),
        ("copy X to Y -> yes", "this call has no answer"),
        ("like X X -> 1", "'1' is not yes or no"),
    ] {
        let fault = Script::of("own", &format!("{QUOTE}{fresh}{text}")).expect_err(text);
        assert_eq!(fault.to_string(), format!("line 3: {reason}"), "{text}");
    }
    for (log, reason) in [
        (
            "output 3 -> ran 1\nboth 0 off",
            "line 5: 1 cycles run, and words stand for 0",
        ),
        (
            "output 3 -> refused 7 6\nboth 0 off -> 00000080 00000080 1",
            "line 5: 0 cycles run, and words stand for 1",
        ),
        (
            "output 2 -> ran 1\nboth 0 off -> 00000080 00000080 1",
            "line 5: the words do not go into the output",
        ),
        (
            "output 3 -> ran 1\nboth 0 off -> 00000080 00000080",
            "line 6: '00000080 00000080' is not A's word, B's word, device word",
        ),
        (
            "output 3 -> ran 1\nboth 0 of -> 00000080 00000080 1",
            "line 6: 'of' is not known as an input",
        ),
    ] {
        let text = format!("{QUOTE}{LISTS}log X Y, {log}");
        let fault = Script::of("own", &text).expect_err(log);
        assert_eq!(fault.to_string(), reason, "{log}");
    }
    assert!(
        Script::of("own", "device 0x0 0x0 -> 1").is_err(),
        "no quote"
    );
}

#[test]
fn long_rows_are_short_in_the_plain_form() {
    let text = format!("{LISTS}log X Y, output 40 -> ran 10\nremark times 20\nboth 0 off times 10 -> 00000080 00000080 1\n");
    let script = script_of(&text);
    let Call::Log { words, .. } = &script.steps[2].call else {
        panic!("a log");
    };
    assert_eq!(words.len(), 90);
    let plain = script::plain(&[script]).expect("the model agrees");
    let last = plain.lines().last().unwrap_or("");
    assert_eq!(last, "5 5 0 1 28 f0000000 *13 1 40000000 50000001 60000000 40000000 50000001 60000000 70000000 *9 7 = 0 a 80 80 1 *9 3 a5a5a5a5 *9 1");
}

#[cfg(feature = "proved")]
mod on_a_board {
    use super::*;
    use std::path::{Path, PathBuf};
    use std::process::{Command, Output};
    use std::sync::LazyLock;

    /// A file of the test's own.
    fn own(file: &str) -> PathBuf {
        Path::new(env!("CARGO_TARGET_TMPDIR")).join(file)
    }

    /// Compiles a source; what it is linked with stands behind it.
    fn compile(source: &Path, arguments: &[&str], to: &Path) {
        let include = format!("-I{}", beside("include").display());
        let flags = [
            "-std=c11",
            "-Wall",
            "-Wextra",
            "-Wpedantic",
            "-Werror",
            "-O2",
        ];
        let mut compiler = Command::new("cc");
        compiler
            .args(flags)
            .arg(include)
            .arg(source)
            .args(arguments);
        let answer = compiler.arg("-o").arg(to).output().expect("the compiler");
        let said = String::from_utf8_lossy(&answer.stderr);
        assert!(answer.status.success() && said.is_empty(), "{said}");
    }

    const ARCHIVES: [&str; 3] = [
        env!("MONITOR_LOGS_ARCHIVE"),
        env!("MONITOR_LISTS_ARCHIVE"),
        env!("MONITOR_ARCHIVE"),
    ];

    /// `scripts.c` over the archives.
    static PROGRAM: LazyLock<PathBuf> = LazyLock::new(|| {
        let program = own("scripts");
        compile(&beside("examples/scripts.c"), &ARCHIVES, &program);
        program
    });

    /// What it prints for a plain form, and its exit status.
    fn printed(name: &str, plain: &str) -> (String, Option<i32>) {
        printed_by(&PROGRAM, name, plain)
    }

    fn printed_by(program: &Path, name: &str, plain: &str) -> (String, Option<i32>) {
        let file = own(name);
        fs::write(&file, plain).expect("the file");
        let answer = Command::new(program).arg(&file).output().expect("it runs");
        let Output { status, stdout, .. } = answer;
        (String::from_utf8_lossy(&stdout).into_owned(), status.code())
    }

    #[test]
    fn every_script_agrees() {
        let scripts = scripts();
        let plain = script::plain(&scripts).expect("the model agrees");
        let all = scripts.len();
        let expected = (format!("{all} of {all} scripts agree\n"), Some(0));
        assert_eq!(printed("all.plain", &plain), expected);
    }

    #[test]
    fn a_wrong_answer_is_told() {
        let text = format!("{LISTS}log X Y, output 4 -> ran 1\n  both 0 off -> 00000080 00000080 1\ncycle X 0 off, report of X 1 off -> 10000080 cause 10\n");
        let plain = script::plain(&[script_of(&text)]).expect("the model agrees");
        let right = ("1 of 1 scripts agree\n".to_string(), Some(0));
        assert_eq!(printed("right.plain", &plain), right);
        for (name, old, new, told) in [
            (
                "word",
                "= 10000080 a",
                "= 10000081 a",
                "own: line 7, expected 10000081 a, found 10000080 a",
            ),
            (
                "code",
                "= 10000080 a",
                "= 10000080 b",
                "own: line 7, expected 10000080 b, found 10000080 a",
            ),
            (
                "codes",
                "= 10000080 a",
                "= 10000080 a d",
                "own: line 7, expected 10000080 a d, found 10000080 a",
            ),
            (
                "behind",
                "a5a5a5a5",
                "0",
                "own: line 5, expected 0 1 80 80 1 0, found 0 1 80 80 1 a5a5a5a5",
            ),
            (
                "call",
                "7 3 0",
                "7 ff 0",
                "own: line 7, expected 10000080 a, found",
            ),
            ("sign", "=", "", "own: no call: \n"),
        ] {
            assert!(plain.contains(old), "{old}");
            let (text, status) = printed(name, &plain.replacen(old, new, 1));
            assert!(text.starts_with(told), "{text}");
            assert!(text.ends_with("0 of 1 scripts agree\n"), "{text}");
            assert_eq!(status, Some(1));
        }
        assert_eq!(printed("none", "").1, Some(1));
    }

    /// A function of the header that a wrong board has otherwise.
    struct Function {
        name: &'static str,
        parameters: &'static str,
        arguments: &'static str,
    }

    const RUN_LOG: Function = Function {
        name: "run_log",
        parameters: "const int32_t *data_a, uint32_t *state_a, const int32_t *data_b, uint32_t *state_b, const uint32_t *words,
            size_t words_len, uint32_t *out, size_t out_len, size_t *at",
        arguments: "data_a, state_a, data_b, state_b, words, words_len, out, out_len, at",
    };

    const ASK: Function = Function {
        name: "ask",
        parameters: "const uint32_t *words, size_t words_len, uint32_t *state, int32_t *pending, int32_t position, uint32_t inputs,
            const uint32_t *report, uint8_t *causes, size_t *at",
        arguments: "words, words_len, state, pending, position, inputs, report, causes, at",
    };

    const COMMIT: Function = Function {
        name: "commit",
        parameters: "int32_t *data, uint32_t *state, const int32_t *pending, size_t *at",
        arguments: "data, state, pending, at",
    };

    /// A board whose function does something more, and returns what it should.
    fn wrong(name: &str, function: &Function, more: &str) -> PathBuf {
        let (source, object, program) = (
            own(&format!("{name}.c")),
            own(&format!("{name}.o")),
            own(name),
        );
        let Function {
            name,
            parameters,
            arguments,
        } = function;
        let text = format!(
            "#include \"axis_monitor.h\"
uint32_t wrong_{name}({parameters});
uint32_t wrong_{name}({parameters}) {{
    uint32_t refused = monitor_{name}({arguments});
    {more}
    return refused;
}}
"
        );
        fs::write(&source, text).expect("the source");
        let renamed = format!("-Dmonitor_{name}=wrong_{name}");
        compile(&beside("examples/scripts.c"), &["-c", &renamed], &object);
        let object = object.to_string_lossy();
        compile(&source, &[&[&*object][..], &ARCHIVES].concat(), &program);
        program
    }

    #[test]
    fn a_wrong_board_is_told() {
        let text = format!("{LISTS}log X Y, output 2 -> refused 7 3\n  both 0 off\nlog X Y, output 5 -> ran 1\n  both 0 off -> 00000080 00000080 1\n");
        let plain = script::plain(&[script_of(&text)]).expect("the model agrees");
        for (name, more, told) in [
            ("right-board", "(void)state_b;", "1 of 1 scripts agree\n"),
            (
                "channel-board",
                "if (refused != 0) state_b[1]++;",
                "own: line 5, channel 1 is not as it was\n0 of 1 scripts agree\n",
            ),
            (
                "output-board",
                "if (refused == 0) out[out_len - 1] = 0;",
                "own: line 7, expected 0 1 80 80 1 a5a5a5a5 a5a5a5a5, found 0 1 80 80 1 a5a5a5a5 0\n0 of 1 scripts agree\n",
            ),
            (
                "refused-board",
                "if (refused == 7) out[0] = 0;",
                "own: line 5, expected 7 3 a5a5a5a5 a5a5a5a5, found 7 3 0 a5a5a5a5\n0 of 1 scripts agree\n",
            ),
        ] {
            let program = wrong(name, &RUN_LOG, more);
            let (text, _) = printed_by(&program, &format!("{name}.plain"), &plain);
            assert_eq!(text, told);
        }
    }

    #[test]
    fn a_wrong_ask_or_commit_is_told() {
        let text = format!(
            "{LISTS}ask X 0 off, report of X -> refused 4 1\n  0 = 26
ask X 0 off, report of X, list, else as X -> accepted 154 no cause
commit X -> committed 51\ncommit X -> refused 8 0\n"
        );
        let plain = script::plain(&[script_of(&text)]).expect("the model agrees");
        let changed = |line: u32| format!("own: line {line}, channel 0 is not as it was\n");
        for (name, function, more, told) in [
            ("ask-board", &ASK, "state[1]++;", changed(5)),
            (
                "asked-board",
                &ASK,
                "if (refused == 0) state[1]++;",
                changed(7),
            ),
            (
                "pending-board",
                &ASK,
                "if (refused != 0) pending[0]++;",
                changed(5),
            ),
            (
                "kept-board",
                &ASK,
                "if (refused != 0) state[MONITOR_STATE_PENDING] = 51;",
                changed(5),
            ),
            (
                "codes-board",
                &ASK,
                "if (refused != 0) causes[0] = 0;",
                "own: line 5, expected 4 1, found 4 1 0\n".into(),
            ),
            (
                "code-board",
                &ASK,
                "if (refused == 0) causes[0] = 12;",
                "own: line 7, expected 0 9a, found 0 9a c\n".into(),
            ),
            (
                "commit-board",
                &COMMIT,
                "if (refused != 0) state[1]++;",
                changed(9),
            ),
            (
                "place-board",
                &COMMIT,
                "if (refused != 0) *at = 1;",
                "own: line 9, expected 8 0, found 8 1\n".into(),
            ),
        ] {
            let program = wrong(name, function, more);
            let (text, _) = printed_by(&program, &format!("{name}.plain"), &plain);
            assert_eq!(text, format!("{told}0 of 1 scripts agree\n"));
        }
    }
}
