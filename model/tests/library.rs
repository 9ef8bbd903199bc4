//! The archive as a board links it: its header, its names, calls that no kit can show, and the
//! stack that each call takes.
#![cfg(feature = "proved")]

mod common;
use common::{beside, bytes, data, data_of};
use model::channel::image::{self, Image, Lent};
use model::channel::{self, Report};
use model::direction::DIRECTION_BITS;
use model::gear::GEAR_BITS;
use model::machine_data::{number, COUNT, HEADS};
use model::proved::{self, archive, Channel};
use model::random::{self, Call, Channels};
use model::{causes, device, list, listing, log, words, MachineData, Refusal};
use std::arch::asm;
use std::path::{Path, PathBuf};
use std::process::Command;

/// A file of the test's own.
fn own(file: &str) -> PathBuf {
    Path::new(env!("CARGO_TARGET_TMPDIR")).join(file)
}

/// Runs a program that must succeed: what it printed.
fn run(program: &str, arguments: &[&str]) -> String {
    let answer = Command::new(program).args(arguments).output();
    let answer = answer.unwrap_or_else(|error| panic!("{program}: {error}"));
    let errors = String::from_utf8_lossy(&answer.stderr);
    assert!(answer.status.success(), "{program} {arguments:?}: {errors}");
    String::from_utf8_lossy(&answer.stdout).into_owned()
}

/// What the model has to say of the header's numbers.
fn facts() -> String {
    let mut facts = vec![
        format!("MONITOR_INTERFACE == {}", proved::interface()),
        format!("MONITOR_DATA == {COUNT}"),
        format!("MONITOR_DATUM_NUMERATOR == {}", number::NUMERATOR),
        format!("MONITOR_DATUM_DENOMINATOR == {}", number::DENOMINATOR),
        format!("MONITOR_DATUM_NX_HYSTERESIS == {}", number::NX_HYSTERESIS),
        format!("MONITOR_DATUM_NX_FILTER == {}", number::NX_FILTER),
        format!(
            "MONITOR_DATUM_DIRECTION_TOLERANCE == {}",
            number::DIRECTION_TOLERANCE
        ),
        format!(
            "MONITOR_DATUM_DIRECTION_DELAY == {}",
            number::DIRECTION_DELAY
        ),
        format!("MONITOR_DATUM_DIRECTION_STOP == {}", number::DIRECTION_STOP),
        "MONITOR_REPORT == 4 && MONITOR_REPORT_HEAD == 3".into(),
        format!("MONITOR_STATE == {}", image::WORDS),
        format!("MONITOR_CODES == {}", causes::Causes::MOST),
        format!("MONITOR_LOG == {}", log::LONGEST),
        format!("MONITOR_KIT == {}", listing::LARGEST),
        format!("MONITOR_IN_BITS == {}u", channel::INPUT_BITS),
        format!("MONITOR_IN_GEAR == {GEAR_BITS}u"),
        format!(
            "(MONITOR_IN_POSITIVE_ONLY_OFF | MONITOR_IN_NEGATIVE_ONLY_OFF) == {DIRECTION_BITS}u"
        ),
        format!("sizeof(monitor_channel) == {}", size_of::<Channel>()),
    ];
    let states = image::NAMES.iter().enumerate();
    facts.extend(states.map(|(place, name)| format!("MONITOR_STATE_{name} == {place}")));
    let inputs = "SBH_SG_OFF SBH_OFF SG SE2 STOP_A_OFF STOP_C_OFF STOP_D_OFF STOP_E_OFF OVERRIDE";
    let inputs: Vec<_> = inputs
        .split(' ')
        .map(|bit| format!("MONITOR_IN_{bit}"))
        .collect();
    facts.push(format!("({}) == MONITOR_IN_BITS", inputs.join(" | ")));
    let facts = facts.iter().map(|fact| format!("MONITOR_HOLDS({fact});\n"));
    facts.collect()
}

#[test]
fn the_header_is_c_and_cpp() {
    let include = beside("include");
    let include = format!("-I{}", include.display());
    let text = format!(
        "#include \"axis_monitor.h\"\n#include \"axis_monitor.h\"\n{}int main(void) {{ return 0; }}\n",
        facts()
    );
    for (compiler, language, standard) in [
        ("cc", "c", "-std=c11"),
        ("c++", "c++", "-std=c++11"),
        ("c++", "c++", "-std=c++20"),
    ] {
        let file = own(&format!("header.{language}"));
        std::fs::write(&file, &text).expect("the file");
        let file = file.to_string_lossy();
        let flags = ["-Wall", "-Wextra", "-Wpedantic", "-Werror", "-fsyntax-only"];
        let arguments = [&["-x", language, standard, &include][..], &flags, &[&*file]];
        run(compiler, &arguments.concat());
    }
}

#[test]
fn an_archive_has_its_names_and_asks_for_no_others_but_memory() {
    let cycle = [
        "monitor_cycle",
        "monitor_device_word",
        "monitor_interface",
        "monitor_read_list",
        "monitor_report",
    ];
    let logs = ["monitor_list_kit", "monitor_run_kit", "monitor_run_log"];
    let lists = ["monitor_ask", "monitor_commit"];
    has_names(env!("MONITOR_ARCHIVE"), &cycle);
    has_names(env!("MONITOR_LOGS_ARCHIVE"), &logs);
    has_names(env!("MONITOR_LISTS_ARCHIVE"), &lists);
}

fn has_names(archive: &str, exported: &[&str]) {
    let text = run("nm", &["--extern-only", archive]);
    let names = |of: &str| -> Vec<&str> {
        let lines = text.lines().map(|line| line.split_whitespace());
        let pairs = lines.filter_map(|mut line| Some((line.next_back()?, line.next_back()?)));
        let mut names: Vec<_> = pairs
            .filter(|pair| pair.1 == of)
            .map(|pair| pair.0)
            .collect();
        names.sort_unstable();
        names
    };
    assert_eq!(names("T"), exported, "{text}");
    let wanted = names("U");
    let known = |name: &&str| ["memcpy", "memmove", "memset"].contains(name);
    assert!(wanted.iter().all(known), "{wanted:?}");
    let lines = text.lines().filter(|line| line.contains(' ')).count();
    assert_eq!(lines, exported.len() + wanted.len(), "{text}");
}

#[test]
fn an_archive_has_no_variable() {
    for archive in [
        env!("MONITOR_ARCHIVE"),
        env!("MONITOR_LOGS_ARCHIVE"),
        env!("MONITOR_LISTS_ARCHIVE"),
    ] {
        let text = run("nm", &[archive]);
        let kinds = text
            .lines()
            .filter_map(|line| line.split_whitespace().nth_back(1));
        let variable = |kind: &str| "bBdDsSgGcC".contains(kind);
        assert_eq!(kinds.filter(|kind| variable(kind)).count(), 0, "{text}");
    }
}

#[test]
fn an_array_of_length_0_may_be_null() {
    let (words, output) = (std::ptr::null(), std::ptr::null_mut());
    let (mut a, mut b) = (Pair::fresh(example()), Pair::fresh(example()));
    let (before, mut at, mut told) = ((a.proved, b.proved), usize::MAX, [u64::MAX; 3]);
    let (a, b) = (&mut a.proved, &mut b.proved);
    // SAFETY: what has a length has it, and the data of one channel are only read.
    unsafe {
        let read = archive::monitor_read_list(words, 0, &mut a.data, &mut a.state, &mut at);
        assert_eq!((read, at), (1, 0));
        let ran = archive::monitor_run_log(
            &a.data,
            &mut a.state,
            &a.data,
            &mut b.state,
            words,
            0,
            output,
            0,
            &mut at,
        );
        assert_eq!((ran, at), (0, 0));
        let log = log_of(&[0]);
        let (words_of_log, length) = (log.as_ptr(), log.len());
        let refused = archive::monitor_run_log(
            &a.data,
            &mut a.state,
            &a.data,
            &mut b.state,
            words_of_log,
            length,
            output,
            0,
            &mut at,
        );
        assert_eq!((refused, at), (7, 3));
        let ran = archive::monitor_run_kit(words, 0, output, 0, &mut told);
        assert_eq!((ran, told), (0, [1, 0, b'A'.into()]));
        let length = archive::monitor_list_kit(words.cast(), 0, output.cast(), 0);
        assert_eq!(length, b"refused 1 0 A\n".len());
        let (report, mut codes) = (a.report(0, 2), [u8::MAX; 13]);
        let asked = archive::monitor_ask(
            words,
            0,
            &mut a.state,
            &mut a.pending,
            0,
            2,
            &report,
            &mut codes,
            &mut at,
        );
        assert_eq!((asked, at, codes), (1, 0, [u8::MAX; 13]));
        let committed = archive::monitor_commit(&mut a.data, &mut a.state, &a.pending, &mut at);
        assert_eq!((committed, at), (8, 0));
    }
    assert_eq!((*a, *b), before);
}

/// A channel of the library beside the model's.
#[derive(Clone)]
struct Pair {
    model: Lent,
    proved: Channel,
}

impl Pair {
    fn fresh(data: MachineData) -> Pair {
        let words = words_of(&data);
        let mut proved = Channel::NONE;
        assert_eq!(proved.read_list(&words), Ok(words.len()));
        let model = Lent::fresh(data);
        let pair = Pair { model, proved };
        pair.same();
        pair
    }

    #[track_caller]
    fn same(&self) {
        assert_eq!(self.proved.data, *self.model.data());
        assert_eq!(self.proved.state, *self.model.state());
        assert_eq!(self.proved.pending, *self.model.pending());
    }

    /// Any content of the arrays.
    fn of(data: [i32; COUNT], state: Image, pending: [i32; COUNT]) -> Pair {
        Pair {
            model: Lent::of(data, state, pending),
            proved: Channel {
                data,
                state,
                pending,
            },
        }
    }

    /// An ask: the words used and the codes, or the refusal.
    #[track_caller]
    fn ask(
        &mut self,
        words: &[u32],
        position: i32,
        inputs: u32,
        report: Report,
    ) -> Result<(usize, Vec<u8>), Refusal> {
        let mut codes = Call::CODES;
        let lent = proved::lent(report);
        let given = self.proved.ask(words, position, inputs, &lent, &mut codes);
        let wanted = self.model.ask(words, position, inputs, report);
        assert_eq!(given, wanted.map(|asked| asked.used));
        assert_eq!(codes, wanted.map_or(Call::CODES, |asked| asked.codes));
        self.same();
        let codes = codes.into_iter().take_while(|&code| code != 0);
        given.map(|used| (used, codes.collect()))
    }

    #[track_caller]
    fn commit(&mut self) -> Result<usize, Refusal> {
        let committed = self.proved.commit();
        assert_eq!(committed, self.model.commit());
        self.same();
        committed
    }

    #[track_caller]
    fn report(&self, position: i32, inputs: u32) -> Report {
        let report = self.model.report(position, inputs);
        assert_eq!(self.proved.report(position, inputs), proved::lent(report));
        report
    }

    /// A cycle: the channel word, and the codes that stand, as they do.
    #[track_caller]
    fn cycle(&mut self, position: i32, inputs: u32, report: Report) -> (u32, Vec<u8>) {
        let wanted = self.model.cycle(position, inputs, false, report);
        let given = self
            .proved
            .cycle(position, inputs, 0, &proved::lent(report));
        assert_eq!(given.word, wanted.word);
        assert_eq!(given.codes, wanted.causes.list());
        self.same();
        (wanted.word, wanted.causes.codes().collect())
    }
}

/// The words of a list.
fn words_of(data: &MachineData) -> Vec<u32> {
    let mut words = vec![words::head(data.head())];
    for (number, &value) in data.data().iter().enumerate() {
        let pieces = [value as u32 >> 16, value as u32].map(words::piece);
        words.extend([words::datum(number, 0), pieces[0], pieces[1]]);
    }
    words
}

/// A log over two channels, with room for so many words.
#[track_caller]
fn run_log(a: &mut Pair, b: &mut Pair, words: &[u32], room: usize) -> Result<usize, Refusal> {
    let mut output = Call::output(room);
    let mut wanted_output = output.clone();
    let wanted = image::run_log(&mut a.model, &mut b.model, words, &mut wanted_output);
    let given = proved::run_log(&mut a.proved, &mut b.proved, words, &mut output);
    assert_eq!(given, wanted);
    assert_eq!(output, wanted_output);
    a.same();
    b.same();
    given
}

/// The example's data: SG1 2000 with STOP C, held after two cycles.
fn example() -> MachineData {
    data(&[
        (0, 12),
        (1, 1),
        (2, 10),
        (3, 2000),
        (7, 3),
        (29, 2),
        (32, 1),
    ])
}

/// A log in which both channels are at these positions, SG1 selected.
fn log_of(positions: &[i32]) -> Vec<u32> {
    let records = positions
        .iter()
        .map(|&at| words::record((at, 2), (at, 2), false));
    records.flatten().collect()
}

#[test]
fn a_second_log_goes_on_from_the_first() {
    let (mut a, mut b) = (Pair::fresh(example()), Pair::fresh(example()));
    assert_eq!(run_log(&mut a, &mut b, &log_of(&[0, 401]), 6), Ok(2));
    assert_eq!(
        run_log(&mut a, &mut b, &log_of(&[401, 401, 412, 412]), 20),
        Ok(4)
    );
    assert_eq!(a.proved.state[image::word::K], 6);
    // The other way about, and on the listing's last line.
    let mut output = [0; 3];
    let ran = proved::run_log(&mut b.proved, &mut a.proved, &log_of(&[412]), &mut output);
    assert_eq!((ran, output), (Ok(1), [0x0500_0085, 0x0500_0085, 0xa]));
}

#[test]
fn a_refused_log_between_cycles_changes_nothing() {
    let (mut a, mut b) = (Pair::fresh(example()), Pair::fresh(example()));
    let whole = log_of(&[0, 401, 401]);
    let long = vec![words::remark(0); log::LONGEST + 1];
    for position in [0, 401, 401, 401, 412, 412] {
        let (from_a, from_b) = (a.report(position, 2), b.report(position, 2));
        let before = (a.proved, b.proved);
        for (words, room, number, place) in [
            (&whole[..], 8, 7, 9),
            (&whole[..], 0, 7, 9),
            (&whole[..20], 9, 6, 20),
            (&whole[..20], 0, 6, 20),
            (&whole[1..], 9, 6, 0),
            (&long[..], 9, 6, log::LONGEST),
        ] {
            let refused = run_log(&mut a, &mut b, words, room);
            assert_eq!(refused, Err(Refusal { number, place }));
        }
        assert_eq!((a.proved, b.proved), before);
        let word_a = a.cycle(position, 2, from_b);
        let word_b = b.cycle(position, 2, from_a);
        assert_eq!(word_a, word_b);
    }
    assert_eq!(run_log(&mut a, &mut b, &[], 0), Ok(0));
    assert_eq!(a.proved.state[image::word::STOP], 3);
}

#[test]
fn a_refused_list_leaves_the_channel() {
    let mut a = Pair::fresh(example());
    let report = a.report(7, 2);
    a.cycle(7, 2, report);
    let before = a.proved;
    for text in ["list A\n3 = 0", "list A\n50 = open", "list A\ncut"] {
        let words = words::of_bytes(&bytes(text));
        let refused = a.proved.read_list(&words);
        assert_eq!(refused, list::read(&words).map(|read| read.1));
        assert!(refused.is_err());
        assert_eq!(a.proved, before);
    }
    assert_eq!(
        a.proved.read_list(&[]),
        Err(Refusal {
            number: 1,
            place: 0
        })
    );
}

/// Data, cycles with their positions and inputs, and the codes of the last.
type Stands<'a> = (&'a [(usize, i32)], &'a [(i32, u32)], &'a [u8]);

#[test]
fn causes_by_their_codes() {
    const NO_STOP: u32 = 0xf << 18;
    let stop = |bit: u32| (0, NO_STOP & !(1 << bit));
    let cases: [Stands; 11] = [
        (&[(1, 1)], &[(0, 2), (100_000_001, 2)], &[1]),
        (&[(1, 1)], &[(0, 2), (0, 6)], &[1]),
        (&[(1, 1)], &[(0, 0), (11, 0)], &[2]),
        (&[(1, 1), (3, 2000)], &[(0, 2), (401, 2)], &[3]),
        (&[(1, 2), (12, 50)], &[(0, 1), (51, 1)], &[4]),
        (&[(1, 16)], &[stop(18)], &[5]),
        (&[(1, 16)], &[stop(19)], &[6]),
        (&[(1, 16)], &[stop(20)], &[7]),
        (&[(1, 16)], &[stop(21)], &[8]),
        (&[(1, 16)], &[stop(19), (11, NO_STOP)], &[9]),
        (
            &[(1, 19), (3, 2000), (12, 50)],
            &[(0, 2 | NO_STOP), (401, 2)],
            &[5, 6, 7, 3, 4, 8],
        ),
    ];
    for (stated, cycles, codes) in cases {
        let mut channel = Pair::fresh(data(&[&[(0, 12), (2, 10)], stated].concat()));
        let mut told = Vec::new();
        for &(position, inputs) in cycles {
            let report = channel.report(position, inputs);
            told = channel.cycle(position, inputs, report).1;
        }
        assert_eq!(told, codes, "{stated:?}");
    }
}

#[test]
fn reports_by_other_channels_and_k_out_of_step() {
    let mut a = Pair::fresh(example());
    let mut b = Pair::fresh(data(&[(0, 11), (1, 1), (2, 10), (3, 2000), (7, 3)]));
    // Datum 0 is another: F.
    let from_b = b.report(0, 2);
    assert_eq!(from_b.datum, 11);
    assert_eq!(a.cycle(0, 2, from_b).1, [13, 12]);
    // a is one cycle ahead: datum 1 beside datum 0.
    let (from_a, from_b) = (a.report(0, 2), b.report(0, 2));
    assert_eq!((from_a.datum, from_b.datum), (1, 11));
    assert_eq!(a.cycle(0, 2, from_b).1, [13, 12]);
    assert_eq!(b.cycle(0, 2, from_a).1, [13, 12]);
    // A log with the two out of step, either way about.
    assert_eq!(run_log(&mut a, &mut b, &log_of(&[0, 0, 0]), 9), Ok(3));
    assert_eq!(run_log(&mut b, &mut a, &log_of(&[0; 60]), 200), Ok(60));
    let k = |pair: &Pair| pair.proved.state[image::word::K];
    assert_eq!((k(&a), k(&b)), (14, 13));
    // Any report at all: of nobody's position, inputs and datum.
    let mut c = Pair::fresh(data(&[(0, 12), (1, 4), (34, 2)]));
    let own = c.report(0, 1);
    let (position, inputs, datum) = (i32::MIN, u32::MAX, 13);
    assert_eq!(c.cycle(0, 1, Report { position, ..own }).1, [10]);
    let own = c.report(0, 1);
    assert_eq!(c.cycle(0, 1, Report { inputs, ..own }).1, [11]);
    assert_eq!(c.cycle(0, 1, Report { datum, ..own }).1, [13, 12]);
    let own = c.report(0, 1);
    assert_eq!(c.cycle(0, 1, own).1, [13]);
    // Nothing is active: F stands without 13.
    let mut idle = Pair::fresh(data(&[(0, 12), (1, 8)]));
    let own = idle.report(0, 1);
    assert_eq!(idle.cycle(0, 1, Report { datum, ..own }).1, [12]);
    let own = idle.report(0, 1);
    assert_eq!(idle.cycle(0, 1, own).1, []);
}

#[test]
fn a_device_word_of_any_words() {
    let words = [
        0,
        0x81,
        1 << 2,
        5 << 24,
        6 << 24,
        7 << 24,
        0x0400_0000,
        u32::MAX,
    ];
    for a in words {
        for b in words {
            assert_eq!(proved::device_word(a, b), device::word(a, b), "{a:x} {b:x}");
        }
    }
}

/// What a stack holds before it is lent.
const PAINT: u64 = 0x5aa5_c33c_9669_f00f;

/// Words of the stack: more than any call takes.
const STACK: usize = 1 << 16;

/// Calls a function of the archive on a painted stack: how many bytes it took, its return address
/// and the arguments that go by the stack included.
///
/// # Safety
/// The arguments must be those of the function.
unsafe fn stack_of(function: *const (), arguments: &[u64]) -> usize {
    let mut stack = vec![PAINT; STACK];
    // The stack pointer is a multiple of 16 at a call, and the arguments from the seventh on stand there.
    let mut top = STACK - 16;
    top -= stack[top..].as_ptr() as usize % 16 / 8;
    let by_stack = arguments.get(6..).unwrap_or(&[]);
    stack[top..top + by_stack.len()].copy_from_slice(by_stack);
    let by_register = |at: usize| arguments.get(at).copied().unwrap_or(0);
    asm!(
        "mov r12, rsp",
        "mov rsp, r13",
        "call r14",
        "mov rsp, r12",
        out("r12") _,
        in("r13") stack[top..].as_mut_ptr(),
        in("r14") function,
        inout("rdi") by_register(0) => _,
        inout("rsi") by_register(1) => _,
        inout("rdx") by_register(2) => _,
        inout("rcx") by_register(3) => _,
        inout("r8") by_register(4) => _,
        inout("r9") by_register(5) => _,
        clobber_abi("C"),
    );
    let lowest = stack.iter().position(|&word| word != PAINT).unwrap_or(top);
    assert!(lowest > 0, "the stack is too small");
    8 * (top - lowest + by_stack.len())
}

/// The stack of a call of a list.
fn stack_of_call(channels: &mut Channels, call: &Call) -> (&'static str, usize) {
    let content = |of: usize| (*channels.0[of].data(), *channels.0[of].state());
    let mut at = 0_usize;
    let at = &raw mut at as u64;
    // SAFETY: the arguments are those of the header, and each is lent for the call.
    let answer = unsafe {
        match *call {
            Call::Lend { .. } => ("", 0),
            Call::ReadList { of, ref words } => {
                let (mut data, mut state) = content(of);
                let (words, length) = (words.as_ptr() as u64, words.len() as u64);
                let lent = [&raw mut data as u64, &raw mut state as u64];
                let arguments = [words, length, lent[0], lent[1], at];
                (
                    "monitor_read_list",
                    stack_of(archive::monitor_read_list as _, &arguments),
                )
            }
            Call::Report {
                of,
                position,
                inputs,
            } => {
                let (data, state) = content(of);
                let mut report = [0_u32; 4];
                let lent = [&raw const data as u64, &raw const state as u64];
                let (position, report) = (position as u64, &raw mut report as u64);
                let arguments = [lent[0], lent[1], position, inputs.into(), report];
                (
                    "monitor_report",
                    stack_of(archive::monitor_report as _, &arguments),
                )
            }
            Call::Cycle {
                of,
                position,
                inputs,
                acknowledged,
                report,
            } => {
                let (data, mut state) = content(of);
                let (report, mut codes) = (proved::lent(report), [0_u8; 13]);
                let arguments = [
                    &raw const data as u64,
                    &raw mut state as u64,
                    position as u64,
                    inputs.into(),
                    acknowledged.into(),
                    &raw const report as u64,
                    &raw mut codes as u64,
                ];
                (
                    "monitor_cycle",
                    stack_of(archive::monitor_cycle as _, &arguments),
                )
            }
            Call::Ask {
                of,
                position,
                inputs,
                report,
                ref words,
            } => {
                let (_, mut state) = content(of);
                let mut pending = *channels.0[of].pending();
                let (report, mut codes) = (proved::lent(report), Call::CODES);
                let arguments = [
                    words.as_ptr() as u64,
                    words.len() as u64,
                    &raw mut state as u64,
                    &raw mut pending as u64,
                    position as u64,
                    inputs.into(),
                    &raw const report as u64,
                    &raw mut codes as u64,
                    at,
                ];
                (
                    "monitor_ask",
                    stack_of(archive::monitor_ask as _, &arguments),
                )
            }
            Call::Commit { of } => {
                let (mut data, mut state) = content(of);
                let pending = *channels.0[of].pending();
                let lent = [&raw mut data as u64, &raw mut state as u64];
                let arguments = [lent[0], lent[1], &raw const pending as u64, at];
                (
                    "monitor_commit",
                    stack_of(archive::monitor_commit as _, &arguments),
                )
            }
            Call::DeviceWord { a, b } => {
                let arguments = [a.into(), b.into()];
                (
                    "monitor_device_word",
                    stack_of(archive::monitor_device_word as _, &arguments),
                )
            }
            Call::RunLog {
                a,
                b,
                ref words,
                room,
            } => {
                let (data_a, mut state_a) = content(a);
                let (data_b, mut state_b) = content(b);
                let mut output = Call::output(room);
                let arguments = [
                    &raw const data_a as u64,
                    &raw mut state_a as u64,
                    &raw const data_b as u64,
                    &raw mut state_b as u64,
                    words.as_ptr() as u64,
                    words.len() as u64,
                    output.as_mut_ptr() as u64,
                    room as u64,
                    at,
                ];
                (
                    "monitor_run_log",
                    stack_of(archive::monitor_run_log as _, &arguments),
                )
            }
        }
    };
    channels.answer(call);
    answer
}

/// The stack of a kit's listing and of its run.
fn stack_of_kit(kit: &[u8]) -> [(&'static str, usize); 2] {
    let words = words::of_bytes(kit);
    let mut text = vec![0_u8; 1 << 17];
    let mut output = vec![0_u32; words.len()];
    let mut told = [0_u64; 3];
    let list = [
        kit.as_ptr() as u64,
        kit.len() as u64,
        text.as_mut_ptr() as u64,
        1 << 17,
    ];
    let length = words.len() as u64;
    let run = [
        words.as_ptr() as u64,
        length,
        output.as_mut_ptr() as u64,
        length,
        &raw mut told as u64,
    ];
    let name = match kit.len() {
        ..=10_240 => "monitor_list_kit, up to 10,240 bytes",
        _ => "monitor_list_kit, more",
    };
    // SAFETY: the arguments are those of the header, and each is lent for the call.
    unsafe {
        [
            (name, stack_of(archive::monitor_list_kit as _, &list)),
            (
                "monitor_run_kit",
                stack_of(archive::monitor_run_kit as _, &run),
            ),
        ]
    }
}

#[test]
fn each_call_keeps_to_its_stack() {
    // A name that the linker finds on its first call must not count.
    proved::text(&bytes("lists A and B"));
    let mut most: Vec<(&str, usize, Option<usize>)> = vec![
        ("monitor_interface", 0, Some(64)),
        ("monitor_device_word", 0, Some(64)),
        ("monitor_report", 0, Some(256)),
        ("monitor_cycle", 0, Some(1 << 10)),
        ("monitor_read_list", 0, Some(4 << 10)),
        ("monitor_run_log", 0, Some(4 << 10)),
        ("monitor_run_kit", 0, Some(8 << 10)),
        ("monitor_ask", 0, Some(8 << 10)),
        ("monitor_commit", 0, Some(4 << 10)),
        ("monitor_list_kit, up to 10,240 bytes", 0, Some(24 << 10)),
        ("monitor_list_kit, more", 0, Some(128 << 10)),
    ];
    let mut took = |(name, bytes): (&str, usize)| {
        if let Some(row) = most.iter_mut().find(|row| row.0 == name) {
            row.1 = row.1.max(bytes);
        }
    };
    // SAFETY: nothing is lent.
    took(("monitor_interface", unsafe {
        stack_of(archive::monitor_interface as _, &[])
    }));
    for seed in 0..200 {
        let mut channels = Channels::default();
        for call in random::calls(seed) {
            took(stack_of_call(&mut channels, &call));
        }
    }
    for seed in 0..300 {
        stack_of_kit(&random::kit(seed))
            .into_iter()
            .for_each(&mut took);
    }
    for cycles in [0, 1, 300, 2_000] {
        stack_of_kit(&random::kit_of(5, cycles))
            .into_iter()
            .for_each(&mut took);
    }
    for (name, bytes, limit) in most {
        println!("{bytes:>7} bytes of stack: {name}");
        let limit = limit.unwrap_or(usize::MAX);
        assert!(
            bytes > 0 && bytes < limit,
            "{name}: {bytes}, {limit} allowed"
        );
    }
}

/// The state's words are those that the header says, in their order; a shorter list leaves the places behind its data 0.
#[test]
fn a_fresh_channel_has_its_data_and_else_0() {
    let mut fresh: Image = [0; image::WORDS];
    for head in HEADS {
        let channel = Pair::fresh(MachineData::lowest(head)).proved;
        fresh[image::word::COUNT] = head as u32;
        assert_eq!(channel.state, fresh);
        assert!(channel.data[head..].iter().all(|&datum| datum == 0));
    }
}

#[test]
fn speeds_by_the_ratio_of_the_cycle() {
    // Gear 3 is 3 to 7: 933 passes, 934 does not.
    let stated = [
        (0, 12),
        (1, 9),
        (3, 2000),
        (7, 3),
        (25, 600),
        (29, 9),
        (54, 3),
        (62, 7),
    ];
    let mut channel = Pair::fresh(data_of(COUNT, &stated));
    for (position, inputs, codes) in [
        (0, 0x302, &[][..]),
        (933, 0x302, &[]),
        (1867, 0x302, &[3]),
        (2267, 2, &[]),
        (2668, 2, &[3]),
        (2668, 0x802, &[1]),
    ] {
        let report = channel.report(position, inputs);
        assert_eq!(report.head, COUNT);
        assert_eq!(
            channel.cycle(position, inputs, report).1,
            codes,
            "{position}"
        );
    }
    let mut short = Pair::fresh(data(&stated[..6]));
    for gear in [0x100, 0x200, 0x400] {
        let report = short.report(0, gear | 1);
        assert_eq!(short.cycle(0, gear | 1, report).1, [1]);
    }
}

#[test]
fn a_report_of_another_head() {
    for (own, head) in [
        (51, 67),
        (67, 51),
        (67, 66),
        (67, 69),
        (69, 67),
        (69, 68),
        (69, 51),
        (69, 72),
        (72, 69),
        (72, 71),
        (51, 0),
        (67, 1 << 31),
        (51, 307),
    ] {
        let mut channel = Pair::fresh(data_of(own, &[(0, 12), (34, 9)]));
        let right = channel.report(0, 1);
        assert_eq!(right.head, own);
        assert_eq!(channel.cycle(0, 1, right).1, [0; 0]);
        let right = channel.report(0, 1);
        assert_eq!(
            channel.cycle(0, 1, Report { head, ..right }).1,
            [12],
            "{own} {head}"
        );
        let right = channel.report(0, 1);
        assert_eq!(channel.cycle(0, 1, right).1, [0; 0]);
    }
}

/// What no list brings: ratios outside their range, and any count.
#[test]
fn ratios_and_counts_of_any_content() {
    let fresh = Pair::fresh(data_of(
        COUNT,
        &[(0, 12), (1, 9), (3, 2000), (7, 3), (25, 600)],
    ));
    for ratio in [0, -1, 1, 500, 1000, 1001, 5000, i32::MIN, i32::MAX] {
        for other in [0, 1, 7, 1000, 5000] {
            for count in [0, 1, 50, 51, 52, 66, 67, 68, 69, 70, 72, 73, 300, u32::MAX] {
                for k in [0, 50, 51, 65, 66, 67, 68, 69, 71, 72, 254, 255, 256] {
                    let (mut data, mut state) = (fresh.proved.data, fresh.proved.state);
                    (data[53], data[61]) = (ratio, other);
                    state[image::word::COUNT] = count;
                    state[image::word::K] = k;
                    let mut pair = Pair::of(data, state, [0; COUNT]);
                    for (position, inputs) in [(0, 2), (2, 0x202), (402, 0x202), (1000, 2)] {
                        let report = pair.report(position, inputs);
                        pair.cycle(position, inputs, report);
                    }
                }
            }
        }
    }
}

/// What no list brings: hysteresis and filter outside their ranges, any value and any run.
#[test]
fn nx_of_any_content() {
    let fresh = Pair::fresh(data_of(COUNT, &[(0, 12), (1, 8), (25, 600)]));
    let any = [
        0,
        -1,
        1,
        300,
        999,
        1000,
        1001,
        1_000_000,
        1_000_001,
        i32::MIN,
        i32::MAX,
    ];
    for hysteresis in any {
        for filter in any {
            for value in [0, 1, 2, 1 << 31] {
                for run in [0, 1, 999, 1000, 1001, 1002, u32::MAX] {
                    let (mut data, mut state) = (fresh.proved.data, fresh.proved.state);
                    (data[number::NX_HYSTERESIS], data[number::NX_FILTER]) = (hysteresis, filter);
                    (state[image::word::NX], state[image::word::NX_RUN]) = (value, run);
                    let mut pair = Pair::of(data, state, [0; COUNT]);
                    // Below nx, between, unusable, and far above.
                    for (position, inputs) in [(0, 1), (150, 1), (150, 5), (150, 1), (9_000_000, 1)]
                    {
                        let report = pair.report(position, inputs);
                        pair.cycle(position, inputs, report);
                    }
                }
            }
        }
    }
}

/// The two words of n<nx, over cycles of every kind, with the function on and off.
#[test]
fn value_and_run_of_nx() {
    for functions in [0, 8] {
        let stated = [(0, 12), (1, functions), (25, 600), (67, 300), (68, 2)];
        let mut channel = Pair::fresh(data_of(COUNT, &stated));
        let shown = |value: u32| u32::from(functions != 0) * value << 21;
        for (position, inputs, value, run) in [
            (0, 1, 0, 1),
            (119, 1, 0, 2),
            (119, 5, 0, 2),
            (119, 1, 1, 3),
            (269, 1, 1, 0),
            (269, 5, 1, 0),
            (269, 1, 1, 1),
            (449, 1, 0, 0),
        ] {
            let report = channel.report(position, inputs);
            let (word, _) = channel.cycle(position, inputs, report);
            let state = channel.proved.state;
            let words = [state[image::word::NX], state[image::word::NX_RUN]];
            assert_eq!(words, [value, run], "{position} {inputs}");
            let usable = inputs == 1;
            assert_eq!(word & 1 << 21, u32::from(usable) * shown(value));
        }
    }
}

/// What no list brings: tolerance, delay and stop outside their ranges, any functions beside any count, and any words of a
/// direction.
#[test]
fn directions_of_any_content() {
    let fresh = Pair::fresh(data_of(COUNT, &[(0, 12), (1, 32)]));
    let any = [0, -1, 1, 10, 1000, 1001, 100_001, i32::MIN, i32::MAX];
    for (at, tolerance) in any.into_iter().enumerate() {
        for (by, delay) in any.into_iter().enumerate() {
            let stop = any[(at + by) % any.len()];
            for (functions, count) in [(32, 72), (63, 51), (64, 72), (31, 72), (-1, 72), (32, 0)] {
                for run in [0, 1, 999, 1000, 1001, 1002, u32::MAX] {
                    for (watch, extreme) in
                        [(0, 9), (1, 0), (2, 1 << 31), (1 << 31, i32::MAX as u32)]
                    {
                        let (mut data, mut state) = (fresh.proved.data, fresh.proved.state);
                        data[number::FUNCTIONS] = functions;
                        data[number::DIRECTION_TOLERANCE] = tolerance;
                        data[number::DIRECTION_DELAY] = delay;
                        data[number::DIRECTION_STOP] = stop;
                        state[image::word::COUNT] = count;
                        state[image::word::POSITIVE_RUN] = run;
                        state[image::word::POSITIVE_WATCH] = watch;
                        state[image::word::POSITIVE_EXTREME] = extreme;
                        state[image::word::NEGATIVE_RUN] = run.wrapping_add(1);
                        state[image::word::NEGATIVE_WATCH] = watch.rotate_left(1);
                        state[image::word::NEGATIVE_EXTREME] = !extreme;
                        let mut pair = Pair::of(data, state, [0; COUNT]);
                        // Unusable, neither way, one, the other, both.
                        for (position, inputs) in
                            [(5, 5), (5, 1), (-6, 0x4001), (9, 0x2001), (0, 0x6001)]
                        {
                            let report = pair.report(position, inputs);
                            pair.cycle(position, inputs, report);
                        }
                    }
                }
            }
        }
    }
}

/// The six words of safe direction, over cycles of every kind.
#[test]
fn runs_watches_and_extremes() {
    let stated = [(0, 12), (1, 32), (69, 10), (70, 1), (71, 1)];
    let mut channel = Pair::fresh(data_of(COUNT, &stated));
    for (position, inputs, words, codes) in [
        (5, 1, [1, 0, 0, 1, 0, 0], &[][..]),
        (-3, 0x4001, [2, 1, -3, 0, 0, 0], &[]),
        (900, 0x6005, [2, 1, -3, 0, 0, 0], &[1]),
        (-13, 1, [3, 1, -3, 1, 0, 0], &[]),
        (-14, 1, [4, 1, -3, 2, 1, -14], &[14]),
        (7, 1, [5, 1, 7, 3, 1, -14], &[14]),
        (7, 0x2001, [0, 0, 0, 4, 1, -14], &[14]),
        (7, 0x6001, [0, 0, 0, 0, 0, 0], &[]),
    ] {
        let report = channel.report(position, inputs);
        assert_eq!(
            channel.cycle(position, inputs, report).1,
            codes,
            "{position}"
        );
        let state = channel.proved.state;
        let first = image::word::POSITIVE_RUN;
        let found = [0, 1, 2, 3, 4, 5].map(|place| state[first + place] as i32);
        assert_eq!(found, words, "{position} {inputs}");
    }
}

#[test]
fn an_ask_and_its_commit() {
    let tighter = |limit: i32| data(&[(0, 12), (1, 1), (3, limit), (7, 3), (29, 2)]);
    let mut channel = Pair::fresh(tighter(2000));
    let report = channel.report(0, 2);
    channel.cycle(0, 2, report);
    let words = words_of(&tighter(1000));
    let nothing = Refusal {
        number: 8,
        place: 0,
    };
    assert_eq!(channel.commit(), Err(nothing));
    let report = channel.report(201, 2);
    assert_eq!(channel.ask(&words, 201, 2, report), Ok((154, vec![3])));
    // A cycle drops it.
    channel.cycle(201, 2, report);
    assert_eq!(channel.commit(), Err(nothing));
    let report = channel.report(401, 2);
    assert_eq!(channel.ask(&words, 401, 2, report), Ok((154, vec![])));
    let refused = channel.ask(&words[..153], 401, 2, report);
    assert_eq!(refused.map_err(|refusal| refusal.place), Err(153));
    assert_eq!(channel.commit(), Err(nothing));
    let longer = [&words[..], &[0; 3]].concat();
    assert_eq!(channel.ask(&longer, 401, 2, report), Ok((154, vec![])));
    assert_eq!(channel.commit(), Ok(51));
    assert_eq!(channel.commit(), Err(nothing));
    assert_eq!(channel.cycle(401, 2, report).1, [0; 0]);
    let report = channel.report(602, 2);
    assert_eq!(channel.cycle(602, 2, report).1, [3]);
}

/// What no list brings: any count of a pending list, times outside their ranges, and any counts.
#[test]
fn commits_of_any_content() {
    let fresh = Pair::fresh(data_of(COUNT, &[(0, 12), (1, 33), (27, 5), (34, 5)])).proved;
    let times = [0, 1, 4, 1000, 1001, -1, i32::MIN, i32::MAX];
    for (at, time) in times.into_iter().enumerate() {
        for count in [1, 50, 51, 72, 73, 255, 256, u32::MAX] {
            for left in [0, 1, 4, 5, 1000, u32::MAX] {
                for (stop, rank) in [
                    (0, 0),
                    (1, 0),
                    (1, 1),
                    (1, 2),
                    (1, 3),
                    (1, 4),
                    (1, 5),
                    (1, 9),
                    (2, 3),
                    (3, 0),
                    (9, 9),
                ] {
                    let mut state = fresh.state;
                    let mut pending = fresh.data;
                    pending[number::FUNCTIONS] = [1, 33, 63, 64, -1][at % 5];
                    for number in [27, 29, 30, 31, 32, 34] {
                        pending[number] = times[(at + number) % times.len()];
                    }
                    pending[number::DELAY] = time;
                    state[image::word::PENDING] = count;
                    state[image::word::K] = [0, 50, 51, 71, 72, 255, 256][(left % 7) as usize];
                    state[image::word::DELAY] = left;
                    state[image::word::F] = u32::from(at % 2 == 0);
                    state[image::word::F_COUNT] = left;
                    state[image::word::STOP] = stop;
                    state[image::word::RANK] = rank;
                    state[image::word::REST] = left;
                    state[image::word::CAMS] = 0x1a5;
                    state[image::word::POSITIVE_WATCH] = left;
                    state[image::word::NEGATIVE_EXTREME] = left;
                    let mut pair = Pair::of(fresh.data, state, pending);
                    assert_eq!(pair.commit(), Ok(count as usize));
                    for (position, inputs) in [(0, 2), (5, 0x6002), (5, 5), (9, 0)] {
                        let report = pair.report(position, inputs);
                        pair.cycle(position, inputs, report);
                    }
                }
            }
        }
    }
}
