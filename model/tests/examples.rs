//! The examples over the archive: `loop.c` and `desk.py` print what the model says.
#![cfg(feature = "proved")]

mod common;
use common::{beside, bytes, kits};
use model::causes::Causes;
use model::listing::{self, Part};
use model::log::{self, Record};
use model::{device, Paper};
use std::fmt::Write as _;
use std::fs;
use std::io::Write as _;
use std::path::{Path, PathBuf};
use std::process::{Command, Output};
use std::sync::LazyLock;

const RANKS: [&str; 6] = ["NONE", "E", "D", "C", "B", "A"];
const CAUSES: [&str; 14] = [
    "UNUSABLE",
    "SBH",
    "SG",
    "SE",
    "STOP-A",
    "STOP-C",
    "STOP-D",
    "STOP-E",
    "HOLD",
    "POSITION",
    "INPUTS",
    "DATUM",
    "F",
    "DIRECTION",
];

/// A file of the test's own, for one of its cases.
fn own(file: &str) -> PathBuf {
    Path::new(env!("CARGO_TARGET_TMPDIR")).join(file)
}

/// Runs the compiler, which must have nothing to say.
fn compile(compiler: &str, arguments: &[&str]) {
    let answer = Command::new(compiler).args(arguments).output();
    let answer = answer.unwrap_or_else(|error| panic!("{compiler}: {error}"));
    let said = String::from_utf8_lossy(&answer.stderr);
    assert!(answer.status.success() && said.is_empty(), "{said}");
}

/// `loop.c` as C11, built once for all tests.
static LOOP: LazyLock<PathBuf> = LazyLock::new(|| build("cc", &["-std=c11"]));

/// `loop.c`, built as C11 or as C++.
fn build(compiler: &str, language: &[&str]) -> PathBuf {
    let program = own(&format!("loop-{}", compiler.replace('+', "p")));
    let include = format!("-I{}", beside("include").display());
    let source = beside("examples/loop.c");
    let flags = ["-Wall", "-Wextra", "-Wpedantic", "-Werror", "-O2", &include];
    let files = [
        &*source.to_string_lossy(),
        "-x",
        "none",
        env!("MONITOR_ARCHIVE"),
        "-o",
        &*program.to_string_lossy(),
    ];
    compile(compiler, &[language, &flags, &files].concat());
    program
}

/// A kit's lists with cycles behind them: their texts, and what the examples must print.
struct Case {
    kit: PathBuf,
    cycles: PathBuf,
    printed: String,
    status: i32,
}

impl Case {
    fn new(name: &str, kit: &[u8], records: &[Record]) -> Case {
        let (kit_file, cycles_file) = (own(&format!("{name}.kit")), own(&format!("{name}.txt")));
        fs::write(&kit_file, kit).expect("the kit");
        fs::write(&cycles_file, text(records)).expect("the cycles");
        let (printed, status) = match listing::accept(kit) {
            Err(refused) if refused.part != Part::L => (listing::list(kit), 1),
            _ => (lines(kit, records), 0),
        };
        Case {
            kit: kit_file,
            cycles: cycles_file,
            printed,
            status,
        }
    }

    #[track_caller]
    fn holds(&self, example: &mut Command) {
        let Output {
            status,
            stdout,
            stderr,
        } = example
            .arg(&self.kit)
            .arg(&self.cycles)
            .output()
            .expect("it runs");
        let kit = self.kit.display();
        assert_eq!(String::from_utf8_lossy(&stdout), self.printed, "{kit}");
        assert_eq!(String::from_utf8_lossy(&stderr), "", "{kit}");
        assert_eq!(status.code(), Some(self.status), "{kit}");
    }
}

/// Records as the examples take them.
fn text(records: &[Record]) -> String {
    let line = |record: &Record| {
        let Record { a, b, acknowledged } = record;
        let ack = if *acknowledged { " ack" } else { "" };
        format!(
            "{} {:x} {} {:#010x}{ack}\n",
            a.position, a.inputs, b.position, b.inputs
        )
    };
    let lines: String = records.iter().map(line).collect();
    format!("# position and inputs of A, then of B\n\n{lines}")
}

/// What the model prints for an accepted kit's channels.
fn lines(kit: &[u8], records: &[Record]) -> String {
    let accepted = listing::accept(kit).expect("a kit");
    let (mut a, mut b) = (accepted.a, accepted.b);
    let mut text = String::new();
    for (index, &record) in records.iter().enumerate() {
        let (of_a, of_b) = log::both(Paper, &mut a, &mut b, record);
        let device = device::word(of_a.word, of_b.word);
        let rank = RANKS[(device >> 1) as usize];
        let (cycle, a, b) = (index + 1, names(&of_a.causes), names(&of_b.causes));
        let words = format!("{:08x} {:08x} {device:x}", of_a.word, of_b.word);
        let _ = writeln!(text, "{cycle} {words} {rank} A:{a} B:{b}");
    }
    text
}

/// The names of the causes that stand, as they do.
fn names(causes: &Causes) -> String {
    let names: Vec<_> = causes
        .codes()
        .map(|code| CAUSES[usize::from(code) - 1])
        .collect();
    match names.is_empty() {
        true => "-".into(),
        false => names.join(","),
    }
}

/// The conformance kits whose lists the examples read; and cycles that no kit can hold, with
/// positions of more than 28 bits.
static CASES: LazyLock<Vec<Case>> = LazyLock::new(|| {
    let mut cases = Vec::new();
    for kit in kits() {
        let records = match listing::accept(&kit.bytes) {
            Ok(accepted) => accepted.records,
            Err(refused) if refused.part != Part::L => Vec::new(),
            Err(_) => continue,
        };
        let case = Case::new(&kit.name, &kit.bytes, &records);
        // The first four fields are the bench's listing.
        let fields = |line: &str| line.splitn(5, ' ').take(4).collect::<Vec<_>>().join(" ") + "\n";
        let listed: String = case.printed.lines().map(fields).collect();
        assert_eq!(listed, kit.listing, "{}", kit.name);
        cases.push(case);
    }
    let lists = bytes("lists A and B\n0 = 12\n1 = 31\n3 = 2000\n26 = 5");
    let side = |position, inputs| log::Side { position, inputs };
    let far = [i32::MAX, i32::MIN, 1 << 27, -(1 << 27) - 1, 0];
    let records = far.map(|position| Record {
        a: side(0, 0x003c_0002),
        b: side(position, 0x003c_0002),
        acknowledged: position == 0,
    });
    cases.push(Case::new("over-28-bits", &lists, &records));
    cases
});

#[test]
fn loop_c_prints_what_the_model_says() {
    for program in [&LOOP, &build("c++", &["-x", "c++"])] {
        for case in &*CASES {
            case.holds(Command::new(program).arg("--as-fast-as-possible"));
        }
    }
}

#[test]
fn desk_py_prints_what_the_model_says() {
    if Command::new("python3").arg("--version").output().is_err() {
        // Not by println, which a test that passes keeps to itself.
        let _ = writeln!(
            std::io::stderr(),
            "desk.py is not tried: there is no python3"
        );
        return;
    }
    let library = own("libaxis_monitor.so");
    let library = library.to_string_lossy();
    let whole = [
        "-Wl,--whole-archive",
        env!("MONITOR_ARCHIVE"),
        "-Wl,--no-whole-archive",
    ];
    compile("cc", &[&["-shared", "-o", &*library][..], &whole].concat());
    let desk = beside("examples/desk.py");
    let mut tried = 0;
    // The last are the cycles that no kit can hold.
    for case in CASES.iter().rev().step_by(6) {
        case.holds(Command::new("python3").arg(&desk).arg(&*library));
        tried += 1;
    }
    assert!(tried >= 50);
}

#[test]
fn loop_c_keeps_its_period() {
    let kit = own("period.kit");
    fs::write(&kit, bytes("lists A and B\n0 = 20")).expect("the kit");
    let cycles = own("period.txt");
    fs::write(&cycles, "0 1 0 1\n".repeat(10)).expect("the cycles");
    let begun = std::time::Instant::now();
    let ran = Command::new(&*LOOP)
        .args([&kit, &cycles])
        .output()
        .expect("it runs");
    assert!(begun.elapsed().as_millis() >= 200);
    assert_eq!(ran.status.code(), Some(0));
    assert_eq!(ran.stdout.iter().filter(|&&byte| byte == b'\n').count(), 10);
}

#[test]
fn loop_c_says_what_is_wrong() {
    let kit = own("wrong.kit");
    fs::write(&kit, bytes("lists A and B")).expect("the kit");
    let cycles = own("wrong.txt");
    let odd = own("odd.kit");
    fs::write(&odd, "12345").expect("the odd kit");
    let run = |arguments: &[&Path]| {
        let mut command = Command::new(&*LOOP);
        let command = command.arg("--as-fast-as-possible").args(arguments);
        let answer = command.stdin(std::process::Stdio::null()).output();
        let answer = answer.expect("it runs");
        (
            answer.status.code(),
            String::from_utf8_lossy(&answer.stderr).into_owned(),
        )
    };
    for (arguments, said) in [
        (&[][..], "usage"),
        (&[&*kit, &*cycles, &*cycles][..], "usage"),
        (&[&*odd][..], "no kit"),
        (&[Path::new("/nowhere")][..], "no kit"),
        (&[&*kit, Path::new("/nowhere")][..], "cannot be opened"),
    ] {
        let (status, error) = run(arguments);
        assert_eq!(status, Some(2), "{arguments:?}");
        assert!(error.contains(said), "{error}");
    }
    assert_eq!(run(&[&kit]), (Some(0), String::new()));
    for wrong in [
        "0 1 0",
        "0 1 0 1 acknowledged",
        "0 1 0 1 ack 1",
        "0 1 0 100000000",
        "a 1 0 1",
        "2147483648 1 0 1",
        "0 -1 0 1",
        "0 1g 0 1",
        "1.5 1 0 1",
    ] {
        fs::write(&cycles, format!("0 1 0 1\n{wrong}\n")).expect("the cycles");
        let (status, error) = run(&[&kit, &cycles]);
        assert_eq!(
            (status, &*error),
            (Some(2), "loop: line 2 is no cycle\n"),
            "{wrong}"
        );
    }
    fs::write(&cycles, format!("0 1 0 1 {}#\n", " ".repeat(300))).expect("the cycles");
    assert_eq!(run(&[&kit, &cycles]).0, Some(2));
}
