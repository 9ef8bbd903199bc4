//! Timing pictures: the committed ones are what their kits draw, and any kit has one.

mod common;
use common::{beside, bytes, kits};
use model::plot::{self, Range};
use model::random;
use std::fs;
use std::path::Path;
use std::process::{Command, Output};

const PICTURES: &str = "docs/pictures";

/// The page's table: `| [NAME.svg](NAME.svg) | kits/NAME.txt | words |`.
fn table() -> Vec<(String, String)> {
    let page = fs::read_to_string(beside(PICTURES).join("README.md")).expect("the page");
    let row = |line: &str| {
        let mut cells = line.strip_prefix("| [")?.split(" | ");
        let picture = cells.next()?.split(']').next()?;
        Some((picture.to_owned(), cells.next()?.to_owned()))
    };
    page.lines().filter_map(row).collect()
}

/// The picture of a file, from the repository's top folder.
fn drawn(file: &str, range: Range) -> String {
    let path = beside(file);
    let bytes = fs::read(&path).expect(file);
    plot::file(file, &bytes, range).expect(file)
}

/// The picture of some bytes.
fn of_bytes(kit: &[u8], range: Range) -> String {
    plot::picture("kit", "", kit, range)
}

fn range(from: usize, to: usize) -> Range {
    Range::new(from, to).expect("a range")
}

#[test]
fn each_committed_picture_is_what_its_kit_draws() {
    let table = table();
    assert!(table.len() >= 6);
    for (picture, kit) in &table {
        let committed = fs::read_to_string(beside(PICTURES).join(picture)).expect(picture);
        assert!(committed == drawn(kit, Range::default()), "{picture}");
    }
}

#[test]
fn each_committed_picture_is_in_the_table() {
    let table = table();
    for entry in fs::read_dir(beside(PICTURES)).expect(PICTURES) {
        let name = entry.expect(PICTURES).file_name();
        let named = |(picture, _): &(String, String)| name.to_str() == Some(picture);
        assert!(name == "README.md" || table.iter().any(named), "{name:?}");
    }
}

#[test]
fn each_committed_picture_is_linked_in_the_suppliers_paper() {
    let paper = fs::read_to_string(beside("docs").join("SUPPLIER.md")).expect("the paper");
    for (picture, _) in table() {
        assert!(
            paper.contains(&format!("](pictures/{picture})")),
            "{picture}"
        );
    }
}

#[test]
fn any_kit_has_a_picture() {
    let ranges = [
        Range::default(),
        range(1, 1),
        range(40, 90),
        range(2296, usize::MAX),
    ];
    for seed in 0..2_000 {
        for kit in [random::kit(seed), random::bytes(seed)] {
            for range in ranges {
                well_formed(&of_bytes(&kit, range));
            }
        }
    }
    for kit in kits() {
        well_formed(&of_bytes(&kit.bytes, range(1, usize::MAX)));
    }
}

/// Whether tags open and close, as far as this can be seen without reading XML.
fn well_formed(picture: &str) {
    let elements: Vec<&str> = picture.lines().collect();
    let [head, inner @ .., "</svg>"] = &elements[..] else {
        panic!("{picture}");
    };
    assert!(head.starts_with("<svg "), "{head}");
    for line in inner {
        let closed = line.ends_with("/>") || line.ends_with("</text>");
        assert!(line.starts_with('<') && closed, "{line}");
        let outside = ["NaN", "inf", "\"-"];
        assert!(outside.iter().all(|wrong| !line.contains(wrong)), "{line}");
    }
}

#[test]
fn words_are_escaped_and_cut() {
    let kit = bytes("lists A and B\nboth 0 off");
    let long = "x".repeat(1_000);
    for (title, plain, shown) in [
        ("a<b>&\"c", "", ">a&lt;b&gt;&amp;&quot;c</text>"),
        (
            "a",
            "1 < 2 & \u{1}\u{ffff}",
            ">1 &lt; 2 &amp; \u{fffd}\u{fffd}</text>",
        ),
        (&long, &long, "xx..</text>"),
        ("a", &"word ".repeat(1_000), ">..</text>"),
    ] {
        let picture = plot::picture(title, plain, &kit, Range::default());
        well_formed(&picture);
        assert!(picture.contains(shown), "{picture}");
    }
}

#[test]
fn a_small_picture_says_why_there_is_no_cycle() {
    let told = |text: &str, words: &str| {
        let picture = of_bytes(&bytes(text), range(3, 4));
        assert!(picture.contains(words), "{picture}");
        assert!(!picture.contains(">cycle<"), "{picture}");
    };
    told("lists A and B", ">Accepted, 0 cycles.<");
    told("lists A and B\nlog\nremark", ">Accepted, 0 cycles.<");
    told(
        "lists A and B\nboth 0 off",
        ">Accepted, 1 cycle: none from 3 on.<",
    );
    told(
        "list A\n 3 = highest+1",
        ">refused 4 10 A: datum out of range.<",
    );
    told("lists A and B\nlog\nend", ">refused 6 0 L: log over");
}

#[test]
fn a_long_log_is_cut_and_says_so() {
    let kit = bytes("lists A and B\n 0 = 12\nboth 0 step 1 off times 100");
    let says = |range, words: &str| {
        let picture = of_bytes(&kit, range);
        assert!(picture.contains(words), "{picture}");
    };
    says(Range::default(), ">Cycles 1 to 60 of 100, T = 12 ms.<");
    says(range(91, 200), ">Cycles 91 to 100 of 100, T = 12 ms.<");
    says(range(1, 100), ">100 cycles, T = 12 ms.<");
    assert_eq!(Range::new(0, 1), None);
    assert_eq!(Range::new(2, 1), None);
}

/// The lanes that a kit's text has, by their names.
fn lanes(text: &str) -> Vec<String> {
    let picture = of_bytes(&bytes(text), Range::default());
    let name = |line: &str| {
        let (_, name) = line.split_once("font-weight=\"bold\">")?;
        Some(name.strip_suffix("</text>")?.to_owned())
    };
    picture.lines().filter_map(name).collect()
}

#[test]
fn lanes_in_which_nothing_happens_are_left_out() {
    assert!(lanes("lists A and B\nboth 7 off times 5").is_empty());
    let cams = "lists A and B\n 1 = 4\n 16 = 10\nboth 0 off\nboth 20 off";
    assert_eq!(
        lanes(cams),
        ["position", "speed, A and B", "signals, A and B"]
    );
    let one = "lists A and B\n 26 = 100\n 28 = 1\nA 0 off, B 5 off\nA 0 bit 2, B 5 off";
    let lanes_of_one = lanes(one);
    assert!(lanes_of_one.contains(&"stop, A".into()), "{lanes_of_one:?}");
    assert!(
        !lanes_of_one.contains(&"stop, B".into()),
        "{lanes_of_one:?}"
    );
}

#[test]
fn speeds_are_those_of_the_load() {
    let text = "lists A and B of 67 data\n 0 = 12\n 1 = 1\n 3 = 2000\n 54 = 3\n 62 = 7\nboth 0 SG1\nboth 934 SG1 gear 3";
    let expected = ["position", "speed, A and B", "gear, A and B"];
    assert_eq!(lanes(text)[..3], expected);
    let picture = of_bytes(&bytes(text), Range::default());
    for shown in [">2001.43<", ">|d| × ratio<", ">0: 1 to 1<", ">3: 3 to 7<"] {
        assert!(picture.contains(shown), "{shown}: {picture}");
    }
    let without = text.replace(" gear 3", "");
    assert_eq!(
        lanes(&without)[..3],
        ["position", "speed, A and B", "selection, A and B"]
    );
    let picture = of_bytes(&bytes(&without), Range::default());
    assert!(
        picture.contains(">4670<") && picture.contains(">|d|<"),
        "{picture}"
    );
}

/// The `kit` command.
fn kit(arguments: &[&str], folder: &Path) -> Output {
    Command::new(env!("CARGO_BIN_EXE_kit"))
        .args(arguments)
        .current_dir(folder)
        .output()
        .expect("the kit command")
}

#[test]
fn the_command_draws_texts_and_bytes() {
    let folder = Path::new(env!("CARGO_TARGET_TMPDIR"));
    let text = "# Plain words.\nlists A and B\nboth 0 off\nboth 9 off\n";
    fs::write(folder.join("plot.txt"), text).expect("the text");
    fs::write(folder.join("plot.kit"), bytes(text)).expect("the bytes");
    fs::write(folder.join("no-plot.txt"), "lots").expect("no kit");
    let drawn = |arguments: &[&str]| {
        let answer = kit(arguments, folder);
        assert!(answer.status.success(), "{answer:?}");
        String::from_utf8(answer.stdout).expect("text")
    };
    let of_text = drawn(&["plot", "plot.txt"]);
    assert!(of_text.contains(">Plain words.<"), "{of_text}");
    assert!(of_text.contains(">plot</text>"), "{of_text}");
    assert_eq!(
        drawn(&["plot", "plot.kit"]),
        plot::picture("plot", "", &bytes(text), Range::default())
    );
    assert!(drawn(&["plot", "plot.kit", "2", "2"]).contains(">Cycles 2 to 2 of 2,"));
    for (arguments, told) in [
        (&["plot", "no-plot.txt"][..], "no-plot.txt: line 1: 'lots'"),
        (
            &["plot", "plot.kit", "2", "1"],
            "2 to 1: cycles count from 1 on",
        ),
        (&["plot", "plot.kit", "x", "1"], "x to 1: cycles count"),
        (&["plot", "nowhere.kit"], "nowhere.kit: "),
        (&["plot"], "kit plot FILE [FROM TO]"),
    ] {
        let answer = kit(arguments, folder);
        assert_eq!(answer.status.code(), Some(1), "{answer:?}");
        let error = String::from_utf8_lossy(&answer.stderr).into_owned();
        assert!(error.contains(told), "{error}");
    }
}
