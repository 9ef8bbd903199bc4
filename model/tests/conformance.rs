//! The conformance kits: what is committed is what they make, and the command that makes it.

mod common;
use common::{beside, kits};
use model::conformance::{self, Kit};
use std::fs;
use std::path::{Path, PathBuf};
use std::process::{Command, Output};

const MADE: &str = "crates/conformance";

#[test]
fn what_is_committed_is_what_the_kits_make() {
    let (kits, made) = (kits(), beside(MADE));
    let text = |file: &str| fs::read_to_string(made.join(file)).expect(file);
    assert!(text("args") == conformance::args(&kits), "args");
    assert!(text("stdout") == conformance::stdout(&kits), "stdout");
    for kit in &kits {
        let bytes = fs::read(made.join("data").join(kit.file())).expect(&kit.name);
        assert!(bytes == kit.bytes, "{}", kit.file());
    }
    let stale = conformance::stale(&kits, &made.join("data"));
    assert_eq!(stale, Ok(Vec::new()));
}

#[test]
fn each_kit_begins_with_a_quote() {
    for kit in kits() {
        let text = beside("kits").join(&kit.name).with_extension("txt");
        let text = fs::read_to_string(text).expect(&kit.name);
        assert!(conformance::is_quote(&text), "{}", kit.name);
    }
}

#[test]
fn the_sizes_at_the_limit_are_there() {
    let kits = kits();
    let has = |size: usize, listing: fn(&str) -> bool| {
        let fits = |kit: &&Kit| kit.bytes.len() == size && listing(&kit.listing);
        kits.iter().any(|kit| fits(&kit))
    };
    assert!(has(65_536, |listing| listing.lines().count() == 2296));
    for size in [65_535, 65_537, 65_540] {
        assert!(has(size, |listing| listing == "refused 6 0 L\n"), "{size}");
    }
    assert!(has(0, |listing| listing == "refused 1 0 A\n"));
}

/// The page names kits in backquotes; each must be there.
#[test]
fn the_page_names_kits_that_are_there() {
    let page = fs::read_to_string(beside("kits").join("README.md")).expect("the page");
    let kits = kits();
    let table = page.lines().filter(|line| line.starts_with("| "));
    let named: Vec<&str> = table
        .flat_map(|line| line.split('`').skip(1).step_by(2))
        .collect();
    assert!(named.len() > 20);
    for name in named {
        assert!(kits.iter().any(|kit| kit.name == name), "{name}");
    }
}

#[test]
fn a_kit_must_quote_and_list_as_it_says() {
    let kit = "lists A and B\nlog\nboth 0 off";
    for (text, line, reason) in [
        (kit.into(), 1, "no line # 01 (SUPPLIER 7.2): \"...\" quotes"),
        (
            format!("# 01 (SUPPLIER 3): \"T\"\n{kit} #> 1 00000080 00000080 3"),
            4,
            "is no line of the listing: '1 00000080 00000080 1'",
        ),
        (
            format!("# 01 (SUPPLIER 3): \"T\"\n#> refused 1 0 A\n{kit}"),
            2,
            "'refused 1 0 A' is no line",
        ),
        (
            format!("# 01 (SUPPLIER 3): \"T\"\n{kit} lots"),
            4,
            "'lots' is not known",
        ),
    ] {
        let fault = Kit::of("kit", &text).expect_err(&text);
        assert_eq!(fault.line, line, "{text}: {fault}");
        assert!(fault.reason.contains(reason), "{text}: {fault}");
    }
    let said = format!("# 01 (SUPPLIER 3): \"T\"\n{kit}  #> 1 00000080 00000080 1  words\n");
    assert!(Kit::of("kit", &said).is_ok());
}

#[test]
fn a_quote_has_its_section() {
    let text =
        "# 01 (SUPPLIER 7.2): \"A \"b\".\"\n# 01.\n# 010\nlist A\n# 02 W1 (SUPPLIER 11): \"c\"\n# 02 W2 (SUPPLIER 8): \"d\"";
    let quotes = conformance::quotes(text).expect(text);
    let told: Vec<[&str; 3]> = quotes
        .iter()
        .map(|quote| [&*quote.paper, &*quote.section, &*quote.sentence])
        .collect();
    let expected = [
        ["01", "7.2", "A \"b\"."],
        ["02 W1", "11", "c"],
        ["02 W2", "8", "d"],
    ];
    assert_eq!(told, expected);
    for wrong in [
        "# 01: \"T\"",
        "# 01, 3: \"T\"",
        "# 01 (SUPPLIER): \"T\"",
        "# 01 (SUPPLIER ): \"T\"",
        "# 01 (SUPPLIER 7.): \"T\"",
        "# 01 (SUPPLIER x): \"T\"",
        "# 01 (SUPPLIER 3): T",
        "# 01 (SUPPLIER 3): \"\"",
        "# 01 W1 (SUPPLIER 3): \"T\"",
        "# 02 (SUPPLIER 3): \"T\"",
        "# 02 W (SUPPLIER 3): \"T\"",
        "# 02 W0 (SUPPLIER 3): \"T\"",
        "# 02 W14 (SUPPLIER 3): \"T\"",
        "# 02 W1: \"T\"",
        "# 02 W1 (SUPPLIER): \"T\"",
    ] {
        let text = format!("# 01 (SUPPLIER 3): \"T\"\n{wrong}\nlists A and B\n");
        let fault = Kit::of("kit", &text).expect_err(wrong);
        assert_eq!(fault.line, 2, "{wrong}: {fault}");
        assert!(fault.reason.starts_with("a quote is # 01 ("), "{fault}");
    }
}

/// A folder of its own for a test, empty.
fn folder(name: &str) -> PathBuf {
    let folder = Path::new(env!("CARGO_TARGET_TMPDIR")).join(name);
    let _ = fs::remove_dir_all(&folder);
    fs::create_dir_all(&folder).expect(name);
    folder
}

/// The `kit` command.
fn kit(arguments: &[&Path]) -> Output {
    let command = Path::new(env!("CARGO_BIN_EXE_kit"));
    Command::new(command)
        .args(arguments)
        .output()
        .expect("the kit command")
}

#[test]
fn the_command_makes_the_files_and_takes_stale_ones_away() {
    let (texts, made) = (folder("texts"), folder("made"));
    let data = made.join("data");
    fs::create_dir_all(&data).expect("data");
    fs::write(data.join("stale.kit"), "x").expect("stale");
    fs::write(data.join("other"), "x").expect("other");
    fs::write(texts.join("README.md"), "A page.").expect("page");
    fs::write(texts.join("b.txt"), "# 01 (SUPPLIER 3): \"T\"\n").expect("b");
    fs::write(
        texts.join("b-1.txt"),
        "# 01 (SUPPLIER 3): \"T\"\nlists A and B\nboth 0 off\n",
    )
    .expect("b-1");
    let answer = kit(&["conformance".as_ref(), &texts, &made]);
    assert!(answer.status.success(), "{answer:?}");
    assert_eq!(answer.stdout, b"2 kits\n");
    let text = |file: &str| fs::read_to_string(made.join(file)).expect(file);
    assert_eq!(text("args"), "b-1.kit\nb.kit\n");
    assert_eq!(
        text("stdout"),
        "b-1\n1 00000080 00000080 1\nb\nrefused 1 0 A\n"
    );
    assert_eq!(text("data/b.kit"), "");
    assert!(!data.join("stale.kit").exists());
    assert!(data.join("other").exists());
    let power = kit(&["power".as_ref(), &texts]);
    let power = String::from_utf8_lossy(&power.stdout).into_owned();
    assert!(power.contains("RestsInStopA 1: b-1\n"), "{power}");
    assert!(power.contains("UnusableIsB 0: \n"), "{power}");
    assert!(power.contains("\nb: tells "), "{power}");
}

#[test]
fn the_command_names_file_line_and_reason() {
    let (texts, made) = (folder("faults"), folder("not-made"));
    let page: &[u8] = b"# 01 (SUPPLIER 3): \"T\"\n";
    let empty = kit(&["conformance".as_ref(), &texts, &made]);
    assert!(String::from_utf8_lossy(&empty.stderr).contains("faults: no kits"));
    for (file, bytes, told) in [
        (
            "a.txt",
            &b"# 01 (SUPPLIER 3): \"T\"\nlots\n"[..],
            "a.txt: line 2: 'lots' is not known",
        ),
        (
            "b.txt",
            b"# 01 (SUPPLIER 3): \"T\"\n\n\xff",
            "b.txt: line 3: no text",
        ),
        ("c.txt", b"list A", "c.txt: line 1: no line # 01"),
        ("d", page, "d: the file of a kit's text ends in .txt"),
        (
            "E.txt",
            page,
            "E.txt: a kit's name is of lower case letters",
        ),
        (".txt", page, ".txt: a kit's name is of lower case letters"),
    ] {
        fs::write(texts.join(file), bytes).expect(file);
        let answer = kit(&["conformance".as_ref(), &texts, &made]);
        assert_eq!(answer.status.code(), Some(1), "{answer:?}");
        let error = String::from_utf8_lossy(&answer.stderr).into_owned();
        assert!(error.contains(told), "{error}");
    }
    assert!(!made.join("args").exists());
    let nowhere = kit(&["power".as_ref(), &texts.join("nowhere")]);
    assert_eq!(nowhere.status.code(), Some(1));
}
