//! The text form of kits: both ways, its faults, and its page.

mod common;
use common::{bytes, list, Xorshift};
use model::{kit, listing, random};

/// A kit's text assembles to exactly the kit's bytes, and is not told word by word.
fn both_ways(kit: &[u8]) -> String {
    let text = kit::show(kit);
    assert_eq!(bytes(&text), kit, "{text}");
    assert!(!text.starts_with("# word by word"), "{text}");
    text
}

#[test]
fn random_kits_go_both_ways() {
    for seed in 0..6_000 {
        both_ways(&random::kit(seed));
    }
}

#[test]
fn random_bytes_go_both_ways() {
    for seed in 0..20_000 {
        both_ways(&random::bytes(seed));
    }
    both_ways(&[]);
    for byte in 0..=255 {
        both_ways(&[byte]);
        both_ways(&[byte; 3]);
        both_ways(&[byte; 4]);
        if byte % 51 == 0 {
            both_ways(&[byte; 4 * 70_001]);
        }
    }
}

#[test]
fn damaged_lists_stay_short() {
    let mut lines = 0;
    for seed in 0..2_000 {
        let kit = random::kit(seed);
        let words = kit.len() / 4;
        lines += kit::show(&kit).lines().count() * 100 / words.max(1);
    }
    assert!(lines / 2_000 < 40, "{} lines to 100 words", lines / 2_000);
}

#[test]
fn shown_text_is_what_people_write() {
    let text = "list A, else lowest
  0 = 12
  1 = 31
  3 = binary32 2000
  4 = binary64 2000.5
  5 = binary32 0x7fc00000
  6 = open
  11 = -100_000
  12 = -99999
list B, else as A
  0 = 13
  3 = 1
log
remark 0x0000007
both 0 SG1 no-stop
both 401 SG1 no-stop times 3
A 412 SG2 override 7 SE2 no-stop, B 413 SBH stop-A stop-E, ack
both 0 step 100 off times 10
A 0 step -5 SG3, B 7 0xffffffff times 3
A 0 SBH bit 3, B 0 off SG4
position -1
lower 0xffff
word 0x50010000
byte 0x12
";
    assert_eq!(both_ways(&bytes(text)), text);
}

#[test]
fn shown_text_says_how_many_data() {
    for text in [
        "lists A and B of 67 data, else lowest\n  0 = 12\n  66 = 7\nlog\nboth 0 SG1 override 2 gear 7 SE2\n",
        "list A of 67 data, else lowest\n  51 = binary32 3\n  60 = 2\nlist B, else as A\n  60 = 3\n",
        "list A, else lowest\n  3 = 2000\n  4 = 5\nlist B of 67 data, else as A\n  66 = 9\n",
        "list A of 67 data, else lowest\n  3 = 2000\n  4 = 7\n  5 = 8\n  66 = 9\nlist B of 51 data, else as A\n  3 = 1\n",
        "list A of 67 data, else lowest, head 0x10000033\n  0 = 12\nlist B of 67 data, else lowest, no head\n",
        "list A of 67 data, else lowest, head 0x10000044\nlist B, else lowest\n  0 = 9\n",
        "list A of 67 data, else lowest\n  50 = 1\n  cut\nlist B, else lowest\n  0 = 9\n",
        "lists A and B of 69 data, else lowest\n  67 = 300\n  68 = 2\nlog\nboth 0 off\n",
        "list A of 69 data, else lowest\n  3 = 2000\n  4 = 7\n  5 = 8\n  68 = 9\nlist B of 67 data, else as A\n  3 = 1\n",
        "list A of 69 data, else lowest, head 0x10000043\n  0 = 12\nlist B of 69 data, else lowest, no head\n",
        "list A of 69 data, else lowest\n  66 = 1\n  cut\nlist B, else lowest\n  0 = 9\n",
        "lists A and B of 72 data, else lowest\n  1 = 32\n  69 = 10\n  71 = 5\nlog\nboth 0 SBH positive-only\nboth 1 off SE2 both-ways no-stop\nboth 2 SG1 negative-only\nboth 2 SG1\n",
        "list A of 72 data, else lowest, head 0x10000045\n  0 = 12\nlist B of 69 data, else lowest\n  3 = 7\n",
    ] {
        assert_eq!(both_ways(&bytes(text)), text);
    }
    assert_eq!(
        bytes("list A of 67 data\n3 = 9\nlist B else as A of 51 data"),
        bytes("list A of 67 data\n3 = 9\nlist B of 51 data\n3 = 9")
    );
    assert_eq!(
        bytes("list A\nlist B of 67 data, else as A"),
        bytes("list A\nlist B of 67 data")
    );
    assert_eq!(bytes("list A of 52 data").len(), 4 * (1 + 3 * 52));
    assert_eq!(bytes("both 0 SG1 gear 5"), bytes("both 0 SG1 bit 8 bit 10"));
}

#[test]
fn many_ways_to_say_the_same() {
    let plain = bytes("lists A and B\n0 = 12\n3 = 2000\nlog\nboth 5 SG2");
    for text in [
        "list A\n0=12\n3=2000\nlist B\n0=12\n3=2000\nlog\nboth 5 SG2",
        "list A else lowest\n 0 = 0xc # T\n 3 = 2_000\nlist B, else as A\nboth 5 0x0000000a",
        "list\n0 = 12\n3 = 2000\nrest\nlist\n0 = 12\n3 = 2000\nA 5 bit 1 bit 3, B 5 SG2",
        "lists A and B\n0 = 12\n3 = 2000\nposition 5\nlog\ncut 1 word\nboth 5 SG2 times 1",
    ] {
        match text.contains("cut") {
            false => assert_eq!(bytes(text), plain, "{text}"),
            true => assert_ne!(bytes(text), plain, "{text}"),
        }
    }
    assert_eq!(
        bytes("list A\n3 = binary32 lowest\n4 = binary64 highest+1"),
        bytes("list A\n3 = binary32 1\n4 = binary64 1_000_001")
    );
    let highest = bytes("lists A and B, else highest");
    assert_eq!(listing::list(&highest), "");
    assert_eq!(
        bytes("both 0 step 5 SBH times 3"),
        bytes("both 0 SBH\nboth 5 SBH\nboth 10 SBH")
    );
    assert_eq!(bytes("both 0 SBH times 0"), []);
    assert_eq!(
        bytes("word 0x12345678 times 2\ncut 3 bytes"),
        [0x12, 0x34, 0x56, 0x78, 0x12]
    );
}

#[test]
fn faults_come_with_line_and_reason() {
    for (text, line, part) in [
        ("list A\n3 = x", 2, "'x' is not a 32-bit whole number"),
        ("\n\nlist C", 3, "'C' is not known here"),
        (
            "list A\n51 = 1",
            2,
            "'51' is not a datum's number from 0 to 50",
        ),
        (
            "list A of 69 data\n69 = 1",
            2,
            "'69' is not a datum's number from 0 to 68",
        ),
        (
            "list A of 73 data",
            1,
            "'73' is not a number of data from 1 to 72",
        ),
        ("list A of 67 words", 1, "'data' is wanted, not 'words'"),
        ("list A of data", 1, "'data' is not a number of data"),
        (
            "both 5 SBH gear 8",
            1,
            "'8' is not a gear's number from 0 to 7",
        ),
        ("both 5 SBH gear 1 gear 1", 1, "the gear is given twice"),
        ("list A\n3 = 1\n3 = 2", 3, "datum 3 comes after datum 3"),
        ("list A\n3 = 1\n2 = 2", 3, "datum 2 comes after datum 3"),
        ("list A\n3 1", 2, "'=' is wanted, not '1'"),
        ("list A\n3 = 1 2", 2, "'2' is surplus"),
        ("list A\n3 =", 2, "a value is missing"),
        (
            "list A\n3 = 4294967296",
            2,
            "'4294967296' is not a 32-bit whole number",
        ),
        (
            "list A\n3 = 2147483648",
            2,
            "'2147483648' is not a 32-bit whole number",
        ),
        (
            "list A\n3 = binary32 16777217",
            2,
            "'16777217' is no binary32",
        ),
        (
            "list A\n3 = binary32 99999999999999999999999",
            2,
            "is no binary32",
        ),
        ("list A\n3 = binary64 9007199254740993", 2, "is no binary64"),
        (
            "list A\n12 = binary32 highest+1",
            2,
            "'100000001' is no binary32",
        ),
        (
            "list A\n11 = lowest-2147483648",
            2,
            "'-2247483648' is not a 32-bit whole number",
        ),
        ("list A\n11 = lowest-x", 2, "'-x' is not an offset"),
        ("list A\n3 = binary32 0x123456789", 2, "32-bit word"),
        (
            "list A\n3 = binary64 0x12345678901234567",
            2,
            "is no binary64",
        ),
        ("list A\n9..3 = 1", 2, "runs backwards"),
        ("list A\nlist A", 2, "list A must be the first list"),
        ("list A\nlist B\nlist B", 3, "there are two lists already"),
        ("list A\nlists A and B", 2, "there is a list already"),
        ("list B else as A", 1, "there is no list A before"),
        ("list A else greatest", 1, "'greatest' is not lowest"),
        ("3 = 1", 1, "no list is open"),
        ("skip 3", 1, "no list is open"),
        ("cut", 1, "no list is open"),
        ("rest", 1, "no list is open"),
        ("cut 1 word", 1, "there are only 0 bytes to cut"),
        ("cut 1 cycle", 1, "'cycle' is not words or bytes"),
        ("both", 1, "a position is missing"),
        ("both 5", 1, "no inputs given"),
        ("both 134217728 SBH", 1, "position of 28 bits"),
        (
            "both 134217727 step 1 SBH times 2",
            1,
            "position 134217728 has no 28 bits",
        ),
        ("both 5 SG5", 1, "'SG5' is not known as an input"),
        ("both 5 SG1 SBH", 1, "two of SBH"),
        ("both 5 SBH SE1 SE2", 1, "SE is chosen twice"),
        (
            "both 5 SBH override 16",
            1,
            "'16' is not an override number from 0 to 15",
        ),
        ("both 5 SBH override", 1, "an override number is missing"),
        (
            "both 5 SBH override 1 override 1",
            1,
            "the override is given twice",
        ),
        ("both 5 SBH no-stop stop-A", 1, "stand together"),
        (
            "both 5 SBH positive-only both-ways",
            1,
            "the direction is given twice",
        ),
        ("both 5 bit 32", 1, "'32' is not a bit number from 0 to 31"),
        ("both 5 SBH times 65537", 1, "is not a number of times"),
        ("both 5 SBH ack ack", 1, "'ack' is surplus"),
        ("A 5 SBH", 1, "'B' is missing"),
        ("A 5 SBH ack B 5 SBH", 1, "'B' is wanted, not 'ack'"),
        ("B 5 SBH", 1, "a record begins with A or both"),
        ("word 12", 1, "'12' is not 0x and a 32-bit word"),
        ("word 0x123456789", 1, "32-bit word"),
        ("piece 65536", 1, "is not 16 bits"),
        ("remark 0x10000000", 1, "is not 28 bits"),
        ("datum 3 form 4", 1, "'4' is not a form"),
        ("byte 256", 1, "is not a byte"),
        ("lots", 1, "'lots' is not known"),
    ] {
        let fault = kit::assemble(text).expect_err(text);
        assert_eq!(fault.line, line, "{text}: {fault}");
        assert!(fault.reason.contains(part), "{text}: {fault}");
    }
}

#[test]
fn any_text_is_assembled_or_refused() {
    let mut random = Xorshift(0x1234_5678_9abc_def1);
    let page = std::fs::read_to_string(page()).expect("the page of kits");
    let words: Vec<&str> = page.split_whitespace().collect();
    let mut assembled = 0;
    for _ in 0..20_000 {
        let mut text = String::new();
        for _ in 0..random.below(12) {
            match random.below(12) {
                0 => text.push('\n'),
                1 => text.push_str(&(random.next() as i64 >> random.below(64)).to_string()),
                2 => text.push_str(&format!("0x{:x}", random.next() >> random.below(64))),
                3 => text.push_str(
                    ["é", "=", "..", "#", "-", "1e999", "nan", "0x", "_"][random.below(9) as usize],
                ),
                4 => text.push_str(
                    ["list A\n", "lists A and B\n", "both ", "cut ", "skip "]
                        [random.below(5) as usize],
                ),
                _ => text.push_str(words[random.below(words.len() as u64) as usize]),
            }
            text.push_str([" ", " ", "\n", ""][random.below(4) as usize]);
        }
        // A fault is as good as a kit; a panic is not.
        assembled += usize::from(kit::assemble(&text).is_ok());
    }
    assert!(assembled > 100, "{assembled}");
}

/// Where the page stands in this package.
fn page() -> std::path::PathBuf {
    std::path::Path::new(env!("CARGO_MANIFEST_DIR"))
        .join("docs")
        .join("KITS.md")
}

/// The page's blocks of this language, in order.
fn blocks(language: &str) -> Vec<String> {
    let page = std::fs::read_to_string(page()).expect("the page of kits");
    let mut blocks = Vec::new();
    let mut open: Option<String> = None;
    for line in page.lines() {
        match (&mut open, line.strip_prefix("```")) {
            (None, Some(name)) => {
                open = Some(if name == language {
                    String::new()
                } else {
                    "-".into()
                })
            }
            (Some(_), Some(_)) => blocks.extend(open.take().filter(|block| block != "-")),
            (Some(block), None) if block != "-" => {
                block.push_str(line);
                block.push('\n');
            }
            _ => (),
        }
    }
    blocks
}

#[test]
fn the_pages_examples_assemble_and_list_as_it_says() {
    let (kits, listings) = (blocks("kit"), blocks("listing"));
    assert!(kits.len() >= 4);
    assert_eq!(kits.len(), listings.len());
    for (kit, listing) in kits.iter().zip(&listings) {
        assert_eq!(&list(kit), listing, "{kit}");
        both_ways(&bytes(kit));
    }
}
