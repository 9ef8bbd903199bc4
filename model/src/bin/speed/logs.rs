//! The kits that are timed.

use model::{kit, random};

/// A kit's bytes, or why there are none.
pub type Kit = Result<Vec<u8>, String>;

/// A log's name, and its kit with so many cycles.
pub type Log = (&'static str, fn(usize) -> Kit);

pub const LOGS: [Log; 11] = [
    ("quiet SG", |cycles| log(QUIET, cycles)),
    ("gears", |cycles| log(GEARS, cycles)),
    ("n<nx", |cycles| log(NX, cycles)),
    ("safe direction", |cycles| log(DIRECTION, cycles)),
    ("stops, F and acknowledgements", |cycles| log(STOPS, cycles)),
    ("unusable", |cycles| log(UNUSABLE, cycles)),
    ("cams", |cycles| log(CAMS, cycles)),
    (ACROSS, |cycles| across(CAMS_CHANCE, cycles)),
    (FAR, |cycles| far(CAMS_CHANCE, cycles)),
    ("by chance", |cycles| Ok(random::kit_of(CHANCE, cycles))),
    ("by chance, 69 data", |cycles| {
        Ok(random::kit_of(CHANCE_69, cycles))
    }),
];

pub const ACROSS: &str = "cams, by chance across the edges";

pub const FAR: &str = "cams, by chance far from the edges";

/// A seed whose kit has every function on, and whose log comes to every rank.
const CHANCE: u64 = 66_120;

/// One with lists of 69 data and every function on that these have, for libraries from before safe direction.
const CHANCE_69: u64 = 389_432;

/// That of the cams' logs.
const CAMS_CHANCE: u64 = 21_242;

pub const LISTS: [(&str, &str); 5] = [
    ("whole numbers", "lists A and B"),
    ("whole numbers, 67 data", "lists A and B of 67 data"),
    ("whole numbers, 69 data", "lists A and B of 69 data"),
    ("whole numbers, 72 data", "lists A and B of 72 data"),
    (
        "binary64",
        "lists A and B
          0..10 = binary64 1
          11 = binary64 -100000000
          12 = binary64 100000000
          13 = binary64 -100000000
          14 = binary64 100000000
          15..50 = binary64 1",
    ),
];

/// A kit's lists, and records to repeat.
pub type Pattern = (&'static str, &'static [&'static str]);

pub const QUIET: Pattern = (
    "lists A and B
      0 = 12
      1 = 1
      2 = 10
      3 = 2000
      7 = 3",
    &["both 0 SG1", "both 200 SG1", "both 400 SG1", "both 200 SG1"],
);

/// n<nx with hysteresis and filter: set, kept on either side of nx, and put to 0.
const NX: Pattern = (
    "lists A and B of 69 data
      0 = 12
      1 = 8
      25 = 600
      67 = 300
      68 = 2",
    &[
        "both 0 off",
        "both 119 off",
        "both 0 off",
        "both 119 off",
        "both 269 off",
        "both 149 off",
        "both -31 off",
        "both 119 off",
    ],
);

/// Safe direction: delays, watches whose extremes move, and their ends.
const DIRECTION: Pattern = (
    "lists A and B of 72 data
      0 = 12
      1 = 32
      69 = 100
      70 = 1",
    &[
        "both 0 off both-ways",
        "both 10 off positive-only",
        "both 20 off",
        "both 30 off",
        "both 25 off",
        "both 60 off",
        "both 10 off negative-only",
        "both 0 off negative-only",
    ],
);

/// SG and n<nx by ratios that do not divide, another one in each cycle.
pub const GEARS: Pattern = (
    "lists A and B of 67 data
      0 = 12
      1 = 9
      2 = 10
      3 = 2000
      7 = 3
      25 = 600
      52 = 3
      53 = 7
      54 = 999
      59 = 2
      60 = 7
      61 = 3
      62 = 1000",
    &[
        "both 0 SG1 gear 0",
        "both 700 SG1 gear 1",
        "both 570 SG1 gear 2",
        "both 370 SG1 gear 3",
        "both 300 SG1 gear 1",
        "both 350 SG1 gear 2",
    ],
);

pub const STOPS: Pattern = (
    "lists A and B
      0 = 12
      1 = 31
      2 = 10
      3 = 2000
      7 = 3
      26 = 5
      28 = 1
      29..31 = 2
      32 = 1
      34 = 2",
    &[
        "both 0 SG1 no-stop",
        // Over SG1: C, held, left: B, then A.
        "both 401 SG1 no-stop",
        "both 401 SG1 no-stop",
        "both 401 SG1 no-stop",
        "both 412 SG1 no-stop",
        "both 412 SG1 no-stop",
        "both 412 SG1 no-stop ack",
        // Positions part: F, then B.
        "A 412 SG1 no-stop, B 418 SG1 no-stop",
        "both 412 SG1 no-stop",
        "both 412 SG1 no-stop",
        "both 412 SG1 no-stop",
        "both 412 SG1 no-stop ack",
        // Inputs differ for longer than allowed: F.
        "A 412 SG1 no-stop, B 412 SG1 SE2 no-stop",
        "A 412 SG1 no-stop, B 412 SG1 SE2 no-stop",
        "both 412 SG1 no-stop ack",
        // External stops: E, then D over it.
        "both 412 SG1 stop-E",
        "both 412 SG1 stop-D",
        "both 412 SG1 no-stop ack",
        // SBH, and back to SG1.
        "both 212 SBH no-stop",
        "both 12 SG1 no-stop ack",
    ],
);

const UNUSABLE: Pattern = ("lists A and B", &["both 0 SG1 bit 5"]);

const CAMS: Pattern = (
    "lists A and B
      0 = 12
      1 = 5
      3 = 1000000
      16..19 = 100
      20..23 = 250
      24 = 10",
    &[
        "both 0 SG1",
        "both 105 SG1",
        "both 200 SG1",
        "both 300 SG1",
        "both 245 SG1",
        "both 105 SG1",
    ],
);

/// Eight cams amid the positions: which of them is on, off or as before is left to chance.
pub fn across(seed: u64, cycles: usize) -> Kit {
    cams_from(0, seed, cycles)
}

/// The same positions, past all eight edges.
pub fn far(seed: u64, cycles: usize) -> Kit {
    cams_from(-90_000_000, seed, cycles)
}

/// Eight edges from the first one on, 1 mm apart, and positions by chance from -1 to 8 mm, others for each channel. Of all
/// functions the cams alone are on, every step is below nx, and the positions may differ so much: nothing but the edges
/// tells two such logs of a seed apart.
fn cams_from(first: i32, seed: u64, cycles: usize) -> Kit {
    let mut chance = random::Xorshift::new(seed);
    let mut position = || chance.between(-1000, 8000);
    let edges = (0..8).map(|cam| format!("{} = {}", 16 + cam, first + 1000 * cam));
    let records = (0..cycles).map(|_| format!("A {} off, B {} off", position(), position()));
    assemble(&format!(
        "lists A and B\n0 = 12\n1 = 4\n{}\n24 = 200\n25 = 1000000\n26 = 10000\nlog\n{}",
        edges.collect::<Vec<_>>().join("\n"),
        records.collect::<Vec<_>>().join("\n")
    ))
}

/// The kit of a pattern with so many records.
pub fn log((lists, records): Pattern, cycles: usize) -> Kit {
    let records: Vec<&str> = records.iter().copied().cycle().take(cycles).collect();
    assemble(&format!("{lists}\nlog\n{}", records.join("\n")))
}

pub fn assemble(text: &str) -> Kit {
    kit::assemble(text).map_err(|fault| fault.to_string())
}
