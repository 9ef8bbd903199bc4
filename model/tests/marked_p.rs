//! P1 to P14, each on a kit. "T is 12."

mod common;
use common::list;

/// What is known of one marked case: the kit's log lines under its data, and its listing.
fn case(data: &str, log: &str, listing: &str) {
    let data = data.replace(';', "\n");
    let text = format!(
        "lists A and B\n0 = 12\n{data}\nlog\n{}",
        log.replace(';', "\n")
    );
    let wanted: String = listing
        .split(';')
        .map(|line| line.trim().to_owned() + "\n")
        .collect();
    assert_eq!(list(&text), wanted, "{text}");
}

#[test]
fn p1_p2_sg1() {
    let data = "1 = 1; 3 = 2000; 7 = 3; 29 = 9";
    case(
        data,
        "both 0 SG1; both 400 SG1",
        "1 00000081 00000081 1; 2 00000081 00000081 1",
    );
    case(
        data,
        "both 0 SG1; both 401 SG1",
        "1 00000081 00000081 1; 2 03000081 03000081 7",
    );
    case(
        data,
        "both 0 SG1; both -400 SG1",
        "1 00000081 00000081 1; 2 00000081 00000081 1",
    );
    case(
        data,
        "both 0 SG1; both -401 SG1",
        "1 00000081 00000081 1; 2 03000081 03000081 7",
    );
}

#[test]
fn p3_p4_sg2_with_override() {
    let data = "1 = 1; 4 = 2000; 8 = 2; 30 = 9; 42 = 50";
    let log = "both 0 SG2 override 7; both 200 SG2 override 7";
    case(data, log, "1 00080081 00080081 1; 2 00080081 00080081 1");
    let log = "both 0 SG2 override 7; both 201 SG2 override 7";
    case(data, log, "1 00080081 00080081 1; 2 02080081 02080081 5");
}

#[test]
fn p5_standstill() {
    let data = "1 = 1; 2 = 10; 32 = 9";
    case(
        data,
        "both 0 SBH; both 10 SBH",
        "1 00000081 00000081 1; 2 00000081 00000081 1",
    );
    case(
        data,
        "both 0 SBH; both -10 SBH",
        "1 00000081 00000081 1; 2 00000081 00000081 1",
    );
    case(
        data,
        "both 0 SBH; both -11 SBH",
        "1 00000081 00000081 1; 2 04000081 04000081 9",
    );
    case(
        data,
        "both 0 SBH; both 11 SBH",
        "1 00000081 00000081 1; 2 04000081 04000081 9",
    );
}

#[test]
fn p6_p7_se() {
    let data = "1 = 2; 12 = 5000; 15 = 1; 31 = 9";
    case(data, "both 5000 SBH", "1 00000080 00000080 1");
    case(data, "both 5001 SBH", "1 01000080 01000080 3");
}

#[test]
fn p8_unusable() {
    case("1 = 0", "both 100_000_000 SBH", "1 00000080 00000080 1");
    case("1 = 0", "both 100_000_001 SBH", "1 05000084 05000084 a");
    case("1 = 0", "both -100_000_000 SBH", "1 00000080 00000080 1");
    case("1 = 0", "both -100_000_001 SBH", "1 05000084 05000084 a");
}

#[test]
fn p9_p10_floats() {
    let data = "1 = 1; 3 = binary32 0x44fa0000; 7 = 3; 29 = 9";
    case(
        data,
        "both 0 SG1; both 400 SG1",
        "1 00000081 00000081 1; 2 00000081 00000081 1",
    );
    case(
        data,
        "both 0 SG1; both 401 SG1",
        "1 00000081 00000081 1; 2 03000081 03000081 7",
    );
    case("3 = binary32 0x3f000000", "", "refused 3 10 A");
}

#[test]
fn p11_e_and_c_together() {
    case(
        "1 = 16; 29 = 9",
        "both 0 stop-C stop-E",
        "1 03000080 03000080 7",
    );
}

#[test]
fn p12_b_with_time_0() {
    case(
        "1 = 1; 2 = 10; 32 = 0",
        "both 0 SBH; both 11 SBH",
        "1 00000081 00000081 1; 2 05000085 05000085 a",
    );
}

#[test]
fn p13_delay() {
    let text = "lists A and B\n0 = 12\n1 = 1\n5 = 2000\n27 = 3\n";
    let lines = list(&format!(
        "{text}log\nboth 0 off times 9\nboth 0 SG3 times 4"
    ));
    let words: Vec<&str> = lines
        .lines()
        .map(|line| line.split(' ').nth(1).unwrap_or(""))
        .collect();
    assert_eq!(words[..12], ["00000080"; 12]);
    assert_eq!(words[12..], ["00100081"]);
}

#[test]
fn p14_differing_inputs() {
    let alike = "both 0 SBH times 4\n";
    let differ = "A 0 SBH, B 0 SG1 times 3\n";
    let lines = list(&format!(
        "lists A and B\n0 = 12\n28 = 2\n34 = 9\nlog\n{alike}{differ}both 0 SBH"
    ));
    let words: Vec<&str> = lines
        .lines()
        .map(|line| line.split(' ').nth(2).unwrap_or(""))
        .collect();
    assert_eq!(words[..6], ["00000080"; 6]);
    assert_eq!(words[6..], ["10000080"; 2]);
}
