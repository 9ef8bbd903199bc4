//! One rule at a time: kits whose words were worked out by hand from document 01.

mod common;
use common::list;

/// Under these data (T is 12, both lists alike) each record, A's and B's alike, gives this word.
fn rule(data: &str, records: &[(&str, u32)]) {
    let mut text = format!("lists A and B\n0 = 12\n{}\nlog\n", data.replace(';', "\n"));
    let mut wanted = String::new();
    for (index, (record, word)) in records.iter().enumerate() {
        text.push_str(&format!("both {record}\n"));
        let rank = word >> 24 & 7;
        let device = rank << 1 | u32::from(rank < 5);
        wanted.push_str(&format!("{} {word:08x} {word:08x} {device:x}\n", index + 1));
    }
    assert_eq!(list(&text), wanted, "{text}");
}

#[test]
fn each_sg_has_its_own_limit_stop_and_bits() {
    let data = "1 = 1; 3 = 1000; 4 = 2000; 5 = 3000; 6 = 4000; 7 = 1; 8 = 2; 9 = 3; 10 = 4; 29..32 = 9; 35..50 = 100";
    rule(
        data,
        &[("0 SG1", 0x81), ("200 SG1", 0x81), ("401 SG1", 0x0100_0081)],
    );
    rule(
        data,
        &[
            ("0 SG2", 0x0008_0081),
            ("-400 SG2", 0x0008_0081),
            ("1 SG2", 0x0208_0081),
        ],
    );
    rule(
        data,
        &[
            ("0 SG3", 0x0010_0081),
            ("600 SG3", 0x0010_0081),
            ("1201 SG3", 0x0310_0081),
        ],
    );
    rule(
        data,
        &[
            ("0 SG4", 0x0018_0081),
            ("800 SG4", 0x0018_0081),
            ("-1 SG4", 0x0418_0081),
        ],
    );
    rule(
        "1 = 1; 3 = 1000; 7 = 5",
        &[("0 SG1", 0x81), ("201 SG1", 0x0500_0085)],
    );
}

#[test]
fn the_override_applies_to_sg2_and_sg4_only() {
    let data = "1 = 1; 3..6 = 2000; 7..10 = 3; 29 = 9; 35 = 100; 36 = 50; 50 = 1";
    rule(
        data,
        &[("0 SG1 override 1", 0x81), ("400 SG1 override 1", 0x81)],
    );
    rule(
        data,
        &[
            ("0 SG3 override 15", 0x0010_0081),
            ("400 SG3 override 15", 0x0010_0081),
        ],
    );
    rule(
        data,
        &[
            ("0 SG2 override 1", 0x0008_0081),
            ("200 SG2 override 1", 0x0008_0081),
            ("401 SG2 override 1", 0x0308_0081),
        ],
    );
    rule(
        data,
        &[
            ("0 SG4 override 15", 0x0018_0081),
            ("4 SG4 override 15", 0x0018_0081),
            ("9 SG4 override 15", 0x0318_0081),
        ],
    );
}

#[test]
fn t_counts_in_every_speed() {
    // 5 ms: 2000 × 100 × 5 / 6000 = 166.67; nx 100 × 5 / 60 = 8.33; 60 × 5 / 60 = 5.
    let data = "1 = 9; 3 = 2000; 7 = 3; 25 = 100; 29 = 9";
    let text = |log: &str| {
        list(&format!(
            "lists A and B\n0 = 5\n{}\nlog\n{log}",
            data.replace(';', "\n")
        ))
    };
    assert_eq!(
        text("both 0 SG1\nboth 166 SG1\nboth 174 SG1\nboth 183 SG1\nboth 350 SG1"),
        "\
1 00200081 00200081 1
2 00000081 00000081 1
3 00200081 00200081 1
4 00000081 00000081 1
5 03000081 03000081 7
"
    );
    let data = "1 = 1; 2 = 0; 32 = 9; 33 = 60";
    let text = |log: &str| {
        list(&format!(
            "lists A and B\n0 = 5\n{}\nlog\n{log}",
            data.replace(';', "\n")
        ))
    };
    assert_eq!(
        text("both 0 SBH\nboth 5 SBH\nboth 9 SBH"),
        "\
1 00000081 00000081 1
2 04000081 04000081 9
3 05000085 05000085 a
"
    );
}

#[test]
fn bit_12_chooses_se2() {
    let data = "1 = 2; 11 = -10; 12 = 20; 13 = -5; 14 = 6; 15 = 2; 30 = 9";
    for (position, se1, se2) in [
        (20, 0x80, 0x0200_0080),
        (21, 0x0200_0080, 0x0200_0080),
        (6, 0x80, 0x80),
        (7, 0x80, 0x0200_0080),
    ] {
        rule(data, &[(&format!("{position} SBH"), se1)]);
        rule(data, &[(&format!("{position} SBH SE2"), se2)]);
    }
    for (position, se1, se2) in [
        (-10, 0x80, 0x0200_0080),
        (-11, 0x0200_0080, 0x0200_0080),
        (-5, 0x80, 0x80),
        (-6, 0x80, 0x0200_0080),
    ] {
        rule(data, &[(&format!("{position} SBH"), se1)]);
        rule(data, &[(&format!("{position} SBH SE2"), se2)]);
    }
    rule(
        "1 = 29; 11 = -10; 12 = 20; 27 = 9",
        &[("21 off no-stop", 0x0000_ff80)],
    );
}

#[test]
fn external_stops_by_0_with_their_own_rank() {
    let data = "1 = 16; 29..32 = 9";
    rule(data, &[("0 no-stop", 0x80)]);
    rule(data, &[("0 stop-A", 0x0500_0084)]);
    rule(data, &[("0 stop-C", 0x0300_0080)]);
    rule(data, &[("0 stop-D", 0x0200_0080)]);
    rule(data, &[("0 stop-E", 0x0100_0080)]);
    rule(data, &[("0 stop-D stop-E", 0x0200_0080)]);
    rule(data, &[("0 stop-C stop-D stop-E", 0x0300_0080)]);
    rule(data, &[("0 SBH", 0x0500_0084)]);
    rule("1 = 15", &[("0 off", 0x0000_ff80)]);
}

#[test]
fn times_of_the_stops_and_the_hold() {
    let data = "1 = 16; 2 = 3; 29 = 1; 30 = 2; 31 = 3; 32 = 2";
    rule(
        data,
        &[
            ("0 stop-C", 0x0300_0080),
            ("5 no-stop", 0x0b00_0080),
            ("8 no-stop", 0x0b00_0080),
            ("2 no-stop", 0x0b00_0080),
            ("9 no-stop", 0x0400_0080),
            ("9 no-stop", 0x0400_0080),
            ("9 no-stop", 0x0500_0084),
        ],
    );
    rule(
        data,
        &[
            ("0 stop-D", 0x0200_0080),
            ("0 no-stop", 0x0200_0080),
            ("7 no-stop", 0x0a00_0080),
            ("3 no-stop", 0x0400_0080),
        ],
    );
    rule(
        data,
        &[
            ("0 stop-E", 0x0100_0080),
            ("0 stop-E", 0x0100_0080),
            ("0 stop-E", 0x0100_0080),
            ("0 stop-E", 0x0900_0080),
        ],
    );
    // A stronger stop takes over with its own time, a weaker one does not.
    rule(
        data,
        &[
            ("0 stop-E", 0x0100_0080),
            ("0 stop-D", 0x0200_0080),
            ("0 stop-E", 0x0200_0080),
            ("0 no-stop", 0x0a00_0080),
            ("0 stop-C", 0x0300_0080),
            ("0 stop-C", 0x0b00_0080),
        ],
    );
}

#[test]
fn an_acknowledgement_clears_without_a_fresh_cause_only() {
    let data = "1 = 16; 29 = 0";
    rule(
        data,
        &[
            ("0 stop-C ack", 0x0b00_0080),
            ("0 stop-C ack", 0x0b00_0080),
            ("0 no-stop", 0x0b00_0080),
            ("0 no-stop ack", 0x80),
            ("0 no-stop", 0x80),
        ],
    );
    rule(
        data,
        &[
            ("0 stop-A", 0x0500_0084),
            ("0 no-stop", 0x0500_0084),
            ("0 no-stop ack", 0x80),
        ],
    );
    rule(
        data,
        &[("0 bit 2 ack", 0x0500_0084), ("0 no-stop ack", 0x80)],
    );
}

#[test]
fn unusable_forgets_the_previous_position_and_keeps_the_rest() {
    // A hold ends in rank 5; the SBH reference is kept.
    rule(
        "1 = 16; 2 = 3; 29 = 0",
        &[
            ("0 stop-C", 0x0b00_0080),
            ("0 bit 5", 0x0500_0084),
            ("9 no-stop ack", 0x80),
        ],
    );
    let data = "1 = 1; 2 = 10; 32 = 9";
    rule(
        data,
        &[
            ("0 SBH", 0x81),
            ("0 bit 27", 0x0500_0085),
            ("10 SBH ack", 0x81),
            ("11 SBH", 0x0400_0081),
        ],
    );
    // No step is seen over an unusable cycle.
    let data = "1 = 9; 3 = 2000; 25 = 1";
    rule(
        data,
        &[
            ("0 SG1", 0x0020_0081),
            ("-100_000_001 SG1", 0x0500_0085),
            ("9999 SG1 ack", 0x0020_0081),
        ],
    );
}

#[test]
fn the_sbh_reference_is_taken_when_sbh_becomes_effective() {
    let data = "1 = 1; 2 = 10; 3 = 1_000_000; 27 = 2; 32 = 9";
    rule(
        data,
        &[
            ("0 SG1", 0x81),
            ("100 SBH", 0x81),
            ("150 SBH", 0x81),
            ("200 SBH", 0x81),
            ("210 SBH", 0x81),
            ("211 SBH", 0x0400_0081),
        ],
    );
    rule(
        data,
        &[
            ("0 SBH", 0x81),
            ("5 SG1", 0x81),
            ("40 SBH", 0x81),
            ("40 SBH", 0x81),
            ("50 SBH", 0x81),
            ("40 SBH", 0x81),
            ("39 SBH", 0x0400_0081),
        ],
    );
}

#[test]
fn a_lower_selection_waits_and_the_present_one_binds() {
    let data = "1 = 1; 3 = 4000; 4 = 3000; 5 = 2000; 6 = 1000; 27 = 3; 35..50 = 100";
    // SG2, then SG4, then SG3: the count is not set anew, and SG3 binds.
    rule(
        data,
        &[
            ("0 SG1", 0x81),
            ("0 SG2", 0x81),
            ("0 SG4", 0x81),
            ("0 SG4", 0x81),
            ("0 SG3", 0x0010_0081),
        ],
    );
    // No stricter than the effective one: the count ends, and begins anew.
    rule(
        data,
        &[
            ("0 SG1", 0x81),
            ("0 SG2", 0x81),
            ("0 SG2", 0x81),
            ("0 off", 0x80),
            ("0 SG2", 0x80),
            ("0 SG2", 0x80),
            ("0 SG2", 0x80),
            ("0 SG2", 0x0008_0081),
        ],
    );
    // A less strict one is effective at once.
    rule(
        data,
        &[
            ("0 SBH", 0x81),
            ("0 SG4", 0x0018_0081),
            ("0 SG1", 0x81),
            ("0 off", 0x80),
        ],
    );
    // The first is effective at once, whatever it is.
    rule(data, &[("0 SG4", 0x0018_0081)]);
}

#[test]
fn f_by_positions_leads_to_b() {
    let text = "lists A and B\n0 = 12\n1 = 2\n26 = 5\n32 = 1\n34 = 2\nlog\n";
    let log = "A 0 SBH, B 5 SBH\nA 0 SBH, B -6 SBH\nboth 0 SBH times 4\nboth 0 SBH ack";
    assert_eq!(
        list(&format!("{text}{log}")),
        "\
1 00000080 00000080 1
2 10000080 10000080 1
3 10000080 10000080 1
4 14000080 14000080 9
5 15000084 15000084 a
6 15000084 15000084 a
7 00000080 00000080 1
"
    );
    // With SE off nothing is active: F alone.
    let idle = list(&format!("{text}{log}").replace("1 = 2", "1 = 0"));
    let expected = [0, 1, 1, 1, 1, 1, 0].into_iter().zip(1..);
    let expected = expected.map(|(f, cycle)| format!("{cycle} {f}0000080 {f}0000080 1\n"));
    assert_eq!(idle, expected.collect::<String>());
}

#[test]
fn f_by_the_datum_in_its_turn() {
    // Datum 50 is compared in cycle 51, datum 0 in cycle 52.
    let list_b = |number: usize| {
        format!(
            "list A\n0 = 12\n34 = 9\nlist B, else as A\n{number} = 2\nlog\nboth 0 SBH times 52\n"
        )
    };
    for (number, first) in [(50, 51), (0, 1), (1, 2), (49, 50)] {
        let lines = list(&list_b(number));
        let set = lines
            .lines()
            .position(|line| line.contains(" 10000080 10000080 "));
        assert_eq!(set, Some(first - 1), "datum {number}");
    }
    let text = "list A\n0 = 12\n34 = 1000\nlist B, else as A\n0 = 13\nlog\nboth 0 SBH\nboth 0 SBH ack\nboth 0 SBH times 50";
    let lines = list(text);
    let words = lines.lines().map(|line| line.split(' ').nth(1));
    let set = words
        .enumerate()
        .filter(|(_, word)| *word == Some("10000080"));
    let set: Vec<usize> = set.map(|(cycle, _)| cycle).collect();
    assert_eq!(set, [0, 51]);
}

#[test]
fn f_by_inputs_counts_cycles_running() {
    let text = "lists A and B\n0 = 12\n28 = 1\n34 = 9\nlog\n";
    let log = "A 0 SBH, B 0 SG1\nboth 0 SG1\nA 0 SBH, B 0 0x80000000\nA 0 SBH, B 0 SG2";
    assert_eq!(
        list(&format!("{text}{log}")),
        "\
1 00000080 00000080 1
2 00000080 00000080 1
3 00000080 00000080 1
4 10000080 10000080 1
"
    );
}

#[test]
fn each_cam_has_its_edge_and_tolerance() {
    let data =
        "1 = 4; 16 = 10; 17 = 20; 18 = 30; 19 = 40; 20 = -10; 21 = -20; 22 = -30; 23 = -40; 24 = 5";
    // From below: a signal rises above edge + 5.
    rule(
        data,
        &[
            ("-50 SBH", 0x80),
            ("-34 SBH", 0x8080),
            ("0 SBH", 0xf080),
            ("15 SBH", 0xf080),
            ("16 SBH", 0xf180),
            ("46 SBH", 0xff80),
        ],
    );
    // From above: it falls below the edge.
    rule(
        data,
        &[
            ("99 SBH", 0xff80),
            ("40 SBH", 0xff80),
            ("39 SBH", 0xf780),
            ("20 SBH", 0xf380),
            ("19 SBH", 0xf180),
            ("9 SBH", 0xf080),
            ("-40 SBH", 0x8080),
            ("-41 SBH", 0x80),
        ],
    );
    rule("1 = 0; 24 = 5", &[("0 SBH", 0x80)]);
}

#[test]
fn n_below_nx() {
    // nx 50 × 12 / 60 = 10.
    let data = "1 = 8; 25 = 50";
    rule(
        data,
        &[
            ("0 SBH", 0x0020_0080),
            ("10 SBH", 0x80),
            ("19 SBH", 0x0020_0080),
            ("9 SBH", 0x80),
            ("0 SBH", 0x0020_0080),
        ],
    );
    rule("1 = 8; 25 = 0", &[("0 SBH", 0x80)]);
    rule("1 = 23; 25 = 50", &[("0 SBH no-stop", 0xff81)]);
}

#[test]
fn shutdown_speed_takes_b_to_a() {
    // 50 × 12 / 60 = 10.
    let data = "1 = 1; 2 = 5; 32 = 9; 33 = 50";
    rule(
        data,
        &[
            ("0 SBH", 0x81),
            ("10 SBH", 0x0400_0081),
            ("20 SBH", 0x0400_0081),
            ("11 SBH", 0x0500_0085),
        ],
    );
    rule(data, &[("0 SBH", 0x81), ("-9 SBH", 0x0500_0085)]);
}

#[test]
fn selection_by_bits_0_and_1() {
    let data = "1 = 1; 27 = 0";
    rule(
        data,
        &[
            ("0 off", 0x80),
            ("0 off SG4", 0x80),
            ("0 SBH bit 3 bit 4", 0x81),
            ("0 SG4", 0x0018_0081),
        ],
    );
    rule("1 = 30", &[("0 SG4 no-stop", 0xff80)]);
}

#[test]
fn the_device_takes_the_greater_rank() {
    let text =
        "list A\n0 = 12\n1 = 16\n29..31 = 9\nlist B, else as A\nlog\nA 0 stop-E, B 0 no-stop\n";
    let lines = list(&format!(
        "{}A 0 no-stop, B 0 stop-C",
        text.replace("29..31", "28 = 5\n29..31")
    ));
    assert_eq!(lines, "1 01000080 00000080 3\n2 01000080 03000080 7\n");
}
