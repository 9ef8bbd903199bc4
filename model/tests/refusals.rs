//! The refusals: each number at the first, a middle and the last datum of either list, the log
//! at each of its words, and the orders that the table decides.

mod common;
use common::{bytes, data, list};
use model::{list as reader, listing, log, words, Channel, MachineData, Refusal};

/// The place of a datum's kind 2 word in a list of whole numbers.
fn place(number: usize) -> usize {
    1 + 3 * number
}

/// A kit with this text in list A, and one with it in list B, are refused so.
fn refused(text: &str, number: u32, place: usize) {
    refused_of("", text, number, place);
}

/// [`refused`], with lists that say how many data they have.
fn refused_of(of: &str, text: &str, number: u32, place: usize) {
    let in_a = format!("list A{of}\n{text}\nlist B{of}\nlog\nboth 0 SBH");
    assert_eq!(
        list(&in_a),
        format!("refused {number} {place} A\n"),
        "{text}"
    );
    let in_b = format!("list A{of}\nlist B{of}\n{text}\nlog\nboth 0 SBH");
    assert_eq!(
        list(&in_b),
        format!("refused {number} {place} B\n"),
        "{text}"
    );
}

const FIRST_MIDDLE_LAST: [usize; 3] = [0, 25, 50];

#[test]
fn number_1_at_every_word_of_a_datum() {
    for number in FIRST_MIDDLE_LAST {
        let place = place(number);
        let before = if number == 0 {
            String::new()
        } else {
            format!("{} = lowest\n", number - 1)
        };
        // The datum's word is missing, of wrong kind, number or bits.
        refused(&format!("{before}skip {number}\nword 0x30000000"), 1, place);
        refused(
            &format!(
                "{before}skip {number}\ndatum {} form 0\npiece 0\npiece 1",
                number + 1
            ),
            1,
            place,
        );
        for bit in [2, 15, 24, 27] {
            let word = words::datum(number, 0) | 1 << bit;
            refused(
                &format!("{before}skip {number}\nword 0x{word:08x}\npiece 0\npiece 1"),
                1,
                place,
            );
        }
        // A piece is missing, of wrong kind or bits.
        for piece in 1..=2 {
            let good = "piece 0\n".repeat(piece - 1);
            for wrong in [
                "0x40000000",
                "0x30010000",
                "0x38000000",
                "0xf0000000",
                "0x20000000",
            ] {
                let text =
                    format!("{before}skip {number}\ndatum {number} form 0\n{good}word {wrong}");
                refused(&text, 1, place + piece);
            }
        }
        for piece in 1..=4 {
            let good = "piece 0\n".repeat(piece - 1);
            let text =
                format!("{before}skip {number}\ndatum {number} form 2\n{good}word 0x40000000");
            refused(&text, 1, place + piece);
        }
        // A piece too many.
        if number < 50 {
            refused(&format!("{number} = lowest\npiece 0"), 1, place + 3);
        }
    }
}

#[test]
fn numbers_2_3_4_at_the_datums_own_place() {
    for number in FIRST_MIDDLE_LAST {
        refused(&format!("{number} = open"), 2, place(number));
        for float in [
            "0.5",
            "-0.5",
            "1.5",
            "nan",
            "inf",
            "-inf",
            "1e-40",
            "134217728",
            "-134217728",
            "1e30",
        ] {
            refused(&format!("{number} = binary32 {float}"), 3, place(number));
            refused(&format!("{number} = binary64 {float}"), 3, place(number));
        }
        refused(
            &format!("{number} = binary64 1.0000000000000002"),
            3,
            place(number),
        );
        refused(&format!("{number} = lowest-1"), 4, place(number));
        refused(&format!("{number} = highest+1"), 4, place(number));
        refused(
            &format!("{number} = binary32 134_217_720"),
            4,
            place(number),
        );
        refused(
            &format!("{number} = binary64 -134_217_727"),
            4,
            place(number),
        );
    }
}

#[test]
fn every_range_end_is_taken_and_one_beyond_is_not() {
    for number in 0..72 {
        let of = match number {
            0..51 => "",
            51..67 => " of 67 data",
            67..69 => " of 69 data",
            _ => " of 72 data",
        };
        let (low, high) = model::machine_data::range(51, number);
        for value in [low, high] {
            let other_end = match number {
                11 | 13 if value == high => continue,
                12 | 14 if value == low => continue,
                _ => "",
            };
            let text = format!("lists A and B{of}\n{number} = {value}\n{other_end}");
            assert_eq!(list(&text), "", "{text}");
        }
        for value in [low - 1, high + 1] {
            refused_of(of, &format!("{number} = {value}"), 4, place(number));
        }
    }
    assert_eq!(list("lists A and B, else highest"), "");
}

#[test]
fn number_1_at_the_head() {
    for head in [
        "0x10000032",
        "0x10000034",
        "0x10000000",
        "0x18000033",
        "0x20000033",
        "0xf0000033",
    ] {
        assert_eq!(
            list(&format!("list A, head {head}\nlist B")),
            "refused 1 0 A\n"
        );
        assert_eq!(
            list(&format!("list A\nlist B, head {head}")),
            "refused 1 0 B\n"
        );
    }
    assert_eq!(list("list A, no head\nlist B"), "refused 1 0 A\n");
    assert_eq!(list("list A\nlist B, no head"), "refused 1 0 B\n");
    assert_eq!(list(""), "refused 1 0 A\n");
    assert_eq!(list("list A"), "refused 1 0 B\n");
    assert_eq!(list("remark\nlists A and B"), "refused 1 0 A\n");
}

#[test]
fn number_1_where_a_list_is_cut() {
    let whole = bytes("lists A and B");
    let words = whole.len() / 4;
    assert_eq!(words, 2 * 154);
    for cut in 0..words {
        let wanted = match cut {
            0..=153 => format!("refused 1 {cut} A\n"),
            _ => format!("refused 1 {} B\n", cut - 154),
        };
        assert_eq!(listing::list(&whole[..4 * cut]), wanted);
        assert_eq!(listing::list(&whole[..4 * cut + 1]), "refused 6 0 L\n");
    }
}

#[test]
fn number_5_comes_last_and_se1_first() {
    refused("11 = 5\n12 = 5", 5, place(11));
    refused("11 = 6\n12 = 5", 5, place(11));
    refused("13 = 5\n14 = 5", 5, place(13));
    refused("11 = 5\n12 = 5\n13 = 5\n14 = 5", 5, place(11));
    refused("11 = 5\n12 = 5\n50 = 0", 4, place(50));
    refused("11 = 5\n12 = 5\n50 = open", 2, place(50));
    refused("11 = 5\n12 = 5\n50 = binary32 0.5", 3, place(50));
    assert_eq!(list("lists A and B\n11 = 4\n12 = 5\n13 = -6\n14 = -5"), "");
    // Floats before it move its place.
    refused(
        "0 = binary64 1\n1 = binary64 2\n11 = 5\n12 = 5",
        5,
        place(11) + 4,
    );
    assert_eq!(
        list("list A\n2 = open\nlist B\n2 = 200_000"),
        "refused 2 7 A\n"
    );
}

#[test]
fn per_datum_1_then_2_then_3_then_4() {
    // Of two faulty data the first answers, whatever the numbers.
    refused("3 = 0\n4 = open", 4, place(3));
    refused("3 = open\n4 = 0", 2, place(3));
    refused("3 = binary32 0.5\n4 = open", 3, place(3));
    refused("3 = 0\nskip 4\nword 0x20040004", 4, place(3));
    // An open datum of wrong bits is a wrong word.
    refused("2 = lowest\nskip 3\nword 0x20030007", 1, place(3));
    // A float that is neither whole nor in range stands for no whole number.
    refused("3 = binary64 1e12", 3, place(3));
    refused("3 = binary32 -0.5", 3, place(3));
    // A wrong second piece of a value out of range.
    refused("3 = -1\ncut 1 word\nword 0x3001ffff", 1, place(3) + 2);
}

#[test]
fn number_6_at_every_word_of_a_record() {
    let lists = bytes("lists A and B");
    let record = bytes("both 5 SBH");
    for before in [0, 1, 3] {
        for wrong in 0..7 {
            let mut kit = [lists.clone(), record.repeat(before + 1), record.clone()].concat();
            let place = 7 * before + wrong;
            for kind in 0..16_u8 {
                let at = lists.len() + 4 * place;
                let right = record[4 * wrong] >> 4;
                // A remark at the front only makes the next word wrong.
                if kind == right || kind == 15 && wrong == 0 {
                    continue;
                }
                kit[at] = kind << 4;
                assert_eq!(listing::list(&kit), format!("refused 6 {place} L\n"));
            }
        }
        for missing in 1..7 {
            let kit = [
                lists.clone(),
                record.repeat(before),
                record[..4 * missing].to_vec(),
            ]
            .concat();
            assert_eq!(
                listing::list(&kit),
                format!("refused 6 {} L\n", 7 * before + missing)
            );
        }
    }
}

#[test]
fn remarks_between_records_only() {
    let lists = "lists A and B\nlog\n";
    let one = "1 00000080 00000080 1\n";
    let two = "1 00000080 00000080 1\n2 00000080 00000080 1\n";
    assert_eq!(
        list(&format!("{lists}remark 0xfffffff\nboth 0 SBH\nremark")),
        one
    );
    assert_eq!(
        list(&format!(
            "{lists}both 0 SBH\nremark 1\nremark 2\nboth 0 SBH"
        )),
        two
    );
    let words = [
        "position 0",
        "lower 0",
        "upper 0",
        "position 0",
        "lower 0",
        "upper 0",
        "end",
    ];
    for inside in 1..7 {
        let (front, back) = words.split_at(inside);
        let text = format!(
            "{lists}remark\nboth 0 SBH\n{}\nremark\n{}",
            front.join("\n"),
            back.join("\n")
        );
        assert_eq!(list(&text), format!("refused 6 {} L\n", 8 + inside));
    }
    assert_eq!(list(&format!("{lists}remark times 16076")), "");
    assert_eq!(
        list(&format!("{lists}remark times 16077")),
        "refused 6 0 L\n"
    );
}

#[test]
fn the_kits_size() {
    let most = (16_384 - 308) / 7;
    let text = format!("lists A and B\nlog\nboth 0 SBH times {most}\nremark times 4");
    let kit = bytes(&text);
    assert_eq!(kit.len(), 65_536);
    let lines = listing::list(&kit);
    assert_eq!(lines.lines().count(), most);
    assert_eq!(
        lines.lines().last(),
        Some(format!("{most} 00000080 00000080 1").as_str())
    );
    assert_eq!(list(&format!("{text}\nremark")), "refused 6 0 L\n");
    for surplus in 1..4 {
        assert_eq!(
            list(&format!("lists A and B\nlog\nbyte 0 times {surplus}")),
            "refused 6 0 L\n"
        );
    }
}

#[test]
fn numbers_6_and_7_leave_output_and_channels_as_they_were() {
    let fresh = Channel::fresh(data(&[(1, 31), (28, 5)]));
    let record = words::record((7, 2), (8, 2), true);
    let two: Vec<u32> = [record, record].concat();
    let refused = |log: &[u32], size: usize, number: u32, place: usize| {
        let (mut a, mut b) = (fresh, fresh);
        let mut out = vec![77; size];
        let answer = log::run(&mut a, &mut b, log, &mut out);
        assert_eq!(answer, Err(Refusal { number, place }));
        assert_eq!((a, b), (fresh, fresh));
        assert!(out.iter().all(|&word| word == 77));
    };
    for size in 0..6 {
        refused(&two, size, 7, 6);
    }
    // 6 before 7, and length before all.
    refused(&two[..13], 0, 6, 13);
    refused(&vec![0; 16_385], 0, 6, 16_384);
    refused(&vec![0; 16_384], 0, 6, 0);
    refused(&vec![words::remark(0); 16_385], 0, 6, 16_384);
    // Words behind the wanted ones are not touched; no cycle wants none.
    let (mut a, mut b) = (fresh, fresh);
    let mut out = [77; 8];
    assert_eq!(log::run(&mut a, &mut b, &two, &mut out), Ok(2));
    assert_eq!(out[6..], [77, 77]);
    assert_ne!(a, fresh);
    let (mut a, mut b) = (fresh, fresh);
    assert_eq!(log::run(&mut a, &mut b, &[], &mut []), Ok(0));
    assert_eq!(
        log::run(&mut a, &mut b, &vec![words::remark(9); 16_384], &mut []),
        Ok(0)
    );
    assert_eq!((a, b), (fresh, fresh));
    // The longest log: 2,340 records and 4 remarks.
    let mut longest = record.repeat(2_340);
    longest.extend([words::remark(1); 4]);
    assert_eq!(longest.len(), log::LONGEST);
    let mut out = vec![0; 7_020];
    assert_eq!(log::run(&mut a, &mut b, &longest, &mut out), Ok(2_340));
}

#[test]
fn a_list_hands_on_the_words_behind_it() {
    let kit = bytes("list A\n0 = binary64 12\n1 = binary32 31\nlist B\nlog\nboth 0 SBH");
    let words: Vec<u32> = kit
        .chunks(4)
        .map(|b| u32::from_be_bytes([b[0], b[1], b[2], b[3]]))
        .collect();
    let (a, behind) = reader::read(&words).expect("list A");
    assert_eq!((a.get(0), a.get(1), behind), (12, 31, 156));
    let (b, behind_b) = reader::read(&words[behind..]).expect("list B");
    assert_eq!((b, behind_b), (MachineData::lowest(51), 154));
    assert_eq!(words.len(), 156 + 154 + 7);
}

#[test]
fn minus_zero_stands_for_0() {
    assert_eq!(list("lists A and B\n1 = binary32 -0\n2 = binary64 -0"), "");
    assert_eq!(list("lists A and B\n1 = binary32 0x80000000"), "");
    assert_eq!(list("list A\n0 = binary32 -0\nlist B"), "refused 4 1 A\n");
}
