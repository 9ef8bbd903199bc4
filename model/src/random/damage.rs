//! Damage at every layer: heads, forms, pieces, floats, ranges, ends, records, remarks, cuts.

use super::{binary32, binary64, whole, Parts, Xorshift};
use crate::machine_data::{range, HEADS};
use crate::words;

/// The bytes of a kit with one damage, or now and then with more.
pub fn damage(random: &mut Xorshift, mut parts: Parts) -> Vec<u8> {
    for _ in 0..random.pick(&[1, 1, 1, 1, 2, 3]) {
        match random.below(25) {
            0 => damage_head(random, &mut parts),
            1..=12 => damage_datum(random, &mut parts),
            13 | 14 => cross_se(random, &mut parts),
            15..=19 => damage_log(random, &mut parts),
            20 | 21 => resize(random, &mut parts),
            22 => return cut(random, &parts),
            _ => return damage_bytes(random, parts.bytes()),
        }
    }
    parts.bytes()
}

/// One of the two lists, A or B.
fn either_list<'a>(random: &mut Xorshift, parts: &'a mut Parts) -> &'a mut Vec<Vec<u32>> {
    match random.percent(50) {
        true => &mut parts.list_a,
        false => &mut parts.list_b,
    }
}

fn damage_head(random: &mut Xorshift, parts: &mut Parts) {
    let (head, list) = match random.percent(50) {
        true => (&mut parts.head_a, &mut parts.list_a),
        false => (&mut parts.head_b, &mut parts.list_b),
    };
    let right = words::head(list.len());
    let other = words::head(random.pick(&HEADS));
    *head = match random.below(10) {
        0 => vec![],
        1 => vec![right + 1],
        2 => vec![right - 1],
        3 => vec![right | 1 << random.between(7, 27)],
        4 => vec![right ^ 1 << random.between(28, 31)],
        5 => vec![words::remark(51), right],
        6 => vec![right, right],
        7 => vec![other],
        8 => vec![words::head(
            random.pick(&[0, 50, 52, 59, 60, 65, 66, 68, 70, 71, 73, 255]),
        )],
        _ => {
            // A list of as many data as another head says.
            let count = random.pick(&[50, 52, 60, 66, 68, 70, 71, 73]);
            let last = list.last().cloned().unwrap_or_default();
            list.truncate(count);
            for number in list.len()..count {
                let mut datum = last.clone();
                if let Some(word) = datum.first_mut() {
                    *word = words::datum(number, *word & 3);
                }
                list.push(datum);
            }
            vec![words::head(count)]
        }
    };
}

/// The rows of the machine data, first and last datum of each.
const ROWS: [(i64, i64); 23] = [
    (0, 0),
    (1, 1),
    (2, 2),
    (3, 6),
    (7, 10),
    (11, 14),
    (15, 15),
    (16, 23),
    (24, 24),
    (25, 25),
    (26, 26),
    (27, 28),
    (29, 32),
    (33, 33),
    (34, 34),
    (35, 50),
    (51, 58),
    (59, 66),
    (67, 67),
    (68, 68),
    (69, 69),
    (70, 70),
    (71, 71),
];

/// The number of a datum: its row first, so that each row has its turn.
fn datum_number(random: &mut Xorshift) -> usize {
    let (first, last) = random.pick(&ROWS);
    match random.below(4) {
        0 => random.pick(&[
            0, 1, 1, 49, 50, 50, 51, 65, 66, 66, 67, 68, 68, 69, 70, 71, 71,
        ]),
        _ => random.between(first, last) as usize,
    }
}

fn damage_datum(random: &mut Xorshift, parts: &mut Parts) {
    let number = datum_number(random);
    let list = either_list(random, parts);
    let (low, high) = range(list.len(), number);
    let Some(datum) = list.get_mut(number).filter(|datum| !datum.is_empty()) else {
        return;
    };
    match random.below(29) {
        0 => datum[0] ^= 1 << random.between(0, 31),
        1 => datum[0] ^= random.pick(&[1 << 2, 1 << 15, 1 << 16, 1 << 24, 1 << 27, 1 << 28]),
        2 => datum[0] = words::datum(number, random.below(4) as u32),
        3 => *datum = vec![words::datum(number, 3)],
        4 => datum[0] |= 3,
        5 => *datum = vec![words::datum(number, 3) | random.pick(&[4, 1 << 15, 1 << 16, 1 << 26])],
        6 => {
            let piece = random.below(datum.len());
            datum[piece] ^= 1 << random.between(16, 31);
        }
        7 => {
            let place = random.below(datum.len());
            datum.remove(place);
        }
        8 => datum.push(words::piece(random.next() as u32)),
        9 => {
            let place = random.below(datum.len() + 1);
            datum.insert(place, words::remark(random.next() as u32));
        }
        10..=15 => *datum = whole(number, random.pick(&[low - 1, high + 1])),
        16 => *datum = whole(number, far(random)),
        17 => *datum = binary32(number, (random.pick(&[low - 1, high + 1]) as f32).to_bits()),
        18 => {
            *datum = binary64(
                number,
                f64::from(random.pick(&[low - 1, high + 1])).to_bits(),
            )
        }
        19..=21 => {
            *datum = binary32(number, odd_single(random, low));
            surplus(random, datum);
        }
        22..=25 => {
            *datum = binary64(number, odd_double(random, low));
            surplus(random, datum);
        }
        26 => {
            *datum = whole(number, low - 1);
            surplus(random, datum);
        }
        27 => {
            let place = random.below(datum.len());
            datum[place] = random.pick(&words::record((0, 0), (0, 0), false));
        }
        _ => {
            *datum = whole(number, high + 1);
            let piece = random.between(1, 2) as usize;
            datum[piece] ^= 1 << random.between(16, 31);
        }
    }
}

/// Now and then a piece too many.
fn surplus(random: &mut Xorshift, datum: &mut Vec<u32>) {
    if random.percent(20) {
        datum.push(words::piece(0));
    }
}

/// A whole number far out of every range.
fn far(random: &mut Xorshift) -> i32 {
    let any = random.next() as i32;
    random.pick(&[
        i32::MIN,
        i32::MAX,
        134_217_727,
        134_217_728,
        -134_217_727,
        -134_217_728,
        any,
    ])
}

/// A binary32 that stands for no whole number, or hardly does.
fn odd_single(random: &mut Xorshift, low: i32) -> u32 {
    let any = random.next() as u32;
    match random.below(6) {
        0 => (low as f32 + 0.5).to_bits(),
        1 => (low as f32 + 0.25).to_bits(),
        2 => random.pick(&[
            0x7f80_0000,
            0xff80_0000,
            0x7fc0_0000,
            0xffff_ffff,
            0x7f80_0001,
        ]),
        3 => random.pick(&[1, 0x8000_0001, 0x007f_ffff, 0x0080_0000, 0x8000_0000]),
        4 => random
            .pick(&[
                134_217_728.0_f32,
                -134_217_728.0,
                134_217_720.0,
                1e30,
                -1e30,
            ])
            .to_bits(),
        _ => any,
    }
}

/// A binary64 that stands for no whole number, or hardly does.
fn odd_double(random: &mut Xorshift, low: i32) -> u64 {
    let any = random.next();
    let low = f64::from(low);
    match random.below(8) {
        0 => (low + 0.5).to_bits(),
        1 => (low + random.pick(&[1e-9, 0.4, 0.6, -0.1])).to_bits(),
        2 => (low.to_bits()).wrapping_add(1),
        3 => random.pick(&[
            0x7ff0 << 48,
            0xfff0 << 48,
            0x7ff8 << 48,
            u64::MAX,
            (0x7ff0 << 48) + 1,
        ]),
        4 => random.pick(&[1, 1 << 63 | 1, 0x000f << 48, 1 << 52, 1 << 63]),
        5 => random
            .pick(&[
                134_217_727.0_f64,
                -134_217_727.0,
                134_217_728.0,
                -134_217_728.0,
            ])
            .to_bits(),
        6 => random
            .pick(&[
                134_217_727.5_f64,
                134_217_726.0,
                16_777_217.0,
                1e300,
                -1e-300,
            ])
            .to_bits(),
        _ => any,
    }
}

/// An SE minus at or above its plus, and perhaps a later fault.
fn cross_se(random: &mut Xorshift, parts: &mut Parts) {
    let list = either_list(random, parts);
    let Some(last) = list.len().checked_sub(1).filter(|&last| last >= 50) else {
        return;
    };
    for minus in random.pick(&[&[11][..], &[13], &[11, 13]]).iter().copied() {
        let plus = random.between(-1000, 1000) as i32;
        list[minus] = whole(minus, plus + random.pick(&[0, 0, 1, 500]));
        list[minus + 1] = whole(minus + 1, plus);
    }
    match random.below(8) {
        0 => list[last] = whole(last, 1001),
        1 => list[random.between(15, last as i64) as usize].push(words::piece(0)),
        2 => list[40] = vec![words::datum(40, 3)],
        3 => list[last] = vec![words::datum(last, 3)],
        _ => (),
    }
}

pub fn damage_log(random: &mut Xorshift, parts: &mut Parts) {
    let log = &mut parts.log;
    if log.is_empty() {
        log.push(words::record((0, 0), (0, 0), false).to_vec());
    }
    let any = random.below(log.len());
    let record = random.pick(&[0, log.len() - 1, any]);
    let words = &mut log[record];
    if words.is_empty() {
        return;
    }
    let place = random.below(words.len());
    match random.below(12) {
        0 => words[place] ^= 1 << random.between(28, 31),
        1 | 2 => words[place] ^= 1 << random.between(16, 27),
        3 => {
            words.remove(place);
        }
        4 | 5 => words.insert(place, words::remark(random.next() as u32)),
        6 => words.insert(place, random.next() as u32),
        7 => words.truncate(place),
        8 => {
            words.truncate(place);
            log.truncate(record + 1);
        }
        9 => words[place] = random.next() as u32,
        10 => {
            let other = random.below(words.len());
            words.swap(place, other);
        }
        _ => {
            if let Some(end) = words.get_mut(6) {
                *end |= 1 << random.between(1, 27);
            }
        }
    }
}

/// A kit of its largest size, a word or a byte beside it, or with surplus bytes.
fn resize(random: &mut Xorshift, parts: &mut Parts) {
    let largest = crate::listing::LARGEST;
    let wanted = random.pick(&[
        largest,
        largest,
        largest,
        largest + 4,
        largest - 4,
        largest + 1,
        largest + 400,
        0,
        0,
        0,
    ]);
    let mut missing = wanted.saturating_sub(parts.bytes().len());
    if let Some(record) = parts.log.iter().find(|words| words.len() == 7).cloned() {
        let records = random.pick(&[0, 0, 0, missing / 28, missing / 56]);
        parts.log.extend(vec![record; records]);
        missing -= 28 * records;
    }
    parts
        .log
        .push(vec![words::remark(random.next() as u32); missing / 4]);
    let surplus = if wanted == 0 {
        random.between(1, 3) as usize
    } else {
        missing % 4
    };
    parts.tail = (0..surplus).map(|_| random.next() as u8).collect();
}

/// A kit that has no word, or ends just behind a head or a list.
fn cut(random: &mut Xorshift, parts: &Parts) -> Vec<u8> {
    let words = |list: &[Vec<u32>]| list.iter().map(Vec::len).sum::<usize>();
    let lengths = [
        0,
        parts.head_a.len(),
        words(&parts.list_a),
        parts.head_b.len(),
        words(&parts.list_b),
    ];
    let kept: usize = lengths.iter().take(1 + random.below(lengths.len())).sum();
    let mut bytes = parts.bytes();
    bytes.truncate(4 * kept);
    bytes
}

/// Bytes turned, cut off or put in.
fn damage_bytes(random: &mut Xorshift, mut bytes: Vec<u8>) -> Vec<u8> {
    if bytes.is_empty() {
        return bytes;
    }
    let place = random.below(bytes.len());
    match random.below(6) {
        0 | 1 => bytes[place] ^= 1 << random.below(8),
        2 => bytes.truncate(place),
        3 | 4 => bytes.truncate(place / 4 * 4),
        _ => {
            let word = random.next() as u32;
            let at = place / 4 * 4;
            bytes.splice(at..at, word.to_be_bytes());
        }
    }
    bytes
}
