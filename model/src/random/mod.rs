//! Seeded random kits with structure: valid ones, steered by the model so that every rule has
//! its turn, and damaged ones, at every layer. Lists of calls likewise.

mod calls;
mod damage;
mod drive;
mod layers;
mod reached;

pub use calls::{calls, Answer, Call, Channels, ReachedCalls, CHANNELS};
pub use reached::Reached;

use crate::machine_data::{lowest, range, HEADS};
use crate::words;

/// A seeded xorshift.
#[derive(Clone, Debug)]
pub struct Xorshift(u64);

impl Xorshift {
    /// Any seed will do; neighbouring ones give unlike sequences.
    pub fn new(seed: u64) -> Xorshift {
        let mixed = (seed ^ 0x5851_f42d_4c95_7f2d).wrapping_mul(0x9e37_79b9_7f4a_7c15);
        let mut random = Xorshift((mixed ^ mixed >> 29).max(1));
        random.next();
        random.next();
        random
    }

    /// The next 64 bits.
    #[allow(clippy::should_implement_trait)]
    pub fn next(&mut self) -> u64 {
        self.0 ^= self.0 << 13;
        self.0 ^= self.0 >> 7;
        self.0 ^= self.0 << 17;
        self.0.wrapping_mul(0x2545_f491_4f6c_dd1d)
    }

    /// A number from 0 to one below the end.
    pub fn below(&mut self, end: usize) -> usize {
        ((self.next() >> 32) as usize) % end.max(1)
    }

    /// A number between these, both included.
    pub fn between(&mut self, low: i64, high: i64) -> i64 {
        let width = high.saturating_sub(low).max(0) as u64 + 1;
        low + (self.next() >> 8).checked_rem(width).unwrap_or(0) as i64
    }

    /// Whether a thing of so many percent happens.
    pub fn percent(&mut self, percent: usize) -> bool {
        self.below(100) < percent
    }

    /// One of these.
    pub fn pick<T: Copy>(&mut self, of: &[T]) -> T {
        of[self.below(of.len())]
    }
}

/// The structured kit of a seed: about two in three are accepted.
pub fn kit(seed: u64) -> Vec<u8> {
    let mut random = Xorshift::new(seed);
    let parts = parts(&mut random, None);
    if random.percent(64) {
        parts.bytes()
    } else {
        damage::damage(&mut random, parts)
    }
}

/// The valid kit of a seed with a log of so many cycles: a shorter one is its front.
pub fn kit_of(seed: u64, cycles: usize) -> Vec<u8> {
    parts(&mut Xorshift::new(seed), Some(cycles)).bytes()
}

/// Random bytes: whole words or not, of any kinds or mostly of those of lists and logs.
pub fn bytes(seed: u64) -> Vec<u8> {
    let mut random = Xorshift::new(seed);
    let length = random.pick(&[0, 1, 3, 4, 8, 40, 400, 1500]);
    let mut bytes: Vec<u8> = (0..length).map(|_| random.next() as u8).collect();
    if random.percent(60) {
        bytes.truncate(bytes.len() / 4 * 4);
    }
    if random.percent(60) {
        for first in bytes.iter_mut().step_by(4) {
            *first = random.pick(&[0x10, 0x20, 0x30, 0x40, 0x50, 0x60, 0x70, 0xf0]);
        }
    }
    bytes
}

/// A kit in its parts.
pub(crate) struct Parts {
    pub head_a: Vec<u32>,
    pub list_a: Vec<Vec<u32>>,
    pub head_b: Vec<u32>,
    pub list_b: Vec<Vec<u32>>,
    /// Records and runs of remarks.
    pub log: Vec<Vec<u32>>,
    pub tail: Vec<u8>,
}

impl Parts {
    /// A log alone.
    pub fn of_log(log: Vec<Vec<u32>>) -> Parts {
        Parts {
            head_a: Vec::new(),
            list_a: Vec::new(),
            head_b: Vec::new(),
            list_b: Vec::new(),
            log,
            tail: Vec::new(),
        }
    }

    pub fn bytes(&self) -> Vec<u8> {
        let words = self.head_a.iter();
        let words = words
            .chain(self.list_a.iter().flatten())
            .chain(&self.head_b);
        let words = words.chain(self.list_b.iter().flatten());
        let words = words.chain(self.log.iter().flatten());
        let mut bytes: Vec<u8> = words.flat_map(|word| word.to_be_bytes()).collect();
        bytes.extend_from_slice(&self.tail);
        bytes
    }
}

/// A valid kit in its parts; its log of any number of cycles or of this.
fn parts(random: &mut Xorshift, cycles: Option<usize>) -> Parts {
    let data_a = data(random);
    let data_b = other_data(random, &data_a);
    let list_a = list(random, &data_a);
    let list_b = list(random, &data_b);
    Parts {
        head_a: vec![words::head(data_a.len())],
        list_a,
        head_b: vec![words::head(data_b.len())],
        list_b,
        log: drive::log(random, &data_a, &data_b, cycles),
        tail: Vec::new(),
    }
}

/// Machine data whose bounds lie close to each other, so that a short log can reach them; of
/// any head.
fn data(random: &mut Xorshift) -> Vec<i32> {
    let head = random.pick(&HEADS);
    let mut data: Vec<i32> = (0..head).map(lowest).collect();
    let near = random.pick(&[0, 0, 0, 0, 0, 0, 99_999_000, -99_999_000]);
    let ratios = random.pick(&[
        &[1][..],
        &[1, 1, 1, 2, 3],
        &[1, 2, 3, 5, 7, 10],
        &[1, 7, 10, 99, 100, 999, 1000],
        &[1, 1, 997],
    ]);
    let times = random.pick(&[
        &[0, 0, 1, 2, 3][..],
        &[0, 1, 2, 3, 5, 8],
        &[0],
        &[1, 2],
        &[0, 3, 1000],
    ]);
    for (number, datum) in data.iter_mut().enumerate() {
        *datum = match number {
            0 => random.pick(&[12, 12, 12, 1, 2, 7, 11, 13, 25, 10]),
            1 => functions(random) | direction(random, head),
            2 => random.pick(&[0, 1, 5, 10, 10, 30, 100, 100_000]),
            3..=6 => random.pick(&[
                1, 50, 100, 500, 1000, 1999, 2000, 2000, 3000, 5000, 1_000_000,
            ]),
            7..=10 => random.between(1, 5) as i32,
            11 | 13 => near - random.pick(&[0, 1, 50, 100, 300, 500, 1000]),
            12 | 14 => near + random.pick(&[1, 2, 50, 100, 300, 500, 1000]),
            15 => random.between(1, 3) as i32,
            16..=23 => near + random.between(-300, 300) as i32,
            24 => random.pick(&[0, 1, 5, 20, 20, 100, 100_000]),
            25 => random.pick(&[0, 1, 5, 50, 500, 501, 1000, 1_000_000]),
            26 => random.pick(&[0, 1, 5, 5, 20, 100_000]),
            27 => random.pick(times),
            28 => random.pick(&[0, 0, 1, 1, 2, 3, 1000]),
            29..=32 => random.pick(times),
            33 => random.pick(&[0, 0, 0, 1, 50, 500, 1_000_000]),
            34 => random.pick(times),
            35..=50 => random.pick(&[1, 10, 50, 50, 99, 100, 100, 100]),
            67 => random.pick(&[0, 0, 1, 5, 50, 500, 500, 1_000_000]),
            68 => random.pick(&[0, 0, 1, 1, 2, 3, 5, 1000]),
            69 => random.pick(&[0, 0, 1, 5, 10, 10, 30, 100, 100_000]),
            70 => random.pick(&[0, 0, 0, 1, 1, 2, 3, 5, 1000]),
            71 => random.between(1, 5) as i32,
            _ => random.pick(ratios),
        };
    }
    match random.below(100) {
        0..=3 => at_range_ends(random, &mut data),
        4..=10 => hardly_dividing(random, &mut data),
        _ => (),
    }
    for (datum, number) in data.iter_mut().zip(0..) {
        let (low, high) = range(head, number);
        *datum = (*datum).clamp(low, high);
    }
    order_se(&mut data);
    data
}

/// The functions: mostly all on, SBH/SG nearly always.
fn functions(random: &mut Xorshift) -> i32 {
    let some = random.pick(&[31, 31, 31, 29, 15, 13, 17, 19, 1, 1, 30, 2, 4, 8, 16]);
    some ^ random.pick(&[0, 0, 0, 0, 0, 1, 2, 4, 8, 16])
}

/// Safe direction, mostly on where a list can have it.
fn direction(random: &mut Xorshift, head: usize) -> i32 {
    let on = head == HEADS[3] && random.percent(75);
    i32::from(on) << 5
}

/// Each datum at one end of its range.
fn at_range_ends(random: &mut Xorshift, data: &mut [i32]) {
    let head = data.len();
    for (number, datum) in data.iter_mut().enumerate() {
        let (low, high) = range(head, number);
        *datum = match number {
            11 | 13 => low,
            12 | 14 => high,
            _ => random.pick(&[low, high]),
        };
    }
}

/// Limits, T and ratios that leave remainders, where something is divided that must not be.
fn hardly_dividing(random: &mut Xorshift, data: &mut [i32]) {
    for (number, datum) in data.iter_mut().enumerate() {
        *datum = match number {
            0 => random.pick(&[7, 11, 13]),
            3..=6 => random.pick(&[997, 1997, 1999, 2003]),
            51..=58 => random.pick(&[1, 1, 1, 3]),
            59..=66 => random.pick(&[991, 997]),
            _ => continue,
        };
    }
}

/// Puts each SE minus below its plus.
fn order_se(data: &mut [i32]) {
    for minus in [11, 13] {
        let low = data[minus].min(data[minus + 1]);
        let high = data[minus].max(data[minus + 1]);
        data[minus] = low.min(99_999_999);
        data[minus + 1] = high.max(data[minus] + 1);
    }
}

/// The data of list B: mostly those of A, else with a few of its own, or with another head.
fn other_data(random: &mut Xorshift, data_a: &[i32]) -> Vec<i32> {
    let mut data_b = data_a.to_vec();
    if random.percent(75) {
        return data_b;
    }
    if random.percent(10) {
        return data(random);
    }
    if random.percent(20) {
        let at = HEADS.iter().position(|&head| head == data_a.len());
        let head = HEADS[(at.unwrap_or(0) + random.pick(&[1, 2, 3])) % HEADS.len()];
        data_b.resize(head, random.pick(&[1, 1, 2, 3]));
        data_b[1] = data_b[1].min(range(head, 1).1);
        return data_b;
    }
    for _ in 0..random.pick(&[1, 1, 1, 2, 4]) {
        let number = match random.below(3) {
            0 => random.below(data_b.len()),
            1 => random.below(12),
            _ => random.pick(&[0, 1, 50, data_b.len() - 2, data_b.len() - 1]),
        };
        let (low, high) = range(data_b.len(), number);
        let datum = data_b[number];
        // One or two beside it, in the upper half alone, or of the other sign.
        let by = random.pick(&[-2, -1, 1, 1, 2, 1 << 16, -(1 << 16), -2 * datum]);
        data_b[number] = (datum + by).clamp(low, high);
    }
    order_se(&mut data_b);
    data_b
}

/// The data as they arrive: whole numbers, binary32 and binary64.
fn list(random: &mut Xorshift, data: &[i32]) -> Vec<Vec<u32>> {
    let floats = random.pick(&[0, 0, 0, 10, 100]);
    let datum = |(number, &value): (usize, &i32)| match random.percent(floats) {
        false => whole(number, value),
        true => {
            let single = value as f32;
            let bits = if value == 0 && random.percent(50) {
                1 << 31
            } else {
                single.to_bits()
            };
            match random.percent(50) && single as i32 == value {
                true => binary32(number, bits),
                false if value == 0 => binary64(number, u64::from(bits) << 32),
                false => binary64(number, f64::from(value).to_bits()),
            }
        }
    };
    data.iter().enumerate().map(datum).collect()
}

pub(crate) fn whole(number: usize, value: i32) -> Vec<u32> {
    let bits = value as u32;
    vec![
        words::datum(number, 0),
        words::piece(bits >> 16),
        words::piece(bits),
    ]
}

pub(crate) fn binary32(number: usize, bits: u32) -> Vec<u32> {
    vec![
        words::datum(number, 1),
        words::piece(bits >> 16),
        words::piece(bits),
    ]
}

pub(crate) fn binary64(number: usize, bits: u64) -> Vec<u32> {
    let pieces = [48, 32, 16, 0].map(|by| words::piece((bits >> by) as u32));
    [vec![words::datum(number, 2)], pieces.to_vec()].concat()
}
