//! The text form of kits: what people write and review, and a kit's bytes.

pub(crate) mod assemble;
pub(crate) mod input_words;
mod show;

pub use assemble::{assemble, text, Fault};
pub use show::show;

use crate::machine_data::{self, range, COUNT, HEADS};
use crate::words;

/// A datum as it stands in a list: its form and its pieces' bits.
#[derive(Clone, Copy, Debug, PartialEq, Eq)]
pub enum Datum {
    Whole(i32),
    Binary32(u32),
    Binary64(u64),
    Open,
}

impl Datum {
    /// The datum's words: kind 2, then its pieces.
    fn words(self, number: usize) -> Vec<u32> {
        let (form, bits, pieces) = match self {
            Datum::Whole(value) => (0, u64::from(value as u32), 2),
            Datum::Binary32(bits) => (1, u64::from(bits), 2),
            Datum::Binary64(bits) => (2, bits, 4),
            Datum::Open => (3, 0, 0),
        };
        let mut words = vec![words::datum(number, form)];
        for piece in (0..pieces).rev() {
            words.push(words::piece((bits >> (16 * piece)) as u32));
        }
        words
    }

    /// The datum of this number at the front of some words, if it is whole there.
    fn read(words: &[u32], number: usize) -> Option<(Datum, usize)> {
        let form = words::form_of(crate::Paper, *words.first()?, number)?;
        let pieces = [2, 2, 4, 0][form as usize];
        let mut bits = 0;
        for place in 1..=pieces {
            bits = bits << 16 | u64::from(words::piece_of(crate::Paper, *words.get(place)?)?);
        }
        let datum = match form {
            0 => Datum::Whole(bits as u32 as i32),
            1 => Datum::Binary32(bits as u32),
            2 => Datum::Binary64(bits),
            _ => Datum::Open,
        };
        Some((datum, 1 + pieces))
    }
}

/// What a list gives the data that its text does not state.
#[derive(Clone, Copy, Debug, PartialEq, Eq)]
enum Else {
    /// The low end of each range, 12 and 14 at 100,000,000.
    Lowest,
    /// The high end of each range, 11 and 13 at -100,000,000.
    Highest,
    /// As the list before.
    AsA,
}

impl Else {
    /// The datum of this number in a list of so many.
    fn datum(self, count: usize, number: usize, before: &Stated) -> Datum {
        match self {
            Else::Lowest => Datum::Whole(machine_data::lowest(number)),
            Else::Highest if number == 11 || number == 13 => Datum::Whole(range(count, number).0),
            Else::Highest => Datum::Whole(range(count, number).1),
            Else::AsA => before.data[number],
        }
    }

    /// How many data a list has that does not say so.
    fn count(self, before: &Stated) -> usize {
        match self {
            Else::Lowest | Else::Highest => HEADS[0],
            Else::AsA => before.count,
        }
    }
}

/// The data that a list states.
#[derive(Clone, Copy, Debug, PartialEq, Eq)]
pub struct Stated {
    data: [Datum; COUNT],
    /// How many of them it has; the others are lowest.
    count: usize,
}

impl Default for Stated {
    /// A list without further word.
    fn default() -> Stated {
        Stated {
            data: std::array::from_fn(|number| Datum::Whole(machine_data::lowest(number))),
            count: HEADS[0],
        }
    }
}
