//! Words: lists and logs are 32-bit words.

use crate::deviation::{paper, Paper, Reading};
use crate::machine_data::HEADS;

/// "Kind 1: list head, value 51."; W1: "the list head then says 67", and later data "raise the head likewise"
pub const HEAD: u32 = 1;
/// "Kind 2: datum, number in bits 16-23, form in bits 0-1."
pub const DATUM: u32 = 2;
/// "Kind 3: piece, 16 bits, most significant first."
pub const PIECE: u32 = 3;
/// "Kind 4: position, 28 bits two's complement."
pub const POSITION: u32 = 4;
/// "Kinds 5 and 6: lower and upper 16 bits of the input word."
pub const LOWER: u32 = 5;
/// "Kinds 5 and 6: lower and upper 16 bits of the input word."
pub const UPPER: u32 = 6;
/// "Kind 7: cycle end, bit 0 acknowledges."
pub const END: u32 = 7;
/// "Kind 15: remark, 28 free bits."
pub const REMARK: u32 = 15;

/// "words most significant byte first": the whole words of some bytes.
pub fn of_bytes(bytes: &[u8]) -> Vec<u32> {
    let (words, _) = bytes.as_chunks();
    words.iter().copied().map(u32::from_be_bytes).collect()
}

/// "the top 4 bits are the kind"
#[inline]
pub fn kind(word: u32) -> u32 {
    word >> 28
}

/// "unused bits 0": the used bits of a word of this kind, none if another bit is set.
#[inline]
fn value(word: u32, of_kind: u32, used: u32) -> Option<u32> {
    (word & !used == of_kind << 28).then_some(word & used)
}

/// "Kind 1: list head, value 51."; W1: "the list head then says 67", and later data "raise the head likewise": how many
/// data a right head says.
pub fn head_of<R: Reading>(r: R, word: u32) -> Option<usize> {
    let says = HEADS.into_iter().find(|&count| word == head(count));
    paper!(r, says,
        HeadValueIgnored => other_head(word, |_| Some(51)),
        HeadsBetweenTaken => other_head(word, |says| (52..67).contains(&says).then_some(says)),
        Head66Taken => other_head(word, |says| (says == 66).then_some(66)),
        Head68Taken => other_head(word, |says| (says == 68).then_some(68)),
        Heads70And71Taken => other_head(word, |says| matches!(says, 70 | 71).then_some(says)),
        HeadsAboveTaken => other_head(word, |says| (says > 72).then_some(72)),
        HeadInEightBits => other_head(word, |says| HEADS.into_iter().find(|&count| says & 0xff == count)),
        Head67Refused => says.filter(|&says| says != 67),
        Head67Of51Data => says.map(|says| if says == 67 { 51 } else { says }),
        Head69Refused => says.filter(|&says| says != 69),
        Head69Of67Data => says.map(|says| if says == 69 { 67 } else { says }),
        Head69Of51Data => says.map(|says| if says == 69 { 51 } else { says }),
        Head72Refused => says.filter(|&says| says != 72),
        Head72Of69Data => says.map(|says| says.min(69)),
        Head72Of67Data => says.map(|says| if says == 72 { 67 } else { says }),
        Head72Of51Data => says.map(|says| if says == 72 { 51 } else { says }))
}

/// Of deviations only: what a head is taken for that is none.
fn other_head(word: u32, taken: impl Fn(usize) -> Option<usize>) -> Option<usize> {
    let says = (word & 0x0fff_ffff) as usize;
    match HEADS.contains(&says) {
        true => head_of(Paper, word),
        false => taken(says).filter(|_| kind(word) == HEAD),
    }
}

/// "Kind 2: datum, number in bits 16-23, form in bits 0-1.": the form of the datum's word.
#[inline]
pub fn form_of<R: Reading>(r: R, word: u32, number: usize) -> Option<u32> {
    let word = paper!(r, word,
        DatumBitsIgnored => word & 0xf0ff_0003,
        DatumNumberIgnored => word & 0xff00_ffff | (number as u32 & 0xff) << 16);
    (word & !3 == datum(number, 0)).then_some(word & 3)
}

/// "Kind 3: piece, 16 bits"
#[inline]
pub fn piece_of<R: Reading>(r: R, word: u32) -> Option<u32> {
    paper!(r, value(word, PIECE, 0xffff),
        PieceKindIgnored => value(word & 0x0fff_ffff, 0, 0xffff),
        PieceBitsIgnored => value(word & 0xf000_ffff, PIECE, 0xffff))
}

/// "Kind 4: position, 28 bits two's complement."
#[inline]
pub fn position_of<R: Reading>(r: R, word: u32) -> Option<i32> {
    let bits = value(word, POSITION, 0x0fff_ffff)?;
    Some(paper!(r, (bits << 4) as i32 >> 4,
        PositionUnsigned => bits as i32))
}

/// "Kinds 5 and 6: lower and upper 16 bits of the input word."
#[inline]
pub fn lower_of<R: Reading>(r: R, word: u32) -> Option<u32> {
    paper!(r, value(word, LOWER, 0xffff),
        LowerBitsIgnored => value(word & 0xf000_ffff, LOWER, 0xffff))
}

/// "Kinds 5 and 6: lower and upper 16 bits of the input word."
#[inline]
pub fn upper_of<R: Reading>(r: R, word: u32) -> Option<u32> {
    paper!(r, value(word, UPPER, 0xffff),
        UpperBitsIgnored => value(word & 0xf000_ffff, UPPER, 0xffff))
}

/// "Kind 7: cycle end, bit 0 acknowledges."
#[inline]
pub fn acknowledges<R: Reading>(r: R, word: u32) -> Option<bool> {
    let bit = paper!(r, value(word, END, 1)?,
        EndBitsIgnored => value(word & 0xf000_0001, END, 1)?);
    Some(paper!(r, bit == 1,
        AcknowledgedByZero => bit == 0))
}

/// "Kind 15: remark, 28 free bits."
#[inline]
pub fn is_remark<R: Reading>(r: R, word: u32) -> bool {
    paper!(r, kind(word) == REMARK,
        RemarkBitsMustBeZero => word == REMARK << 28)
}

/// "Kind 1: list head, value 51.", or what else it says.
pub const fn head(says: usize) -> u32 {
    HEAD << 28 | says as u32
}

/// "Kind 2: datum, number in bits 16-23, form in bits 0-1."
pub const fn datum(number: usize, form: u32) -> u32 {
    DATUM << 28 | (number as u32 & 0xff) << 16 | form & 3
}

/// "Kind 3: piece, 16 bits"
pub const fn piece(bits: u32) -> u32 {
    PIECE << 28 | bits & 0xffff
}

/// "Kind 4: position, 28 bits two's complement."
pub const fn position(position: i32) -> u32 {
    POSITION << 28 | position as u32 & 0x0fff_ffff
}

/// "Kinds 5 and 6: lower and upper 16 bits of the input word."
pub const fn lower(inputs: u32) -> u32 {
    LOWER << 28 | inputs & 0xffff
}

/// "Kinds 5 and 6: lower and upper 16 bits of the input word."
pub const fn upper(inputs: u32) -> u32 {
    UPPER << 28 | inputs >> 16
}

/// "Kind 7: cycle end, bit 0 acknowledges."
pub const fn end(acknowledged: bool) -> u32 {
    END << 28 | acknowledged as u32
}

/// "Kind 15: remark, 28 free bits."
pub const fn remark(bits: u32) -> u32 {
    REMARK << 28 | bits & 0x0fff_ffff
}

/// The words of a record: "kinds 4, 5, 6 of A, the same of B, then 7".
pub const fn record(a: (i32, u32), b: (i32, u32), acknowledged: bool) -> [u32; 7] {
    [
        position(a.0),
        lower(a.1),
        upper(a.1),
        position(b.0),
        lower(b.1),
        upper(b.1),
        end(acknowledged),
    ]
}
