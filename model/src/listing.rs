//! The bench program: from a kit's bytes to the bench's text.

use crate::channel::Channel;
use crate::deviation::{paper, Deviant, Deviation, Paper, Reading};
use crate::list::{self, Refusal};
use crate::log::{self, Record};

/// "at most 65,536 bytes in whole words"
pub const LARGEST: usize = 65_536;

/// "A, B or L": the part of the kit that is refused.
#[derive(Clone, Copy, Debug, PartialEq, Eq)]
pub enum Part {
    A,
    B,
    L,
}

/// A kit that is refused.
#[derive(Clone, Copy, Debug, PartialEq, Eq)]
pub struct Refused {
    pub refusal: Refusal,
    pub part: Part,
}

/// The bench's text for a kit.
pub fn list(kit: &[u8]) -> String {
    list_as(Paper, kit)
}

/// [`list`] into a lent buffer: the length of the text. A buffer that is too short is left
/// as it was, and the length wanted is the error.
pub fn list_into(kit: &[u8], buffer: &mut [u8]) -> Result<usize, usize> {
    let text = bytes(Paper, kit);
    let front = buffer.get_mut(..text.len()).ok_or(text.len())?;
    front.copy_from_slice(&text);
    Ok(text.len())
}

/// [`list`] by any reading.
pub fn list_as<R: Reading>(r: R, kit: &[u8]) -> String {
    String::from_utf8(bytes(r, kit)).unwrap_or_default()
}

/// Whether a kit tells a program with this deviation from document 01, which lists it so.
pub fn tells(kit: &[u8], listing: &str, deviation: Deviation) -> bool {
    list_as(Deviant(deviation), kit) != listing
}

/// The text as bytes.
fn bytes<R: Reading>(r: R, kit: &[u8]) -> Vec<u8> {
    let mut text = Vec::new();
    match outputs_as(r, kit) {
        Ok(output) => lines(r, &output, &mut text),
        Err(refused) => {
            paper!(r, (), LinesBeforeRefusal => lines_before(r, kit, &mut text));
            refusal_line(r, refused, &mut text);
        }
    }
    text
}

/// The output words of a kit's log, 3 a cycle.
pub fn outputs(kit: &[u8]) -> Result<Vec<u32>, Refused> {
    outputs_as(Paper, kit)
}

/// [`outputs`] by any reading.
pub fn outputs_as<R: Reading>(r: R, kit: &[u8]) -> Result<Vec<u32>, Refused> {
    let words = words(r, kit)?;
    paper!(r, (), KitSizeAfterLists => {
        parts(r, &words)?;
        size(Paper, kit)?;
    });
    let mut output = vec![0; 3 * (words.len() / 7)];
    let cycles = run_as(r, &words, &mut output)?;
    output.truncate(3 * cycles);
    Ok(output)
}

/// A kit's words: both lists read and the log run, 3 words a cycle from the output's front on.
/// The number of cycles.
pub fn run(words: &[u32], output: &mut [u32]) -> Result<usize, Refused> {
    run_as(Paper, words, output)
}

/// [`run`] by any reading.
fn run_as<R: Reading>(r: R, words: &[u32], output: &mut [u32]) -> Result<usize, Refused> {
    let (mut a, mut b, log) = parts(r, words)?;
    log::run_as(r, &mut a, &mut b, log, output).map_err(|mut refusal| {
        paper!(r, (), PlacesOfLogFromKit => refusal.place += words.len() - log.len());
        Refused {
            refusal,
            part: Part::L,
        }
    })
}

/// An accepted kit: both channels fresh, and the records of its log.
#[derive(Clone, Debug, PartialEq, Eq)]
pub struct Accepted {
    pub a: Channel,
    pub b: Channel,
    pub records: Vec<Record>,
}

/// A kit's parts, for a look at its run.
pub fn accept(kit: &[u8]) -> Result<Accepted, Refused> {
    let words = words(Paper, kit)?;
    let (a, b, log) = parts(Paper, &words)?;
    log::check(log).map_err(|refusal| Refused {
        refusal,
        part: Part::L,
    })?;
    let records = log::records(log).collect();
    Ok(Accepted { a, b, records })
}

/// "at most 65,536 bytes in whole words, else number 6, place 0, L"
fn size<R: Reading>(r: R, kit: &[u8]) -> Result<(), Refused> {
    let largest = paper!(r, LARGEST,
        KitOneWordLess => LARGEST - 4,
        KitOneWordMore => LARGEST + 4);
    let whole_words = paper!(r, kit.len().is_multiple_of(4),
        KitPartWordLeftOut => true,
        KitPartWordFilled => true);
    if kit.len() <= largest && whole_words {
        return Ok(());
    }
    let place = paper!(r, 0, KitSizePlaceIsLength => kit.len() / 4);
    let part = paper!(r, Part::L, KitSizeIsA => Part::A);
    Err(Refused {
        refusal: Refusal { number: 6, place },
        part,
    })
}

/// "words most significant byte first"
fn words<R: Reading>(r: R, kit: &[u8]) -> Result<Vec<u32>, Refused> {
    paper!(r, size(r, kit)?, KitSizeAfterLists => ());
    let word = |bytes: &[u8]| {
        let bytes = [bytes[0], bytes[1], bytes[2], bytes[3]];
        paper!(r, u32::from_be_bytes(bytes),
            LeastByteFirst => u32::from_le_bytes(bytes))
    };
    let mut words: Vec<u32> = kit.chunks_exact(4).map(word).collect();
    paper!(r, (), KitPartWordFilled => {
        let part = kit.chunks_exact(4).remainder();
        if !part.is_empty() {
            let mut filled = [0; 4];
            filled[..part.len()].copy_from_slice(part);
            words.push(word(&filled));
        }
    });
    Ok(words)
}

/// "The words behind list A are handed on as list B, those behind B are the log."
fn parts<R: Reading>(r: R, words: &[u32]) -> Result<(Channel, Channel, &[u32]), Refused> {
    let (data_a, read_a) = list::read_as(r, words).map_err(|refusal| Refused {
        refusal,
        part: Part::A,
    })?;
    let behind_a = &words[read_a..];
    let (data_b, read_b) = list::read_as(r, behind_a).map_err(|mut refusal| {
        paper!(r, (), PlacesOfBFromKit => refusal.place += read_a);
        Refused {
            refusal,
            part: Part::B,
        }
    })?;
    paper!(r, (), UnlikeHeadsRefused => if data_a.head() != data_b.head() {
        return Err(Refused { refusal: Refusal { number: 1, place: 0 }, part: Part::B });
    });
    let data_b = paper!(r, data_b, ListBIsListA => data_a);
    let log = &behind_a[read_b..];
    Ok((
        Channel::fresh_as(r, data_a),
        Channel::fresh_as(r, data_b),
        log,
    ))
}

/// "A line is the cycle from 1, A's word, B's word, the device word"
fn lines<R: Reading>(r: R, output: &[u32], text: &mut Vec<u8>) {
    text.reserve(output.len() / 3 * 32);
    for (index, three) in output.chunks_exact(3).enumerate() {
        line(r, index, three[0], three[1], three[2], text);
    }
    paper!(r, (),
        LastLineFeedLost => { text.pop(); },
        EmptyListingLineFeed => if output.is_empty() { text.push(b'\n') });
}

/// "Fields stand one space apart, hexadecimal is lower case, and a line feed ends each line."
#[inline]
fn line<R: Reading>(r: R, index: usize, a: u32, b: u32, device: u32, text: &mut Vec<u8>) {
    let cycle = paper!(r, index + 1,
        CycleNumbersInvented => 3 * index + 1,
        CycleFromZero => index);
    paper!(r, decimal(cycle, text),
        CycleHexadecimal => hexadecimal(r, cycle as u32, 1, text));
    let (first, second) = paper!(r, (a, b), WordsOfBFirst => (b, a));
    for word in [first, second] {
        space(r, text);
        paper!(r, text.extend_from_slice(&digits(r, word)),
            ChannelWordsShort => hexadecimal(r, word, 1, text));
    }
    space(r, text);
    paper!(r, hexadecimal(r, device, 1, text),
        DeviceWordTwoDigits => hexadecimal(r, device, 2, text),
        DeviceWordDecimal => decimal(device as usize, text));
    line_feed(r, text);
}

/// "A refusal prints only one line: `refused`, number, place (both decimal) and A, B or L."
fn refusal_line<R: Reading>(r: R, refused: Refused, text: &mut Vec<u8>) {
    let Refused {
        refusal: Refusal { number, place },
        part,
    } = refused;
    text.extend_from_slice(paper!(r, b"refused",
        RefusalCapital => b"Refused"));
    let (first, second) = paper!(r, (number as usize, place),
        RefusalFieldsSwapped => (place, number as usize));
    space(r, text);
    decimal(first, text);
    space(r, text);
    paper!(r, decimal(second, text),
        RefusalPlaceHexadecimal => hexadecimal(r, second as u32, 1, text));
    space(r, text);
    text.push(match part {
        Part::A => b'A',
        Part::B => paper!(r, b'B', RefusalOfBSaysA => b'A'),
        Part::L => paper!(r, b'L', RefusalOfLogSaysB => b'B'),
    });
    paper!(r, line_feed(r, text), RefusalLineFeedLost => ());
}

/// "cycle decimal"
#[inline]
fn decimal(number: usize, text: &mut Vec<u8>) {
    let mut digits = [0; 20];
    let mut front = digits.len();
    let mut rest = number;
    loop {
        front -= 1;
        digits[front] = b'0' + (rest % 10) as u8;
        rest /= 10;
        if rest == 0 || front == 0 {
            break;
        }
    }
    text.extend_from_slice(&digits[front..]);
}

/// "channel words 8 digits"
#[inline]
fn digits<R: Reading>(r: R, word: u32) -> [u8; 8] {
    let figures = paper!(r, b"0123456789abcdef", UpperCase => b"0123456789ABCDEF");
    std::array::from_fn(|digit| figures[(word >> (28 - 4 * digit) & 15) as usize])
}

/// "device word without leading zeros": at least so many digits.
#[inline]
fn hexadecimal<R: Reading>(r: R, word: u32, at_least: usize, text: &mut Vec<u8>) {
    let leading = word.leading_zeros() as usize / 4;
    let left_out = leading.min(8 - at_least.min(8));
    text.extend_from_slice(&digits(r, word)[left_out..]);
}

/// "Fields stand one space apart"
#[inline]
fn space<R: Reading>(r: R, text: &mut Vec<u8>) {
    text.push(b' ');
    paper!(r, (), TwoSpaces => text.push(b' '));
}

/// "a line feed ends each line"
#[inline]
fn line_feed<R: Reading>(r: R, text: &mut Vec<u8>) {
    paper!(r, (), CarriageReturns => text.push(b'\r'));
    text.push(b'\n');
}

/// Of deviations only: the lines of the records before a fault of the log.
fn lines_before<R: Reading>(r: R, kit: &[u8], text: &mut Vec<u8>) {
    let Ok(words) = words(r, kit) else { return };
    let Ok((mut a, mut b, log)) = parts(r, &words) else {
        return;
    };
    let front = log::up_to_fault(r, log);
    let mut output = vec![0; 3 * (front.len() / 7)];
    if let Ok(cycles) = log::run_as(r, &mut a, &mut b, front, &mut output) {
        lines(r, &output[..3 * cycles], text);
    }
}
