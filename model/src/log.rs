//! The log: cycle records, checked as a whole and then run.

use crate::channel::{Channel, Cycle};
use crate::deviation::{paper, Paper, Reading};
use crate::list::Refusal;
use crate::{device, words};

/// "log over 16,384 words"
pub const LONGEST: usize = 16_384;

/// "kinds 4, 5, 6 of A, the same of B, then 7"
const RECORD: usize = 7;

/// One cycle of both channels.
#[derive(Clone, Copy, Debug, PartialEq, Eq)]
pub struct Record {
    pub a: Side,
    pub b: Side,
    pub acknowledged: bool,
}

/// What a record says of one channel.
#[derive(Clone, Copy, Debug, PartialEq, Eq)]
pub struct Side {
    pub position: i32,
    pub inputs: u32,
}

/// What stands in a log from some place on.
enum Next {
    /// Nothing but remarks.
    End,
    /// A record, and the place behind it.
    Record(Record, usize),
    /// A record with a word missing or wrong, at this place.
    Fault(usize),
}

/// "log over 16,384 words, or a word missing or wrong | 6": the number of cycles, if accepted.
pub fn check(log: &[u32]) -> Result<usize, Refusal> {
    check_as(Paper, log)
}

/// [`check`] by any reading.
#[inline]
pub fn check_as<R: Reading>(r: R, log: &[u32]) -> Result<usize, Refusal> {
    let longest = paper!(r, LONGEST, LogLimitHalved => LONGEST / 2);
    if log.len() > longest {
        return refuse(6, longest);
    }
    let (cycles, fault) = cycles(r, log);
    remarks(r, log, cycles)?;
    match fault {
        None => Ok(cycles),
        Some(place) => paper!(r, refuse(6, place),
            CutRecordDropped => if place == log.len() { Ok(cycles) } else { refuse(6, place) },
            RemarksNotCounted => refuse(6, place - remarks_before(log, place))),
    }
}

/// "A log is cycle records": how many, and the place of the first fault.
#[inline]
fn cycles<R: Reading>(r: R, log: &[u32]) -> (usize, Option<usize>) {
    let (mut cycles, mut place) = (0, 0);
    loop {
        match next(r, log, place) {
            Next::End => return (cycles, None),
            Next::Record(_, behind) => place = behind,
            Next::Fault(place) => return (cycles, Some(place)),
        }
        cycles += 1;
    }
}

/// "An accepted log runs the two channels given with it": the number of cycles.
pub fn run(
    a: &mut Channel,
    b: &mut Channel,
    log: &[u32],
    out: &mut [u32],
) -> Result<usize, Refusal> {
    run_as(Paper, a, b, log, out)
}

/// [`run`] by any reading.
#[inline]
pub fn run_as<R: Reading>(
    r: R,
    a: &mut Channel,
    b: &mut Channel,
    log: &[u32],
    out: &mut [u32],
) -> Result<usize, Refusal> {
    let cycles = room_as(r, log, out)?;
    let mut place = 0;
    for three in out[..3 * cycles].chunks_exact_mut(3) {
        let Next::Record(record, behind) = next(r, log, place) else {
            break;
        };
        three.copy_from_slice(&cycle(r, a, b, record));
        place = behind;
    }
    Ok(cycles)
}

/// "output below 3 words a cycle | 7": the number of cycles of a log that may run.
pub fn room(log: &[u32], out: &[u32]) -> Result<usize, Refusal> {
    room_as(Paper, log, out)
}

/// [`room`] by any reading.
#[inline]
fn room_as<R: Reading>(r: R, log: &[u32], out: &[u32]) -> Result<usize, Refusal> {
    let cycles = check_as(r, log)?;
    let wanted = 3 * cycles;
    let too_small = paper!(r, out.len() < wanted,
        OutputAlwaysTooSmall => wanted > 0);
    match too_small {
        true => refuse(7, wanted),
        false => Ok(cycles),
    }
}

/// The records of a log, as far as it is right.
pub fn records(log: &[u32]) -> impl Iterator<Item = Record> + '_ {
    let mut place = 0;
    std::iter::from_fn(move || match next(Paper, log, place) {
        Next::Record(record, behind) => {
            place = behind;
            Some(record)
        }
        Next::End | Next::Fault(_) => None,
    })
}

/// "each cycle puts A's word, B's word and the device word into the output"
#[inline]
fn cycle<R: Reading>(r: R, a: &mut Channel, b: &mut Channel, record: Record) -> [u32; 3] {
    let (of_a, of_b) = both(r, a, b, record);
    let device = device::word_as(r, of_a.word, of_b.word);
    [of_a.word, of_b.word, device]
}

/// A record's cycle of both channels.
#[inline]
pub fn both<R: Reading>(r: R, a: &mut Channel, b: &mut Channel, record: Record) -> (Cycle, Cycle) {
    let Record {
        a: of_a,
        b: of_b,
        acknowledged,
    } = record;
    // "In a log the report is the other channel's: .. datum k by the data and k of the channel given."
    let mut from_a = a.report(of_a.position, of_a.inputs);
    let mut from_b = b.report(of_b.position, of_b.inputs);
    paper!(r, (), ReportsItself => {
        (from_a.position, from_b.position) = (from_b.position, from_a.position);
        (from_a.inputs, from_b.inputs) = (from_b.inputs, from_a.inputs);
    });
    paper!(r, (), ActiveInEither => {
        a.look_at(b);
        b.look_at(a);
    });
    let (to_a, to_b) = paper!(r, (acknowledged, acknowledged),
        AcknowledgesOnlyA => (acknowledged, false),
        AcknowledgesOnlyB => (false, acknowledged));
    let cycle_a = a.cycle_as(r, of_a.position, of_a.inputs, to_a, from_b);
    paper!(r, (), BSeesNewK => from_a = a.report(of_a.position, of_a.inputs));
    let cycle_b = b.cycle_as(r, of_b.position, of_b.inputs, to_b, from_a);
    (cycle_a, cycle_b)
}

/// "A word between records that is a remark is passed over, also before the first and after the last."
#[inline]
fn next<R: Reading>(r: R, log: &[u32], mut place: usize) -> Next {
    while let Some(&word) = log.get(place) {
        if !words::is_remark(r, word) {
            return record_at(r, log, place);
        }
        place += 1;
    }
    Next::End
}

/// "A log is cycle records: kinds 4, 5, 6 of A, the same of B, then 7."
#[inline]
fn record_at<R: Reading>(r: R, log: &[u32], place: usize) -> Next {
    let (seven, behind) = paper!(r, (log[place..].first_chunk().copied(), place + RECORD),
        RemarkInRecordPassedOver => seven_without_remarks(log, place));
    match seven.and_then(|seven| record(r, seven)) {
        Some(record) => Next::Record(record, behind),
        None => Next::Fault(fault(r, log, place)),
    }
}

/// A record's seven words taken apart, if each is right.
#[inline]
fn record<R: Reading>(r: R, words: [u32; RECORD]) -> Option<Record> {
    let [position_a, lower_a, upper_a, position_b, lower_b, upper_b, end] = words;
    let a = side(r, position_a, lower_a, upper_a)?;
    let b = side(r, position_b, lower_b, upper_b)?;
    let (a, b) = paper!(r, (a, b), BStandsFirst => (b, a));
    let acknowledged = words::acknowledges(r, end)?;
    Some(Record { a, b, acknowledged })
}

/// "Kinds 5 and 6: lower and upper 16 bits of the input word."
#[inline]
fn side<R: Reading>(r: R, position: u32, lower: u32, upper: u32) -> Option<Side> {
    let position = words::position_of(r, position)?;
    let lower = words::lower_of(r, lower)?;
    let upper = words::upper_of(r, upper)?;
    let inputs = paper!(r, upper << 16 | lower,
        InputHalvesSwapped => lower << 16 | upper);
    Some(Side { position, inputs })
}

/// "a word missing or wrong | 6 | .. place": the first such word of the record at this place.
#[cold]
fn fault<R: Reading>(r: R, log: &[u32], record: usize) -> usize {
    let mut place = record;
    for part in 0..RECORD {
        place = paper!(r, record + part, RemarkInRecordPassedOver => behind_remarks(log, place));
        match log.get(place) {
            Some(&word) if is_right(r, part, word) => place += 1,
            Some(_) => break,
            // "a missing word has the place behind the last one"
            None => {
                place = paper!(r, log.len(), LogMissingPlaceIsLast => log.len() - 1);
                break;
            }
        }
    }
    paper!(r, place, PlaceOfRecord => record)
}

/// Whether a word may stand as this part of a record.
fn is_right<R: Reading>(r: R, part: usize, word: u32) -> bool {
    match part {
        0 | 3 => words::position_of(r, word).is_some(),
        1 | 4 => words::lower_of(r, word).is_some(),
        2 | 5 => words::upper_of(r, word).is_some(),
        _ => words::acknowledges(r, word).is_some(),
    }
}

/// A refusal with its number and place.
fn refuse<T>(number: u32, place: usize) -> Result<T, Refusal> {
    Err(Refusal { number, place })
}

// What follows is of deviations only.

/// Whether a word is a remark.
fn remark(word: u32) -> bool {
    words::kind(word) == words::REMARK
}

/// "An empty log is accepted.", and a remark may stand anywhere between records.
#[inline]
fn remarks<R: Reading>(r: R, log: &[u32], cycles: usize) -> Result<(), Refusal> {
    let wrong = paper!(r, None,
        EmptyLogRefused => log.is_empty().then_some(0),
        RemarksOnlyRefused => (cycles == 0 && !log.is_empty()).then_some(log.len()),
        RemarkBeforeFirstRefused => log.first().filter(|&&word| remark(word)).map(|_| 0),
        RemarkAfterLastRefused => log.last().filter(|&&word| remark(word)).map(|_| log.len() - 1),
        RemarkBetweenRefused => remark_between(log));
    match wrong {
        None => Ok(()),
        Some(place) => refuse(6, place),
    }
}

/// The first remark that has a record on either side.
fn remark_between(log: &[u32]) -> Option<usize> {
    let first = log.iter().position(|&word| !remark(word))?;
    let last = log.iter().rposition(|&word| !remark(word))?;
    (first..last).find(|&place| remark(log[place]))
}

/// How many remarks stand before a place.
fn remarks_before(log: &[u32], place: usize) -> usize {
    log.iter().take(place).filter(|&&word| remark(word)).count()
}

/// The next place that holds no remark.
fn behind_remarks(log: &[u32], mut place: usize) -> usize {
    while log.get(place).is_some_and(|&word| remark(word)) {
        place += 1;
    }
    place
}

/// The next seven words that are no remarks, and the place behind them.
fn seven_without_remarks(log: &[u32], mut place: usize) -> (Option<[u32; RECORD]>, usize) {
    let mut seven = [0; RECORD];
    for word in &mut seven {
        place = behind_remarks(log, place);
        match log.get(place) {
            Some(&found) => *word = found,
            None => return (None, place),
        }
        place += 1;
    }
    (Some(seven), place)
}

/// The words of the records before the first fault.
pub(crate) fn up_to_fault<R: Reading>(r: R, log: &[u32]) -> &[u32] {
    let mut place = 0;
    while let Next::Record(_, behind) = next(r, log, place) {
        place = behind;
    }
    &log[..place]
}
