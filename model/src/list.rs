//! The list reader: "A list is a head and the data in number order."

use crate::deviation::{paper, Paper, Reading};
use crate::machine_data::{all_lacked, lowest, number, range_as, Function, MachineData, COUNT};
use crate::{whole, words};

/// A refusal: "Cause | Number | Returned".
#[derive(Clone, Copy, Debug, PartialEq, Eq)]
pub struct Refusal {
    /// The cause's number, 1 to 7.
    pub number: u32,
    /// The place, or for number 7 the words wanted.
    pub place: usize,
}

/// "A datum arrives as a 32-bit whole number, a binary32 or a binary64 .. Form 3 is open"
#[derive(Clone, Copy, Debug, PartialEq, Eq)]
enum Arrived {
    Whole(i32),
    Binary32(u32),
    Binary64(u64),
    Open,
}

/// "A list is a head and the data in number order.": the data, and how many words they took.
pub fn read(words: &[u32]) -> Result<(MachineData, usize), Refusal> {
    read_as(Paper, words)
}

/// [`read`] by any reading.
pub fn read_as<R: Reading>(r: R, words: &[u32]) -> Result<(MachineData, usize), Refusal> {
    let answer = read_data(r, words);
    paper!(r, answer,
        ReaderAlwaysRefuses => refuse(1, 0),
        PlacesFromOne => answer.map_err(|Refusal { number, place }| Refusal { number, place: place + 1 }))
}

/// "The first faulty datum gives the answer; per datum 1, 2, 3, 4; then 5, SE1 first."
fn read_data<R: Reading>(r: R, words: &[u32]) -> Result<(MachineData, usize), Refusal> {
    let head = head(r, words)?;
    let head = paper!(r, head,
        DataBehindHeadTaken => if head == 51 && goes_on(words, 51) { 67 } else { head },
        DataBehind67Taken => if head == 67 && goes_on(words, 67) { 69 } else { head },
        DataBehind69Taken => if head == 69 && goes_on(words, 69) { 72 } else { head },
        ListMayEndAt51 => if goes_on(words, 51) { head } else { 51 },
        ListMayEndAt67 => if head == 69 && !goes_on(words, 67) { 67 } else { head },
        ListMayEndAt69 => if head == 72 && !goes_on(words, 69) { 69 } else { head });
    paper!(r, (), StructureFirst => { structure(words, head)?; });
    let mut data = all_lacked();
    let mut places = [0; COUNT];
    let mut place = 1;
    let mut later: Option<Refusal> = None;
    for number in 0..head {
        place = paper!(r, place, RemarkInListPassedOver => behind_remarks(words, place));
        places[number] = place;
        let (value, behind) = match datum(r, words, head, number, place) {
            Ok(read) => read,
            Err(fault) => paper!(r, return Err(fault),
            OpenGoesLast => {
                if fault.number != 2 { return Err(fault) }
                later = later.or(Some(fault));
                (lowest(number), place + 1)
            },
            LastFaultAnswers => {
                if fault.number != 4 { return Err(fault) }
                later = Some(fault);
                (lowest(number), pieces(r, words, number, place)?.1)
            }),
        };
        data[number] = value;
        place = behind;
        paper!(r, (),
            SeEndsAtOnce => {
                if number == number::SE1_PLUS { ends_of(r, &data, &places, number::SE1_MINUS)? }
                if number == number::SE2_PLUS { ends_of(r, &data, &places, number::SE2_MINUS)? }
            },
            SeEndsBeforeRatios => if number == 50 { se_ends(r, &data, &places)? },
            SeEndsBeforeNxData => if number == 66 { se_ends(r, &data, &places)? },
            SeEndsBeforeDirectionData => if number == 68 { se_ends(r, &data, &places)? });
    }
    paper!(r, (),
        LackedNumeratorsAre0 => data[head.min(59)..59].fill(0),
        LackedDenominatorsAre0 => data[head.clamp(59, 67)..67].fill(0),
        LackedHysteresisIs1 => data[head.clamp(67, 68)..68].fill(1),
        LackedFilterIs1 => data[head.clamp(68, 69)..69].fill(1));
    if let Some(fault) = later {
        return Err(fault);
    }
    se_ends(r, &data, &places)?;
    Ok((MachineData::looked_through(data, head), place))
}

/// "Kind 1: list head, value 51."; W1: "the list head then says 67", and later data "raise the head
/// likewise": how many data follow.
fn head<R: Reading>(r: R, words: &[u32]) -> Result<usize, Refusal> {
    match words.first().and_then(|&word| words::head_of(r, word)) {
        Some(head) => Ok(head),
        None => refuse(1, 0),
    }
}

/// "per datum 1, 2, 3, 4": one datum's value, and the place behind it.
#[inline]
fn datum<R: Reading>(
    r: R,
    words: &[u32],
    head: usize,
    number: usize,
    place: usize,
) -> Result<(i32, usize), Refusal> {
    let (arrived, behind) = pieces(r, words, number, place)
        .map_err(|fault| paper!(r, fault, PlaceOfDatumWord => Refusal { number: 1, place }))?;
    paper!(r, (),
    SurplusPieceIsOwnFault => no_piece(words, behind)?,
    PiecesBehindOpenAreOwnFault => {
        if arrived == Arrived::Open { no_piece(words, behind)? }
    });
    let value = resolve(r, arrived, number, place)?;
    let (low, high) = range_as(r, head, number);
    if low <= value && value <= high {
        return Ok((value, behind));
    }
    // "datum out of range | 4 | same"
    paper!(r, refuse(4, place),
        RangePlaceOfPiece => refuse(4, place + 1))
}

/// "forms 0 (two's complement), 1, 2 with 2, 2, 4 pieces. Form 3 is open: .. no pieces."
#[inline]
fn pieces<R: Reading>(
    r: R,
    words: &[u32],
    number: usize,
    place: usize,
) -> Result<(Arrived, usize), Refusal> {
    match form(r, words, number, place)? {
        0 => Ok((
            Arrived::Whole(two_pieces(r, words, place + 1)? as i32),
            place + 3,
        )),
        1 => Ok((
            Arrived::Binary32(two_pieces(r, words, place + 1)?),
            place + 3,
        )),
        2 => Ok((
            Arrived::Binary64(four_pieces(r, words, place + 1)?),
            place + 5,
        )),
        _ => Ok((Arrived::Open, place + 1)),
    }
}

/// "Kind 2: datum, number in bits 16-23, form in bits 0-1."
#[inline]
fn form<R: Reading>(r: R, words: &[u32], number: usize, place: usize) -> Result<u32, Refusal> {
    let word = word_at(r, words, place)?;
    match words::form_of(r, word, number) {
        Some(form) => Ok(form),
        None => paper!(r, refuse(1, place),
            OpenBeforeBits => refuse(if words::kind(word) == words::DATUM && word & 3 == 3 { 2 } else { 1 }, place)),
    }
}

/// "Kind 3: piece, 16 bits, most significant first."
#[inline]
fn two_pieces<R: Reading>(r: R, words: &[u32], place: usize) -> Result<u32, Refusal> {
    let first = piece(r, words, place)?;
    let second = piece(r, words, place + 1)?;
    Ok(paper!(r, first << 16 | second,
        PiecesLeastFirst => second << 16 | first))
}

/// "Kind 3: piece, 16 bits, most significant first."
#[inline]
fn four_pieces<R: Reading>(r: R, words: &[u32], place: usize) -> Result<u64, Refusal> {
    let first = u64::from(two_pieces(r, words, place)?);
    let second = u64::from(two_pieces(r, words, place + 2)?);
    Ok(paper!(r, first << 32 | second,
        PiecesLeastFirst => second << 32 | first))
}

/// "list word missing, of wrong kind, number or bits | 1 | place"
#[inline]
fn piece<R: Reading>(r: R, words: &[u32], place: usize) -> Result<u32, Refusal> {
    words::piece_of(r, word_at(r, words, place)?).ok_or(Refusal { number: 1, place })
}

/// "a missing word has the place behind the last one"
#[inline]
fn word_at<R: Reading>(r: R, words: &[u32], place: usize) -> Result<u32, Refusal> {
    match words.get(place) {
        Some(&word) => Ok(word),
        None => paper!(r, refuse(1, words.len()),
            MissingPlaceIsLast => refuse(1, words.len().saturating_sub(1))),
    }
}

/// "datum open | 2" and "float stands for no whole number | 3"
#[inline]
fn resolve<R: Reading>(
    r: R,
    arrived: Arrived,
    number: usize,
    place: usize,
) -> Result<i32, Refusal> {
    let whole = match arrived {
        Arrived::Whole(bits) => return whole_form(r, bits, place),
        Arrived::Binary32(bits) => whole::of_binary32(r, bits),
        Arrived::Binary64(bits) => whole::of_binary64(r, bits),
        Arrived::Open => {
            return paper!(r, refuse(2, place),
            OpenIsLowest => Ok(lowest(number)),
            OpenRatioIs1 => {
                if (number::NUMERATOR..number::NX_HYSTERESIS).contains(&number) { Ok(1) } else { refuse(2, place) }
            },
            OpenNxDatumIs0 => if matches!(number, 67 | 68) { Ok(0) } else { refuse(2, place) },
            OpenDirectionDatumIsLowest => if number > 68 { Ok(lowest(number)) } else { refuse(2, place) },
            OpenPlaceBehind => refuse(2, place + 1))
        }
    };
    match whole {
        Some(whole) => Ok(whole),
        None => paper!(r, refuse(3, place),
            FractionPlaceOfPiece => refuse(3, place + 1),
            RangeBeforeWhole => refuse(if beyond(arrived, number) { 4 } else { 3 }, place)),
    }
}

/// "forms 0 (two's complement)"
#[inline]
fn whole_form<R: Reading>(r: R, bits: i32, place: usize) -> Result<i32, Refusal> {
    paper!(r, Ok(bits),
        WholeSignAndMagnitude => Ok(if bits < 0 { -(bits & i32::MAX) } else { bits }),
        WholeBeyondIs3 => if u64::from(bits.unsigned_abs()) > whole::LARGEST { refuse(3, place) } else { Ok(bits) })
}

/// "then 5, SE1 first"
pub(crate) fn se_ends<R: Reading>(
    r: R,
    data: &[i32; COUNT],
    places: &[usize; COUNT],
) -> Result<(), Refusal> {
    paper!(r, {
        ends_of(r, data, places, number::SE1_MINUS)?;
        ends_of(r, data, places, number::SE2_MINUS)
    },
        Se2EndsFirst => {
            ends_of(r, data, places, number::SE2_MINUS)?;
            ends_of(r, data, places, number::SE1_MINUS)
        },
        Se1EndsNotChecked => ends_of(r, data, places, number::SE2_MINUS),
        Se2EndsNotChecked => ends_of(r, data, places, number::SE1_MINUS),
        SeEndsOnlyWithFunction => {
            if MachineData::of(data).has(r, Function::Se) {
                ends_of(r, data, places, number::SE1_MINUS)?;
                ends_of(r, data, places, number::SE2_MINUS)?;
            }
            Ok(())
        })
}

/// "SE minus not below its plus | 5 | place of the minus datum"
fn ends_of<R: Reading>(
    r: R,
    data: &[i32; COUNT],
    places: &[usize; COUNT],
    minus: usize,
) -> Result<(), Refusal> {
    let below = paper!(r, data[minus] < data[minus + 1],
        SeEndsMayBeEqual => data[minus] <= data[minus + 1]);
    if below {
        return Ok(());
    }
    paper!(r, refuse(5, places[minus]),
        SeEndsPlaceOfPlus => refuse(5, places[minus + 1]))
}

/// A refusal with its number and place.
fn refuse<T>(number: u32, place: usize) -> Result<T, Refusal> {
    Err(Refusal { number, place })
}

// What follows is of deviations only.

/// The structure of so many data, values left aside: the place behind them.
fn structure(words: &[u32], head: usize) -> Result<usize, Refusal> {
    let mut place = 1;
    for number in 0..head {
        place = pieces(Paper, words, number, place)?.1;
    }
    Ok(place)
}

/// Whether behind so many data the next one stands.
fn goes_on(words: &[u32], count: usize) -> bool {
    let behind = structure(words, count);
    behind.is_ok_and(|place| form(Paper, words, count, place).is_ok())
}

/// Whether a float lies outside the datum's range, whole or not.
fn beyond(arrived: Arrived, number: usize) -> bool {
    let (low, high) = crate::machine_data::range(COUNT, number);
    let float = match arrived {
        Arrived::Binary32(bits) => f64::from(f32::from_bits(bits)),
        Arrived::Binary64(bits) => f64::from_bits(bits),
        _ => return false,
    };
    float < f64::from(low) || float > f64::from(high)
}

/// A piece here is refused.
fn no_piece(words: &[u32], place: usize) -> Result<(), Refusal> {
    match words.get(place) {
        Some(&word) if words::kind(word) == words::PIECE => refuse(1, place),
        _ => Ok(()),
    }
}

/// The next place that holds no remark.
fn behind_remarks(words: &[u32], mut place: usize) -> usize {
    while words
        .get(place)
        .is_some_and(|&word| words::kind(word) == words::REMARK)
    {
        place += 1;
    }
    place
}
