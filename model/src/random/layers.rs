//! Where a refused kit is damaged: the layer, by the refusal and the word that it names.

use super::reached::named;
use crate::list::Refusal;
use crate::listing::{Part, Refused, LARGEST};
use crate::{list, words};

named! {
    /// The layers of a kit, each with the number of its refusal.
    Layer {
        HeadMissing: "1: the head missing",
        HeadWrong: "1: the head wrong",
        HeadOther: "1: a head that says another number",
        ListWordMissing: "1: a later word missing",
        SecondHead: "1: a head in a list",
        DatumWord: "1: a datum's word of another number or place, or with other bits",
        Piece: "1: a piece too many, or with other bits",
        RemarkInList: "1: a remark in a list",
        LogWordInList: "1: a word of a log in a list",
        NoKindInList: "1: a word of no kind in a list",
        Open: "2: a datum open",
        Binary32NotWhole: "3: a binary32 of no whole number",
        Binary64NotWhole: "3: a binary64 of no whole number",
        WholeOutOfRange: "4: a whole number out of range",
        Binary32OutOfRange: "4: a binary32 out of range",
        Binary64OutOfRange: "4: a binary64 out of range",
        Se1Ends: "5: the ends of SE1",
        Se2Ends: "5: the ends of SE2",
        KitTooLong: "6: a kit too long",
        PartWord: "6: a kit not in whole words",
        LogWordMissing: "6: a record cut at the log's end",
        ListWordInRecord: "6: a word of a list in a record",
        RecordWord: "6: a word of a record out of its place, or with other bits",
        RemarkInRecord: "6: a remark in a record",
        NoKindInRecord: "6: a word of no kind in a record",
    }
}

impl Layer {
    /// The layer at which a kit is refused so.
    pub fn of(kit: &[u8], kit_words: &[u32], refused: Refused) -> Layer {
        let Refusal { number, place } = refused.refusal;
        let word = part(kit_words, refused.part).get(place).copied();
        let form = word.unwrap_or(0) & 3;
        match (number, form) {
            (1, _) => Layer::of_list(word, place),
            (2, _) => Layer::Open,
            (3, 1) => Layer::Binary32NotWhole,
            (3, _) => Layer::Binary64NotWhole,
            (4, 0) => Layer::WholeOutOfRange,
            (4, 1) => Layer::Binary32OutOfRange,
            (4, _) => Layer::Binary64OutOfRange,
            (5, _) if word == Some(words::datum(11, form)) => Layer::Se1Ends,
            (5, _) => Layer::Se2Ends,
            _ if kit.len() > LARGEST => Layer::KitTooLong,
            _ if !kit.len().is_multiple_of(4) => Layer::PartWord,
            _ => Layer::of_log(word),
        }
    }

    fn of_list(word: Option<u32>, place: usize) -> Layer {
        match word.map(words::kind) {
            None if place == 0 => Layer::HeadMissing,
            Some(words::HEAD) if place == 0 => Layer::HeadOther,
            _ if place == 0 => Layer::HeadWrong,
            None => Layer::ListWordMissing,
            Some(words::HEAD) => Layer::SecondHead,
            Some(words::DATUM) => Layer::DatumWord,
            Some(words::PIECE) => Layer::Piece,
            Some(words::REMARK) => Layer::RemarkInList,
            Some(words::POSITION..=words::END) => Layer::LogWordInList,
            Some(_) => Layer::NoKindInList,
        }
    }

    fn of_log(word: Option<u32>) -> Layer {
        match word.map(words::kind) {
            None => Layer::LogWordMissing,
            Some(words::HEAD..=words::PIECE) => Layer::ListWordInRecord,
            Some(words::POSITION..=words::END) => Layer::RecordWord,
            Some(words::REMARK) => Layer::RemarkInRecord,
            Some(_) => Layer::NoKindInRecord,
        }
    }
}

/// The words of a kit's part.
fn part(words: &[u32], part: Part) -> &[u32] {
    let behind_list = |words: &[u32]| list::read(words).map_or(0, |(_, behind)| behind);
    let behind_a = &words[behind_list(words)..];
    match part {
        Part::A => words,
        Part::B => behind_a,
        Part::L => &behind_a[behind_list(behind_a)..],
    }
}
