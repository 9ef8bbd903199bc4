//! Random kits: the listing and the log run.

use crate::{Difference, Tally};
use model::random::{self, Reached, Xorshift};
use model::{listing, proved, words};
use std::fmt;

/// What a buffer holds before it is lent.
const MARK: u8 = 0xa5;
const MARK_WORD: u32 = 0xa5a5_a5a5;

/// The kit of a seed: one in sixteen is but random bytes.
fn kit(seed: u64) -> Vec<u8> {
    if seed.is_multiple_of(16) {
        random::bytes(seed)
    } else {
        random::kit(seed)
    }
}

/// What was compared.
#[derive(Default)]
pub struct Kits {
    reached: Reached,
    buffers: Rooms,
    outputs: Rooms,
}

impl Tally for Kits {
    const ENOUGH: u64 = 100_000;

    fn add(&mut self, other: &Kits) {
        self.reached.add(&other.reached);
        self.buffers.add(&other.buffers);
        self.outputs.add(&other.outputs);
    }

    /// What was reached least often.
    fn scarcest(&self) -> (u64, String) {
        let rooms = [
            self.buffers.scarcest("buffer"),
            self.outputs.scarcest("output"),
        ];
        rooms
            .into_iter()
            .fold(self.reached.scarcest(), |least, room| least.min(room))
    }

    /// Both functions of the proved monitor on one kit.
    fn compare(&mut self, seed: u64) -> Option<Difference> {
        let kit = kit(seed);
        self.reached.count(&kit);
        let mut random = Xorshift::new(!seed);
        let what = self
            .compare_listing(&mut random, &kit)
            .or_else(|| self.compare_run(&mut random, &kit))?;
        Some(Difference {
            what: format!("the kit of seed {seed} differs: {what}"),
            file: format!("differs-{seed}.kit"),
            bytes: kit,
        })
    }
}

impl Kits {
    fn compare_listing(&mut self, random: &mut Xorshift, kit: &[u8]) -> Option<String> {
        let text = listing::list(kit).into_bytes();
        let mut buffer = vec![MARK; self.buffers.pick(random, text.len())];
        let length = proved::list_kit(kit, &mut buffer);
        if length == text.len() && is_lent_right(&buffer, &text, MARK) {
            return None;
        }
        let by_line = first_line(&text, &proved::text(kit));
        Some(by_line.unwrap_or_else(|| lent("listing", buffer.len(), text.len(), length)))
    }

    fn compare_run(&mut self, random: &mut Xorshift, kit: &[u8]) -> Option<String> {
        // The words alone do not say that a kit is too large or ends within a word.
        if kit.len() > listing::LARGEST || !kit.len().is_multiple_of(4) {
            return None;
        }
        let words = words::of_bytes(kit);
        let answer = listing::outputs(kit).unwrap_or_default();
        let mut output = vec![MARK_WORD; self.outputs.pick(random, answer.len())];
        let ran = proved::run_kit(&words, &mut output);
        let expected = listing::run(&words, &mut output.clone()).map_err(proved::Refused::from);
        if ran == expected && is_lent_right(&output, &answer, MARK_WORD) {
            return None;
        }
        let room = lent("log run", output.len(), answer.len(), ran.unwrap_or(0));
        Some(format!("{room}: {ran:?}, {expected:?} wanted"))
    }
}

/// A difference that no line of the listing shows.
fn lent(function: &str, room: usize, wanted: usize, answer: usize) -> String {
    format!(
        "{function}: room for {room}, {wanted} wanted; the answer, {answer}, or the room is wrong"
    )
}

/// Whether an answer stands at the front of a lent buffer that has room for it, and all else
/// is as it was.
fn is_lent_right<T: Copy + PartialEq>(buffer: &[T], answer: &[T], mark: T) -> bool {
    let answer = if answer.len() <= buffer.len() {
        answer
    } else {
        &[]
    };
    let behind = buffer.iter().skip(answer.len());
    buffer.starts_with(answer) && behind.copied().all(|left| left == mark)
}

/// How much room the lent buffers had.
#[derive(Default)]
struct Rooms {
    too_short: u64,
    just_enough: u64,
    to_spare: u64,
}

impl Rooms {
    /// A buffer's length, for an answer of this length.
    fn pick(&mut self, random: &mut Xorshift, wanted: usize) -> usize {
        let room = match random.below(10) {
            0 => wanted.saturating_sub(1),
            1 => random.below(wanted),
            2 | 3 => wanted,
            _ => wanted + 1 + random.below(64),
        };
        match room.cmp(&wanted) {
            std::cmp::Ordering::Less => self.too_short += 1,
            std::cmp::Ordering::Equal => self.just_enough += 1,
            std::cmp::Ordering::Greater => self.to_spare += 1,
        }
        room
    }

    fn add(&mut self, other: &Rooms) {
        self.too_short += other.too_short;
        self.just_enough += other.just_enough;
        self.to_spare += other.to_spare;
    }

    fn named(&self, of: &str) -> [(u64, String); 3] {
        [
            (self.too_short, format!("{of} too short")),
            (self.just_enough, format!("{of} just long enough")),
            (self.to_spare, format!("{of} with room to spare")),
        ]
    }

    fn scarcest(&self, of: &str) -> (u64, String) {
        self.named(of).into_iter().min().unwrap_or_default()
    }
}

impl fmt::Display for Kits {
    fn fmt(&self, f: &mut fmt::Formatter) -> fmt::Result {
        write!(f, "{}", self.reached)?;
        let rooms = [self.buffers.named("buffer"), self.outputs.named("output")];
        for (count, name) in rooms.iter().flatten() {
            writeln!(f, "{count:>10} {name}")?;
        }
        Ok(())
    }
}

/// The first line in which two texts differ, if they do.
fn first_line(model: &[u8], proved: &[u8]) -> Option<String> {
    let mut of_model = model.split_inclusive(|&byte| byte == b'\n');
    let mut of_proved = proved.split_inclusive(|&byte| byte == b'\n');
    let mut line = 0;
    loop {
        line += 1;
        match (of_model.next(), of_proved.next()) {
            (None, None) => return None,
            (model, proved) if model == proved => (),
            (model, proved) => {
                let (model, proved) = (shown(model), shown(proved));
                return Some(format!(
                    "line {line}\n  model:  {model}\n  proved: {proved}"
                ));
            }
        }
    }
}

/// A line as it is shown: its front, in quotes.
fn shown(line: Option<&[u8]>) -> String {
    match line {
        None => "nothing".to_owned(),
        Some(line) => format!("{:?}", String::from_utf8_lossy(&line[..line.len().min(60)])),
    }
}
