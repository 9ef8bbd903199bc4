//! Input words in readable form.

use crate::channel::{bit, INPUT_BITS};
use crate::direction::DIRECTION_BITS;
use crate::gear::GEAR_BITS;

/// The external stops, with their letters and input bits.
const STOPS: [(&str, u32); 4] = [
    ("stop-A", 18),
    ("stop-C", 19),
    ("stop-D", 20),
    ("stop-E", 21),
];

/// The bits of all four external stops.
const ALL_STOPS: u32 = 0xf << 18;

/// The ways that safe direction leaves, with their input bits; none while both bits are 0.
const WAYS: [(&str, u32); 3] = [
    ("positive-only", 1 << 14),
    ("negative-only", 1 << 13),
    ("both-ways", DIRECTION_BITS),
];

/// An input word being put together.
#[derive(Clone, Copy, Debug, Default)]
pub struct InputWord {
    bits: u32,
    any: bool,
    selection: bool,
    se: bool,
    override_given: bool,
    gear_given: bool,
    way: bool,
    no_stop: bool,
    stops: u32,
}

impl InputWord {
    /// Takes a word of the text: whether it was one of an input word, or why it cannot be.
    pub fn take(
        &mut self,
        token: &str,
        rest: &mut dyn Iterator<Item = &str>,
    ) -> Result<bool, String> {
        match token {
            "off" => self.bits |= 1,
            "SBH" => self.select(0)?,
            "SG1" | "SG2" | "SG3" | "SG4" => {
                let less_one = u32::from(token.as_bytes()[2] - b'1');
                self.select(1 << 1 | less_one << 3)?;
            }
            "SE1" | "SE2" => {
                if self.se {
                    return Err("SE is chosen twice".into());
                }
                self.se = true;
                self.bits |= u32::from(token == "SE2") << 12;
            }
            "override" => {
                let number = number_below(16, "an override number", rest)?;
                if self.override_given {
                    return Err("the override is given twice".into());
                }
                self.override_given = true;
                self.bits |= number << 28;
            }
            "gear" => {
                let number = number_below(8, "a gear's number", rest)?;
                if self.gear_given {
                    return Err("the gear is given twice".into());
                }
                self.gear_given = true;
                self.bits |= number << 8;
            }
            "no-stop" => self.no_stop = true,
            "bit" => self.bits |= 1 << number_below(32, "a bit number", rest)?,
            _ if WAYS.iter().any(|way| way.0 == token) => {
                if self.way {
                    return Err("the direction is given twice".into());
                }
                self.way = true;
                let way = WAYS.iter().find(|way| way.0 == token);
                self.bits |= way.map_or(0, |way| way.1);
            }
            _ if STOPS.iter().any(|stop| stop.0 == token) => {
                let stop = STOPS
                    .iter()
                    .find(|stop| stop.0 == token)
                    .map_or(0, |stop| stop.1);
                self.stops |= 1 << stop;
            }
            _ => match token.strip_prefix("0x") {
                Some(digits) => self.bits |= hexadecimal(digits, token)?,
                None => return Ok(false),
            },
        }
        self.any = true;
        Ok(true)
    }

    fn select(&mut self, bits: u32) -> Result<(), String> {
        if self.selection {
            return Err("two of SBH, SG1 to SG4 are selected".into());
        }
        self.selection = true;
        self.bits |= bits;
        Ok(())
    }

    /// The whole input word.
    pub fn word(&self) -> Result<u32, String> {
        if !self.any {
            return Err("no inputs given: SBH, SG1 to SG4, off, or 0x and the word".into());
        }
        match (self.no_stop, self.stops) {
            (true, 1..) => Err("no-stop and an external stop stand together".into()),
            (true, 0) => Ok(self.bits | ALL_STOPS),
            (false, 0) => Ok(self.bits),
            (false, stops) => Ok(self.bits | ALL_STOPS & !stops),
        }
    }
}

fn hexadecimal(digits: &str, token: &str) -> Result<u32, String> {
    u32::from_str_radix(&digits.replace('_', ""), 16)
        .map_err(|_| format!("'{token}' is no 32-bit word"))
}

fn number_below(end: u32, what: &str, rest: &mut dyn Iterator<Item = &str>) -> Result<u32, String> {
    let token = rest.next().ok_or(format!("{what} is missing"))?;
    match token.parse() {
        Ok(number) if number < end => Ok(number),
        _ => Err(format!("'{token}' is not {what} from 0 to {}", end - 1)),
    }
}

/// An input word as text, in words if each of its bits has a meaning.
pub fn show(inputs: u32) -> String {
    if inputs & !(INPUT_BITS | GEAR_BITS | DIRECTION_BITS) != 0 {
        return format!("0x{inputs:08x}");
    }
    let mut items: Vec<String> = Vec::new();
    if bit(inputs, 0) {
        items.push("off".into());
    }
    if bit(inputs, 1) {
        items.push(format!("SG{}", (inputs >> 3 & 3) + 1));
    } else {
        if !bit(inputs, 0) {
            items.push("SBH".into());
        }
        let odd = [3, 4].into_iter().filter(|&number| bit(inputs, number));
        items.extend(odd.map(|number| format!("bit {number}")));
    }
    if inputs >> 28 != 0 {
        items.push(format!("override {}", inputs >> 28));
    }
    if inputs & GEAR_BITS != 0 {
        items.push(format!("gear {}", (inputs & GEAR_BITS) >> 8));
    }
    if bit(inputs, 12) {
        items.push("SE2".into());
    }
    let way = WAYS.iter().find(|way| way.1 == inputs & DIRECTION_BITS);
    items.extend(way.map(|way| way.0.into()));
    match inputs & ALL_STOPS {
        0 => (),
        ALL_STOPS => items.push("no-stop".into()),
        _ => {
            let stops = STOPS.iter().filter(|stop| !bit(inputs, stop.1));
            items.extend(stops.map(|stop| stop.0.into()));
        }
    }
    items.join(" ")
}
