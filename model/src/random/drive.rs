//! A log that drives two channels of the model to their bounds.

use super::Xorshift;
use crate::channel::{bit, Channel};
use crate::direction::{Directions, DIRECTION_BITS};
use crate::gear::GEAR_BITS;
use crate::machine_data::{number, Function, MachineData, HEADS};
use crate::selection::Selection;
use crate::stop::Rank;
use crate::{words, Paper};

/// The input bits of the external stops, all de-selected.
const NO_STOP: u32 = 0xf << 18;

/// A log of records and remarks for channels with these data.
pub fn log(
    random: &mut Xorshift,
    data_a: &[i32],
    data_b: &[i32],
    cycles: Option<usize>,
) -> Vec<Vec<u32>> {
    let longest = [number::NX_FILTER, number::DIRECTION_DELAY]
        .iter()
        .any(|&datum| data_a.get(datum) == Some(&1_000));
    let rests = cycles.is_none() && longest && random.percent(8);
    let cycles = cycles.unwrap_or_else(|| match rests {
        true => random.between(1_000, 1_100) as usize,
        false => any_cycles(random),
    });
    let remarks = match cycles {
        0 => random.pick(&[0, 60]),
        _ => random.pick(&[0, 0, 0, 10, 40]),
    };
    let fresh = |data| Channel::fresh(MachineData::of(data));
    let mut driver = Driver::new(random, fresh(data_a), fresh(data_b));
    if rests {
        // Long enough for the longest filter of n<nx, and for the longest delay of safe direction.
        driver.habits = Habits {
            moves: 0,
            idles: 0,
            travels: 0,
            turns: 0,
            ..driver.habits
        };
    }
    let mut log = Vec::new();
    for cycle in 0..cycles {
        if rests && cycle == 1_010 {
            driver.habits.travels = 60;
        }
        push_remarks(driver.random, remarks, &mut log);
        log.push(driver.record().to_vec());
    }
    push_remarks(random, remarks, &mut log);
    log
}

/// So many records for two channels with a past.
pub fn records(random: &mut Xorshift, a: &Channel, b: &Channel, cycles: usize) -> Vec<Vec<u32>> {
    let mut driver = Driver::new(random, *a, *b);
    if let Some(previous) = a.previous() {
        driver.position = previous.clamp(-100_000_000, 100_000_000);
    }
    (0..cycles).map(|_| driver.record().to_vec()).collect()
}

/// How many cycles a log has: mostly few, now and then as many as a kit can hold.
fn any_cycles(random: &mut Xorshift) -> usize {
    let cycles = match random.below(400) {
        0 => random.between(1_000, 2_200),
        1..=10 => 0,
        11..=230 => random.between(2, 14),
        231..=370 => random.between(10, 40),
        371..=390 => random.between(50, 120),
        _ => random.between(100, 400),
    };
    cycles as usize
}

pub fn push_remarks(random: &mut Xorshift, percent: usize, log: &mut Vec<Vec<u32>>) {
    while random.percent(percent) {
        let bits = random.pick(&[0, 1, 0x0fff_ffff, random.0 as u32]);
        log.push(vec![words::remark(bits)]);
    }
}

/// How a drive goes on the whole.
#[derive(Clone, Copy)]
struct Habits {
    /// Percent of cycles in which the axis moves.
    moves: usize,
    /// Percent of moves that go to a bound.
    bounds: usize,
    /// Percent of cycles in which the axis idles about nx.
    idles: usize,
    /// Percent of cycles in which the axis goes about what a watch of safe direction lets pass.
    travels: usize,
    /// Percent of cycles in which the inputs of safe direction change.
    turns: usize,
    /// Percent of cycles in which the inputs change.
    changes: usize,
    /// Percent of cycles with an external stop, if the inputs change.
    stops: usize,
    /// Percent of cycles in which the channels part.
    parts: usize,
    /// Percent of cycles that are unusable.
    unusable: usize,
    /// Percent of cycles that are acknowledged.
    acknowledges: usize,
}

struct Driver<'a> {
    random: &'a mut Xorshift,
    habits: Habits,
    a: Channel,
    b: Channel,
    position: i32,
    inputs: u32,
    inputs_b: u32,
    /// Cycles for which the input words go on to differ.
    differing: usize,
}

impl<'a> Driver<'a> {
    fn new(random: &'a mut Xorshift, a: Channel, b: Channel) -> Driver<'a> {
        let calm = random.percent(50);
        let habits = Habits {
            moves: random.pick(&[20, 40, 60]),
            bounds: random.pick(&[20, 50, 80]),
            idles: random.pick(&[0, 0, 0, 0, 20, 60]),
            travels: random.pick(&[0, 20, 40, 70]),
            turns: random.pick(&[0, 5, 10, 30]),
            changes: random.pick(&[10, 25, 50]),
            stops: random.pick(&[0, 10, 30]),
            parts: if calm { 0 } else { random.pick(&[2, 6, 20]) },
            unusable: if calm { 0 } else { random.pick(&[0, 2, 6, 15]) },
            acknowledges: random.pick(&[0, 10, 30, 60]),
        };
        let position = a.data().get(number::SE1_PLUS) - random.pick(&[0, 1, 10]);
        let mut driver = Driver {
            random,
            habits,
            a,
            b,
            position,
            inputs: 0,
            inputs_b: 0,
            differing: 0,
        };
        driver.inputs = driver.selection() | driver.gear() | driver.ways() | NO_STOP;
        driver
    }

    /// The next record, run on both channels.
    fn record(&mut self) -> [u32; 7] {
        let mut position = self.next_position();
        let inputs = self.next_inputs();
        let mut position_b = self.position_b(position);
        let mut inputs_b = self.inputs_b(inputs);
        let (mut inputs, position_kept) = (inputs, position);
        if self.random.percent(self.habits.unusable) {
            match self.random.below(6) {
                0 => position = self.far_position(),
                1 => position_b = self.far_position(),
                2 => inputs |= self.odd_bit(),
                3 => inputs_b |= self.odd_bit(),
                4 => {
                    inputs |= self.odd_bit();
                    inputs_b = inputs;
                }
                _ => {
                    position = self.far_position();
                    position_b = position;
                }
            }
        }
        let acknowledged = self.acknowledged();
        let from_a = self.a.report(position, inputs);
        let from_b = self.b.report(position_b, inputs_b);
        self.a.cycle(position, inputs, acknowledged, from_b);
        self.b.cycle(position_b, inputs_b, acknowledged, from_a);
        self.position = position_kept;
        words::record((position, inputs), (position_b, inputs_b), acknowledged)
    }

    /// The channel that the next bound is taken from.
    fn either(&mut self) -> Channel {
        if self.random.percent(70) {
            self.a
        } else {
            self.b
        }
    }

    fn acknowledged(&mut self) -> bool {
        let stopped = self.a.stop().rank != Rank::None || self.a.f().on;
        let percent = self.habits.acknowledges;
        self.random
            .percent(if stopped { percent } else { percent / 4 })
    }

    fn next_position(&mut self) -> i32 {
        let (minus, plus) = self.se();
        let outside = self.position < minus || self.position > plus;
        if outside && self.random.percent(30) {
            return minus + (plus - minus) / 2;
        }
        if self.random.percent(self.habits.idles) {
            return self.idle().clamp(-100_000_000, 100_000_000) as i32;
        }
        if self.watches() && self.random.percent(self.habits.travels) {
            return self.travel().clamp(-100_000_000, 100_000_000) as i32;
        }
        if !self.random.percent(self.habits.moves) {
            return self.position;
        }
        let moved = match self.random.percent(self.habits.bounds) {
            true => self.bound(),
            false => i64::from(self.position) + self.random.pick(&[-3, -1, 1, 1, 2, 7]),
        };
        moved.clamp(-100_000_000, 100_000_000) as i32
    }

    /// The ends of the SE that is chosen.
    fn se(&self) -> (i32, i32) {
        let data = self.a.data();
        match bit(self.inputs, 12) {
            false => (data.get(number::SE1_MINUS), data.get(number::SE1_PLUS)),
            true => (data.get(number::SE2_MINUS), data.get(number::SE2_PLUS)),
        }
    }

    /// A position at, or one beside, something that is watched.
    fn bound(&mut self) -> i64 {
        let channel = self.either();
        let data = channel.data();
        let beside = self.random.pick(&[-1, 0, 0, 1, 1]);
        let side = self.random.pick(&[-1, 1]);
        let standstill = i64::from(data.get(number::STANDSTILL));
        let here = i64::from(channel.previous().unwrap_or(self.position));
        match self.random.below(10) {
            0 | 1 => match channel.stop().held {
                Some(reference) => i64::from(reference) + side * (standstill + beside),
                None => here + side * (self.sg_step(&channel) + beside),
            },
            2 | 3 => match channel.selections().effective {
                Selection::Sbh => {
                    i64::from(channel.selections().reference) + side * (standstill + beside)
                }
                _ => here + side * (self.sg_step(&channel) + beside),
            },
            4 => {
                let end = self.random.pick(&[11, 12, 13, 14]);
                i64::from(data.get(end)) + beside
            }
            5 | 6 => {
                let edge = data.get(number::CAM + self.random.below(8));
                let tolerance = data.get(number::CAM_TOLERANCE);
                let tolerance = self.random.pick(&[0, tolerance, tolerance, -tolerance]);
                i64::from(edge) + i64::from(tolerance) + beside
            }
            7 => {
                let speed = self.random.pick(&[number::NX, number::SHUTDOWN]);
                let (numerator, denominator) = self.ratio(data);
                let bound = data.times_t(data.get(speed)) * denominator / (60 * numerator);
                here + side * (bound + beside)
            }
            8 => {
                // Times the numerator just past 32 bits, if it can be.
                let (numerator, _) = self.ratio(data);
                here + side * ((1 << 32) / numerator + beside)
            }
            _ => {
                let end = side * 100_000_000;
                self.random
                    .pick(&[here, here + side * 150, here + side * 40, end])
            }
        }
    }

    /// A position whose step is just below, at or above nx, or nx plus its hysteresis.
    fn idle(&mut self) -> i64 {
        let channel = self.either();
        let data = channel.data();
        let (nx, hysteresis) = (data.get(number::NX), data.get(number::NX_HYSTERESIS));
        let between = self.random.between(0, hysteresis.into()) as i32;
        let speed = nx
            + self
                .random
                .pick(&[0, 0, 0, hysteresis, hysteresis, between]);
        let (numerator, denominator) = self.ratio(data);
        // Rounded up: the slowest step that is not below.
        let bound = data.times_t(speed) * denominator;
        let bound = (bound + 60 * numerator - 1) / (60 * numerator);
        let beside = self.random.pick(&[-1, -1, -1, 0, 0, 1]);
        let here = i64::from(channel.previous().unwrap_or(self.position));
        // Back and forth, so that it stays where it is.
        let side = if here > 0 { -1 } else { 1 };
        here + side * (bound + beside).max(0)
    }

    /// Whether a channel has safe direction on.
    fn watches(&self) -> bool {
        let on = |channel: &Channel| channel.data().has(Paper, Function::SafeDirection);
        on(&self.a) || on(&self.b)
    }

    /// A position at, or one beside, the farthest that a watch lets pass; or farther in the free way.
    fn travel(&mut self) -> i64 {
        let channel = self.either();
        let Directions { positive, negative } = *channel.directions();
        let (watch, sign) = self
            .random
            .pick(&[(positive.watch, 1), (negative.watch, -1)]);
        let here = i64::from(channel.previous().unwrap_or(self.position));
        let Some(extreme) = watch else {
            return here + self.random.pick(&[-7, -1, 1, 7]);
        };
        let tolerance = i64::from(channel.data().get(number::DIRECTION_TOLERANCE));
        let beside = self.random.pick(&[-1, 0, 0, 1, 1]);
        match self.random.below(3) {
            0 => here + sign * self.random.pick(&[1, 3, 50]),
            _ => i64::from(extreme) - sign * (tolerance + beside),
        }
    }

    /// The bits of the ways that are free, 0 where a list has no safe direction.
    fn ways(&mut self) -> u32 {
        let ways = self.random.pick(&[0, 0, 1, 1, 2, 2, 3]) << 13;
        if self.watches() {
            ways
        } else {
            0
        }
    }

    /// The longest step that some SG lets pass.
    fn sg_step(&mut self, channel: &Channel) -> i64 {
        let (sg, override_number) = match channel.selections().effective {
            Selection::Sg {
                sg,
                override_number,
            } => (sg, override_number),
            _ => (self.random.below(4) as u8, self.random.below(16) as u8),
        };
        let other = (self.inputs >> 28) as u8;
        let override_number = self.random.pick(&[override_number, override_number, other]);
        let data = channel.data();
        let product = Selection::limit_percent(Paper, data, sg, override_number);
        let (numerator, denominator) = self.ratio(data);
        product * i64::from(data.get(number::T)) * denominator / (6000 * numerator)
    }

    /// The ratio that the inputs pick, or another.
    fn ratio(&mut self, data: &MachineData) -> (i64, i64) {
        let present = (self.inputs & GEAR_BITS) as usize >> 8;
        let any = self.random.below(8);
        let gear = self.random.pick(&[present, present, present, any]);
        let of = |first: usize| i64::from(data.get(first + gear)).max(1);
        (of(number::NUMERATOR), of(number::DENOMINATOR))
    }

    /// The bits of a ratio's number, 0 where a list has none.
    fn gear(&mut self) -> u32 {
        let [a, b] = [&self.a, &self.b].map(|channel| channel.data().head() >= HEADS[1]);
        let gear = (self.random.below(8) as u32) << 8;
        if a && b || (a || b) && self.random.percent(50) {
            gear
        } else {
            0
        }
    }

    fn next_inputs(&mut self) -> u32 {
        if self.random.percent(self.habits.changes) {
            let kept = self.inputs;
            self.inputs = match self.random.below(11) {
                0..=3 => kept & !0xf000_001b | self.selection(),
                8 | 9 => kept & !GEAR_BITS | self.gear(),
                10 => kept & !0xf000_071b | self.selection() | self.gear(),
                4 => kept ^ 1 << 12,
                5 => kept & 0x0fff_ffff | (self.random.below(16) as u32) << 28,
                6 => kept ^ self.random.pick(&[1, 2, 8, 16]),
                _ => kept ^ 0x1000_0000,
            };
            self.inputs |= NO_STOP;
            let stops = self.a.data().has(Paper, Function::ExternalStops);
            if stops && self.random.percent(self.habits.stops) {
                self.inputs &= !((self.random.next() as u32 & self.random.next() as u32) & NO_STOP);
            }
            if !stops && self.random.percent(20) {
                self.inputs &= !NO_STOP;
            }
        }
        if self.random.percent(self.habits.turns) {
            self.inputs = self.inputs & !DIRECTION_BITS | self.ways();
        }
        self.meet_f();
        self.inputs
    }

    /// Where only a selection can be active, one comes and goes while F is on, so that its end is met with and without.
    fn meet_f(&mut self) {
        let data = self.a.data();
        let other = data.has(Paper, Function::Se) || data.has(Paper, Function::Cams);
        if self.a.f().on && !other && self.random.percent(25) {
            self.inputs ^= 1;
        }
    }

    /// The bits of a selection with an override.
    fn selection(&mut self) -> u32 {
        let override_number = if self.random.percent(50) {
            self.random.below(16) as u32
        } else {
            0
        };
        let selection = match self.random.below(10) {
            0 => 1,
            1 => self.random.below(4) as u32 | (self.random.below(4) as u32) << 3,
            2 | 3 => 0,
            _ => 2 | (self.random.below(4) as u32) << 3,
        };
        selection | override_number << 28
    }

    fn position_b(&mut self, position: i32) -> i32 {
        if !self.random.percent(self.habits.parts) {
            return position;
        }
        let allowed = self.either().data().get(number::POSITION_DIFFERENCE);
        let apart = allowed + self.random.pick(&[-1, 0, 0, 1, 1, 2]);
        let side = self.random.pick(&[-1, 1]);
        (position + side * apart).clamp(-100_000_000, 100_000_000)
    }

    fn inputs_b(&mut self, inputs: u32) -> u32 {
        if self.differing == 0 && self.random.percent(self.habits.parts) {
            let allowed = self
                .either()
                .data()
                .get(number::INPUT_DIFFERENCE)
                .clamp(0, 5);
            self.differing = (allowed + self.random.pick(&[0, 1, 1, 2])) as usize;
            let odd = self.random.pick(&[
                1,
                2,
                8,
                16,
                1 << 8,
                1 << 10,
                1 << 12,
                1 << 13,
                1 << 14,
                1 << 18,
                1 << 21,
                1 << 28,
                1 << 31,
            ]);
            self.inputs_b = odd;
        }
        if self.differing == 0 {
            return inputs;
        }
        self.differing -= 1;
        inputs ^ self.inputs_b
    }

    fn far_position(&mut self) -> i32 {
        self.random.pick(&[
            100_000_001,
            -100_000_001,
            100_000_001,
            134_217_727,
            -134_217_728,
            120_000_000,
        ])
    }

    /// One bit that has no meaning, now and then beside the bits of both directions.
    fn odd_bit(&mut self) -> u32 {
        let ways = if self.random.percent(20) {
            self.ways()
        } else {
            0
        };
        loop {
            let number = self
                .random
                .pick(&[2, 5, 7, 11, 13, 15, 17, 22, 27, 6, 8, 9, 10, 14, 16, 23, 25]);
            if !bit(crate::channel::INPUT_BITS, number) {
                return ways | 1 << number;
            }
        }
    }
}
