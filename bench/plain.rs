//! The rules of docs/RULES.md in ordinary Rust: reading, frames, pushing and a scale end under a work area.
//! It shares nothing with the proved translator; main.rs compares the two.
#![forbid(unsafe_code)]

use crate::Totals;

// ---- faults -------------------------------------------------------------------------------------------------------

#[derive(Clone, Copy)]
pub enum Fault {
    TooLong,
    Byte { place: usize },
    Shape { place: usize },
    Unknown { place: usize },
    Repeated { place: usize },
    Misplaced { place: usize },
    Unfit { place: usize },
    Range { place: usize },
    Ended,
    ChainFull { place: usize },
    IncrementalMachine { place: usize },
    Open { place: usize, axis: Axis },
    Beyond { place: usize, axis: Axis, step: u8 },
    Spread { place: usize, axis: Axis, step: u8 },
    Outside { place: usize, axis: Axis, level: u8 },
}

/// Number, layer, place, axis, step and level, as they are told.
pub struct Decline {
    pub number: u8,
    pub layer: u8,
    pub place: usize,
    pub axis: u8,
    pub step: u8,
    pub level: u8,
}

impl Fault {
    pub fn decline(self) -> Decline {
        let at = |number: u8, place: usize| Decline {
            number,
            layer: match number {
                1..=3 => 0,
                4..=9 => 1,
                10..=14 => 2,
                15 => 3,
                _ => 4,
            },
            place,
            axis: 0,
            step: 0,
            level: 0,
        };
        match self {
            Fault::TooLong => at(1, 512),
            Fault::Byte { place } => at(2, place),
            Fault::Shape { place } => at(3, place),
            Fault::Unknown { place } => at(4, place),
            Fault::Repeated { place } => at(5, place),
            Fault::Misplaced { place } => at(6, place),
            Fault::Unfit { place } => at(7, place),
            Fault::Range { place } => at(8, place),
            Fault::Ended => at(9, 0),
            Fault::ChainFull { place } => at(10, place),
            Fault::IncrementalMachine { place } => at(11, place),
            Fault::Open { place, axis } => Decline { axis: axis.number(), ..at(12, place) },
            Fault::Beyond { place, axis, step } => Decline { axis: axis.number(), step, ..at(13, place) },
            Fault::Spread { place, axis, step } => Decline { axis: axis.number(), step, ..at(14, place) },
            Fault::Outside { place, axis, level } => Decline { axis: axis.number(), level, ..at(15, place) },
        }
    }
}

// ---- words --------------------------------------------------------------------------------------------------------

#[derive(Clone, Copy, PartialEq)]
pub enum Axis {
    X,
    Y,
    Z,
}

const AXES: [Axis; 3] = [Axis::X, Axis::Y, Axis::Z];

impl Axis {
    fn number(self) -> u8 {
        self as u8 + 1
    }
}

#[derive(Clone, Copy, PartialEq)]
enum Plane {
    Xy,
    Zx,
    Yz,
}

impl Plane {
    /// The indices of its first and its second axis.
    fn axes(self) -> (usize, usize) {
        match self {
            Plane::Xy => (0, 1),
            Plane::Zx => (2, 0),
            Plane::Yz => (1, 2),
        }
    }
}

#[derive(Clone, Copy)]
enum Side {
    Lower,
    Upper,
}

#[derive(Clone, Copy)]
enum Kind {
    Offset,
    Turn,
    Scale,
    Mirror,
}

#[derive(Clone, Copy)]
enum Address {
    N,
    G,
    M,
    Code(u32),
    Value(u32),
    Axis(Axis),
    Rpl,
    Frame { kind: Kind, additive: bool },
}

// The bit that each address and each G group has in `Words::seen`.
const SEEN_N: u32 = 0;
const SEEN_F: u32 = 1;
const SEEN_S: u32 = 2;
const SEEN_T: u32 = 3;
const SEEN_D: u32 = 4;
const SEEN_RPL: u32 = 5;
const SEEN_AXIS: u32 = 6;
const SEEN_FRAME: u32 = 9;
const SEEN_GROUP: u32 = 17;

const NAMES: [(&[u8], Address); 9] = [
    (b"RPL", Address::Rpl),
    (b"TRANS", Address::Frame { kind: Kind::Offset, additive: false }),
    (b"ROT", Address::Frame { kind: Kind::Turn, additive: false }),
    (b"SCALE", Address::Frame { kind: Kind::Scale, additive: false }),
    (b"MIRROR", Address::Frame { kind: Kind::Mirror, additive: false }),
    (b"ATRANS", Address::Frame { kind: Kind::Offset, additive: true }),
    (b"AROT", Address::Frame { kind: Kind::Turn, additive: true }),
    (b"ASCALE", Address::Frame { kind: Kind::Scale, additive: true }),
    (b"AMIRROR", Address::Frame { kind: Kind::Mirror, additive: true }),
];

fn address(letters: &[u8]) -> Option<Address> {
    if let [letter] = letters {
        return Some(match letter.to_ascii_uppercase() {
            b'N' => Address::N,
            b'G' => Address::G,
            b'M' => Address::M,
            b'F' => Address::Value(SEEN_F),
            b'S' => Address::Value(SEEN_S),
            b'T' => Address::Code(SEEN_T),
            b'D' => Address::Code(SEEN_D),
            b'X' => Address::Axis(Axis::X),
            b'Y' => Address::Axis(Axis::Y),
            b'Z' => Address::Axis(Axis::Z),
            _ => return None,
        });
    }
    NAMES.iter().find(|(name, _)| letters.eq_ignore_ascii_case(name)).map(|&(_, address)| address)
}

#[derive(Clone, Copy)]
struct Number {
    value: i64,
    decimals: u32,
}

/// 1 to 8 digits, or the place of the first wrong byte.
fn code(text: &[u8]) -> Result<u32, usize> {
    let mut value = 0;
    for (i, &b) in text.iter().enumerate() {
        if !b.is_ascii_digit() || i == 8 {
            return Err(i);
        }
        value = value * 10 + u32::from(b - b'0');
    }
    if text.is_empty() { Err(0) } else { Ok(value) }
}

/// A sign, digits and a point, or the place of the first wrong byte.
fn number(text: &[u8]) -> Result<Number, usize> {
    let (negative, start) = match text.first() {
        Some(b'-') => (true, 1),
        Some(b'+') => (false, 1),
        _ => (false, 0),
    };
    let mut value = 0i64;
    let mut digits = 0;
    let mut point = None;
    for (i, &b) in text.iter().enumerate().skip(start) {
        match b {
            b'0'..=b'9' if digits < 10 => {
                value = value * 10 + i64::from(b - b'0');
                digits += 1;
            }
            b'.' if point.is_none() => point = Some(digits),
            _ => return Err(i),
        }
    }
    if digits == 0 {
        return Err(text.len());
    }
    Ok(Number {
        value: if negative { -value } else { value },
        decimals: point.map_or(0, |p| digits - p),
    })
}

fn allowed(b: u8) -> bool {
    b.is_ascii_alphanumeric() || matches!(b, b'+' | b'-' | b'.' | b'=')
}

// ---- typed blocks -------------------------------------------------------------------------------------------------

#[derive(Clone, Copy)]
enum Distance {
    Absolute,
    Incremental,
}

#[derive(Clone, Copy, Default)]
struct Selections {
    plane: Option<Plane>,
    settable: Option<u8>,
    inch: Option<bool>,
    distance: Option<Distance>,
}

#[derive(Clone, Copy)]
enum Instruction {
    Frame { kind: Kind, additive: bool },
    Limit(Side),
}

#[derive(Clone, Copy)]
enum Step {
    Offset([Option<i64>; 3]),
    Scale([Option<u32>; 3]),
    Mirror([bool; 3]),
    Turn(Turn),
}

enum Change {
    Empty,
    Replace(Step),
    Append(Step),
}

struct Ordinary {
    selections: Selections,
    machine: Option<usize>,
    words: [Option<i64>; 3],
    first: Option<usize>,
    ends: bool,
}

enum Block {
    Frame { change: Change, place: usize },
    Limit { side: Side, values: [Option<i64>; 3] },
    Ordinary(Ordinary),
}

/// The words of a block as they are gathered from the left.
#[derive(Default)]
struct Words {
    seen: u32,
    m_words: u8,
    any: bool,
    ends: bool,
    selections: Selections,
    machine: Option<usize>,
    instruction: Option<(Instruction, usize)>,
    axes: [Option<(Number, usize)>; 3],
    rpl: Option<(Number, usize)>,
    first_axis: Option<usize>,
    late: Option<usize>,
    stray: Option<usize>,
}

impl Words {
    fn mark(&mut self, bit: u32, place: usize) -> Result<(), Fault> {
        if self.seen & 1 << bit != 0 {
            return Err(Fault::Repeated { place });
        }
        self.seen |= 1 << bit;
        Ok(())
    }

    fn stray(&mut self, place: usize) {
        self.stray.get_or_insert(place);
    }

    fn instruct(&mut self, instruction: Instruction, place: usize) {
        if self.instruction.is_some() {
            self.stray(place);
        } else {
            self.instruction = Some((instruction, place));
        }
    }

    fn select(&mut self, code: u32, place: usize) -> Result<(), Fault> {
        let group = match code {
            0 | 1 => 0,
            17..=19 => 1,
            54..=59 | 500 => 2,
            53 => 3,
            70 | 71 => 4,
            90 | 91 => 5,
            25 | 26 => 6,
            _ => return Err(Fault::Unknown { place }),
        };
        self.mark(SEEN_GROUP + group, place)?;
        match code {
            17 => self.selections.plane = Some(Plane::Xy),
            18 => self.selections.plane = Some(Plane::Zx),
            19 => self.selections.plane = Some(Plane::Yz),
            500 => self.selections.settable = Some(0),
            54..=59 => self.selections.settable = Some((code - 53) as u8),
            53 => self.machine = Some(place),
            70 => self.selections.inch = Some(true),
            71 => self.selections.inch = Some(false),
            90 => self.selections.distance = Some(Distance::Absolute),
            91 => self.selections.distance = Some(Distance::Incremental),
            25 => self.instruct(Instruction::Limit(Side::Lower), place),
            26 => self.instruct(Instruction::Limit(Side::Upper), place),
            _ => {}
        }
        if group != 6 {
            self.stray(place);
        }
        Ok(())
    }

    /// One word more; 4, 3 and 5, where no wrong byte stands in it.
    fn add(&mut self, text: &[u8], place: usize) -> Result<(), Fault> {
        let letters = text.iter().take_while(|b| b.is_ascii_alphabetic()).count();
        let (front, tail) = text.split_at(letters);
        let Some(address) = address(front) else {
            return Err(Fault::Unknown { place });
        };
        let shape = |i: usize| Fault::Shape { place: place + letters + i };
        match address {
            Address::N => {
                code(tail).map_err(shape)?;
                self.mark(SEEN_N, place)?;
                if self.any {
                    self.late.get_or_insert(place);
                    self.stray(place);
                }
            }
            Address::G => self.select(code(tail).map_err(shape)?, place)?,
            Address::M => {
                let code = code(tail).map_err(shape)?;
                if self.m_words == 5 {
                    return Err(Fault::Repeated { place });
                }
                self.m_words += 1;
                self.ends |= code == 2 || code == 30;
                self.stray(place);
            }
            Address::Code(bit) => {
                code(tail).map_err(shape)?;
                self.mark(bit, place)?;
                self.stray(place);
            }
            Address::Value(bit) => {
                number(tail).map_err(shape)?;
                self.mark(bit, place)?;
                self.stray(place);
            }
            Address::Axis(axis) => {
                let number = number(tail).map_err(shape)?;
                self.mark(SEEN_AXIS + axis as u32, place)?;
                self.axes[axis as usize] = Some((number, place));
                self.first_axis.get_or_insert(place);
            }
            Address::Rpl => {
                let Some((b'=', rest)) = tail.split_first() else {
                    return Err(shape(0));
                };
                let number = number(rest).map_err(|i| shape(i + 1))?;
                self.mark(SEEN_RPL, place)?;
                self.rpl = Some((number, place));
            }
            Address::Frame { kind, additive } => {
                if !tail.is_empty() {
                    return Err(shape(0));
                }
                self.mark(SEEN_FRAME + 2 * kind as u32 + u32::from(additive), place)?;
                self.instruct(Instruction::Frame { kind, additive }, place);
            }
        }
        self.any = true;
        Ok(())
    }

    /// 2 to 5.
    fn read(bytes: &[u8]) -> Result<Words, Fault> {
        let mut words = Words::default();
        let mut place = 0;
        while let Some(&b) = bytes.get(place) {
            if b == b' ' {
                place += 1;
                continue;
            }
            if b == b';' {
                break;
            }
            let rest = &bytes[place..];
            let len = rest.iter().position(|&b| b == b' ' || b == b';').unwrap_or(rest.len());
            let text = &rest[..len];
            if let Err(fault) = words.add(text, place) {
                // 2 comes before what else is wrong with a word, but for its repetition: a repeated word is well shaped.
                return Err(match text.iter().position(|&b| !allowed(b)) {
                    Some(i) => Fault::Byte { place: place + i },
                    None => fault,
                });
            }
            place += len;
        }
        Ok(words)
    }

    /// 7.
    fn unfit(&self) -> Option<usize> {
        let axes = self.first_axis.is_some();
        let rpl = self.rpl.is_some();
        match self.instruction {
            Some((instruction, place)) => {
                let wrong = match instruction {
                    Instruction::Frame { kind: Kind::Turn, additive } => axes || (additive && !rpl),
                    Instruction::Frame { additive, .. } => rpl || (additive && !axes),
                    Instruction::Limit(_) => rpl || !axes,
                };
                wrong.then_some(place)
            }
            None => self.rpl.map(|(_, place)| place),
        }
    }

    /// 6 to 8, or what the block says.
    fn judge(&self, inch_in_force: bool) -> Result<Block, Fault> {
        let misplaced = if self.instruction.is_some() { self.stray } else { self.late };
        if let Some(place) = misplaced {
            return Err(Fault::Misplaced { place });
        }
        if let Some(place) = self.unfit() {
            return Err(Fault::Unfit { place });
        }
        let inch = self.selections.inch.unwrap_or(inch_in_force);
        match self.instruction {
            None => Ok(Block::Ordinary(Ordinary {
                selections: self.selections,
                machine: self.machine,
                words: self.measured(|n| length(n, inch))?,
                first: self.first_axis,
                ends: self.ends,
            })),
            Some((Instruction::Limit(side), _)) => Ok(Block::Limit { side, values: self.measured(|n| length(n, inch))? }),
            Some((Instruction::Frame { kind, additive }, place)) => {
                let step = match kind {
                    Kind::Offset => Step::Offset(self.measured(|n| length(n, inch))?),
                    Kind::Scale => Step::Scale(self.measured(factor)?),
                    Kind::Mirror => Step::Mirror(self.axes.map(|word| word.is_some())),
                    Kind::Turn => Step::Turn(Turn::new(match self.rpl {
                        Some((n, place)) => ticks(n).ok_or(Fault::Range { place })?,
                        None => 0,
                    })),
                };
                let change = if additive {
                    Change::Append(step)
                } else if self.first_axis.is_some() || self.rpl.is_some() {
                    Change::Replace(step)
                } else {
                    Change::Empty
                };
                Ok(Block::Frame { change, place })
            }
        }
    }

    /// The axis words by a measure, or the leftmost that it does not take.
    fn measured<T: Copy>(&self, measure: impl Fn(Number) -> Option<T>) -> Result<[Option<T>; 3], Fault> {
        let mut values = [None; 3];
        let mut wrong: Option<usize> = None;
        for (value, word) in values.iter_mut().zip(self.axes) {
            if let Some((number, place)) = word {
                *value = measure(number);
                if value.is_none() {
                    wrong = Some(wrong.map_or(place, |w| w.min(place)));
                }
            }
        }
        match wrong {
            Some(place) => Err(Fault::Range { place }),
            None => Ok(values),
        }
    }
}

const POWERS: [i64; 6] = [1, 10, 100, 1_000, 10_000, 100_000];
const LENGTH_MOST: u64 = 999_999_999;

/// A number in 10^-decimals of a whole.
fn whole(number: Number, decimals: u32) -> Option<i64> {
    Some(number.value * POWERS[decimals.checked_sub(number.decimals)? as usize])
}

fn length(number: Number, inch: bool) -> Option<i64> {
    let units = if inch { whole(number, 4)? * 254 } else { whole(number, 5)? };
    (units.unsigned_abs() <= LENGTH_MOST).then_some(units)
}

fn factor(number: Number) -> Option<u32> {
    let parts = whole(number, 5)?;
    (1..=10_000_000).contains(&parts).then_some(parts as u32)
}

const FULL_TURN: i64 = 3_600_000;

fn ticks(number: Number) -> Option<u32> {
    let ticks = whole(number, 4)?;
    (ticks.abs() < FULL_TURN).then_some(ticks.rem_euclid(FULL_TURN) as u32)
}

fn read_block(bytes: &[u8], inch: bool) -> Result<Block, Fault> {
    if bytes.len() > 512 {
        return Err(Fault::TooLong);
    }
    Words::read(bytes)?.judge(inch)
}

// ---- turns and pushing --------------------------------------------------------------------------------------------

const QUARTER: u32 = 900_000;

fn octant(ticks: u32) -> (i64, i64) {
    const SCALE: u128 = 1_000_000_000_000_000_000;
    let x = u128::from(ticks) * 314159265358979323846 / 180_000_000;
    let mut terms = [SCALE; 17];
    for k in 1..17 {
        terms[k] = terms[k - 1] * x / (k as u128 * SCALE);
    }
    let t = terms;
    let cosine = t[0] - (t[2] - t[4]) - (t[6] - t[8]) - (t[10] - t[12]) - (t[14] - t[16]);
    let sine = (t[1] - t[3]) + (t[5] - t[7]) + (t[9] - t[11]) + (t[13] - t[15]);
    let rounded = |t: u128| ((t + 500_000_000) / 1_000_000_000) as i64;
    (rounded(cosine), rounded(sine))
}

/// Cosine and sine in 10^9ths.
fn turn_numbers(ticks: u32) -> (i64, i64) {
    let a = ticks % QUARTER;
    let (c, s) = if a <= 450_000 {
        octant(a)
    } else {
        let (s, c) = octant(QUARTER - a);
        (c, s)
    };
    match ticks / QUARTER {
        0 => (c, s),
        1 => (-s, c),
        2 => (-c, -s),
        _ => (s, -c),
    }
}

/// A turn of the plane in force. With `--cfg kept` its numbers are worked out when it is programmed, else when a point is pushed.
#[derive(Clone, Copy)]
struct Turn {
    plane: Plane,
    ticks: u32,
    #[cfg(kept)]
    numbers: (i64, i64),
}

impl Turn {
    fn new(ticks: u32) -> Turn {
        Turn {
            plane: Plane::Xy,
            ticks,
            #[cfg(kept)]
            numbers: turn_numbers(ticks),
        }
    }

    fn further(self, ticks: u32) -> Turn {
        Turn { plane: self.plane, ..Turn::new((self.ticks + ticks) % FULL_TURN as u32) }
    }

    #[cfg(kept)]
    fn numbers(&self) -> (i64, i64) {
        self.numbers
    }

    #[cfg(not(kept))]
    fn numbers(&self) -> (i64, i64) {
        turn_numbers(self.ticks)
    }
}

/// To the nearest, ties away from zero.
fn div_nearest(dividend: i64, divisor: i64) -> i64 {
    let half = divisor / 2;
    (if dividend >= 0 { dividend + half } else { dividend - half }) / divisor
}

/// Coordinates and spreads by axis.
#[derive(Clone, Copy)]
struct Image {
    at: [i64; 3],
    spread: [u64; 3],
}

const BILLION: i64 = 1_000_000_000;
const FAR: u64 = 2_000_000_000;
const SETTABLE_STEP: u8 = 9;

impl Image {
    fn offset(&mut self, by: &[i64; 3], moved: [bool; 3]) {
        for a in 0..3 {
            if moved[a] {
                self.at[a] += by[a];
            }
        }
    }

    fn scale(&mut self, a: usize, factor: u32) {
        let product = i64::from(factor) * self.at[a];
        let wider = u64::from(factor.max(100_000));
        self.at[a] = div_nearest(product, 100_000);
        self.spread[a] = (self.spread[a] * wider).div_ceil(100_000) + u64::from(product % 100_000 != 0);
    }

    /// Both axes of a turn move, or neither.
    fn turn(&mut self, turn: &Turn) {
        let (first, second) = turn.plane.axes();
        let (i, j) = (self.at[first], self.at[second]);
        if turn.ticks % QUARTER == 0 {
            let quarters = turn.ticks / QUARTER;
            (self.at[first], self.at[second]) = match quarters {
                0 => (i, j),
                1 => (-j, i),
                2 => (-i, -j),
                _ => (j, -i),
            };
            if quarters % 2 == 1 {
                self.spread.swap(first, second);
            }
            return;
        }
        let (c, s) = turn.numbers();
        self.at[first] = div_nearest(c * i - s * j, BILLION);
        self.at[second] = div_nearest(s * i + c * j, BILLION);
        let wider = self.spread[first].max(self.spread[second]);
        let spread = (3 * wider).div_ceil(2) + (i.unsigned_abs() + j.unsigned_abs()).div_ceil(BILLION as u64) + 1;
        self.spread[first] = spread;
        self.spread[second] = spread;
    }

    fn through(&mut self, step: &Step, moved: [bool; 3]) {
        match step {
            Step::Offset(by) => self.offset(&by.map(|o| o.unwrap_or(0)), moved),
            Step::Scale(by) => {
                for a in 0..3 {
                    if let (true, Some(factor)) = (moved[a], by[a]) {
                        self.scale(a, factor);
                    }
                }
            }
            Step::Mirror(named) => {
                for a in 0..3 {
                    if moved[a] && named[a] {
                        self.at[a] = -self.at[a];
                    }
                }
            }
            Step::Turn(turn) => {
                if moved[turn.plane.axes().0] {
                    self.turn(turn);
                }
            }
        }
    }

    /// 13, then 14.
    fn test(&self, step: u8, moved: [bool; 3], tolerance: u64, place: usize) -> Result<(), Fault> {
        for a in 0..3 {
            if moved[a] && self.at[a].unsigned_abs() > FAR {
                return Err(Fault::Beyond { place, axis: AXES[a], step });
            }
        }
        for a in 0..3 {
            if moved[a] && self.spread[a] > tolerance {
                return Err(Fault::Spread { place, axis: AXES[a], step });
            }
        }
        Ok(())
    }
}

const MOST_STEPS: usize = 8;

struct Chain {
    steps: [Step; MOST_STEPS],
    count: usize,
}

impl Chain {
    fn new() -> Chain {
        Chain { steps: [Step::Mirror([false; 3]); MOST_STEPS], count: 0 }
    }

    fn steps(&self) -> &[Step] {
        &self.steps[..self.count]
    }

    fn replace(&mut self, step: Step) {
        self.steps[0] = step;
        self.count = 1;
    }

    fn append(&mut self, step: Step, place: usize) -> Result<(), Fault> {
        if let (Some(Step::Turn(last)), Step::Turn(next)) = (self.steps[..self.count].last_mut(), step) {
            if last.plane == next.plane {
                *last = last.further(next.ticks);
                return Ok(());
            }
        }
        if self.count == MOST_STEPS {
            return Err(Fault::ChainFull { place });
        }
        self.steps[self.count] = step;
        self.count += 1;
        Ok(())
    }

    fn touched(&self) -> [bool; 3] {
        let mut touched = [false; 3];
        for step in self.steps() {
            for (t, by) in touched.iter_mut().zip(touches(step)) {
                *t |= by;
            }
        }
        touched
    }

    /// The named axes, and those that turns join to them.
    fn moved(&self, named: [bool; 3]) -> [bool; 3] {
        let mut moved = named;
        // Two rounds reach the third axis by way of the second.
        for _ in 0..2 {
            for step in self.steps() {
                if let Step::Turn(turn) = step {
                    let (i, j) = turn.plane.axes();
                    let either = moved[i] || moved[j];
                    moved[i] = either;
                    moved[j] = either;
                }
            }
        }
        moved
    }
}

fn touches(step: &Step) -> [bool; 3] {
    match step {
        Step::Offset(by) => by.map(|o| o.is_some()),
        Step::Scale(by) => by.map(|f| f.is_some()),
        Step::Mirror(named) => *named,
        Step::Turn(turn) => {
            let (i, j) = turn.plane.axes();
            let mut touched = [false; 3];
            touched[i] = true;
            touched[j] = true;
            touched
        }
    }
}

// ---- machine ends -------------------------------------------------------------------------------------------------

/// The lowest axis outside some box, and the level of the first such box for it.
#[derive(Clone, Copy)]
pub struct Outside {
    axis: usize,
    level: u8,
}

pub trait MachineEnd {
    fn ask(&self, to: &[i64; 3]) -> Result<(), Outside>;
    fn take(&mut self, to: &[i64; 3]) -> Result<(), Outside>;
    fn held(&self) -> [i64; 3];
}

#[derive(Clone, Copy)]
pub struct Bounds {
    pub lower: [i64; 3],
    pub upper: [i64; 3],
}

impl Bounds {
    fn admit(&self, to: &[i64; 3]) -> Result<(), Outside> {
        match (0..3).find(|&a| to[a] < self.lower[a] || to[a] > self.upper[a]) {
            Some(axis) => Err(Outside { axis, level: 0 }),
            None => Ok(()),
        }
    }
}

pub struct ScaleEnd {
    pub bounds: Bounds,
    pub increment: i64,
    pub position: [i64; 3],
}

impl MachineEnd for ScaleEnd {
    fn ask(&self, to: &[i64; 3]) -> Result<(), Outside> {
        self.bounds.admit(to)
    }

    fn take(&mut self, to: &[i64; 3]) -> Result<(), Outside> {
        self.ask(to)?;
        self.position = to.map(|v| div_nearest(v, self.increment) * self.increment);
        Ok(())
    }

    fn held(&self) -> [i64; 3] {
        self.position
    }
}

struct WorkArea<E> {
    own: Bounds,
    below: E,
}

impl<E: MachineEnd> WorkArea<E> {
    fn joined(own: Result<(), Outside>, below: Result<(), Outside>) -> Result<(), Outside> {
        match (own, below) {
            (Err(own), Err(below)) if own.axis <= below.axis => Err(own),
            (_, Err(below)) => Err(Outside { level: below.level.saturating_add(1), ..below }),
            (own, Ok(())) => own,
        }
    }
}

impl<E: MachineEnd> MachineEnd for WorkArea<E> {
    fn ask(&self, to: &[i64; 3]) -> Result<(), Outside> {
        Self::joined(self.own.admit(to), self.below.ask(to))
    }

    fn take(&mut self, to: &[i64; 3]) -> Result<(), Outside> {
        match self.own.admit(to) {
            Ok(()) => Self::joined(Ok(()), self.below.take(to)),
            own => Self::joined(own, self.below.ask(to)),
        }
    }

    fn held(&self) -> [i64; 3] {
        self.below.held()
    }
}

// ---- the translator -----------------------------------------------------------------------------------------------

pub struct Translator<E> {
    pile: WorkArea<E>,
    tolerance: u64,
    chain: Chain,
    offsets: [[i64; 3]; 6],
    plane: Plane,
    settable: u8,
    inch: bool,
    distance: Distance,
    values: [Option<i64>; 3],
    image: Image,
    ended: bool,
}

struct Reply {
    moved: [bool; 3],
    image: Image,
}

impl<E: MachineEnd> Translator<E> {
    pub fn new(end: E, tolerance: u64) -> Translator<E> {
        let image = Image { at: end.held(), spread: [0; 3] };
        let most = FAR as i64;
        Translator {
            pile: WorkArea { own: Bounds { lower: [-most; 3], upper: [most; 3] }, below: end },
            tolerance,
            chain: Chain::new(),
            offsets: [[0; 3]; 6],
            plane: Plane::Xy,
            settable: 0,
            inch: false,
            distance: Distance::Absolute,
            values: [None; 3],
            image,
            ended: false,
        }
    }

    fn still(&self) -> Reply {
        Reply { moved: [false; 3], image: self.image }
    }

    fn open(&mut self, touched: [bool; 3]) {
        for a in 0..3 {
            if touched[a] {
                self.values[a] = None;
            }
        }
    }

    fn in_plane(&self, mut step: Step) -> Step {
        if let Step::Turn(turn) = &mut step {
            turn.plane = self.plane;
        }
        step
    }

    fn change_frame(&mut self, change: Change, place: usize) -> Result<(), Fault> {
        match change {
            Change::Empty => {
                self.open(self.chain.touched());
                self.chain.count = 0;
            }
            Change::Replace(step) => {
                let step = self.in_plane(step);
                self.open(self.chain.touched());
                self.open(touches(&step));
                self.chain.replace(step);
            }
            Change::Append(step) => {
                let step = self.in_plane(step);
                self.chain.append(step, place)?;
                self.open(touches(&step));
            }
        }
        Ok(())
    }

    fn select(&mut self, block: &Ordinary) {
        let by = &block.selections;
        if let Some(settable) = by.settable {
            if settable != self.settable {
                self.settable = settable;
                self.values = [None; 3];
            }
        }
        self.plane = by.plane.unwrap_or(self.plane);
        self.inch = by.inch.unwrap_or(self.inch);
        self.distance = by.distance.unwrap_or(self.distance);
        self.ended |= block.ends;
    }

    /// Where the moved axes stand on the workpiece: 12, then 13 at step 0.
    fn placed(&self, block: &Ordinary, moved: [bool; 3], place: usize) -> Result<[Option<i64>; 3], Fault> {
        let opens = block.selections.settable.is_some_and(|s| s != self.settable);
        let before = if opens { [None; 3] } else { self.values };
        let distance = block.selections.distance.unwrap_or(self.distance);
        let mut values = before;
        for a in 0..3 {
            if let Some(word) = block.words[a] {
                values[a] = match distance {
                    Distance::Absolute => Some(word),
                    Distance::Incremental => before[a].map(|v| v + word),
                };
            }
        }
        for a in 0..3 {
            if moved[a] && values[a].is_none() {
                return Err(Fault::Open { place, axis: AXES[a] });
            }
        }
        for a in 0..3 {
            if moved[a] && values[a].is_some_and(|v| v.unsigned_abs() > LENGTH_MOST) {
                return Err(Fault::Beyond { place, axis: AXES[a], step: 0 });
            }
        }
        Ok(values)
    }

    fn push(&self, block: &Ordinary, moved: [bool; 3], at: [i64; 3], place: usize) -> Result<Image, Fault> {
        let mut image = Image { at, spread: [0; 3] };
        for (n, step) in self.chain.steps().iter().enumerate().rev() {
            image.through(step, moved);
            image.test(n as u8 + 1, moved, self.tolerance, place)?;
        }
        let settable = block.selections.settable.unwrap_or(self.settable);
        if settable != 0 {
            image.offset(&self.offsets[settable as usize - 1], moved);
            image.test(SETTABLE_STEP, moved, self.tolerance, place)?;
        }
        Ok(image)
    }

    fn move_axes(&mut self, block: &Ordinary, place: usize) -> Result<Reply, Fault> {
        let named = block.words.map(|word| word.is_some());
        let (moved, values, pushed) = match block.machine {
            Some(g53) => {
                if let Distance::Incremental = block.selections.distance.unwrap_or(self.distance) {
                    return Err(Fault::IncrementalMachine { place: g53 });
                }
                let at = block.words.map(|word| word.unwrap_or(0));
                (named, [None; 3], Image { at, spread: [0; 3] })
            }
            None => {
                let moved = self.chain.moved(named);
                let values = self.placed(block, moved, place)?;
                let at = values.map(|value| value.unwrap_or(0));
                (moved, values, self.push(block, moved, at, place)?)
            }
        };
        let mut image = self.image;
        for a in 0..3 {
            if moved[a] {
                image.at[a] = pushed.at[a];
                image.spread[a] = pushed.spread[a];
            }
        }
        self.pile
            .take(&image.at)
            .map_err(|o| Fault::Outside { place, axis: AXES[o.axis], level: o.level })?;
        self.select(block);
        self.values = values;
        self.image = image;
        Ok(Reply { moved, image })
    }

    fn block(&mut self, bytes: &[u8]) -> Result<Reply, Fault> {
        let block = read_block(bytes, self.inch)?;
        if self.ended {
            return Err(Fault::Ended);
        }
        match block {
            Block::Frame { change, place } => self.change_frame(change, place)?,
            Block::Limit { side, values } => {
                let limits = match side {
                    Side::Lower => &mut self.pile.own.lower,
                    Side::Upper => &mut self.pile.own.upper,
                };
                for (limit, value) in limits.iter_mut().zip(values) {
                    *limit = value.unwrap_or(*limit);
                }
            }
            Block::Ordinary(block) => match block.first {
                Some(place) => return self.move_axes(&block, place),
                None => self.select(&block),
            },
        }
        Ok(self.still())
    }
}

// ---- a text -------------------------------------------------------------------------------------------------------

impl Totals {
    fn add(&mut self, answer: Result<Reply, Fault>) {
        let fold = |sum: u64, value: u64| sum.wrapping_mul(31).wrapping_add(value);
        match answer {
            Ok(reply) => {
                if reply.moved.contains(&true) {
                    self.moves += 1;
                    for a in 0..3 {
                        self.targets = self.targets.wrapping_mul(31).wrapping_add(reply.image.at[a]);
                        self.spreads = fold(self.spreads, reply.image.spread[a]);
                    }
                }
            }
            Err(fault) => {
                let d = fault.decline();
                self.declines += 1;
                for value in [d.number.into(), d.layer.into(), d.place as u64, d.axis.into(), d.step.into(), d.level.into()] {
                    self.faults = fold(self.faults, value);
                }
            }
        }
    }
}

/// Works the lines of a text as blocks of a new translator over a scale end.
#[inline(never)]
pub fn plain_work(text: &[u8], tolerance: u64, totals: &mut Totals) {
    const LIMIT: i64 = 50_000_000;
    let end = ScaleEnd {
        bounds: Bounds { lower: [-LIMIT; 3], upper: [LIMIT; 3] },
        increment: 100,
        position: [0; 3],
    };
    let mut translator = Translator::new(end, tolerance);
    let text = text.strip_suffix(b"\n").unwrap_or(text);
    for line in text.split(|&b| b == b'\n') {
        totals.add(translator.block(line));
    }
}
