//! Random layouts and arguments that suit them.

use crate::dice::Dice;
use crate::limits::{COUNT_MAX, LAYOUT_MAX};
use crate::values::Value;

#[derive(Clone, Copy, PartialEq, Eq, Debug)]
pub enum Count {
    Absent,
    All,
    Number(usize),
}

/// One field of a layout.
#[derive(Clone, Copy, PartialEq, Eq, Debug)]
pub struct Spec {
    pub letter: u8,
    pub flag: bool,
    pub count: Count,
}

impl Spec {
    pub fn takes_slot(&self) -> bool {
        !b"xX@".contains(&self.letter)
    }

    /// The bytes of one item, for the types of integers and reals.
    pub fn width(&self) -> Option<usize> {
        match self.letter {
            b'c' => Some(1),
            b's' | b'S' => Some(2),
            b'i' | b'I' | b'r' | b'R' => Some(4),
            b'w' | b'W' | b'q' | b'Q' => Some(8),
            _ => None,
        }
    }

    /// The count as a number, `all` for `*`.
    pub fn or_all(&self, all: usize) -> usize {
        match self.count {
            Count::Absent => 1,
            Count::All => all,
            Count::Number(n) => n,
        }
    }
}

/// How many of the fields take a slot.
pub fn takers(specs: &[Spec]) -> usize {
    specs.iter().filter(|s| s.takes_slot()).count()
}

const TAKERS: &[u8] = b"aAbBhHcsSiIwWqQrR";
const MOVES: &[u8] = b"xxX@";

fn random_number(dice: &mut Dice) -> usize {
    match dice.below(400) {
        0..=219 => dice.below(10),
        220..=339 => dice.below(40),
        340..=379 => dice.below(200),
        380..=395 => dice.below(1500),
        396 | 397 => dice.pick(&[COUNT_MAX - 6, COUNT_MAX - 1, COUNT_MAX]),
        _ => dice.between(0, COUNT_MAX),
    }
}

/// A count that may be refused.
fn wild_count(dice: &mut Dice) -> Count {
    match dice.below(3) {
        0 => Count::Absent,
        1 => Count::All,
        _ => Count::Number(dice.pick(&[
            COUNT_MAX + 1,
            COUNT_MAX + 2,
            COUNT_MAX + 1000,
            10 * COUNT_MAX,
            1 << 32,
            1 << 62,
        ])),
    }
}

fn random_count(dice: &mut Dice, letter: u8, packing: bool) -> Count {
    if dice.once_in(150) {
        return wild_count(dice);
    }
    match dice.below(10) {
        0..=2 if letter != b'@' => Count::Absent,
        3 if letter != b'x' || !packing => Count::All,
        _ => Count::Number(random_number(dice)),
    }
}

pub fn random_spec(dice: &mut Dice, packing: bool) -> Spec {
    let letter = if dice.once_in(4) {
        dice.pick(MOVES)
    } else {
        dice.pick(TAKERS)
    };
    Spec {
        letter,
        flag: dice.once_in(3),
        count: random_count(dice, letter, packing),
    }
}

/// A field without `*`, `X` or `@`.
pub fn plain_spec(dice: &mut Dice) -> Spec {
    loop {
        let spec = random_spec(dice, true);
        if !b"X@".contains(&spec.letter) && spec.or_all(usize::MAX) <= COUNT_MAX {
            return spec;
        }
    }
}

pub fn random_specs(dice: &mut Dice, packing: bool) -> Vec<Spec> {
    let len = match dice.below(100) {
        0..=3 => 0,
        4..=54 => dice.between(1, 4),
        55..=89 => dice.between(5, 12),
        90..=97 => dice.between(13, 64),
        _ => dice.between(60, 100),
    };
    (0..len).map(|_| random_spec(dice, packing)).collect()
}

fn spell(dice: &mut Dice, spec: &Spec, text: &mut Vec<u8>) {
    if dice.once_in(5) {
        let spaces = dice.between(1, 3);
        text.resize(text.len() + spaces, b' ');
    }
    text.push(spec.letter);
    if spec.flag {
        text.push(b'u');
    }
    match spec.count {
        Count::Absent => {}
        Count::All => text.push(b'*'),
        Count::Number(n) => {
            let zeros = match dice.below(40) {
                0 => dice.below(200),
                1..=4 => dice.below(3),
                _ => 0,
            };
            text.resize(text.len() + zeros, b'0');
            text.extend(n.to_string().bytes());
        }
    }
}

/// The layout text of as many of the fields as a layout may hold; the others are dropped.
pub fn spelled(dice: &mut Dice, specs: &mut Vec<Spec>) -> Vec<u8> {
    let mut text = Vec::new();
    for at in 0..specs.len() {
        let before = text.len();
        spell(dice, &specs[at], &mut text);
        if text.len() > LAYOUT_MAX {
            text.truncate(before);
            specs.truncate(at);
            break;
        }
    }
    match dice.below(20) {
        0 => text.resize(LAYOUT_MAX, b' '),
        1 => text.resize((text.len() + 2).min(LAYOUT_MAX), b' '),
        _ => {}
    }
    text
}

fn length_near(dice: &mut Dice, count: usize) -> usize {
    match dice.below(6) {
        0 => count + dice.between(1, 9),
        1 => count.saturating_sub(dice.between(1, 9)),
        2 => dice.below(12),
        _ => count,
    }
}

fn random_text(dice: &mut Dice, len: usize) -> Vec<u8> {
    let mut bytes = dice.bytes(len);
    if dice.once_in(2) {
        for byte in bytes.iter_mut() {
            *byte = dice.pick(b"ab  \0\0z\xff");
        }
    }
    bytes
}

/// Digits, of which those from `count` on may be anything.
fn random_digits(dice: &mut Dice, digits: &[u8], len: usize, count: usize) -> Vec<u8> {
    let wild = dice.once_in(3);
    let digit = |at| {
        if wild && at >= count {
            dice.byte()
        } else {
            dice.pick(digits)
        }
    };
    (0..len).map(digit).collect()
}

fn random_integer(dice: &mut Dice) -> u64 {
    let whole = dice.next();
    match dice.below(4) {
        0 => whole,
        1 => (whole as i64 >> dice.below(64)) as u64,
        2 => dice.pick(&[0, 1, 127, 128, 255, 256, 0x7fff, 0x8000, 0xffff, 0x1_0000]),
        _ => {
            let edges = [
                1 << 31,
                1 << 32,
                1 << 63,
                u64::MAX,
                (1 << 31) - 1,
                (1 << 63) - 1,
            ];
            dice.pick(&edges)
        }
    }
}

/// The bits of a double: any, or near a boundary of the singles.
pub fn random_real(dice: &mut Dice) -> u64 {
    let whole = dice.next();
    let single = f32::from_bits(whole as u32) as f64;
    match dice.below(8) {
        0 => whole,
        1 => single.to_bits(),
        2 => (single.to_bits() | 1 << 28).wrapping_add(dice.pick(&[0, 1, u64::MAX])),
        3 => {
            let edges = [
                0.0,
                2f64.powi(128),
                2f64.powi(-149),
                2f64.powi(-150),
                f64::INFINITY,
            ];
            let edge = dice.pick(&edges).to_bits();
            (edge | whole << 63).wrapping_add(dice.pick(&[0, 0, 1, u64::MAX]))
        }
        4 => {
            whole >> 63 << 63
                | (870 + (whole >> 8) % 30) << 52
                | dice.next() >> 12 >> dice.below(52)
        }
        5 => whole >> 63 << 63 | (890 + (whole >> 8) % 270) << 52 | dice.next() >> 12,
        _ => (dice.below(200_000) as f64 / 100.0 - 500.0).to_bits(),
    }
}

/// Doubles, all of them numbers if they are to become singles.
fn random_reals(dice: &mut Dice, len: usize, single: bool) -> Value {
    let item = |_| match random_real(dice) {
        bits if single && f64::from_bits(bits).is_nan() => 0,
        bits => bits,
    };
    Value::Real((0..len).map(item).collect())
}

/// Any value that is set; a long one takes some thousand bytes.
pub fn random_value(dice: &mut Dice, long: bool) -> Value {
    let len = match long {
        true => dice.below(2000),
        false => dice.below(12),
    };
    let items: Vec<u64> = (0..len / 2).map(|_| random_integer(dice)).collect();
    match dice.below(4) {
        0 => Value::Text(random_text(dice, 4 * len)),
        1 => random_reals(dice, len / 2, false),
        2 => Value::Signed(items.iter().map(|&n| n as i64).collect()),
        _ => Value::Unsigned(items),
    }
}

/// An argument that the field accepts.
pub fn random_argument(dice: &mut Dice, spec: &Spec) -> Value {
    if spec.width().is_some() {
        let surplus = dice.pick(&[0, 0, 0, 1, 3]);
        let len = match spec.count {
            Count::Absent => 1,
            Count::All => dice.below(9),
            Count::Number(n) => n.min(COUNT_MAX + 1000) + surplus,
        };
        if b"qQrR".contains(&spec.letter) {
            return random_reals(dice, len, b"rR".contains(&spec.letter));
        }
        let items: Vec<u64> = (0..len).map(|_| random_integer(dice)).collect();
        return match dice.once_in(2) {
            true => Value::Unsigned(items),
            false => Value::Signed(items.iter().map(|&n| n as i64).collect()),
        };
    }
    let all = dice.below(30);
    let count = spec.or_all(all).min(COUNT_MAX + 1000);
    let len = if spec.count == Count::All {
        all
    } else {
        length_near(dice, count)
    };
    Value::Text(match spec.letter {
        b'a' | b'A' => random_text(dice, len),
        b'b' | b'B' => random_digits(dice, b"01", len, count),
        _ => random_digits(dice, b"0123456789abcdefABCDEF", len, count),
    })
}

pub fn random_arguments(dice: &mut Dice, specs: &[Spec]) -> Vec<Value> {
    let takers = specs.iter().filter(|s| s.takes_slot());
    takers.map(|s| random_argument(dice, s)).collect()
}
