//! Reals: examples, refusals, both neighbours of every boundary, and singles spread over all patterns.

use crate::call::{Call, Judge};
use crate::dice::Dice;
use crate::fixed::{pack_refused, packed, packing, packs, reading, reads, was_read};
use crate::layouts::random_real;
use crate::limits::{ITEM_BYTES, RECORD_MAX};
use crate::nearest::nearest;
use crate::values::{ints, reals, text, uints, Value};

/// As many singles as a record holds.
const SINGLES: usize = RECORD_MAX / 4;
/// A NaN that is quiet and one that signals.
const QUIET: u64 = 0x7ff8_0000_0000_0001;
const SIGNALLING: u64 = 0xfff0_0000_0000_0001;

fn bits(items: &[u64]) -> Value {
    Value::Real(items.to_vec())
}

/// The single that `R` and `r` store for a double.
fn stores(t: &mut dyn Judge, double: f64, single: u32) {
    packs(t, "R", &[reals(&[double])], single.to_be_bytes());
    packs(t, "ru", &[reals(&[double])], single.to_le_bytes());
}

/// The double that `R` and `r` show for a single.
fn shows(t: &mut dyn Judge, single: u32, double: u64) {
    reads(t, "R", single.to_be_bytes(), &[bits(&[double])], 0);
    reads(t, "ru", single.to_le_bytes(), &[bits(&[double])], 0);
}

fn examples(t: &mut dyn Judge) {
    let pair = [reals(&[1.6, 3.4])];
    let little = [0xcd, 0xcc, 0xcc, 0x3f, 0x9a, 0x99, 0x59, 0x40];
    packs(t, "r2", &pair, little);
    packs(t, "r*", &pair, little);
    packs(t, "ru02 ", &pair, little);
    let double = [0x9a, 0x99, 0x99, 0x99, 0x99, 0x99, 0xf9, 0x3f];
    packs(t, "q1", &[reals(&[1.6])], double);
    reads(t, "q", double, &[reals(&[1.6000000000000001])], 0);
    let single = [0x3f, 0xcc, 0xcc, 0xcd];
    packs(t, "R", &[reals(&[1.6])], single);
    reads(t, "R", single, &[reals(&[1.6000000238418579])], 0);
    let eight = [0xc0, 0x45, 0, 0, 0, 0, 0, 1];
    packs(t, "Q", &[bits(&[0xc045_0000_0000_0001])], eight);
    reads(t, "Qu", eight, &[bits(&[0xc045_0000_0000_0001])], 0);
    reads(
        t,
        "Q*",
        [eight; 2].concat(),
        &[bits(&[0xc045_0000_0000_0001; 2])],
        0,
    );
    counts(t);
}

/// Counts as for integers: short, starred, none.
fn counts(t: &mut dyn Judge) {
    let three = reals(&[1.0, -2.0, 0.5]);
    packs(t, "R2", &[three.clone()], [0x3f, 0x80, 0, 0, 0xc0, 0, 0, 0]);
    packs(t, "R0Q0r*", &[three.clone(), reals(&[]), reals(&[])], []);
    pack_refused(t, "Q", &[three.clone()], 9, 0);
    pack_refused(t, "q4", &[three.clone()], 9, 0);
    pack_refused(t, "R", &[reals(&[])], 9, 0);
    let record = [0x3f, 0x80, 0, 0, 0xc0, 0, 0];
    reads(t, "R*a*", record, &[reals(&[1.0]), text([0xc0, 0, 0])], 0);
    reads(t, "RR", record, &[reals(&[1.0])], 1);
    reads(t, "Q*", record, &[reals(&[])], 0);
    reads(t, "Qa", record, &[], 2);
    reads(t, "r0q0", [], &[reals(&[]), reals(&[])], 0);
    reads(t, "xR", &record[2..], &[reals(&[1.5 * 2f64.powi(-126)])], 0);
    pack_refused(t, "ruu", &[three.clone()], 2, 2);
    pack_refused(t, "R1u", &[three], 2, 2);
}

fn rounding(t: &mut dyn Judge) {
    let two = |power: i32| 2f64.powi(power);
    let next = |x: f64| f64::from_bits(x.to_bits() + 1);
    let before = |x: f64| f64::from_bits(x.to_bits() - 1);
    let largest = f32::MAX as f64;
    for (double, single) in [
        (0.0, 0),
        (1.0, 0x3f80_0000),
        (1.0 + two(-24), 0x3f80_0000),
        (next(1.0 + two(-24)), 0x3f80_0001),
        (1.0 + 3.0 * two(-24), 0x3f80_0002),
        (before(1.0 + 3.0 * two(-24)), 0x3f80_0001),
        (2.0 - two(-24), 0x4000_0000),
        (two(-126), 0x0080_0000),
        (before(two(-126)), 0x0080_0000),
        (two(-126) - two(-149), 0x007f_ffff),
        (two(-126) - two(-150), 0x0080_0000),
        (before(two(-126) - two(-150)), 0x007f_ffff),
        (two(-149), 1),
        (next(two(-150)), 1),
        (two(-150), 0),
        (before(two(-150)), 0),
        (3.0 * two(-150), 2),
        (5.0 * two(-150), 2),
        (next(5.0 * two(-150)), 3),
        (1e-60, 0),
        (f64::from_bits(1), 0),
        (largest, 0x7f7f_ffff),
        (before(largest), 0x7f7f_ffff),
        (next(largest), 0x7f7f_ffff),
        (two(128) - two(103), 0x7f7f_ffff),
        (next(two(128) - two(103)), 0x7f7f_ffff),
        (two(128), 0x7f7f_ffff),
        (1e300, 0x7f7f_ffff),
        (f64::MAX, 0x7f7f_ffff),
        (f64::INFINITY, 0x7f7f_ffff),
    ] {
        stores(t, double, single);
        stores(t, -double, 0x8000_0000 | single);
    }
}

fn widening(t: &mut dyn Judge) {
    for (single, double) in [
        (0, 0),
        (1, 0x36a0_0000_0000_0000),
        (0x007f_ffff, 0x380f_ffff_c000_0000),
        (0x0080_0000, 0x3810_0000_0000_0000),
        (0x3f80_0001, 0x3ff0_0000_2000_0000),
        (0x7f7f_ffff, 0x47ef_ffff_e000_0000),
        (0x7f80_0000, 0x7ff0_0000_0000_0000),
        (0x7f80_0001, 0x7ff0_0000_2000_0000),
        (0x7fa0_0000, 0x7ff4_0000_0000_0000),
        (0x7fc0_0000, 0x7ff8_0000_0000_0000),
        (0x7fff_ffff, 0x7fff_ffff_e000_0000),
    ] {
        shows(t, single, double);
        shows(t, 0x8000_0000 | single, 1 << 63 | double);
    }
}

/// A NaN is refused where a single is to be stored, and only there.
fn not_numbers(t: &mut dyn Judge) {
    for nan in [QUIET, SIGNALLING, u64::MAX, 0x7ff0_0000_0000_0001] {
        packs(t, "Q", &[bits(&[nan])], nan.to_be_bytes());
        packs(t, "q", &[bits(&[nan])], nan.to_le_bytes());
        reads(t, "Q", nan.to_be_bytes(), &[bits(&[nan])], 0);
        reads(t, "q", nan.to_le_bytes(), &[bits(&[nan])], 0);
        let list = bits(&[1 << 63, 0, nan, 0]);
        for layout in ["r3", "R4", "ru*"] {
            pack_refused(t, layout, &[list.clone()], 16, 0);
        }
        packs(t, "R2", &[list.clone()], [0x80, 0, 0, 0, 0, 0, 0, 0]);
        packs(t, "r0", &[bits(&[nan])], []);
        pack_refused(t, "R", &[list.clone()], 9, 0);
        pack_refused(t, "R5", &[list], 9, 0);
    }
}

/// Of two reasons the earlier one counts; 16 stands after 10 and before the next slot.
fn order(t: &mut dyn Judge) {
    let nan = bits(&[QUIET]);
    pack_refused(t, "aR", &[text("a"), nan.clone()], 16, 1);
    pack_refused(t, "bR", &[text("x"), nan.clone()], 10, 0);
    pack_refused(t, "Rb", &[nan.clone(), text("x")], 16, 0);
    pack_refused(t, "rQ", &[nan.clone(), Value::Unset], 16, 0);
    pack_refused(t, "QR", &[Value::Unset, nan.clone()], 6, 0);
    pack_refused(t, "rc", &[nan.clone(), reals(&[1.0])], 16, 0);
    pack_refused(t, "rR", &[nan.clone(), nan.clone()], 16, 0);
    pack_refused(t, &format!("x{RECORD_MAX}R"), &[nan], 16, 0);
    pack_refused(t, &format!("x{RECORD_MAX}R"), &[reals(&[0.5])], 11, 0);
    for letter in ["q", "Q", "r", "R"] {
        for wrong in [
            ints(&[1]),
            uints(&[1]),
            text("12345678"),
            ints(&[]),
            text(""),
        ] {
            pack_refused(t, letter, &[wrong.clone()], 8, 0);
            pack_refused(t, &format!("x{letter}0"), &[wrong], 8, 0);
        }
    }
    for letter in "aAbBhHcsSiIwW".chars() {
        for wrong in [reals(&[1.0]), reals(&[])] {
            pack_refused(t, &letter.to_string(), &[wrong.clone()], 8, 0);
            pack_refused(t, &format!("{letter}*"), &[wrong], 8, 0);
        }
    }
}

/// What is written out by hand.
pub fn examples_and_refusals(t: &mut dyn Judge) {
    examples(t);
    rounding(t);
    widening(t);
    not_numbers(t);
    order(t);
}

// Boundaries

/// A double and its neighbours, with both signs.
fn with_neighbours(double: u64) -> impl Iterator<Item = u64> {
    let three = [double.saturating_sub(1), double, double + 1];
    three.into_iter().flat_map(|x| [x, x | 1 << 63])
}

/// Singles of every exponent: those at its ends, in its middle, and some others.
fn singles_of_every_exponent(dice: &mut Dice) -> Vec<u32> {
    let ends = [
        0, 1, 2, 3, 0x3f_ffff, 0x40_0000, 0x40_0001, 0x7f_fffe, 0x7f_ffff,
    ];
    let of = |exponent: u32| {
        let drawn = dice.next() as u32 & 0x7f_ffff;
        ends.into_iter()
            .chain([drawn])
            .map(move |f| exponent << 23 | f)
            .collect::<Vec<u32>>()
    };
    (0..255).flat_map(of).collect()
}

/// Every single drawn, the middle between it and the next one, and the neighbours of both.
fn boundaries_of_singles(dice: &mut Dice) -> Vec<u64> {
    let double = |single: u32| match f32::from_bits(single).is_finite() {
        true => f32::from_bits(single) as f64,
        false => 2f64.powi(128),
    };
    let places = |single: u32| {
        let (low, high) = (double(single), double(single + 1));
        [low, low / 2.0 + high / 2.0].map(f64::to_bits)
    };
    let singles = singles_of_every_exponent(dice);
    let all = singles.into_iter().flat_map(places);
    all.flat_map(with_neighbours).collect()
}

/// Doubles of every exponent but that of infinity.
fn doubles_of_every_exponent(dice: &mut Dice) -> Vec<u64> {
    let half = 1u64 << 28;
    let fractions = |exponent: u64| {
        let drawn = dice.next() >> 12;
        let all = [
            0,
            1 << 51,
            (1 << 52) - 1,
            half,
            3 * half,
            drawn,
            drawn & !(2 * half - 1) | half,
        ];
        all.map(|fraction| exponent << 52 | fraction)
    };
    let all = (0..2047).flat_map(fractions);
    let inside = all
        .collect::<Vec<u64>>()
        .into_iter()
        .flat_map(with_neighbours);
    inside.filter(|&x| !f64::from_bits(x).is_nan()).collect()
}

/// Packs the doubles, no more than a record may hold, as their nearest singles, in both orders.
fn packs_singles(t: &mut dyn Judge, doubles: &[u64]) {
    let singles: Vec<u32> = doubles.iter().map(|&x| nearest(x)).collect();
    let big: Vec<u8> = singles.iter().flat_map(|s| s.to_be_bytes()).collect();
    let little: Vec<u8> = singles.iter().flat_map(|s| s.to_le_bytes()).collect();
    for (layout, bytes) in [("R*", &big), ("r*", &little)] {
        let call = packing(layout, &[bits(doubles)]);
        t.expect("nearest singles", &call, &packed(&call, bytes));
    }
}

/// Both neighbours of every boundary, and every exponent.
pub fn boundaries(t: &mut dyn Judge) {
    let dice = &mut Dice::new(0);
    for doubles in [boundaries_of_singles(dice), doubles_of_every_exponent(dice)] {
        for chunk in doubles.chunks(SINGLES) {
            packs_singles(t, chunk);
        }
    }
}

// All patterns

/// A reading that has just room for `count` doubles.
fn reading_doubles(layout: &str, record: &[u8], count: usize) -> Call {
    let mut call = reading(layout, record, 1);
    let end = call.mark + count * ITEM_BYTES;
    call.area.resize(end, 0);
    call
}

/// Reads as many singles as a record holds, and packs what was read.
fn there_and_back(t: &mut dyn Judge, singles: &[u32]) {
    let record: Vec<u8> = singles.iter().flat_map(|s| s.to_be_bytes()).collect();
    let call = reading_doubles("R*", &record, singles.len());
    let doubles: Vec<u64> = singles.iter().map(|&s| double_of(s)).collect();
    t.expect(
        "singles widened",
        &call,
        &was_read(&call, &[bits(&doubles)]),
    );
    let call = packing("R*", &[bits(&doubles)]);
    match singles.iter().any(|&s| f32::from_bits(s).is_nan()) {
        true => t.expect("a NaN", &call, &call.answered([16, 0, 0])),
        false => t.expect("singles narrowed", &call, &packed(&call, &record)),
    }
}

/// A double by its parts: the exponent moved, the fraction made longer; a subnormal single is a multiple of
/// the smallest.
fn double_of(single: u32) -> u64 {
    let (sign, exponent, fraction) = (single >> 31, single >> 23 & 255, single & 0x7f_ffff);
    let magnitude = match exponent {
        0 => (fraction as f64 * 2f64.powi(-149)).to_bits(),
        255 => 2047 << 52 | (fraction as u64) << 29,
        _ => (exponent as u64 + 896) << 52 | (fraction as u64) << 29,
    };
    (sign as u64) << 63 | magnitude
}

/// 2 to the 24 singles, one of each run of 256 patterns; an infinity comes back as the largest single, so none is
/// drawn.
fn spread(t: &mut dyn Judge) {
    let dice = &mut Dice::new(1);
    let mut draw = |run: u32| {
        let single = run << 8 | dice.byte() as u32;
        single + f32::from_bits(single).is_infinite() as u32
    };
    for first in (0..1u32 << 24).step_by(SINGLES) {
        let runs = first..first + SINGLES as u32;
        let singles: Vec<u32> = runs.map(&mut draw).collect();
        there_and_back(t, &singles);
    }
}

pub fn run(t: &mut dyn Judge) {
    examples_and_refusals(t);
    boundaries(t);
    spread(t);
}

/// Doubles become the nearest singles; what is read of these packs to the same bytes.
pub fn round(dice: &mut Dice, judge: &mut dyn Judge) {
    for _ in 0..10 {
        let count = dice.below(60);
        let doubles: Vec<u64> = (0..count).map(|_| random_real(dice)).collect();
        let numbers: Vec<u64> = doubles
            .iter()
            .copied()
            .filter(|&x| !f64::from_bits(x).is_nan())
            .collect();
        packs_singles(judge, &numbers);
        let singles: Vec<u32> = numbers.iter().map(|&x| nearest(x)).collect();
        there_and_back(judge, &singles);
        judge.compare("any doubles", &packing("R*", &[bits(&doubles)]));
        judge.compare("any doubles", &packing("q*", &[bits(&doubles)]));
    }
}
