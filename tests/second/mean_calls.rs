//! Means: tables with known means, the order of refusals, and random tables.

use crate::call::{numbers, words, Call, Judge, Runs, Which};
use crate::calls::{damage_reply, damage_slot, damage_slot_run, scattered};
use crate::dice::Dice;
use crate::fixed::{refuses_replies, with_slot};
use crate::limits::{AREA_MAX, KIND_MAX, MARK_MAX, MEAN_REPLY_BYTES, SLOTS_MAX, SLOT_BYTES};
use crate::values::{ints, reals, shown, slot, table, text, uints, Value};

const OLD: u8 = 0x77;

fn mean(values: &[Value]) -> Call {
    let (slots, area) = table(values, 0);
    let runs = Runs {
        slots,
        area,
        reply: vec![OLD; MEAN_REPLY_BYTES],
        ..Runs::default()
    };
    Call::new(Which::Mean, runs)
}

fn replies(t: &mut dyn Judge, call: &Call, numbers: [u32; 6]) {
    let mut after = call.untouched(numbers[0]);
    after.reply = words(&numbers);
    t.expect("mean", call, &after);
}

fn has_mean(t: &mut dyn Judge, values: &[Value], unset: u32, mean_of_marked: f64) {
    let bits = mean_of_marked.to_bits();
    let halves = [(bits >> 32) as u32, bits as u32];
    replies(t, &mean(values), [0, unset, 0, 1, halves[0], halves[1]]);
}

fn has_none(t: &mut dyn Judge, values: &[Value]) {
    replies(t, &mean(values), [0, values.len() as u32, 0, 0, 0, 0]);
}

fn refuses(t: &mut dyn Judge, call: &Call, number: u32, place: u32) {
    replies(t, call, [number, place, 0, 0, 0, 0]);
}

fn examples(t: &mut dyn Judge) {
    const UNSET: Value = Value::Unset;
    has_none(t, &[]);
    has_none(t, &[UNSET]);
    has_none(t, &vec![UNSET; SLOTS_MAX]);
    has_mean(t, &[ints(&[0])], 0, 0.0);
    has_mean(t, &[UNSET, ints(&[0])], 1, 0.0);
    has_mean(t, &[ints(&[60]), UNSET, uints(&[80]), UNSET], 2, 70.0);
    has_mean(t, &[ints(&[60]), ints(&[0]), uints(&[80])], 0, 140.0 / 3.0);
    has_mean(t, &[ints(&[1]), ints(&[0])], 0, 0.5);
    has_mean(t, &[ints(&[1]), ints(&[0]), uints(&[0])], 0, 1.0 / 3.0);
    has_mean(t, &[ints(&[999_999]), uints(&[1_000_000])], 0, 999_999.5);
    has_mean(t, &vec![ints(&[1_000_000]); SLOTS_MAX], 0, 1_000_000.0);
    let mut most = vec![uints(&[1_000_000]); SLOTS_MAX];
    most[3] = UNSET;
    most[5] = ints(&[1]);
    has_mean(t, &most, 1, 62_000_001.0 / 63.0);
}

fn refusals(t: &mut dyn Judge) {
    let legs = |bad: Value| mean(&[ints(&[70]), Value::Unset, bad]);
    for mark in [-1, 1_000_001, i64::MIN, i64::MAX, 1 << 32] {
        refuses(t, &legs(ints(&[mark])), 14, 2);
        refuses(t, &legs(uints(&[mark as u64])), 14, 2);
    }
    for kind in [ints as fn(&[i64]) -> Value, |n| uints(&vec![0; n.len()])] {
        refuses(t, &legs(kind(&[])), 9, 2);
        refuses(t, &legs(kind(&[1, 2])), 9, 2);
    }
    for string in ["", "7", "12345678"] {
        refuses(t, &legs(text(string)), 8, 2);
    }
    for real in [vec![5.0], vec![], vec![1.0, 2.0]] {
        refuses(t, &legs(reals(&real)), 8, 2);
    }
    let call = legs(ints(&[5]));
    let end = call.area.len() as u32;
    for kind in 1..=KIND_MAX {
        refuses(t, &with_slot(call.clone(), 2, [kind, end, 1]), 7, 2);
        refuses(t, &with_slot(call.clone(), 2, [kind, end + 1, 0]), 7, 2);
    }
    refuses(t, &with_slot(call.clone(), 2, [1, end, 0]), 8, 2);
    refuses(t, &with_slot(call.clone(), 2, [2, end, 0]), 9, 2);
    refuses(t, &with_slot(call.clone(), 2, [2, 0, 0x2000_0001]), 7, 2);
    for kind in [KIND_MAX + 1, 256, u32::MAX] {
        refuses(t, &with_slot(call.clone(), 2, [kind, 0, 1]), 7, 2);
    }
    // The earlier slot counts, whatever its number.
    let two = |first: Value, second: Value| mean(&[first, second]);
    refuses(t, &two(ints(&[-1]), text("")), 14, 0);
    refuses(t, &two(text(""), ints(&[-1])), 8, 0);
    refuses(t, &two(ints(&[]), text("")), 9, 0);
    refuses(t, &two(ints(&[-1, -1]), ints(&[-1])), 9, 0);
    let wild = with_slot(call.clone(), 1, [0, u32::MAX, u32::MAX]);
    refuses(t, &with_slot(wild, 2, [1, 0, 0]), 8, 2);
}

fn sizes(t: &mut dyn Judge) {
    let mut call = mean(&vec![ints(&[-1]); SLOTS_MAX + 1]);
    refuses(t, &call, 1, 0);
    call.slots.truncate(SLOTS_MAX * SLOT_BYTES);
    refuses(t, &call, 14, 0);
    call.slots.push(0);
    refuses(t, &call, 1, 0);
    call.slots.truncate(SLOT_BYTES - 1);
    refuses(t, &call, 1, 0);
    let mut call = mean(&[ints(&[-1])]);
    call.area.resize(AREA_MAX, 0);
    refuses(t, &call, 14, 0);
    call.area.push(0);
    refuses(t, &call, 1, 0);
    let size = MEAN_REPLY_BYTES;
    let lengths = [0, 4, 12, 16, size - 1, size + 1, 2 * size];
    refuses_replies(t, mean(&[ints(&[1])]), &lengths);
}

pub fn run(t: &mut dyn Judge) {
    examples(t);
    refusals(t);
    sizes(t);
}

// Random tables

fn random_mark(dice: &mut Dice) -> u64 {
    match dice.below(200) {
        0 => dice.pick(&[MARK_MAX + 1, 1 << 63, u64::MAX, 1 << 32]),
        1 => dice.next(),
        2..=30 => dice.pick(&[0, 1, MARK_MAX - 1, MARK_MAX]),
        31..=100 => dice.below(101) as u64,
        _ => dice.next() % (MARK_MAX + 1),
    }
}

fn random_leg(dice: &mut Dice) -> Value {
    let mark = random_mark(dice);
    match dice.below(400) {
        0 => text(dice.bytes(8)),
        1 => ints(&[]),
        2 => uints(&[mark, 5]),
        3 => reals(&[mark as f64]),
        4..=100 => Value::Unset,
        101..=250 => uints(&[mark]),
        _ => ints(&[mark as i64]),
    }
}

/// The bits of the double that is nearest to a quotient, of two equally near the even one.
fn nearest(sum: u64, count: u64) -> u64 {
    if sum == 0 {
        return 0;
    }
    let (sum, count) = (sum as u128, count as u128);
    let scaled = |power: u32| (sum << power) / count;
    let power = (0..).find(|&n| scaled(n) >= 1 << 52).unwrap_or(0);
    let (whole, rest) = (scaled(power), (sum << power) % count);
    let up = 2 * rest > count || (2 * rest == count && whole % 2 == 1);
    ((1023 + 52 - power as u64) << 52) + (whole as u64 - (1 << 52)) + up as u64
}

/// What the values say: the legs not set, and the bits of the mean.
fn told(values: &[Value]) -> [u32; 6] {
    let marks: Vec<u64> = values
        .iter()
        .filter(|v| **v != Value::Unset)
        .map(|v| v.bytes()[7] as u64 + 256 * (v.bytes()[6] as u64 + 256 * v.bytes()[5] as u64))
        .collect();
    let unset = (values.len() - marks.len()) as u32;
    if marks.is_empty() {
        return [0, unset, 0, 0, 0, 0];
    }
    let bits = nearest(marks.iter().sum(), marks.len() as u64);
    [0, unset, 0, 1, (bits >> 32) as u32, bits as u32]
}

fn random_mean(dice: &mut Dice) -> Call {
    let legs = match dice.below(8) {
        0..=2 => dice.between(0, SLOTS_MAX),
        _ => dice.between(0, 8),
    };
    let values: Vec<Value> = match dice.once_in(6) {
        true => (0..legs)
            .map(|_| uints(&[dice.next() % (MARK_MAX + 1)]))
            .collect(),
        false => (0..legs).map(|_| random_leg(dice)).collect(),
    };
    let (slots, area) = scattered(dice, &values);
    let mut call = mean(&[]);
    call.slots = slots;
    call.area = area;
    for place in call.slots.chunks_exact_mut(SLOT_BYTES) {
        if numbers(place)[0] == 0 {
            place.copy_from_slice(&slot(0, dice.byte() as usize, dice.byte() as usize));
        }
    }
    call.reply = dice.bytes(MEAN_REPLY_BYTES);
    call.null = dice.once_in(2);
    let area_len = call.area.len();
    match dice.below(20) {
        0 | 1 => damage_slot(dice, &mut call.slots, area_len),
        2 => damage_slot_run(dice, &mut call.slots),
        3 => damage_reply(dice, &mut call.reply),
        4 if dice.once_in(10) => call.area.resize(AREA_MAX + dice.below(2), 1),
        _ => {}
    }
    call
}

pub fn round(dice: &mut Dice, judge: &mut dyn Judge) {
    for _ in 0..50 {
        let call = random_mean(dice);
        let after = judge.compare("random mean", &call);
        if after.returned == 0 {
            let due = told(&shown(&call.slots, &call.area));
            let good = numbers(&after.reply) == due;
            judge.claim("the mean is the nearest double", &call, good);
        }
    }
}
