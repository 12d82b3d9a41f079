//! Reading loses nothing: what is read of a record that its layout fills packs to that record again, and other
//! bytes show other values.
//!
//! Both are asked of the library's own outcomes, not of the twin's.

use crate::call::{numbers, After, Call, Judge, Runs, Which};
use crate::calls::random_bytes;
use crate::dice::Dice;
use crate::evolution::{fills, reading, total, Layout};
use crate::fixed::packed;
use crate::layouts::{spelled, Count, Spec};
use crate::library::by_library;
use crate::limits::{AREA_MAX, COUNT_MAX, ITEM_BYTES, RECORD_MAX, REPLY_BYTES, SLOTS_MAX};
use crate::slots::{slot_at, value_of};

const LETTERS: &[u8] = b"abBhHcsSiIwWqQ";

/// A count is a multiple of this, so that digits leave nothing of a byte over.
fn step(letter: u8) -> usize {
    match letter {
        b'b' | b'B' => 8,
        b'h' | b'H' => 2,
        _ => 1,
    }
}

/// The area bytes of all values.
fn value_bytes(specs: &[Spec]) -> usize {
    let item = |spec: &Spec| spec.width().map_or(1, |_| ITEM_BYTES);
    specs.iter().map(|s| s.or_all(0) * item(s)).sum()
}

/// What a slot shows: its kind, and its items as they lie in the area.
type Shown = (u32, Option<Vec<u8>>);

/// A reading and the values that it left.
struct Seen {
    call: Call,
    values: Vec<Shown>,
}

fn values(read: &After, fields: usize) -> Vec<Shown> {
    let value = |nth| {
        let slot = slot_at(&read.slots, nth);
        let items = value_of(slot, &read.area);
        (slot.kind, items.map(<[u8]>::to_vec))
    };
    (0..fields).map(value).collect()
}

/// A reading with as many slots as fields and room for the values; the mark may be anywhere.
fn reading_by(dice: &mut Dice, layout: &Layout, record: &[u8]) -> Call {
    let need = value_bytes(&layout.specs);
    let mut call = reading(dice, &layout.text, record, layout.specs.len(), need);
    if dice.once_in(20) {
        let last = AREA_MAX - need;
        let first = dice.pick(&[0, last]);
        call.mark = dice.between(first, last);
        call.area = dice.bytes(AREA_MAX);
    }
    call
}

/// The packing of what a reading left, with room for this many bytes or more.
fn packing_again(dice: &mut Dice, layout: &Layout, read: &After, length: usize) -> Call {
    let room = match dice.below(6) {
        0 => RECORD_MAX,
        1 => (length + dice.below(30)).min(RECORD_MAX),
        _ => length,
    };
    let runs = Runs {
        layout: layout.text.clone(),
        record: dice.bytes(room),
        slots: read.slots.clone(),
        area: read.area.clone(),
        reply: dice.bytes(REPLY_BYTES),
        ..Runs::default()
    };
    let mut call = Call::new(Which::Pack, runs);
    call.null = dice.once_in(2);
    call
}

/// Reads a record and packs its slots, which gives it back.
fn there_and_back(dice: &mut Dice, judge: &mut dyn Judge, layout: &Layout, record: &[u8]) -> Seen {
    let call = reading_by(dice, layout, record);
    judge.compare("reading a filled layout", &call);
    let (read, _) = by_library(&call);
    let fields = layout.specs.len();
    let end = call.mark + value_bytes(&layout.specs);
    let all_set = numbers(&read.reply) == [0, fields, end, fields].map(|n| n as u32);
    judge.claim("a filled layout sets every slot", &call, all_set);
    let again = packing_again(dice, layout, &read, record.len());
    judge.expect("packing what was read", &again, &packed(&again, record));
    Seen {
        values: values(&read, fields),
        call,
    }
}

/// Each record comes back, and two show the same exactly where they have the same bytes.
fn check(dice: &mut Dice, judge: &mut dyn Judge, layout: &Layout, records: &[Vec<u8>]) {
    let mut seen: Vec<Seen> = Vec::new();
    for record in records {
        let this = there_and_back(dice, judge, layout, record);
        for other in &seen {
            let same = this.call.record == other.call.record;
            let alike = this.values == other.values;
            judge.claim("other bytes show other values", &this.call, same == alike);
        }
        seen.push(this);
    }
}

/// The record with one bit turned over.
fn with_bit(record: &[u8], bit: usize) -> Vec<u8> {
    let mut other = record.to_vec();
    other[bit / 8] ^= 1 << (bit % 8);
    other
}

/// A record twice, others, and the first with one bit changed: each bit of a short one, some of a long one.
fn random_records(dice: &mut Dice, length: usize) -> Vec<Vec<u8>> {
    let record = random_bytes(dice, length);
    let mut records = vec![record.clone(), record.clone()];
    records.extend((0..3).map(|_| random_bytes(dice, length)));
    let bits = 8 * length;
    let turned: Vec<usize> = match bits <= 100 {
        true => (0..bits).collect(),
        false => {
            let drawn = (0..12).map(|_| dice.below(bits));
            drawn.chain([0, bits - 1]).collect()
        }
    };
    records.extend(turned.iter().map(|&bit| with_bit(&record, bit)));
    records
}

// Layouts of one type

/// A layout of the field, written `times` times.
fn repeated(spec: Spec, times: usize) -> Layout {
    let mut text = vec![spec.letter];
    if spec.flag {
        text.push(b'u');
    }
    if let Count::Number(n) = spec.count {
        text.extend(n.to_string().bytes());
    }
    Layout {
        specs: vec![spec; times],
        text: text.repeat(times),
    }
}

/// Each field that fills one byte, with each of the 256 records.
fn single_bytes(dice: &mut Dice, judge: &mut dyn Judge, letter: u8) {
    for flag in [false, true] {
        let count = Count::Number(step(letter));
        let spec = Spec {
            letter,
            flag,
            count,
        };
        if fills(&spec) == 1 {
            let records: Vec<Vec<u8>> = (0..=255).map(|byte| vec![byte]).collect();
            check(dice, judge, &repeated(spec, 1), &records);
        }
    }
}

/// A record of the largest size, in as few fields as can be.
fn largest_record(dice: &mut Dice, judge: &mut dyn Judge, letter: u8) {
    let counted = |n| Spec {
        letter,
        flag: false,
        count: Count::Number(n),
    };
    let step = step(letter);
    let most = RECORD_MAX / fills(&counted(step)) * step;
    let spec = counted(most.min(COUNT_MAX));
    let layout = repeated(spec, RECORD_MAX / fills(&spec));
    let records = random_records(dice, RECORD_MAX);
    check(dice, judge, &layout, &records);
}

/// Fields without a count: none, one, and as many as there can be slots.
fn uncounted(dice: &mut Dice, judge: &mut dyn Judge, letter: u8) {
    let spec = Spec {
        letter,
        flag: true,
        count: Count::Absent,
    };
    for times in [0, 1, SLOTS_MAX] {
        let layout = repeated(spec, times);
        let records = random_records(dice, total(&layout.specs));
        check(dice, judge, &layout, &records);
    }
}

pub fn run(judge: &mut dyn Judge) {
    let dice = &mut Dice::new(0);
    for &letter in LETTERS {
        single_bytes(dice, judge, letter);
        largest_record(dice, judge, letter);
        if step(letter) == 1 {
            uncounted(dice, judge, letter);
        }
    }
}

// Random layouts

fn random_field(dice: &mut Dice) -> Spec {
    let letter = dice.pick(LETTERS);
    let step = step(letter);
    let most = match dice.below(40) {
        0 => COUNT_MAX,
        1..=6 => 200,
        _ => 24,
    };
    Spec {
        letter,
        flag: dice.once_in(3),
        count: match step == 1 && dice.once_in(3) {
            true => Count::Absent,
            false => Count::Number(step * dice.between(1, most / step)),
        },
    }
}

/// Fields that fit into a record together.
fn random_layout(dice: &mut Dice) -> Layout {
    let fields = match dice.below(20) {
        0 => dice.between(0, SLOTS_MAX),
        1..=8 => 1,
        _ => dice.between(2, 6),
    };
    let mut specs: Vec<Spec> = (0..fields).map(|_| random_field(dice)).collect();
    let mut rest = RECORD_MAX;
    specs.retain(|spec| {
        let fits = fills(spec) <= rest;
        rest -= if fits { fills(spec) } else { 0 };
        fits
    });
    let text = spelled(dice, &mut specs);
    Layout { specs, text }
}

/// Some layouts, each with records of just the bytes that its fields fill.
pub fn round(dice: &mut Dice, judge: &mut dyn Judge) {
    for _ in 0..3 {
        let layout = random_layout(dice);
        let records = random_records(dice, total(&layout.specs));
        check(dice, judge, &layout, &records);
    }
}
