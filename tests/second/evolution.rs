//! Old and new layouts: pack by either, cut anywhere, read by either.
//!
//! The outcome is computed from the arguments alone, not by the twin.

use crate::call::{numbers, Call, Judge, Runs, Which};
use crate::dice::Dice;
use crate::fixed::was_read_at;
use crate::layouts::{plain_spec, random_arguments, spelled, takers, Count, Spec};
use crate::limits::{AREA_MAX, READ_REPLY_BYTES, RECORD_MAX, REPLY_BYTES, SLOTS_MAX, SLOT_BYTES};
use crate::nearest::nearest;
use crate::values::{table, Value};

/// How many bytes a plain field fills in packing.
pub fn fills(spec: &Spec) -> usize {
    let count = spec.or_all(0);
    match spec.letter {
        b'b' | b'B' => (count + 7) / 8,
        b'h' | b'H' => (count + 1) / 2,
        _ => count * spec.width().unwrap_or(1),
    }
}

pub fn total(specs: &[Spec]) -> usize {
    specs.iter().map(fills).sum()
}

fn cut_or_padded(bytes: &[u8], count: usize, pad: u8) -> Vec<u8> {
    let mut cut = bytes.to_vec();
    cut.resize(count, pad);
    cut
}

/// The items of a list, by their bits.
fn items(value: &Value) -> Vec<u64> {
    match value {
        Value::Unset | Value::Text(_) => Vec::new(),
        Value::Signed(items) => items.iter().map(|&n| n as u64).collect(),
        Value::Unsigned(items) | Value::Real(items) => items.clone(),
    }
}

/// The nearest single, as a double.
fn single_of(double: u64) -> u64 {
    (f32::from_bits(nearest(double)) as f64).to_bits()
}

/// What comes back of an argument.
fn read_back(spec: &Spec, argument: &Value) -> Value {
    let count = spec.or_all(0);
    if let Some(width) = spec.width() {
        let spare = 64 - 8 * width as u32;
        let items = items(argument).into_iter().take(count);
        return match (spec.letter, spec.flag) {
            (b'q' | b'Q', _) => Value::Real(items.collect()),
            (b'r' | b'R', _) => Value::Real(items.map(single_of).collect()),
            (_, true) => Value::Unsigned(items.map(|n| n << spare >> spare).collect()),
            (_, false) => Value::Signed(items.map(|n| (n << spare) as i64 >> spare).collect()),
        };
    }
    let bytes = argument.bytes();
    Value::Text(match spec.letter {
        b'a' => cut_or_padded(&bytes, count, 0),
        b'A' => {
            let mut kept = cut_or_padded(&bytes, count, b' ');
            while kept.last() == Some(&b' ') || kept.last() == Some(&0) {
                kept.pop();
            }
            kept
        }
        _ => cut_or_padded(&bytes, count, b'0').to_ascii_lowercase(),
    })
}

/// What a reading gives: the values that it sets, where their fields begin, and how many fields it comes to.
#[derive(Default)]
struct Due {
    values: Vec<Value>,
    positions: Vec<usize>,
    steps: usize,
}

/// What a reading of the first `cut` bytes gives.
fn expected(specs: &[Spec], arguments: &[Value], cut: usize) -> Due {
    let mut due = Due::default();
    let mut rest = cut;
    for spec in specs {
        let size = fills(spec);
        due.steps += 1;
        if !spec.takes_slot() {
            rest = rest.saturating_sub(size);
        } else if size <= rest {
            let argument = &arguments[due.values.len()];
            due.values.push(read_back(spec, argument));
            due.positions.push(cut - rest);
            rest -= size;
        } else {
            break;
        }
    }
    due
}

/// An old layout and a new one that adds fields at its end, both within the sizes.
fn random_layouts(dice: &mut Dice) -> (Vec<Spec>, Vec<Spec>) {
    let len = if dice.once_in(12) {
        dice.between(0, SLOTS_MAX)
    } else {
        dice.between(0, 8)
    };
    let mut new: Vec<Spec> = (0..len).map(|_| plain_spec(dice)).collect();
    if dice.once_in(5) && len > 0 {
        new[len - 1].count = Count::Number(0);
    }
    while total(&new) > RECORD_MAX || takers(&new) > SLOTS_MAX {
        new.pop();
    }
    let old = new[..dice.between(0, new.len())].to_vec();
    (old, new)
}

fn packing(dice: &mut Dice, layout: Vec<u8>, arguments: &[Value], room: usize) -> Call {
    let (slots, area) = table(arguments, 0);
    let runs = Runs {
        layout,
        record: dice.bytes(room),
        slots,
        area,
        reply: dice.bytes(REPLY_BYTES),
        ..Runs::default()
    };
    let mut call = Call::new(Which::Pack, runs);
    call.null = dice.once_in(2);
    call
}

pub fn reading(dice: &mut Dice, layout: &[u8], record: &[u8], slots: usize, need: usize) -> Call {
    let mark = dice.pick(&[0, 0, 1, 7, 30]);
    let rest = dice.pick(&[0, 0, 1, 9]);
    let runs = Runs {
        layout: layout.to_vec(),
        record: record.to_vec(),
        slots: dice.bytes(slots * SLOT_BYTES),
        area: dice.bytes(mark + need + rest),
        reply: dice.bytes(READ_REPLY_BYTES),
        ..Runs::default()
    };
    let mut call = Call::new(Which::Read, runs);
    call.mark = mark;
    call.null = dice.once_in(2);
    call
}

fn check_reading(
    dice: &mut Dice,
    judge: &mut dyn Judge,
    reader: &Layout,
    record: &[u8],
    due: &Due,
) {
    let need: usize = due.values.iter().map(|v| v.bytes().len()).sum();
    let surplus = dice.pick(&[0, 0, 1, 2]);
    let slots = (takers(&reader.specs) + surplus).min(SLOTS_MAX);
    let call = reading(dice, &reader.text, record, slots, need);
    if call.area.len() <= AREA_MAX {
        let after = was_read_at(&call, &due.values, &due.positions, due.steps);
        judge.expect("old and new layouts", &call, &after);
    }
}

/// The places to cut: all of a short record; of a long one some, and those beside the fields' ends.
fn cuts(dice: &mut Dice, specs: &[Spec], len: usize) -> Vec<usize> {
    if len <= 60 {
        return (0..=len).collect();
    }
    let mut places = vec![0, len, len - 1];
    for fields in 0..specs.len() {
        let end = total(&specs[..fields]).min(len);
        places.extend([end, end.saturating_sub(1), (end + 1).min(len)]);
    }
    places.extend((0..10).map(|_| dice.below(len)));
    places
}

/// A layout's fields and its text.
pub struct Layout {
    pub specs: Vec<Spec>,
    pub text: Vec<u8>,
}

/// Both layouts, spelled apart from each other; none if the old one's text got too long.
fn spelled_layouts(dice: &mut Dice) -> Option<(Layout, Layout)> {
    let (mut old, mut new) = random_layouts(dice);
    let new_text = spelled(dice, &mut new);
    old.truncate(new.len());
    let fields = old.len();
    let old_text = spelled(dice, &mut old);
    if old.len() != fields {
        return None;
    }
    Some((
        Layout {
            specs: old,
            text: old_text,
        },
        Layout {
            specs: new,
            text: new_text,
        },
    ))
}

/// Packs by one layout; gives the record.
fn pack_by(
    dice: &mut Dice,
    judge: &mut dyn Judge,
    writer: &Layout,
    arguments: &[Value],
) -> Vec<u8> {
    let end = total(&writer.specs);
    let room = (end + dice.pick(&[0, 0, 1, 30])).min(RECORD_MAX);
    let values = &arguments[..takers(&writer.specs)];
    let call = packing(dice, writer.text.clone(), values, room);
    let after = judge.compare("packing by a plain layout", &call);
    let as_due = numbers(&after.reply) == [0, end as u32, 0];
    judge.claim("a plain packing answers 0, its end, 0", &call, as_due);
    after.record[..end].to_vec()
}

/// One pair of layouts: both packings, and readings of each record by each layout at many cuts.
pub fn round(dice: &mut Dice, judge: &mut dyn Judge) {
    let (old, new) = match spelled_layouts(dice) {
        Some(layouts) => layouts,
        None => return,
    };
    let arguments = random_arguments(dice, &new.specs);
    for writer in [&old, &new] {
        let record = pack_by(dice, judge, writer, &arguments);
        for cut in cuts(dice, &writer.specs, record.len()) {
            for reader in [&old, &new] {
                let due = expected(&reader.specs, &arguments, cut);
                check_reading(dice, judge, reader, &record[..cut], &due);
            }
        }
    }
}
