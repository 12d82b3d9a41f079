//! Random calls: most are accepted or refused late, some are damaged in one place.

use crate::call::{numbers, words, After, Call, Judge, Runs, Which};
use crate::dice::Dice;
use crate::evolution;
use crate::layouts::{random_arguments, random_specs, spelled, takers, Spec};
use crate::limits::{
    AREA_MAX, COUNT_MAX, ITEM_BYTES, LAYOUT_MAX, NO_POSITION, READ_REPLY_BYTES, REAL, RECORD_MAX,
    REPLY_BYTES, SLOTS_MAX, SLOT_BYTES, SLOT_NUMBERS, SLOT_RUN_MAX,
};
use crate::values::{slot, slot_from, Value};
use crate::walk::walk;
use crate::{packer, reader};

/// Room in which a call is tried out to learn how much it needs.
pub struct Scratch {
    record: Vec<u8>,
    slots: Vec<u8>,
    area: Vec<u8>,
}

impl Scratch {
    pub fn new() -> Scratch {
        Scratch {
            record: vec![0; RECORD_MAX],
            slots: vec![0; SLOT_RUN_MAX],
            area: vec![0; AREA_MAX],
        }
    }

    /// The length of the packing's result; none if it is refused anyway.
    fn packed_length(&mut self, call: &Call) -> Option<usize> {
        let answer = packer::pack(&call.layout, &call.slots, &call.area, &mut self.record);
        if answer.number == 0 {
            Some(answer.first as usize)
        } else {
            None
        }
    }

    /// The bytes of all values of the reading; none if it is refused anyway.
    fn value_bytes(&mut self, layout: &[u8], record: &[u8]) -> Option<usize> {
        match reader::read(layout, record, &mut self.slots, &mut self.area, 0) {
            [0, _, end, _] => Some(end as usize),
            _ => None,
        }
    }
}

/// A table with the values in any order, with gaps between them.
pub fn scattered(dice: &mut Dice, values: &[Value]) -> (Vec<u8>, Vec<u8>) {
    let mut slots = vec![0; values.len() * SLOT_BYTES];
    let mut area = Vec::new();
    let backwards = dice.once_in(3);
    for step in 0..values.len() {
        let at = if backwards {
            values.len() - 1 - step
        } else {
            step
        };
        if dice.once_in(4) {
            let gap = dice.below(6);
            area.extend(dice.bytes(gap));
        }
        let (kind, items) = (values[at].kind(), values[at].items());
        let value = slot_from(kind, area.len(), items, dice.next() as u32);
        slots[at * SLOT_BYTES..(at + 1) * SLOT_BYTES].copy_from_slice(&value);
        area.extend(values[at].bytes());
    }
    if dice.once_in(3) {
        let rest = dice.below(9);
        area.extend(dice.bytes(rest));
    }
    (slots, area)
}

/// Lets some `a` or `A` field take its string from anywhere in the area.
fn share_area(dice: &mut Dice, specs: &[Spec], slots: &mut [u8], area_len: usize) {
    let takers = specs.iter().filter(|s| s.takes_slot());
    for (spec, place) in takers.zip(slots.chunks_exact_mut(SLOT_BYTES)) {
        if b"aA".contains(&spec.letter) && dice.once_in(8) {
            let start = dice.between(0, area_len);
            let length = dice.between(0, area_len - start);
            place.copy_from_slice(&slot(1, start, length));
        }
    }
}

fn one_in(dice: &mut Dice, len: usize) -> Option<usize> {
    if len == 0 {
        None
    } else {
        Some(dice.below(len))
    }
}

pub fn damage_text(dice: &mut Dice, text: &mut Vec<u8>) {
    let byte = dice.pick(b"aAbBhHcsSiIwWqQrRxX@u*0123456789999  tf\0\xff");
    let at = dice.between(0, text.len());
    match (dice.below(3), at < text.len()) {
        (0, true) => text[at] = byte,
        (1, true) => {
            text.remove(at);
        }
        _ => text.insert(at, byte),
    }
}

pub fn damage_slot(dice: &mut Dice, slots: &mut Vec<u8>, area_len: usize) {
    let mut all = numbers(slots);
    if let Some(at) = one_in(dice, all.len()) {
        let old = all[at];
        let end = area_len as u32;
        let bit = 1 << dice.below(32);
        all[at] = match at % SLOT_NUMBERS {
            0 => dice.pick(&[0, 1, 2, 3, 4, 5, 256, 0x0100_0001, u32::MAX]),
            3 => dice.pick(&[0, 1, end, NO_POSITION]),
            _ => dice.pick(&[
                old.wrapping_add(1),
                old.wrapping_sub(1),
                0,
                end,
                end + 1,
                end.wrapping_sub(old),
                u32::MAX,
                old ^ bit,
                old.wrapping_add(0x2000_0000),
            ]),
        };
    }
    *slots = words(&all);
}

fn damage_bytes(dice: &mut Dice, bytes: &mut [u8]) {
    for _ in 0..dice.between(1, 4) {
        if let Some(at) = one_in(dice, bytes.len()) {
            bytes[at] = dice.pick(b"\0 2gG:/@`\xff1a");
        }
    }
}

/// Puts a NaN into one of the lists of reals.
fn damage_reals(dice: &mut Dice, slots: &[u8], area: &mut [u8]) {
    let all = numbers(slots);
    let lists: Vec<&[u32]> = all
        .chunks_exact(SLOT_NUMBERS)
        .filter(|slot| slot[0] == REAL && slot[2] > 0)
        .collect();
    if let Some(nth) = one_in(dice, lists.len()) {
        let item = dice.below(lists[nth][2] as usize);
        let at = lists[nth][1] as usize + item * ITEM_BYTES;
        let nan = f64::INFINITY.to_bits() + 1 + (dice.next() >> 13);
        area[at..at + ITEM_BYTES].copy_from_slice(&nan.to_be_bytes());
    }
}

pub fn damage_slot_run(dice: &mut Dice, slots: &mut Vec<u8>) {
    let len = match dice.below(4) {
        0 => slots.len().saturating_sub(SLOT_BYTES),
        1 => slots.len() + SLOT_BYTES,
        2 => slots.len() + dice.between(1, SLOT_BYTES - 1),
        _ => dice.pick(&[SLOT_RUN_MAX, SLOT_RUN_MAX + 1, SLOT_RUN_MAX + SLOT_BYTES, 4]),
    };
    slots.resize(len, 1);
}

fn damage_sizes(dice: &mut Dice, call: &mut Call) {
    match dice.below(6) {
        0 => call.layout.resize(LAYOUT_MAX, b' '),
        1 => call.layout.resize(LAYOUT_MAX + 1, b' '),
        2 => call.area.resize(AREA_MAX, 7),
        3 => call.area.resize(AREA_MAX + 1, 7),
        4 => call.record.resize(RECORD_MAX, 0x20),
        _ => call.record.resize(RECORD_MAX + 1, 0x20),
    }
}

pub fn damage_reply(dice: &mut Dice, reply: &mut Vec<u8>) {
    let size = reply.len();
    reply.resize(dice.pick(&[0, 4, size - 1, size + 1]), 9);
}

fn damage(dice: &mut Dice, call: &mut Call) {
    let area_len = call.area.len();
    match dice.below(16) {
        0..=3 => damage_text(dice, &mut call.layout),
        4..=8 => damage_slot(dice, &mut call.slots, area_len),
        9 | 10 => damage_bytes(dice, &mut call.area),
        11 if call.which == Which::Pack => {
            damage_reals(dice, &call.runs.slots, &mut call.runs.area)
        }
        12 | 13 => damage_slot_run(dice, &mut call.slots),
        11 | 14 => damage_sizes(dice, call),
        _ => damage_reply(dice, &mut call.reply),
    }
}

pub fn random_pack(dice: &mut Dice, scratch: &mut Scratch) -> Call {
    let mut specs = random_specs(dice, true);
    let layout = spelled(dice, &mut specs);
    let values = random_arguments(dice, &specs);
    let (mut slots, area) = scattered(dice, &values);
    share_area(dice, &specs, &mut slots, area.len());
    let runs = Runs {
        layout,
        slots,
        area,
        reply: dice.bytes(REPLY_BYTES),
        ..Runs::default()
    };
    let mut call = Call::new(Which::Pack, runs);
    call.null = dice.once_in(2);
    let length = scratch.packed_length(&call).unwrap_or(100);
    let room = match dice.below(8) {
        0 => length.saturating_sub(1),
        1 | 2 => length + dice.below(20),
        3 => dice.pick(&[0, 10, RECORD_MAX, RECORD_MAX]),
        _ => length,
    };
    call.record = dice.bytes(room.min(RECORD_MAX));
    if dice.once_in(3) {
        damage(dice, &mut call);
    }
    call
}

/// Bytes of which some are those at the edges of types.
pub fn random_bytes(dice: &mut Dice, len: usize) -> Vec<u8> {
    let mut bytes = dice.bytes(len);
    for byte in bytes.iter_mut() {
        if dice.once_in(4) {
            *byte = dice.pick(&[0, b' ', 0x7f, 0x80, 0xff]);
        }
    }
    bytes
}

/// A record that some layout packed, or just bytes.
pub fn random_record(dice: &mut Dice, specs: &[Spec], scratch: &mut Scratch) -> Vec<u8> {
    let mut specs: Vec<Spec> = specs.to_vec();
    specs.retain(|s| s.letter != b'x' || s.or_all(COUNT_MAX + 1) <= COUNT_MAX);
    let layout = spelled(dice, &mut specs);
    let arguments = random_arguments(dice, &specs);
    let (slots, area) = scattered(dice, &arguments);
    let answer = packer::pack(&layout, &slots, &area, &mut scratch.record);
    if answer.number == 0 && !dice.once_in(5) {
        return scratch.record[..answer.first as usize].to_vec();
    }
    let len = match dice.below(20) {
        0 => dice.pick(&[RECORD_MAX - 1, RECORD_MAX, 1000]),
        1..=4 => dice.below(300),
        _ => dice.below(40),
    };
    random_bytes(dice, len)
}

/// A mark and an area length around what the values need.
fn random_room(dice: &mut Dice, need: usize) -> (usize, usize) {
    let mark = match dice.below(8) {
        0 => 0,
        1 => dice.below(300),
        2 if dice.once_in(40) => AREA_MAX.saturating_sub(need),
        _ => dice.below(20),
    };
    let end = mark + need;
    let area = match dice.below(12) {
        0 => end.saturating_sub(1),
        1 => end + dice.below(200),
        2 => end + 1,
        3 => mark,
        _ => end,
    };
    let mark = match dice.below(60) {
        0 => area + 1,
        1 => dice.pick(&[usize::MAX, 1 << 32, AREA_MAX + 1]),
        2 => area,
        _ => mark,
    };
    (mark, area.min(AREA_MAX))
}

pub fn random_slots(dice: &mut Dice, count: usize) -> Vec<u8> {
    let mut slots = dice.bytes(count * SLOT_BYTES);
    if dice.once_in(2) {
        slots
            .iter_mut()
            .enumerate()
            .for_each(|(at, b)| *b &= if at % 4 == 3 { 3 } else { 0 });
    }
    slots
}

/// A reading of the record with room for its values, or nearly so.
pub fn reading(
    dice: &mut Dice,
    scratch: &mut Scratch,
    layout: &[u8],
    record: &[u8],
    takers: usize,
) -> Call {
    let need = scratch.value_bytes(layout, record).unwrap_or(50);
    let (mark, area_len) = random_room(dice, need);
    let surplus = dice.pick(&[0, 0, 0, 1, 3]);
    let slots = if takers <= SLOTS_MAX {
        (takers + surplus).min(SLOTS_MAX)
    } else {
        takers
    };
    let runs = Runs {
        layout: layout.to_vec(),
        record: record.to_vec(),
        slots: random_slots(dice, slots),
        area: dice.bytes(area_len),
        reply: dice.bytes(READ_REPLY_BYTES),
        ..Runs::default()
    };
    let mut call = Call::new(Which::Read, runs);
    call.mark = mark;
    call.null = dice.once_in(2);
    call
}

pub fn random_read(dice: &mut Dice, scratch: &mut Scratch) -> Call {
    let mut specs = random_specs(dice, false);
    let layout = spelled(dice, &mut specs);
    let mut record = random_record(dice, &specs, scratch);
    if dice.once_in(3) {
        record.truncate(dice.below(record.len() + 1));
    }
    let mut call = reading(dice, scratch, &layout, &record, takers(&specs));
    if dice.once_in(6) {
        damage(dice, &mut call);
    }
    call
}

/// Packs a record and reads every cut of it, by its own layout and by another.
fn every_cut(dice: &mut Dice, scratch: &mut Scratch, judge: &mut dyn Judge) {
    let mut specs = random_specs(dice, true);
    let layout = spelled(dice, &mut specs);
    let record = random_record(dice, &specs, scratch);
    let mut others = random_specs(dice, false);
    let other = spelled(dice, &mut others);
    let step = 1 + record.len() / 150;
    let first = dice.below(step);
    for cut in (first..=record.len())
        .step_by(step)
        .chain(Some(record.len()))
    {
        let call = reading(dice, scratch, &layout, &record[..cut], takers(&specs));
        judge.compare("every cut", &call);
        if cut % 4 == 0 {
            let call = reading(dice, scratch, &other, &record[..cut], takers(&others));
            judge.compare("every cut, other layout", &call);
        }
    }
}

/// Whether an accepted reading tells as many steps as a walk over the layout, and no more than it has bytes.
fn steps_are_due(call: &Call, after: &After) -> bool {
    if after.returned != 0 {
        return true;
    }
    let due = numbers(&after.reply)[3] as usize;
    due == walk(&call.layout, call.record.len()).len() && due <= call.layout.len()
}

/// Some calls of every sort.
pub fn round(dice: &mut Dice, scratch: &mut Scratch, judge: &mut dyn Judge) {
    for _ in 0..100 {
        let call = random_pack(dice, scratch);
        judge.compare("random packing", &call);
        let call = random_read(dice, scratch);
        let after = judge.compare("random reading", &call);
        judge.claim("steps", &call, steps_are_due(&call, &after));
    }
    for _ in 0..2 {
        every_cut(dice, scratch, judge);
        evolution::round(dice, judge);
    }
}
