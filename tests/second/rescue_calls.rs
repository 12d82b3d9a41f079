//! Rescues: a sheet at every cut and with every byte damaged, the order of refusals, and random sheets.

use crate::call::{numbers, After, Call, Judge, Runs, Which};
use crate::calls::{damage_reply, damage_slot_run, random_slots};
use crate::dice::Dice;
use crate::fixed::refuses_replies;
use crate::library::by_library;
use crate::limits::{
    AREA_MAX, LEGS_MAX, REPLY_BYTES, RESCUE_REPLY_BYTES, SHEET_MAX, SLOTS_MAX, SLOT_BYTES,
};
use crate::sheet_calls::{entry_places, random_sheet, random_table, sheet_length, size};
use crate::values::{ints, shown, table, text, Value};

const OLD: u8 = 0xe7;
const MARK: usize = 5;
/// Not set, `OK` and {-2}.
const THREE: &[u8] = b"\x01\0\x13\0\x01\0\0\x03\x01OK\0\x09\x02\xff\xff\xff\xff\xff\xff\xff\xfe";
/// Where its header and its entries end.
const ENDS: [usize; 4] = [3, 6, 11, 22];

fn three_values() -> [Value; 3] {
    [Value::Unset, text("OK"), ints(&[-2])]
}

fn rescue(sheet: &[u8], legs: usize, slots: usize, room: usize) -> Call {
    let runs = Runs {
        sheet: sheet.to_vec(),
        slots: vec![OLD; slots * SLOT_BYTES],
        area: vec![OLD; MARK + room],
        reply: vec![OLD; RESCUE_REPLY_BYTES],
        ..Runs::default()
    };
    let mut call = Call::new(Which::SheetRescue, runs);
    call.mark = MARK;
    call.legs = legs;
    call
}

/// What a rescue that kept these values leaves behind.
fn saved(call: &Call, values: &[Value], dropped: usize) -> After {
    let (slots, area) = table(values, call.mark);
    let cleared = call.legs - values.len();
    let (cleared_slots, _) = table(&vec![Value::Unset; cleared], 0);
    let numbers = [0, values.len(), cleared, dropped].map(|n| n as u32);
    let mut after = call.answered(numbers);
    after.slots[..slots.len()].copy_from_slice(&slots);
    after.slots[slots.len()..][..cleared_slots.len()].copy_from_slice(&cleared_slots);
    after.area[call.mark..][..area.len()].copy_from_slice(&area);
    after
}

/// Rescues with just enough slots and room, and with some to spare.
fn rescues(t: &mut dyn Judge, sheet: &[u8], legs: usize, values: &[Value], dropped: usize) {
    for surplus in [0, 2] {
        let slots = (legs + surplus).min(SLOTS_MAX);
        let call = rescue(sheet, legs, slots, size(values) + surplus);
        t.expect("rescue", &call, &saved(&call, values, dropped));
    }
    if legs > 0 {
        let call = rescue(sheet, legs, legs - 1, size(values));
        refuses(t, call, 5);
    }
    if size(values) > 0 {
        let call = rescue(sheet, legs, legs, size(values) - 1);
        refuses(t, call, 11);
    }
}

fn refuses(t: &mut dyn Judge, call: Call, number: u32) {
    let after = call.answered([number, 0, 0, 0]);
    t.expect("refused rescue", &call, &after);
}

/// A sheet of three entries at every cut, with every number of legs around three.
fn cuts(t: &mut dyn Judge) {
    for cut in 0..=THREE.len() {
        let whole = ENDS
            .iter()
            .filter(|&&end| end <= cut)
            .count()
            .saturating_sub(1);
        for legs in 0..6 {
            let kept = whole.min(legs);
            let end = if cut < ENDS[0] { 0 } else { ENDS[kept] };
            let values = &three_values()[..kept];
            rescues(t, &THREE[..cut], legs, values, cut - end);
        }
    }
    rescues(t, THREE, LEGS_MAX, &three_values(), 0);
    rescues(t, &[], 0, &[], 0);
    rescues(t, &[], LEGS_MAX, &[], 0);
    rescues(t, &[1, 0], 2, &[], 2);
}

/// The header's length is not trusted, and what follows the last entry that is kept is dropped.
fn damages(t: &mut dyn Judge) {
    for length in [0, 1, 0x12, 0x14, 255] {
        let mut sheet = THREE.to_vec();
        sheet[1] = length;
        sheet[2] = length;
        rescues(t, &sheet, 3, &three_values(), 0);
    }
    let longer = [THREE, &[0, 1, 0, 9][..]].concat();
    rescues(t, &longer, 3, &three_values(), 4);
    let four = [&three_values()[..], &[Value::Unset]].concat();
    rescues(t, &longer, 4, &four, 1);
    rescues(t, &longer, 5, &four, 1);
    let mut sheet = THREE.to_vec();
    sheet[5] = 9;
    rescues(t, &sheet, 3, &[], 19);
    sheet[5] = 0;
    sheet[8] = 2;
    rescues(t, &sheet, 3, &[Value::Unset], 16);
    sheet[8] = 1;
    sheet[12] = 8;
    rescues(t, &sheet, 3, &three_values()[..2], 11);
    sheet[12] = 1;
    let kept = [Value::Unset, text("OK"), ints(&[])];
    rescues(t, &sheet, 3, &kept, 8);
}

/// Each byte of a sheet changed to every other value: the entries before it are kept all the same.
fn every_byte(t: &mut dyn Judge) {
    for at in 0..THREE.len() {
        for byte in 0..=255 {
            let mut sheet = THREE.to_vec();
            sheet[at] = byte;
            let call = rescue(&sheet, 3, 4, 40);
            let after = t.compare("damaged sheet", &call);
            if at == 0 {
                let known = byte == 1 || byte == 2;
                t.claim("versions", &call, (after.returned == 13) != known);
                continue;
            }
            let before = ENDS
                .iter()
                .filter(|&&end| end <= at)
                .count()
                .saturating_sub(1);
            let kept = &shown(&after.slots, &after.area)[..before];
            let same =
                numbers(&after.reply)[1] >= before as u32 && *kept == three_values()[..before];
            t.claim("entries before the damage are kept", &call, same);
        }
    }
}

fn order(t: &mut dyn Judge) {
    let bad = [&[7][..], &THREE[1..]].concat();
    let mut call = rescue(&bad, LEGS_MAX + 1, 1, 0);
    refuses(t, call.clone(), 1);
    for legs in [(1 << 32) + 3, 1 << 32, usize::MAX] {
        call.legs = legs;
        refuses(t, call.clone(), 1);
    }
    call.legs = 3;
    refuses(t, call.clone(), 13);
    for mark in [MARK + 1, 1 << 32, usize::MAX] {
        call.mark = mark;
        refuses(t, call.clone(), 1);
    }
    call.mark = MARK;
    call.sheet = vec![7];
    refuses(t, call.clone(), 13);
    call.sheet = vec![7; SHEET_MAX];
    refuses(t, call.clone(), 13);
    call.sheet.push(7);
    refuses(t, call.clone(), 1);
    call.sheet = THREE.to_vec();
    refuses(t, call.clone(), 5);
    call.slots = vec![OLD; 3 * SLOT_BYTES];
    refuses(t, call.clone(), 11);
    call.area = vec![OLD; AREA_MAX + 1];
    refuses(t, call.clone(), 1);
    call.area.pop();
    t.expect("the largest area", &call, &saved(&call, &three_values(), 0));
    call.slots.push(0);
    refuses(t, call.clone(), 1);
    call.slots = vec![OLD; (SLOTS_MAX + 1) * SLOT_BYTES];
    refuses(t, call, 1);
    // Room is asked for what is kept alone.
    let call = rescue(THREE, 2, 2, 2);
    t.expect(
        "room for two",
        &call,
        &saved(&call, &three_values()[..2], 11),
    );
}

fn replies(t: &mut dyn Judge) {
    let size = RESCUE_REPLY_BYTES;
    let lengths = [0, 4, REPLY_BYTES, size - 1, size + 1];
    refuses_replies(t, rescue(THREE, 3, 3, 10), &lengths);
}

/// The largest sheet, and one of more entries than there can be legs.
fn sizes(t: &mut dyn Judge) {
    let long = vec![b'z'; 60_000];
    let entry = [&(1 + long.len() as u16).to_be_bytes()[..], &[1], &long].concat();
    let mut sheet = [&[1, 0, 0][..], &entry].concat();
    rescues(t, &sheet[..sheet.len() - 1], 1, &[], 60_002);
    let used = sheet.len();
    sheet.resize(SHEET_MAX, 0);
    rescues(t, &sheet, 1, &[text(&long)], SHEET_MAX - used);
    let many = [&[1, 9, 9][..], &[0, 1, 0].repeat(LEGS_MAX + 6)].concat();
    rescues(t, &many, LEGS_MAX, &vec![Value::Unset; LEGS_MAX], 18);
    let most = AREA_MAX - MARK - 2;
    let long = vec![b'y'; most];
    let length = (1 + most as u32).to_be_bytes();
    let mut sheet = [&[2, 0, 0, 0, 0][..], &length, &[1], &long].concat();
    rescues(t, &sheet, 1, &[text(&long)], 0);
    rescues(t, &sheet[..sheet.len() - 1], 1, &[], most + 4);
    sheet.resize(SHEET_MAX, 0);
    rescues(t, &sheet, 1, &[text(&long)], SHEET_MAX - most - 10);
}

/// Version 2 has a header of five bytes and lengths of four; whether version 1 would do is not asked.
fn second_version(t: &mut dyn Judge) {
    let mut sheet = vec![2, 9, 9, 9, 9, 0, 0, 0, 1, 0, 0, 0, 0, 3, 1, b'O', b'K'];
    sheet.extend([0, 0, 0, 9, 2, 255, 255, 255, 255, 255, 255, 255, 254]);
    let ends = [5, 10, 17, 30];
    for cut in 0..=sheet.len() {
        let whole = ends.iter().filter(|&&end| end <= cut).count();
        let end = if cut < ends[0] { 0 } else { ends[whole - 1] };
        let values = &three_values()[..whole.saturating_sub(1)];
        rescues(t, &sheet[..cut], 4, values, cut - end);
    }
    sheet[11] = 1;
    rescues(t, &sheet, 3, &three_values()[..1], 20);
    sheet[0] = 1;
    rescues(t, &sheet, 3, &[], 27);
}

pub fn run(t: &mut dyn Judge) {
    cuts(t);
    damages(t);
    every_byte(t);
    order(t);
    replies(t);
    sizes(t);
    second_version(t);
}

// Random sheets

/// A rescue with slots and room as they are needed, or nearly so.
fn random_rescue(dice: &mut Dice, sheet: &[u8], legs: usize, bytes: usize) -> Call {
    let slots = match dice.below(12) {
        0 => legs.saturating_sub(1),
        1 => SLOTS_MAX,
        _ => legs,
    };
    let mark = dice.pick(&[0, 0, 3, 70]);
    let room = match dice.below(12) {
        0 => dice.below(bytes + 1),
        1 => bytes + dice.below(50),
        _ => bytes,
    };
    let mut call = rescue(sheet, legs, 0, 0);
    call.slots = random_slots(dice, slots.min(SLOTS_MAX));
    call.area = dice.bytes(mark + room);
    call.reply = dice.bytes(RESCUE_REPLY_BYTES);
    call.null = dice.once_in(2);
    call.mark = if dice.once_in(60) {
        mark + room + 1
    } else {
        mark
    };
    match dice.below(60) {
        0 => damage_slot_run(dice, &mut call.slots),
        1 => damage_reply(dice, &mut call.reply),
        2 => call.legs = dice.pick(&[LEGS_MAX + 1, 1 << 32, legs + (1 << 32)]),
        _ => {}
    }
    call
}

/// The writing of a table, with the room that it needs if there can be so much.
fn writing(slots: &[u8], area: &[u8]) -> Call {
    let runs = Runs {
        slots: slots.to_vec(),
        area: area.to_vec(),
        sheet: vec![OLD; sheet_length(&shown(slots, area)).min(SHEET_MAX)],
        reply: vec![OLD; REPLY_BYTES],
        ..Runs::default()
    };
    Call::new(Which::SheetWrite, runs)
}

/// What a rescue kept is written, and the sheet that this gives is rescued whole.
fn written_and_rescued(judge: &mut dyn Judge, call: &Call) {
    let (after, _) = by_library(call);
    if after.returned != 0 || call.reply.len() != RESCUE_REPLY_BYTES {
        return;
    }
    let slots = &after.slots[..call.legs * SLOT_BYTES];
    let values = shown(slots, &after.area);
    let writing = writing(slots, &after.area);
    judge.compare("writing what was rescued", &writing);
    let (written, _) = by_library(&writing);
    if written.returned == 0 {
        let length = numbers(&written.reply)[1] as usize;
        let again = rescue(
            &written.sheet[..length],
            call.legs,
            call.legs,
            size(&values),
        );
        judge.expect("rescuing a sound sheet", &again, &saved(&again, &values, 0));
    }
}

/// A sound sheet is rescued as it is read.
fn as_read(judge: &mut dyn Judge, sheet: &[u8], values: &[Value]) {
    let rescue = rescue(sheet, values.len(), values.len(), size(values));
    judge.expect("a sound sheet", &rescue, &saved(&rescue, values, 0));
    let mut reading = rescue.clone();
    reading.which = Which::SheetRead;
    reading.reply.truncate(REPLY_BYTES);
    let ((rescued, _), (read, _)) = (by_library(&rescue), by_library(&reading));
    let same = rescued.slots == read.slots && rescued.area == read.area;
    judge.claim("a sound sheet is rescued as it is read", &rescue, same);
}

/// The sheet of a random table, and the values that it holds.
fn written(dice: &mut Dice) -> (Vec<u8>, Vec<Value>) {
    let (slots, area) = random_table(dice);
    let values = shown(&slots, &area);
    let (after, _) = by_library(&writing(&slots, &area));
    let length = numbers(&after.reply)[1] as usize;
    match after.returned {
        0 => (after.sheet[..length].to_vec(), values),
        _ => (vec![1, 0, 0], Vec::new()),
    }
}

/// A sheet that was written, cut at every byte or with every byte damaged.
fn cut_and_damaged(dice: &mut Dice, judge: &mut dyn Judge) {
    let (sheet, values) = written(dice);
    as_read(judge, &sheet, &values);
    let ends = entry_places(&sheet, &values);
    let step = 1 + sheet.len() / 60;
    for at in (0..sheet.len()).step_by(step) {
        let whole = ends.iter().filter(|&&end| end <= at).count();
        let dropped = if at < ends[0] {
            at
        } else {
            at - ends[whole - 1]
        };
        let kept = &values[..whole.saturating_sub(1)];
        let legs = (values.len() + dice.below(3)).min(LEGS_MAX);
        let call = rescue(&sheet[..at], legs, legs, size(kept));
        judge.expect("a cut sheet", &call, &saved(&call, kept, dropped));
        let mut damaged = sheet.clone();
        damaged[at] = match dice.below(3) {
            0 => dice.byte(),
            1 => damaged[at] ^ 1 << dice.below(8),
            _ => dice.pick(&[0, 1, 2, 3, 4, 5, 9, 17]),
        };
        let call = random_rescue(dice, &damaged, legs, size(&values) + 16);
        judge.compare("a damaged sheet", &call);
        written_and_rescued(judge, &call);
    }
}

pub fn round(dice: &mut Dice, judge: &mut dyn Judge) {
    for _ in 0..4 {
        cut_and_damaged(dice, judge);
    }
    for _ in 0..20 {
        let sheet = random_sheet(dice);
        let legs = dice.below(8);
        let call = random_rescue(dice, &sheet, legs, 150);
        judge.compare("made-up sheet", &call);
        written_and_rescued(judge, &call);
    }
}
