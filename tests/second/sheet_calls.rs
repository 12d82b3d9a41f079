//! Sheets: the worked example, the edges, random tables, and sheets that are damaged or cut.

use crate::call::{numbers, Call, Judge, Runs, Which};
use crate::calls::{damage_reply, damage_slot, damage_slot_run, random_slots, scattered};
use crate::dice::Dice;
use crate::fixed::{refuses, refuses_replies, was_set, with_slot};
use crate::layouts::random_value;
use crate::limits::{
    AREA_MAX, KIND_MAX, REPLY_BYTES, SHEET_MAX, SHORT_LENGTH_MAX, SLOTS_MAX, SLOT_BYTES,
};
use crate::values::{ints, reals, shown, slot, table, text, uints, Value};

const OLD: u8 = 0xab;
const MARK: usize = 3;
/// The longest sheet of version 1.
const SHORT_SHEET_MAX: usize = SHORT_LENGTH_MAX + 3;

fn writing(values: &[Value], room: usize) -> Call {
    let (slots, area) = table(values, 0);
    let runs = Runs {
        slots,
        area,
        sheet: vec![OLD; room],
        reply: vec![OLD; REPLY_BYTES],
        ..Runs::default()
    };
    Call::new(Which::SheetWrite, runs)
}

fn reading(sheet: &[u8], slots: usize, room: usize) -> Call {
    let runs = Runs {
        sheet: sheet.to_vec(),
        slots: vec![OLD; slots * SLOT_BYTES],
        area: vec![OLD; (MARK + room).min(AREA_MAX)],
        reply: vec![OLD; REPLY_BYTES],
        ..Runs::default()
    };
    let mut call = Call::new(Which::SheetRead, runs);
    call.mark = MARK;
    call
}

/// The bytes that the values take in an area.
pub fn size(values: &[Value]) -> usize {
    values.iter().map(|v| v.bytes().len()).sum()
}

/// The values are written as this sheet, and the sheet is read as these values.
fn both_ways(t: &mut dyn Judge, values: &[Value], sheet: &[u8]) {
    for surplus in [0, 2] {
        let call = writing(values, (sheet.len() + surplus).min(SHEET_MAX));
        let mut after = call.answered([0, sheet.len() as u32, 0]);
        after.sheet[..sheet.len()].copy_from_slice(sheet);
        t.expect("writing a sheet", &call, &after);
        let slots = (values.len() + surplus).min(SLOTS_MAX);
        let call = reading(sheet, slots, size(values) + surplus);
        t.expect("reading a sheet", &call, &was_set(&call, values));
    }
    refuses(t, writing(values, sheet.len() - 1), 11, 0);
    if !values.is_empty() {
        let call = reading(sheet, values.len() - 1, size(values));
        refuses(t, call, 5, 0);
    }
    if size(values) > 0 {
        let call = reading(sheet, values.len(), size(values) - 1);
        refuses(t, call, 11, 0);
    }
}

fn examples(t: &mut dyn Judge) {
    both_ways(t, &[], &[1, 0, 0]);
    both_ways(t, &[Value::Unset], &[1, 0, 3, 0, 1, 0]);
    both_ways(t, &[text("")], &[1, 0, 3, 0, 1, 1]);
    both_ways(t, &[ints(&[])], &[1, 0, 3, 0, 1, 2]);
    both_ways(t, &[uints(&[])], &[1, 0, 3, 0, 1, 3]);
    both_ways(t, &[reals(&[])], &[1, 0, 3, 0, 1, 4]);
    let sheet = b"\x01\0\x13\0\x01\0\0\x03\x01OK\0\x09\x02\xff\xff\xff\xff\xff\xff\xff\xfe";
    both_ways(t, &[Value::Unset, text("OK"), ints(&[-2])], sheet);
    let sheet = b"\x01\0\x16\0\x11\x03\0\0\0\0\0\0\0\x01\xff\0\0\0\0\0\0\0\0\x01\0";
    both_ways(t, &[uints(&[1, 255 << 56]), Value::Unset], sheet);
    let sheet = b"\x01\0\x13\0\x11\x04\x40\x59\0\0\0\0\0\0\x7f\xf0\0\0\0\0\0\x01";
    let bits = [100f64.to_bits(), 0x7ff0_0000_0000_0001];
    both_ways(t, &[Value::Real(bits.to_vec())], sheet);
}

fn reading_refused(t: &mut dyn Judge, sheet: &[u8], number: u32, place: u32) {
    refuses(t, reading(sheet, SLOTS_MAX, 100), number, place);
}

fn damaged_headers(t: &mut dyn Judge) {
    reading_refused(t, &[], 12, 0);
    reading_refused(t, &[1], 12, 0);
    reading_refused(t, &[1, 0], 12, 0);
    for version in [0, 3, 4, 255] {
        reading_refused(t, &[version], 13, 0);
        reading_refused(t, &[version, 0, 0], 13, 0);
        reading_refused(t, &[version, 9, 9, 9, 9], 13, 0);
    }
    reading_refused(t, &[1, 0, 1], 12, 0);
    reading_refused(t, &[1, 1, 0], 12, 0);
    reading_refused(t, &[1, 0, 0, 0], 12, 0);
    reading_refused(t, &[1, 0, 2, 0, 1, 0], 12, 0);
    reading_refused(t, &[1, 3, 0, 0, 1, 0], 12, 0);
    reading_refused(t, &[1, 0, 6, 0, 1, 0], 12, 0);
    let long = vec![1; SHORT_SHEET_MAX + 1];
    reading_refused(t, &long, 12, 0);
}

/// Version 2: a header of five bytes, lengths of four, and refused where version 1 would do.
fn second_version(t: &mut dyn Judge) {
    for cut in 1..5 {
        reading_refused(t, &[2, 0, 0, 0, 0][..cut], 12, 0);
    }
    reading_refused(t, &[2, 0, 0, 0, 1], 12, 0);
    reading_refused(t, &[2, 0, 0, 0, 0], 12, 0);
    reading_refused(t, &[2, 0, 0, 0, 5, 0, 0, 0, 1, 0], 12, 0);
    reading_refused(t, &[2, 0, 0, 0, 5, 0, 0, 0, 1, 9], 12, 5);
    reading_refused(t, &[2, 0, 0, 0, 5, 0, 0, 1, 0, 0], 12, 5);
    reading_refused(t, &[2, 0, 0, 0, 3, 0, 1, 0], 12, 5);
    let two = [2, 0, 0, 0, 9, 0, 0, 0, 1, 0, 0, 0, 0, 0];
    reading_refused(t, &two, 12, 10);
    // The rule stands after the entries and before the slots.
    refuses(t, reading(&[2, 0, 0, 0, 5, 0, 0, 0, 1, 0], 0, 0), 12, 0);
}

fn damaged_entries(t: &mut dyn Judge) {
    reading_refused(t, &[1, 0, 1, 0], 12, 3);
    reading_refused(t, &[1, 0, 2, 0, 0], 12, 3);
    reading_refused(t, &[1, 0, 2, 0, 1], 12, 3);
    reading_refused(t, &[1, 0, 3, 0, 2, 1], 12, 3);
    reading_refused(t, &[1, 0, 3, 1, 0, 0], 12, 3);
    reading_refused(t, &[1, 0, 4, 0, 2, 0, 0], 12, 3);
    reading_refused(t, &[1, 0, 4, 0, 1, 0, 0], 12, 6);
    reading_refused(t, &[1, 0, 5, 0, 1, 0, 0, 0], 12, 6);
    for kind in KIND_MAX as u8 + 1..=255 {
        reading_refused(t, &[1, 0, 6, 0, 1, 0, 0, 1, kind], 12, 6);
    }
    for kind in 2..=KIND_MAX as u8 {
        for length in 1..=17 {
            let entry = [
                &[1, 0, 3 + length, 0, 1 + length, kind],
                &vec![7; length as usize][..],
            ];
            let sheet = entry.concat();
            let items = (length / 8) as u32;
            let call = reading(&sheet, 1, 17);
            if length % 8 != 0 {
                refuses(t, call, 12, 3);
                continue;
            }
            let mut after = call.answered([0, 1, MARK as u32 + length as u32]);
            after.slots = slot(kind as u32, MARK, items as usize);
            after.area[MARK..MARK + length as usize].fill(7);
            t.expect("lists of a sheet", &call, &after);
        }
    }
}

/// Of two reasons the earlier one counts.
fn order(t: &mut dyn Judge) {
    let bad = KIND_MAX as u8 + 1;
    let sheet = [1, 0, 11, 0, 3, 1, b'O', b'K', 0, 1, bad, 0, 1, 0];
    reading_refused(t, &sheet, 12, 8);
    refuses(t, reading(&sheet, 0, 0), 12, 8);
    let sheet = [1, 0, 8, 0, 3, 1, b'O', b'K', 0, 1, 0];
    refuses(t, reading(&sheet, 1, 0), 5, 0);
    refuses(t, reading(&sheet, 2, 1), 11, 0);
    let mut call = reading(&[9], 2, 1);
    refuses(t, call.clone(), 13, 0);
    call.mark = call.area.len() + 1;
    refuses(t, call.clone(), 1, 0);
    call.mark = usize::MAX;
    refuses(t, call.clone(), 1, 0);
    call.mark = 0;
    call.slots.push(0);
    refuses(t, call, 1, 0);
    let call = writing(&[text("OK"), text("no")], 0);
    refuses(t, call.clone(), 11, 0);
    refuses(t, with_slot(call.clone(), 1, [KIND_MAX + 1, 0, 0]), 7, 1);
    refuses(t, with_slot(call.clone(), 1, [1, 5, 0]), 7, 1);
    refuses(t, with_slot(call.clone(), 0, [2, 0, 1]), 7, 0);
    refuses(t, with_slot(call.clone(), 0, [3, u32::MAX, u32::MAX]), 7, 0);
    refuses(t, with_slot(call.clone(), 0, [3, 0, 0x2000_0000]), 7, 0);
    refuses(t, with_slot(call.clone(), 0, [0, 9, u32::MAX]), 11, 0);
    let mut call = with_slot(call, 0, [9, 0, 0]);
    call.slots.push(0);
    refuses(t, call, 1, 0);
}

/// The largest tables and sheets, and those just too large.
fn sizes(t: &mut dyn Judge) {
    let all = vec![Value::Unset; SLOTS_MAX];
    let sheet = [
        &[1, 0, 3 * SLOTS_MAX as u8][..],
        &[0, 1, 0].repeat(SLOTS_MAX),
    ]
    .concat();
    both_ways(t, &all, &sheet);
    let over = [&[1, 0, 3 + sheet[2]][..], &[0, 1, 0].repeat(SLOTS_MAX + 1)].concat();
    refuses(t, reading(&over, SLOTS_MAX, 0), 5, 0);
    refuses(t, reading(&sheet, SLOTS_MAX + 1, 0), 1, 0);
    let over = [&all[..], &all[..1]].concat();
    refuses(t, writing(&over, 1000), 1, 0);
    refuses(t, writing(&[], SHEET_MAX + 1), 1, 0);
    refuses(t, reading(&vec![1; SHEET_MAX + 1], 1, 0), 1, 0);
    refuses(t, reading(&vec![3; SHEET_MAX + 1], 1, 0), 1, 0);
    refuses(t, reading(&vec![3; SHEET_MAX], 1, 0), 13, 0);
    refuses(t, reading(&vec![2; SHEET_MAX], 1, 0), 12, 0);
    let mut call = writing(&[], 3);
    call.area = vec![OLD; AREA_MAX + 1];
    refuses(t, call, 1, 0);
    longest(t);
    longest_of_second_version(t);
}

/// The bytes of a long value.
fn long(bytes: usize) -> Vec<u8> {
    (0..bytes).map(|n| (n % 251) as u8).collect()
}

/// The entry of a string, with a length of four bytes.
fn long_entry(value: &[u8]) -> Vec<u8> {
    let length = (1 + value.len()) as u32;
    [&length.to_be_bytes()[..], &[1], value].concat()
}

/// The sheet of version 2 with these entries.
fn long_sheet(entries: &[Vec<u8>]) -> Vec<u8> {
    let entries = entries.concat();
    let length = (entries.len() as u32).to_be_bytes();
    [&[2][..], &length, &entries].concat()
}

/// The longest sheets of version 1, and tables that are too long for it by a byte.
fn longest(t: &mut dyn Judge) {
    let value = &long(65532)[..];
    let sheet = [&[1, 255, 255, 255, 253, 1][..], value].concat();
    both_ways(t, &[text(value)], &sheet);
    let over = long(65533);
    let sheet = long_sheet(&[long_entry(&over)]);
    assert_eq!(sheet[..10], [2, 0, 1, 0, 2, 0, 0, 255, 254, 1]);
    both_ways(t, &[text(&over)], &sheet);
    let two = [text(&value[..32765]), text(&value[..32764])];
    let start = [&[1, 255, 255, 127, 254, 1][..], &value[..32765]].concat();
    let sheet = [&start, &[127, 253, 1][..], &value[..32764]].concat();
    both_ways(t, &two, &sheet);
    let two = [text(&value[..32765]), text(&value[..32765])];
    let entry = long_entry(&value[..32765]);
    both_ways(t, &two, &long_sheet(&[entry.clone(), entry]));
}

/// The longest table that can be read, and the longest sheet that can be written.
fn longest_of_second_version(t: &mut dyn Judge) {
    let all = long(AREA_MAX - MARK);
    both_ways(t, &[text(&all)], &long_sheet(&[long_entry(&all)]));
    let second = SHEET_MAX - AREA_MAX - 15;
    let mut call = writing(&[text(""), text("")], SHEET_MAX);
    call.area = long(AREA_MAX);
    call.slots = [slot(1, 0, AREA_MAX), slot(1, 3, second)].concat();
    let (first, last) = (&call.area[..], &call.area[3..3 + second]);
    let sheet = long_sheet(&[long_entry(first), long_entry(last)]);
    let mut after = call.answered([0, SHEET_MAX as u32, 0]);
    after.sheet = sheet.clone();
    t.expect("the longest sheet", &call, &after);
    let mut reading = reading(&sheet, 2, AREA_MAX);
    refuses(t, reading.clone(), 11, 0);
    reading.slots.truncate(SLOT_BYTES);
    refuses(t, reading, 5, 0);
    call.slots = [slot(1, 0, AREA_MAX), slot(1, 3, second + 1)].concat();
    refuses(t, call, 11, 0);
}

fn replies(t: &mut dyn Judge) {
    for call in [writing(&[text("OK")], 9), reading(&[1, 0, 0], 1, 1)] {
        refuses_replies(t, call, &[0, 4, REPLY_BYTES - 1, REPLY_BYTES + 1]);
    }
}

pub fn run(t: &mut dyn Judge) {
    examples(t);
    damaged_headers(t);
    damaged_entries(t);
    second_version(t);
    order(t);
    sizes(t);
    replies(t);
}

// Random calls

/// A table of which some slots are not set; these hold anything in start and length.
pub fn random_table(dice: &mut Dice) -> (Vec<u8>, Vec<u8>) {
    let count = match dice.below(10) {
        0 => 0,
        1 => dice.between(0, SLOTS_MAX),
        _ => dice.between(1, 8),
    };
    let long = dice.once_in(15);
    let values: Vec<Value> = (0..count).map(|_| random_value(dice, long)).collect();
    let (mut slots, area) = scattered(dice, &values);
    for place in slots.chunks_exact_mut(SLOT_BYTES) {
        if dice.once_in(4) {
            let (start, length) = (dice.next() as u32, dice.next() as u32);
            place.copy_from_slice(&slot(0, start as usize, length as usize));
        }
    }
    (slots, area)
}

/// Lets some slots show a string from anywhere in the area, so that the sheet may get too long.
fn share_area(dice: &mut Dice, slots: &mut [u8], area_len: usize) {
    for place in slots.chunks_exact_mut(SLOT_BYTES) {
        if dice.once_in(2) {
            let start = dice.between(0, area_len);
            place.copy_from_slice(&slot(1, start, dice.between(0, area_len - start)));
        }
    }
}

/// Two strings whose sheet is about as long as one of version 1 may be.
fn full_table(dice: &mut Dice) -> (Vec<u8>, Vec<u8>) {
    let first = dice.below(SHORT_SHEET_MAX / 2);
    let second = SHORT_SHEET_MAX - 11 + dice.below(5) - first;
    let slots = [slot(1, 0, first), slot(1, 1, second)];
    (slots.concat(), dice.bytes(SHORT_SHEET_MAX))
}

fn random_writing(dice: &mut Dice) -> Call {
    let (mut slots, mut area) = match dice.once_in(40) {
        true => full_table(dice),
        false => random_table(dice),
    };
    match dice.below(200) {
        0 => area.resize(dice.pick(&[AREA_MAX, AREA_MAX + 1]), 5),
        1..=5 => area.resize(area.len().max(20_000), 5),
        _ => {}
    }
    if dice.once_in(4) {
        share_area(dice, &mut slots, area.len());
    }
    let runs = Runs {
        slots,
        area,
        reply: dice.bytes(REPLY_BYTES),
        ..Runs::default()
    };
    let mut call = Call::new(Which::SheetWrite, runs);
    call.null = dice.once_in(2);
    let need = sheet_length(&shown(&call.slots, &call.area));
    let room = match dice.below(100) {
        0..=9 => need.saturating_sub(1),
        10..=19 => dice.below(need + 1),
        20..=29 => need + dice.below(30),
        30 => dice.pick(&[SHEET_MAX, SHEET_MAX + 1]),
        _ => need,
    };
    call.sheet = dice.bytes(room.min(SHEET_MAX + 1));
    let area_len = call.area.len();
    match dice.below(20) {
        0..=3 => damage_slot(dice, &mut call.slots, area_len),
        4 => damage_slot_run(dice, &mut call.slots),
        5 => damage_reply(dice, &mut call.reply),
        _ => {}
    }
    call
}

/// The length of the sheet that holds these values.
pub fn sheet_length(values: &[Value]) -> usize {
    let entries = |overhead: usize| size(values) + values.len() * overhead;
    match entries(3) <= SHORT_LENGTH_MAX {
        true => 3 + entries(3),
        false => 5 + entries(5),
    }
}

/// A reading with as many slots and as much room as are needed, or nearly so.
fn random_reading(dice: &mut Dice, sheet: &[u8], entries: usize, bytes: usize) -> Call {
    let slots = match dice.below(12) {
        0 => entries.saturating_sub(1),
        1 => SLOTS_MAX,
        2 => entries + 1,
        _ => entries,
    };
    let mark = dice.pick(&[0, 0, 1, 9, 100]);
    let room = match dice.below(12) {
        0 => bytes.saturating_sub(1),
        1 => bytes + dice.below(50),
        _ => bytes,
    };
    let runs = Runs {
        sheet: sheet.to_vec(),
        slots: random_slots(dice, slots.min(SLOTS_MAX)),
        area: dice.bytes(mark + room),
        reply: dice.bytes(REPLY_BYTES),
        ..Runs::default()
    };
    let mut call = Call::new(Which::SheetRead, runs);
    call.null = dice.once_in(2);
    call.mark = match dice.below(60) {
        0 => mark + room + 1,
        1 => mark + room,
        _ => mark,
    };
    match dice.below(60) {
        0 => damage_slot_run(dice, &mut call.slots),
        1 => damage_reply(dice, &mut call.reply),
        2 if dice.once_in(40) => call.sheet.resize(SHEET_MAX + dice.below(2), 1),
        3 if dice.once_in(20) => call.area.resize(AREA_MAX + dice.below(2), 1),
        4 => call.sheet.truncate(dice.below(7)),
        _ => {}
    }
    call
}

/// A sheet whose header tells its length.
fn with_header(mut sheet: Vec<u8>) -> Vec<u8> {
    let header = header(&sheet);
    if sheet.len() >= header {
        let length = ((sheet.len() - header) as u32).to_be_bytes();
        sheet[1..header].copy_from_slice(&length[5 - header..]);
    }
    sheet
}

/// The bytes of the header, by the first byte.
pub fn header(sheet: &[u8]) -> usize {
    match sheet.first() {
        Some(2) => 5,
        _ => 3,
    }
}

/// A sheet with one byte changed, added or taken out.
fn damaged(dice: &mut Dice, sheet: &[u8], at: usize) -> Vec<u8> {
    let mut sheet = sheet.to_vec();
    let byte = match dice.below(3) {
        0 => dice.byte(),
        1 => sheet[at] ^ (1 << dice.below(8)),
        _ => dice.pick(&[0, 1, 2, 3, 4, 5, 8, 9, 16, 17, 255]),
    };
    match dice.below(8) {
        0 => sheet.insert(at, byte),
        1 => {
            sheet.remove(at);
        }
        _ => sheet[at] = byte,
    }
    if dice.once_in(2) {
        with_header(sheet)
    } else {
        sheet
    }
}

/// Bytes that look like a sheet at least at their beginning, of either version.
pub fn random_sheet(dice: &mut Dice) -> Vec<u8> {
    let mut sheet = dice.pick(&[&[1, 0, 0][..], &[2, 0, 0, 0, 0]]).to_vec();
    for _ in 0..dice.below(6) {
        let length = dice.pick(&[0, 1, 1, 2, 8, 9, 9, 17, 17, 18]);
        sheet.resize(sheet.len() + header(&sheet) - 2, 0);
        sheet.extend([length as u8, dice.pick(&[0, 1, 1, 2, 2, 3, 3, 4, 4, 5])]);
        let value = dice.between(length.max(1) - 1, length);
        sheet.extend(dice.bytes(value));
    }
    with_header(sheet)
}

/// Where the entries of these values begin, and where the last one ends.
pub fn entry_places(sheet: &[u8], values: &[Value]) -> Vec<usize> {
    let header = header(sheet);
    let end = |count: usize| header + size(&values[..count]) + count * header;
    (0..=values.len()).map(end).collect()
}

/// The places of a sheet to damage: all of a short one, or some of its; of a long one those of its lengths and kinds.
fn places(sheet: &[u8], values: &[Value]) -> Vec<usize> {
    if sheet.len() < 2000 {
        return (0..sheet.len()).step_by(1 + sheet.len() / 50).collect();
    }
    let heads = entry_places(sheet, values).into_iter().take(4);
    let bytes = heads.flat_map(|at| at..at + header(sheet));
    let inside = bytes.filter(|&at| at < sheet.len());
    (0..header(sheet)).chain(inside).collect()
}

/// Reads a sheet that was just written, damaged at every place and cut there.
fn every_byte(dice: &mut Dice, judge: &mut dyn Judge, sheet: &[u8], values: &[Value]) {
    let (slots, bytes) = (values.len(), size(values));
    for at in places(sheet, values) {
        let wrong = damaged(dice, sheet, at);
        let call = random_reading(dice, &wrong, slots + 1, bytes + 16);
        judge.compare("damaged sheet", &call);
        let call = random_reading(dice, &sheet[..at], slots, bytes);
        judge.compare("cut sheet", &call);
        let call = random_reading(dice, &with_header(sheet[..at].to_vec()), slots, bytes);
        judge.compare("cut sheet with its length in the header", &call);
    }
}

/// Writes a table, reads it back, and writes that again.
fn round_trip(dice: &mut Dice, judge: &mut dyn Judge) {
    let call = random_writing(dice);
    let written = judge.compare("writing a sheet", &call);
    if written.returned != 0 || call.reply.len() != REPLY_BYTES {
        return;
    }
    let length = numbers(&written.reply)[1] as usize;
    let sheet = &written.sheet[..length];
    let values = shown(&call.slots, &call.area);
    let bytes = size(&values);
    let reading = random_reading(dice, sheet, values.len(), bytes);
    let read = judge.compare("reading a sheet", &reading);
    let new = sheet[0] == 2;
    let older = new == (length > SHORT_SHEET_MAX);
    judge.claim("version 2 is longer than version 1 can be", &call, older);
    if length < 2000 || new {
        every_byte(dice, judge, sheet, &values);
    }
    if read.returned != 0 || reading.reply.len() != REPLY_BYTES {
        return;
    }
    let count = values.len() * SLOT_BYTES;
    let same = shown(&read.slots[..count], &read.area) == values;
    judge.claim(
        "a table read from its sheet shows its values",
        &reading,
        same,
    );
    let mut again = call.clone();
    again.slots = read.slots[..count].to_vec();
    again.area = read.area.clone();
    let rewritten = judge.compare("writing a sheet again", &again);
    let same = rewritten.returned == 0 && rewritten.sheet[..length] == *sheet;
    judge.claim("a sheet is written again byte for byte", &again, same);
}

/// An accepted sheet that was made up comes back byte for byte.
fn made_up(dice: &mut Dice, judge: &mut dyn Judge) {
    let sheet = random_sheet(dice);
    let call = random_reading(dice, &sheet, 6, 150);
    let read = judge.compare("made-up sheet", &call);
    if read.returned != 0 || call.reply.len() != REPLY_BYTES {
        return;
    }
    let entries = numbers(&read.reply)[1] as usize;
    let sheet = &call.sheet;
    let runs = Runs {
        slots: read.slots[..entries * SLOT_BYTES].to_vec(),
        area: read.area.clone(),
        sheet: dice.bytes(sheet.len() + 2),
        reply: dice.bytes(REPLY_BYTES),
        ..Runs::default()
    };
    let again = Call::new(Which::SheetWrite, runs);
    let written = judge.compare("writing a made-up sheet", &again);
    let same = written.returned == 0 && written.sheet[..sheet.len()] == sheet[..];
    judge.claim("a made-up sheet comes back", &again, same);
}

pub fn round(dice: &mut Dice, judge: &mut dyn Judge) {
    for _ in 0..10 {
        round_trip(dice, judge);
    }
    for _ in 0..20 {
        made_up(dice, judge);
    }
}
