//! Comparisons: examples with their reports, the order of refusals, and random pairs of records.

use crate::call::{by_twin, numbers, words, After, Call, Judge, Runs, Which};
use crate::calls::{self, damage_reply, damage_slot_run, damage_text, random_record, Scratch};
use crate::dice::Dice;
use crate::fixed::refuses;
use crate::layouts::{random_specs, spelled, takers};
use crate::limits::{
    AREA_MAX, COUNT_MAX, LAYOUT_MAX, READ_REPLY_BYTES, RECORD_MAX, REPLY_BYTES, REPORT_BYTES,
    SLOTS_MAX, SLOT_BYTES,
};

const OLD: u8 = 0x5d;
const SAME: [u32; 3] = [0, 0, 0];
const FIRST: [u32; 3] = [1, 0, 0];
const SECOND: [u32; 3] = [2, 0, 0];
const NEITHER: [u32; 3] = [3, 0, 0];

fn comparison(layout: &str, first: &[u8], second: &[u8], slots: usize) -> Call {
    let runs = Runs {
        layout: layout.as_bytes().to_vec(),
        record: first.to_vec(),
        slots: vec![OLD; slots * SLOT_BYTES],
        area: vec![OLD; 100],
        second_record: second.to_vec(),
        second_slots: vec![OLD + 1; slots * SLOT_BYTES],
        second_area: vec![OLD + 1; 110],
        report: vec![OLD; slots * REPORT_BYTES],
        reply: vec![OLD; REPLY_BYTES],
        ..Runs::default()
    };
    Call::new(Which::Compare, runs)
}

/// The readings of both copies as calls of their own.
fn readings(call: &Call) -> (Call, Call) {
    let reading = |record: &[u8], slots: &[u8], area: &[u8]| {
        let runs = Runs {
            layout: call.layout.clone(),
            record: record.to_vec(),
            slots: slots.to_vec(),
            area: area.to_vec(),
            reply: vec![0; READ_REPLY_BYTES],
            ..Runs::default()
        };
        Call::new(Which::Read, runs)
    };
    (
        reading(&call.record, &call.slots, &call.area),
        reading(&call.second_record, &call.second_slots, &call.second_area),
    )
}

/// What an accepted comparison leaves behind: both readings, and the report.
fn was_compared(call: &Call, report: &[[u32; 3]]) -> After {
    let (first, second) = readings(call);
    let (first, second) = (by_twin(&first), by_twin(&second));
    let mut after = call.answered([0, report.len() as u32, 0]);
    after.slots = first.slots.clone();
    after.area = first.area.clone();
    after.second_slots = second.slots.clone();
    after.second_area = second.area.clone();
    after.report[..report.len() * REPORT_BYTES].copy_from_slice(&words(&report.concat()));
    after
}

/// One comparison with just enough slots and one with some to spare, then the same turned round.
fn compares(
    t: &mut dyn Judge,
    layout: &str,
    first: impl AsRef<[u8]>,
    second: impl AsRef<[u8]>,
    report: &[[u32; 3]],
) {
    let turned = |[verdict, place, bits]: &[u32; 3]| match verdict {
        1 => SECOND,
        2 => FIRST,
        _ => [*verdict, *place, *bits],
    };
    let back: Vec<[u32; 3]> = report.iter().map(turned).collect();
    let (first, second) = (first.as_ref(), second.as_ref());
    for surplus in [0, 2] {
        let call = comparison(layout, first, second, report.len() + surplus);
        t.expect("comparing", &call, &was_compared(&call, report));
        let call = comparison(layout, second, first, report.len() + surplus);
        t.expect("comparing turned round", &call, &was_compared(&call, &back));
    }
}

fn examples(t: &mut dyn Judge) {
    compares(t, "", "", "abc", &[]);
    compares(t, "x2X@1", "abc", "abd", &[]);
    compares(t, "a3c", "abc\x05", "abc\x05", &[SAME, SAME]);
    compares(t, "a3c", "abd\x05", "abc\x04", &[[4, 2, 3], [4, 7, 1]]);
    compares(t, "a3xc", "abc\0\x05", "abc\x01\x05", &[SAME, SAME]);
    compares(t, "a*", "abc", "ab", &[[4, 2, 0]]);
    compares(t, "a*", "", "abc", &[[4, 0, 0]]);
    compares(t, "a*", "xbz", "ab", &[[4, 0, 3]]);
    compares(t, "a*", "abcd", "abCe", &[[4, 2, 2]]);
    compares(t, "A*", "ab \0", "ab", &[SAME]);
    compares(t, "a0", "", "abc", &[SAME]);
    compares(t, "b5", [0x1f], [0xff], &[SAME]);
    compares(t, "b8", [0x1f], [0xff], &[[4, 5, 3]]);
    compares(t, "B8", [0x1f], [0xff], &[[4, 0, 3]]);
    compares(t, "H2", [0xab], [0xac], &[[4, 1, 1]]);
    compares(t, "cu", [0xff], [0x7f], &[[4, 7, 1]]);
    compares(t, "c", [0xff], [0x7f], &[[4, 0, 57]]);
    compares(t, "s*", [1, 0, 2, 0], [1, 0], &[[4, 8, 0]]);
    compares(t, "S*", [1, 0, 2, 0], [1, 1, 2, 0], &[[4, 7, 1]]);
    compares(t, "s*", [1], [], &[SAME]);
    compares(t, "R", [0x3f, 0x80, 0, 0], [0x3f, 0x80, 0, 1], &[[4, 4, 1]]);
    compares(t, "Q", [0; 8], [0x80, 0, 0, 0, 0, 0, 0, 0], &[[4, 0, 1]]);
    compares(t, "r*", [0x7f; 7], [0x7f; 6], &[SAME]);
    missing_values(t);
}

fn missing_values(t: &mut dyn Judge) {
    compares(t, "cc", [1], [1, 2], &[SAME, SECOND]);
    compares(t, "cc", [1, 2], [1], &[SAME, FIRST]);
    compares(t, "cc", [], [], &[NEITHER, NEITHER]);
    compares(t, "cc", [], [1], &[SECOND, NEITHER]);
    compares(t, "cscu", [1, 2, 3, 4], [2, 2], &[[4, 7, 2], FIRST, FIRST]);
    compares(t, "a4a0", "abc", "abcd", &[SECOND, SECOND]);
    compares(t, "a4a0", "abc", "abc", &[NEITHER, NEITHER]);
    compares(t, "x9a0", "abc", "abcd", &[SAME]);
}

/// Everything that can be wrong, in the order in which it counts: later faults are added first.
fn order(t: &mut dyn Judge) {
    let mut call = comparison("ca2", b"\x01ab", b"\x01ab", 2);
    call.report.pop();
    refuses(t, call.clone(), 11, 0);
    call.second_area.truncate(9);
    refuses(t, call.clone(), 11, 0);
    call.second_slots.truncate(SLOT_BYTES);
    refuses(t, call.clone(), 5, 0);
    let ragged = |call: &mut Call| call.second_slots.push(0);
    let long = |call: &mut Call| call.second_record = vec![0; RECORD_MAX + 1];
    let wide = |call: &mut Call| call.second_area = vec![0; AREA_MAX + 1];
    let many = |call: &mut Call| call.second_slots = vec![0; (SLOTS_MAX + 1) * SLOT_BYTES];
    for size in [ragged, long, wide, many] {
        let mut call = call.clone();
        size(&mut call);
        refuses(t, call.clone(), 1, 0);
        call.area.truncate(9);
        refuses(t, call.clone(), 11, 0);
        call.slots.truncate(SLOT_BYTES);
        refuses(t, call.clone(), 5, 0);
        layout_refusals(t, call.clone());
        call.layout = b"ca2t".to_vec();
        call.slots.push(0);
        refuses(t, call, 1, 0);
    }
    for size in [0, REPLY_BYTES - 1, REPLY_BYTES + 1] {
        call.reply = vec![OLD; size];
        t.expect("reply of another size", &call, &call.untouched(1));
    }
}

fn layout_refusals(t: &mut dyn Judge, mut call: Call) {
    call.layout = b"ca2t".to_vec();
    refuses(t, call.clone(), 2, 3);
    call.layout = b"ca2@".to_vec();
    refuses(t, call.clone(), 4, 3);
    call.layout = format!("ca{}", COUNT_MAX + 1).into_bytes();
    refuses(t, call.clone(), 3, 2);
    call.layout = vec![b't'; LAYOUT_MAX + 1];
    refuses(t, call, 1, 0);
}

/// The report may have any length that holds the value fields.
fn reports(t: &mut dyn Judge) {
    for length in 0..3 * REPORT_BYTES {
        let mut call = comparison("xcaX", b"\0\x01a", b"\0\x01b", 2);
        call.report = vec![OLD; length];
        if length < 2 * REPORT_BYTES {
            refuses(t, call, 11, 0);
        } else {
            let after = was_compared(&call, &[SAME, [4, 0, 2]]);
            t.expect("report with bytes to spare", &call, &after);
        }
        let mut call = comparison("x*", b"abc", b"", 0);
        call.report = vec![OLD; length];
        t.expect("no value fields", &call, &was_compared(&call, &[]));
    }
}

pub fn run(t: &mut dyn Judge) {
    examples(t);
    order(t);
    reports(t);
}

// Random pairs

/// A comparison of the two records, with room as two readings have it.
fn pair(
    dice: &mut Dice,
    scratch: &mut Scratch,
    layout: &[u8],
    records: [&[u8]; 2],
    takers: usize,
) -> Call {
    let mut copies = records.map(|record| {
        let mut call = calls::reading(dice, scratch, layout, record, takers);
        let mark = call.mark.min(call.area.len());
        call.area.drain(..mark);
        call
    });
    let report = match dice.below(12) {
        0 => (takers * REPORT_BYTES).saturating_sub(1),
        1 => dice.below(takers * REPORT_BYTES + 1),
        2 => takers * REPORT_BYTES + dice.below(20),
        _ => takers * REPORT_BYTES,
    };
    let second = std::mem::take(&mut copies[1].runs);
    let first = &mut copies[0];
    first.which = Which::Compare;
    first.mark = 0;
    first.reply.truncate(REPLY_BYTES);
    first.report = dice.bytes(report);
    first.second_record = second.record;
    first.second_slots = second.slots;
    first.second_area = second.area;
    first.clone()
}

fn damage(dice: &mut Dice, call: &mut Call) {
    match dice.below(8) {
        0..=2 => damage_text(dice, &mut call.layout),
        3 => damage_slot_run(dice, &mut call.slots),
        4 => damage_slot_run(dice, &mut call.second_slots),
        5 => call.second_record.resize(RECORD_MAX + dice.below(2), 1),
        6 => call.second_area.resize(AREA_MAX + dice.below(2), 1),
        _ => damage_reply(dice, &mut call.reply),
    }
}

/// The second copy: the first, with a bit turned over, an end cut off, or bytes of its own.
fn other_copy(dice: &mut Dice, record: &[u8]) -> Vec<u8> {
    let mut copy = record.to_vec();
    if copy.is_empty() {
        return copy;
    }
    match dice.below(6) {
        0 => copy.truncate(dice.below(record.len())),
        1 => copy.extend(dice.bytes(9)),
        2 => {}
        flips => {
            for _ in 2..flips {
                let at = dice.below(copy.len());
                copy[at] ^= 1 << dice.below(8);
            }
        }
    }
    copy
}

/// The value of a slot as it lies in the area, if the reading set it.
fn shown(read: &After, nth: usize) -> Option<&[u8]> {
    let set = numbers(&read.reply)[1] as usize;
    let slot = numbers(&read.slots[nth * SLOT_BYTES..(nth + 1) * SLOT_BYTES]);
    let size = if slot[0] == 1 { 1 } else { 8 };
    let bytes = read.area.iter().as_slice();
    (nth < set).then(|| &bytes[slot[1] as usize..][..slot[2] as usize * size])
}

/// The verdict on two values, digit by digit.
fn judged(first: Option<&[u8]>, second: Option<&[u8]>) -> [u32; 3] {
    let (first, second) = match (first, second) {
        (None, None) => return NEITHER,
        (Some(_), None) => return FIRST,
        (None, Some(_)) => return SECOND,
        (Some(first), Some(second)) => (first, second),
    };
    if first == second {
        return SAME;
    }
    let digits = |bytes: &[u8]| -> String { bytes.iter().map(|b| format!("{b:08b}")).collect() };
    let common = first.len().min(second.len());
    let (one, other) = (digits(&first[..common]), digits(&second[..common]));
    let places: Vec<usize> = (0..one.len())
        .filter(|&at| one.as_bytes()[at] != other.as_bytes()[at])
        .collect();
    let place = places.first().map_or(common, |digit| digit / 8);
    [4, place as u32, places.len() as u32]
}

/// An accepted report says of each field what the two readings say.
fn check_report(judge: &mut dyn Judge, call: &Call, after: &After, fields: usize) {
    let (first, second) = readings(call);
    let (first, second) = (by_twin(&first), by_twin(&second));
    let expected: Vec<u32> = (0..fields)
        .flat_map(|nth| judged(shown(&first, nth), shown(&second, nth)))
        .collect();
    let said = numbers(&after.report[..fields * REPORT_BYTES]);
    judge.claim("the report is that of two readings", call, said == expected);
}

/// The copies change places: first and second do too in the report.
fn check_turned(judge: &mut dyn Judge, call: &Call, after: &After, fields: usize) {
    let mut turned = call.clone();
    turned.record = call.second_record.clone();
    turned.slots = call.second_slots.clone();
    turned.area = call.second_area.clone();
    turned.second_record = call.record.clone();
    turned.second_slots = call.slots.clone();
    turned.second_area = call.area.clone();
    let back = judge.compare("comparing turned round", &turned);
    let swapped = |three: &[u32]| match three {
        [1, 0, 0] => SECOND.to_vec(),
        [2, 0, 0] => FIRST.to_vec(),
        _ => three.to_vec(),
    };
    let there = numbers(&after.report[..fields * REPORT_BYTES]);
    let back = numbers(&back.report[..fields * REPORT_BYTES]);
    let same = back
        == there
            .chunks_exact(3)
            .flat_map(swapped)
            .collect::<Vec<u32>>();
    judge.claim("turned round, only first and second swap", &turned, same);
}

fn compare(dice: &mut Dice, judge: &mut dyn Judge, title: &str, mut call: Call, fields: usize) {
    if dice.once_in(12) {
        damage(dice, &mut call);
        judge.compare("damaged comparison", &call);
        return;
    }
    let after = judge.compare(title, &call);
    if after.returned != 0 {
        return;
    }
    check_report(judge, &call, &after, fields);
    check_turned(judge, &call, &after, fields);
    if call.record == call.second_record {
        let same = |three: &[u32]| three == SAME || three == NEITHER;
        let said = numbers(&after.report[..fields * REPORT_BYTES]);
        let all = said.chunks_exact(3).all(same);
        judge.claim("a record is the same as itself", &call, all);
    }
}

/// Some pairs of one layout, and a record compared with each of its cuts.
pub fn round(dice: &mut Dice, scratch: &mut Scratch, judge: &mut dyn Judge) {
    let mut specs = random_specs(dice, false);
    let layout = spelled(dice, &mut specs);
    let fields = takers(&specs);
    let record = random_record(dice, &specs, scratch);
    for _ in 0..10 {
        let other = other_copy(dice, &record);
        let call = pair(dice, scratch, &layout, [&record, &other], fields);
        compare(dice, judge, "comparing two copies", call, fields);
    }
    let step = 1 + record.len() / 20;
    for cut in (0..=record.len()).step_by(step) {
        let call = pair(dice, scratch, &layout, [&record, &record[..cut]], fields);
        compare(dice, judge, "comparing with a cut copy", call, fields);
        let call = pair(dice, scratch, &layout, [&record[..cut]; 2], fields);
        compare(dice, judge, "comparing with itself", call, fields);
    }
}
