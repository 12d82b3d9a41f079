//! A layout's fields listed: examples, refusals as for reading, and what packing and reading make of the layout.

use crate::call::{numbers, words, Call, Judge, Runs, Which};
use crate::calls::{damage_reply, damage_text, random_pack, Scratch};
use crate::dice::Dice;
use crate::fixed::{refuses, refuses_replies};
use crate::layouts::{plain_spec, random_specs, spelled, Count, Spec};
use crate::library::by_library;
use crate::limits::{
    COUNT_MAX, FIELDS_REPLY_BYTES, LAYOUT_MAX, READ_REPLY_BYTES, RECORD_MAX, ROW_BYTES, SLOTS_MAX,
    SLOT_BYTES, SLOT_NUMBERS,
};
use crate::rows::{Row, NO_COUNT, NO_SLOT, OPEN, STAR};

const OLD: u8 = 0x6d;

/// A listing of the layout's fields, with `room` bytes for the rows.
fn listing(layout: impl AsRef<[u8]>, room: usize) -> Call {
    let runs = Runs {
        layout: layout.as_ref().to_vec(),
        report: vec![OLD; room],
        reply: vec![OLD; FIELDS_REPLY_BYTES],
        ..Runs::default()
    };
    Call::new(Which::Fields, runs)
}

fn lists(t: &mut dyn Judge, layout: impl AsRef<[u8]>, rows: &[Row]) {
    let layout = layout.as_ref();
    for spare in [0, 1, ROW_BYTES] {
        let call = listing(layout, rows.len() * ROW_BYTES + spare);
        let mut after = call.answered([0, rows.len() as u32, 0]);
        let written = words(&rows.concat());
        after.report[..written.len()].copy_from_slice(&written);
        t.expect("fields", &call, &after);
    }
    if !rows.is_empty() {
        let short = listing(layout, rows.len() * ROW_BYTES - 1);
        refuses(t, short, 11, 0);
    }
}

fn row(here: [u32; 2], letter: u8, there: [u32; 5]) -> Row {
    let [place, length] = here;
    let [flag, count, slot, position, bytes] = there;
    [
        place,
        length,
        letter as u32,
        flag,
        count,
        slot,
        position,
        bytes,
    ]
}

fn examples(t: &mut dyn Judge) {
    lists(t, "", &[]);
    lists(t, "   ", &[]);
    lists(
        t,
        "A8 Su2 c*X @16 c",
        &[
            row([0, 2], b'A', [0, 8, 0, 0, 8]),
            row([3, 3], b'S', [1, 2, 1, 8, 4]),
            row([7, 2], b'c', [0, STAR, 2, 12, OPEN]),
            row([9, 1], b'X', [0, NO_COUNT, NO_SLOT, OPEN, 0]),
            row([11, 3], b'@', [0, 16, NO_SLOT, OPEN, 0]),
            row([15, 1], b'c', [0, NO_COUNT, 3, 16, 1]),
        ],
    );
    lists(
        t,
        " xu*@*X*bu012@0009@u*q",
        &[
            row([1, 3], b'x', [1, STAR, NO_SLOT, 0, OPEN]),
            row([4, 2], b'@', [0, STAR, NO_SLOT, OPEN, 0]),
            row([6, 2], b'X', [0, STAR, NO_SLOT, OPEN, 0]),
            row([8, 5], b'b', [1, 12, 0, 0, 2]),
            row([13, 5], b'@', [0, 9, NO_SLOT, 2, 0]),
            row([18, 3], b'@', [1, STAR, NO_SLOT, 9, 0]),
            row([21, 1], b'q', [0, NO_COUNT, 1, OPEN, 8]),
        ],
    );
    lists(
        t,
        "a5X9h3 X@*Wu0",
        &[
            row([0, 2], b'a', [0, 5, 0, 0, 5]),
            row([2, 2], b'X', [0, 9, NO_SLOT, 5, 0]),
            row([4, 2], b'h', [0, 3, 1, 0, 2]),
            row([7, 1], b'X', [0, NO_COUNT, NO_SLOT, 2, 0]),
            row([8, 2], b'@', [0, STAR, NO_SLOT, 1, 0]),
            row([10, 3], b'W', [1, 0, 2, 5, 0]),
        ],
    );
    largest(t);
}

/// No limit of records or slots counts here.
fn largest(t: &mut dyn Judge) {
    let many: Vec<Row> = (0..LAYOUT_MAX as u32)
        .map(|i| row([i, 1], b'w', [0, NO_COUNT, i, 8 * i, 8]))
        .collect();
    lists(t, "w".repeat(LAYOUT_MAX), &many);
    let longest = format!("w{COUNT_MAX}");
    let (size, times) = (longest.len() as u32, LAYOUT_MAX / longest.len());
    let bytes = 8 * COUNT_MAX as u32;
    let rows: Vec<Row> = (0..times as u32)
        .map(|i| {
            row(
                [i * size, size],
                b'w',
                [0, COUNT_MAX as u32, i, i * bytes, bytes],
            )
        })
        .collect();
    lists(t, longest.repeat(times), &rows);
    lists(t, " ".repeat(LAYOUT_MAX), &[]);
}

fn refused(t: &mut dyn Judge, layout: impl AsRef<[u8]>, number: u32, place: u32) {
    for room in [0, LAYOUT_MAX * ROW_BYTES] {
        refuses(t, listing(layout.as_ref(), room), number, place);
    }
}

fn refusals(t: &mut dyn Judge) {
    let over = COUNT_MAX + 1;
    refused(t, " ".repeat(LAYOUT_MAX + 1), 1, 0);
    refused(t, "t".repeat(LAYOUT_MAX + 1), 1, 0);
    refused(t, "c 3", 2, 2);
    refused(t, "auu", 2, 2);
    refused(t, format!("x*a{over}"), 3, 3);
    refused(t, "x* @u", 4, 3);
    refused(t, format!("x*ta{over}"), 2, 2);
    refuses(t, listing("cs", 63), 11, 0);
    refuses(t, listing("cx*", 0), 11, 0);
    let lengths = [
        0,
        4,
        FIELDS_REPLY_BYTES - 1,
        FIELDS_REPLY_BYTES + 1,
        READ_REPLY_BYTES,
    ];
    refuses_replies(t, listing("a5", ROW_BYTES), &lengths);
}

pub fn run(t: &mut dyn Judge) {
    examples(t);
    refusals(t);
}

fn random_listing(dice: &mut Dice) -> Call {
    let packing = dice.once_in(3);
    let mut specs = random_specs(dice, packing);
    let text = spelled(dice, &mut specs);
    let rows = specs.len() * ROW_BYTES;
    let room = match dice.below(8) {
        0 => dice.below(rows + 1),
        1 => rows.saturating_sub(1),
        2 => rows,
        3 => rows + LAYOUT_MAX * ROW_BYTES,
        _ => rows + dice.below(70),
    };
    let mut call = listing(text, room);
    call.report = dice.bytes(room);
    call.reply = dice.bytes(FIELDS_REPLY_BYTES);
    call.null = dice.once_in(2);
    match dice.below(12) {
        0..=3 => damage_text(dice, &mut call.layout),
        4 => call.layout.resize(LAYOUT_MAX + dice.below(2), b' '),
        5 => damage_reply(dice, &mut call.reply),
        _ => {}
    }
    call
}

/// The rows that the library writes for a layout that it takes.
fn library_rows(layout: &[u8]) -> Option<Vec<Row>> {
    let (after, _) = by_library(&listing(layout, LAYOUT_MAX * ROW_BYTES));
    let count = numbers(&after.reply)[1] as usize * 8;
    let rows = numbers(&after.report);
    let whole = rows[..count.min(rows.len())].chunks_exact(8);
    (after.returned == 0).then(|| whole.map(|r| r.try_into().unwrap()).collect())
}

/// How far packing comes by a field whose position and bytes are known.
fn reach(row: &Row) -> u32 {
    match *row {
        [_, _, 64, _, count, ..] if count < STAR => count,
        [.., position, bytes] => position + bytes,
    }
}

/// A packing that is accepted takes as many slots as the rows say, and is no shorter than each known field reaches;
/// where all are known it is just so long.
fn as_packed(judge: &mut dyn Judge, packing: &Call) {
    let (packed, _) = by_library(packing);
    if packed.returned != 0 {
        return;
    }
    let length = numbers(&packed.reply)[1];
    let holds = library_rows(&packing.layout).map_or(false, |rows| {
        let takers = rows.iter().filter(|r| r[5] != NO_SLOT).count();
        let known = |r: &&Row| r[6] != OPEN && r[7] != OPEN;
        let furthest = rows.iter().filter(known).map(reach).max().unwrap_or(0);
        let all = rows.iter().filter(known).count() == rows.len();
        takers * SLOT_BYTES == packing.slots.len()
            && if all {
                furthest == length
            } else {
                furthest <= length
            }
    });
    judge.claim("packing reaches where the rows say", packing, holds);
}

/// A plain layout: its rows tell the positions that a reading of any record gives.
fn as_read(dice: &mut Dice, judge: &mut dyn Judge) {
    let len = dice.below(12);
    let mut specs: Vec<Spec> = (0..len).map(|_| plain_spec(dice)).collect();
    specs.retain(|s| s.count != Count::Number(0));
    let layout = spelled(dice, &mut specs);
    let most = dice.pick(&[40, 400, RECORD_MAX]);
    let record = dice.below(most);
    let runs = Runs {
        record: vec![b'1'; record],
        slots: vec![0; SLOTS_MAX * SLOT_BYTES],
        area: vec![0; 16 * RECORD_MAX],
        reply: vec![0; READ_REPLY_BYTES],
        layout,
        ..Runs::default()
    };
    let reading = Call::new(Which::Read, runs);
    let (read, _) = by_library(&reading);
    let set = numbers(&read.reply)[1] as usize;
    let slots = numbers(&read.slots);
    let found = slots
        .chunks_exact(SLOT_NUMBERS)
        .take(set)
        .map(|slot| slot[3]);
    let holds = library_rows(&reading.layout).map_or(false, |rows| {
        let takers = rows.iter().filter(|r| r[5] != NO_SLOT);
        read.returned == 0 && takers.map(|r| r[6]).take(set).eq(found)
    });
    judge.claim(
        "a reading begins its fields where the rows say",
        &reading,
        holds,
    );
}

pub fn round(dice: &mut Dice, scratch: &mut Scratch, judge: &mut dyn Judge) {
    for _ in 0..30 {
        judge.compare("random fields", &random_listing(dice));
    }
    for _ in 0..10 {
        as_packed(judge, &random_pack(dice, scratch));
        as_read(dice, judge);
    }
}
