//! Layouts prepared once: a call by a plan is held to the twin's call by the layout, and every number gets an answer.

use crate::call::{by_twin, numbers, words, After, Call, Judge, Runs, Which};
use crate::calls::{damage_text, random_pack, random_read, Scratch};
use crate::dice::Dice;
use crate::layouts::{random_specs, spelled};
use crate::library::{by_plan, prepare};
use crate::limits::{FIELDS_REPLY_BYTES, LAYOUT_MAX, READ_REPLY_BYTES, REPLY_BYTES, ROW_BYTES};
use crate::rows::{Row, NO_SLOT, STAR};

const OLD: u32 = 0x6d6d_6d6d;
const MISUSED: u32 = 4;

/// What the twin says of a layout that is prepared into a run of `room` numbers: its rows, or the refusal.
fn judged(layout: &[u8], room: usize) -> Result<Vec<Row>, [u32; 3]> {
    let runs = Runs {
        layout: layout.to_vec(),
        report: vec![0; room * ROW_BYTES],
        reply: vec![0; FIELDS_REPLY_BYTES],
        ..Runs::default()
    };
    let after = by_twin(&Call::new(Which::Fields, runs));
    let answer = numbers(&after.reply);
    if after.returned != 0 {
        return Err([answer[0], answer[1], answer[2]]);
    }
    let all = numbers(&after.report);
    let row = |r: &[u32]| [r[0], r[1], r[2], r[3], r[4], r[5], r[6], r[7]];
    Ok(all
        .chunks_exact(8)
        .take(answer[1] as usize)
        .map(row)
        .collect())
}

/// Prepares the layout into `room` numbers; gives the plan and its rows where it is accepted.
fn prepared(judge: &mut dyn Judge, call: &Call, room: usize) -> Option<(Vec<u32>, Vec<Row>)> {
    let mut run = vec![OLD; room];
    let mut reply = vec![0x6d; REPLY_BYTES];
    let returned = prepare(&call.layout, &mut run, &mut reply);
    let expected = judged(&call.layout, room);
    let answer = match &expected {
        Ok(rows) => {
            let takers = rows.iter().filter(|r| r[5] != NO_SLOT).count();
            [0, rows.len() as u32, takers as u32]
        }
        Err(refusal) => *refusal,
    };
    let used = expected.as_ref().map_or(0, Vec::len);
    let stays = run[used..].iter().all(|&n| n == OLD);
    let holds = returned == Some(answer[0]) && reply == words(&answer) && stays;
    judge.claim("a layout is prepared as reading judges it", call, holds);
    let rows = expected.ok().filter(|_| holds)?;
    run.truncate(rows.len());
    Some((run, rows))
}

/// What the twin leaves by the layout; `x*` is refused at the number of its field.
fn by_layout(call: &Call, rows: &[Row]) -> After {
    let mut after = by_twin(call);
    let star = |r: &Row| r[2] == u32::from(b'x') && r[4] == STAR;
    let whole = after.reply.len() == REPLY_BYTES;
    if let (true, MISUSED, Some(at)) = (whole, after.returned, rows.iter().position(star)) {
        after.reply = words(&[MISUSED, at as u32, 0]);
    }
    after
}

fn same(judge: &mut dyn Judge, call: &Call) {
    if let Some((plan, rows)) = prepared(judge, call, LAYOUT_MAX) {
        let holds = by_plan(call, &plan).map_or(false, |after| after == by_layout(call, &rows));
        judge.claim("a plan serves as its layout does", call, holds);
    }
}

/// A run that has too few numbers, just enough, or more.
fn rooms(dice: &mut Dice, judge: &mut dyn Judge) {
    let mut layout = {
        let packing = dice.below(2) == 0;
        let mut specs = random_specs(dice, packing);
        spelled(dice, &mut specs)
    };
    if dice.below(3) == 0 {
        damage_text(dice, &mut layout);
    }
    let runs = Runs {
        layout,
        ..Runs::default()
    };
    let call = Call::new(Which::Fields, runs);
    let fields = judged(&call.layout, LAYOUT_MAX).map_or(3, |rows| rows.len());
    for room in [fields.saturating_sub(1), fields, fields + 1, 1000] {
        prepared(judge, &call, room);
    }
}

/// Any numbers: an answer of the calls, which changes nothing where it is a refusal, and tells a field by its number.
fn forged(dice: &mut Dice, judge: &mut dyn Judge) {
    let len = dice.below(LAYOUT_MAX + 3);
    let limit = dice.pick(&[32, 512, 20_000_000, u32::MAX as usize]);
    let plan: Vec<u32> = (0..len).map(|_| dice.below(limit) as u32).collect();
    for (which, size) in [(Which::Pack, REPLY_BYTES), (Which::Read, READ_REPLY_BYTES)] {
        let runs = Runs {
            record: vec![0x31; dice.below(200)],
            reply: vec![0; size],
            ..Runs::default()
        };
        let call = Call::new(which, runs);
        let holds = by_plan(&call, &plan).map_or(false, |after| {
            let answer = numbers(&after.reply);
            let listed = which.numbers().contains(&answer[0]) && answer[0] == after.returned;
            let placed = !(2..=4).contains(&answer[0]) || (answer[1] as usize) < len;
            let size = (len > LAYOUT_MAX) == (answer[0] == 1);
            let refused = call.answered([answer[0], answer[1], 0]);
            listed && placed && size && (answer[0] == 0 || after == refused)
        });
        judge.claim("any numbers get an answer", &call, holds);
    }
}

pub fn round(dice: &mut Dice, scratch: &mut Scratch, judge: &mut dyn Judge) {
    for _ in 0..20 {
        same(judge, &random_pack(dice, scratch));
        same(judge, &random_read(dice, scratch));
    }
    for _ in 0..5 {
        rooms(dice, judge);
        forged(dice, judge);
    }
}
