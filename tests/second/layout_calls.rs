//! Layouts looked at: examples, refusals as for packing, and what packing makes of them.

use crate::call::{numbers, Call, Judge, Runs, Which};
use crate::calls::{damage_reply, damage_text, random_pack, Scratch};
use crate::dice::Dice;
use crate::fixed::{refuses, refuses_replies};
use crate::layouts::{random_specs, spelled};
use crate::library::by_library;
use crate::limits::{COUNT_MAX, LAYOUT_MAX, READ_REPLY_BYTES, REPLY_BYTES, SLOTS_MAX, SLOT_BYTES};

const OLD: u8 = 0x91;

fn looking(layout: impl AsRef<[u8]>) -> Call {
    let runs = Runs {
        layout: layout.as_ref().to_vec(),
        reply: vec![OLD; REPLY_BYTES],
        ..Runs::default()
    };
    Call::new(Which::Layout, runs)
}

fn is(t: &mut dyn Judge, layout: impl AsRef<[u8]>, slots: usize, length: usize) {
    let call = looking(layout);
    let after = call.answered([0, slots as u32, length as u32]);
    t.expect("a layout", &call, &after);
}

fn refused(t: &mut dyn Judge, layout: impl AsRef<[u8]>, number: u32, place: u32) {
    refuses(t, looking(layout), number, place);
}

fn examples(t: &mut dyn Judge) {
    is(t, "", 0, 0);
    is(t, "  ", 0, 0);
    is(t, "a", 1, 1);
    is(t, "A20 au3 a0 a*", 4, 23);
    is(t, "b b8 B9 bu0 B*", 5, 4);
    is(t, "h h2 H3 Hu0 h*", 5, 4);
    is(t, "cs2S3iIw2Wu", 7, 1 + 4 + 6 + 4 + 4 + 16 + 8);
    is(t, "rR2q3Qu", 4, 4 + 8 + 24 + 8);
    is(t, "c*su*W*r*Q*", 5, 0);
    is(t, "x x3 xu0", 0, 4);
    is(t, "a8 A20 Su Iu c6 b12 H8", 7, 8 + 20 + 2 + 4 + 6 + 2 + 4);
    is(t, "a5X2a", 2, 5);
    is(t, "a5X*a*a6", 3, 6);
    is(t, "a5X9x2", 1, 5);
    is(t, "@10", 0, 10);
    is(t, "@10@2a", 1, 10);
    is(t, "a3@*a*@*a", 3, 4);
    is(t, "a3X2@*a", 2, 4);
    is(t, "@u7Xu2c", 1, 7);
    largest(t);
}

/// No limit of records or slots counts here: both numbers are told as they are.
fn largest(t: &mut dyn Judge) {
    is(t, format!("x{COUNT_MAX}x"), 0, COUNT_MAX + 1);
    is(t, format!("@{COUNT_MAX}w{COUNT_MAX}"), 1, 9 * COUNT_MAX);
    is(t, "c".repeat(LAYOUT_MAX), LAYOUT_MAX, LAYOUT_MAX);
    is(t, "a".repeat(SLOTS_MAX + 1), SLOTS_MAX + 1, SLOTS_MAX + 1);
    let longest = format!("w{COUNT_MAX}");
    let times = LAYOUT_MAX / longest.len();
    is(t, longest.repeat(times), times, times * 8 * COUNT_MAX);
    is(t, " ".repeat(LAYOUT_MAX), 0, 0);
    is(t, "x".repeat(LAYOUT_MAX), 0, LAYOUT_MAX);
}

fn refusals(t: &mut dyn Judge) {
    let over = COUNT_MAX + 1;
    refused(t, " ".repeat(LAYOUT_MAX + 1), 1, 0);
    refused(t, "t".repeat(LAYOUT_MAX + 1), 1, 0);
    refused(t, "c 3", 2, 2);
    refused(t, "auu", 2, 2);
    refused(t, "a\0", 2, 1);
    refused(t, format!("a{over}"), 3, 1);
    refused(t, format!(" cu0{over}t"), 3, 3);
    refused(t, "a2@", 4, 2);
    refused(t, "@u5@u", 4, 3);
    refused(t, "a x*", 4, 2);
    refused(t, "xu*t", 4, 0);
    refused(t, format!("tx*a{over}"), 2, 0);
    refused(t, format!("x*ta{over}"), 4, 0);
    let lengths = [0, 4, REPLY_BYTES - 1, REPLY_BYTES + 1, READ_REPLY_BYTES];
    refuses_replies(t, looking("a5"), &lengths);
}

pub fn run(t: &mut dyn Judge) {
    examples(t);
    refusals(t);
}

fn random_look(dice: &mut Dice) -> Call {
    let packing = !dice.once_in(4);
    let mut specs = random_specs(dice, packing);
    let mut call = looking(spelled(dice, &mut specs));
    call.reply = dice.bytes(REPLY_BYTES);
    call.null = dice.once_in(2);
    match dice.below(12) {
        0..=3 => damage_text(dice, &mut call.layout),
        4 => call.layout.resize(LAYOUT_MAX + dice.below(2), b' '),
        5 => damage_reply(dice, &mut call.reply),
        _ => {}
    }
    call
}

/// An accepted packing is as long as the layout tells, or longer where a field is starred, and takes as many slots. A refusal
/// of the layout is that of packing by it.
fn as_packed(judge: &mut dyn Judge, packing: &Call) {
    let mut call = looking(&packing.layout);
    call.null = packing.null;
    judge.compare("the layout of a packing", &call);
    let ((told, _), (packed, _)) = (by_library(&call), by_library(packing));
    let (told, answer) = (numbers(&told.reply), numbers(&packed.reply));
    let holds = match (packed.returned, &answer[..]) {
        (1, _) => true,
        (0, &[_, length, _]) => {
            let starred = packing.layout.contains(&b'*');
            let slots = packing.slots.len() == told[1] as usize * SLOT_BYTES;
            told[0] == 0 && slots && (told[2] == length || (starred && told[2] < length))
        }
        (2..=4, _) => told == answer,
        _ => told[0] == 0,
    };
    judge.claim("a layout tells what packing makes of it", packing, holds);
}

pub fn round(dice: &mut Dice, scratch: &mut Scratch, judge: &mut dyn Judge) {
    for _ in 0..30 {
        judge.compare("random layout", &random_look(dice));
    }
    for _ in 0..10 {
        as_packed(judge, &random_pack(dice, scratch));
    }
}
