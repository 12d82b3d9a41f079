//! Layouts asked what is proved of them, and layouts beside layouts with fields added; and that packing and reading keep to the answers.

use crate::call::{numbers, Call, Judge, Runs, Which};
use crate::calls::{damage_reply, damage_text, random_slots};
use crate::dice::Dice;
use crate::fixed::{packing, refuses_replies};
use crate::layouts::{plain_spec, random_arguments, random_spec, random_specs, spelled, Count, Spec};
use crate::library::by_library;
use crate::limits::{
    AREA_MAX, COUNT_MAX, LAYOUT_MAX, PROMISES_REPLY_BYTES, READ_REPLY_BYTES, RECORD_MAX,
    REPLY_BYTES, SLOTS_MAX,
};
use crate::promises::NOWHERE;

const OLD: u8 = 0x2e;

fn asking(layout: impl AsRef<[u8]>) -> Call {
    let runs = Runs {
        layout: layout.as_ref().to_vec(),
        reply: vec![OLD; PROMISES_REPLY_BYTES],
        ..Runs::default()
    };
    Call::new(Which::Promises, runs)
}

/// The old layout is the run `template` here.
fn extending(old: impl AsRef<[u8]>, new: impl AsRef<[u8]>) -> Call {
    let runs = Runs {
        template: old.as_ref().to_vec(),
        ..asking(new).runs
    };
    Call::new(Which::Extends, runs)
}

fn is(t: &mut dyn Judge, layout: impl AsRef<[u8]>, answer: [u32; 4]) {
    let call = asking(layout);
    let after = call.answered(answer);
    t.expect("promises", &call, &after);
}

fn beside(t: &mut dyn Judge, old: impl AsRef<[u8]>, new: impl AsRef<[u8]>, answer: [u32; 4]) {
    let call = extending(old, new);
    let after = call.answered(answer);
    t.expect("extends", &call, &after);
}

fn promises(t: &mut dyn Judge) {
    let no = NOWHERE;
    is(t, "", [0, no, no, no]);
    is(t, "a6 A12 Su", [0, no, 3, no]);
    is(t, "a6 b8 H2 Su3 Q", [0, no, no, no]);
    is(t, "a b7", [0, no, 2, no]);
    is(t, "a h", [0, no, 2, no]);
    is(t, "c r", [0, no, 2, no]);
    is(t, "c x3 c", [0, no, 2, no]);
    is(t, "  c au*  @4", [0, 4, 4, 9]);
    is(t, "c0 X c", [0, 0, 0, 3]);
    is(t, "a00 c", [0, 0, 0, no]);
    is(t, "a*", [0, 0, 0, no]);
    is(t, "c @", [4, 2, 0, 0]);
    is(t, "c x*", [4, 2, 0, 0]);
    is(t, format!("c c{}", COUNT_MAX + 1), [3, 3, 0, 0]);
    is(t, "c u", [2, 2, 0, 0]);
    is(t, " ".repeat(LAYOUT_MAX + 1), [1, 0, 0, 0]);
}

/// What no table and no record can hold is no promise.
fn limits(t: &mut dyn Judge) {
    let no = NOWHERE;
    let (many, most) = (SLOTS_MAX as u32, RECORD_MAX);
    is(t, "c".repeat(SLOTS_MAX), [0, no, no, no]);
    is(t, "c".repeat(SLOTS_MAX + 1), [0, many, many, no]);
    is(t, "cx".repeat(SLOTS_MAX), [0, no, 1, no]);
    is(t, "cx".repeat(SLOTS_MAX + 1), [0, 2 * many, 1, no]);
    is(t, format!("a{most}"), [0, no, no, no]);
    is(t, format!("a{most} c"), [0, 7, 7, no]);
    is(t, format!("s{}c", most / 2 + 1), [0, 0, 0, no]);
    is(t, format!("b{COUNT_MAX}x{}", most - COUNT_MAX / 8), [0, no, 6, no]);
    is(t, format!("b{COUNT_MAX}x{}", most - COUNT_MAX / 8 + 1), [0, 6, 6, no]);
    beside(t, "c", "c".repeat(SLOTS_MAX), [0, 1, many - 1, 0]);
    beside(t, "c", "c".repeat(SLOTS_MAX + 1), [5, many, 0, 1]);
    beside(t, "", format!("a{most}c"), [11, 6, 0, 1]);
    beside(t, "a", format!("a a{}", most - 1), [0, 1, 1, 0]);
    beside(t, "a", format!("a a{most}"), [11, 2, 0, 1]);
    let both = format!("w{COUNT_MAX}{}", "c".repeat(SLOTS_MAX));
    beside(t, "", &both, [5, many + 5, 0, 1]);
    beside(t, "", format!("{both}c*"), [18, many + 6, 0, 1]);
    beside(t, format!("w{COUNT_MAX}"), format!("w{COUNT_MAX}"), [11, 0, 0, 1]);
    let (long, longer) = ("c".repeat(LAYOUT_MAX), "c".repeat(LAYOUT_MAX + 1));
    beside(t, &long, &long, [5, many, 0, 1]);
    beside(t, &longer, "k", [1, 0, 0, 0]);
    beside(t, "c", &longer, [1, 0, 0, 1]);
}

fn extensions(t: &mut dyn Judge) {
    beside(t, "A8 S2", "A8 S2 S", [0, 2, 1, 0]);
    beside(t, "A8 S2", "A8 S3", [17, 3, 0, 1]);
    beside(t, "A8 S2", "A8 S2 c*", [18, 6, 0, 1]);
    beside(t, "c3 su", "c03su", [0, 2, 0, 0]);
    beside(t, "", "", [0, 0, 0, 0]);
    beside(t, "S c", "S c1", [17, 2, 0, 1]);
    beside(t, "S c", "S  ", [17, 3, 0, 1]);
    beside(t, "S", "Su", [17, 0, 0, 1]);
    beside(t, "a*", "a* c", [18, 0, 0, 1]);
    beside(t, "k", "k", [2, 0, 0, 0]);
    beside(t, "c", " k", [2, 1, 0, 1]);
    beside(t, "c @", "k", [4, 2, 0, 0]);
    let lengths = [0, REPLY_BYTES, PROMISES_REPLY_BYTES - 1, PROMISES_REPLY_BYTES + 1];
    refuses_replies(t, asking("a5"), &lengths);
    refuses_replies(t, extending("a5", "a5"), &lengths);
}

pub fn run(t: &mut dyn Judge) {
    promises(t);
    limits(t);
    extensions(t);
}

// Random layouts

fn damaged(dice: &mut Dice, call: &mut Call) {
    call.reply = dice.bytes(PROMISES_REPLY_BYTES);
    call.null = dice.once_in(2);
    match dice.below(16) {
        0 | 1 => damage_text(dice, &mut call.layout),
        2 => damage_text(dice, &mut call.template),
        3 => call.layout.resize(LAYOUT_MAX + dice.below(2), b' '),
        4 => damage_reply(dice, &mut call.reply),
        _ => {}
    }
}

/// Mostly plain fields, few or so many that they pass a limit.
fn plain_specs(dice: &mut Dice) -> Vec<Spec> {
    let len = match dice.below(10) {
        0 => dice.between(SLOTS_MAX - 2, SLOTS_MAX + 8),
        1 => dice.between(20, 60),
        _ => dice.below(8),
    };
    let mut specs: Vec<Spec> = (0..len).map(|_| plain_spec(dice)).collect();
    if len > 20 {
        for spec in specs.iter_mut() {
            spec.count = Count::Absent;
        }
    }
    specs
}

/// The fields of another year: more of them, one changed, or one left out.
fn grown(dice: &mut Dice, old: &[Spec]) -> Vec<Spec> {
    let mut new = old.to_vec();
    for _ in 0..dice.below(5) {
        new.push(plain_spec(dice));
    }
    match dice.below(8) {
        0 if !old.is_empty() => new[dice.below(old.len())] = random_spec(dice, true),
        1 if !old.is_empty() => {
            let spec = &mut new[dice.below(old.len())];
            spec.flag = !spec.flag;
        }
        2 if !old.is_empty() => drop(new.remove(dice.below(old.len()))),
        3 => new.push(random_spec(dice, true)),
        _ => {}
    }
    new
}

fn random_extension(dice: &mut Dice) -> Call {
    let mut old = match dice.once_in(4) {
        true => random_specs(dice, true),
        false => plain_specs(dice),
    };
    let mut new = grown(dice, &old);
    let old = spelled(dice, &mut old);
    let new = spelled(dice, &mut new);
    extending(old, new)
}

/// A layout that is said to grow packs some values, and a cut record read by what it grows into sets the fields that end before the cut.
fn keeps_its_word(dice: &mut Dice, judge: &mut dyn Judge) {
    let mut old = plain_specs(dice);
    old.iter_mut().for_each(|spec| {
        if let Count::Number(n) = spec.count {
            spec.count = Count::Number(n.min(40).max(1));
        }
    });
    // The text first: fields for which it has no room are dropped, and take no value.
    let text = spelled(dice, &mut old);
    let values = random_arguments(dice, &old);
    let (told, _) = by_library(&asking(&text));
    if numbers(&told.reply)[..2] != [0, NOWHERE] || values.len() > SLOTS_MAX {
        return;
    }
    let packing = packing(&text, &values);
    let (packed, _) = by_library(&packing);
    judge.claim("a layout that may grow packs", &packing, packed.returned == 0);
    let length = numbers(&packed.reply)[1] as usize;
    let runs = Runs {
        layout: [&text[..], b" Su W"].concat(),
        record: packed.record[..length].to_vec(),
        slots: random_slots(dice, SLOTS_MAX),
        area: vec![0; AREA_MAX],
        reply: vec![OLD; READ_REPLY_BYTES],
        ..Runs::default()
    };
    let reading = Call::new(Which::Read, runs);
    if reading.layout.len() <= LAYOUT_MAX && values.len() + 2 <= SLOTS_MAX {
        let (read, _) = by_library(&reading);
        let set = numbers(&read.reply)[1] as usize;
        judge.claim("two more fields are not set", &reading, read.returned == 0 && set == values.len());
    }
}

pub fn round(dice: &mut Dice, judge: &mut dyn Judge) {
    for _ in 0..15 {
        let mut specs = match dice.once_in(2) {
            true => random_specs(dice, true),
            false => plain_specs(dice),
        };
        let mut call = asking(spelled(dice, &mut specs));
        damaged(dice, &mut call);
        judge.compare("random promises", &call);
    }
    for _ in 0..15 {
        let mut call = random_extension(dice);
        damaged(dice, &mut call);
        judge.compare("random extension", &call);
    }
    keeps_its_word(dice, judge);
}
