//! A layout's fields: a row of eight numbers for each.
//!
//! What a row says of the record is found by packing the layout twice, with all starred values empty and with all of
//! them longer than everything else together: a number that is not the same both times depends on them.

use crate::fields::{parse, NO_FIELDS};
use crate::limits::{FIELDS_REPLY_BYTES, LAYOUT_MAX, ROW_BYTES};
use crate::slots::{accepted, put_numbers, refused, replied, Answer};

pub const NO_COUNT: u32 = u32::MAX;
pub const STAR: u32 = u32::MAX - 1;
pub const NO_SLOT: u32 = u32::MAX;
pub const OPEN: u32 = u32::MAX;

/// The eight numbers of a field.
pub type Row = [u32; 8];

const LETTERS: &[u8] = b"aAbBhHcsSiIwWrRqQxX@";

/// The items of a long value: more than all counts of a layout together have bytes.
const LONG: u64 = 1 << 40;

/// The bits that an item takes; an item of `x` is a byte, and the other moves fill nothing.
fn item_bits(letter: u8) -> u64 {
    match letter {
        b'X' | b'@' => 0,
        b'b' | b'B' => 1,
        b'h' | b'H' => 4,
        b's' | b'S' => 16,
        b'i' | b'I' | b'r' | b'R' => 32,
        b'w' | b'W' | b'q' | b'Q' => 64,
        _ => 8,
    }
}

/// A field's own bytes of the text: a type character, and what follows up to a space or the next one.
fn spans(text: &[u8]) -> Vec<(usize, &[u8])> {
    let begins = |&at: &usize| LETTERS.contains(&text[at]);
    let ends = |at: usize| {
        let more = text[at + 1..].iter();
        at + 1
            + more
                .take_while(|c| **c != b' ' && !LETTERS.contains(c))
                .count()
    };
    let places = (0..text.len()).filter(begins);
    places.map(|at| (at, &text[at..ends(at)])).collect()
}

/// The count that a field's bytes end with.
fn count(span: &[u8]) -> u32 {
    let digits = span.iter().filter(|c| c.is_ascii_digit());
    match span[span.len() - 1] {
        b'*' => STAR,
        b'0'..=b'9' => digits.fold(0, |n, c| 10 * n + (c - b'0') as u32),
        _ => NO_COUNT,
    }
}

/// Where each field begins and how many bytes it fills, if starred values have `long` items.
fn packed(fields: &[(u8, u32)], long: u64) -> Vec<(u64, u64)> {
    let (mut at, mut high) = (0u64, 0u64);
    let step = |&(letter, count): &(u8, u32)| {
        let items = match count {
            NO_COUNT => 1,
            STAR => long,
            n => n as u64,
        };
        let bytes = (items * item_bits(letter) + 7) / 8;
        let here = (at, bytes);
        at = match (letter, count) {
            (b'X', STAR) => 0,
            (b'X', _) => at.saturating_sub(items),
            (b'@', STAR) => high,
            (b'@', _) => items,
            _ => at + bytes,
        };
        high = high.max(at);
        here
    };
    fields.iter().map(step).collect()
}

/// The rows of a layout that reading accepts.
pub fn rows(layout: &[u8]) -> Vec<Row> {
    let spans = spans(layout);
    let fields: Vec<(u8, u32)> = spans.iter().map(|(_, s)| (s[0], count(s))).collect();
    let (short, long) = (packed(&fields, 0), packed(&fields, LONG));
    let same = |a: u64, b: u64| if a == b { a as u32 } else { OPEN };
    let mut taken = 0;
    let mut slot = |letter: u8| {
        let takes = !b"xX@".contains(&letter);
        taken += takes as u32;
        if takes {
            taken - 1
        } else {
            NO_SLOT
        }
    };
    let row = |nth: usize| {
        let ((place, span), (letter, count)) = (spans[nth], fields[nth]);
        let ((at, bytes), (far, more)) = (short[nth], long[nth]);
        let flag = span.get(1) == Some(&b'u');
        let here = [place as u32, span.len() as u32, letter as u32, flag as u32];
        let there = [count, slot(letter), same(at, far), same(bytes, more)];
        [here, there].concat().try_into().unwrap()
    };
    (0..spans.len()).map(row).collect()
}

fn listed(layout: &[u8], run: &mut [u8]) -> Result<Answer, Answer> {
    if layout.len() > LAYOUT_MAX {
        return Err(refused(1, 0));
    }
    let mut fields = NO_FIELDS;
    let (len, _) = parse(layout, false, &mut fields)?;
    if run.len() < len * ROW_BYTES {
        return Err(refused(11, 0));
    }
    for (to, row) in run.chunks_exact_mut(ROW_BYTES).zip(rows(layout)) {
        put_numbers(to, &row);
    }
    Ok(accepted(len, 0))
}

/// Writes the rows of the layout's fields to the front of the run.
pub fn fields_call(layout: &[u8], run: &mut [u8], reply: &mut [u8]) -> u32 {
    replied(reply, FIELDS_REPLY_BYTES, || {
        listed(layout, run)
            .unwrap_or_else(|refusal| refusal)
            .numbers()
    })
}
