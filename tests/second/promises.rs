//! What is proved of a layout: that it may grow, that reading loses nothing, that it may be joined; and layouts with fields added.
//!
//! Fields are pieces of the text here: each begins at a byte that nothing but a type can be, and two are the same where their texts are,
//! but for zeros in front of a count.

use crate::fields::{parse, NO_FIELDS};
use crate::limits::{LAYOUT_MAX, PROMISES_REPLY_BYTES, RECORD_MAX, SLOTS_MAX};
use crate::slots::{refused, replied, Answer};

/// What stands for no place.
pub const NOWHERE: u32 = u32::MAX;

struct Piece {
    place: usize,
    letter: u8,
    flag: bool,
    /// Empty, `*`, or digits without zeros in front.
    count: String,
}

impl Piece {
    fn new(place: usize, text: &[u8]) -> Piece {
        let rest = String::from_utf8_lossy(&text[1..]);
        let (flag, count) = match rest.trim_end().strip_prefix('u') {
            Some(count) => (true, count.to_string()),
            None => (false, rest.trim_end().to_string()),
        };
        let shorter = count.trim_start_matches('0');
        let count = match shorter {
            "" if !count.is_empty() => "0",
            _ => shorter,
        };
        Piece {
            place,
            letter: text[0],
            flag,
            count: count.to_string(),
        }
    }

    fn same(&self, other: &Piece) -> bool {
        (self.letter, self.flag, &self.count) == (other.letter, other.flag, &other.count)
    }

    fn takes_slot(&self) -> bool {
        !b"xX@".contains(&self.letter)
    }

    /// How many items it holds; none where a star says so.
    fn amount(&self) -> usize {
        match &self.count[..] {
            "" => 1,
            "*" => 0,
            digits => digits.parse().unwrap(),
        }
    }

    fn fills(&self) -> usize {
        let n = self.amount();
        match self.letter {
            b'X' | b'@' => 0,
            b'b' | b'B' => n.div_ceil(8),
            b'h' | b'H' => n.div_ceil(2),
            b's' | b'S' => 2 * n,
            b'i' | b'I' | b'r' | b'R' => 4 * n,
            b'w' | b'W' | b'q' | b'Q' => 8 * n,
            _ => n,
        }
    }

    fn is_plain(&self) -> bool {
        !b"X@".contains(&self.letter) && self.count != "*" && self.count != "0"
    }

    fn shows_all(&self) -> bool {
        let whole = match self.letter {
            b'b' | b'B' => self.amount() % 8 == 0,
            b'h' | b'H' => self.amount() % 2 == 0,
            letter => b"acsSiIwWqQ".contains(&letter),
        };
        whole && self.is_plain()
    }
}

/// The fields of a text that was accepted.
fn pieces(layout: &[u8]) -> Vec<Piece> {
    let begins = |at: &usize| !b" *u0123456789".contains(&layout[*at]);
    let starts: Vec<usize> = (0..layout.len()).filter(begins).collect();
    let ends = starts.iter().skip(1).copied().chain([layout.len()]);
    starts
        .iter()
        .zip(ends)
        .map(|(&start, end)| Piece::new(start, &layout[start..end]))
        .collect()
}

/// The pieces of a layout, or the refusal of packing by it.
fn judged(layout: &[u8]) -> Result<Vec<Piece>, Answer> {
    if layout.len() > LAYOUT_MAX {
        return Err(refused(1, 0));
    }
    parse(layout, true, &mut NO_FIELDS.clone())?;
    Ok(pieces(layout))
}

/// Whether a table and a record have room for the pieces up to number i and for that one.
fn slots_suffice(pieces: &[Piece], i: usize) -> bool {
    pieces[..=i].iter().filter(|p| p.takes_slot()).count() <= SLOTS_MAX
}

fn record_suffices(pieces: &[Piece], i: usize) -> bool {
    pieces[..=i].iter().map(Piece::fills).sum::<usize>() <= RECORD_MAX
}

/// The place of the first piece that does not hold what is asked.
fn first_without(pieces: &[Piece], holds: impl Fn(usize) -> bool) -> u32 {
    let first = (0..pieces.len()).find(|&i| !holds(i));
    first.map_or(NOWHERE, |i| pieces[i].place as u32)
}

fn promised(layout: &[u8]) -> Result<[u32; 4], Answer> {
    let all = judged(layout)?;
    let room = |i| slots_suffice(&all, i) && record_suffices(&all, i);
    let grows = first_without(&all, |i| all[i].is_plain() && room(i));
    let keeps = first_without(&all, |i| all[i].shows_all() && room(i));
    let joins = first_without(&all, |i| !b"X@".contains(&all[i].letter));
    Ok([0, grows, keeps, joins])
}

/// Where the layout may not grow, where reading by it loses something, where it may not be joined.
pub fn promises_call(layout: &[u8], reply: &mut [u8]) -> u32 {
    replied(reply, PROMISES_REPLY_BYTES, || {
        promised(layout).unwrap_or_else(|no| [no.number, no.first, 0, 0])
    })
}

fn extended(old: &[u8], new: &[u8]) -> [u32; 4] {
    let old = match judged(old) {
        Err(no) => return [no.number, no.first, 0, 0],
        Ok(pieces) => pieces,
    };
    let text = new;
    let new = match judged(new) {
        Err(no) => return [no.number, no.first, 0, 1],
        Ok(pieces) => pieces,
    };
    let same = |&i: &usize| i < new.len() && old[i].same(&new[i]);
    if let Some(i) = (0..old.len()).find(|i| !same(i)) {
        let place = new.get(i).map_or(text.len(), |piece| piece.place);
        return [17, place as u32, 0, 1];
    }
    let faults = [
        (18, first_without(&new, |i| new[i].is_plain())),
        (5, first_without(&new, |i| slots_suffice(&new, i))),
        (11, first_without(&new, |i| record_suffices(&new, i))),
    ];
    match faults.iter().find(|(_, place)| *place != NOWHERE) {
        Some(&(number, place)) => [number, place, 0, 1],
        None => [0, old.len() as u32, (new.len() - old.len()) as u32, 0],
    }
}

/// Whether the new layout is the old one with fields added at its end.
pub fn extends_call(old: &[u8], new: &[u8], reply: &mut [u8]) -> u32 {
    replied(reply, PROMISES_REPLY_BYTES, || extended(old, new))
}
