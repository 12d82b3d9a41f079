//! Reading of records by a layout: everything is decided before anything is written.

use crate::fields::{parse, Field, Fields, Kind, NO_FIELDS, SINGLE_BYTES};
use crate::limits::{
    AREA_MAX, ITEM_BYTES, LAYOUT_MAX, READ_REPLY_BYTES, REAL, RECORD_MAX, SLOT_BYTES,
};
use crate::reals::widened;
use crate::slots::{bad_slot_run, integer, put_slot, refused, replied, Answer};

fn trimmed(text: &[u8]) -> &[u8] {
    let kept = text.iter().rposition(|&b| b != b' ' && b != 0);
    &text[..kept.map_or(0, |last| last + 1)]
}

/// One field that fits: how far the cursor moves, its items and the bytes of its value.
struct Fit {
    used: usize,
    items: usize,
    bytes: usize,
}

/// What a field takes from the rest of the record; none if the rest is too short.
fn fit(field: &Field, rest: &[u8]) -> Option<Fit> {
    let count = field.count.or_all(field.kind.fitting(rest.len()));
    let used = field.kind.filled(count);
    if used > rest.len() {
        return None;
    }
    let items = match field.kind {
        Kind::Text { spaces: true } => trimmed(&rest[..used]).len(),
        _ => count,
    };
    let bytes = items * field.kind.item_bytes();
    Some(Fit { used, items, bytes })
}

/// The place after `x`, `X` or `@`; none if the field is another.
fn moved(field: &Field, at: usize, end: usize) -> Option<usize> {
    match field.kind {
        Kind::Skip => Some(end.min(at + field.count.or_all(end))),
        Kind::Back => Some(at.saturating_sub(field.count.or_all(end))),
        Kind::Goto => Some(end.min(field.count.or_all(end))),
        _ => None,
    }
}

/// How many slots the run sets, the bytes of their values, and how many fields it comes to.
fn measure(fields: &[Field], record: &[u8]) -> (usize, usize, usize) {
    let (mut at, mut set, mut bytes, mut steps) = (0, 0, 0, 0);
    for field in fields {
        steps += 1;
        if let Some(place) = moved(field, at, record.len()) {
            at = place;
            continue;
        }
        match fit(field, &record[at..]) {
            None => break,
            Some(fit) => {
                at += fit.used;
                set += 1;
                bytes += fit.bytes;
            }
        }
    }
    (set, bytes, steps)
}

fn load_bits(from: &[u8], high_first: bool, to: &mut [u8]) {
    for (eight, &byte) in to.chunks_mut(8).zip(from) {
        let mut bits = if high_first {
            byte.reverse_bits()
        } else {
            byte
        };
        for digit in eight {
            *digit = b'0' + (bits & 1);
            bits >>= 1;
        }
    }
}

fn load_hex(from: &[u8], high_first: bool, to: &mut [u8]) {
    const DIGITS: &[u8; 16] = b"0123456789abcdef";
    for (pair, &byte) in to.chunks_mut(2).zip(from) {
        let halves = if high_first {
            [byte >> 4, byte & 15]
        } else {
            [byte & 15, byte >> 4]
        };
        for (digit, half) in pair.iter_mut().zip(halves) {
            *digit = DIGITS[half as usize];
        }
    }
}

fn load_items<const WIDTH: usize>(from: &[u8], big: bool, unsigned: bool, to: &mut [u8]) {
    let spare = 64 - 8 * WIDTH as u32;
    for (item, place) in from
        .chunks_exact(WIDTH)
        .zip(to.chunks_exact_mut(ITEM_BYTES))
    {
        let mut bytes = [0; ITEM_BYTES];
        let high = if big {
            bytes[..WIDTH].copy_from_slice(item);
            u64::from_be_bytes(bytes)
        } else {
            bytes[ITEM_BYTES - WIDTH..].copy_from_slice(item);
            u64::from_le_bytes(bytes)
        };
        let value = if unsigned {
            high >> spare
        } else {
            (high as i64 >> spare) as u64
        };
        place.copy_from_slice(&value.to_be_bytes());
    }
}

/// Integers of a width; gives the kind of their slot.
fn load_integers(from: &[u8], width: u8, big: bool, unsigned: bool, to: &mut [u8]) -> u32 {
    match width {
        1 => load_items::<1>(from, big, unsigned, to),
        2 => load_items::<2>(from, big, unsigned, to),
        4 => load_items::<4>(from, big, unsigned, to),
        _ => load_items::<8>(from, big, unsigned, to),
    }
    if unsigned {
        3
    } else {
        2
    }
}

/// Doubles as they are, or singles widened in place.
fn load_reals(from: &[u8], width: u8, big: bool, to: &mut [u8]) -> u32 {
    load_integers(from, width, big, true, to);
    if width == SINGLE_BYTES {
        for place in to.chunks_exact_mut(ITEM_BYTES) {
            let double = widened(integer(place) as u32);
            place.copy_from_slice(&double.to_be_bytes());
        }
    }
    REAL
}

/// Writes one value into its place in the area; gives the kind of its slot.
fn load_field(kind: Kind, from: &[u8], to: &mut [u8]) -> u32 {
    match kind {
        Kind::Text { .. } => to.copy_from_slice(&from[..to.len()]),
        Kind::Bits { high_first } => load_bits(from, high_first, to),
        Kind::Hex { high_first } => load_hex(from, high_first, to),
        Kind::Integer {
            width,
            big,
            unsigned,
        } => return load_integers(from, width, big, unsigned, to),
        Kind::Real { width, big } => return load_reals(from, width, big, to),
        _ => {}
    }
    1
}

/// Sets the slots and the area as far as the record reaches; there is room for the values.
pub fn load_fields(
    fields: &[Field],
    record: &[u8],
    slots: &mut [u8],
    area: &mut [u8],
    mark: usize,
) {
    let (mut at, mut place) = (0, mark);
    let mut slots = slots.chunks_exact_mut(SLOT_BYTES);
    for field in fields {
        if let Some(next) = moved(field, at, record.len()) {
            at = next;
            continue;
        }
        let (fit, slot) = match (fit(field, &record[at..]), slots.next()) {
            (Some(fit), Some(slot)) => (fit, slot),
            _ => break,
        };
        let next = place + fit.bytes;
        let kind = load_field(
            field.kind,
            &record[at..at + fit.used],
            &mut area[place..next],
        );
        put_slot(slot, kind, place, fit.items, at as u32);
        at += fit.used;
        place = next;
    }
}

/// A reading that is accepted: how many fields it has, how many of them take a slot,
/// how many slots it sets, the bytes of their values, and how many fields it comes to.
pub struct Decided {
    pub len: usize,
    pub takers: usize,
    pub set: usize,
    pub bytes: usize,
    pub steps: usize,
}

/// Decides on a reading and writes nothing but `fields`.
pub fn decided(
    layout: &[u8],
    record: &[u8],
    slots: &[u8],
    area: &[u8],
    mark: usize,
    fields: &mut Fields,
) -> Result<Decided, Answer> {
    if layout.len() > LAYOUT_MAX
        || bad_slot_run(slots)
        || record.len() > RECORD_MAX
        || area.len() > AREA_MAX
        || mark > area.len()
    {
        return Err(refused(1, 0));
    }
    let (len, takers) = parse(layout, false, fields)?;
    if takers * SLOT_BYTES > slots.len() {
        return Err(refused(5, 0));
    }
    let (set, bytes, steps) = measure(&fields[..len], record);
    if bytes > area.len() - mark {
        return Err(refused(11, 0));
    }
    Ok(Decided {
        len,
        takers,
        set,
        bytes,
        steps,
    })
}

fn read_into(
    layout: &[u8],
    record: &[u8],
    slots: &mut [u8],
    area: &mut [u8],
    mark: usize,
) -> Result<[u32; 4], Answer> {
    let mut fields = NO_FIELDS;
    let decided = decided(layout, record, slots, area, mark, &mut fields)?;
    load_fields(&fields[..decided.len], record, slots, area, mark);
    let end = mark + decided.bytes;
    Ok([0, decided.set, end, decided.steps].map(|n| n as u32))
}

/// Reads the record by the layout into the table, values going into the area from the mark on.
pub fn read(
    layout: &[u8],
    record: &[u8],
    slots: &mut [u8],
    area: &mut [u8],
    mark: usize,
) -> [u32; 4] {
    read_into(layout, record, slots, area, mark)
        .unwrap_or_else(|refusal| [refusal.number, refusal.first, 0, 0])
}

/// `read` with the answer in a reply run.
pub fn read_call(
    layout: &[u8],
    record: &[u8],
    slots: &mut [u8],
    area: &mut [u8],
    mark: usize,
    reply: &mut [u8],
) -> u32 {
    replied(reply, READ_REPLY_BYTES, || {
        read(layout, record, slots, area, mark)
    })
}
