//! Tables stored as sheets: a version byte, the length of the rest, then an entry for each slot.
//!
//! An entry is the length of what follows in it, the kind, and the value's bytes. A length has two bytes in version 1
//! and four in version 2, which only tables have that version 1 cannot hold.

use crate::limits::{
    AREA_MAX, ITEM_BYTES, KIND_MAX, NO_POSITION, REPLY_BYTES, SHEET_MAX, SHORT_LENGTH_MAX,
    SLOT_BYTES,
};
use crate::slots::{
    accepted, bad_slot_run, item_bytes, put_slot, refused, replied, slot_at, value_of, Answer, Slot,
};

/// The bytes of a length in a version that is known.
fn length_bytes(version: u8) -> Option<usize> {
    match version {
        1 => Some(2),
        2 => Some(4),
        _ => None,
    }
}

/// The version of a table of `entries` entries, with `bytes` bytes in their values: the first where it can tell the
/// lengths.
fn version_of(entries: usize, bytes: usize) -> u8 {
    match entries * (2 + 1) + bytes {
        0..=SHORT_LENGTH_MAX => 1,
        _ => 2,
    }
}

fn length_of(bytes: &[u8]) -> usize {
    bytes.iter().fold(0, |sum, &byte| sum << 8 | byte as usize)
}

fn put_length(to: &mut [u8], length: usize) {
    to.copy_from_slice(&length.to_be_bytes()[8 - to.len()..]);
}

// Writing

/// The kind and the value of a slot as its entry holds them; none if the slot is bad.
fn stored(slot: Slot, area: &[u8]) -> Option<(u8, &[u8])> {
    if slot.kind == 0 {
        return Some((0, &[]));
    }
    value_of(slot, area).map(|value| (slot.kind as u8, value))
}

fn written(slots: &[u8], area: &[u8], sheet: &mut [u8]) -> Result<Answer, Answer> {
    if bad_slot_run(slots) || area.len() > AREA_MAX || sheet.len() > SHEET_MAX {
        return Err(refused(1, 0));
    }
    let count = slots.len() / SLOT_BYTES;
    let mut bytes = 0;
    for index in 0..count {
        let (_, value) = stored(slot_at(slots, index), area).ok_or_else(|| refused(7, index))?;
        bytes += value.len();
    }
    let version = version_of(count, bytes);
    let length = length_bytes(version).unwrap_or(0);
    let header = 1 + length;
    let end = header + count * (length + 1) + bytes;
    if end > sheet.len() {
        return Err(refused(11, 0));
    }
    sheet[0] = version;
    put_length(&mut sheet[1..header], end - header);
    let mut rest = &mut sheet[header..];
    for index in 0..count {
        let (kind, value) = stored(slot_at(slots, index), area).unwrap_or((0, &[]));
        let (entry, next) = rest.split_at_mut(length + 1 + value.len());
        put_length(&mut entry[..length], 1 + value.len());
        entry[length] = kind;
        entry[length + 1..].copy_from_slice(value);
        rest = next;
    }
    Ok(accepted(end, 0))
}

// Reading

/// The kind, the value and what follows the entry at the front, whose length has `length` bytes; none if it is not well
/// formed.
pub fn entry(bytes: &[u8], length: usize) -> Option<(u32, &[u8], &[u8])> {
    let (length, rest) = (bytes.get(..length)?, &bytes[length..]);
    let body = rest.get(..length_of(length))?;
    let (&kind, value) = body.split_first()?;
    let kind = kind as u32;
    let good = match kind {
        0 => value.is_empty(),
        1 => true,
        _ => kind <= KIND_MAX && value.len() % ITEM_BYTES == 0,
    };
    if good {
        Some((kind, value, &rest[body.len()..]))
    } else {
        None
    }
}

/// Whether a first byte is there and no version that is known.
pub fn is_other_version(sheet: &[u8]) -> bool {
    sheet
        .first()
        .map_or(false, |&version| length_bytes(version).is_none())
}

/// The bytes of a length, and what follows the header; none if the sheet is shorter than its header.
pub fn opened(sheet: &[u8]) -> Option<(usize, &[u8])> {
    let length = length_bytes(*sheet.first()?)?;
    Some((length, sheet.get(1 + length..)?))
}

/// How many entries the sheet has, and the bytes of their values.
fn measure(sheet: &[u8]) -> Result<(usize, usize), Answer> {
    if is_other_version(sheet) {
        return Err(refused(13, 0));
    }
    let (length, entries) = opened(sheet).ok_or_else(|| refused(12, 0))?;
    if length_of(&sheet[1..1 + length]) != entries.len() {
        return Err(refused(12, 0));
    }
    let (mut count, mut bytes) = (0, 0);
    let mut rest = entries;
    while !rest.is_empty() {
        let place = sheet.len() - rest.len();
        let (_, value, next) = entry(rest, length).ok_or_else(|| refused(12, place))?;
        count += 1;
        bytes += value.len();
        rest = next;
    }
    if version_of(count, bytes) != sheet[0] {
        return Err(refused(12, 0));
    }
    Ok((count, bytes))
}

/// Sets as many of the slots as the sheet has entries; there is room for the values.
pub fn load(sheet: &[u8], slots: &mut [u8], area: &mut [u8], mark: usize) {
    let (length, mut rest) = opened(sheet).unwrap_or((0, &[]));
    let mut place = mark;
    for slot in slots.chunks_exact_mut(SLOT_BYTES) {
        let (kind, value, next) = match entry(rest, length) {
            Some(entry) => entry,
            None => break,
        };
        if kind == 0 {
            put_slot(slot, 0, 0, 0, NO_POSITION);
        } else {
            let items = value.len() / item_bytes(kind);
            put_slot(slot, kind, place, items, NO_POSITION);
        }
        area[place..place + value.len()].copy_from_slice(value);
        place += value.len();
        rest = next;
    }
}

fn read_into(
    sheet: &[u8],
    slots: &mut [u8],
    area: &mut [u8],
    mark: usize,
) -> Result<Answer, Answer> {
    if sheet.len() > SHEET_MAX || bad_slot_run(slots) || area.len() > AREA_MAX || mark > area.len()
    {
        return Err(refused(1, 0));
    }
    let (count, bytes) = measure(sheet)?;
    if count * SLOT_BYTES > slots.len() {
        return Err(refused(5, 0));
    }
    if bytes > area.len() - mark {
        return Err(refused(11, 0));
    }
    load(sheet, slots, area, mark);
    Ok(accepted(count, mark + bytes))
}

// With a reply run

/// Writes the table as a sheet.
pub fn write_call(slots: &[u8], area: &[u8], sheet: &mut [u8], reply: &mut [u8]) -> u32 {
    replied(reply, REPLY_BYTES, || {
        written(slots, area, sheet)
            .unwrap_or_else(|refusal| refusal)
            .numbers()
    })
}

/// Reads the sheet into the table, values going into the area from the mark on.
pub fn read_call(
    sheet: &[u8],
    slots: &mut [u8],
    area: &mut [u8],
    mark: usize,
    reply: &mut [u8],
) -> u32 {
    replied(reply, REPLY_BYTES, || {
        read_into(sheet, slots, area, mark)
            .unwrap_or_else(|refusal| refusal)
            .numbers()
    })
}
