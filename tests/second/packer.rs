//! Packing of values by a layout: everything is decided before anything is written.

use crate::fields::{parse, Count, Field, Kind, NO_FIELDS, SINGLE_BYTES};
use crate::limits::{AREA_MAX, ITEM_BYTES, LAYOUT_MAX, RECORD_MAX, REPLY_BYTES, SLOT_BYTES};
use crate::reals::{is_nan, narrowed};
use crate::slots::{
    accepted, bad_slot_run, integer, refused, replied, slot_at, value_of, Answer, Slot,
};

/// Where the packer stands, and the highest position it has reached.
struct Cursor {
    at: usize,
    high: usize,
}

impl Cursor {
    fn new() -> Cursor {
        Cursor { at: 0, high: 0 }
    }

    fn forward(&mut self, bytes: usize) -> usize {
        let from = self.at;
        self.goto(from + bytes);
        from
    }

    fn back(&mut self, bytes: usize) {
        self.at = self.at.saturating_sub(bytes);
    }

    fn goto(&mut self, position: usize) {
        self.at = position;
        self.high = self.high.max(position);
    }
}

fn is_binary(digit: u8) -> bool {
    digit == b'0' || digit == b'1'
}

/// Looks at every byte: without an early end the loop runs on many bytes at once.
fn all_are(bytes: &[u8], good: impl Fn(u8) -> bool) -> bool {
    bytes.iter().fold(true, |all, &byte| all & good(byte))
}

/// Whether there is a NaN among the items that are to become singles.
fn has_nan(kind: Kind, value: &[u8], count: usize) -> bool {
    let single = matches!(kind, Kind::Real { width, .. } if width == SINGLE_BYTES);
    let mut items = value.chunks_exact(ITEM_BYTES).take(count);
    single && items.any(|item| is_nan(integer(item)))
}

/// How many bytes the field fills, if its argument may be stored.
fn field_size(field: &Field, slot: Slot, area: &[u8], index: usize) -> Result<usize, Answer> {
    if slot.kind == 0 {
        return Err(refused(6, index));
    }
    let value = value_of(slot, area).ok_or_else(|| refused(7, index))?;
    if !field.kind.wants(slot.kind) {
        return Err(refused(8, index));
    }
    let items = slot.length as usize;
    let count = field.count.or_all(items);
    let one = matches!(field.count, Count::Absent);
    if field.kind.is_list() && (items < count || (one && items > 1)) {
        return Err(refused(9, index));
    }
    let looked_at = &value[..count.min(value.len())];
    let good = match field.kind {
        Kind::Bits { .. } => all_are(looked_at, is_binary),
        Kind::Hex { .. } => all_are(looked_at, |digit| digit.is_ascii_hexdigit()),
        _ => true,
    };
    if !good {
        return Err(refused(10, index));
    }
    if has_nan(field.kind, value, count) {
        return Err(refused(16, index));
    }
    Ok(field.kind.filled(count))
}

/// The highest position that is reached; `size` gives the bytes that a field which takes a slot fills.
fn highest(
    fields: &[Field],
    mut size: impl FnMut(&Field) -> Result<usize, Answer>,
) -> Result<usize, Answer> {
    let mut cursor = Cursor::new();
    for field in fields {
        match field.kind {
            Kind::Skip => {
                cursor.forward(field.count.or_all(0));
            }
            Kind::Back => cursor.back(field.count.or_all(usize::MAX)),
            Kind::Goto => cursor.goto(field.count.or_all(cursor.high)),
            _ => {
                cursor.forward(size(field)?);
            }
        }
    }
    Ok(cursor.high)
}

/// The length of the result, with every argument looked at.
fn result_length(fields: &[Field], slots: &[u8], area: &[u8]) -> Result<usize, Answer> {
    let mut index = 0;
    highest(fields, |field| {
        index += 1;
        field_size(field, slot_at(slots, index - 1), area, index - 1)
    })
}

/// The length of the result where every starred value is empty.
pub fn shortest(fields: &[Field]) -> usize {
    let size = |field: &Field| Ok(field.kind.filled(field.count.or_all(0)));
    highest(fields, size).unwrap_or(0)
}

fn store_text(value: &[u8], pad: u8, to: &mut [u8]) {
    let used = value.len().min(to.len());
    to[..used].copy_from_slice(&value[..used]);
    to[used..].fill(pad);
}

/// The byte of up to eight binary digits, the first in the low bit.
fn byte_of_bits(digits: &[u8]) -> u8 {
    digits
        .iter()
        .rev()
        .fold(0, |bits, digit| bits << 1 | (digit & 1))
}

fn store_bits(digits: &[u8], high_first: bool, to: &mut [u8]) {
    let order = |byte: u8| {
        if high_first {
            byte.reverse_bits()
        } else {
            byte
        }
    };
    let (whole, rest) = to.split_at_mut(digits.len() / 8);
    let eights = digits.chunks_exact(8);
    let last = eights.remainder();
    for (eight, byte) in eights.zip(whole) {
        *byte = order(byte_of_bits(eight));
    }
    rest.fill(0);
    if !last.is_empty() {
        rest[0] = order(byte_of_bits(last));
    }
}

/// The value of a hex digit of either case.
fn half_byte(digit: u8) -> u8 {
    (digit & 15) + 9 * (digit >> 6)
}

fn store_hex(digits: &[u8], high_first: bool, to: &mut [u8]) {
    let order = |byte: u8| {
        if high_first {
            byte
        } else {
            byte.rotate_left(4)
        }
    };
    let (whole, rest) = to.split_at_mut(digits.len() / 2);
    let pairs = digits.chunks_exact(2);
    let last = pairs.remainder();
    for (pair, byte) in pairs.zip(whole) {
        *byte = order(half_byte(pair[0]) << 4 | half_byte(pair[1]));
    }
    rest.fill(0);
    if !last.is_empty() {
        rest[0] = order(half_byte(last[0]) << 4);
    }
}

fn store_items<const WIDTH: usize>(items: &[u8], big: bool, to: &mut [u8]) {
    for (item, place) in items
        .chunks_exact(ITEM_BYTES)
        .zip(to.chunks_exact_mut(WIDTH))
    {
        let value = integer(item);
        if big {
            place.copy_from_slice(&value.to_be_bytes()[ITEM_BYTES - WIDTH..]);
        } else {
            place.copy_from_slice(&value.to_le_bytes()[..WIDTH]);
        }
    }
}

fn store_integers(items: &[u8], width: u8, big: bool, to: &mut [u8]) {
    match width {
        1 => store_items::<1>(items, big, to),
        2 => store_items::<2>(items, big, to),
        4 => store_items::<4>(items, big, to),
        _ => store_items::<8>(items, big, to),
    }
}

fn store_singles(items: &[u8], big: bool, to: &mut [u8]) {
    let places = to.chunks_exact_mut(SINGLE_BYTES as usize);
    for (item, place) in items.chunks_exact(ITEM_BYTES).zip(places) {
        let single = narrowed(integer(item));
        place.copy_from_slice(&if big {
            single.to_be_bytes()
        } else {
            single.to_le_bytes()
        });
    }
}

/// Stores one accepted argument at the cursor.
fn store_field(field: &Field, value: &[u8], out: &mut [u8], cursor: &mut Cursor) {
    let count = field.count.or_all(value.len() / field.kind.item_bytes());
    let size = field.kind.filled(count);
    let from = cursor.forward(size);
    let to = &mut out[from..from + size];
    let digits = &value[..count.min(value.len())];
    match field.kind {
        Kind::Text { spaces } => store_text(value, if spaces { b' ' } else { 0 }, to),
        Kind::Bits { high_first } => store_bits(digits, high_first, to),
        Kind::Hex { high_first } => store_hex(digits, high_first, to),
        Kind::Integer { width, big, .. } => store_integers(value, width, big, to),
        Kind::Real { width, big } if width == SINGLE_BYTES => store_singles(value, big, to),
        Kind::Real { width, big } => store_integers(value, width, big, to),
        _ => {}
    }
}

fn store_fields(fields: &[Field], slots: &[u8], area: &[u8], out: &mut [u8]) {
    let mut cursor = Cursor::new();
    let mut index = 0;
    for field in fields {
        match field.kind {
            Kind::Skip => {
                let size = field.count.or_all(0);
                let from = cursor.forward(size);
                out[from..from + size].fill(0);
            }
            Kind::Back => cursor.back(field.count.or_all(usize::MAX)),
            Kind::Goto => cursor.goto(field.count.or_all(cursor.high)),
            _ => {
                let value = value_of(slot_at(slots, index), area).unwrap_or(&[]);
                store_field(field, value, out, &mut cursor);
                index += 1;
            }
        }
    }
}

fn packed(layout: &[u8], slots: &[u8], area: &[u8], out: &mut [u8]) -> Result<Answer, Answer> {
    if layout.len() > LAYOUT_MAX
        || bad_slot_run(slots)
        || area.len() > AREA_MAX
        || out.len() > RECORD_MAX
    {
        return Err(refused(1, 0));
    }
    let mut fields = NO_FIELDS;
    let (len, takers) = parse(layout, true, &mut fields)?;
    if takers * SLOT_BYTES != slots.len() {
        return Err(refused(5, 0));
    }
    let length = result_length(&fields[..len], slots, area)?;
    if length > out.len() {
        return Err(refused(11, 0));
    }
    let result = &mut out[..length];
    result.fill(0);
    store_fields(&fields[..len], slots, area, result);
    Ok(accepted(length, 0))
}

/// Packs the values of the table by the layout into `out`.
pub fn pack(layout: &[u8], slots: &[u8], area: &[u8], out: &mut [u8]) -> Answer {
    packed(layout, slots, area, out).unwrap_or_else(|refusal| refusal)
}

/// `pack` with the answer in a reply run.
pub fn pack_call(
    layout: &[u8],
    slots: &[u8],
    area: &[u8],
    out: &mut [u8],
    reply: &mut [u8],
) -> u32 {
    replied(reply, REPLY_BYTES, || {
        pack(layout, slots, area, out).numbers()
    })
}
