//! Answers, and slots as runs of bytes: what all calls of the twin share.

use crate::limits::{ITEM_BYTES, KIND_MAX, SLOT_BYTES, SLOT_RUN_MAX};

/// The three numbers that come back from a call.
#[derive(Clone, Copy, PartialEq, Eq, Debug)]
pub struct Answer {
    pub number: u32,
    pub first: u32,
    pub second: u32,
}

pub fn accepted(first: usize, second: usize) -> Answer {
    Answer {
        number: 0,
        first: first as u32,
        second: second as u32,
    }
}

pub fn refused(number: u32, place: usize) -> Answer {
    Answer {
        number,
        first: place as u32,
        second: 0,
    }
}

impl Answer {
    pub fn numbers(self) -> [u32; 3] {
        [self.number, self.first, self.second]
    }
}

/// Writes the numbers of a call into a reply run of this size; gives the first.
/// Without such a run the call is not made.
pub fn replied<const N: usize>(
    reply: &mut [u8],
    size: usize,
    call: impl FnOnce() -> [u32; N],
) -> u32 {
    if reply.len() != size {
        return 1;
    }
    let numbers = call();
    put_numbers(reply, &numbers);
    numbers[0]
}

/// A slot without its position, which no call looks at.
#[derive(Clone, Copy)]
pub struct Slot {
    pub kind: u32,
    pub start: u32,
    pub length: u32,
}

fn number_at(bytes: &[u8], at: usize) -> u32 {
    u32::from_be_bytes([bytes[at], bytes[at + 1], bytes[at + 2], bytes[at + 3]])
}

pub fn put_numbers(to: &mut [u8], numbers: &[u32]) {
    for (place, number) in to.chunks_exact_mut(4).zip(numbers) {
        place.copy_from_slice(&number.to_be_bytes());
    }
}

pub fn slot_at(slots: &[u8], index: usize) -> Slot {
    let at = index * SLOT_BYTES;
    Slot {
        kind: number_at(slots, at),
        start: number_at(slots, at + 4),
        length: number_at(slots, at + 8),
    }
}

pub fn put_slot(to: &mut [u8], kind: u32, start: usize, length: usize, position: u32) {
    put_numbers(to, &[kind, start as u32, length as u32, position]);
}

/// The bytes of one item of a kind that is known and set.
pub fn item_bytes(kind: u32) -> usize {
    if kind == 1 {
        1
    } else {
        ITEM_BYTES
    }
}

/// The bytes of a slot's value, if its kind is known and they lie inside the area.
pub fn value_of(slot: Slot, area: &[u8]) -> Option<&[u8]> {
    if slot.kind == 0 || slot.kind > KIND_MAX {
        return None;
    }
    let start = slot.start as u64;
    let end = start + slot.length as u64 * item_bytes(slot.kind) as u64;
    if end > area.len() as u64 {
        return None;
    }
    Some(&area[start as usize..end as usize])
}

/// The number that the eight bytes of an item make.
pub fn integer(item: &[u8]) -> u64 {
    let mut bytes = [0; ITEM_BYTES];
    bytes.copy_from_slice(item);
    u64::from_be_bytes(bytes)
}

pub fn bad_slot_run(slots: &[u8]) -> bool {
    slots.len() > SLOT_RUN_MAX || slots.len() % SLOT_BYTES != 0
}
