//! What can be kept of a damaged sheet: the whole and well-formed entries at its front.

use crate::limits::{AREA_MAX, LEGS_MAX, NO_POSITION, RESCUE_REPLY_BYTES, SHEET_MAX, SLOT_BYTES};
use crate::sheet::{entry, is_other_version, load, opened};
use crate::slots::{bad_slot_run, put_slot, refused, replied, Answer};

/// The entries kept, the bytes of their values, and what is left of the sheet after them.
struct Kept<'a> {
    entries: usize,
    bytes: usize,
    dropped: &'a [u8],
}

/// The entries at the front, at most `most`. The header's length is not looked at, and neither is whether the
/// table could do with another version.
fn kept(sheet: &[u8], most: usize) -> Kept<'_> {
    let (length, entries) = opened(sheet).unwrap_or((usize::MAX, sheet));
    let mut kept = Kept {
        entries: 0,
        bytes: 0,
        dropped: entries,
    };
    while kept.entries < most {
        match entry(kept.dropped, length) {
            None => break,
            Some((_, value, rest)) => {
                kept.entries += 1;
                kept.bytes += value.len();
                kept.dropped = rest;
            }
        }
    }
    kept
}

fn rescued(
    sheet: &[u8],
    legs: usize,
    slots: &mut [u8],
    area: &mut [u8],
    mark: usize,
) -> Result<[u32; 4], Answer> {
    let sizes = sheet.len() <= SHEET_MAX && !bad_slot_run(slots) && area.len() <= AREA_MAX;
    if !sizes || mark > area.len() || legs > LEGS_MAX {
        return Err(refused(1, 0));
    }
    if is_other_version(sheet) {
        return Err(refused(13, 0));
    }
    if slots.len() / SLOT_BYTES < legs {
        return Err(refused(5, 0));
    }
    let kept = kept(sheet, legs);
    if kept.bytes > area.len() - mark {
        return Err(refused(11, 0));
    }
    let (set, blank) = slots[..legs * SLOT_BYTES].split_at_mut(kept.entries * SLOT_BYTES);
    for slot in blank.chunks_exact_mut(SLOT_BYTES) {
        put_slot(slot, 0, 0, 0, NO_POSITION);
    }
    load(sheet, set, area, mark);
    let cleared = legs - kept.entries;
    Ok([0, kept.entries, cleared, kept.dropped.len()].map(|n| n as u32))
}

/// Keeps what it can of a damaged sheet of `legs` legs, values going into the area from the mark on.
pub fn rescue_call(
    sheet: &[u8],
    legs: usize,
    slots: &mut [u8],
    area: &mut [u8],
    mark: usize,
    reply: &mut [u8],
) -> u32 {
    replied(reply, RESCUE_REPLY_BYTES, || {
        rescued(sheet, legs, slots, area, mark)
            .unwrap_or_else(|refusal| [refusal.number, refusal.first, 0, 0])
    })
}
