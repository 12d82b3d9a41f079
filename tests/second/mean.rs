//! The mean of the marked legs of a table, a leg to a slot.

use crate::limits::{AREA_MAX, MARK_MAX, MEAN_REPLY_BYTES, REAL, SLOT_BYTES};
use crate::slots::{bad_slot_run, refused, replied, slot_at, value_of, Answer, Slot};

/// The mark of a leg; none if the leg is not set.
fn mark_of(slot: Slot, area: &[u8], index: usize) -> Result<Option<u64>, Answer> {
    if slot.kind == 0 {
        return Ok(None);
    }
    let value = value_of(slot, area).ok_or_else(|| refused(7, index))?;
    if slot.kind == 1 || slot.kind == REAL {
        return Err(refused(8, index));
    }
    let item = value.try_into().map_err(|_| refused(9, index))?;
    // A mark below 0 is as good as one that is far too large.
    let mark = u64::from_be_bytes(item);
    if mark > MARK_MAX {
        return Err(refused(14, index));
    }
    Ok(Some(mark))
}

/// How many legs are not set, and the mean of the others if there are any.
fn mean_of(slots: &[u8], area: &[u8]) -> Result<(usize, Option<f64>), Answer> {
    if bad_slot_run(slots) || area.len() > AREA_MAX {
        return Err(refused(1, 0));
    }
    let legs = slots.len() / SLOT_BYTES;
    let (mut sum, mut marked) = (0, 0);
    for index in 0..legs {
        if let Some(mark) = mark_of(slot_at(slots, index), area, index)? {
            sum += mark;
            marked += 1;
        }
    }
    let mean = match marked {
        0 => None,
        _ => Some(sum as f64 / marked as f64),
    };
    Ok((legs - marked, mean))
}

/// The mean with its answer in a reply run: three numbers, whether there is a mean, and its bits.
pub fn mean_call(slots: &[u8], area: &[u8], reply: &mut [u8]) -> u32 {
    replied(reply, MEAN_REPLY_BYTES, || match mean_of(slots, area) {
        Err(refusal) => [refusal.number, refusal.first, 0, 0, 0, 0],
        Ok((unset, None)) => [0, unset as u32, 0, 0, 0, 0],
        Ok((unset, Some(mean))) => {
            let bits = mean.to_bits();
            [0, unset as u32, 0, 1, (bits >> 32) as u32, bits as u32]
        }
    })
}
