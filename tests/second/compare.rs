//! What differs between two copies of a record that one layout reads.

use crate::fields::{Field, Fields, NO_FIELDS};
use crate::limits::{REPLY_BYTES, REPORT_BYTES};
use crate::reader::{decided, load_fields, Decided};
use crate::slots::{accepted, put_numbers, refused, replied, slot_at, value_of, Answer};

/// One side of a comparison: a copy of the record, and the table and area that it is read into.
pub struct Side<'a> {
    pub record: &'a [u8],
    pub slots: &'a mut [u8],
    pub area: &'a mut [u8],
}

impl Side<'_> {
    fn decided(&self, layout: &[u8], fields: &mut Fields) -> Result<Decided, Answer> {
        decided(layout, self.record, self.slots, self.area, 0, fields)
    }

    fn load(&mut self, fields: &[Field]) {
        load_fields(fields, self.record, self.slots, self.area, 0);
    }

    /// The value of a field, if the reading set its slot.
    fn shown(&self, set: usize, index: usize) -> Option<&[u8]> {
        if index < set {
            value_of(slot_at(self.slots, index), self.area)
        } else {
            None
        }
    }
}

/// The first byte at which the values part, and how many bits differ as far as both reach.
fn difference(first: &[u8], second: &[u8]) -> (usize, u32) {
    let pairs = || first.iter().zip(second);
    let common = first.len().min(second.len());
    let place = pairs().position(|(a, b)| a != b).unwrap_or(common);
    (place, pairs().map(|(a, b)| (a ^ b).count_ones()).sum())
}

/// The three numbers of a field.
fn verdict(first: Option<&[u8]>, second: Option<&[u8]>) -> [u32; 3] {
    match (first, second) {
        (Some(one), Some(other)) if one == other => [0, 0, 0],
        (Some(_), None) => [1, 0, 0],
        (None, Some(_)) => [2, 0, 0],
        (None, None) => [3, 0, 0],
        (Some(one), Some(other)) => {
            let (place, bits) = difference(one, other);
            [4, place as u32, bits]
        }
    }
}

fn compared(
    layout: &[u8],
    first: &mut Side,
    second: &mut Side,
    report: &mut [u8],
) -> Result<Answer, Answer> {
    let mut fields = NO_FIELDS;
    let one = first.decided(layout, &mut fields)?;
    let other = second.decided(layout, &mut fields)?;
    if report.len() < one.takers * REPORT_BYTES {
        return Err(refused(11, 0));
    }
    first.load(&fields[..one.len]);
    second.load(&fields[..one.len]);
    for (index, place) in (0..one.takers).zip(report.chunks_exact_mut(REPORT_BYTES)) {
        let (left, right) = (first.shown(one.set, index), second.shown(other.set, index));
        put_numbers(place, &verdict(left, right));
    }
    Ok(accepted(one.takers, 0))
}

/// Reads both copies into their tables and reports on each value field.
pub fn compare_call(
    layout: &[u8],
    first: &mut Side,
    second: &mut Side,
    report: &mut [u8],
    reply: &mut [u8],
) -> u32 {
    replied(reply, REPLY_BYTES, || {
        compared(layout, first, second, report)
            .unwrap_or_else(|refusal| refusal)
            .numbers()
    })
}
