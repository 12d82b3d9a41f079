//! A layout looked at before it is used: how many slots it takes, and how long its shortest record is.

use crate::fields::{parse, NO_FIELDS};
use crate::limits::{LAYOUT_MAX, REPLY_BYTES};
use crate::packer::shortest;
use crate::slots::{accepted, refused, replied, Answer};

fn described(layout: &[u8]) -> Result<Answer, Answer> {
    if layout.len() > LAYOUT_MAX {
        return Err(refused(1, 0));
    }
    let mut fields = NO_FIELDS;
    let (len, takers) = parse(layout, true, &mut fields)?;
    Ok(accepted(takers, shortest(&fields[..len])))
}

/// The slots that the layout takes and the length of its record when every starred value is empty.
pub fn layout_call(layout: &[u8], reply: &mut [u8]) -> u32 {
    replied(reply, REPLY_BYTES, || {
        described(layout)
            .unwrap_or_else(|refusal| refusal)
            .numbers()
    })
}
