//! The twin behind C entry points, as a library of its own.

mod compare;
mod describe;
mod fields;
mod limits;
mod mean;
mod packer;
mod perl;
mod promises;
mod reader;
mod reals;
mod rescue;
mod rows;
mod sheet;
mod slots;

use std::slice;

/// A lent run; a null pointer with length 0 is an empty run.
unsafe fn lent<'a>(bytes: *const u8, len: usize) -> &'a [u8] {
    if len == 0 {
        &[]
    } else {
        slice::from_raw_parts(bytes, len)
    }
}

unsafe fn lent_mut<'a>(bytes: *mut u8, len: usize) -> &'a mut [u8] {
    if len == 0 {
        &mut []
    } else {
        slice::from_raw_parts_mut(bytes, len)
    }
}

/// # Safety
/// Each pointer leads to a run of its length; `out` and `reply` overlap no other run.
#[no_mangle]
pub unsafe extern "C" fn twin_pack(
    layout: *const u8,
    layout_len: usize,
    slots: *const u8,
    slots_len: usize,
    area: *const u8,
    area_len: usize,
    out: *mut u8,
    out_len: usize,
    reply: *mut u8,
    reply_len: usize,
) -> u32 {
    packer::pack_call(
        lent(layout, layout_len),
        lent(slots, slots_len),
        lent(area, area_len),
        lent_mut(out, out_len),
        lent_mut(reply, reply_len),
    )
}

/// # Safety
/// Each pointer leads to a run of its length; `slots`, `area` and `reply` overlap no other run.
#[no_mangle]
pub unsafe extern "C" fn twin_read(
    layout: *const u8,
    layout_len: usize,
    record: *const u8,
    record_len: usize,
    slots: *mut u8,
    slots_len: usize,
    area: *mut u8,
    area_len: usize,
    mark: usize,
    reply: *mut u8,
    reply_len: usize,
) -> u32 {
    reader::read_call(
        lent(layout, layout_len),
        lent(record, record_len),
        lent_mut(slots, slots_len),
        lent_mut(area, area_len),
        mark,
        lent_mut(reply, reply_len),
    )
}

/// # Safety
/// Each pointer leads to a run of its length; `sheet` and `reply` overlap no other run.
#[no_mangle]
pub unsafe extern "C" fn twin_sheet_write(
    slots: *const u8,
    slots_len: usize,
    area: *const u8,
    area_len: usize,
    sheet: *mut u8,
    sheet_len: usize,
    reply: *mut u8,
    reply_len: usize,
) -> u32 {
    sheet::write_call(
        lent(slots, slots_len),
        lent(area, area_len),
        lent_mut(sheet, sheet_len),
        lent_mut(reply, reply_len),
    )
}

/// # Safety
/// Each pointer leads to a run of its length; `slots`, `area` and `reply` overlap no other run.
#[no_mangle]
pub unsafe extern "C" fn twin_sheet_read(
    sheet: *const u8,
    sheet_len: usize,
    slots: *mut u8,
    slots_len: usize,
    area: *mut u8,
    area_len: usize,
    mark: usize,
    reply: *mut u8,
    reply_len: usize,
) -> u32 {
    sheet::read_call(
        lent(sheet, sheet_len),
        lent_mut(slots, slots_len),
        lent_mut(area, area_len),
        mark,
        lent_mut(reply, reply_len),
    )
}

/// # Safety
/// Each pointer leads to a run of its length; `slots`, `area` and `reply` overlap no other run.
#[no_mangle]
pub unsafe extern "C" fn twin_sheet_rescue(
    sheet: *const u8,
    sheet_len: usize,
    legs: usize,
    slots: *mut u8,
    slots_len: usize,
    area: *mut u8,
    area_len: usize,
    mark: usize,
    reply: *mut u8,
    reply_len: usize,
) -> u32 {
    rescue::rescue_call(
        lent(sheet, sheet_len),
        legs,
        lent_mut(slots, slots_len),
        lent_mut(area, area_len),
        mark,
        lent_mut(reply, reply_len),
    )
}

/// # Safety
/// Each pointer leads to a run of its length; the tables, the areas, `report` and `reply` overlap
/// no other run.
#[no_mangle]
pub unsafe extern "C" fn twin_compare(
    layout: *const u8,
    layout_len: usize,
    first: *const u8,
    first_len: usize,
    second: *const u8,
    second_len: usize,
    first_slots: *mut u8,
    first_slots_len: usize,
    first_area: *mut u8,
    first_area_len: usize,
    second_slots: *mut u8,
    second_slots_len: usize,
    second_area: *mut u8,
    second_area_len: usize,
    report: *mut u8,
    report_len: usize,
    reply: *mut u8,
    reply_len: usize,
) -> u32 {
    let mut first = compare::Side {
        record: lent(first, first_len),
        slots: lent_mut(first_slots, first_slots_len),
        area: lent_mut(first_area, first_area_len),
    };
    let mut second = compare::Side {
        record: lent(second, second_len),
        slots: lent_mut(second_slots, second_slots_len),
        area: lent_mut(second_area, second_area_len),
    };
    compare::compare_call(
        lent(layout, layout_len),
        &mut first,
        &mut second,
        lent_mut(report, report_len),
        lent_mut(reply, reply_len),
    )
}

/// # Safety
/// Each pointer leads to a run of its length; `reply` overlaps no other run.
#[no_mangle]
pub unsafe extern "C" fn twin_mean(
    slots: *const u8,
    slots_len: usize,
    area: *const u8,
    area_len: usize,
    reply: *mut u8,
    reply_len: usize,
) -> u32 {
    mean::mean_call(
        lent(slots, slots_len),
        lent(area, area_len),
        lent_mut(reply, reply_len),
    )
}

/// # Safety
/// Each pointer leads to a run of its length; `layout` and `reply` overlap no other run.
#[no_mangle]
pub unsafe extern "C" fn twin_from_perl(
    template: *const u8,
    template_len: usize,
    layout: *mut u8,
    layout_len: usize,
    reply: *mut u8,
    reply_len: usize,
) -> u32 {
    perl::from_perl_call(
        lent(template, template_len),
        lent_mut(layout, layout_len),
        lent_mut(reply, reply_len),
    )
}

/// # Safety
/// Each pointer leads to a run of its length; `reply` overlaps no other run.
#[no_mangle]
pub unsafe extern "C" fn twin_layout(
    layout: *const u8,
    layout_len: usize,
    reply: *mut u8,
    reply_len: usize,
) -> u32 {
    describe::layout_call(lent(layout, layout_len), lent_mut(reply, reply_len))
}

/// # Safety
/// Each pointer leads to a run of its length; `reply` overlaps no other run.
#[no_mangle]
pub unsafe extern "C" fn twin_promises(
    layout: *const u8,
    layout_len: usize,
    reply: *mut u8,
    reply_len: usize,
) -> u32 {
    promises::promises_call(lent(layout, layout_len), lent_mut(reply, reply_len))
}

/// # Safety
/// Each pointer leads to a run of its length; `reply` overlaps no other run.
#[no_mangle]
pub unsafe extern "C" fn twin_extends(
    old_layout: *const u8,
    old_layout_len: usize,
    new_layout: *const u8,
    new_layout_len: usize,
    reply: *mut u8,
    reply_len: usize,
) -> u32 {
    promises::extends_call(
        lent(old_layout, old_layout_len),
        lent(new_layout, new_layout_len),
        lent_mut(reply, reply_len),
    )
}

/// # Safety
/// Each pointer leads to a run of its length; `fields` and `reply` overlap no other run.
#[no_mangle]
pub unsafe extern "C" fn twin_fields(
    layout: *const u8,
    layout_len: usize,
    fields: *mut u8,
    fields_len: usize,
    reply: *mut u8,
    reply_len: usize,
) -> u32 {
    rows::fields_call(
        lent(layout, layout_len),
        lent_mut(fields, fields_len),
        lent_mut(reply, reply_len),
    )
}
