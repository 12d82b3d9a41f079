//! The library under test, each lent run between guard bytes.

use crate::call::{After, Call, Which};
use std::ptr;

extern "C" {
    fn curlew_pack(
        layout: *const u8,
        layout_len: usize,
        slots: *const u8,
        slots_len: usize,
        area: *const u8,
        area_len: usize,
        out: *mut u8,
        out_len: usize,
        reply: *mut u8,
        reply_len: usize,
    ) -> u32;
    fn curlew_read(
        layout: *const u8,
        layout_len: usize,
        record: *const u8,
        record_len: usize,
        slots: *mut u8,
        slots_len: usize,
        area: *mut u8,
        area_len: usize,
        mark: usize,
        reply: *mut u8,
        reply_len: usize,
    ) -> u32;
    fn curlew_sheet_write(
        slots: *const u8,
        slots_len: usize,
        area: *const u8,
        area_len: usize,
        sheet: *mut u8,
        sheet_len: usize,
        reply: *mut u8,
        reply_len: usize,
    ) -> u32;
    fn curlew_sheet_read(
        sheet: *const u8,
        sheet_len: usize,
        slots: *mut u8,
        slots_len: usize,
        area: *mut u8,
        area_len: usize,
        mark: usize,
        reply: *mut u8,
        reply_len: usize,
    ) -> u32;
    fn curlew_sheet_rescue(
        sheet: *const u8,
        sheet_len: usize,
        legs: usize,
        slots: *mut u8,
        slots_len: usize,
        area: *mut u8,
        area_len: usize,
        mark: usize,
        reply: *mut u8,
        reply_len: usize,
    ) -> u32;
    fn curlew_compare(
        layout: *const u8,
        layout_len: usize,
        first: *const u8,
        first_len: usize,
        second: *const u8,
        second_len: usize,
        first_slots: *mut u8,
        first_slots_len: usize,
        first_area: *mut u8,
        first_area_len: usize,
        second_slots: *mut u8,
        second_slots_len: usize,
        second_area: *mut u8,
        second_area_len: usize,
        report: *mut u8,
        report_len: usize,
        reply: *mut u8,
        reply_len: usize,
    ) -> u32;
    fn curlew_mean(
        slots: *const u8,
        slots_len: usize,
        area: *const u8,
        area_len: usize,
        reply: *mut u8,
        reply_len: usize,
    ) -> u32;
    fn curlew_from_perl(
        template: *const u8,
        template_len: usize,
        layout: *mut u8,
        layout_len: usize,
        reply: *mut u8,
        reply_len: usize,
    ) -> u32;
    fn curlew_layout(layout: *const u8, layout_len: usize, reply: *mut u8, reply_len: usize)
        -> u32;
    fn curlew_promises(
        layout: *const u8,
        layout_len: usize,
        reply: *mut u8,
        reply_len: usize,
    ) -> u32;
    fn curlew_extends(
        old_layout: *const u8,
        old_layout_len: usize,
        new_layout: *const u8,
        new_layout_len: usize,
        reply: *mut u8,
        reply_len: usize,
    ) -> u32;
    fn curlew_fields(
        layout: *const u8,
        layout_len: usize,
        fields: *mut u8,
        fields_len: usize,
        reply: *mut u8,
        reply_len: usize,
    ) -> u32;
    fn curlew_prepare(
        layout: *const u8,
        layout_len: usize,
        plan: *mut u32,
        plan_len: usize,
        reply: *mut u8,
        reply_len: usize,
    ) -> u32;
    fn curlew_pack_plan(
        plan: *const u32,
        plan_len: usize,
        slots: *const u8,
        slots_len: usize,
        area: *const u8,
        area_len: usize,
        out: *mut u8,
        out_len: usize,
        reply: *mut u8,
        reply_len: usize,
    ) -> u32;
    fn curlew_read_plan(
        plan: *const u32,
        plan_len: usize,
        record: *const u8,
        record_len: usize,
        slots: *mut u8,
        slots_len: usize,
        area: *mut u8,
        area_len: usize,
        mark: usize,
        reply: *mut u8,
        reply_len: usize,
    ) -> u32;
}

const GUARD: usize = 40;

fn guard_byte(at: usize) -> u8 {
    0xa5 ^ (at as u8).wrapping_mul(29)
}

/// A run with guard bytes on both sides.
struct Lent {
    bytes: Vec<u8>,
    before: usize,
    len: usize,
    null: bool,
}

impl Lent {
    /// `shift` moves the run against the alignment of the whole.
    fn new(content: &[u8], shift: usize, null: bool) -> Lent {
        let before = GUARD + shift % 8;
        let mut bytes = Vec::with_capacity(before + content.len() + GUARD);
        bytes.extend((0..before).map(guard_byte));
        bytes.extend_from_slice(content);
        bytes.extend((0..GUARD).map(guard_byte));
        Lent {
            bytes,
            before,
            len: content.len(),
            null: null && content.is_empty(),
        }
    }

    fn pointer(&mut self) -> *mut u8 {
        if self.null {
            return ptr::null_mut();
        }
        self.bytes[self.before..].as_mut_ptr()
    }

    fn guarded(&self) -> bool {
        let (before, rest) = self.bytes.split_at(self.before);
        let intact = |run: &[u8]| run.iter().enumerate().all(|(at, &b)| b == guard_byte(at));
        intact(before) && intact(&rest[self.len..])
    }

    fn content(&self) -> Vec<u8> {
        self.bytes[self.before..self.before + self.len].to_vec()
    }
}

/// Runs the call on the library; names the runs around which a guard byte changed.
pub fn by_library(call: &Call) -> (After, Vec<&'static str>) {
    let mut after = call.untouched(0);
    let shift = call.layout.len() + call.area.len();
    let lend =
        |(nth, (_, run)): (usize, (&str, &mut Vec<u8>))| Lent::new(run, shift + 3 * nth, call.null);
    let runs = after.runs.lent(call.which).into_iter();
    let mut lent: Vec<Lent> = runs.enumerate().map(lend).collect();
    let at: Vec<*mut u8> = lent.iter_mut().map(Lent::pointer).collect();
    let len: Vec<usize> = lent.iter().map(|run| run.len).collect();
    // Each pointer leads to a run of the length beside it, and no two runs overlap.
    after.returned = unsafe {
        match call.which {
            Which::Pack => curlew_pack(
                at[0], len[0], at[1], len[1], at[2], len[2], at[3], len[3], at[4], len[4],
            ),
            Which::Read => curlew_read(
                at[0], len[0], at[1], len[1], at[2], len[2], at[3], len[3], call.mark, at[4],
                len[4],
            ),
            Which::SheetWrite => {
                curlew_sheet_write(at[0], len[0], at[1], len[1], at[2], len[2], at[3], len[3])
            }
            Which::SheetRead => curlew_sheet_read(
                at[0], len[0], at[1], len[1], at[2], len[2], call.mark, at[3], len[3],
            ),
            Which::SheetRescue => curlew_sheet_rescue(
                at[0], len[0], call.legs, at[1], len[1], at[2], len[2], call.mark, at[3], len[3],
            ),
            Which::Compare => curlew_compare(
                at[0], len[0], at[1], len[1], at[2], len[2], at[3], len[3], at[4], len[4], at[5],
                len[5], at[6], len[6], at[7], len[7], at[8], len[8],
            ),
            Which::Mean => curlew_mean(at[0], len[0], at[1], len[1], at[2], len[2]),
            Which::FromPerl => curlew_from_perl(at[0], len[0], at[1], len[1], at[2], len[2]),
            Which::Layout => curlew_layout(at[0], len[0], at[1], len[1]),
            Which::Promises => curlew_promises(at[0], len[0], at[1], len[1]),
            Which::Extends => curlew_extends(at[0], len[0], at[1], len[1], at[2], len[2]),
            Which::Fields => curlew_fields(at[0], len[0], at[1], len[1], at[2], len[2]),
        }
    };
    let mut broken = Vec::new();
    for ((name, run), lent) in after.runs.lent(call.which).into_iter().zip(&lent) {
        *run = lent.content();
        if !lent.guarded() {
            broken.push(name);
        }
    }
    (after, broken)
}

const GUARD_NUMBER: u32 = 0x5ac3_a53c;

/// Lends a run of numbers between guard numbers; None where one of those changed.
fn lend_numbers(run: &mut [u32], call: impl FnOnce(*mut u32, usize) -> u32) -> Option<u32> {
    let mut all = vec![GUARD_NUMBER; GUARD];
    all.extend_from_slice(run);
    all.resize(run.len() + 2 * GUARD, GUARD_NUMBER);
    let returned = call(all[GUARD..].as_mut_ptr(), run.len());
    let (before, rest) = all.split_at(GUARD);
    let (inside, behind) = rest.split_at(run.len());
    run.copy_from_slice(inside);
    let intact = before.iter().chain(behind).all(|&n| n == GUARD_NUMBER);
    intact.then_some(returned)
}

/// Prepares a layout into the run; None where a guard changed.
pub fn prepare(layout: &[u8], run: &mut [u32], reply: &mut Vec<u8>) -> Option<u32> {
    let mut text = Lent::new(layout, run.len(), true);
    let mut answer = Lent::new(reply, layout.len(), false);
    let (at, len, to, to_len) = (text.pointer(), text.len, answer.pointer(), answer.len);
    let returned = lend_numbers(run, |plan, plan_len| unsafe {
        curlew_prepare(at, len, plan, plan_len, to, to_len)
    })?;
    *reply = answer.content();
    (text.guarded() && text.content() == layout && answer.guarded()).then_some(returned)
}

/// Runs a packing or a reading by a plan in the place of its layout; None where a guard changed.
pub fn by_plan(call: &Call, plan: &[u32]) -> Option<After> {
    let mut after = call.untouched(0);
    let runs = after.runs.lent(call.which).into_iter().skip(1);
    let lend = |(nth, (_, run)): (usize, (&str, &mut Vec<u8>))| Lent::new(run, 5 * nth, call.null);
    let mut lent: Vec<Lent> = runs.enumerate().map(lend).collect();
    let at: Vec<*mut u8> = lent.iter_mut().map(Lent::pointer).collect();
    let len: Vec<usize> = lent.iter().map(|run| run.len).collect();
    let mut own = plan.to_vec();
    after.returned = lend_numbers(&mut own, |plan, plan_len| unsafe {
        if call.which == Which::Pack {
            curlew_pack_plan(
                plan, plan_len, at[0], len[0], at[1], len[1], at[2], len[2], at[3], len[3],
            )
        } else {
            curlew_read_plan(
                plan, plan_len, at[0], len[0], at[1], len[1], at[2], len[2], call.mark, at[3],
                len[3],
            )
        }
    })?;
    let runs = after.runs.lent(call.which).into_iter().skip(1);
    for ((_, run), lent) in runs.zip(&lent) {
        *run = lent.content();
    }
    (own == plan && lent.iter().all(Lent::guarded)).then_some(after)
}
