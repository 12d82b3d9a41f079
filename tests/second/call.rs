//! A call with everything lent to it, and what is found after it.

use crate::compare::{self, Side};
use crate::{describe, mean, packer, perl, promises, reader, rescue, rows, sheet};
use std::ops::{Deref, DerefMut};

#[derive(Clone, Copy, PartialEq, Eq, Debug)]
pub enum Which {
    Pack,
    Read,
    SheetWrite,
    SheetRead,
    SheetRescue,
    Compare,
    Mean,
    FromPerl,
    Layout,
    Promises,
    Extends,
    Fields,
}

pub const CALLS: [Which; 12] = [
    Which::Pack,
    Which::Read,
    Which::SheetWrite,
    Which::SheetRead,
    Which::SheetRescue,
    Which::Compare,
    Which::Mean,
    Which::FromPerl,
    Which::Layout,
    Which::Promises,
    Which::Extends,
    Which::Fields,
];

impl Which {
    /// The numbers that such a call can give.
    pub fn numbers(self) -> &'static [u32] {
        match self {
            Which::Pack => &[0, 1, 2, 3, 4, 5, 6, 7, 8, 9, 10, 11, 16],
            Which::Read | Which::Compare => &[0, 1, 2, 3, 4, 5, 11],
            Which::SheetWrite => &[0, 1, 7, 11],
            Which::SheetRead => &[0, 1, 5, 11, 12, 13],
            Which::SheetRescue => &[0, 1, 5, 11, 13],
            Which::Mean => &[0, 1, 7, 8, 9, 14],
            Which::FromPerl => &[0, 1, 11, 15],
            Which::Layout | Which::Promises => &[0, 1, 2, 3, 4],
            Which::Extends => &[0, 1, 2, 3, 4, 5, 11, 17, 18],
            Which::Fields => &[0, 1, 2, 3, 4, 11],
        }
    }
}

/// The runs that a call may be lent; those that are not lent to it stay empty.
/// In packing `record` is the output buffer. In comparing `record`, `slots` and `area` are the first's.
/// In translating a template `layout` is the buffer; beside a layout with fields added `template` is the old one.
/// In listing fields `report` is the run for the rows.
#[derive(Clone, PartialEq, Eq, Default)]
pub struct Runs {
    pub layout: Vec<u8>,
    pub record: Vec<u8>,
    pub slots: Vec<u8>,
    pub area: Vec<u8>,
    pub sheet: Vec<u8>,
    pub second_record: Vec<u8>,
    pub second_slots: Vec<u8>,
    pub second_area: Vec<u8>,
    pub report: Vec<u8>,
    pub template: Vec<u8>,
    pub reply: Vec<u8>,
}

impl Runs {
    /// The runs that are lent to such a call, each with its name, in the order of its C form.
    pub fn lent(&mut self, which: Which) -> Vec<(&'static str, &mut Vec<u8>)> {
        let layout = ("layout", &mut self.layout);
        let record = ("record", &mut self.record);
        let slots = ("slots", &mut self.slots);
        let area = ("area", &mut self.area);
        let sheet = ("sheet", &mut self.sheet);
        let reply = ("reply", &mut self.reply);
        match which {
            Which::Pack => vec![layout, slots, area, record, reply],
            Which::Read => vec![layout, record, slots, area, reply],
            Which::SheetWrite => vec![slots, area, sheet, reply],
            Which::SheetRead | Which::SheetRescue => vec![sheet, slots, area, reply],
            Which::Compare => vec![
                layout,
                record,
                ("second record", &mut self.second_record),
                slots,
                area,
                ("second slots", &mut self.second_slots),
                ("second area", &mut self.second_area),
                ("report", &mut self.report),
                reply,
            ],
            Which::Mean => vec![slots, area, reply],
            Which::FromPerl => vec![("template", &mut self.template), layout, reply],
            Which::Layout | Which::Promises => vec![layout, reply],
            Which::Extends => vec![("template", &mut self.template), layout, reply],
            Which::Fields => vec![layout, ("fields", &mut self.report), reply],
        }
    }
}

/// Everything that is lent to a call.
#[derive(Clone)]
pub struct Call {
    pub which: Which,
    pub runs: Runs,
    pub mark: usize,
    /// How many legs a rescue expects.
    pub legs: usize,
    /// Lend empty runs as null pointers.
    pub null: bool,
}

/// What a call returned and what its runs hold after it.
#[derive(Clone, PartialEq, Eq)]
pub struct After {
    pub returned: u32,
    pub runs: Runs,
}

impl Deref for Call {
    type Target = Runs;

    fn deref(&self) -> &Runs {
        &self.runs
    }
}

impl DerefMut for Call {
    fn deref_mut(&mut self) -> &mut Runs {
        &mut self.runs
    }
}

impl Deref for After {
    type Target = Runs;

    fn deref(&self) -> &Runs {
        &self.runs
    }
}

impl DerefMut for After {
    fn deref_mut(&mut self) -> &mut Runs {
        &mut self.runs
    }
}

impl Call {
    /// A call with its mark at 0, no legs and no null pointers.
    pub fn new(which: Which, runs: Runs) -> Call {
        Call {
            which,
            runs,
            mark: 0,
            legs: 0,
            null: false,
        }
    }

    /// The state in which nothing has been written.
    pub fn untouched(&self, returned: u32) -> After {
        After {
            returned,
            runs: self.runs.clone(),
        }
    }

    /// The state with only the reply written; numbers of it that are not given are 0.
    pub fn answered<const N: usize>(&self, numbers: [u32; N]) -> After {
        let mut after = self.untouched(numbers[0]);
        after.reply = words(&numbers);
        after.reply.resize(self.reply.len(), 0);
        after
    }
}

/// Whoever takes calls and judges them.
pub trait Judge {
    /// A call whose outcome the twin knows; gives what the twin left behind.
    fn compare(&mut self, title: &str, call: &Call) -> After;
    /// A call whose outcome is known beforehand.
    fn expect(&mut self, title: &str, call: &Call, expected: &After);
    /// Something that must hold of the call's outcome.
    fn claim(&mut self, title: &str, call: &Call, holds: bool);
}

/// Numbers as big-endian bytes, four to a number.
pub fn words(numbers: &[u32]) -> Vec<u8> {
    numbers.iter().flat_map(|n| n.to_be_bytes()).collect()
}

pub fn numbers(bytes: &[u8]) -> Vec<u32> {
    let four = |b: &[u8]| u32::from_be_bytes([b[0], b[1], b[2], b[3]]);
    bytes.chunks_exact(4).map(four).collect()
}

/// Runs the call on the twin.
pub fn by_twin(call: &Call) -> After {
    let mut after = call.untouched(0);
    let runs = &mut after.runs;
    after.returned = match call.which {
        Which::Pack => packer::pack_call(
            &call.layout,
            &call.slots,
            &call.area,
            &mut runs.record,
            &mut runs.reply,
        ),
        Which::Read => reader::read_call(
            &call.layout,
            &call.record,
            &mut runs.slots,
            &mut runs.area,
            call.mark,
            &mut runs.reply,
        ),
        Which::SheetWrite => {
            sheet::write_call(&call.slots, &call.area, &mut runs.sheet, &mut runs.reply)
        }
        Which::SheetRead => sheet::read_call(
            &call.sheet,
            &mut runs.slots,
            &mut runs.area,
            call.mark,
            &mut runs.reply,
        ),
        Which::SheetRescue => rescue::rescue_call(
            &call.sheet,
            call.legs,
            &mut runs.slots,
            &mut runs.area,
            call.mark,
            &mut runs.reply,
        ),
        Which::Compare => compare::compare_call(
            &call.layout,
            &mut Side {
                record: &call.record,
                slots: &mut runs.slots,
                area: &mut runs.area,
            },
            &mut Side {
                record: &call.second_record,
                slots: &mut runs.second_slots,
                area: &mut runs.second_area,
            },
            &mut runs.report,
            &mut runs.reply,
        ),
        Which::Mean => mean::mean_call(&call.slots, &call.area, &mut runs.reply),
        Which::FromPerl => perl::from_perl_call(&call.template, &mut runs.layout, &mut runs.reply),
        Which::Layout => describe::layout_call(&call.layout, &mut runs.reply),
        Which::Promises => promises::promises_call(&call.layout, &mut runs.reply),
        Which::Extends => promises::extends_call(&call.template, &call.layout, &mut runs.reply),
        Which::Fields => rows::fields_call(&call.layout, &mut runs.report, &mut runs.reply),
    };
    after
}
