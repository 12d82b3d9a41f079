//! The sizes of everything that is lent to a call.

pub const LAYOUT_MAX: usize = 256;
pub const SLOTS_MAX: usize = 64;
pub const RECORD_MAX: usize = 32_768;
pub const AREA_MAX: usize = 524_288;
pub const COUNT_MAX: usize = 32_768;
pub const SHEET_MAX: usize = 1_048_576;

/// The largest length that the first version of sheets can tell.
pub const SHORT_LENGTH_MAX: usize = 65_535;

/// How many numbers make a slot: kind, start, length and position.
pub const SLOT_NUMBERS: usize = 4;
/// The position of a slot that was not set from a record.
pub const NO_POSITION: u32 = u32::MAX;
pub const SLOT_BYTES: usize = 4 * SLOT_NUMBERS;
pub const SLOT_RUN_MAX: usize = SLOTS_MAX * SLOT_BYTES;

/// The bytes of one integer or real in the area.
pub const ITEM_BYTES: usize = 8;
/// The kind of reals.
pub const REAL: u32 = 4;
/// Kinds above this one are unknown.
pub const KIND_MAX: u32 = REAL;

/// The highest mark of a leg.
pub const MARK_MAX: u64 = 1_000_000;

/// A Perl template, its counts, the repeats of its groups, and how deep they nest.
pub const TEMPLATE_MAX: usize = 256;
pub const TEMPLATE_COUNT_MAX: usize = 4096;
pub const TEMPLATE_REPEAT_MAX: usize = 64;
pub const TEMPLATE_DEPTH_MAX: usize = 8;

/// The most legs that a rescue may expect.
pub const LEGS_MAX: usize = SLOTS_MAX;

pub const REPLY_BYTES: usize = 12;
/// The reply of reading a record: three numbers, and how many fields it came to.
pub const READ_REPLY_BYTES: usize = 16;
/// The reply of a rescue: four numbers.
pub const RESCUE_REPLY_BYTES: usize = 16;
/// The replies of what is asked of layouts: four numbers.
pub const PROMISES_REPLY_BYTES: usize = 16;
/// The reply of a mean: three numbers, whether there is a mean, and the mean.
pub const MEAN_REPLY_BYTES: usize = 24;
/// The reply of listing a layout's fields, and the bytes of a field's row.
pub const FIELDS_REPLY_BYTES: usize = REPLY_BYTES;
pub const ROW_BYTES: usize = 32;
/// The bytes that a comparison reports on each value field.
pub const REPORT_BYTES: usize = 12;
