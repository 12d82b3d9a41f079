//! Calls whose outcome is written out by hand: the examples of the papers and the edges.

use crate::call::{numbers, After, Call, Judge, Runs, Which};
use crate::limits::{
    AREA_MAX, COUNT_MAX, ITEM_BYTES, KIND_MAX, LAYOUT_MAX, NO_POSITION, READ_REPLY_BYTES,
    RECORD_MAX, REPLY_BYTES, SLOTS_MAX, SLOT_BYTES, SLOT_RUN_MAX,
};
use crate::values::{ints, slot, slot_from, table, text, uints, Value};
use crate::walk::{positions, walk};

const OLD_OUT: u8 = 0xee;
const OLD_SLOT: u8 = 0xbb;
const OLD_AREA: u8 = 0xcc;
const OLD_REPLY: u8 = 0xdd;
const MARK: usize = 3;
const ROOM: usize = 4;
/// A count that is too large by one.
const OVER: usize = COUNT_MAX + 1;

pub fn packing(layout: impl AsRef<[u8]>, values: &[Value]) -> Call {
    let (slots, area) = table(values, 0);
    let runs = Runs {
        layout: layout.as_ref().to_vec(),
        record: vec![OLD_OUT; RECORD_MAX],
        slots,
        area,
        reply: vec![OLD_REPLY; REPLY_BYTES],
        ..Runs::default()
    };
    Call::new(Which::Pack, runs)
}

pub fn reading(layout: impl AsRef<[u8]>, record: impl AsRef<[u8]>, slots: usize) -> Call {
    let runs = Runs {
        layout: layout.as_ref().to_vec(),
        record: record.as_ref().to_vec(),
        slots: vec![OLD_SLOT; slots * SLOT_BYTES],
        area: vec![OLD_AREA; 200],
        reply: vec![OLD_REPLY; READ_REPLY_BYTES],
        ..Runs::default()
    };
    let mut call = Call::new(Which::Read, runs);
    call.mark = MARK;
    call
}

/// What an accepted packing leaves behind.
pub fn packed(call: &Call, bytes: &[u8]) -> After {
    let mut after = call.answered([0, bytes.len() as u32, 0]);
    after.record[..bytes.len()].copy_from_slice(bytes);
    after
}

/// What a call that set these values leaves behind, none of them from a record.
pub fn was_set(call: &Call, values: &[Value]) -> After {
    let (slots, area) = table(values, call.mark);
    let end = call.mark + area.len();
    let mut after = call.answered([0, values.len() as u32, end as u32]);
    after.slots[..slots.len()].copy_from_slice(&slots);
    after.area[call.mark..end].copy_from_slice(&area);
    after
}

/// What a reading of `steps` steps leaves behind that set these values, whose fields begin at these positions.
pub fn was_read_at(call: &Call, values: &[Value], positions: &[usize], steps: usize) -> After {
    let mut after = was_set(call, values);
    after.reply[READ_REPLY_BYTES - 4..].copy_from_slice(&(steps as u32).to_be_bytes());
    assert_eq!(values.len(), positions.len(), "{:?}", call.layout);
    for (slot, &position) in after.slots.chunks_exact_mut(SLOT_BYTES).zip(positions) {
        slot[SLOT_BYTES - 4..].copy_from_slice(&(position as u32).to_be_bytes());
    }
    after
}

/// What a reading that set these values leaves behind.
pub fn was_read(call: &Call, values: &[Value]) -> After {
    let (layout, end) = (&call.layout, call.record.len());
    let steps = walk(layout, end).len();
    was_read_at(call, values, &positions(layout, end), steps)
}

fn accepts(t: &mut dyn Judge, call: Call, bytes: impl AsRef<[u8]>) {
    let after = packed(&call, bytes.as_ref());
    t.expect("packing", &call, &after);
}

/// With a reply of another size a call returns 1 and writes nothing.
pub fn refuses_replies(t: &mut dyn Judge, mut call: Call, lengths: &[usize]) {
    for &length in lengths {
        call.reply = vec![OLD_REPLY; length];
        for null in [false, true] {
            call.null = null;
            t.expect("reply of another size", &call, &call.untouched(1));
        }
    }
}

pub fn refuses(t: &mut dyn Judge, call: Call, number: u32, place: u32) {
    let after = call.answered([number, place, 0]);
    t.expect("refusal", &call, &after);
}

pub fn packs(t: &mut dyn Judge, layout: &str, values: &[Value], bytes: impl AsRef<[u8]>) {
    accepts(t, packing(layout, values), bytes);
}

pub fn pack_refused(t: &mut dyn Judge, layout: &str, values: &[Value], number: u32, place: u32) {
    refuses(t, packing(layout, values), number, place);
}

/// Reads with an area that has just `ROOM` bytes too many, and `kept` slots more than are set.
pub fn reads(
    t: &mut dyn Judge,
    layout: &str,
    record: impl AsRef<[u8]>,
    values: &[Value],
    kept: usize,
) {
    let mut call = reading(layout, record, values.len() + kept);
    let size: usize = values.iter().map(|v| v.bytes().len()).sum();
    call.area = vec![OLD_AREA; MARK + size + ROOM];
    let after = was_read(&call, values);
    t.expect("reading", &call, &after);
}

fn read_refused(t: &mut dyn Judge, layout: &str, slots: usize, number: u32, place: u32) {
    refuses(t, reading(layout, "abcdef", slots), number, place);
}

/// Replaces kind, start and length of a slot.
pub fn with_slot(mut call: Call, index: usize, [kind, start, length]: [u32; 3]) -> Call {
    let at = index * SLOT_BYTES;
    call.slots[at..at + SLOT_BYTES].copy_from_slice(&slot(kind, start as usize, length as usize));
    call
}

fn checked_packings(t: &mut dyn Judge) {
    let binary = [text("11100"), text("111000011010")];
    packs(t, "b5b*", &binary, [0x07, 0x87, 0x05]);
    packs(t, "B5B*", &binary, [0xe0, 0xe1, 0xa0]);
    let hex = [text("ab"), text("DEF"), text("987")];
    packs(t, "H3H*H2", &hex, [0xab, 0x00, 0xde, 0xf0, 0x98]);
    let hex = [text("AB"), text("def"), text("987")];
    packs(t, "h3h*h2", &hex, [0xba, 0x00, 0xed, 0x0f, 0x89]);
    let lists = [ints(&[3, -3, 128, 1]), ints(&[260]), ints(&[2, 5])];
    packs(t, "c3cc*", &lists, [0x03, 0xfd, 0x80, 0x04, 0x02, 0x05]);
    let three = [text("abc"), text("def"), text("ghi")];
    packs(t, "a3X*a3X2a3", &three, "dghi");
    let four = [text("abcde"), text("f"), text("ghi"), text("j")];
    packs(t, "a5@2a1@*a3@10a1", &four, "abfdeghi\0\0j");
}

fn checked_readings(t: &mut dyn Judge) {
    let bits = [text("11100"), text("1110000110100000")];
    reads(t, "b5b*", [0x07, 0x87, 0x05], &bits, 0);
    reads(
        t,
        "s2s*",
        [5, 0, 7, 0, 0xf0, 0xff],
        &[ints(&[5, 7]), ints(&[-16])],
        0,
    );
    reads(t, "s3s", "abcdefg", &[ints(&[25185, 25699, 26213])], 1);
    reads(t, "su", [0x00, 0x80], &[uints(&[32768])], 0);
    reads(t, "s", [0x00, 0x80], &[ints(&[-32768])], 0);
    reads(t, "s*", [0x41], &[ints(&[])], 0);
    reads(t, "c", [], &[], 1);
    reads(t, "a0", [], &[text("")], 0);
}

fn other_packings(t: &mut dyn Judge) {
    let words = [text("alpha"), text("bravo"), text("charlie")];
    packs(t, "a7a*a", &words, "alpha\0\0bravoc");
    packs(t, "A6A*A", &words, "alpha bravoc");
    packs(t, "a*", &[text([0xe2, 0x82, 0xac])], [0xe2, 0x82, 0xac]);
    packs(t, "a*", &[text([0xa4])], [0xa4]);
    packs(
        t,
        "h3h*",
        &[text("AB"), text("def")],
        [0xba, 0x00, 0xed, 0x0f],
    );
    packs(
        t,
        "H3H*",
        &[text("ab"), text("DEF")],
        [0xab, 0x00, 0xde, 0xf0],
    );
    pack_refused(t, "c", &[ints(&[2, 5])], 9, 0);
    let shorts = [ints(&[3, -3, 258, 1])];
    packs(t, "s3", &shorts, [3, 0, 0xfd, 0xff, 2, 1]);
    packs(t, "S3", &shorts, [0, 3, 0xff, 0xfd, 1, 2]);
    let longs = [ints(&[3, -3, 65536, 1])];
    packs(
        t,
        "i3",
        &longs,
        [3, 0, 0, 0, 0xfd, 0xff, 0xff, 0xff, 0, 0, 1, 0],
    );
    packs(
        t,
        "I3",
        &longs,
        [0, 0, 0, 3, 0xff, 0xff, 0xff, 0xfd, 0, 1, 0, 0],
    );
    packs(t, "w", &[ints(&[7810179016327718216])], "HelloTcl");
    packs(
        t,
        "Wc",
        &[ints(&[4785469626960341345]), ints(&[110])],
        "BigEndian",
    );
    let three = [text("abc"), text("def"), text("ghi")];
    packs(t, "a3xa3x2a3", &three, "abc\0def\0\0ghi");
    packs(t, "s1", &[ints(&[0x8000])], [0x00, 0x80]);
    two_integers(t);
    length_and_text(t);
}

/// The numbers 16 and 22 as eight bytes, in the order of a little-endian machine and of the other.
fn two_integers(t: &mut dyn Judge) {
    let values = [ints(&[16]), ints(&[22])];
    let little = [16, 0, 0, 0, 22, 0, 0, 0];
    packs(t, "ii", &values, little);
    reads(t, "ii", little, &values, 0);
    let big = [0, 0, 0, 16, 0, 0, 0, 22];
    packs(t, "II", &values, big);
    reads(t, "II", big, &values, 0);
}

/// A string with its length before it: written at once, read in two steps.
fn length_and_text(t: &mut dyn Judge) {
    for data in ["hello", "", "gr\u{fc}\u{df} dich", "\u{20ac} 5"] {
        let (length, bytes) = (data.len() as u8, data.as_bytes());
        let record = [&[0, 0, 0, length], bytes].concat();
        packs(t, "Ia*", &[ints(&[length as i64]), text(data)], &record);
        reads(t, "I", &record[..4], &[ints(&[length as i64])], 0);
        reads(t, "a*", bytes, &[text(data)], 0);
        reads(t, "I", &record[..3], &[], 1);
    }
}

fn other_readings(t: &mut dyn Judge) {
    let three = ints(&[25185, 25699, 26213]);
    reads(t, "s3s", "abcdefgh", &[three.clone(), ints(&[26727])], 0);
    reads(t, "s3s", "abcdef", &[three], 1);
    reads(t, "s3s", "abcde", &[], 2);
    reads(t, "s1", [0x00, 0x80], &[ints(&[-32768])], 0);
    reads(t, "su1", [0x00, 0x80], &[uints(&[32768])], 0);
    reads(t, "a6a10", "abcde\0fghi", &[text("abcde\0")], 1);
    reads(t, "a*", [0xe2, 0x82, 0xac], &[text([0xe2, 0x82, 0xac])], 0);
    reads(t, "A*", "abc efghi  \0", &[text("abc efghi")], 0);
    let bits = [text("01110"), text("1000011100000101")];
    reads(t, "B5B*", [0x70, 0x87, 0x05], &bits, 0);
    let record = [0x07, 0xc6, 0x05, 0x1f, 0x34];
    reads(t, "H3H*", record, &[text("07c"), text("051f34")], 0);
    let record = [0x07, 0x86, 0x05, 0x12, 0x34];
    reads(t, "h3h*", record, &[text("706"), text("502143")], 0);
    reads(t, "h3h*", &record[..3], &[text("706"), text("50")], 0);
    reads(t, "H3H*", &record[..3], &[text("078"), text("05")], 0);
    reads(t, "c2c*", &record[..3], &[ints(&[7, -122]), ints(&[5])], 0);
    let pair = [ints(&[5, 7]), ints(&[-16])];
    reads(t, "S2S*", [0, 5, 0, 7, 0xff, 0xf0], &pair, 0);
    let little = [5, 0, 0, 0, 7, 0, 0, 0, 0xf0, 0xff, 0xff, 0xff];
    reads(t, "i2i*", little, &pair, 0);
    reads(t, "wi*", little, &[ints(&[30064771077]), ints(&[-16])], 0);
    let big = [0, 0, 0, 5, 0, 0, 0, 7, 0xff, 0xff, 0xff, 0xf0];
    reads(t, "I2I*", big, &pair, 0);
    reads(t, "WI*", big, &[ints(&[21474836487]), ints(&[-16])], 0);
    reads(t, "x2H*", [1, 2, 3, 4], &[text("0304")], 0);
    reads(
        t,
        "c2XH*",
        [1, 2, 3, 4],
        &[ints(&[1, 2]), text("020304")],
        0,
    );
    reads(
        t,
        "c2@1H*",
        [1, 2, 3, 4],
        &[ints(&[1, 2]), text("020304")],
        0,
    );
}

fn layout_texts(t: &mut dyn Judge) {
    packs(t, "", &[], []);
    packs(t, "   ", &[], []);
    packs(t, " c  c ", &[ints(&[1]), ints(&[2])], [1, 2]);
    reads(t, "   ", "abc", &[], 2);
    pack_refused(t, "c 3", &[ints(&[1])], 2, 2);
    pack_refused(t, "c*5", &[ints(&[1])], 2, 2);
    pack_refused(t, "c5*", &[ints(&[1])], 2, 2);
    pack_refused(t, "c**", &[ints(&[1])], 2, 2);
    pack_refused(t, "cu u", &[ints(&[1])], 2, 3);
    pack_refused(t, "cuu", &[ints(&[1])], 2, 2);
    pack_refused(t, "c1u", &[ints(&[1])], 2, 2);
    pack_refused(t, "c u", &[ints(&[1])], 2, 2);
    pack_refused(t, "5", &[], 2, 0);
    pack_refused(t, "*", &[], 2, 0);
    pack_refused(t, "u", &[], 2, 0);
    pack_refused(t, " \tc", &[], 2, 1);
    pack_refused(t, "c-1", &[ints(&[1])], 2, 1);
    pack_refused(t, "c+1", &[ints(&[1])], 2, 1);
    pack_refused(t, "c\0", &[ints(&[1])], 2, 1);
    for letter in "tnmfd".chars() {
        pack_refused(t, &letter.to_string(), &[], 2, 0);
        read_refused(t, &letter.to_string(), 1, 2, 0);
    }
    for letter in ["c", "s", "S", "i", "I", "w", "W"] {
        packs(t, &format!("{}u0", letter), &[ints(&[])], []);
        reads(t, &format!("{}u0", letter), "ab", &[uints(&[])], 0);
        reads(t, &format!("{}0", letter), "ab", &[ints(&[])], 0);
    }
    flags(t);
    every_single_byte(t);
    leading_zeros(t);
}

/// The flag may follow every type and counts for integers alone; a second one is an unknown type.
fn flags(t: &mut dyn Judge) {
    packs(
        t,
        "au20",
        &[text("leg")],
        "leg\0\0\0\0\0\0\0\0\0\0\0\0\0\0\0\0\0",
    );
    packs(t, "au3xu2Au3", &[text("legs"), text("m")], "leg\0\0m  ");
    reads(t, "au3xu2Au3", "leg\0\0m  ", &[text("leg"), text("m")], 0);
    packs(t, "bu3Bu*", &[text("101"), text("101")], [0x05, 0xa0]);
    reads(
        t,
        "bu3Bu*",
        [0x05, 0xa0],
        &[text("101"), text("10100000")],
        0,
    );
    packs(t, "hu3Hu*", &[text("12F"), text("1f")], [0x21, 0x0f, 0x1f]);
    reads(t, "huHu*", [0x21, 0x1f], &[text("1"), text("1f")], 0);
    packs(t, "au3Xu2@u1@u*xu", &[text("abc")], "abc\0");
    reads(
        t,
        "@u2auXu*auxu*au0",
        "abc",
        &[text("c"), text("a"), text("")],
        0,
    );
    for letter in [
        "a", "A", "b", "B", "h", "H", "c", "s", "S", "i", "I", "w", "W", "q", "Q", "r", "R", "x",
        "X",
    ] {
        pack_refused(t, &format!("{letter}uu"), &[text("1")], 2, 2);
        read_refused(t, &format!("{letter}uu3"), 1, 2, 2);
        read_refused(t, &format!("{letter}1u"), 1, 2, 2);
        read_refused(t, &format!(" {letter}u u"), 1, 2, 4);
    }
    for layout in ["@u", "@uu", "@u u", "@u*u"] {
        let (number, place) = if layout == "@u*u" { (2, 3) } else { (4, 0) };
        pack_refused(t, layout, &[], number, place);
        read_refused(t, layout, 0, number, place);
    }
    pack_refused(t, "xu*", &[], 4, 0);
    reads(t, "xu*Xau", "abc", &[text("c")], 0);
}

/// Each byte alone as a layout: twenty types, the space, and unknown types.
fn every_single_byte(t: &mut dyn Judge) {
    for byte in 0..=255u8 {
        let call = packing([byte], &[]);
        match byte {
            b' ' | b'X' => accepts(t, call, []),
            b'x' => accepts(t, call, [0]),
            b'@' => refuses(t, call, 4, 0),
            _ if b"aAbBhHcsSiIwWqQrR".contains(&byte) => refuses(t, call, 5, 0),
            _ => refuses(t, call, 2, 0),
        }
    }
}

fn leading_zeros(t: &mut dyn Judge) {
    packs(t, "c03", &[ints(&[1, 2, 3])], [1, 2, 3]);
    packs(t, "c00", &[ints(&[])], []);
    let digits = LAYOUT_MAX - 1;
    let two = format!("a{:0digits$}", 2);
    packs(t, &two, &[text("xyz")], "xy");
    reads(t, &two, "xyz", &[text("xy")], 0);
    packs(t, &format!("a{:0digits$}", 0), &[text("xyz")], "");
    pack_refused(t, &format!("a{}", "9".repeat(digits)), &[text("xyz")], 3, 1);
    packs(t, &format!("x{COUNT_MAX:0digits$}"), &[], [0; COUNT_MAX]);
    pack_refused(t, &format!("x{OVER:0digits$}"), &[], 3, 1);
    let over = OVER.to_string();
    for large in [
        &over,
        "65536",
        "65537",
        "4294967295",
        "4294967296",
        "18446744073709551616",
    ] {
        pack_refused(t, &format!("a{}", large), &[text("")], 3, 1);
        read_refused(t, &format!(" c a{}", large), 2, 3, 4);
        read_refused(t, &format!(" c a000{}", large), 2, 3, 4);
        pack_refused(t, &format!("cu{}", large), &[ints(&[1])], 3, 2);
        read_refused(t, &format!("a2 xu0{}", large), 1, 3, 5);
    }
}

fn moves(t: &mut dyn Judge) {
    pack_refused(t, "@", &[], 4, 0);
    read_refused(t, "@", 0, 4, 0);
    packs(t, "@u5", &[], [0; 5]);
    reads(t, "@u5", "abc", &[], 0);
    pack_refused(t, "@ 5", &[], 4, 0);
    pack_refused(t, "@5u", &[], 2, 2);
    pack_refused(t, "x*", &[], 4, 0);
    pack_refused(t, "x*u", &[], 4, 0);
    read_refused(t, "x*u", 0, 2, 2);
    packs(t, "xu", &[], [0]);
    reads(t, "x*", "abc", &[], 0);
    reads(t, "x*a0", "abc", &[text("")], 0);
    reads(t, "x*a", "abc", &[], 1);
    reads(t, "x9a*", "abc", &[text("")], 0);
    reads(t, "x9X a", "abc", &[text("c")], 0);
    reads(t, "@9X2a", "abc", &[text("b")], 0);
    reads(t, "@*Xa", "abc", &[text("c")], 0);
    reads(
        t,
        "a3X*aX9a",
        "abc",
        &[text("abc"), text("a"), text("a")],
        0,
    );
    reads(t, "a2X0a", "abc", &[text("ab"), text("c")], 0);
    reads(t, "xa", "abc", &[text("b")], 0);
    reads(t, "x0a", "abc", &[text("a")], 0);
    packs(t, "@4", &[], [0; 4]);
    packs(t, "@4@2", &[], [0; 4]);
    packs(t, "@4X9", &[], [0; 4]);
    packs(t, "a4@1@*a", &[text("abcd"), text("e")], "abcde");
    packs(
        t,
        "a4X3a@*a",
        &[text("abcd"), text("e"), text("f")],
        "aecdf",
    );
    packs(t, "a4X3x2", &[text("abcd")], "a\0\0d");
    packs(t, "a4X3x0", &[text("abcd")], "abcd");
    packs(t, "a4X3a0", &[text("abcd"), text("x")], "abcd");
    packs(t, "a4X0a", &[text("abcd"), text("e")], "abcde");
    packs(t, "a4X3A2", &[text("abcd"), text("")], "a  d");
    packs(t, "a2X2b8", &[text("ab"), text("1")], "\x01b");
    packs(t, "a2X2b9", &[text("ab"), text("1")], "\x01\0");
    packs(t, "a2X2H3", &[text("ab"), text("1")], "\x10\0");
    packs(t, "X", &[], []);
    packs(t, "X*", &[], []);
    packs(t, "@*", &[], []);
    packs(t, "@0", &[], []);
}

fn fields_in_packing(t: &mut dyn Judge) {
    packs(t, "a", &[text("")], "\0");
    packs(t, "A", &[text("")], " ");
    packs(t, "a*", &[text("")], "");
    packs(t, "b", &[text("")], "\0");
    packs(t, "B", &[text("1")], [0x80]);
    packs(t, "b", &[text("11")], [0x01]);
    packs(t, "b", &[text("1x")], [0x01]);
    packs(t, "b0", &[text("x")], []);
    packs(t, "H0", &[text("g")], []);
    packs(t, "b3", &[text("101z")], [0x05]);
    packs(t, "b3", &[text("1")], [0x01]);
    pack_refused(t, "b3", &[text("10z")], 10, 0);
    pack_refused(t, "b*", &[text("10z")], 10, 0);
    pack_refused(t, "b", &[text("2")], 10, 0);
    pack_refused(t, "B", &[text("a")], 10, 0);
    packs(t, "H", &[text("f")], [0xf0]);
    packs(t, "h", &[text("F")], [0x0f]);
    packs(t, "H1", &[text("fg")], [0xf0]);
    pack_refused(t, "H2", &[text("fg")], 10, 0);
    for bad in ["/", ":", "@", "G", "`", "g", " ", "\0"] {
        pack_refused(t, "H", &[text(bad)], 10, 0);
        pack_refused(t, "h", &[text(bad)], 10, 0);
        pack_refused(t, "b", &[text(bad)], 10, 0);
    }
    packs(t, "c0", &[ints(&[])], []);
    packs(t, "c*", &[ints(&[])], []);
    packs(t, "c1", &[ints(&[7, 8])], [7]);
    packs(t, "c", &[uints(&[u64::MAX])], [0xff]);
    packs(t, "cu", &[ints(&[-1])], [0xff]);
    packs(t, "W", &[ints(&[i64::MIN])], [0x80, 0, 0, 0, 0, 0, 0, 0]);
    packs(
        t,
        "w",
        &[uints(&[u64::MAX - 1])],
        [0xfe, 255, 255, 255, 255, 255, 255, 255],
    );
    pack_refused(t, "c", &[ints(&[])], 9, 0);
    pack_refused(t, "c1", &[ints(&[])], 9, 0);
    pack_refused(t, "c2", &[ints(&[1])], 9, 0);
}

fn fields_in_reading(t: &mut dyn Judge) {
    reads(t, "a", "abc", &[text("a")], 0);
    reads(t, "aa", "a", &[text("a")], 1);
    reads(t, "a2a", "a", &[], 2);
    reads(t, "a4a0", "abc", &[], 2);
    reads(t, "a3a0a", "abc", &[text("abc"), text("")], 1);
    reads(t, "A3a", "a \0b", &[text("a"), text("b")], 0);
    reads(t, "A3a", "  \0b", &[text(""), text("b")], 0);
    reads(t, "A*", "\0a \0\0 ", &[text("\0a")], 0);
    reads(t, "A0", "a", &[text("")], 0);
    reads(t, "A3", "ab", &[], 1);
    reads(t, "b5b3", [0xff, 0x01], &[text("11111"), text("100")], 0);
    reads(t, "b5b3", [0xff], &[text("11111")], 1);
    reads(t, "B0", [0xff], &[text("")], 0);
    reads(t, "b*b*", [0x03], &[text("11000000"), text("")], 0);
    reads(t, "b9", [0xff], &[], 1);
    reads(t, "b8", [0x81], &[text("10000001")], 0);
    reads(t, "b", [0x81], &[text("1")], 0);
    reads(t, "B", [0x7f], &[text("0")], 0);
    reads(t, "H", [0xab], &[text("a")], 0);
    reads(t, "h", [0xab], &[text("b")], 0);
    reads(t, "H3", [0xab], &[], 1);
    reads(t, "s*a*", "abc", &[ints(&[0x6261]), text("c")], 0);
    reads(t, "i*a*", "abc", &[ints(&[]), text("abc")], 0);
    reads(t, "c", [0x80], &[ints(&[-128])], 0);
    reads(t, "cu", [0x80], &[uints(&[128])], 0);
    reads(t, "w", [255; 8], &[ints(&[-1])], 0);
    reads(t, "wu", [255; 8], &[uints(&[u64::MAX])], 0);
    reads(
        t,
        "Wu*",
        [0x80, 0, 0, 0, 0, 0, 0, 1, 9],
        &[uints(&[(1 << 63) + 1])],
        0,
    );
    reads(t, "Iu", [255, 255, 255, 254], &[uints(&[0xffff_fffe])], 0);
    reads(t, "I", [255, 255, 255, 254], &[ints(&[-2])], 0);
}

fn size_limits(t: &mut dyn Judge) {
    packs(t, &" ".repeat(LAYOUT_MAX), &[], []);
    pack_refused(t, &" ".repeat(LAYOUT_MAX + 1), &[], 1, 0);
    pack_refused(t, &"t".repeat(LAYOUT_MAX + 1), &[], 1, 0);
    refuses(t, reading(" ".repeat(LAYOUT_MAX + 1), "", 0), 1, 0);
    packs(t, &"x".repeat(LAYOUT_MAX), &[], [0; LAYOUT_MAX]);
    many_slots(t);
    odd_slot_runs(t);
    record_sizes(t);
    area_sizes(t);
    marks(t);
    replies(t);
    null_runs(t);
}

fn many_slots(t: &mut dyn Judge) {
    let bytes: Vec<u8> = (0..=SLOTS_MAX as u8).collect();
    let many: Vec<Value> = bytes.iter().map(|&n| ints(&[n as i64])).collect();
    let (all, over) = ("c".repeat(SLOTS_MAX), "c".repeat(SLOTS_MAX + 1));
    packs(t, &all, &many[..SLOTS_MAX], &bytes[..SLOTS_MAX]);
    pack_refused(t, &all, &many, 1, 0);
    pack_refused(t, &over, &many, 1, 0);
    pack_refused(t, &over, &many[..SLOTS_MAX], 5, 0);
    refuses(t, reading(&over, &bytes, SLOTS_MAX + 1), 1, 0);
    refuses(t, reading(&over, &bytes, SLOTS_MAX), 5, 0);
    let mut call = reading(&all, &bytes, SLOTS_MAX);
    call.area = vec![OLD_AREA; MARK + SLOTS_MAX * ITEM_BYTES];
    let after = was_read(&call, &many[..SLOTS_MAX]);
    t.expect("all slots", &call, &after);
    call.area.pop();
    refuses(t, call, 11, 0);
}

fn odd_slot_runs(t: &mut dyn Judge) {
    let (one, all) = (SLOT_BYTES, SLOT_RUN_MAX);
    for length in [
        1,
        4,
        8,
        12,
        one - 1,
        one + 1,
        all - 1,
        all + 1,
        all + one,
        2 * all,
    ] {
        let mut call = packing("c", &[ints(&[1])]);
        call.slots.resize(length, 0);
        refuses(t, call, 1, 0);
        let mut call = reading("", "", 0);
        call.slots.resize(length, 0);
        refuses(t, call, 1, 0);
    }
}

fn record_sizes(t: &mut dyn Judge) {
    let full = vec![b'r'; RECORD_MAX + 1];
    let mut call = packing("a*", &[text(&full[..RECORD_MAX])]);
    accepts(t, call.clone(), &full[..RECORD_MAX]);
    call.record.pop();
    refuses(t, call.clone(), 11, 0);
    call.record = vec![OLD_OUT; RECORD_MAX + 1];
    refuses(t, call, 1, 0);
    pack_refused(t, "a*", &[text(&full)], 11, 0);
    full_record_packings(t);
    let mut call = packing("a", &[text("q")]);
    call.record.clear();
    refuses(t, call, 11, 0);
    let mut call = packing("a0", &[text("q")]);
    call.record.clear();
    accepts(t, call, []);
    refuses(t, reading("a", &full, 1), 1, 0);
    full_record_readings(t, &full[..RECORD_MAX]);
}

/// The largest count is also the size of the largest record.
fn full_record_packings(t: &mut dyn Judge) {
    let zeros = [0; RECORD_MAX];
    packs(t, &format!("a{COUNT_MAX}"), &[text("")], zeros);
    packs(t, &format!("@{COUNT_MAX}"), &[], zeros);
    packs(t, &format!("@{COUNT_MAX}X*"), &[], zeros);
    let eighth = &zeros[..RECORD_MAX / 8];
    packs(t, &format!("b{COUNT_MAX}"), &[text("")], eighth);
    let half = &zeros[..RECORD_MAX / 2];
    packs(t, &format!("H{COUNT_MAX}"), &[text("")], half);
    pack_refused(t, &format!("x{COUNT_MAX}x"), &[], 11, 0);
    pack_refused(t, &format!("x{COUNT_MAX}xX*"), &[], 11, 0);
    packs(t, &format!("x{COUNT_MAX}x0X*"), &[], zeros);
    pack_refused(t, &format!("x{COUNT_MAX}").repeat(40), &[], 11, 0);
    let items = vec![0x0101_0101_0101_0101; OVER];
    let (ones, longs) = ([1; RECORD_MAX], RECORD_MAX / ITEM_BYTES);
    packs(t, &format!("c{COUNT_MAX}"), &[ints(&items)], ones);
    packs(t, &format!("w{longs}"), &[ints(&items)], ones);
    pack_refused(t, &format!("w{}", longs + 1), &[ints(&items)], 11, 0);
    pack_refused(t, "c*", &[ints(&items)], 11, 0);
    pack_refused(t, &format!("c{OVER}"), &[ints(&items)], 3, 1);
}

fn full_record_readings(t: &mut dyn Judge, full: &[u8]) {
    let counted = |letter: char| format!("{letter}{COUNT_MAX}");
    for layout in ["a*", &counted('a'), "A*"] {
        reads(t, layout, full, &[text(full)], 0);
    }
    reads(
        t,
        &counted('c'),
        full,
        &[ints(&[b'r' as i64; RECORD_MAX])],
        0,
    );
    reads(t, "cu*", full, &[uints(&[b'r' as u64; RECORD_MAX])], 0);
    reads(t, "b*", full, &[text("01001110".repeat(RECORD_MAX))], 0);
    let some = text("01001110".repeat(COUNT_MAX / 8));
    reads(t, &counted('b'), full, &[some], 0);
    reads(t, "H*", full, &[text("72".repeat(RECORD_MAX))], 0);
    reads(t, &counted('a'), &full[1..], &[], 1);
}

fn area_sizes(t: &mut dyn Judge) {
    const LAST_TWO: u32 = AREA_MAX as u32 - 2;
    let mut call = packing("a2", &[text("xy")]);
    call.area.resize(AREA_MAX, 1);
    accepts(t, call.clone(), "xy");
    call.area.push(1);
    refuses(t, call, 1, 0);
    let mut call = packing("a2", &[text("xy")]);
    call.area = [vec![1; AREA_MAX - 2], b"xy".to_vec()].concat();
    accepts(t, with_slot(call.clone(), 0, [1, LAST_TWO, 2]), "xy");
    refuses(t, with_slot(call.clone(), 0, [1, LAST_TWO, 3]), 7, 0);
    refuses(t, with_slot(call, 0, [1, LAST_TWO + 1, 2]), 7, 0);
    let mut call = reading("a2", "xyz", 1);
    call.area = vec![OLD_AREA; AREA_MAX];
    call.mark = AREA_MAX - 2;
    let after = was_read(&call, &[text("xy")]);
    t.expect("largest area", &call, &after);
    call.mark = AREA_MAX - 1;
    refuses(t, call.clone(), 11, 0);
    call.area.push(OLD_AREA);
    refuses(t, call, 1, 0);
}

fn marks(t: &mut dyn Judge) {
    for length in [0, 1, 200, AREA_MAX] {
        let mut call = reading("a0c", "", 3);
        call.area = vec![OLD_AREA; length];
        call.mark = length;
        let after = was_read(&call, &[text("")]);
        t.expect("mark at the end", &call, &after);
        for mark in [length + 1, 1 << 31, 1 << 32, (1 << 32) + length, usize::MAX] {
            call.mark = mark;
            refuses(t, call.clone(), 1, 0);
        }
    }
    let mut call = reading("", "abc", 0);
    call.mark = 7;
    let after = was_read(&call, &[]);
    t.expect("no fields", &call, &after);
}

fn replies(t: &mut dyn Judge) {
    let (size, long) = (REPLY_BYTES, READ_REPLY_BYTES);
    let lengths = [0, 1, 4, size - 1, size + 1, long, 2 * size];
    let mut call = packing("a", &[text("q")]);
    refuses_replies(t, call.clone(), &lengths);
    call.layout = b"t".to_vec();
    refuses_replies(t, call.clone(), &lengths);
    call.slots.pop();
    refuses_replies(t, call, &lengths);
    let lengths = [0, 4, size, long - 1, long + 1, 2 * size];
    let mut call = reading("a", "q", 1);
    refuses_replies(t, call.clone(), &lengths);
    call.mark = 201;
    refuses_replies(t, call, &lengths);
}

fn null_runs(t: &mut dyn Judge) {
    let mut call = packing("", &[]);
    call.record.clear();
    call.null = true;
    accepts(t, call.clone(), []);
    call.layout = b"a0".to_vec();
    call.slots = slot(1, 0, 0);
    accepts(t, call.clone(), []);
    call.reply.clear();
    t.expect("null reply", &call, &call.untouched(1));
    let mut call = reading("", "", 0);
    call.area.clear();
    call.mark = 0;
    call.null = true;
    let after = was_read(&call, &[]);
    t.expect("null runs", &call, &after);
    call.layout = b"a*c*".to_vec();
    refuses(t, call.clone(), 5, 0);
    call.slots = vec![OLD_SLOT; 2 * SLOT_BYTES];
    let after = was_read(&call, &[text(""), ints(&[])]);
    t.expect("null runs", &call, &after);
}

fn argument_refusals(t: &mut dyn Judge) {
    let pair = || packing("a2c", &[text("xy"), ints(&[1])]);
    accepts(t, pair(), "xy\x01");
    for slot in 0..2 {
        let (text_slot, place) = (slot == 0, slot as u32);
        refuses(t, with_slot(pair(), slot, [0, 0, 0]), 6, place);
        refuses(
            t,
            with_slot(pair(), slot, [0, u32::MAX, u32::MAX]),
            6,
            place,
        );
        for kind in [KIND_MAX + 1, 5, 255, 256, 0x0100_0000, u32::MAX] {
            refuses(t, with_slot(pair(), slot, [kind, 0, 0]), 7, place);
        }
        for kind in 1..=KIND_MAX {
            refuses(t, with_slot(pair(), slot, [kind, 11, 0]), 7, place);
            refuses(
                t,
                with_slot(pair(), slot, [kind, u32::MAX, u32::MAX]),
                7,
                place,
            );
            refuses(t, with_slot(pair(), slot, [kind, u32::MAX, 1]), 7, place);
            refuses(t, with_slot(pair(), slot, [kind, 0, 0x2000_0000]), 7, place);
            refuses(t, with_slot(pair(), slot, [kind, 0, 0x4000_0001]), 7, place);
            refuses(t, with_slot(pair(), slot, [kind, 10, 1]), 7, place);
        }
        let (wrong, right) = if text_slot { (2, 1) } else { (1, 2) };
        refuses(t, with_slot(pair(), slot, [wrong, 10, 0]), 8, place);
        let empty = with_slot(pair(), slot, [right, 10, 0]);
        match text_slot {
            true => accepts(t, empty, "\0\0\x01"),
            false => refuses(t, empty, 9, 1),
        }
    }
    refuses(t, with_slot(pair(), 1, [3, 3, 1]), 7, 1);
    accepts(t, with_slot(pair(), 1, [3, 2, 1]), "xy\x01");
    counted_as_none(t);
    slot_counts(t);
}

/// A count of 0 still has its argument checked.
fn counted_as_none(t: &mut dyn Judge) {
    for letter in ["a0", "A0", "b0", "B0", "h0", "H0"] {
        refuses(
            t,
            with_slot(packing(letter, &[text("z")]), 0, [0, 0, 0]),
            6,
            0,
        );
        refuses(
            t,
            with_slot(packing(letter, &[text("z")]), 0, [1, 2, 0]),
            7,
            0,
        );
        pack_refused(t, letter, &[ints(&[])], 8, 0);
        pack_refused(t, letter, &[uints(&[])], 8, 0);
        packs(t, letter, &[text("z")], []);
    }
    for letter in ["c0", "s0", "S0", "i0", "I0", "w0", "W0", "c*", "su*", "Wu0"] {
        refuses(
            t,
            with_slot(packing(letter, &[ints(&[])]), 0, [0, 0, 0]),
            6,
            0,
        );
        refuses(
            t,
            with_slot(packing(letter, &[ints(&[])]), 0, [2, 1, 0]),
            7,
            0,
        );
        pack_refused(t, letter, &[text("")], 8, 0);
        packs(t, letter, &[uints(&[])], []);
    }
}

fn slot_counts(t: &mut dyn Judge) {
    pack_refused(t, "a", &[], 5, 0);
    pack_refused(t, "", &[text("a")], 5, 0);
    pack_refused(t, "xX@0", &[text("a")], 5, 0);
    pack_refused(t, "aa", &[text("a"), text("b"), text("c")], 5, 0);
    read_refused(t, "a", 0, 5, 0);
    read_refused(t, "aaa", 2, 5, 0);
    read_refused(t, "a9aa", 2, 5, 0);
    reads(t, "a", "a", &[text("a")], SLOTS_MAX - 1);
    reads(t, "", "a", &[], SLOTS_MAX);
}

/// Of two reasons the earlier one counts.
fn order_of_refusals(t: &mut dyn Judge) {
    let unset = |layout: &str| with_slot(packing(layout, &[text("z")]), 0, [0, 0, 0]);
    let mut call = unset("t");
    call.slots.push(0);
    refuses(t, call, 1, 0);
    pack_refused(t, &format!("a{OVER}t"), &[], 3, 1);
    pack_refused(t, &format!("ta{OVER}"), &[], 2, 0);
    pack_refused(t, &format!("@a{OVER}"), &[], 4, 0);
    pack_refused(t, "x*@", &[], 4, 0);
    pack_refused(t, &format!("a{OVER}x*"), &[], 3, 1);
    pack_refused(t, "aax*", &[], 4, 2);
    pack_refused(t, &format!("x{OVER}"), &[], 3, 1);
    pack_refused(t, &format!("@{OVER}"), &[], 3, 1);
    pack_refused(t, &format!("X{OVER}"), &[], 3, 1);
    refuses(t, unset("aa"), 5, 0);
    refuses(t, unset(&format!("ax{COUNT_MAX}x")), 6, 0);
    refuses(t, with_slot(packing("a", &[text("z")]), 0, [2, 9, 0]), 7, 0);
    let bad = [text("z"), text("z")];
    pack_refused(t, "bc", &bad, 10, 0);
    pack_refused(t, "cb", &bad, 8, 0);
    pack_refused(t, "ac", &bad, 8, 1);
    refuses(t, with_slot(packing("bb", &bad), 1, [0, 0, 0]), 10, 0);
    refuses(t, with_slot(packing("ab", &bad), 1, [9, 0, 0]), 7, 1);
    refuses(
        t,
        with_slot(packing("cb", &[ints(&[]), text("z")]), 1, [0, 0, 0]),
        9,
        0,
    );
    pack_refused(t, &format!("x{COUNT_MAX}xb"), &[text("z")], 10, 0);
    pack_refused(t, &format!("x{COUNT_MAX}xb"), &[text("1")], 11, 0);
    let mut call = reading("a3a9t", "abc", 0);
    refuses(t, call.clone(), 2, 4);
    call.layout = b"a3a9".to_vec();
    refuses(t, call.clone(), 5, 0);
    call.slots = vec![OLD_SLOT; 2 * SLOT_BYTES];
    call.mark = 198;
    refuses(t, call.clone(), 11, 0);
    call.mark = 201;
    refuses(t, call.clone(), 1, 0);
    call.mark = 197;
    let after = was_read(&call, &[text("abc")]);
    t.expect("only values that are set need room", &call, &after);
    refuses(t, reading("a9@", "abc", 1), 4, 2);
    refuses(t, reading(format!("a9a{OVER}"), "abc", 2), 3, 3);
}

/// The record position at which each field began, whether it took bytes or not.
fn field_positions(t: &mut dyn Judge) {
    let at = |t: &mut dyn Judge, layout: &str, values: &[Value], positions: &[usize]| {
        let call = reading(layout, "abcdefgh", values.len() + 2);
        let steps = walk(layout.as_bytes(), 8).len();
        let after = was_read_at(&call, values, positions, steps);
        t.expect("positions", &call, &after);
    };
    at(
        t,
        "a2a3a",
        &[text("ab"), text("cde"), text("f")],
        &[0, 2, 5],
    );
    at(
        t,
        "a0a8a0a*",
        &[text(""), text("abcdefgh"), text(""), text("")],
        &[0, 0, 8, 8],
    );
    at(t, "x3aX2a", &[text("d"), text("c")], &[3, 2]);
    at(
        t,
        "x*a0@2aX*a",
        &[text(""), text("c"), text("a")],
        &[8, 2, 0],
    );
    at(t, "x99s*@*a*", &[ints(&[]), text("")], &[8, 8]);
    at(
        t,
        "b5b9 H3 A",
        &[text("10000"), text("010001101"), text("646"), text("f")],
        &[0, 1, 3, 5],
    );
    at(
        t,
        "@7 c @1 i @6 su",
        &[ints(&[104]), ints(&[0x6564_6362]), uints(&[0x6867])],
        &[7, 1, 6],
    );
    at(t, "a6 i a", &[text("abcdef")], &[0]);
    at(t, "x6 A2 A", &[text("gh")], &[6]);
}

/// How many fields a reading came to: moves count, and the field that came up short, but none after it.
fn steps(t: &mut dyn Judge) {
    let takes = |t: &mut dyn Judge, layout: &str, record: &str, steps: u32| {
        let call = reading(layout, record, 5);
        let after = t.compare("steps", &call);
        t.claim("steps", &call, numbers(&after.reply)[3] == steps);
    };
    for (layout, record, steps) in [
        ("", "abc", 0),
        ("   ", "abc", 0),
        ("a", "abc", 1),
        ("a2a2a2", "abc", 2),
        ("a3a", "abc", 2),
        ("a9a0a0", "abc", 1),
        ("a0a0", "", 2),
        ("xX@0", "abc", 3),
        ("x9aa", "abc", 2),
        ("x*x*X*@*", "", 4),
        (" a x2  X @u1 s*", "abc", 5),
        ("ccccc", "abc", 4),
        ("xxxxxxxxxx", "abc", 10),
    ] {
        takes(t, layout, record, steps);
    }
    let full = "x".repeat(LAYOUT_MAX);
    takes(t, &full, "abc", LAYOUT_MAX as u32);
}

/// Packing does not look at positions.
fn positions_in_packing(t: &mut dyn Judge) {
    for position in [0, 1, 7, 1 << 31, NO_POSITION] {
        let mut call = packing("a2c", &[text("xy"), ints(&[9])]);
        call.slots = [slot_from(1, 0, 2, position), slot_from(2, 2, 1, position)].concat();
        accepts(t, call, "xy\x09");
    }
}

/// What lies below the mark or in an unset slot stays as it was.
fn old_values(t: &mut dyn Judge) {
    let mut call = reading("ca9", "abc", 2);
    call.slots = [slot(7, 8, 9), slot_from(1, 0, 3, 77)].concat();
    let after = was_read(&call, &[ints(&[97])]);
    t.expect("old slot", &call, &after);
}

pub fn run(t: &mut dyn Judge) {
    checked_packings(t);
    checked_readings(t);
    other_packings(t);
    other_readings(t);
    layout_texts(t);
    moves(t);
    fields_in_packing(t);
    fields_in_reading(t);
    size_limits(t);
    argument_refusals(t);
    order_of_refusals(t);
    field_positions(t);
    steps(t);
    positions_in_packing(t);
    old_values(t);
}
