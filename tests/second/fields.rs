//! The layout text and its fields.

use crate::limits::{COUNT_MAX, ITEM_BYTES, LAYOUT_MAX, REAL};
use crate::slots::{refused, Answer};

#[derive(Clone, Copy)]
pub enum Kind {
    Text {
        spaces: bool,
    },
    Bits {
        high_first: bool,
    },
    Hex {
        high_first: bool,
    },
    Integer {
        width: u8,
        big: bool,
        unsigned: bool,
    },
    /// Singles or doubles, by their width.
    Real {
        width: u8,
        big: bool,
    },
    Skip,
    Back,
    Goto,
}

pub const SINGLE_BYTES: u8 = 4;
const DOUBLE_BYTES: u8 = 8;

#[derive(Clone, Copy)]
pub enum Count {
    Absent,
    All,
    Number(u16),
}

#[derive(Clone, Copy)]
pub struct Field {
    pub kind: Kind,
    pub count: Count,
}

pub type Fields = [Field; LAYOUT_MAX];

pub const NO_FIELDS: Fields = [Field {
    kind: Kind::Skip,
    count: Count::Absent,
}; LAYOUT_MAX];

impl Field {
    pub fn takes_slot(&self) -> bool {
        !matches!(self.kind, Kind::Skip | Kind::Back | Kind::Goto)
    }
}

impl Kind {
    /// Whether the value is a list, of integers or of reals.
    pub fn is_list(self) -> bool {
        matches!(self, Kind::Integer { .. } | Kind::Real { .. })
    }

    /// Whether an argument may have this kind, which is known and set.
    pub fn wants(self, kind: u32) -> bool {
        match self {
            Kind::Integer { .. } => kind == 2 || kind == 3,
            Kind::Real { .. } => kind == REAL,
            _ => kind == 1,
        }
    }

    /// The bytes of a record that `count` items fill.
    pub fn filled(self, count: usize) -> usize {
        match self {
            Kind::Bits { .. } => (count + 7) / 8,
            Kind::Hex { .. } => (count + 1) / 2,
            Kind::Integer { width, .. } | Kind::Real { width, .. } => count * width as usize,
            _ => count,
        }
    }

    /// The items that fit into `bytes` bytes of a record.
    pub fn fitting(self, bytes: usize) -> usize {
        match self {
            Kind::Bits { .. } => bytes * 8,
            Kind::Hex { .. } => bytes * 2,
            Kind::Integer { width, .. } | Kind::Real { width, .. } => bytes / width as usize,
            _ => bytes,
        }
    }

    /// The bytes of the area that one item takes.
    pub fn item_bytes(self) -> usize {
        match self.is_list() {
            true => ITEM_BYTES,
            false => 1,
        }
    }
}

impl Count {
    /// The count as a number; `all` stands for `*`, and no count is 1.
    pub fn or_all(self, all: usize) -> usize {
        match self {
            Count::Absent => 1,
            Count::All => all,
            Count::Number(n) => n as usize,
        }
    }
}

fn kind_of(letter: u8) -> Option<Kind> {
    let integer = |width, big| Kind::Integer {
        width,
        big,
        unsigned: false,
    };
    let real = |width, big| Kind::Real { width, big };
    Some(match letter {
        b'a' => Kind::Text { spaces: false },
        b'A' => Kind::Text { spaces: true },
        b'b' => Kind::Bits { high_first: false },
        b'B' => Kind::Bits { high_first: true },
        b'h' => Kind::Hex { high_first: false },
        b'H' => Kind::Hex { high_first: true },
        b'c' => integer(1, true),
        b's' => integer(2, false),
        b'S' => integer(2, true),
        b'i' => integer(4, false),
        b'I' => integer(4, true),
        b'w' => integer(8, false),
        b'W' => integer(8, true),
        b'r' => real(SINGLE_BYTES, false),
        b'R' => real(SINGLE_BYTES, true),
        b'q' => real(DOUBLE_BYTES, false),
        b'Q' => real(DOUBLE_BYTES, true),
        b'x' => Kind::Skip,
        b'X' => Kind::Back,
        b'@' => Kind::Goto,
        _ => return None,
    })
}

/// Reads `*` or digits from `at` on; gives the count and the place after it.
/// A count that is too large is none.
fn count_at(text: &[u8], mut at: usize) -> (Option<Count>, usize) {
    if text.get(at) == Some(&b'*') {
        return (Some(Count::All), at + 1);
    }
    let begin = at;
    let mut value = 0;
    while at < text.len() && text[at].is_ascii_digit() {
        value = (value * 10 + (text[at] - b'0') as usize).min(COUNT_MAX + 1);
        at += 1;
    }
    let count = match value {
        _ if at == begin => Some(Count::Absent),
        0..=COUNT_MAX => Some(Count::Number(value as u16)),
        _ => None,
    };
    (count, at)
}

/// Fills `fields` from the layout text; gives how many there are and how many of them take a slot.
pub fn parse(text: &[u8], packing: bool, fields: &mut Fields) -> Result<(usize, usize), Answer> {
    let (mut at, mut len, mut takers) = (0, 0, 0);
    while at < text.len() {
        if text[at] == b' ' {
            at += 1;
            continue;
        }
        let place = at;
        let mut kind = kind_of(text[at]).ok_or_else(|| refused(2, place))?;
        at += 1;
        let flagged = text.get(at) == Some(&b'u');
        at += flagged as usize;
        if let Kind::Integer { unsigned, .. } = &mut kind {
            *unsigned = flagged;
        }
        let (count, next) = count_at(text, at);
        let count = count.ok_or_else(|| refused(3, at))?;
        match (kind, count) {
            (Kind::Goto, Count::Absent) => return Err(refused(4, place)),
            (Kind::Skip, Count::All) if packing => return Err(refused(4, place)),
            _ => {}
        }
        fields[len] = Field { kind, count };
        takers += fields[len].takes_slot() as usize;
        len += 1;
        at = next;
    }
    Ok((len, takers))
}
