//! Perl pack templates turned into layouts: the groups of the text are written out, then each
//! item is translated.
//!
//! Where a template goes wrong is found by trying: a text can go on as long as one of a few
//! endings makes a whole template of it.

use crate::limits::{
    LAYOUT_MAX, REPLY_BYTES, TEMPLATE_COUNT_MAX, TEMPLATE_DEPTH_MAX, TEMPLATE_MAX,
    TEMPLATE_REPEAT_MAX,
};
use crate::slots::{accepted, refused, replied, Answer};

/// Perl's letters and the types that they become.
const LETTERS: [(u8, &str); 11] = [
    (b'a', "a"),
    (b'b', "b"),
    (b'B', "B"),
    (b'h', "h"),
    (b'H', "H"),
    (b'x', "x"),
    (b'C', "cu"),
    (b'n', "Su"),
    (b'N', "Iu"),
    (b'v', "su"),
    (b'V', "iu"),
];

#[derive(Clone)]
enum Piece {
    /// A type of a layout with its count as written.
    Item(String),
    Open,
    /// The end of a group, and how often the group stands.
    Close(usize),
}

/// The digits at the front of a text, if they are none at all or a number from 1 to `max`.
fn number(text: &str, max: usize) -> Option<&str> {
    let end = text
        .find(|c: char| !c.is_ascii_digit())
        .unwrap_or(text.len());
    let digits = &text[..end];
    let value = digits.parse().unwrap_or(usize::MAX);
    let good = digits.is_empty() || (!digits.starts_with('0') && value <= max);
    good.then_some(digits)
}

/// The pieces of a text, without its spaces; none if something in it is no piece.
fn pieces(mut text: &str) -> Option<Vec<Piece>> {
    let mut pieces = Vec::new();
    while let Some(&byte) = text.as_bytes().first() {
        text = &text[1..];
        let digits = match byte {
            b' ' => "",
            b'(' => {
                pieces.push(Piece::Open);
                ""
            }
            b')' => {
                let digits = number(text, TEMPLATE_REPEAT_MAX)?;
                pieces.push(Piece::Close(digits.parse().unwrap_or(1)));
                digits
            }
            _ => {
                let (_, layout_type) = LETTERS.iter().find(|(letter, _)| *letter == byte)?;
                let digits = number(text, TEMPLATE_COUNT_MAX)?;
                pieces.push(Piece::Item(format!("{layout_type}{digits}")));
                digits
            }
        };
        text = &text[digits.len()..];
    }
    Some(pieces)
}

fn depth(pieces: &[Piece]) -> isize {
    let step = |piece: &Piece| match piece {
        Piece::Open => 1,
        Piece::Close(_) => -1,
        Piece::Item(_) => 0,
    };
    let sums = pieces.iter().scan(0, |sum, piece| {
        *sum += step(piece);
        Some(*sum)
    });
    sums.max().unwrap_or(0)
}

/// Whether the text is a whole template: item by item and group by group it shrinks to one item.
fn whole(text: &str) -> bool {
    let pieces = match pieces(text) {
        Some(pieces) if depth(&pieces) <= TEMPLATE_DEPTH_MAX as isize => pieces,
        _ => return false,
    };
    let sign = |piece: &Piece| match piece {
        Piece::Item(_) => 'i',
        Piece::Open => '(',
        Piece::Close(_) => ')',
    };
    let mut signs: String = pieces.iter().map(sign).collect();
    loop {
        let shorter = signs.replace("ii", "i").replace("(i)", "i");
        if shorter == signs {
            return signs.is_empty() || signs == "i";
        }
        signs = shorter;
    }
}

/// Whether some template begins with the text.
fn begins(text: &str) -> bool {
    let closed = |item: &str, groups: usize| whole(&format!("{text}{item}{}", ")".repeat(groups)));
    (0..=TEMPLATE_DEPTH_MAX).any(|groups| closed("", groups) || closed("a", groups))
}

/// The first byte with which no template begins any more, or the length if there is none.
fn fault(text: &str) -> usize {
    let (mut good, mut bad) = (0, text.len() + 1);
    while good + 1 < bad {
        let middle = (good + bad) / 2;
        if begins(&text[..middle]) {
            good = middle;
        } else {
            bad = middle;
        }
    }
    good
}

/// The items with every group written out; of very many only the first, one more than a layout can hold.
fn written_out(mut pieces: Vec<Piece>) -> Vec<Piece> {
    let is_open = |piece: &Piece| matches!(piece, Piece::Open);
    let repeat = |piece: &Piece| match piece {
        Piece::Close(times) => Some(*times),
        _ => None,
    };
    while let Some(end) = pieces.iter().position(|p| repeat(p).is_some()) {
        let times = repeat(&pieces[end]).unwrap_or(1);
        let start = pieces[..end].iter().rposition(is_open).unwrap_or(0);
        let inside = pieces[start + 1..end].to_vec();
        let mut copies: Vec<Piece> = (0..times).flat_map(|_| inside.clone()).collect();
        copies.truncate(LAYOUT_MAX + 1);
        pieces.splice(start..=end, copies);
    }
    pieces
}

fn layout_of(pieces: &[Piece]) -> String {
    let text = |piece: &Piece| match piece {
        Piece::Item(text) => text.clone(),
        _ => String::new(),
    };
    pieces.iter().map(text).collect()
}

fn translated(template: &[u8], layout: &mut [u8]) -> Result<Answer, Answer> {
    if template.len() > TEMPLATE_MAX {
        return Err(refused(1, 0));
    }
    // Bytes above 127 are no letters: any other byte that is none stands for them.
    let text: String = template
        .iter()
        .map(|&byte| if byte < 128 { byte as char } else { '?' })
        .collect();
    if !whole(&text) {
        return Err(refused(15, fault(&text)));
    }
    let result = layout_of(&written_out(pieces(&text).unwrap_or_default()));
    if result.len() > LAYOUT_MAX || result.len() > layout.len() {
        return Err(refused(11, 0));
    }
    layout[..result.len()].copy_from_slice(result.as_bytes());
    Ok(accepted(result.len(), 0))
}

/// Writes the template as a layout.
pub fn from_perl_call(template: &[u8], layout: &mut [u8], reply: &mut [u8]) -> u32 {
    replied(reply, REPLY_BYTES, || {
        translated(template, layout)
            .unwrap_or_else(|refusal| refusal)
            .numbers()
    })
}
