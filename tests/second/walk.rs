//! Where the fields of a reading begin, by the layout's text and the record's length alone.

/// One field that a reading came to.
pub struct Step {
    pub letter: u8,
    /// Where it begins in the record.
    pub at: usize,
    /// Whether the record is too short for it.
    pub short: bool,
}

/// The bits of a record that one item takes, for the types that have a value.
fn item_bits(letter: u8) -> Option<usize> {
    match letter {
        b'b' | b'B' => Some(1),
        b'h' | b'H' => Some(4),
        b'a' | b'A' | b'c' => Some(8),
        b's' | b'S' => Some(16),
        b'i' | b'I' | b'r' | b'R' => Some(32),
        b'w' | b'W' | b'q' | b'Q' => Some(64),
        _ => None,
    }
}

/// The count at the front of a text, none for a star, and what follows it.
fn count(text: &str) -> (Option<usize>, &str) {
    let rest = text.trim_start_matches(|c: char| c.is_ascii_digit());
    let digits = text[..text.len() - rest.len()].trim_start_matches('0');
    match text.strip_prefix('*') {
        Some(rest) => (None, rest),
        None if rest.len() == text.len() => (Some(1), rest),
        None => (Some(digits.parse().unwrap_or(0)), rest),
    }
}

/// The fields that a reading of `end` bytes comes to, by a layout that it accepts.
pub fn walk(layout: &[u8], end: usize) -> Vec<Step> {
    let text = String::from_utf8_lossy(layout);
    let (mut rest, mut at, mut steps) = (text.trim_start(), 0, Vec::new());
    while let Some(letter) = rest.bytes().next() {
        let (number, next) = count(rest[1..].strip_prefix('u').unwrap_or(&rest[1..]));
        rest = next.trim_start();
        let left = end - at;
        let filled = item_bits(letter).map(|bits| {
            let items = number.unwrap_or(8 * left / bits);
            (items * bits + 7) / 8
        });
        let short = filled.map_or(false, |bytes| bytes > left);
        steps.push(Step { letter, at, short });
        if short {
            break;
        }
        at = match (letter, number) {
            (b'X', Some(n)) => at.saturating_sub(n),
            (b'X', None) => 0,
            (b'@', Some(n)) => n.min(end),
            (b'@' | b'x', None) => end,
            _ => (at + filled.or(number).unwrap_or(0)).min(end),
        };
    }
    steps
}

/// Where the fields begin whose slots are set.
pub fn positions(layout: &[u8], end: usize) -> Vec<usize> {
    let steps = walk(layout, end);
    let set = steps.iter().filter(|step| !step.short);
    set.filter(|step| item_bits(step.letter).is_some())
        .map(|step| step.at)
        .collect()
}
