//! Perl templates: examples with their layouts and faults, and random templates, damaged and cut.

use crate::call::{by_twin, numbers, Call, Judge, Runs, Which};
use crate::calls::damage_reply;
use crate::dice::Dice;
use crate::fixed::{reading, refuses, refuses_replies};
use crate::limits::{
    LAYOUT_MAX, REPLY_BYTES, SLOTS_MAX, TEMPLATE_COUNT_MAX, TEMPLATE_DEPTH_MAX, TEMPLATE_MAX,
    TEMPLATE_REPEAT_MAX,
};

const OLD: u8 = 0x3c;

pub fn translation(template: impl AsRef<[u8]>, room: usize) -> Call {
    let runs = Runs {
        template: template.as_ref().to_vec(),
        layout: vec![OLD; room],
        reply: vec![OLD; REPLY_BYTES],
        ..Runs::default()
    };
    Call::new(Which::FromPerl, runs)
}

/// The template becomes this layout in a buffer that just holds it and in larger ones.
fn becomes(t: &mut dyn Judge, template: &str, layout: &str) {
    for room in [layout.len(), layout.len() + 3, 3 * LAYOUT_MAX] {
        let call = translation(template, room);
        let mut after = call.answered([0, layout.len() as u32, 0]);
        after.layout[..layout.len()].copy_from_slice(layout.as_bytes());
        t.expect("translation", &call, &after);
    }
    if !layout.is_empty() {
        refuses(t, translation(template, layout.len() - 1), 11, 0);
        refuses(t, translation(template, 0), 11, 0);
    }
}

fn fault(t: &mut dyn Judge, template: impl AsRef<[u8]>, place: u32) {
    refuses(t, translation(&template, 0), 15, place);
    refuses(t, translation(&template, LAYOUT_MAX), 15, place);
}

fn examples(t: &mut dyn Judge) {
    becomes(t, "(n2a3)2 C", "Su2a3Su2a3cu");
    becomes(t, "", "");
    becomes(t, "   ", "");
    becomes(t, "abBhHxCnNvV", "abBhHxcuSuIusuiu");
    becomes(t, " a1 b2  B10 ", "a1b2B10");
    becomes(t, "C4096", "cu4096");
    becomes(t, "(a)", "a");
    becomes(t, "(a)1", "a");
    becomes(t, "( a )2", "aa");
    becomes(
        t,
        "(a2(n)3(x(v)2)2)2",
        "a2SuSuSuxsusuxsusua2SuSuSuxsusuxsusu",
    );
    becomes(t, "((((((((C))))))))", "cu");
    becomes(t, "((((((((C)2)2)2)2)2)2))", &"cu".repeat(64));
    becomes(t, "(a)64", &"a".repeat(64));
    becomes(t, "((a)64)4", &"a".repeat(256));
    becomes(t, "(a64(b)2)3(N)2V", "a64bba64bba64bbIuIuiu");
}

fn faults(t: &mut dyn Judge) {
    for (template, place) in [
        ("a0", 1),
        ("a01", 1),
        ("a4097", 4),
        ("a5000", 4),
        ("a10000", 5),
        ("a40960", 5),
        ("x99999", 4),
        ("(a)0", 3),
        ("(a)65", 4),
        ("(a)70", 4),
        ("(a)640", 5),
        ("(a)01", 3),
        ("()", 1),
        ("( )", 2),
        ("(a) 2", 4),
        ("a 2", 2),
        ("2", 0),
        ("a-1", 1),
        ("a*", 1),
        ("(a)*", 3),
        ("*", 0),
        ("A", 0),
        ("A3", 0),
        ("X", 0),
        ("aX", 1),
        ("a)", 1),
        (")", 0),
        ("(a))", 3),
        ("(", 1),
        ("(a", 2),
        ("(a ", 3),
        ("(a3", 3),
        ("((a)2", 5),
        ("( ", 2),
        ("a\t", 1),
        ("a\n3", 1),
        ("a#", 1),
        ("a!", 1),
        ("a[3]", 1),
        ("n/a", 1),
        ("s<", 0),
        ("cu", 0),
        ("(((((((((a", 8),
        ("(((((((((a)))))))))", 8),
        ("a((((((((a(", 10),
        ("((((((((a)))))))) (((((((((a", 26),
    ] {
        fault(t, template, place);
    }
    fault(t, [b'a', 0], 1);
    fault(t, [0xe4], 0);
    fault(t, [b'a', 0xff, b'3'], 1);
    every_byte(t);
}

/// Each byte alone and each after a letter.
fn every_byte(t: &mut dyn Judge) {
    for byte in 0..=255u8 {
        let layout_type = match byte {
            b'a' | b'b' | b'B' | b'h' | b'H' | b'x' => (byte as char).to_string(),
            b'C' => "cu".to_string(),
            b'n' => "Su".to_string(),
            b'N' => "Iu".to_string(),
            b'v' => "su".to_string(),
            b'V' => "iu".to_string(),
            b' ' => String::new(),
            b'(' => {
                fault(t, "(", 1);
                fault(t, "a(", 2);
                continue;
            }
            b'1'..=b'9' => {
                fault(t, [byte], 0);
                let counted = format!("a{}", byte as char);
                becomes(t, &counted, &counted);
                continue;
            }
            _ => {
                fault(t, [byte], 0);
                fault(t, [b'a', byte], 1);
                continue;
            }
        };
        let text = (byte as char).to_string();
        becomes(t, &text, &layout_type);
        becomes(t, &format!("a{text}"), &format!("a{layout_type}"));
    }
}

/// Results that are too long, however long, and sizes of the template.
fn sizes(t: &mut dyn Judge) {
    let max = TEMPLATE_MAX;
    becomes(t, &"a".repeat(max), &"a".repeat(max));
    becomes(t, &" ".repeat(max), "");
    for text in ["a", "A", " ", "("] {
        let call = translation(text.repeat(max + 1), LAYOUT_MAX);
        refuses(t, call, 1, 0);
    }
    fault(t, format!("{}(", " ".repeat(max - 1)), max as u32);
    let mut long = "((((((((a)64)64)64)64)64)64)64)64".to_string();
    for template in [
        "((a)64)4a",
        "((a)64)5",
        "(((a)64)64)64",
        "((C)64)3",
        "(C2)64(C2)64",
        &long,
    ] {
        refuses(t, translation(template, LAYOUT_MAX), 11, 0);
        refuses(t, translation(template, 100_000), 11, 0);
    }
    long.push('q');
    let place = long.len() - 1;
    fault(t, &long, place as u32);
    becomes(t, "(C)64(C)64", &"cu".repeat(128));
    refuses(t, translation("C".repeat(129), LAYOUT_MAX), 11, 0);
    for template in ["a3", "q"] {
        let lengths = [0, 4, REPLY_BYTES - 1, REPLY_BYTES + 1];
        refuses_replies(t, translation(template, 9), &lengths);
    }
}

pub fn run(t: &mut dyn Judge) {
    examples(t);
    faults(t);
    sizes(t);
}

// Random templates

fn spaces(dice: &mut Dice, text: &mut String) {
    if dice.once_in(6) {
        text.push_str(&" ".repeat(dice.between(1, 3)));
    }
}

fn count(dice: &mut Dice, text: &mut String, usual: usize, max: usize) {
    let number = match dice.below(40) {
        0..=14 => return,
        15 => dice.pick(&[max, max - 1]),
        16 => dice.between(1, max),
        _ => dice.between(1, usual),
    };
    text.push_str(&number.to_string());
}

fn item(dice: &mut Dice, text: &mut String, depth: usize) {
    spaces(dice, text);
    if depth < TEMPLATE_DEPTH_MAX && dice.once_in(4) {
        text.push('(');
        sequence(dice, text, depth + 1);
        text.push(')');
        count(dice, text, 3, TEMPLATE_REPEAT_MAX);
    } else {
        text.push(dice.pick(b"abBhHxCnNvV") as char);
        count(dice, text, 9, TEMPLATE_COUNT_MAX);
    }
    spaces(dice, text);
}

fn sequence(dice: &mut Dice, text: &mut String, depth: usize) {
    for _ in 0..dice.between(1, 4) {
        item(dice, text, depth);
    }
}

/// A template that is well formed; few are too long.
pub fn random_template(dice: &mut Dice) -> String {
    let mut text = String::new();
    for _ in 0..dice.pick(&[0, 1, 1, 2, 3, 5]) {
        item(dice, &mut text, 0);
    }
    if dice.once_in(10) {
        let inner = dice.between(1, TEMPLATE_DEPTH_MAX);
        let (open, close) = ("(".repeat(inner), ")".repeat(inner));
        text.push_str(&format!("{open}C{close}"));
    }
    text
}

/// The template with items added so that its layout is about as long as one may be.
fn filled_up(dice: &mut Dice, template: &[u8]) -> Vec<u8> {
    let rest = (LAYOUT_MAX - 2 + dice.below(5)).saturating_sub(layout_length(template));
    let mut text = template.to_vec();
    if rest >= 64 {
        text.extend(format!("((a)64){}", rest / 64).bytes());
    }
    text.extend("a".repeat(rest % 64).bytes());
    text
}

/// The template in some groups more, perhaps too many.
fn wrapped(dice: &mut Dice, template: &[u8]) -> Vec<u8> {
    let groups = dice.between(1, TEMPLATE_DEPTH_MAX + 1);
    let (open, close) = ("(".repeat(groups), ")".repeat(groups));
    [open.as_bytes(), template, close.as_bytes()].concat()
}

fn damage(dice: &mut Dice, template: &mut Vec<u8>) {
    let byte = match dice.below(4) {
        0 => dice.byte(),
        _ => dice.pick(b"aACnXx@*()()0123456789 \0"),
    };
    let at = dice.between(0, template.len());
    match (dice.below(3), at < template.len()) {
        (0, true) => template[at] = byte,
        (1, true) => {
            template.remove(at);
        }
        _ => template.insert(at, byte),
    }
}

/// The length of the layout that the twin writes; some length if it refuses.
fn layout_length(template: &[u8]) -> usize {
    let after = by_twin(&translation(template, LAYOUT_MAX));
    match after.returned {
        0 => numbers(&after.reply)[1] as usize,
        _ => 20,
    }
}

fn random_translation(dice: &mut Dice, template: &[u8]) -> Call {
    let need = layout_length(template);
    let room = match dice.below(10) {
        0 => need.saturating_sub(1),
        1 => dice.below(need + 1),
        2 => need + dice.below(9),
        3 => dice.pick(&[LAYOUT_MAX, LAYOUT_MAX + 1, 5000]),
        _ => need,
    };
    let mut call = translation(template, 0);
    call.layout = dice.bytes(room);
    call.reply = dice.bytes(REPLY_BYTES);
    call.null = dice.once_in(2);
    if dice.once_in(40) {
        damage_reply(dice, &mut call.reply);
    }
    call
}

/// Translates; an accepted layout must be one that reads without fault.
fn compare(dice: &mut Dice, judge: &mut dyn Judge, title: &str, template: &[u8]) {
    let call = random_translation(dice, template);
    let after = judge.compare(title, &call);
    if after.returned != 0 {
        return;
    }
    let length = numbers(&after.reply)[1] as usize;
    let read = by_twin(&reading(&after.layout[..length], "", SLOTS_MAX));
    let good = [0, 5].contains(&read.returned);
    judge.claim("a translated template is a layout", &call, good);
}

pub fn round(dice: &mut Dice, judge: &mut dyn Judge) {
    for _ in 0..10 {
        let template = random_template(dice).into_bytes();
        compare(dice, judge, "random template", &template);
        let full = filled_up(dice, &template);
        compare(dice, judge, "template of a full layout", &full);
        let deep = wrapped(dice, &template);
        compare(dice, judge, "template in groups", &deep);
        for _ in 0..4 {
            let mut wrong = template.clone();
            damage(dice, &mut wrong);
            compare(dice, judge, "damaged template", &wrong);
        }
        let step = 1 + template.len() / 20;
        for cut in (0..template.len()).step_by(step) {
            compare(dice, judge, "cut template", &template[..cut]);
        }
    }
}
