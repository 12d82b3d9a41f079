//! Compares translated templates with a real perl: `perl ANSWER.PL [templates] [seed]`. Without a seed it takes a fixed
//! one and then a fresh one, as many templates each.
//!
//! Perl packs by the template, the library by the layout that the template becomes; then both read.

#[allow(dead_code)]
#[path = "../second/call.rs"]
mod call;
#[allow(dead_code)]
#[path = "../second/calls.rs"]
mod calls;
#[path = "../second/compare.rs"]
mod compare;
#[path = "../second/describe.rs"]
mod describe;
#[path = "../second/dice.rs"]
mod dice;
#[allow(dead_code)]
#[path = "../second/evolution.rs"]
mod evolution;
#[path = "../second/fields.rs"]
mod fields;
#[allow(dead_code)]
#[path = "../second/fixed.rs"]
mod fixed;
#[allow(dead_code)]
#[path = "../second/layouts.rs"]
mod layouts;
#[path = "../second/library.rs"]
mod library;
#[path = "../second/limits.rs"]
mod limits;
#[path = "../second/mean.rs"]
mod mean;
#[path = "../second/nearest.rs"]
mod nearest;
#[path = "../second/packer.rs"]
mod packer;
#[path = "../second/peer.rs"]
mod peer;
#[path = "../second/perl.rs"]
mod perl;
#[allow(dead_code)]
#[path = "../second/perl_calls.rs"]
mod perl_calls;
#[path = "../second/promises.rs"]
mod promises;
#[path = "../second/reader.rs"]
mod reader;
#[path = "../second/reals.rs"]
mod reals;
#[path = "../second/rescue.rs"]
mod rescue;
#[path = "../second/rows.rs"]
mod rows;
#[path = "../second/sheet.rs"]
mod sheet;
#[path = "../second/slots.rs"]
mod slots;
#[allow(dead_code)]
#[path = "../second/values.rs"]
mod values;
#[path = "../second/walk.rs"]
mod walk;

use call::numbers;
use dice::Dice;
use layouts::{random_arguments, takers, Count, Spec};
use library::by_library;
use limits::{AREA_MAX, ITEM_BYTES, LAYOUT_MAX, RECORD_MAX, SLOTS_MAX, SLOT_NUMBERS};
use peer::{answers, bytes_of, hex, integers, value};
use std::env;
use std::process::exit;
use values::Value;

const TEMPLATES: u64 = 2000;
const SHOWN: usize = 5;

/// What perl must answer.
enum Due {
    Record(Vec<u8>),
    /// A record that is longer than ours may be.
    LongRecord,
    Values(Vec<Vec<u8>>),
    /// Nothing agrees with a refusal of what is well formed.
    Refused,
}

/// A line for perl, and what must come back.
struct Question {
    line: String,
    template: String,
    layout: String,
    due: Due,
}

/// The fields of a layout that came from a template: no spaces, no `*`.
fn specs_of(layout: &str) -> Vec<Spec> {
    let mut specs: Vec<Spec> = Vec::new();
    for byte in layout.bytes() {
        match (byte, specs.last_mut()) {
            (b'u', Some(spec)) => spec.flag = true,
            (b'0'..=b'9', Some(spec)) => {
                let digit = (byte - b'0') as usize;
                let before = if spec.count == Count::Absent {
                    0
                } else {
                    spec.or_all(0)
                };
                spec.count = Count::Number(10 * before + digit);
            }
            _ => specs.push(Spec {
                letter: byte,
                flag: false,
                count: Count::Absent,
            }),
        }
    }
    specs
}

/// The bytes that the fields fill.
fn filled(specs: &[Spec]) -> usize {
    let size = |spec: &Spec| match (spec.letter, spec.or_all(0)) {
        (b'b' | b'B', count) => (count + 7) / 8,
        (b'h' | b'H', count) => (count + 1) / 2,
        (_, count) => count * spec.width().unwrap_or(1),
    };
    specs.iter().map(size).sum()
}

/// The words for perl: a string is one argument, a list is as many as its count says.
fn words(specs: &[Spec], arguments: &[Value]) -> Vec<String> {
    let takers = specs.iter().filter(|s| s.takes_slot());
    let words = |(spec, value): (&Spec, &Value)| -> Vec<String> {
        let count = spec.or_all(0);
        match value {
            Value::Signed(items) => items.iter().take(count).map(i64::to_string).collect(),
            Value::Unsigned(items) => items.iter().take(count).map(u64::to_string).collect(),
            _ => vec![hex(&value.bytes())],
        }
    };
    takers.zip(arguments).flat_map(words).collect()
}

/// Packs by the layout; gives the question that asks perl to pack by the template.
fn packing(template: &str, layout: &str, specs: &[Spec], arguments: &[Value]) -> Option<Question> {
    let call = fixed::packing(layout, arguments);
    if call.area.len() > AREA_MAX {
        return None;
    }
    let (after, _) = by_library(&call);
    let due = match numbers(&after.reply)[..] {
        [0, length, _] => Due::Record(after.record[..length as usize].to_vec()),
        [11, ..] => Due::LongRecord,
        _ => Due::Refused,
    };
    let arguments = words(specs, arguments).join(" ");
    Some(Question {
        line: format!("pack {} {}\n", hex(template.as_bytes()), arguments),
        template: template.to_string(),
        layout: layout.to_string(),
        due,
    })
}

/// Reads by the layout; gives the question that asks perl to unpack by the template.
fn reading(template: &str, layout: &str, record: &[u8], slots: usize) -> Question {
    let mut call = fixed::reading(layout, record, slots);
    // No byte of a record takes more than eight of the area.
    let room = call.mark + ITEM_BYTES * record.len();
    call.area.resize(room, 0);
    let (after, _) = by_library(&call);
    let mut due = Vec::new();
    for slot in numbers(&after.slots).chunks_exact(SLOT_NUMBERS) {
        let bytes = value(slot, &after.area).unwrap_or(&[]);
        if slot[0] == 1 {
            due.push(bytes.to_vec());
        } else {
            let items = integers(slot[0], bytes);
            due.extend(items.iter().map(|n| n.to_string().into_bytes()));
        }
    }
    Question {
        line: format!("unpack {} {}\n", hex(template.as_bytes()), hex(record)),
        template: template.to_string(),
        layout: layout.to_string(),
        due: Due::Values(due),
    }
}

/// The layout that the library makes of a template, or the number of its refusal.
fn translated(template: &str) -> Result<String, u32> {
    let (after, _) = by_library(&perl_calls::translation(template, LAYOUT_MAX));
    let length = numbers(&after.reply)[1] as usize;
    match after.returned {
        0 => Ok(String::from_utf8_lossy(&after.layout[..length]).to_string()),
        number => Err(number),
    }
}

/// A template that was refused although it is not too long.
fn refused(template: &str) -> Question {
    Question {
        line: format!("pack {}\n", hex(template.as_bytes())),
        template: template.to_string(),
        layout: String::new(),
        due: Due::Refused,
    }
}

/// A packing and a reading by a random template; perl reads short records otherwise, so they are whole.
fn asked(dice: &mut Dice) -> Vec<Question> {
    let template = perl_calls::random_template(dice);
    let layout = match translated(&template) {
        Ok(layout) => layout,
        Err(1 | 11) => return Vec::new(),
        Err(_) => return vec![refused(&template)],
    };
    let specs = specs_of(&layout);
    let slots = takers(&specs);
    if slots > SLOTS_MAX {
        return Vec::new();
    }
    let arguments = random_arguments(dice, &specs);
    let mut questions: Vec<Question> = packing(&template, &layout, &specs, &arguments)
        .into_iter()
        .collect();
    let length = filled(&specs);
    if length <= RECORD_MAX {
        let rest = dice.below(4).min(RECORD_MAX - length);
        let record = dice.bytes(length + rest);
        questions.push(reading(&template, &layout, &record, slots));
    }
    questions
}

fn agrees(question: &Question, answer: &str) -> bool {
    let words: Vec<&str> = answer.split(' ').collect();
    match (&question.due, &words[..]) {
        (Due::Record(record), ["ok", given]) => bytes_of(given) == *record,
        (Due::LongRecord, ["ok", given]) => bytes_of(given).len() > RECORD_MAX,
        (Due::Values(values), ["ok", given @ ..]) => {
            given.len() == values.len() && given.iter().zip(values).all(|(g, v)| bytes_of(g) == *v)
        }
        _ => false,
    }
}

fn show(question: &Question, answer: &str) {
    println!("FAILED {:?}", question.template);
    println!("  layout   {:?}", question.layout);
    println!("  asked    {}", question.line.trim_end());
    println!("  perl     {}", answer);
    match &question.due {
        Due::Record(record) => println!("  library  {}", hex(record)),
        Due::LongRecord => println!("  library  has no room for the record"),
        Due::Values(values) => {
            let values: Vec<String> = values.iter().map(|v| hex(v)).collect();
            println!("  library  {}", values.join(" "));
        }
        Due::Refused => println!("  library  refuses"),
    }
}

fn number_argument(place: usize, otherwise: u64) -> u64 {
    env::args()
        .nth(place)
        .map_or(otherwise, |text| text.parse().unwrap_or(otherwise))
}

fn main() {
    let script = env::args().nth(1).unwrap_or_else(|| {
        eprintln!("usage: perl ANSWER.PL [templates] [seed]");
        exit(2)
    });
    let templates = number_argument(2, TEMPLATES);
    let seeds = dice::seeds(env::args().nth(3));
    let mut questions: Vec<Question> = Vec::new();
    for &seed in &seeds {
        println!("seed {}, {} templates", seed, templates);
        let mut dice = Dice::new(seed);
        questions.extend((0..templates).flat_map(|_| asked(&mut dice)));
    }
    let lines = questions.iter().map(|q| q.line.clone()).collect();
    let perl = env::var("PERL").unwrap_or_else(|_| "perl".to_string());
    let replies = answers(&perl, &script, lines);
    println!("perl {}", replies[0]);
    let mut failed = 0;
    for (nth, question) in questions.iter().enumerate() {
        let answer = replies.get(nth + 1).map_or("no answer", |r| r);
        if !agrees(question, answer) {
            if failed < SHOWN {
                show(question, answer);
            }
            failed += 1;
        }
    }
    let passed = questions.len() - failed;
    if questions.len() < seeds.len() * templates as usize {
        println!("FAILED: too few of the templates became layouts");
        failed += 1;
    }
    println!("{} passed, {} failed", passed, failed);
    exit((failed > 0) as i32);
}
