//! Layouts joined: packing by the texts joined, on the slots joined over one area, gives the results joined.
//!
//! All is asked of the library's own outcomes, not of the twin's.

use crate::call::{numbers, Call, Judge, Runs, Which};
use crate::calls::scattered;
use crate::dice::Dice;
use crate::fixed::packed;
use crate::layouts::{random_arguments, random_spec, spelled, takers, Spec};
use crate::library::by_library;
use crate::limits::{COUNT_MAX, LAYOUT_MAX, RECORD_MAX, REPLY_BYTES, SLOTS_MAX, SLOT_BYTES};
use crate::values::{ints, table, text, uints, Value};

/// A layout's text and the slots that it packs.
#[derive(Clone, Default)]
struct Part {
    text: Vec<u8>,
    slots: Vec<u8>,
}

/// Two parts as one: their texts with nothing between, and their slots.
fn join(first: &Part, second: &Part) -> Part {
    Part {
        text: [&first.text[..], &second.text].concat(),
        slots: [&first.slots[..], &second.slots].concat(),
    }
}

/// The packing of a part.
fn packing_of(part: &Part, area: &[u8], room: usize) -> Call {
    let runs = Runs {
        layout: part.text.clone(),
        slots: part.slots.clone(),
        area: area.to_vec(),
        record: vec![0x6b; room],
        reply: vec![0x6b; REPLY_BYTES],
        ..Runs::default()
    };
    Call::new(Which::Pack, runs)
}

/// The library's result; none if it refuses.
fn result(judge: &mut dyn Judge, part: &Part, area: &[u8]) -> Option<Vec<u8>> {
    let call = packing_of(part, area, RECORD_MAX);
    judge.compare("a part", &call);
    let (after, _) = by_library(&call);
    let length = numbers(&after.reply)[1] as usize;
    (after.returned == 0).then(|| after.record[..length].to_vec())
}

/// Whether what is joined stays within the sizes of a layout, a table and a record.
fn meets_sizes(whole: &Part, bytes: usize) -> bool {
    whole.text.len() <= LAYOUT_MAX
        && whole.slots.len() <= SLOTS_MAX * SLOT_BYTES
        && bytes <= RECORD_MAX
}

/// The two parts joined pack to their results joined, with just the room for these and with more.
fn check_pair(judge: &mut dyn Judge, first: &Part, second: &Part, area: &[u8]) -> bool {
    let results = (result(judge, first, area), result(judge, second, area));
    let joined = match results {
        (Some(one), Some(other)) => [one, other].concat(),
        _ => return false,
    };
    let whole = join(first, second);
    let fits = meets_sizes(&whole, joined.len());
    if fits {
        for room in [joined.len(), RECORD_MAX.min(joined.len() + 9)] {
            let call = packing_of(&whole, area, room);
            judge.expect("two layouts joined", &call, &packed(&call, &joined));
        }
    }
    fits
}

/// Three parts, whichever pair is joined first, and each of them with the empty layout on either side.
fn check_three(judge: &mut dyn Judge, parts: &[Part; 3], area: &[u8]) -> bool {
    let [first, second, third] = parts;
    let pairs = [
        check_pair(judge, first, second, area),
        check_pair(judge, second, third, area),
        check_pair(judge, &join(first, second), third, area),
        check_pair(judge, first, &join(second, third), area),
    ];
    for part in parts {
        for empty in ["", "  "] {
            let empty = Part {
                text: empty.as_bytes().to_vec(),
                ..Part::default()
            };
            check_pair(judge, &empty, part, area);
            check_pair(judge, part, &empty, area);
        }
    }
    pairs.iter().all(|&checked| checked)
}

/// The parts of these texts, each with as many of the slots as `takers` says.
fn parts_of(texts: [&[u8]; 3], takers: [usize; 3], slots: &[u8]) -> [Part; 3] {
    let mut rest = slots;
    [0, 1, 2].map(|nth| {
        let (own, others) = rest.split_at(takers[nth] * SLOT_BYTES);
        rest = others;
        Part {
            text: texts[nth].to_vec(),
            slots: own.to_vec(),
        }
    })
}

/// A cover, a leg and what follows them; stars, flags, counts of 0, and texts that end or begin with spaces.
fn examples(judge: &mut dyn Judge) {
    let cover = [text("Ada"), uints(&[417])];
    let leg = [ints(&[61]), text("11011")];
    let rest = [text("seen"), text("f")];
    for layouts in [
        ["A8Su", "cb5", "a*H"],
        ["A8 Su ", "  c b5", " a3 H"],
        ["A*Su*", "cu*b*", "a*H*"],
        ["A0Su0x3", "c0b0", "xa0Hu3x"],
    ] {
        let (slots, area) = table(&[&cover[..], &leg, &rest].concat(), 0);
        let parts = parts_of(layouts.map(str::as_bytes), [2; 3], &slots);
        let all = check_three(judge, &parts, &area);
        let call = packing_of(&parts[0], &area, RECORD_MAX);
        judge.claim("examples of joined layouts meet the sizes", &call, all);
    }
}

pub fn run(judge: &mut dyn Judge) {
    examples(judge);
}

// Random parts

/// A field that is no `X` or `@` and that packing accepts.
fn random_field(dice: &mut Dice) -> Spec {
    loop {
        let spec = random_spec(dice, true);
        let stars = if spec.takes_slot() { 0 } else { COUNT_MAX + 1 };
        if !b"X@".contains(&spec.letter) && spec.or_all(stars) <= COUNT_MAX {
            return spec;
        }
    }
}

fn random_parts(dice: &mut Dice) -> ([Part; 3], Vec<u8>) {
    let most = dice.pick(&[2, 4, 4, 21]);
    let mut fields = [(); 3].map(|_| {
        let count = dice.below(most + 1);
        (0..count)
            .map(|_| random_field(dice))
            .collect::<Vec<Spec>>()
    });
    let texts = [0, 1, 2].map(|nth| spelled(dice, &mut fields[nth]));
    let arguments = fields
        .iter()
        .flat_map(|specs| random_arguments(dice, specs));
    let values: Vec<Value> = arguments.collect();
    let (slots, area) = scattered(dice, &values);
    let [first, second, third] = &texts;
    let takers = [0, 1, 2].map(|nth| takers(&fields[nth]));
    (parts_of([first, second, third], takers, &slots), area)
}

/// Some pairs and triples.
pub fn round(dice: &mut Dice, judge: &mut dyn Judge) {
    for _ in 0..10 {
        let (parts, area) = random_parts(dice);
        check_three(judge, &parts, &area);
    }
}
