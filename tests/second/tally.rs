//! Counting what agrees, and showing the first calls that do not.

use crate::call::{by_twin, numbers, After, Call, Judge, Which, CALLS};
use crate::library::by_library;

const SHOWN: usize = 5;
/// How much of a run is shown.
const SHOWN_BYTES: usize = 200;
/// Numbers that come back are below this.
const NUMBERS: usize = 19;

#[derive(Default)]
pub struct Tally {
    pub passed: u64,
    pub failed: u64,
    /// How often each call gave each number.
    pub answers: [[u64; NUMBERS]; CALLS.len()],
    /// Show every call before the library gets it.
    pub trace: bool,
}

/// A run as hex; `ee*40` is the byte `ee` 40 times.
pub fn hex(bytes: &[u8]) -> String {
    let mut parts = Vec::new();
    let mut at = 0;
    while at < bytes.len() && parts.len() < SHOWN_BYTES {
        let same = bytes[at..].iter().take_while(|&&b| b == bytes[at]).count();
        if same > 3 {
            parts.push(format!("{:02x}*{}", bytes[at], same));
            at += same;
        } else {
            parts.push(format!("{:02x}", bytes[at]));
            at += 1;
        }
    }
    if at < bytes.len() {
        parts.push("..".to_string());
    }
    format!("[{}] {}", bytes.len(), parts.join(" "))
}

fn show_call(call: &Call) {
    let null = if call.null {
        ", empty runs are null"
    } else {
        ""
    };
    println!(
        "  {:?}, mark {}, legs {}{}",
        call.which, call.mark, call.legs, null
    );
    for (name, run) in call.runs.clone().lent(call.which) {
        println!("  {:8} {}", name, hex(run));
    }
    for text in [&call.layout, &call.template] {
        println!("  as text  {:?}", String::from_utf8_lossy(text));
    }
    let shown = &call.slots[..call.slots.len().min(SHOWN_BYTES)];
    println!("  slots    {:?}", numbers(shown));
}

fn show_difference(which: Which, expected: &After, got: &After) {
    if expected.returned != got.returned {
        println!(
            "  returned: expected {}, got {}",
            expected.returned, got.returned
        );
    }
    let (mut expected, mut got) = (expected.clone(), got.clone());
    let pairs = expected.runs.lent(which).into_iter();
    for ((name, want), (_, have)) in pairs.zip(got.runs.lent(which)) {
        if want != have {
            println!("  {} expected {}", name, hex(want));
            println!("  {} got      {}", name, hex(have));
        }
    }
}

impl Tally {
    fn count(&mut self, call: &Call, after: &After, good: bool) {
        if good {
            self.passed += 1;
        } else {
            self.failed += 1;
        }
        self.answers[call.which as usize][after.returned as usize] += 1;
    }

    fn shows(&self) -> bool {
        (self.failed as usize) < SHOWN
    }

    fn judge(&mut self, title: &str, call: &Call, expected: &After) {
        if self.trace {
            println!("next: {}", title);
            show_call(call);
        }
        let (got, broken) = by_library(call);
        let good = got == *expected && broken.is_empty();
        if !good && self.shows() {
            println!("FAILED {}", title);
            show_call(call);
            show_difference(call.which, expected, &got);
            for run in broken {
                println!("  guard bytes around {} changed", run);
            }
        }
        self.count(call, expected, good);
    }

    /// Shows how often each number came back; one that never did although it can is a failure.
    pub fn print(&mut self) {
        for which in CALLS {
            let row = self.answers[which as usize];
            let met = (0..NUMBERS).filter(|&n| row[n] > 0);
            let cells: Vec<String> = met.map(|n| format!("{}:{}", n, row[n])).collect();
            println!("{:?} gave {}", which, cells.join(" "));
            for &number in which.numbers() {
                if row[number as usize] == 0 {
                    println!("FAILED: {:?} never gave {}", which, number);
                    self.failed += 1;
                }
            }
        }
        println!("{} passed, {} failed", self.passed, self.failed);
    }
}

impl Judge for Tally {
    /// Compares the library with the twin; gives what the twin left behind.
    fn compare(&mut self, title: &str, call: &Call) -> After {
        let expected = by_twin(call);
        self.judge(title, call, &expected);
        expected
    }

    /// Compares both twin and library with an outcome that is known beforehand.
    fn expect(&mut self, title: &str, call: &Call, expected: &After) {
        let twin = by_twin(call);
        if twin != *expected {
            if self.shows() {
                println!("FAILED by the twin: {}", title);
                show_call(call);
                show_difference(call.which, expected, &twin);
            }
            self.failed += 1;
        }
        self.judge(title, call, expected);
    }

    /// Counts a failure unless something that must hold of the call's outcome does.
    fn claim(&mut self, title: &str, call: &Call, holds: bool) {
        if holds {
            return;
        }
        if self.shows() {
            println!("FAILED: {}", title);
            show_call(call);
        }
        self.failed += 1;
    }
}
