//! Asking another program the same: bytes as hex, values of slots, and lines there and back.

use crate::limits::{ITEM_BYTES, KIND_MAX};
use std::io::{BufRead, BufReader, Write};
use std::process::{exit, Command, Stdio};
use std::thread;

/// Bytes as hex after a colon.
pub fn hex(bytes: &[u8]) -> String {
    let digits: String = bytes.iter().map(|b| format!("{:02x}", b)).collect();
    format!(":{}", digits)
}

pub fn bytes_of(word: &str) -> Vec<u8> {
    let pair = |at| u8::from_str_radix(&word[at..at + 2], 16).unwrap_or(0);
    (1..word.len()).step_by(2).map(pair).collect()
}

/// The integers of a slot's value.
pub fn integers(kind: u32, bytes: &[u8]) -> Vec<i128> {
    let item = |b: &[u8]| {
        let mut eight = [0; ITEM_BYTES];
        eight.copy_from_slice(b);
        match kind {
            2 => i64::from_be_bytes(eight) as i128,
            _ => u64::from_be_bytes(eight) as i128,
        }
    };
    bytes.chunks_exact(ITEM_BYTES).map(item).collect()
}

/// The bytes of a slot's value, if it is one.
pub fn value<'a>(slot: &[u32], area: &'a [u8]) -> Option<&'a [u8]> {
    let unit = match slot[0] {
        1 => 1,
        2..=KIND_MAX => ITEM_BYTES,
        _ => return None,
    };
    let start = slot[1] as usize;
    area.get(start..start + slot[2] as usize * unit)
}

/// The answers of a program that runs the script, its version first, then one for each line.
pub fn answers(program: &str, script: &str, lines: Vec<String>) -> Vec<String> {
    let started = Command::new(program)
        .arg(script)
        .stdin(Stdio::piped())
        .stdout(Stdio::piped())
        .spawn();
    let mut child = started.unwrap_or_else(|error| {
        eprintln!("{}: {}", program, error);
        exit(2)
    });
    let input = child.stdin.take();
    let writer = thread::spawn(move || {
        if let Some(mut input) = input {
            // A reader that stops early shows up as missing answers.
            let _ = input.write_all(lines.concat().as_bytes());
        }
    });
    let output = child.stdout.take();
    let mut replies: Vec<String> = output.map_or(Vec::new(), |o| {
        BufReader::new(o).lines().map_while(Result::ok).collect()
    });
    let _ = writer.join();
    let _ = child.wait();
    if replies.is_empty() {
        replies.push("gave nothing".to_string());
    }
    replies
}
