//! Values of slots, and tables made of them.

use crate::call::{numbers, words};
use crate::limits::{ITEM_BYTES, NO_POSITION, REAL, SLOT_NUMBERS};
use crate::slots::integer;

#[derive(Clone, PartialEq, Eq, Debug)]
pub enum Value {
    Unset,
    Text(Vec<u8>),
    Signed(Vec<i64>),
    Unsigned(Vec<u64>),
    /// Doubles, by their bits.
    Real(Vec<u64>),
}

impl Value {
    pub fn kind(&self) -> u32 {
        match self {
            Value::Unset => 0,
            Value::Text(_) => 1,
            Value::Signed(_) => 2,
            Value::Unsigned(_) => 3,
            Value::Real(_) => REAL,
        }
    }

    pub fn items(&self) -> usize {
        match self {
            Value::Unset => 0,
            Value::Text(bytes) => bytes.len(),
            Value::Signed(items) => items.len(),
            Value::Unsigned(items) | Value::Real(items) => items.len(),
        }
    }

    pub fn bytes(&self) -> Vec<u8> {
        match self {
            Value::Unset => Vec::new(),
            Value::Text(bytes) => bytes.clone(),
            Value::Signed(items) => items.iter().flat_map(|n| n.to_be_bytes()).collect(),
            Value::Unsigned(items) | Value::Real(items) => {
                items.iter().flat_map(|n| n.to_be_bytes()).collect()
            }
        }
    }
}

pub fn text(bytes: impl AsRef<[u8]>) -> Value {
    Value::Text(bytes.as_ref().to_vec())
}

pub fn ints(items: &[i64]) -> Value {
    Value::Signed(items.to_vec())
}

pub fn uints(items: &[u64]) -> Value {
    Value::Unsigned(items.to_vec())
}

pub fn reals(items: &[f64]) -> Value {
    Value::Real(items.iter().map(|x| x.to_bits()).collect())
}

/// The bytes of a slot whose field begins at the position.
pub fn slot_from(kind: u32, start: usize, length: usize, position: u32) -> Vec<u8> {
    words(&[kind, start as u32, length as u32, position])
}

/// The bytes of a slot that is not set from a record.
pub fn slot(kind: u32, start: usize, length: usize) -> Vec<u8> {
    slot_from(kind, start, length, NO_POSITION)
}

/// Slots and area bytes of values that lie one after another from `start` on and have no position.
/// A value that is not set has start 0.
pub fn table(values: &[Value], start: usize) -> (Vec<u8>, Vec<u8>) {
    let (mut slots, mut area) = (Vec::new(), Vec::new());
    for value in values {
        let place = match value {
            Value::Unset => 0,
            _ => start + area.len(),
        };
        slots.extend(slot(value.kind(), place, value.items()));
        area.extend(value.bytes());
    }
    (slots, area)
}

/// The values that the slots show; each is not set or lies inside the area.
pub fn shown(slots: &[u8], area: &[u8]) -> Vec<Value> {
    let value = |slot: &[u32]| {
        let (length, rest) = (
            slot[2] as usize,
            &area[slot[1].min(area.len() as u32) as usize..],
        );
        let items = rest.chunks_exact(ITEM_BYTES).take(length).map(integer);
        match slot[0] {
            0 => Value::Unset,
            1 => text(&rest[..length]),
            2 => Value::Signed(items.map(|n| n as i64).collect()),
            3 => Value::Unsigned(items.collect()),
            _ => Value::Real(items.collect()),
        }
    };
    numbers(slots)
        .chunks_exact(SLOT_NUMBERS)
        .map(value)
        .collect()
}
