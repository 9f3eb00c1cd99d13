//! Stands for keel's `decode`, which serves R40 alone. No pack has samples, so nothing here is ever called.
#![allow(dead_code)]

use crate::model::{Database, Pgn, Protocol};
use std::fmt;

pub enum Value {
    Unavailable,
    Number { value: f64, decimals: u8 },
    Lookup { value: u64, name: Option<String> },
    Str(String),
    Binary(String),
    OutOfRange,
    Reserved,
    Bits(Vec<String>),
}

impl fmt::Display for Value {
    fn fmt(&self, _: &mut fmt::Formatter) -> fmt::Result {
        unreachable!("no pack has samples")
    }
}

pub struct Decoded {
    pub id: String,
    pub instance: u32,
    pub value: Value,
}

pub fn select_variant<'a>(_: &'a Database, _: u32, _: &[u8], _: Protocol) -> Option<&'a Pgn> {
    unreachable!("no pack has samples")
}

pub fn decode(_: &Database, _: &Pgn, _: &[u8]) -> Result<Vec<Decoded>, String> {
    unreachable!("no pack has samples")
}
