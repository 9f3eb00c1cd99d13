//! The differential harness: an independent Rust reading of document 01 beside the Rust rule checker (the oracle)
//! and the Rattle library. The modules follow the paper: the pack, the findings, the walk, the calls.

pub mod value;

pub mod encode;
pub mod reader;

pub mod counts;
pub mod finding;
pub mod matches;
pub mod rules;
pub mod spns;
pub mod words;

pub mod quick_walk;
pub mod walk;

pub mod calls;
pub mod library;
pub mod oracle;
pub mod report;

pub mod damage;
pub mod generate;
pub mod rng;
pub mod table;

pub mod bench;
pub mod diff;
pub mod record;
pub mod show;
pub mod text;

// The oracle's own files, unchanged: `check`, `model`, `derive`, `charset`.
#[cfg(keel)]
include!(concat!(env!("OUT_DIR"), "/keel.rs"));

// `check.rs` names these for R40 only, and no pack carries samples.
#[cfg(keel)]
#[path = "stubs/decode.rs"]
mod decode;
#[cfg(keel)]
#[path = "stubs/samples.rs"]
mod samples;
