//! Stands for keel's `samples`, which serves R40 alone. No pack has samples, so nothing here is ever called.

pub struct Frame {
    pub standard: bool,
}

pub struct Assembled {
    pub pgn: u32,
    pub data: Vec<u8>,
}

pub fn parse_line(_: &str) -> Result<Frame, String> {
    unreachable!("no pack has samples")
}

pub fn reassemble(_: &[Frame], _: impl Fn(u32) -> bool) -> Result<Vec<Assembled>, String> {
    unreachable!("no pack has samples")
}
