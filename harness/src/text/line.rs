//! The words of a line of the text form, read and written. A word is bytes: a quoted one may have any, by escapes.

use crate::value::{Float, Text};
use std::fmt::Write;
use std::str::FromStr;

pub type Answer<T> = Result<T, String>;

/// What a word says, as an error shows it.
pub fn lossy(word: &[u8]) -> String {
    String::from_utf8_lossy(word).into_owned()
}

/// The words of a line that are left.
pub struct Line {
    words: std::vec::IntoIter<Text>,
}

impl Line {
    pub fn of(line: &str) -> Answer<Line> {
        let mut words = Vec::new();
        let mut rest = line.trim_start();
        while !rest.is_empty() && !rest.starts_with('#') {
            let (word, after) = match rest.strip_prefix('"') {
                Some(quoted) => quoted_word(quoted)?,
                None => {
                    let (word, after) = rest.split_at(rest.find(char::is_whitespace).unwrap_or(rest.len()));
                    (word.as_bytes().to_vec(), after)
                }
            };
            words.push(word);
            rest = after.trim_start();
        }
        Ok(Line { words: words.into_iter() })
    }

    pub fn text(&mut self) -> Answer<Text> {
        self.words.next().ok_or("the line ends too early".into())
    }

    pub fn number<T: FromStr>(&mut self) -> Answer<T> {
        let word = self.text()?;
        let parsed = std::str::from_utf8(&word).ok().and_then(|word| word.parse().ok());
        parsed.ok_or_else(|| format!("{} is no number that fits", lossy(&word)))
    }

    /// A decimal number, or `0x` and the pattern's 16 digits.
    pub fn float(&mut self) -> Answer<Float> {
        let word = self.text()?;
        let parsed = std::str::from_utf8(&word).ok().and_then(|word| match word.strip_prefix("0x") {
            Some(digits) if digits.len() == 16 && digits.bytes().all(|digit| digit.is_ascii_hexdigit()) => {
                u64::from_str_radix(digits, 16).ok().map(Float)
            }
            Some(_) => None,
            None => word.parse().ok().map(Float::of),
        });
        parsed.ok_or_else(|| format!("{} is no float", lossy(&word)))
    }

    /// One of a few names.
    pub fn one_of<T: Copy>(&mut self, all: &[T], name: impl Fn(T) -> &'static str) -> Answer<T> {
        let word = self.text()?;
        let found = all.iter().copied().find(|one| name(*one).as_bytes() == word);
        found.ok_or_else(|| format!("{} is none of its names", lossy(&word)))
    }

    /// The next option's name, if one is left.
    pub fn option(&mut self) -> Option<String> {
        self.words.next().map(|word| lossy(&word))
    }

    /// For a line that has no options.
    pub fn end(&mut self) -> Answer<()> {
        self.option().map_or(Ok(()), |more| unknown(&more))
    }
}

pub fn unknown<T>(option: &str) -> Answer<T> {
    Err(format!("{option} is not known here"))
}

/// The bytes of a quoted word, and what stands after its second quote.
fn quoted_word(quoted: &str) -> Answer<(Text, &str)> {
    let mut word = Text::new();
    let mut rest = quoted;
    loop {
        let end = rest.find(['"', '\\']).ok_or("a quote is not closed")?;
        word.extend(rest[..end].bytes());
        let escape = rest[end..].strip_prefix('\\');
        rest = match escape {
            None => {
                let after = &rest[end + 1..];
                let apart = after.is_empty() || after.starts_with(char::is_whitespace);
                return if apart { Ok((word, after)) } else { Err("a blank is missing after a quote".into()) };
            }
            Some(escaped) => match escaped.bytes().next() {
                Some(byte @ (b'"' | b'\\')) => {
                    word.push(byte);
                    &escaped[1..]
                }
                _ => {
                    let digits = escaped.strip_prefix('x').and_then(|digits| digits.get(..2));
                    let digits = digits.filter(|digits| digits.bytes().all(|digit| digit.is_ascii_hexdigit()));
                    let byte = digits.and_then(|digits| u8::from_str_radix(digits, 16).ok());
                    word.push(byte.ok_or("an escape is none of \\\" \\\\ \\xNN")?);
                    &escaped[3..]
                }
            },
        };
    }
}

/// A word that is read as these bytes.
pub fn word(text: &[u8]) -> String {
    let plain = |byte: &u8| byte.is_ascii_graphic() && !matches!(byte, b'"' | b'\\');
    if !text.is_empty() && text[0] != b'#' && text.iter().all(plain) {
        return lossy(text);
    }
    let mut out = String::from("\"");
    for chunk in text.utf8_chunks() {
        for one in chunk.valid().chars() {
            match one {
                '"' | '\\' => out.extend(['\\', one]),
                _ if one.is_control() => escape(&mut out, one.encode_utf8(&mut [0; 4]).as_bytes()),
                _ => out.push(one),
            }
        }
        escape(&mut out, chunk.invalid());
    }
    out.push('"');
    out
}

fn escape(out: &mut String, bytes: &[u8]) {
    for byte in bytes {
        // Writing to a String cannot fail.
        let _ = write!(out, "\\x{byte:02x}");
    }
}

/// A word that is read as this float; a NaN is written by its pattern, because there are many.
pub fn float(float: Float) -> String {
    let value = float.get();
    if value.is_nan() { format!("0x{:016x}", float.0) } else { format!("{value:?}") }
}
