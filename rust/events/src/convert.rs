//! Whole days, both ways.

use std::error::Error;
use std::fmt;
use std::iter;

use second::event;

use crate::format::format;
use crate::parse::parse;

/// A line that cannot be read.
#[derive(Clone, Debug, PartialEq, Eq)]
pub struct Wrong {
    /// From 1.
    pub line: usize,
    pub reason: String,
}

impl fmt::Display for Wrong {
    fn fmt(&self, f: &mut fmt::Formatter<'_>) -> fmt::Result {
        write!(f, "line {}: {}", self.line, self.reason)
    }
}

impl Error for Wrong {}

/// The text that these bytes are.
pub fn text(bytes: &[u8]) -> Result<&str, Wrong> {
    str::from_utf8(bytes).map_err(|error| {
        let valid = &bytes[..error.valid_up_to()];
        Wrong {
            line: 1 + valid.iter().filter(|&&byte| byte == b'\n').count(),
            reason: "not UTF-8 text".into(),
        }
    })
}

/// The bytes of all lines, one after another.
pub fn encode(text: &str) -> Result<Vec<u8>, Wrong> {
    encode_each(text).map(|events| events.concat())
}

/// The bytes of each line that is not blank and not a comment.
pub fn encode_each(text: &str) -> Result<Vec<Vec<u8>>, Wrong> {
    let numbered = text.lines().zip(1..);
    numbered
        .filter_map(|(text, line)| {
            parse(text)
                .map_err(|reason| Wrong { line, reason })
                .transpose()
        })
        .collect()
}

/// An event of an unknown kind, or one cut short.
#[derive(Clone, Debug, PartialEq, Eq)]
pub struct Broken {
    /// Where it begins, from 0.
    pub byte: usize,
    pub reason: String,
}

impl fmt::Display for Broken {
    fn fmt(&self, f: &mut fmt::Formatter<'_>) -> fmt::Result {
        write!(f, "byte {}: {}", self.byte, self.reason)
    }
}

impl Error for Broken {}

/// The text of events that stand one after another, a line for each.
pub fn decode(bytes: &[u8]) -> Result<String, Broken> {
    lines(bytes).map(|line| Ok(line? + "\n")).collect()
}

/// The line of one event. Bytes that are no whole event of a known kind are
/// given as they are.
pub fn line(event: &[u8]) -> String {
    match event::decode(event) {
        Ok(event) => format(&event),
        Err(_) => {
            let bytes = event.iter().map(|byte| format!(" {byte:02x}"));
            format!("bytes{}", bytes.collect::<String>())
        }
    }
}

/// Events that stand one after another, as the gate's own reader takes them:
/// each as long as its kind says, but an unknown kind, or an event cut short,
/// takes all bytes that are left.
pub fn split(bytes: &[u8]) -> impl Iterator<Item = &[u8]> {
    let mut rest = bytes;
    iter::from_fn(move || {
        let kind = *rest.first()?;
        let length = event::length(kind).unwrap_or(rest.len()).min(rest.len());
        let (event, after) = rest.split_at(length);
        rest = after;
        Some(event)
    })
}

/// The lines of events that stand one after another. A broken event is the
/// last item.
pub fn lines(bytes: &[u8]) -> impl Iterator<Item = Result<String, Broken>> {
    let mut read = 0;
    split(bytes).map(move |event| {
        let byte = read;
        read += event.len();
        let (kind, left) = (event[0], event.len());
        let reason = match event::length(kind) {
            Some(length) if length == left => return Ok(line(event)),
            Some(length) => {
                format!("an event of kind {kind} takes {length} bytes, and {left} are left")
            }
            None => format!("kind {kind} is unknown"),
        };
        Err(Broken { byte, reason })
    })
}
