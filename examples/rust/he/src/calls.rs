//! Safe calls of libhe's functions.

use he_sys::*;
use std::fmt;

const FIRST_SIZE: usize = 1024;

/// Why libhe wrote no text, or gave no step.
#[derive(Clone, Debug, PartialEq, Eq)]
pub enum Error {
    /// The first fault of the text: its line, counted from 1, and the words of its kind.
    Fault { line: u64, kind: String },
    /// The record has more than one race.
    NotOneRace,
    /// An allocation failed.
    Memory,
}

impl fmt::Display for Error {
    fn fmt(&self, f: &mut fmt::Formatter<'_>) -> fmt::Result {
        match self {
            Error::Fault { line, kind } => write!(f, "line {line}: {kind}"),
            Error::NotOneRace => f.write_str("more than one race"),
            Error::Memory => f.write_str("out of memory"),
        }
    }
}

impl std::error::Error for Error {}

/// The text that a call writes to a buffer, which is made as large as it needs to be.
pub(crate) fn written(call: impl Fn(*mut u8, usize, *mut he_result) -> u32) -> Result<String, Error> {
    let mut buffer = vec![0; FIRST_SIZE];
    loop {
        let mut result = he_result::default();
        let answer = call(buffer.as_mut_ptr(), buffer.len(), &mut result);
        let length = result.length as usize;
        if answer == HE_BUFFER_TOO_SMALL {
            buffer.resize(length, 0);
            continue;
        }
        judge(answer, result)?;
        buffer.truncate(length);
        return String::from_utf8(buffer).map_err(|_| Error::NotOneRace);
    }
}

pub(crate) fn judge(answer: u32, result: he_result) -> Result<(), Error> {
    match answer {
        HE_DONE => Ok(()),
        HE_FAULT => Err(Error::Fault { line: result.line, kind: kind_text(result.kind) }),
        HE_NO_MEMORY => Err(Error::Memory),
        _ => Err(Error::NotOneRace),
    }
}

fn kind_text(kind: u32) -> String {
    // SAFETY: the buffer is as long as its size says.
    written(|buffer, size, result| unsafe { he_kind_text(kind, buffer, size, result) }).unwrap_or_default()
}

fn text_of(call: he_text_call, text: &[u8]) -> Result<String, Error> {
    // SAFETY: the text and the buffer are as long as their sizes say, and do not overlap.
    written(|buffer, size, result| unsafe { call(text.as_ptr(), text.len(), buffer, size, result) })
}

/// The version of the loaded library: 10000 times the major version, plus 100 times the minor one, plus the patch.
pub fn version() -> u32 {
    // SAFETY: it takes nothing.
    unsafe { he_version() }
}

/// The transcripts of a text's races.
pub fn replay(text: &[u8]) -> Result<String, Error> {
    text_of(he_replay, text)
}

/// The orders of the addresses of a text's races.
pub fn order(text: &[u8]) -> Result<String, Error> {
    text_of(he_order, text)
}

/// A JSON object for each race of a text, which explains it.
pub fn explain(text: &[u8]) -> Result<String, Error> {
    text_of(he_explain, text)
}

/// The number of races and lines of a text.
pub fn check(text: &[u8]) -> Result<String, Error> {
    text_of(he_check, text)
}

/// The record line of these words, as `to example.org 443`.
pub fn record_line(words: &str) -> Result<String, Error> {
    text_of(he_record_line, words.as_bytes())
}
