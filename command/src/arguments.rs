//! Options and operands of a command, by its table of options.

use std::ffi::{OsStr, OsString};
use std::os::unix::ffi::{OsStrExt, OsStringExt};

use crate::{files, Fault};

/// An option: its long name without the hyphens, its letter, and what stands for its value, if it takes
/// one.
pub struct Flag {
    pub long: &'static str,
    pub letter: Option<char>,
    pub value: Option<&'static str>,
    pub help: &'static str,
}

/// What was given to a command.
#[derive(Default)]
pub struct Given {
    flags: Vec<(&'static str, OsString)>,
    pub operands: Vec<OsString>,
}

impl Given {
    /// Whether an option was given.
    pub fn has(&self, long: &str) -> bool {
        self.value(long).is_some()
    }

    /// The value of an option; the last one, where it was given more than once.
    pub fn value(&self, long: &str) -> Option<&OsStr> {
        self.flags.iter().rev().find(|(name, _)| *name == long).map(|(_, value)| value.as_os_str())
    }

    /// The value of an option as a number.
    pub fn number(&self, long: &str) -> Result<Option<usize>, Fault> {
        let Some(value) = self.value(long) else { return Ok(None) };
        match value.to_str().and_then(|text| text.parse().ok()) {
            Some(number) => Ok(Some(number)),
            None => Err(Fault::failed(format!("--{long} {}: not a number", files::shown(value)))),
        }
    }
}

/// Reads words by a table of options. Operands may stand before options and after them; `--` ends the
/// options, and `-` is an operand.
pub fn read(words: &[OsString], table: &[&'static Flag]) -> Result<Given, Fault> {
    let mut given = Given::default();
    let mut words = words.iter();
    while let Some(word) = words.next() {
        let bytes = word.as_bytes();
        if bytes == b"--" {
            given.operands.extend(words.by_ref().cloned());
        } else if let Some(long) = bytes.strip_prefix(b"--") {
            let (name, value) = match long.iter().position(|&byte| byte == b'=') {
                Some(at) => (&long[..at], Some(&long[at + 1..])),
                None => (long, None),
            };
            let flag = table.iter().find(|flag| flag.long.as_bytes() == name);
            let flag = flag.ok_or_else(|| unknown(word))?;
            let value = match (flag.value, value) {
                (None, None) => OsString::new(),
                (None, Some(_)) => {
                    return Err(Fault::failed(format!("--{} takes no value", flag.long)))
                }
                (Some(_), Some(value)) => OsString::from_vec(value.to_vec()),
                (Some(of), None) => next_value(flag, of, words.next())?,
            };
            given.flags.push((flag.long, value));
        } else if bytes.len() > 1 && bytes[0] == b'-' {
            read_letters(word, &bytes[1..], table, &mut words, &mut given)?;
        } else {
            given.operands.push(word.clone());
        }
    }
    Ok(given)
}

/// Letters behind one hyphen: all but the last take no value, and what follows one that does is its
/// value.
fn read_letters<'w>(
    word: &OsStr,
    mut letters: &[u8],
    table: &[&'static Flag],
    words: &mut impl Iterator<Item = &'w OsString>,
    given: &mut Given,
) -> Result<(), Fault> {
    while let Some((&letter, rest)) = letters.split_first() {
        let flag = table.iter().find(|flag| flag.letter == Some(char::from(letter)));
        let flag = flag.ok_or_else(|| unknown(word))?;
        letters = rest;
        let value = match flag.value {
            None => OsString::new(),
            Some(_) if !letters.is_empty() => {
                OsString::from_vec(std::mem::take(&mut letters).to_vec())
            }
            Some(of) => next_value(flag, of, words.next())?,
        };
        given.flags.push((flag.long, value));
    }
    Ok(())
}

fn next_value(flag: &Flag, of: &str, word: Option<&OsString>) -> Result<OsString, Fault> {
    word.cloned().ok_or_else(|| Fault::failed(format!("--{} needs a value, {of}", flag.long)))
}

fn unknown(word: &OsStr) -> Fault {
    Fault::failed(format!("unknown option {}", files::shown(word)))
}
