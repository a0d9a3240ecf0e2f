//! The words of the command line, options taken out by name.

use std::ffi::OsString;

use events::{expected, number};

use crate::failure::Failure;

/// What is not yet read. A file's name need not be UTF-8 text.
pub struct Arguments(Vec<OsString>);

impl Arguments {
    pub fn new(words: impl Iterator<Item = OsString>) -> Self {
        Arguments(words.collect())
    }

    /// Whether the option stands there, by any of its names; takes it out.
    pub fn flag(&mut self, names: &[&str]) -> bool {
        let is_it = |word: &OsString| names.iter().any(|name| word == name);
        let place = self.0.iter().position(is_it);
        place.map(|place| self.0.remove(place)).is_some()
    }

    /// Takes out the option and the word that follows it, or that an `=` joins
    /// to it.
    pub fn value(&mut self, option: &str, wanted: &str) -> Result<Option<String>, Failure> {
        let joined = format!("{option}=");
        let is_it = |word: &OsString| {
            word == option || word.as_encoded_bytes().starts_with(joined.as_bytes())
        };
        let Some(place) = self.0.iter().position(is_it) else {
            return Ok(None);
        };
        let word = text(self.0.remove(place));
        if let Some(value) = word.strip_prefix(&joined) {
            return Ok(Some(value.to_owned()));
        }
        if place == self.0.len() {
            let reason = format!("the command ends after {option}: expected {wanted}");
            return Err(Failure::Usage(reason));
        }
        Ok(Some(text(self.0.remove(place))))
    }

    /// Takes out the option and its number, 1 to `largest`.
    pub fn count(&mut self, option: &str, largest: u32, otherwise: u32) -> Result<u32, Failure> {
        let wanted = format!("a number, 1 to {largest}");
        match self.value(option, &wanted)? {
            None => Ok(otherwise),
            Some(word) => number(&word, largest)
                .filter(|&count| count > 0)
                .ok_or_else(|| {
                    Failure::Usage(format!("{word:?} after {option}: expected {wanted}"))
                }),
        }
    }

    /// The first word, which says what is to be done.
    pub fn command(&mut self, wanted: &str) -> Result<String, Failure> {
        if self.0.is_empty() {
            return Err(ends(wanted));
        }
        Ok(text(self.0.remove(0)))
    }

    pub fn is_empty(&self) -> bool {
        self.0.is_empty()
    }

    /// All that is left, once the options are taken out: as many words as there
    /// are names.
    pub fn words<const N: usize>(self, names: [&str; N]) -> Result<[OsString; N], Failure> {
        if let Some(option) = self.0.iter().find(|word| is_option(word)) {
            let option = option.to_string_lossy();
            let reason = format!("{option:?}: no such option here, or given twice");
            return Err(Failure::Usage(reason));
        }
        self.0
            .try_into()
            .map_err(|words: Vec<OsString>| match names.get(words.len()) {
                Some(missing) => ends(missing),
                None => wrong(&words[N].to_string_lossy(), "the end of the command"),
            })
    }
}

/// `-` alone is a file.
fn is_option(word: &OsString) -> bool {
    word.len() > 1 && word.as_encoded_bytes().starts_with(b"-")
}

/// For words that are no files: what is not UTF-8 is none of those awaited.
pub fn text(word: OsString) -> String {
    word.to_string_lossy().into_owned()
}

pub fn wrong(word: &str, wanted: &str) -> Failure {
    Failure::Usage(expected(word, wanted))
}

fn ends(wanted: &str) -> Failure {
    Failure::Usage(format!("the command ends: expected {wanted}"))
}
