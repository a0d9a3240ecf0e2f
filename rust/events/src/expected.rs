//! What is said of a word that cannot stand where it does.

use std::fmt::{self, Display};

/// `"buyy": expected buy or sell`.
pub fn expected(word: &str, wanted: impl Display) -> String {
    format!("{word:?}: expected {wanted}")
}

/// Words to choose from: `closed, open or break`.
#[derive(Clone, Copy, Debug)]
pub struct AnyOf<'a>(pub &'a [&'a str]);

impl Display for AnyOf<'_> {
    fn fmt(&self, f: &mut fmt::Formatter<'_>) -> fmt::Result {
        match self.0 {
            [] => Ok(()),
            [word] => f.write_str(word),
            [words @ .., last] => write!(f, "{} or {last}", words.join(", ")),
        }
    }
}
