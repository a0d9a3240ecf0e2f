//! The words that stand for codes.

/// The words of one list of codes, in the order of the codes from 0.
#[derive(Clone, Copy, Debug)]
pub struct Codes {
    /// Stands before a code that has no word.
    pub name: &'static str,
    pub words: &'static [&'static str],
}

pub const SESSIONS: Codes = Codes {
    name: "session",
    words: &["closed", "pre-open", "open", "break", "pre-close"],
};

pub const BOARDS: Codes = Codes {
    name: "board",
    words: &["main", "foreign"],
};

pub const SIDES: Codes = Codes {
    name: "side",
    words: &["buy", "sell"],
};

pub const TYPES: Codes = Codes {
    name: "type",
    words: &["limit", "ato", "atc", "mp"],
};

pub const CHANNELS: Codes = Codes {
    name: "channel",
    words: &["front", "online", "dma"],
};

/// The type of order whose line always has a price.
pub const LIMIT: u8 = 0;

/// Stands for an absent price.
pub const ABSENT: &str = "-";

impl Codes {
    pub fn word(&self, code: u8) -> Option<&'static str> {
        self.words.get(usize::from(code)).copied()
    }

    pub fn code(&self, word: &str) -> Option<u8> {
        let place = self.words.iter().position(|&listed| listed == word)?;
        u8::try_from(place).ok()
    }
}
