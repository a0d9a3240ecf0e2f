//! The words of a line, taken one after another.

use std::fmt::Display;
use std::iter::Peekable;
use std::str::SplitWhitespace;

use crate::expected::{AnyOf, expected};
use crate::values::{is_digits, number, satang, time};
use crate::words::{ABSENT, Codes};

const PRICE: &str = "a price in baht, as 50.25";

/// The words of a line that are not yet read.
pub struct LineWords<'a>(Peekable<SplitWhitespace<'a>>);

impl<'a> LineWords<'a> {
    /// All words before a comment.
    pub fn of(line: &'a str) -> Self {
        let text = line.split('#').next().unwrap_or_default();
        LineWords(text.split_whitespace().peekable())
    }

    pub fn next(&mut self) -> Option<&'a str> {
        self.0.next()
    }

    pub fn end(&mut self) -> Result<(), String> {
        match self.next() {
            None => Ok(()),
            Some(word) => Err(expected(word, "the end of the line")),
        }
    }

    /// The next word, as `read` reads it.
    pub fn read<T>(
        &mut self,
        wanted: impl Display,
        read: impl FnOnce(&str) -> Option<T>,
    ) -> Result<T, String> {
        let word = self
            .next()
            .ok_or_else(|| format!("the line ends: expected {wanted}"))?;
        read(word).ok_or_else(|| expected(word, wanted))
    }

    pub fn keyword(&mut self, keyword: &str) -> Result<(), String> {
        self.read(keyword, |word| (word == keyword).then_some(()))
    }

    pub fn number(&mut self, name: &str, largest: u32) -> Result<u32, String> {
        self.read(format_args!("{name}, 0 to {largest}"), |word| {
            number(word, largest)
        })
    }

    pub fn u16(&mut self, name: &str) -> Result<u16, String> {
        Ok(self.number(name, u16::MAX.into())? as u16)
    }

    pub fn u8(&mut self, name: &str) -> Result<u8, String> {
        Ok(self.number(name, u8::MAX.into())? as u8)
    }

    /// A word of the list, or the list's name and a number.
    pub fn code(&mut self, codes: &Codes) -> Result<u8, String> {
        if self.0.next_if_eq(&codes.name).is_some() {
            return self.u8("a number");
        }
        self.read(AnyOf(codes.words), |word| codes.code(word))
    }

    /// A word of the list, or a number: for a list whose name the line has
    /// already said.
    pub fn code_or_number(&mut self, codes: &Codes) -> Result<u8, String> {
        match self.0.peek().is_some_and(|word| is_digits(word)) {
            true => self.u8("a number"),
            false => self.read(AnyOf(codes.words), |word| codes.code(word)),
        }
    }

    /// What may follow a flag's word: its code, where that is not 1.
    pub fn flag(&mut self) -> Result<u32, String> {
        match self.0.peek().is_some_and(|word| is_digits(word)) {
            true => self.number("a number", u8::MAX.into()),
            false => Ok(1),
        }
    }

    pub fn price(&mut self) -> Result<u32, String> {
        self.read(PRICE, price)
    }

    /// A price that is not absent.
    pub fn present_price(&mut self) -> Result<u32, String> {
        self.read(PRICE, |word| price(word).filter(|&satang| satang != 0))
    }

    /// A price where none is due: 0 if none stands there.
    pub fn price_if_any(&mut self) -> u32 {
        let found = self.0.next_if(|word| price(word).is_some());
        found.and_then(price).unwrap_or(0)
    }

    pub fn volume(&mut self) -> Result<u32, String> {
        self.keyword("x")?;
        self.number("a volume", u32::MAX)
    }

    pub fn time(&mut self) -> Result<u32, String> {
        self.read("a time, as 09:55:00.000", time)
    }
}

fn price(word: &str) -> Option<u32> {
    match word {
        ABSENT => Some(0),
        _ => satang(word),
    }
}
