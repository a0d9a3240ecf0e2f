//! A day's listing: each event, its answer and what that means; then how many
//! events got each answer.

use std::io::{self, Write};

use guvontsira::State;

use crate::answers::{ANSWERS, CLASSES, class, place};
use crate::command::Picked;

/// What is longer is no event but bytes that cannot be read; the first tell.
const LONGEST: usize = 120;

/// A few long events do not move all answers to the right.
const WIDEST: usize = 80;

/// As wide as `refused 12`.
const ANSWER_WIDTH: usize = 10;

/// Whether a terminal's colours are wanted.
#[derive(Clone, Copy)]
pub struct Colour(pub bool);

pub fn list(
    out: &mut impl Write,
    state: &mut State,
    events: &[Vec<u8>],
    picked: &Picked,
    colour: Colour,
) -> io::Result<()> {
    let handled = events.iter().map(|event| place(state.handle(event)));
    let places: Vec<usize> = handled.collect();
    let is_shown = |place: usize| picked.only.contains(&class(ANSWERS[place].0));
    let pairs = events.iter().zip(&places);
    let shown: Vec<_> = pairs.filter(|(_, place)| is_shown(**place)).collect();
    if picked.quiet {
        for (_, &place) in shown {
            writeln!(out, "{}", colour.answer(place, 0))?;
        }
        return Ok(());
    }
    let texts: Vec<String> = shown.iter().map(|(event, _)| text(event)).collect();
    let width = texts.iter().map(String::len).max().unwrap_or(0).min(WIDEST);
    for (text, (_, place)) in texts.iter().zip(shown) {
        let (answer, meaning) = (colour.answer(*place, ANSWER_WIDTH), ANSWERS[*place].1);
        writeln!(out, "{text:<width$}  {answer}  {meaning}")?;
    }
    if !texts.is_empty() {
        writeln!(out)?;
    }
    summary(out, &places)
}

fn text(event: &[u8]) -> String {
    let mut text = events::line(event);
    if text.len() > LONGEST {
        text.truncate(LONGEST);
        text.push_str(" ..");
    }
    text
}

/// Of the whole day, also where only some lines were wanted.
fn summary(out: &mut impl Write, places: &[usize]) -> io::Result<()> {
    let mut counts = [0; ANSWERS.len()];
    for &place in places {
        counts[place] += 1;
    }
    let total = places.len();
    let width = total.to_string().len();
    writeln!(
        out,
        "{total} {}",
        if total == 1 { "event" } else { "events" }
    )?;
    for (count, (answer, _)) in counts.into_iter().zip(ANSWERS) {
        if count > 0 {
            writeln!(out, "{count:>width$} {answer}")?;
        }
    }
    Ok(())
}

impl Colour {
    fn answer(self, place: usize, width: usize) -> String {
        let words = ANSWERS[place].0;
        let padded = format!("{words:<width$}");
        match self {
            Colour(true) => format!("\x1b[{}m{padded}\x1b[0m", CLASSES[class(words)].1),
            Colour(false) => padded,
        }
    }
}

#[cfg(test)]
mod tests {
    use super::*;

    fn listing(colour: Colour, quiet: bool) -> String {
        let events = events::encode_each("session open\ncancel 0 no 1").unwrap();
        let only = (0..CLASSES.len()).collect();
        let mut state = State::new(1, 1).unwrap();
        let mut out = Vec::new();
        list(
            &mut out,
            &mut state,
            &events,
            &Picked { quiet, only },
            colour,
        )
        .unwrap();
        String::from_utf8(out).unwrap()
    }

    /// That a pipe gets none is tested with the program as a whole.
    #[test]
    fn a_terminal_gets_colour() {
        assert_eq!(
            listing(Colour(true), false),
            "session open   \x1b[2mok        \x1b[0m  carried out\n\
             cancel 0 no 1  \x1b[35mrefused 10\x1b[0m  no open order with this number, or for a rest no MP order\n\
             \n2 events\n1 ok\n1 refused 10\n"
        );
        let quiet = listing(Colour(true), true);
        assert_eq!(quiet, "\x1b[2mok\x1b[0m\n\x1b[35mrefused 10\x1b[0m\n");
        assert!(!listing(Colour(false), false).contains('\x1b'));
    }
}
