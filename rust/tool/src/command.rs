//! What the command line asks for.

use std::ffi::OsString;
use std::path::PathBuf;

use events::{AnyOf, number, satang};
use guvontsira::MAX_PRICE;

use crate::answers::CLASSES;
use crate::arguments::{Arguments, text, wrong};
use crate::failure::Failure;

pub enum Command {
    Help,
    Version,
    Day {
        run: Run,
        picked: Picked,
    },
    Desk {
        run: Run,
        customer: u32,
    },
    Security {
        run: Run,
        security: u32,
    },
    Ladder {
        /// In satang, 1 to [`MAX_PRICE`].
        price: u32,
    },
    Auction {
        file: PathBuf,
        /// By order, and not by price.
        volumes: bool,
    },
    Follow {
        file: PathBuf,
    },
    Encode {
        file: PathBuf,
    },
    Decode {
        file: PathBuf,
    },
}

/// A day, and the counts of the state that it meets.
pub struct Run {
    pub file: PathBuf,
    pub counts: Counts,
}

pub struct Counts {
    pub customers: u32,
    pub securities: u32,
}

/// Which lines of a day, and how much of each.
pub struct Picked {
    /// The answers alone.
    pub quiet: bool,
    /// Classes by their places.
    pub only: Vec<usize>,
}

const COMMANDS: [&str; 7] = [
    "day", "desk", "security", "ladder", "auction", "encode", "decode",
];
const FILE: &str = "a file";

impl Command {
    pub fn read(words: impl Iterator<Item = OsString>) -> Result<Command, Failure> {
        let mut arguments = Arguments::new(words);
        if arguments.flag(&["--help", "-h"]) {
            return Ok(Command::Help);
        }
        if arguments.flag(&["--version", "-V"]) {
            return Ok(Command::Version);
        }
        let commands = AnyOf(&COMMANDS).to_string();
        match arguments.command(&commands)?.as_str() {
            "day" => day(arguments),
            "desk" => desk(arguments),
            "security" => security(arguments),
            "ladder" => ladder(arguments),
            "auction" => auction(arguments),
            "encode" => file_or_input(arguments).map(|file| Command::Encode { file }),
            "decode" => file_or_input(arguments).map(|file| Command::Decode { file }),
            other => Err(wrong(other, &commands)),
        }
    }
}

fn day(mut arguments: Arguments) -> Result<Command, Failure> {
    let counts = counts(&mut arguments)?;
    let picked = Picked {
        quiet: arguments.flag(&["--quiet"]),
        only: only(&mut arguments)?,
    };
    let [file] = arguments.words([FILE])?;
    let run = Run {
        file: file.into(),
        counts,
    };
    Ok(Command::Day { run, picked })
}

fn desk(mut arguments: Arguments) -> Result<Command, Failure> {
    let counts = counts(&mut arguments)?;
    let (file, customer) = file_and_number(arguments, "a customer", counts.customers)?;
    let run = Run { file, counts };
    Ok(Command::Desk { run, customer })
}

fn security(mut arguments: Arguments) -> Result<Command, Failure> {
    let counts = counts(&mut arguments)?;
    let (file, security) = file_and_number(arguments, "a security", counts.securities)?;
    let run = Run { file, counts };
    Ok(Command::Security { run, security })
}

fn ladder(arguments: Arguments) -> Result<Command, Failure> {
    let wanted = "a price in baht with two decimals, 0.01 to 100000.00";
    let [word] = arguments.words([wanted])?;
    let word = text(word);
    match satang(&word) {
        Some(price @ 1..=MAX_PRICE) => Ok(Command::Ladder { price }),
        _ => Err(wrong(&word, wanted)),
    }
}

fn auction(mut arguments: Arguments) -> Result<Command, Failure> {
    if arguments.flag(&["--follow"]) {
        return file_or_input(arguments).map(|file| Command::Follow { file });
    }
    let volumes = arguments.flag(&["--volumes"]);
    let file = file_or_input(arguments)?;
    Ok(Command::Auction { file, volumes })
}

fn counts(arguments: &mut Arguments) -> Result<Counts, Failure> {
    Ok(Counts {
        customers: arguments.count("--customers", 256, 8)?,
        securities: arguments.count("--securities", 1_024, 16)?,
    })
}

/// Every class, if none are named.
fn only(arguments: &mut Arguments) -> Result<Vec<usize>, Failure> {
    let words = CLASSES.map(|(word, _)| word);
    let wanted = AnyOf(&words).to_string();
    let Some(names) = arguments.value("--only", &wanted)? else {
        return Ok((0..CLASSES.len()).collect());
    };
    let place = |name| words.iter().position(|word| *word == name);
    names
        .split(',')
        .map(|name| place(name).ok_or_else(|| wrong(name, &wanted)))
        .collect()
}

/// A file, and a number below the count.
fn file_and_number(
    arguments: Arguments,
    name: &str,
    count: u32,
) -> Result<(PathBuf, u32), Failure> {
    let wanted = format!("{name}, 0 to {}", count - 1);
    let [file, word] = arguments.words([FILE, &wanted])?;
    let word = text(word);
    let number = number(&word, count - 1).ok_or_else(|| wrong(&word, &wanted))?;
    Ok((file.into(), number))
}

/// Without a file, standard input.
fn file_or_input(arguments: Arguments) -> Result<PathBuf, Failure> {
    if arguments.is_empty() {
        return Ok("-".into());
    }
    let [file] = arguments.words([FILE])?;
    Ok(file.into())
}
