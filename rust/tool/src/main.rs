//! The order gate from the command line, over the linked library: a day's
//! answers and what they mean, a customer or a security after the day, the
//! ladder, the price that an auction would give, also while orders come and go, and the
//! text form to bytes and back.

#![forbid(unsafe_code)]

mod answers;
mod arguments;
mod auction;
mod command;
mod day;
mod desk;
mod failure;
mod input;
mod ladder;
mod security;
mod table;

use std::env;
use std::io::{self, BufWriter, IsTerminal, Write};
use std::path::Path;
use std::process::ExitCode;

use events::Code;
use events::words::SESSIONS;
use guvontsira::State;

use crate::command::{Command, Counts, Run};
use crate::day::Colour;
use crate::failure::Failure;

/// What the gate promises of the words after every history.
const WELL_FORMED: &str = "the state is well formed";

const HELP: &str = include_str!("help.txt");

fn main() -> ExitCode {
    let done = Command::read(env::args_os().skip(1)).and_then(|command| {
        let mut out = BufWriter::new(io::stdout().lock());
        carry_out(command, &mut out)?;
        Ok(out.flush()?)
    });
    match done {
        Ok(()) => ExitCode::SUCCESS,
        Err(failure) => failure.report(),
    }
}

fn carry_out(command: Command, out: &mut impl Write) -> Result<(), Failure> {
    match command {
        Command::Help => out.write_all(HELP.as_bytes())?,
        Command::Version => writeln!(out, "guvontsira {}", guvontsira::RELEASE)?,
        Command::Day { run, picked } => {
            let events = input::day(&run.file)?;
            let mut state = fresh(&run.counts);
            day::list(out, &mut state, &events, &picked, colour())?;
        }
        Command::Desk { run, customer } => {
            let state = after(&run)?;
            let desk = state.desk(customer).expect("the customer is one of them");
            title(out, &format!("customer {customer}"), &state)?;
            desk::write(out, &desk)?;
        }
        Command::Security { run, security } => {
            let state = after(&run)?;
            let record = state
                .security(security)
                .expect("the security is one of them");
            title(out, &format!("security {security}"), &state)?;
            security::write(out, &record, state.range(security))?;
        }
        Command::Ladder { price } => ladder::write(out, price)?,
        Command::Auction { file, volumes } => {
            let book = input::book(&file)?;
            match volumes {
                true => auction::volumes::write(out, &file, &book)?,
                false => auction::prices::write(out, &file, &book)?,
            }
        }
        Command::Follow { file } => auction::follow::write(out, &file)?,
        Command::Encode { file } => {
            let text = input::read(&file)?;
            out.write_all(&input::events_of_text(&file, &text)?.concat())?;
        }
        Command::Decode { file } => decode(&file, out)?,
    }
    Ok(())
}

fn fresh(counts: &Counts) -> State {
    State::new(counts.customers, counts.securities).expect("the counts are in range")
}

/// The state after the day.
fn after(run: &Run) -> Result<State, Failure> {
    let events = input::day(&run.file)?;
    let mut state = fresh(&run.counts);
    state.run_list(&events);
    Ok(state)
}

fn title(out: &mut impl Write, of: &str, state: &State) -> io::Result<()> {
    let time = state.clock().expect(WELL_FORMED);
    let session = Code(&SESSIONS, state.session().expect(WELL_FORMED).code());
    writeln!(out, "{of} at {time}, session {session}\n")
}

/// The lines before a broken event are written, to show what led to it.
fn decode(file: &Path, out: &mut impl Write) -> Result<(), Failure> {
    for line in events::lines(&input::read(file)?) {
        match line {
            Ok(line) => writeln!(out, "{line}")?,
            Err(broken) => {
                out.flush()?;
                return Err(Failure::Input(format!("{}: {broken}", input::name(file))));
            }
        }
    }
    Ok(())
}

/// A terminal gets colour unless its user asks for none.
fn colour() -> Colour {
    let refused = env::var_os("NO_COLOR").is_some_and(|value| !value.is_empty());
    Colour(io::stdout().is_terminal() && !refused)
}
