//! Times the linked order gate beside the second implementation and a tuned one
//! and prints one table. It fails where they differ on what is timed.

mod arguments;
mod auction;
mod compare;
mod implementation;
mod list;
mod measure;
mod mixture;
mod size;
mod table;
mod writer;

use std::env;
use std::process::ExitCode;

use arguments::{Arguments, USAGE};
use auction::Books;
use auction::current::{Current, Step};
use compare::compare;
use implementation::Implementation;
use measure::measure;
use mixture::Mixture;
use table::Table;

const MEASURED: &str = include_str!("measured.txt");

const SEVERAL: &str = "\
The linked gate, the second implementation and the tuned one take turns at the
same lists of events. Before a list is timed, each answer to it and all words
after it are compared.
";

fn main() -> ExitCode {
    let arguments = match Arguments::parse(env::args().skip(1)) {
        Ok(arguments) => arguments,
        Err(message) => {
            eprintln!("{message}\n{USAGE}");
            return ExitCode::FAILURE;
        }
    };
    if cfg!(debug_assertions) {
        eprintln!("built without optimization: use cargo run --release");
    }
    match print(&arguments) {
        Ok(()) => ExitCode::SUCCESS,
        Err(message) => {
            eprintln!("{message}");
            ExitCode::FAILURE
        }
    }
}

fn print(arguments: &Arguments) -> Result<(), String> {
    let compared = compared(&arguments.implementations);
    println!("{compared}{MEASURED}Repeats: {}", arguments.repeats);
    if arguments.mixtures().count() > 0 {
        print_mixtures(arguments)?;
    }
    let implementations = arguments.auction();
    if !implementations.is_empty() {
        print_auction(arguments, implementations)?;
    }
    let implementations = arguments.current();
    if !implementations.is_empty() {
        print_current(arguments, implementations)?;
    }
    Ok(())
}

/// What the first lines say of those that are timed.
fn compared(implementations: &[Implementation]) -> String {
    match implementations {
        [alone] => format!("Only {} is timed, and nothing is compared.\n", alone.name()),
        _ => String::from(SEVERAL),
    }
}

fn print_mixtures(arguments: &Arguments) -> Result<(), String> {
    let table = Table {
        implementations: arguments.implementations.clone(),
    };
    println!("\n{}", table.heading());
    arguments
        .mixtures()
        .try_for_each(|mixture| print_mixture(&table, arguments, mixture))
}

fn print_mixture(table: &Table, arguments: &Arguments, mixture: Mixture) -> Result<(), String> {
    let mut lines = Vec::new();
    for size in arguments.sizes(mixture) {
        let list = mixture.prepare(size);
        compare(&list, &table.implementations)
            .map_err(|difference| format!("{} at {size}: {difference}", mixture.name()))?;
        let times = measure(&list, &table.implementations, arguments.repeats);
        println!("{}", table.line(mixture, size, list.len(), &times));
        lines.push(times);
    }
    if lines.len() > 1 {
        println!("{}", table.mean(mixture.name(), &lines));
    }
    Ok(())
}

fn print_auction(
    arguments: &Arguments,
    implementations: Vec<Implementation>,
) -> Result<(), String> {
    let table = Table { implementations };
    let calls = arguments.calls();
    println!("\n{}", table.auction_heading());
    let mut lines = vec![Vec::new(); calls.len()];
    for books in Books::all() {
        let (prices, length) = (books.prices, books.length);
        for &call in &calls {
            books
                .compare(call, &table.implementations)
                .map_err(|difference| {
                    let name = call.name();
                    format!("{name} of {length} orders, {prices} prices: {difference}")
                })?;
        }
        let times = books.measure(&calls, &table.implementations, arguments.repeats);
        for ((&call, times), lines) in calls.iter().zip(times).zip(&mut lines) {
            println!("{}", table.auction_line(call, &books, &times));
            lines.push(times);
        }
    }
    for (call, lines) in calls.iter().zip(&lines) {
        println!("{}", table.mean(call.name(), lines));
    }
    Ok(())
}

fn print_current(
    arguments: &Arguments,
    implementations: Vec<Implementation>,
) -> Result<(), String> {
    let table = Table { implementations };
    println!("\n{}", table.current_heading());
    let mut lines = Vec::new();
    for current in Current::all() {
        current
            .compare(&table.implementations)
            .map_err(|difference| {
                let (orders, prices, places) = (current.orders, current.prices, current.places);
                format!("{orders} orders in {places} places, {prices} prices: {difference}")
            })?;
        let times = current.measure(&table.implementations, arguments.repeats);
        for step in Step::ALL {
            println!("{}", table.current_line(step, &current, &times));
        }
        lines.push(times);
    }
    for step in Step::ALL {
        println!("{}", table.current_mean(step, &lines));
    }
    Ok(())
}

#[cfg(test)]
mod tests {
    use super::*;

    #[test]
    fn every_mixture_is_described() {
        for mixture in Mixture::ALL {
            let name = format!("\n  {} ", mixture.name());
            assert!(MEASURED.contains(&name), "{mixture:?}");
        }
        for call in auction::Call::ALL {
            let name = format!("\n  {} ", call.name());
            assert!(MEASURED.contains(&name), "{call:?}");
        }
        let name = format!("\n  {} ", auction::current::NAME);
        assert!(MEASURED.contains(&name));
    }
}
