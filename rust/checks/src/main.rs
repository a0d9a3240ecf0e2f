//! Holds the linked order gate against the second implementation and the tuned
//! one: answers and every word.

mod arguments;
mod auction_books;
mod auction_call;
mod auction_comparison;
mod auction_current;
mod auction_histories;
mod auction_lists;
mod auction_outcome;
mod auction_places;
mod auction_shapes;
mod auction_tally;
mod auction_volumes;
mod auctions;
mod bases;
mod comparison;
mod counters;
mod current_call;
mod current_comparison;
mod current_history;
mod current_shapes;
mod current_tally;
mod customers;
mod damage;
mod damaged_histories;
mod days;
mod figures;
mod histories;
mod ladder;
mod layout;
mod lengths;
mod make;
mod malformed;
mod mixture;
mod own_orders;
mod places;
mod prices;
mod prior_closes;
mod program;
mod random;
mod range_orders;
mod range_places;
mod ranges;
mod references;
mod repeats;
mod report;
mod runs;
mod script;
mod shares;
mod shrink;
mod tally;
mod volumes;
mod wide;
mod writer;

use std::env;
use std::fs;
use std::process::ExitCode;

use arguments::{Arguments, USAGE, Until};
use program::Program;

type Group = (&'static str, fn(&mut Program));

/// Cases that are the same in every run of one seed.
const FIXED: [Group; 17] = [
    ("edges", |program| {
        script::run(program, "edges.txt", include_str!("../cases/edges.txt"))
    }),
    ("refusals", |program| {
        script::run(
            program,
            "refusals.txt",
            include_str!("../cases/refusals.txt"),
        )
    }),
    ("samples", |program| {
        script::run(program, "day.txt", include_str!("../../../samples/day.txt"));
        script::run(
            program,
            "paper.txt",
            include_str!("../../../samples/paper.txt"),
        );
        script::run(
            program,
            "adjusted-close.txt",
            include_str!("../../../samples/adjusted-close.txt"),
        );
        script::run(
            program,
            "daily-range.txt",
            include_str!("../../../samples/daily-range.txt"),
        );
    }),
    ("make", make::run),
    ("counters", counters::run),
    ("volumes", volumes::run),
    ("own-orders", own_orders::run),
    ("repeats", repeats::run),
    ("references", references::run),
    ("prior-closes", prior_closes::run),
    ("ranges", ranges::run),
    ("range-orders", range_orders::run),
    ("lengths", lengths::fixed),
    ("damage", damage::run),
    ("ladder", ladder::run),
    ("auctions", auctions::run),
    ("auction-current", auction_current::run),
];

/// Cases that each round draws anew.
const RANDOM: [Group; 7] = [
    ("histories", histories::run),
    ("customers", customers::run),
    ("runs", runs::run),
    ("damaged-histories", damaged_histories::run),
    ("random-bytes", lengths::random),
    ("auction-books", auction_books::run),
    ("auction-histories", auction_histories::run),
];

/// From so many rounds on, every answer must have come in the histories, in the
/// books every one of the auction and every sort of place on request 6's list, and in
/// the auction's histories every one of request 7 and every sort of change. So many
/// are done however slow the machine is and however long the fixed cases took.
const ENOUGH_ROUNDS: u64 = 20;

fn main() -> ExitCode {
    let arguments = match Arguments::parse(env::args().skip(1)) {
        Ok(arguments) => arguments,
        Err(message) => {
            eprintln!("{message}\n{USAGE}");
            return ExitCode::FAILURE;
        }
    };
    if let Some(file) = &arguments.write_day {
        return match fs::write(file, days::day(arguments.seed)) {
            Ok(()) => ExitCode::SUCCESS,
            Err(error) => {
                eprintln!("{}: {error}", file.display());
                ExitCode::FAILURE
            }
        };
    }
    let names: Vec<&str> = FIXED.iter().chain(&RANDOM).map(|group| group.0).collect();
    if let Some(only) = arguments.only.as_deref()
        && !names.contains(&only)
    {
        eprintln!("no cases named {only:?}; there are {}", names.join(", "));
        return ExitCode::FAILURE;
    }
    let mut program = Program::new(arguments.seed);
    let rounds = run(&mut program, &arguments);
    program.finish(arguments.only.is_none(), rounds >= ENOUGH_ROUNDS);
    println!("{} passed, {} failed", program.passed, program.failed);
    if program.failed == 0 {
        ExitCode::SUCCESS
    } else {
        ExitCode::FAILURE
    }
}

/// Runs the groups asked for and says how many rounds that were.
fn run(program: &mut Program, arguments: &Arguments) -> u64 {
    let is_asked = |group: &&Group| {
        let only = arguments.only.as_deref();
        only.is_none_or(|name| name == group.0)
    };
    for (name, cases) in FIXED.iter().filter(is_asked) {
        program.enter(name, None);
        cases(program);
    }
    let mut random: Vec<&Group> = RANDOM.iter().filter(is_asked).collect();
    let mut rounds = 0;
    while !random.is_empty() {
        for (name, cases) in &random {
            program.enter(name, Some(arguments.first_round + rounds));
            cases(program);
        }
        rounds += 1;
        random.retain(|group| !program.is_given_up(group.0));
        let is_done = match arguments.until {
            Until::Elapsed(duration) => program.elapsed() >= duration && rounds >= ENOUGH_ROUNDS,
            Until::Rounds(count) => rounds >= count,
        };
        if is_done {
            break;
        }
    }
    rounds
}
