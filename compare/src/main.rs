//! Compares the library's functions with the independent program: many arrays of
//! every kind, and sessions of calls on one array.

// Built with nothing of the library, there is nobody to lend memory to.
#![cfg_attr(
    not(any(feature = "book", feature = "takes", feature = "insert")),
    allow(dead_code)
)]

mod abuse;
mod arrays;
mod check;
mod days;
#[cfg(feature = "fake")]
mod fake;
mod frames;
mod joins;
mod lateness;
mod lent;
mod library;
mod longest;
mod options;
mod runs;
mod sessions;
mod show;
mod tally;

use check::Memory;
use options::{read_options, Group, Options};
use std::process::ExitCode;
use tally::Tally;

/// Whether the library's functions of a group are built in.
fn built_in(group: Group) -> bool {
    match group {
        Group::Book => cfg!(feature = "book"),
        Group::Takes => cfg!(feature = "takes"),
        Group::Calls => cfg!(feature = "calls"),
        Group::Insert => cfg!(feature = "insert"),
        Group::Abuse => built_in(Group::Calls) && built_in(Group::Insert),
        Group::Longest => built_in(Group::Takes) && built_in(Group::Insert),
        Group::Frames => cfg!(feature = "frames"),
        Group::Joins => cfg!(feature = "joins"),
        Group::Lateness => cfg!(feature = "lateness"),
    }
}

fn compare(options: &Options, tally: &mut Tally) -> Result<(), String> {
    let mut memory = Memory::new(options.trace, options.exact);
    match options.group {
        Group::Abuse => return abuse::compare(options, &mut memory, tally),
        Group::Longest => return longest::compare(options, &mut memory, tally),
        Group::Frames => return frames::compare(options, tally),
        Group::Joins => return joins::compare(options, tally),
        Group::Lateness => return lateness::compare(options, tally),
        _ => {}
    }
    let mut source = arrays::compare(options, &mut memory, tally)?;
    match options.group {
        Group::Takes | Group::Calls => sessions::emptying(options, &mut source, &mut memory, tally),
        Group::Insert if built_in(Group::Calls) => sessions::whole(options, &mut memory, tally),
        Group::Insert => {
            println!("no sessions: calls are not built in");
            Ok(())
        }
        _ => Ok(()),
    }
}

fn main() -> ExitCode {
    let arguments: Vec<String> = std::env::args().skip(1).collect();
    let options = match read_options(&arguments) {
        Ok(options) => options,
        Err(message) => {
            eprintln!("compare: {message}");
            return ExitCode::from(2);
        }
    };
    if !built_in(options.group) {
        eprintln!("compare: {:?} is not built in", options.group);
        return ExitCode::from(2);
    }
    // Printed first, so that it is known even if the library never comes back.
    println!("seed {}", options.seed);
    let mut tally = Tally::default();
    let outcome = compare(&options, &mut tally);
    print!("{tally}");
    match outcome {
        Ok(()) if !tally.never_met().is_empty() => {
            println!("no difference, but never met: {}", tally.never_met());
            ExitCode::FAILURE
        }
        Ok(()) => {
            println!("no difference");
            ExitCode::SUCCESS
        }
        Err(difference) => {
            println!("difference, seed {}, {difference}", options.seed);
            ExitCode::FAILURE
        }
    }
}
