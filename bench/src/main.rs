//! Runs one queue on one workload, for an instruction counter to watch: tools/speed
//! runs it and says what came out in docs/SPEED.md.

mod aligned;
mod books;
mod library;
mod options;
mod queues;
mod workloads;

use options::{read_options, Kind, Options, Task};
use queues::{Binary, FourAry, Gorgalhut, Queue, Sorted};
use std::process::ExitCode;

/// Every allocation begins at a page.
#[global_allocator]
static MEMORY: aligned::Aligned = aligned::Aligned;

/// Runs the workload and says what it handed out, as one number.
fn run(options: &Options, queue: &mut impl Queue) -> u64 {
    match options.task {
        Task::Hold => workloads::hold(queue, options.held, options.rounds, options.seed),
        Task::Day => workloads::day(queue, options.held, options.rounds, options.seed),
        Task::Books => unreachable!("books have no queue"),
    }
}

/// Does what is asked and says what came out.
fn serve(options: &Options) -> String {
    let sum = match (options.task, options.kind) {
        (Task::Books, _) => return books::run(options.links, options.rounds, options.seed),
        (_, Kind::Gorgalhut) => run(options, &mut Gorgalhut::new(options.links)),
        (_, Kind::Binary) => run(options, &mut Binary::new(options.held)),
        (_, Kind::FourAry) => run(options, &mut FourAry::new(options.held)),
        (_, Kind::Sorted) => run(options, &mut Sorted::new(options.held)),
    };
    format!("sum {sum:016X}")
}

fn main() -> ExitCode {
    let arguments: Vec<String> = std::env::args().skip(1).collect();
    let options = match read_options(&arguments) {
        Ok(options) => options,
        Err(message) => {
            eprintln!("bench: {message}");
            return ExitCode::from(2);
        }
    };
    // A thread's stack begins at a page; where the first stack begins depends on the environment.
    match std::thread::spawn(move || serve(&options)).join() {
        Ok(said) => {
            println!("{said}");
            ExitCode::SUCCESS
        }
        Err(_) => ExitCode::FAILURE,
    }
}
