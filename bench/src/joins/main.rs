//! Joins runs, or sweeps, again and again, for an instruction counter to watch: tools/speed runs it.

// Declared once, where the comparison has them.
#[path = "../../../compare/src/library/joins/c.rs"]
mod c;
mod runs;
mod sweeps;

use std::process::ExitCode;

const HELP: &str = "\
joins join RUNS ENTRIES CALLS            two runs of so many entries joined
joins part RUNS ENTRIES CALLS            half of their entries merged
    RUNS: interleaving, random, first or second, the run that goes before the other's head
joins sweeps ORDERS LINKS HELD PAIRS     take one, put one, at a steady number held; puts that sweep are counted
    ORDERS: near, due less than two seconds after the one taken, or later, due after all that are held
";

fn number(words: &[String], at: usize) -> Option<usize> {
    words.get(at)?.parse().ok()
}

/// Does what is asked and says what came out; nothing where it is not understood.
fn serve(words: &[String]) -> Option<String> {
    let name = words.get(1)?;
    let (few, more) = (number(words, 2)?, number(words, 3)?);
    Some(match words[0].as_str() {
        "join" => format!("sum {:016X}", runs::join(runs::made(name, few)?, more)),
        "part" => format!("sum {:016X}", runs::part(runs::made(name, few)?, more)),
        "sweeps" => sweeps::run(sweeps::orders(name)?, few, more, number(words, 4)?),
        _ => return None,
    })
}

fn main() -> ExitCode {
    let words: Vec<String> = std::env::args().skip(1).collect();
    match serve(&words) {
        Some(said) => {
            println!("{said}");
            ExitCode::SUCCESS
        }
        None => {
            eprint!("{HELP}");
            ExitCode::from(2)
        }
    }
}
