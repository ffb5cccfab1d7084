//! The program: runs frames, reports lateness, writes a generated session of frames or day
//! of pairs, or prints limits.

use reference::frames::run_frames;
use reference::generate::session;
use reference::lateness::{self, generate::day};
use reference::limits;
use reference::machine::Machine;
use reference::options::{read_options, Options, HELP};
use std::io::{self, BufWriter, ErrorKind, Write};
use std::process::ExitCode;

fn run(options: &Options) -> io::Result<()> {
    let mut output = BufWriter::new(io::stdout().lock());
    if options.help {
        output.write_all(HELP.as_bytes())?;
    } else if options.limits {
        output.write_all(limits::text().as_bytes())?;
    } else if options.generate && options.late {
        output.write_all(&day(options.seed))?;
    } else if options.generate {
        output.write_all(&session(options))?;
    } else {
        let mut machine = Machine::zeros(options.array, options.work);
        run_frames(
            &mut machine,
            io::stdin().lock(),
            &mut output,
            options.counts,
        )?;
    }
    output.flush()
}

/// Reads a day of lines and writes its report; otherwise the line that says why not.
fn report_lateness() -> Result<(), String> {
    let lines = lateness::read_lines(io::stdin().lock());
    let lines = lines.map_err(|error| format!("read: {error}"))?;
    let report = lateness::report_of(&lines).map_err(|refusal| refusal.to_string())?;
    let mut output = io::stdout().lock();
    output
        .write_all(lateness::text(&report).as_bytes())
        .and_then(|()| output.flush())
        .map_err(|error| format!("write: {error}"))
}

/// A refusal is told by standard error alone: the status is the same.
fn late() -> ExitCode {
    if let Err(line) = report_lateness() {
        eprintln!("{line}");
    }
    ExitCode::SUCCESS
}

fn main() -> ExitCode {
    let arguments: Result<Vec<String>, _> = std::env::args_os()
        .skip(1)
        .map(|word| word.into_string())
        .collect();
    let options = arguments
        .map_err(|word| format!("unknown option {}", word.to_string_lossy()))
        .and_then(|words| read_options(&words));
    let outcome = match options {
        Ok(options) if options.only_late() => return late(),
        Ok(options) => run(&options),
        Err(message) => {
            eprintln!("reference: {message}");
            return ExitCode::from(2);
        }
    };
    match outcome {
        Ok(()) => ExitCode::SUCCESS,
        // A reader that has seen enough is no fault.
        Err(error) if error.kind() == ErrorKind::BrokenPipe => ExitCode::SUCCESS,
        Err(error) => {
            eprintln!("reference: {error}");
            ExitCode::FAILURE
        }
    }
}
