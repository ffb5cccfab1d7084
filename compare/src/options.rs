//! What the command line asks for.

/// Which of the library's functions are compared.
#[derive(Clone, Copy, Debug, PartialEq, Eq)]
pub enum Group {
    Book,
    Takes,
    Calls,
    Insert,
    Abuse,
    Longest,
    Frames,
    Joins,
    Lateness,
}

#[derive(Clone, Copy, Debug, PartialEq, Eq)]
pub struct Options {
    pub group: Group,
    pub arrays: usize,
    pub seed: u64,
    /// Arrays before this one are made, but not compared.
    pub from: usize,
    /// Calls in sessions; as many as arrays if nothing is said.
    pub session_calls: usize,
    /// Calls, lines or days of abuse, frames, joins and lateness.
    pub calls: usize,
    pub trace: bool,
    /// Lends memory without canaries, for a tool that watches its bounds.
    pub exact: bool,
}

pub const HELP: &str = "\
compare book               the verdict on a book
compare takes              take, look and held
compare calls              these three, setup and audit
compare insert             insert, and whole sessions if calls are built in
compare abuse              all six calls, mixed, on arrays that stay as they were left
compare longest            take, look and insert on sound books, and how long they run
compare frames             lines read and written, and the tally
compare joins              two runs joined, and a part of them merged
compare lateness           the report of how early or late the doors were
  --arrays N               how many arrays (1000)
  --seed N                 the seed (1)
  --session-calls N        how many calls in sessions (as many as arrays)
  --calls N                how many calls of abuse, lines of frames, pairs of runs or
                           days of lateness (1000)
  --from N                 compare from array number N on; those before are only made
  --exact                  lend memory without canaries, each time of just its length
  --trace                  tell every call on standard error before it is made
";

/// Reads the command line, without the program's own name.
pub fn read_options(arguments: &[String]) -> Result<Options, String> {
    let mut words = arguments.iter();
    let group = match words.next().map(String::as_str) {
        Some("book") => Group::Book,
        Some("takes") => Group::Takes,
        Some("calls") => Group::Calls,
        Some("insert") => Group::Insert,
        Some("abuse") => Group::Abuse,
        Some("longest") => Group::Longest,
        Some("frames") => Group::Frames,
        Some("joins") => Group::Joins,
        Some("lateness") => Group::Lateness,
        _ => return Err(format!("what to compare is needed\n{HELP}")),
    };
    let mut options = Options {
        group,
        arrays: 1000,
        seed: 1,
        from: 0,
        session_calls: 0,
        calls: 1000,
        trace: false,
        exact: false,
    };
    let mut session_calls = None;
    while let Some(word) = words.next() {
        match word.as_str() {
            "--arrays" => options.arrays = number(word, words.next())?,
            "--seed" => options.seed = number(word, words.next())?,
            "--calls" => options.calls = number(word, words.next())?,
            "--from" => options.from = number(word, words.next())?,
            "--session-calls" => session_calls = Some(number(word, words.next())?),
            "--exact" => options.exact = true,
            "--trace" => options.trace = true,
            _ => return Err(format!("unknown option {word}\n{HELP}")),
        }
    }
    options.session_calls = session_calls.unwrap_or(options.arrays);
    Ok(options)
}

fn number<T: std::str::FromStr>(option: &str, value: Option<&String>) -> Result<T, String> {
    let value = value.ok_or(format!("{option} needs a number"))?;
    let bad = |_| format!("{option} needs a number, not {value}");
    value.parse().map_err(bad)
}
