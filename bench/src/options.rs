//! What the command line asks for.

#[derive(Clone, Copy, Debug, PartialEq, Eq)]
pub enum Task {
    Hold,
    Day,
    Books,
}

#[derive(Clone, Copy, Debug, PartialEq, Eq)]
pub enum Kind {
    Gorgalhut,
    Binary,
    FourAry,
    Sorted,
}

#[derive(Clone, Copy, Debug, PartialEq, Eq)]
pub struct Options {
    pub task: Task,
    pub kind: Kind,
    pub links: usize,
    /// Entries held in `hold`, entries of a day in `day`.
    pub held: usize,
    /// Pairs of take and put in `hold`, days in `day`, books in `books`.
    pub rounds: usize,
    pub seed: u64,
}

pub const HELP: &str = "\
bench hold                 take one, put one, at a steady number held
bench day                  put all in, then take all out
bench books                the book test on random sound books
  --queue Q                gorgalhut, binary, four-ary or sorted (gorgalhut)
  --links N                links of gorgalhut, 1 to 4 (3)
  --held N                 entries held, or of a day (300)
  --rounds N               pairs, days or books (1000)
  --seed N                 the seed (1)
";

/// Reads the command line, without the program's own name.
pub fn read_options(arguments: &[String]) -> Result<Options, String> {
    let mut words = arguments.iter();
    let task = match words.next().map(String::as_str) {
        Some("hold") => Task::Hold,
        Some("day") => Task::Day,
        Some("books") => Task::Books,
        _ => return Err(format!("hold, day or books is needed\n{HELP}")),
    };
    let mut options = Options {
        task,
        kind: Kind::Gorgalhut,
        links: 3,
        held: 300,
        rounds: 1000,
        seed: 1,
    };
    while let Some(word) = words.next() {
        let value = words
            .next()
            .ok_or(format!("{word} needs a value\n{HELP}"))?;
        match word.as_str() {
            "--queue" => options.kind = kind(value)?,
            "--links" => options.links = number(word, value)?,
            "--held" => options.held = number(word, value)?,
            "--rounds" => options.rounds = number(word, value)?,
            "--seed" => options.seed = number(word, value)?,
            _ => return Err(format!("unknown option {word}\n{HELP}")),
        }
    }
    if !(1..=4).contains(&options.links) {
        return Err(format!("--links needs 1 to 4, not {}", options.links));
    }
    if options.held == 0 {
        return Err("--held needs at least 1".to_string());
    }
    Ok(options)
}

fn kind(value: &str) -> Result<Kind, String> {
    match value {
        "gorgalhut" => Ok(Kind::Gorgalhut),
        "binary" => Ok(Kind::Binary),
        "four-ary" => Ok(Kind::FourAry),
        "sorted" => Ok(Kind::Sorted),
        _ => Err(format!("no queue is called {value}\n{HELP}")),
    }
}

fn number<T: std::str::FromStr>(option: &str, value: &str) -> Result<T, String> {
    let bad = |_| format!("{option} needs a number, not {value}");
    value.parse().map_err(bad)
}
