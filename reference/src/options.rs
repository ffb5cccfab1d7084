//! What the command line asks for.

/// What the program is told to do.
#[derive(Clone, Debug, PartialEq, Eq)]
pub struct Options {
    pub help: bool,
    pub limits: bool,
    pub late: bool,
    pub counts: bool,
    pub generate: bool,
    pub plain: bool,
    pub array: usize,
    pub work: usize,
    pub seed: u64,
    pub lines: usize,
    pub links: Option<usize>,
}

pub const HELP: &str = "\
reference                  read frames on standard input, write answer lines
  --array N                words of the lent array, all zeros (2628)
  --work N                 words of the work area (960)
  --counts                 after each answer line, a line of counters and counts:
                           L=links c=c(1),.. I=count link:A,B,inner ..,S .. and so on
reference --generate       write a seeded random session of frames
  --seed N                 the seed (1)
  --lines N                how many lines (1000)
  --links L                every accepted setup has L links (1 to 3 at random);
                           for 4, give --array 28436 --work 17280 here as well
  --plain                  valid orders only, with many ties
  --array N, --work N      the memory the session is meant for, as above
reference --late           read pairs of due and acting tick on standard input, write
                           how early or late each door was, or why there is no report
reference --generate --late
                           write a seeded random day of lines for it, so many as it has
  --seed N                 the seed (1)
reference --limits         print for each number of links how large a queue is
                           and how long one call can run
reference --help           this text
";

impl Default for Options {
    /// "The program starts with 2,628 zero words and 960 work words".
    fn default() -> Options {
        Options {
            help: false,
            limits: false,
            late: false,
            counts: false,
            generate: false,
            plain: false,
            array: 2628,
            work: 960,
            seed: 1,
            lines: 1000,
            links: None,
        }
    }
}

impl Options {
    /// Pairs are to be read, not generated.
    pub fn only_late(&self) -> bool {
        self.late && !(self.help || self.limits || self.generate)
    }
}

/// Reads the command line, without the program's own name.
pub fn read_options(arguments: &[String]) -> Result<Options, String> {
    let mut options = Options::default();
    let mut words = arguments.iter();
    while let Some(word) = words.next() {
        match word.as_str() {
            "--help" => options.help = true,
            "--limits" => options.limits = true,
            "--late" => options.late = true,
            "--counts" => options.counts = true,
            "--generate" => options.generate = true,
            "--plain" => options.plain = true,
            "--array" => options.array = number(word, words.next())?,
            "--work" => options.work = number(word, words.next())?,
            "--seed" => options.seed = number(word, words.next())?,
            "--lines" => options.lines = number(word, words.next())?,
            "--links" => options.links = Some(links(number(word, words.next())?)?),
            _ => return Err(format!("unknown option {word}")),
        }
    }
    Ok(options)
}

fn number<T: std::str::FromStr>(option: &str, value: Option<&String>) -> Result<T, String> {
    let value = value.ok_or(format!("{option} needs a number"))?;
    let bad = |_| format!("{option} needs a number, not {value}");
    value.parse().map_err(bad)
}

/// A session can only be fixed to a link number that a setup accepts.
fn links(number: usize) -> Result<usize, String> {
    if (1..=crate::links::MOST_LINKS).contains(&number) {
        Ok(number)
    } else {
        Err(format!("--links is 1 to 4, not {number}"))
    }
}
