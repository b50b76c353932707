//! The words of the command line.

pub const USAGE: &str = "\
usage: reference compare SUITE [--seed S] [--times N] [--step N] [--patience SECONDS] -- DRIVER WORDS...
       reference dump WHAT [--seed S] [--times N]
       reference dump meanings [--seed S] [--sheets N] [--plans N]
       reference answer
       reference compile

  compare  sends the requests of SUITE (dates, zones, frames, lines, plans or sheets; examples, limits_dates, limits_plans
           or limits_sheets, whose answers are written down) to the driver and compares its answers; a driver that sends
           no further answer for SECONDS (60 where none are given) is killed and has failed. With a step only every N-th
           request is sent, counted from one that the seed picks.
           Of the suite `program` the driver is the commissioning program, which is started for each sheet
  dump     prints WHAT (dates, rules, cron or zones) for the programs in peers/, or sheets and plans with
           their answers for tools/try-meanings
  answer   is a driver itself: request lines on standard input, answer lines on standard output
  compile  is the commissioning program itself: a sheet on standard input, its plan or its refusal on standard output";

/// The seed where none is given, so that a run without one can be repeated.
const DEFAULT_SEED: u64 = 1;

/// Seconds without an answer; the slowest answers take hundredths of one.
const DEFAULT_PATIENCE: u64 = 60;

pub enum Command {
    Compare {
        suite: String,
        options: Options,
        driver: Vec<String>,
    },
    Dump {
        what: String,
        options: Options,
    },
    Answer,
    Compile,
}

/// `--times N` makes N times as many random cases; `--step N` asks every N-th request; `--sheets N` and `--plans N` make so many.
pub struct Options {
    pub seed: u64,
    pub times: u64,
    pub step: usize,
    pub patience: u64,
    pub sheets: u64,
    pub plans: u64,
}

/// None if the words are none of the usage.
pub fn read(words: &[String]) -> Option<Command> {
    let (name, rest) = words.split_first()?;
    match name.as_str() {
        "compare" => {
            let (suite, rest) = rest.split_first()?;
            let end = rest.iter().position(|word| word == "--")?;
            Some(Command::Compare {
                suite: suite.clone(),
                options: read_options(&rest[..end])?,
                driver: rest[end + 1..].to_vec(),
            })
        }
        "dump" => {
            let (what, rest) = rest.split_first()?;
            Some(Command::Dump {
                what: what.clone(),
                options: read_options(rest)?,
            })
        }
        "answer" if rest.is_empty() => Some(Command::Answer),
        "compile" if rest.is_empty() => Some(Command::Compile),
        _ => None,
    }
}

fn read_options(words: &[String]) -> Option<Options> {
    let mut options = Options {
        seed: DEFAULT_SEED,
        times: 1,
        step: 1,
        patience: DEFAULT_PATIENCE,
        sheets: 200,
        plans: 200,
    };
    for pair in words.chunks(2) {
        let (name, value) = match pair {
            [name, value] => (name, value),
            _ => return None,
        };
        match name.as_str() {
            "--seed" => options.seed = value.parse().ok()?,
            "--times" => options.times = value.parse().ok()?,
            "--step" => options.step = value.parse().ok().filter(|&step| step > 0)?,
            "--patience" => options.patience = value.parse().ok()?,
            "--sheets" => options.sheets = value.parse().ok()?,
            "--plans" => options.plans = value.parse().ok()?,
            _ => return None,
        }
    }
    Some(options)
}
