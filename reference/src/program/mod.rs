//! The suite `program`: the commissioning program, started anew for each sheet. All that it writes, on standard output and
//! on standard error, and how it ends is compared.

pub mod cases;

mod run;

use std::fmt;
use std::io;
use std::time::Duration;

use crate::compare::Tally;
use crate::entries::compile;
use crate::sheet::MOST_BYTES;
use crate::shown::shown;

/// How the bytes of a sheet come.
pub enum Input {
    /// All by one write into a pipe.
    AtOnce,
    /// One to a read, however many it asks for.
    ByteByByte,
    /// A piece to a read, of these lengths.
    InPieces(Vec<usize>),
    /// All, and then a read fails instead of finding the end.
    Failing,
    /// None: standard input is closed.
    Closed,
}

/// Where standard output goes.
pub enum Output {
    Taken,
    /// A pipe that nobody reads any more.
    Unread,
    /// A device that is full.
    Full,
    Closed,
}

pub struct Case {
    pub sheet: Vec<u8>,
    pub input: Input,
    pub output: Output,
}

/// How a program ended, and all that it wrote.
pub struct Ended {
    pub end: End,
    pub output: Vec<u8>,
    pub errors: Vec<u8>,
}

pub enum End {
    Status(i32),
    Signal(i32),
}

/// The error of a write into a pipe that nobody reads.
const BROKEN_PIPE: i32 = 32;

impl fmt::Display for Case {
    fn fmt(&self, to: &mut fmt::Formatter) -> fmt::Result {
        let input = match &self.input {
            Input::AtOnce => "at once".to_string(),
            Input::ByteByByte => "byte by byte".to_string(),
            Input::InPieces(lengths) => format!("in pieces of {lengths:?}"),
            Input::Failing => "then a read fails".to_string(),
            Input::Closed => "standard input closed".to_string(),
        };
        let output = match self.output {
            Output::Taken => "",
            Output::Unread => ", standard output not read",
            Output::Full => ", standard output full",
            Output::Closed => ", standard output closed",
        };
        write!(to, "{input}{output}: {}", shown(&self.sheet))
    }
}

impl fmt::Display for Ended {
    fn fmt(&self, to: &mut fmt::Formatter) -> fmt::Result {
        match self.end {
            End::Status(status) => write!(to, "exit status {status}")?,
            End::Signal(signal) => write!(to, "signal {signal}")?,
        }
        let (output, errors) = (shown(&self.output), shown(&self.errors));
        write!(to, ", output \"{output}\", errors \"{errors}\"")
    }
}

/// "writes its plan, or the refusal number, a space, the line number and LF".
pub fn written(sheet: &[u8]) -> String {
    let (compiled, plan) = compile(sheet, usize::MAX);
    match compiled.number {
        0 => plan,
        number => format!("{number} {}\n", compiled.line),
    }
}

impl Case {
    /// Whether no read fails. After the first byte that is too much there is none.
    fn is_read(&self) -> bool {
        match self.input {
            Input::Closed => false,
            Input::Failing => self.sheet.len() > MOST_BYTES,
            _ => true,
        }
    }

    /// Where a read fails nothing is written. Where writing fails nothing is said of it, but that the error of a pipe that nobody reads
    /// ends the program: it leaves the signal for that to no one.
    fn wanted(&self) -> Ended {
        let answer = match self.is_read() {
            true => written(&self.sheet).into_bytes(),
            false => Vec::new(),
        };
        let error = io::Error::from_raw_os_error(BROKEN_PIPE);
        let (status, output, errors) = match self.output {
            Output::Taken => (0, answer, String::new()),
            Output::Unread => (1, Vec::new(), format!("Error: {error:?}\n")),
            Output::Full | Output::Closed => (0, Vec::new(), String::new()),
        };
        Ended {
            end: End::Status(status),
            output,
            errors: errors.into_bytes(),
        }
    }
}

/// Runs the program for each case. One that does not start, or does not end within the patience, ends the comparison.
pub fn compare(
    words: &[String],
    patience: Duration,
    cases: impl IntoIterator<Item = Case>,
) -> Tally {
    let mut tally = Tally::default();
    for case in cases {
        let (shown, wanted) = (case.to_string(), case.wanted().to_string());
        match run::run(words, case, patience) {
            Ok(ended) => tally.answer(&shown, &wanted, &ended.to_string()),
            Err(error) => {
                tally.difference(&shown, &wanted, &error.to_string());
                break;
            }
        }
    }
    tally
}
