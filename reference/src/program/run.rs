//! The program as a child process: the sheet to its standard input, all that it writes from its standard output and error.

use std::fs::File;
use std::io::{self, Read, Write};
use std::os::unix::io::OwnedFd;
use std::os::unix::net::{UnixDatagram, UnixStream};
use std::os::unix::process::ExitStatusExt;
use std::process::{Child, Command, ExitStatus, Stdio};
use std::sync::mpsc::{self, Receiver};
use std::thread;
use std::time::Duration;

use super::{Case, End, Ended, Input, Output};
use crate::driver::wait_for_end;

/// No answer is so long; of a program that goes on the rest is not read, which ends it.
const LONGEST: u64 = 1 << 16;

/// What feeds the program once it runs.
type Feeding = Box<dyn FnOnce() -> io::Result<()> + Send>;

/// Runs the program for the case; an error if it has to be killed.
///
/// Feeding and reading are threads of their own and not waited for, as in `driver`. A program that stops reading is no
/// fault of the feeding, which then ends.
pub fn run(words: &[String], case: Case, patience: Duration) -> io::Result<Ended> {
    let unread = matches!(case.output, Output::Unread);
    let (mut child, feeding) = start(words, case)?;
    let output = child.stdout.take().filter(|_| !unread);
    let (output, errors) = (all_of(output), all_of(child.stderr.take()));
    thread::spawn(feeding);
    let status = wait_for_end(&mut child, patience)?;
    let rest = |bytes: Receiver<_>| {
        let read = bytes.recv_timeout(patience);
        read.unwrap_or_else(|_| Err(late(patience)))
    };
    Ok(Ended {
        end: end_of(status.ok_or_else(|| late(patience))?),
        output: rest(output)?,
        errors: rest(errors)?,
    })
}

fn end_of(status: ExitStatus) -> End {
    match status.signal() {
        Some(signal) => End::Signal(signal),
        None => End::Status(status.code().unwrap_or_default()),
    }
}

fn late(patience: Duration) -> io::Error {
    let why = format!("no end for {} s: killed", patience.as_secs());
    io::Error::new(io::ErrorKind::TimedOut, why)
}

fn start(words: &[String], case: Case) -> io::Result<(Child, Feeding)> {
    let mut command = command(words, &case);
    command.stdout(match case.output {
        Output::Full => Stdio::from(File::options().write(true).open("/dev/full")?),
        _ => Stdio::piped(),
    });
    command.stderr(Stdio::piped());
    match case.input {
        Input::AtOnce => at_once(command, case.sheet),
        Input::ByteByByte => {
            let lengths = vec![1; case.sheet.len()];
            in_pieces(command, case.sheet, lengths)
        }
        Input::InPieces(lengths) => in_pieces(command, case.sheet, lengths),
        Input::Failing => failing(command, case.sheet),
        Input::Closed => Ok((command.spawn()?, Box::new(|| Ok(())))),
    }
}

/// What is closed a shell closes, which the program then replaces.
fn command(words: &[String], case: &Case) -> Command {
    let closed = match (&case.input, &case.output) {
        (Input::Closed, _) => "<&-",
        (_, Output::Closed) => ">&-",
        _ => "",
    };
    let mut command = Command::new("sh");
    command.args(["-c", &format!("exec \"$@\" {closed}"), "sh"]);
    command.args(words);
    command
}

/// A pipe takes 65,536 bytes by one write.
fn at_once(mut command: Command, sheet: Vec<u8>) -> io::Result<(Child, Feeding)> {
    let mut child = command.stdin(Stdio::piped()).spawn()?;
    let pipe = child.stdin.take();
    let send = move || pipe.map_or(Ok(()), |mut pipe| pipe.write_all(&sheet));
    Ok((child, Box::new(send)))
}

/// A read gets one datagram, whatever comes after it; an empty one reads as the end.
fn in_pieces(
    mut command: Command,
    sheet: Vec<u8>,
    lengths: Vec<usize>,
) -> io::Result<(Child, Feeding)> {
    let (ours, theirs) = UnixDatagram::pair()?;
    let child = command.stdin(OwnedFd::from(theirs)).spawn()?;
    let send = move || {
        let mut rest = sheet.as_slice();
        for length in lengths {
            let (piece, others) = rest.split_at(length);
            ours.send(piece)?;
            rest = others;
        }
        ours.send(b"").map(|_| ())
    };
    Ok((child, Box::new(send)))
}

/// Where one end of a stream is closed before all that came there was read, reading at the other end fails, after what was
/// sent before.
fn failing(mut command: Command, sheet: Vec<u8>) -> io::Result<(Child, Feeding)> {
    let (mut ours, mut theirs) = UnixStream::pair()?;
    theirs.write_all(b"never read")?;
    let child = command.stdin(OwnedFd::from(theirs)).spawn()?;
    let send = move || ours.write_all(&sheet);
    Ok((child, Box::new(send)))
}

/// All that comes from a pipe, up to the longest; nothing where there is none.
fn all_of(pipe: Option<impl Read + Send + 'static>) -> Receiver<io::Result<Vec<u8>>> {
    let (sender, receiver) = mpsc::channel();
    thread::spawn(move || {
        let mut all = Vec::new();
        let read = pipe.map_or(Ok(0), |pipe| pipe.take(LONGEST).read_to_end(&mut all));
        sender.send(read.map(|_| all))
    });
    receiver
}
