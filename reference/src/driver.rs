//! The C driver as a child process: request lines to its standard input, answer lines from its standard output.

use std::io::{self, BufRead, BufReader, BufWriter, Read, Write};
use std::process::{Child, Command, ExitStatus, Stdio};
use std::sync::atomic::{AtomicUsize, Ordering};
use std::sync::mpsc::{self, Receiver};
use std::sync::Arc;
use std::thread;
use std::time::{Duration, Instant};

pub struct Answers {
    pub lines: Vec<String>,
    pub status: ExitStatus,
}

/// No answer is longer; a line that goes on is cut here and ends the reading.
const LONGEST_LINE: u64 = 1 << 20;

/// Starts the driver, sends it all requests, closes its input and reads what it answers. A driver that sends no
/// further answer for as long as the patience lasts, or answers and does not end, is killed: an error.
///
/// Sending and reading are threads of their own, so that two full pipes cannot wait for each other. They are not
/// waited for: a child of the driver's may keep the pipes open after it.
pub fn ask(
    words: &[String],
    requests: &Arc<Vec<String>>,
    patience: Duration,
) -> io::Result<Answers> {
    let mut child = start(words)?;
    if let Some(pipe) = child.stdin.take() {
        let requests = Arc::clone(requests);
        thread::spawn(move || send(pipe, &requests));
    }
    let pipe = child.stdout.take();
    let pipe = pipe.ok_or_else(|| io::Error::new(io::ErrorKind::Other, "no answers to read"))?;
    let answered = Arc::new(AtomicUsize::new(0));
    let (sender, receiver) = mpsc::channel();
    let (asked, counter) = (requests.len(), Arc::clone(&answered));
    thread::spawn(move || sender.send(receive(pipe, asked, &counter)));
    let read = wait_for_lines(&receiver, &answered, patience);
    if !matches!(&read, Some(Ok(lines)) if are_the_end(lines, asked)) {
        child.kill()?; // it would wait, or go on answering what nobody asked
    }
    let status = wait_for_end(&mut child, patience)?;
    match (read, status) {
        (Some(lines), Some(status)) => lines.map(|lines| Answers { lines, status }),
        _ => Err(late(answered.load(Ordering::Relaxed), asked, patience)),
    }
}

fn start(words: &[String]) -> io::Result<Child> {
    let (program, arguments) = words
        .split_first()
        .ok_or_else(|| io::Error::new(io::ErrorKind::InvalidInput, "no driver given"))?;
    Command::new(program)
        .args(arguments)
        .stdin(Stdio::piped())
        .stdout(Stdio::piped())
        .spawn()
}

fn late(answered: usize, asked: usize, patience: Duration) -> io::Error {
    let seconds = patience.as_secs();
    let why =
        format!("{answered} of {asked} answers, then nothing and no end for {seconds} s: killed");
    io::Error::new(io::ErrorKind::TimedOut, why)
}

/// The lines when the driver has closed its output; none where the count of them has stood still too long.
fn wait_for_lines<Lines>(
    receiver: &Receiver<Lines>,
    answered: &AtomicUsize,
    patience: Duration,
) -> Option<Lines> {
    let mut seen = 0;
    loop {
        if let Ok(lines) = receiver.recv_timeout(patience) {
            return Some(lines);
        }
        let now = answered.load(Ordering::Relaxed);
        if now == seen {
            return None;
        }
        seen = now;
    }
}

/// The exit status; none if the child had to be killed for it.
pub fn wait_for_end(child: &mut Child, patience: Duration) -> io::Result<Option<ExitStatus>> {
    let began = Instant::now();
    while began.elapsed() < patience {
        if let Some(status) = child.try_wait()? {
            return Ok(Some(status));
        }
        thread::sleep(Duration::from_millis(1));
    }
    child.kill()?;
    child.wait()?;
    Ok(None)
}

/// A driver that stops reading is seen by its missing answers, so a failed write only ends the sending.
fn send(pipe: impl Write, requests: &[String]) {
    let mut pipe = BufWriter::new(pipe);
    for request in requests {
        if writeln!(pipe, "{request}").is_err() {
            return;
        }
    }
}

/// Whether the reading ended with the output: not by a line too many or too long.
fn are_the_end(lines: &[String], asked: usize) -> bool {
    let longest = lines.last().map_or(0, String::len);
    lines.len() <= asked && (longest as u64) < LONGEST_LINE
}

/// The lines without LF, at most one more than was asked for. A tail without LF is marked, so that it
/// equals no wanted line.
fn receive(pipe: impl Read, asked: usize, answered: &AtomicUsize) -> io::Result<Vec<String>> {
    let mut reader = BufReader::new(pipe);
    let mut lines = Vec::new();
    let mut line = Vec::new();
    while lines.len() <= asked
        && (&mut reader)
            .take(LONGEST_LINE)
            .read_until(b'\n', &mut line)?
            > 0
    {
        match line.strip_suffix(b"\n") {
            Some(whole) => lines.push(String::from_utf8_lossy(whole).into_owned()),
            None => {
                let tail = String::from_utf8_lossy(&line);
                lines.push(format!("{tail} (without LF)"));
                break;
            }
        }
        answered.store(lines.len(), Ordering::Relaxed);
        line.clear();
    }
    Ok(lines)
}
