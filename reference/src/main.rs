use std::io::{self, BufRead, BufWriter, Write};
use std::process::ExitCode;
use std::time::Duration;

use reference::command_line::{read, Command, Options, USAGE};
use reference::sheet::MOST_BYTES;
use reference::{
    answer, cases_dates, cases_frames, cases_lines, cases_plans, cases_sheets, cases_zones,
    compare, dump, meanings, program, tables,
};

fn main() -> ExitCode {
    let words: Vec<String> = std::env::args().skip(1).collect();
    let done = match read(&words) {
        Some(Command::Compare {
            suite,
            options,
            driver,
        }) => compare_suite(&suite, &options, &driver),
        Some(Command::Dump { what, options }) => dump_what(&what, &options),
        Some(Command::Answer) => answer_requests(),
        Some(Command::Compile) => compile_sheet(),
        None => Err(io::Error::new(io::ErrorKind::InvalidInput, USAGE)),
    };
    match done {
        Ok(code) => code,
        Err(error) => {
            eprintln!("{error}");
            ExitCode::from(2)
        }
    }
}

fn unknown(what: &str) -> io::Error {
    io::Error::new(io::ErrorKind::InvalidInput, format!("unknown: {what}"))
}

fn compare_suite(suite: &str, options: &Options, driver: &[String]) -> io::Result<ExitCode> {
    let (seed, times, step) = (options.seed, options.times, options.step);
    let patience = Duration::from_secs(options.patience);
    println!("suite {suite}, seed {seed}, times {times}, step {step}");
    let driven = |requests: Box<dyn Iterator<Item = String>>| {
        compare::compare(driver, patience, asked(requests, options))
    };
    let tally = match suite {
        "dates" => driven(cases_dates::requests(seed, times)),
        "frames" => driven(cases_frames::requests(seed, times)),
        "lines" => driven(cases_lines::requests(seed, times)),
        "plans" => driven(cases_plans::requests(seed, times)),
        "program" => {
            let cases = program::cases::all(seed, times).into_iter();
            program::compare(driver, patience, asked(cases, options))
        }
        "sheets" => driven(cases_sheets::requests(seed, times)),
        "zones" => driven(cases_zones::requests(seed, times)),
        table => {
            let rows = tables::rows(table).ok_or_else(|| unknown(table))?;
            let rows: Vec<_> = asked(rows.into_iter(), options).collect();
            tables::compare(driver, patience, &rows)
        }
    };
    println!(
        "compared {} answers, {} differ",
        tally.compared, tally.differ
    );
    Ok(if tally.is_good() {
        ExitCode::SUCCESS
    } else {
        ExitCode::FAILURE
    })
}

/// Every one, or with a step a slice, another for another seed.
fn asked<Case>(all: impl Iterator<Item = Case>, options: &Options) -> impl Iterator<Item = Case> {
    let first = options.seed % options.step as u64;
    all.skip(first as usize).step_by(options.step)
}

fn dump_what(what: &str, options: &Options) -> io::Result<ExitCode> {
    let mut out = BufWriter::new(io::stdout().lock());
    match what {
        "dates" => dump::dates(&mut out)?,
        "rules" => dump::rules(options.seed, options.times, &mut out)?,
        "cron" => dump::cron(options.seed, options.times, &mut out)?,
        "zones" => dump::zones(options.seed, options.times, &mut out)?,
        "meanings" => meanings::dump(options.seed, options.sheets, options.plans, &mut out)?,
        _ => return Err(unknown(what)),
    }
    out.flush()?;
    Ok(ExitCode::SUCCESS)
}

/// The reference as a driver: what it compares with itself shows that the comparison works.
fn answer_requests() -> io::Result<ExitCode> {
    let mut out = BufWriter::new(io::stdout().lock());
    for request in io::stdin().lock().lines() {
        let request = request?;
        let line = answer::answer(&request).ok_or_else(|| unknown(&request))?;
        writeln!(out, "{line}")?;
    }
    out.flush()?;
    Ok(ExitCode::SUCCESS)
}

/// The reference as the commissioning program. Where a read fails nothing is written; that nothing can be written is not said.
fn compile_sheet() -> io::Result<ExitCode> {
    if let Ok(sheet) = read_sheet(io::stdin().lock()) {
        let _ = io::stdout().write_all(program::written(&sheet).as_bytes());
    }
    Ok(ExitCode::SUCCESS)
}

/// What comes up to the end, or enough to be too long.
fn read_sheet(mut input: impl BufRead) -> io::Result<Vec<u8>> {
    let mut sheet = Vec::new();
    while sheet.len() <= MOST_BYTES {
        let part = input.fill_buf()?;
        let length = part.len();
        if length == 0 {
            break;
        }
        sheet.extend_from_slice(part);
        input.consume(length);
    }
    Ok(sheet)
}
