//! The second program: everything that document 01 asks for, and what has landed of document 02,
//! written a second time, from the documents alone. It proves nothing. It is plain on purpose, so
//! that it can be laid beside the papers clause by clause, and its answers are compared with those
//! of the core.
//!
//! Subcommands, all from standard input to standard output:
//! - `ask`: answers a stream of requests, one line each (see ask.rs);
//! - `list`: five plate bytes, then a file; prints the passing rows (see list.rs);
//! - `make`: a description of a cabinet; writes the cabinet's file (see make.rs);
//! - `plate`: the same description; writes the five plate bytes;
//! - `catalogue`: the same description; prints the catalogue it names, one number a line;
//! - `generate SEED COUNT`: writes that many requests for `ask` (see generate.rs);
//! - `reach STREAM ANSWERS`: counts what such a stream reached, from two files (see reach.rs);
//! - `inputs SEED COUNT FOLDER`: writes that many inputs for `list`, a file each;
//! - `cases`: writes the stored stream of requests for `ask` (see cases.rs);
//! - `refusals`: prints which line of that stream reaches which refusal;
//! - `small FOLDER`: writes the stored cases that stand in a file each.

mod analysis;
mod ask;
mod bits;
mod cases;
mod checks;
mod cut;
mod draw;
mod file;
mod generate;
mod later;
mod lengths;
mod list;
mod listing;
mod make;
mod margins;
mod notes;
mod parts;
mod points;
mod random;
mod reach;
mod seal;
mod spoil;
mod table;
#[cfg(test)]
mod tests;

use std::fs::File;
use std::io::{self, BufReader, BufWriter, Read, Write};
use std::process::ExitCode;

/// What stops the program: a wrong command or description (status 2), or a stream that falls
/// short of what it is to reach, or a broken pipe, say (status 1). A refusal of the paper is an
/// answer and does not stop it.
pub enum Stop {
    Wrong(String),
    Short(String),
    Broken(io::Error),
}

impl From<io::Error> for Stop {
    fn from(error: io::Error) -> Stop {
        Stop::Broken(error)
    }
}

fn main() -> ExitCode {
    match run() {
        Ok(()) => ExitCode::SUCCESS,
        Err(Stop::Wrong(message)) => {
            eprintln!("second: {message}");
            ExitCode::from(2)
        }
        Err(Stop::Short(message)) => {
            eprintln!("{message}");
            ExitCode::from(1)
        }
        Err(Stop::Broken(error)) => {
            eprintln!("second: {error}");
            ExitCode::from(1)
        }
    }
}

fn run() -> Result<(), Stop> {
    let commands: Vec<String> = std::env::args().skip(1).collect();
    let [command, rest @ ..] = commands.as_slice() else {
        return Err(usage());
    };
    match (command.as_str(), rest) {
        ("generate", [seed, count]) => return generate(number(seed)?, number(count)?),
        ("reach", [stream, answers]) => return reach(stream, answers),
        ("small", [folder]) => return Ok(cases::small(folder)?),
        ("inputs", [seed, count, folder]) => return inputs(number(seed)?, number(count)?, folder),
        (_, []) => {}
        _ => return Err(usage()),
    }
    let input = io::stdin().lock();
    let mut output = BufWriter::new(io::stdout().lock());
    match command.as_str() {
        "ask" => ask::run(input, &mut output)?,
        "list" => list::run(input, &mut output)?,
        "cases" => output.write_all(&cases::stream())?,
        "refusals" => output.write_all(cases::refusals().as_bytes())?,
        "make" => output.write_all(&make::file(&whole_text(input)?)?)?,
        "plate" => output.write_all(&make::plate(&whole_text(input)?)?)?,
        "catalogue" => output.write_all(make::catalogue(&whole_text(input)?)?.as_bytes())?,
        _ => return Err(usage()),
    }
    output.flush()?;
    Ok(())
}

fn usage() -> Stop {
    Stop::Wrong(
        "give one of: ask list make plate catalogue generate reach inputs cases refusals small"
            .to_string(),
    )
}

fn number(text: &str) -> Result<u64, Stop> {
    text.parse()
        .map_err(|_| Stop::Wrong(format!("not a number: {text}")))
}

fn generate(seed: u64, count: u64) -> Result<(), Stop> {
    let mut output = BufWriter::new(io::stdout().lock());
    let mut broken = None;
    generate::stream(seed, count, &mut |request| {
        if let Err(error) = output.write_all(request) {
            broken = Some(error);
        }
    });
    output.flush()?;
    broken.map_or(Ok(()), |error| Err(Stop::Broken(error)))
}

fn reach(stream: &str, answers: &str) -> Result<(), Stop> {
    let requests = BufReader::new(File::open(stream)?);
    let answers = BufReader::new(File::open(answers)?);
    reach::run(requests, answers, &mut io::stdout().lock())
}

fn inputs(seed: u64, count: u64, folder: &str) -> Result<(), Stop> {
    let random = &mut random::Random::new(seed);
    for k in 0..count {
        std::fs::write(format!("{folder}/{k}"), generate::input(random, k))?;
    }
    Ok(())
}

fn whole_text(mut input: impl Read) -> Result<String, Stop> {
    let mut text = String::new();
    input.read_to_string(&mut text)?;
    Ok(text)
}
