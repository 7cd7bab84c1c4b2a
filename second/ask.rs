//! The ask protocol: every call from a stream of requests, each answered by one line with the
//! whole of the memory that was lent. All numbers are big-endian.
//!
//! A request is kind (1 byte), length of the body (2 bytes, at most 4,096), body. One that breaks
//! the protocol prints `bad request` and ends the program.

use crate::analysis::Response;
use crate::checks::Refusal;
use crate::file::Edition;
use crate::points::Verdict;
use crate::table::*;
use crate::{analysis, file, lengths, listing, parts, points};
use std::fmt::{Display, Write as _};
use std::io::{self, BufRead, BufReader, Read, Write};

/// Every byte of an output is filled with this before it is lent.
const FILL: u8 = 0xA5;

pub fn run(input: impl Read, output: &mut impl Write) -> io::Result<()> {
    let mut input = BufReader::new(input);
    loop {
        // Whoever waits for an answer before asking on gets it: nothing is held back while this
        // program itself waits.
        if input.buffer().is_empty() {
            output.flush()?;
        }
        if input.fill_buf()?.is_empty() {
            return Ok(());
        }
        match answer_next(&mut input)? {
            Some(line) => writeln!(output, "{line}")?,
            None => return writeln!(output, "bad request"),
        }
    }
}

/// The answer to the next request; `None` is a bad request.
fn answer_next(input: &mut impl Read) -> io::Result<Option<String>> {
    let mut head = [0; 3];
    if !filled(input, &mut head)? {
        return Ok(None);
    }
    let [kind, high, low] = head;
    let mut body = vec![0; u16::from_be_bytes([high, low]) as usize];
    if body.len() > longest_body(kind) || !filled(input, &mut body)? {
        return Ok(None);
    }
    Ok(answer(kind, Body(&body)))
}

/// Fills the buffer; says no if the input ends inside.
fn filled(input: &mut impl Read, buffer: &mut [u8]) -> io::Result<bool> {
    match input.read_exact(buffer) {
        Ok(()) => Ok(true),
        Err(error) if error.kind() == io::ErrorKind::UnexpectedEof => Ok(false),
        Err(error) => Err(error),
    }
}

fn answer(kind: u8, body: Body) -> Option<String> {
    match kind {
        1 => read(body),
        2 => write(Edition::One.number(), body),
        3 => response_times(body),
        4 => tolerances(body),
        5 => lengths(body),
        6 => region_check(body),
        7 => first_row(body),
        8 => next_row(body),
        9 => record(body),
        10 => regions(body),
        11 => name(body),
        12 => last_region(body),
        13 => fixed_points(body),
        14 => write_edition(body),
        _ => None,
    }
}

/// What is left of a request's body. Each piece is `None` where the body is too short for it.
pub struct Body<'a>(pub &'a [u8]);

impl<'a> Body<'a> {
    fn part(&mut self, length: usize) -> Option<&'a [u8]> {
        let (part, rest) = self.0.split_at_checked(length)?;
        self.0 = rest;
        Some(part)
    }

    pub fn one(&mut self) -> Option<u8> {
        Some(self.part(1)?[0])
    }

    pub fn two(&mut self) -> Option<u16> {
        Some(u16::from_be_bytes(self.part(2)?.try_into().ok()?))
    }

    fn four(&mut self) -> Option<u32> {
        Some(u32::from_be_bytes(self.part(4)?.try_into().ok()?))
    }

    pub fn plate(&mut self) -> Option<Plate> {
        Some(Plate {
            cabinet: self.four()?,
            line: self.two()?,
        })
    }

    pub fn bytes(&mut self) -> Option<&'a [u8]> {
        let count = self.two()?;
        self.part(count as usize)
    }

    pub fn words(&mut self) -> Option<Vec<u32>> {
        let count = self.two()?;
        (0..count).map(|_| self.four()).collect()
    }

    pub fn table(&mut self) -> Option<Table> {
        let mut table = Table {
            n: self.one()?,
            ..Table::default()
        };
        for record in &mut table.records {
            *record = self.record()?;
        }
        Some(table)
    }

    fn record(&mut self) -> Option<Record> {
        Some(Record {
            cost: self.four()?,
            period: self.four()?,
            deadline: self.four()?,
            priority: self.four()?,
            threshold: self.four()?,
            source: Source::from_number(self.four()?),
            first: self.four()?,
            count: self.four()?,
            name: self.four()?,
            jitter: self.four()?,
        })
    }

    /// `None` if bytes are left over. Asked before the call is made.
    fn end(&self) -> Option<()> {
        self.0.is_empty().then_some(())
    }
}

fn read(mut body: Body) -> Option<String> {
    let plate = body.plate()?;
    let mut out = lent_words(body.two()?);
    let catalogue = body.words()?;
    let file = body.bytes()?;
    body.end()?;
    let read = file::read(plate, &catalogue, file, &mut out);
    let answer = read.map(|(edition, table)| {
        let number = edition.number();
        format!("{} edition {number}", table_text(&table))
    });
    Some(line(answer) + " out" + &spaced(&out))
}

fn write_edition(mut body: Body) -> Option<String> {
    let edition = body.one()?;
    write(edition, body)
}

/// Writing once the edition is known: kind 2 has no place for it and writes edition 1.
fn write(edition: u8, mut body: Body) -> Option<String> {
    let plate = body.plate()?;
    let mut out = lent_bytes(body.two()?);
    let table = body.table()?;
    let own = body.words()?;
    let catalogue = body.words()?;
    body.end()?;
    let length = file::write(edition, plate, &table, &own, &catalogue, &mut out);
    let answer = length.map(|length| format!("file {length}"));
    Some(line(answer) + " out" + &hexadecimal(&out))
}

fn response_times(mut body: Body) -> Option<String> {
    let table = body.table()?;
    body.end()?;
    let answer = analysis::response_times(&table).map(|responses| times_text(&responses));
    Some(line(answer))
}

fn tolerances(mut body: Body) -> Option<String> {
    let table = body.table()?;
    body.end()?;
    let answer = lengths::tolerances(&table).map(|all| format!("tolerances{}", spaced(&all)));
    Some(line(answer))
}

fn lengths(mut body: Body) -> Option<String> {
    let table = body.table()?;
    body.end()?;
    let answer = lengths::lengths(&table).map(|all| format!("lengths{}", spaced(&all)));
    Some(line(answer))
}

fn region_check(mut body: Body) -> Option<String> {
    let table = body.table()?;
    let own = body.words()?;
    let catalogue = body.words()?;
    body.end()?;
    let answer = lengths::regions_fit(&table, &own, &catalogue).map(fits_text);
    Some(line(answer))
}

fn first_row(mut body: Body) -> Option<String> {
    let mut out = lent_bytes(body.two()?);
    let table = body.table()?;
    body.end()?;
    let answer = listing::first_row(&table, &mut out).map(row_text);
    Some(line(answer) + " out" + &spaced(&out))
}

fn next_row(mut body: Body) -> Option<String> {
    let mut out = lent_bytes(body.two()?);
    let table = body.table()?;
    let row = body.bytes()?;
    body.end()?;
    let answer = listing::next_row(&table, row, &mut out).map(row_text);
    Some(line(answer) + " out" + &spaced(&out))
}

fn record(mut body: Body) -> Option<String> {
    let plate = body.plate()?;
    let number = body.two()?;
    let catalogue = body.words()?;
    let file = body.bytes()?;
    body.end()?;
    let part = parts::record(plate, &catalogue, file, number);
    let answer = part.map(|bytes| format!("record{}", hexadecimal(bytes)));
    Some(line(answer))
}

fn regions(mut body: Body) -> Option<String> {
    let number = body.two()?;
    let table = body.table()?;
    let own = body.words()?;
    let catalogue = body.words()?;
    body.end()?;
    let part = parts::regions(&table, &own, &catalogue, number);
    let answer = part.map(|words| format!("regions{}", spaced(words)));
    Some(line(answer))
}

fn name(mut body: Body) -> Option<String> {
    let number = body.two()?;
    let cabinet = body.bytes()?;
    let house = body.bytes()?;
    body.end()?;
    let part = parts::name(number as u32, cabinet, house);
    let answer = part.map(|bytes| format!("name{}", hexadecimal(bytes)));
    Some(line(answer))
}

fn last_region(mut body: Body) -> Option<String> {
    let number = body.two()?;
    let table = body.table()?;
    let own = body.words()?;
    let catalogue = body.words()?;
    body.end()?;
    let part = parts::last_region(&table, &own, &catalogue, number);
    let answer = part.map(|word| format!("last{}", spaced(word)));
    Some(line(answer))
}

fn fixed_points(mut body: Body) -> Option<String> {
    let table = body.table()?;
    let own = body.words()?;
    let catalogue = body.words()?;
    body.end()?;
    let answer = points::fixed_points(&table, &own, &catalogue).map(|all| points_text(&all));
    Some(line(answer))
}

fn lent_bytes(room: u16) -> Vec<u8> {
    vec![FILL; room as usize]
}

fn lent_words(room: u16) -> Vec<u32> {
    vec![u32::from_be_bytes([FILL; 4]); room as usize]
}

fn line(answer: Result<String, Refusal>) -> String {
    answer.unwrap_or_else(|refusal| refusal.to_string())
}

fn table_text(table: &Table) -> String {
    let mut text = format!("table {}", table.n);
    for task in table.tasks() {
        text += &spaced(&[
            task.cost,
            task.period,
            task.deadline,
            task.priority,
            task.threshold,
        ]);
        text += &spaced(&[task.source.bit(), task.first, task.count, task.name]);
        text += &spaced(&[task.jitter]);
    }
    text
}

/// The times of all tasks, then the worst job of each (document 02, item 4).
fn times_text(responses: &[Option<Response>]) -> String {
    let mut times = String::from("times");
    let mut jobs = String::from(" jobs");
    for response in responses {
        match response {
            Some(Response { time, job }) => {
                times += &format!(" {time}");
                jobs += &format!(" {job}");
            }
            None => {
                times += " beyond";
                jobs += " -";
            }
        }
    }
    times + &jobs
}

fn fits_text(fits: bool) -> String {
    String::from(if fits { "fits" } else { "unfit" })
}

/// The test is sufficient only, so its second word isn't "fails".
fn points_text(verdicts: &[Verdict]) -> String {
    let mut text = String::from("points");
    for verdict in verdicts {
        text += match verdict {
            Verdict::Passes => " passes",
            Verdict::Unshown => " unshown",
        };
    }
    text
}

fn row_text(found: bool) -> String {
    String::from(if found { "row" } else { "end" })
}

/// Each number behind one space, so that an empty list leaves no space at the line's end.
fn spaced<T: Display>(numbers: &[T]) -> String {
    let mut text = String::new();
    for number in numbers {
        let _ = write!(text, " {number}");
    }
    text
}

/// The bytes in one run behind one space, nothing where there are none.
fn hexadecimal(bytes: &[u8]) -> String {
    let mut text = String::new();
    for (place, byte) in bytes.iter().enumerate() {
        let gap = if place == 0 { " " } else { "" };
        let _ = write!(text, "{gap}{byte:02x}");
    }
    text
}
