//! A cabinet's file out of a short text, one line for each thing:
//!
//! ```text
//! # anything behind a hash is a comment
//! cabinet 70001
//! line 12
//! edition 2
//! task cost 2 period 5 deadline 6 priority 1 threshold 1 own 0 1 name 3
//! task cost 4 period 10 deadline 10 priority 2 threshold 1 catalogue 0 2 name 64 jitter 3
//! regions 2
//! catalogue 3 1
//! damage 9 0
//! ```
//!
//! `cabinet` and `line` stand once each, `edition` once or not at all: the file is of edition 1 where
//! nothing is said. A `task` line is one record, its words always in this order; `own FIRST COUNT` or
//! `catalogue FIRST COUNT` names its regions, and a task without a `jitter` has none. `regions` are the
//! file's own region words and `catalogue` the lent catalogue's, which goes into no file; more
//! such lines go on where the last one ended. `damage BYTE BIT` flips a bit of the sealed file:
//! bytes are counted from 0, and bit 0 is the most significant one, the first in the file.
//!
//! The table goes through the writer, so a description that the writer turns away makes nothing.

use crate::file::{self, Edition};
use crate::table::*;
use crate::Stop;

struct Description {
    plate: Plate,
    /// As the writer is told it, so anything but 1 and 2 makes nothing.
    edition: u8,
    table: Table,
    own: Vec<u32>,
    catalogue: Vec<u32>,
    damage: Vec<(usize, u32)>,
}

/// The file, damaged where the description says so.
pub fn file(text: &str) -> Result<Vec<u8>, Stop> {
    let (description, mut file) = understood(text)?;
    for (byte, bit) in description.damage {
        file[byte] ^= 0x80 >> bit;
    }
    Ok(file)
}

/// Five plate bytes: cabinet 24, line 16.
pub fn plate(text: &str) -> Result<[u8; 5], Stop> {
    let (description, _) = understood(text)?;
    let [_, high, middle, low] = description.plate.cabinet.to_be_bytes();
    let [line_high, line_low] = description.plate.line.to_be_bytes();
    Ok([high, middle, low, line_high, line_low])
}

/// The catalogue, one number a line.
pub fn catalogue(text: &str) -> Result<String, Stop> {
    let (description, _) = understood(text)?;
    let lines = description.catalogue.iter().map(|word| format!("{word}\n"));
    Ok(lines.collect())
}

/// A description that is well written, that the writer takes, and whose damage lies in the file;
/// and the file before any damage.
fn understood(text: &str) -> Result<(Description, Vec<u8>), Stop> {
    let description = parsed(text)?;
    let file = written(&description)?;
    for (byte, bit) in &description.damage {
        if *byte >= file.len() || *bit > 7 {
            return wrong(format!("damage {byte} {bit} lies outside the file"));
        }
    }
    Ok((description, file))
}

fn written(this: &Description) -> Result<Vec<u8>, Stop> {
    let mut out = [0; 512];
    match file::write(
        this.edition,
        this.plate,
        &this.table,
        &this.own,
        &this.catalogue,
        &mut out,
    ) {
        Ok(length) => Ok(out[..length].to_vec()),
        Err(refusal) => wrong(format!("the writer turns this cabinet away: {refusal}")),
    }
}

fn parsed(text: &str) -> Result<Description, Stop> {
    let (mut cabinet, mut line, mut edition) = (None, None, None);
    let (mut own, mut catalogue) = (Vec::new(), Vec::new());
    let (mut tasks, mut damage) = (Vec::new(), Vec::new());
    for (place, written) in text.lines().enumerate() {
        let words: Vec<&str> = without_comment(written).split_whitespace().collect();
        let taken = match words.as_slice() {
            [] => Some(()),
            ["cabinet", number] => number_of(number).and_then(|number| once(&mut cabinet, number)),
            ["line", number] => number_of(number).and_then(|number| once(&mut line, number)),
            ["edition", number] => number_of(number).and_then(|number| once(&mut edition, number)),
            ["task", rest @ ..] => task(rest).map(|task| tasks.push(task)),
            ["regions", rest @ ..] => numbers(rest).map(|more| own.extend(more)),
            ["catalogue", rest @ ..] => numbers(rest).map(|more| catalogue.extend(more)),
            ["damage", byte, bit] => place_of(byte, bit).map(|place| damage.push(place)),
            _ => None,
        };
        if taken.is_none() {
            return wrong(format!("line {} is wrong: {written}", place + 1));
        }
    }
    let plate = plate_of(cabinet, line)?;
    Ok(Description {
        plate,
        edition: edition_of(edition)?,
        table: table_of(&tasks)?,
        own,
        catalogue,
        damage,
    })
}

fn without_comment(line: &str) -> &str {
    line.split_once('#').map_or(line, |(before, _)| before)
}

/// Decimal digits alone; no sign.
fn number_of(word: &str) -> Option<u32> {
    if word.bytes().all(|byte| byte.is_ascii_digit()) {
        word.parse().ok()
    } else {
        None
    }
}

fn numbers(words: &[&str]) -> Option<Vec<u32>> {
    words.iter().map(|word| number_of(word)).collect()
}

/// Keeps the number; `None` if there is one already.
fn once(kept: &mut Option<u32>, number: u32) -> Option<()> {
    if kept.is_some() {
        return None;
    }
    *kept = Some(number);
    Some(())
}

fn place_of(byte: &str, bit: &str) -> Option<(usize, u32)> {
    Some((number_of(byte)? as usize, number_of(bit)?))
}

/// The words of a `task` line in their one order, and none behind them. The jitter's may be missing.
fn task(words: &[&str]) -> Option<Record> {
    let mut words = words.iter().copied().peekable();
    let record = Record {
        cost: named(&mut words, "cost")?,
        period: named(&mut words, "period")?,
        deadline: named(&mut words, "deadline")?,
        priority: named(&mut words, "priority")?,
        threshold: named(&mut words, "threshold")?,
        source: source_of(words.next()?)?,
        first: number_of(words.next()?)?,
        count: number_of(words.next()?)?,
        name: named(&mut words, "name")?,
        jitter: match words.peek() {
            Some(_) => named(&mut words, "jitter")?,
            None => 0,
        },
    };
    words.next().is_none().then_some(record)
}

/// The number behind this very word.
fn named<'a>(words: &mut impl Iterator<Item = &'a str>, name: &str) -> Option<u32> {
    if words.next()? != name {
        return None;
    }
    number_of(words.next()?)
}

fn source_of(word: &str) -> Option<Source> {
    match word {
        "own" => Some(Source::Own),
        "catalogue" => Some(Source::Catalogue),
        _ => None,
    }
}

fn plate_of(cabinet: Option<u32>, line: Option<u32>) -> Result<Plate, Stop> {
    let (Some(cabinet), Some(line)) = (cabinet, line) else {
        return wrong("a cabinet and a line must be given".to_string());
    };
    match u16::try_from(line) {
        Ok(line) => Ok(Plate { cabinet, line }),
        Err(_) => wrong(format!("line {line} has more than 16 bits")),
    }
}

/// Edition 1 where nothing is said.
fn edition_of(edition: Option<u32>) -> Result<u8, Stop> {
    let Some(edition) = edition else {
        return Ok(Edition::One.number());
    };
    match u8::try_from(edition) {
        Ok(edition) => Ok(edition),
        Err(_) => wrong(format!("edition {edition} has more than 8 bits")),
    }
}

fn table_of(tasks: &[Record]) -> Result<Table, Stop> {
    if tasks.len() > MOST_TASKS {
        return wrong(format!("{} tasks are more than {MOST_TASKS}", tasks.len()));
    }
    let mut table = Table {
        n: tasks.len() as u8,
        ..Table::default()
    };
    table.records[..tasks.len()].copy_from_slice(tasks);
    Ok(table)
}

fn wrong<T>(message: String) -> Result<T, Stop> {
    Err(Stop::Wrong(message))
}
