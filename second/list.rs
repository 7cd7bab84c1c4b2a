//! The listing program (document 01, "The list of assignments", and document 02, item 6): five
//! plate bytes and then the file, with an empty catalogue.

use crate::file;
use crate::listing::Walk;
use crate::table::*;
use std::io::{self, Read, Write};

/// Bytes past these are not read. The longest file, 485 bytes behind the plate, ends before, so they
/// change nothing.
const MOST_BYTES_READ: u64 = 512;
const PLATE_BYTES: usize = 5;
/// No more rows than these are printed (document 02, item 6).
const MOST_ROWS: u64 = 1_000_000;

pub fn run(input: impl Read, output: &mut impl Write) -> io::Result<()> {
    let mut bytes = Vec::new();
    input.take(MOST_BYTES_READ).read_to_end(&mut bytes)?;
    if bytes.len() < PLATE_BYTES {
        return writeln!(output, "refused 1");
    }
    let (plate, file) = bytes.split_at(PLATE_BYTES);
    let plate = Plate {
        cabinet: u32::from_be_bytes([0, plate[0], plate[1], plate[2]]),
        line: u16::from_be_bytes([plate[3], plate[4]]),
    };
    // Room for as many words as a file may hold, so that 12 cannot arise.
    let mut words = [0; MOST_REGION_WORDS];
    match file::read(plate, &[], file, &mut words) {
        Ok((_, table)) => print_rows(&table, MOST_ROWS, output),
        Err(refusal) => writeln!(output, "{refusal}"),
    }
}

/// At most so many rows, then `end` and the total, or `more` if another row follows. A table that
/// was read passes the checks of the listing, so none is asked again here.
pub fn print_rows(table: &Table, most: u64, output: &mut impl Write) -> io::Result<()> {
    writeln!(output, "tasks {}", table.n)?;
    let mut walk = Walk::from_start(table);
    let mut rows = 0;
    while let Some(row) = walk.next_passing() {
        if rows == most {
            return writeln!(output, "more");
        }
        print_row(row.numbers(), output)?;
        rows += 1;
    }
    writeln!(output, "end {rows}")
}

fn print_row(numbers: &[u8], output: &mut impl Write) -> io::Result<()> {
    for (place, number) in numbers.iter().enumerate() {
        let gap = if place == 0 { "" } else { " " };
        write!(output, "{gap}{number}")?;
    }
    writeln!(output)
}
