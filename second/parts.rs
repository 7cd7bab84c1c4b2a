//! Parts handed back (document 01, the section of that name, and document 02, item 2).

use crate::checks::{self, *};
use crate::file::{read_checked, HEAD_BYTES};
use crate::table::*;

const NAME_BYTES: usize = 16;
/// Name numbers below this one stand in the cabinet's list, the others (less this) in the house's.
const FIRST_HOUSE_NAME: u32 = 64;

/// The bytes of a record in the caller's own file, twelve in edition 1 and fifteen in edition 2.
/// Reads the file first, so asks 1, 2, 18 and 3 to 11, then 13.
pub fn record<'a>(
    plate: Plate,
    catalogue: &[u32],
    file: &'a [u8],
    number: u16,
) -> Result<&'a [u8], Refusal> {
    let (edition, table, _) = read_checked(plate, catalogue, file)?;
    refuse(13, no_such_record(&table, number))?;
    let bytes = edition.record_bytes();
    let start = HEAD_BYTES + bytes * (number as usize - 1);
    Ok(&file[start..start + bytes])
}

/// A task's regions, a part of the own words or of the catalogue. Asks 5, 13, then 11 for that
/// record alone, so nothing is asked of own words that it does not name.
pub fn regions<'a>(
    table: &Table,
    own: &'a [u32],
    catalogue: &'a [u32],
    number: u16,
) -> Result<&'a [u32], Refusal> {
    refuse(
        5,
        task_count_wrong(table.n) || region_count_wrong(own.len()),
    )?;
    refuse(13, no_such_record(table, number))?;
    let task = &table.records[number as usize - 1];
    checks::regions(task, own, catalogue).ok_or(Refusal::of(11))
}

/// The last of a task's regions, one word of the list that they stand in (document 02, item 2). Asks
/// what the regions' own call asks; a count of 0 is 11, so there is a last one.
pub fn last_region<'a>(
    table: &Table,
    own: &'a [u32],
    catalogue: &'a [u32],
    number: u16,
) -> Result<&'a [u32], Refusal> {
    let words = regions(table, own, catalogue, number)?;
    Ok(&words[words.len() - 1..])
}

/// Records are numbered 1 to n.
fn no_such_record(table: &Table, number: u16) -> bool {
    number < 1 || number > table.n as u16
}

/// A name without its trailing spaces, out of the list it stands in. Asks 9, then 13.
pub fn name<'a>(number: u32, cabinet: &'a [u8], house: &'a [u8]) -> Result<&'a [u8], Refusal> {
    refuse(9, number > MOST_NAME_NUMBER)?;
    let (list, entry) = if number < FIRST_HOUSE_NAME {
        (cabinet, number)
    } else {
        (house, number - FIRST_HOUSE_NAME)
    };
    let start = NAME_BYTES * entry as usize;
    let padded = list.get(start..start + NAME_BYTES).ok_or(Refusal::of(13))?;
    Ok(without_trailing_spaces(padded))
}

fn without_trailing_spaces(mut part: &[u8]) -> &[u8] {
    while let [shorter @ .., b' '] = part {
        part = shorter;
    }
    part
}
