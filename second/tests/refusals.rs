//! Every number of document 01, "Numbers a turned-away call returns", at its edges, and which
//! number wins where two apply. 18, of document 02, stands in blank.rs.

use super::*;
use crate::analysis::response_times;
use crate::checks::Refusal;
use crate::file::{read, write};
use crate::lengths::{lengths, regions_fit, tolerances};
use crate::listing::{first_row, next_row};
use crate::parts;

fn refused<T>(number: u8) -> Result<T, Refusal> {
    Err(Refusal::of(number))
}

/// What reading says of the file of two jobs after this change, sealed anew.
fn reading(change: impl Fn(&mut Vec<u8>)) -> Result<Table, Refusal> {
    let (table, own) = two_jobs();
    let mut file = file_of(&table, &own, &[]);
    change(&mut file);
    read(PLATE, &[], &resealed(file), &mut [0; 2]).map(|(_, table)| table)
}

#[test]
fn reading_head() {
    assert!(reading(|_| {}).is_ok());
    assert_eq!(reading(|file| file[0] = 0x00), refused(2));
    assert_eq!(reading(|file| file[0] = 0x30), refused(2));
    assert_eq!(reading(|file| file[3] ^= 1), refused(3));
    assert_eq!(reading(|file| file[5] ^= 1), refused(4));
    assert_eq!(reading(|file| file[6] = 0), refused(5));
    assert_eq!(reading(|file| file[6] = 16), refused(5));
    assert_eq!(reading(|file| file[7] = 101), refused(5));
    assert_eq!(reading(|file| file[6] = 3), refused(6));
    assert_eq!(reading(|file| file[7] = 100), refused(6));
    assert_eq!(reading(|file| file.push(0)), refused(6));
    assert_eq!(reading(|file| file[0] = 0x11), refused(8));
}

#[test]
fn reading_a_plate_of_more_than_24_bits() {
    let (table, own) = two_jobs();
    let plate = Plate {
        cabinet: PLATE.cabinet | 1 << 24,
        ..PLATE
    };
    assert_eq!(
        read(plate, &[], &file_of(&table, &own, &[]), &mut [0; 2]),
        refused(3)
    );
}

#[test]
fn reading_records() {
    assert_eq!(reading(|file| file[19] |= 0x20), refused(8));
    assert_eq!(reading(|file| file[31] |= 0x01), refused(8));
    // C, T and D of the first record, 0 and then 1,048,575.
    assert_eq!(reading(|file| file[8..11].fill(0)), refused(9));
    assert_eq!(reading(|file| file[11..13].fill(0)), refused(9));
    assert_eq!(reading(|file| file[15] &= 0x0f), refused(9));
    assert_eq!(reading(|file| file[8..10].fill(0xff)), refused(9));
    // Priority and threshold of the first record.
    assert_eq!(reading(|file| file[15] &= 0xf0), refused(10));
    assert_eq!(reading(|file| file[16] &= 0x0f), refused(10));
    assert_eq!(reading(|file| file[15] |= 0x02), refused(10));
    assert_eq!(reading(|file| file[16] = 0x20), refused(10));
    // Region source, first region and count of the first record.
    assert_eq!(reading(|file| file[16] |= 0x08), refused(11));
    assert_eq!(reading(|file| file[17] |= 0x40), refused(11));
    assert_eq!(reading(|file| file[18] &= 0x1f), refused(11));
    // Spare bits win over the cost.
    assert_eq!(
        reading(|file| {
            file[8..11].fill(0);
            file[31] |= 0x01;
        }),
        refused(8)
    );
}

#[test]
fn reading_filler_and_unnamed_words() {
    let (table, mut own) = two_jobs();
    own.push(9);
    let mut file = file_of(&table, &own, &[]);
    let words = 32..40;
    assert!(read(PLATE, &[], &file, &mut [0; 3]).is_ok());
    assert_eq!(read(PLATE, &[], &file, &mut [0; 2]), refused(12));
    file[words.end - 1] |= 0x01;
    assert_eq!(
        read(PLATE, &[], &resealed(file.clone()), &mut [0; 3]),
        refused(8)
    );
    file[words.end - 1] = 0;
    assert_eq!(read(PLATE, &[], &resealed(file), &mut [0; 3]), refused(11));
}

#[test]
fn writing() {
    let (table, own) = two_jobs();
    let with = |change: &dyn Fn(&mut Table)| {
        let mut table = table;
        change(&mut table);
        write(1, PLATE, &table, &own, &[], &mut [0; 400])
    };
    assert_eq!(with(&|_| {}), Ok(39));
    assert_eq!(with(&|table| table.n = 0), refused(5));
    assert_eq!(with(&|table| table.n = 16), refused(5));
    assert_eq!(with(&|table| table.records[0].cost = 0), refused(9));
    assert_eq!(
        with(&|table| table.records[0].period = 1_000_001),
        refused(9)
    );
    assert_eq!(with(&|table| table.records[0].deadline = 0), refused(9));
    assert_eq!(with(&|table| table.records[0].name = 128), refused(9));
    assert_eq!(with(&|table| table.records[0].priority = 0), refused(10));
    assert_eq!(with(&|table| table.records[0].priority = 2), refused(10));
    assert_eq!(with(&|table| table.records[1].priority = 3), refused(10));
    assert_eq!(with(&|table| table.records[0].threshold = 2), refused(10));
    assert_eq!(with(&|table| table.records[1].threshold = 0), refused(10));
    assert_eq!(with(&|table| table.records[0].first = 1), refused(11));
    assert_eq!(
        with(&|table| table.records[0].first = u32::MAX),
        refused(11)
    );
    assert_eq!(with(&|table| table.records[0].count = 0), refused(11));
    assert_eq!(
        with(&|table| table.records[0].count = u32::MAX),
        refused(11)
    );
    assert_eq!(with(&|table| table.records[0].cost = 3), refused(11));
    // Records past n are not looked at.
    assert_eq!(with(&|table| table.records[2].cost = u32::MAX), Ok(39));
}

#[test]
fn writing_lists_and_cabinets() {
    let (mut table, own) = two_jobs();
    let writing = |table: &Table, own: &[u32], catalogue: &[u32]| {
        write(1, PLATE, table, own, catalogue, &mut [0; 400])
    };
    assert_eq!(writing(&table, &[2; 101], &[]), refused(5));
    assert_eq!(writing(&table, &[2, 4, 0], &[]), refused(11));
    assert_eq!(writing(&table, &[2, 4, 1_000_001], &[]), refused(11));
    table.records[1].source = Source::Catalogue;
    assert_eq!(writing(&table, &own, &[0, 4, 0]), Ok(39));
    assert_eq!(writing(&table, &own, &[0]), refused(11));
    let largest = Plate {
        cabinet: (1 << 24) - 1,
        line: u16::MAX,
    };
    assert_eq!(
        write(1, largest, &table, &own, &[0, 4], &mut [0; 39]),
        Ok(39)
    );
    let too_large = Plate {
        cabinet: 1 << 24,
        line: 1,
    };
    assert_eq!(
        write(1, too_large, &table, &own, &[0, 4], &mut [0; 39]),
        refused(9)
    );
    assert_eq!(
        write(1, largest, &table, &own, &[0, 4], &mut [0; 38]),
        refused(12)
    );
}

/// 127 words from word 127 on are still inside the rules; 128 of either are not.
#[test]
fn regions_at_127() {
    let catalogue = [1; 300];
    let regions = |first, count| {
        let mut table = unassigned(&[(count, 10, 10)]);
        let record = &mut table.records[0];
        (record.source, record.first, record.count) = (Source::Catalogue, first, count);
        parts::regions(&table, &[], &catalogue, 1).map(|words| words.len())
    };
    assert_eq!(regions(127, 127), Ok(127));
    assert_eq!(regions(128, 1), refused(11));
    assert_eq!(regions(0, 128), refused(11));
}

#[test]
fn regions_of_one_record_alone() {
    let (mut table, _) = two_jobs();
    table.records[0].cost = 77;
    table.records[1].period = 0;
    let regions =
        |own: &[u32], number| parts::regions(&table, own, &[], number).map(|words| words.to_vec());
    assert_eq!(regions(&[0, 4, 0], 2), Ok(vec![4]));
    assert_eq!(regions(&[0, 4, 0], 1), refused(11));
    assert_eq!(regions(&[0, 4, 0], 0), refused(13));
    assert_eq!(regions(&[0, 4, 0], 3), refused(13));
    assert_eq!(regions(&[4; 101], 0), refused(5));
    assert_eq!(parts::regions(&Table::default(), &[], &[], 0), refused(5));
}

#[test]
fn analysis_calls() {
    let (table, own) = two_jobs();
    let all = |change: &dyn Fn(&mut Table)| {
        let mut table = table;
        change(&mut table);
        let number = |refusal: Option<Refusal>| refusal.map_or(0, |refusal| refusal.number);
        [
            number(response_times(&table).err()),
            number(tolerances(&table).err()),
            number(lengths(&table).err()),
            number(regions_fit(&table, &own, &[]).err()),
            number(first_row(&table, &mut [0; 2 * MOST_TASKS]).err()),
        ]
    };
    assert_eq!(all(&|_| {}), [0; 5]);
    assert_eq!(all(&|table| table.n = 0), [5; 5]);
    assert_eq!(all(&|table| table.n = 16), [5; 5]);
    assert_eq!(all(&|table| table.n = 255), [5; 5]);
    assert_eq!(all(&|table| table.records[1].name = 128), [9; 5]);
    assert_eq!(
        all(&|table| table.records[1].threshold = 3),
        [10, 10, 10, 10, 0]
    );
    assert_eq!(all(&|table| table.records[1].count = 9), [0, 0, 0, 11, 0]);
    let clear = |table: &mut Table| {
        for record in &mut table.records {
            (record.priority, record.threshold) = (0, 0);
        }
    };
    assert_eq!(all(&clear), [14, 14, 14, 14, 0]);
    assert_eq!(
        all(&|table| table.records[0].deadline = 6),
        [0, 15, 15, 15, 0]
    );
    assert_eq!(
        all(&|table| table.records[0].deadline = 1),
        [0, 0, 16, 16, 0]
    );
    assert_eq!(regions_fit(&table, &[2; 101], &[]), refused(5));
}

/// 16 names the lowest record below zero, not the one of highest priority.
#[test]
fn lowest_record_below_zero() {
    let table = assigned(&[(4, 10, 3), (2, 5, 1)], &[2, 1], &[2, 1]);
    assert_eq!(
        lengths(&table),
        Err(Refusal {
            number: 16,
            record: Some(1)
        })
    );
}

#[test]
fn listing_calls() {
    let (table, _) = two_jobs();
    let next = |row: &[u8], room: usize| {
        let mut out = vec![9; room];
        (next_row(&table, row, &mut out), out)
    };
    assert_eq!(next(&[1, 2, 1, 1], 5), (Ok(true), vec![1, 2, 1, 2, 9]));
    assert_eq!(next(&[1, 2, 1, 2], 5), (Ok(false), vec![9; 5]));
    assert_eq!(next(&[2, 1, 2, 1], 4), (Ok(false), vec![9; 4]));
    assert_eq!(next(&[2, 1, 2, 1], 3), (refused(12), vec![9; 3]));
    assert_eq!(next(&[1, 2], 3), (refused(12), vec![9; 3]));
    for row in [
        &[][..],
        &[1, 2, 1],
        &[1, 2, 1, 1, 1],
        &[1, 1, 1, 1],
        &[0, 1, 1, 1],
        &[1, 3, 1, 1],
        &[1, 2, 0, 1],
        &[1, 2, 2, 1],
        &[1, 2, 1, 3],
    ] {
        assert_eq!(next(row, 4), (refused(17), vec![9; 4]), "{row:?}");
    }
}
