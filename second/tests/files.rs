//! The file: its bits, its seal, and writing and reading back.

use super::*;
use crate::checks::Refusal;
use crate::file::{length, read, write};
use crate::parts;

fn refused<T>(number: u8) -> Result<T, Refusal> {
    Err(Refusal::of(number))
}

fn two_jobs() -> (Table, Vec<u32>) {
    let mut table = assigned(&[(2, 5, 6), (4, 10, 10)], &[1, 2], &[1, 2]);
    let own = whole_regions(&mut table);
    table.records[0].name = 1;
    table.records[1].name = 127;
    (table, own)
}

fn fifteen_tasks() -> Table {
    let mut table = unassigned(&[(1, 10, 10); 15]);
    for record in &mut table.records {
        record.count = 1;
    }
    table
}

#[test]
fn shortest_and_longest() {
    assert_eq!(length(Edition::One, 1, 0), 22);
    assert_eq!(length(Edition::One, 15, 100), 440);
}

/// Worked out by hand: edition 1, spare 0, cabinet 0x011171, line 12, n 2, m 2; then
/// 00002 00005 00006 1 1, 0 0000000 0000001 0000001 000000;
/// 00004 0000a 0000a 2 2, 0 0000001 0000001 1111111 000000; words 00002 00004. The seal comes
/// from another CRC program.
#[test]
fn bits_by_hand() {
    let (table, own) = two_jobs();
    let file = file_of(&table, &own, &[]);
    let by_hand = [
        0x10, 0x01, 0x11, 0x71, 0x00, 0x0c, 0x02, 0x02, // head
        0x00, 0x00, 0x20, 0x00, 0x05, 0x00, 0x00, 0x61, 0x10, 0x00, 0x20, 0x40, // record 1
        0x00, 0x00, 0x40, 0x00, 0x0a, 0x00, 0x00, 0xa2, 0x20, 0x10, 0x3f, 0xc0, // record 2
        0x00, 0x00, 0x20, 0x00, 0x04, // words
    ];
    assert_eq!(file[..file.len() - 2], by_hand);
    assert_eq!(file[file.len() - 2..], [0x78, 0x01]);
}

#[test]
fn reading_writes_the_words_and_no_more() {
    let (table, own) = two_jobs();
    let mut out = [7; 4];
    assert_eq!(
        read(PLATE, &[], &file_of(&table, &own, &[]), &mut out),
        Ok((Edition::One, table))
    );
    assert_eq!(out, [2, 4, 7, 7]);
}

#[test]
fn fifteen_tasks_are_read_and_sixteen_are_not() {
    let table = fifteen_tasks();
    let file = file_of(&table, &[1], &[]);
    assert_eq!(read(PLATE, &[], &file, &mut [0]), Ok((Edition::One, table)));
    let mut sixteen = file[..file.len() - 5].to_vec();
    sixteen[6] = 16;
    sixteen.extend_from_within(8..20);
    sixteen.extend([0, 0, 0x10, 0, 0]);
    assert_eq!(sixteen.len(), length(Edition::One, 16, 1));
    assert_eq!(read(PLATE, &[], &resealed(sixteen), &mut [0]), refused(5));
}

#[test]
fn length_21_is_refused() {
    let (table, own) = two_jobs();
    let file = file_of(&table, &own, &[]);
    assert_eq!(read(PLATE, &[], &file[..21], &mut [0; 2]), refused(1));
    assert_eq!(read(PLATE, &[], &file[..22], &mut [0; 2]), refused(6));
}

#[test]
fn wrong_line_wins_over_wrong_seal() {
    let (table, own) = two_jobs();
    let mut file = file_of(&table, &own, &[]);
    *file.last_mut().expect("a byte") ^= 1;
    let next_line = Plate { line: 13, ..PLATE };
    assert_eq!(read(next_line, &[], &file, &mut [0; 2]), refused(4));
    assert_eq!(read(PLATE, &[], &file, &mut [0; 2]), refused(7));
}

#[test]
fn any_single_flipped_bit_is_refused() {
    let (table, own) = two_jobs();
    let file = file_of(&table, &own, &[]);
    for bit in 0..8 * file.len() {
        let mut flipped = file.clone();
        flipped[bit / 8] ^= 0x80 >> (bit % 8);
        let mut out = [7; 4];
        assert!(read(PLATE, &[], &flipped, &mut out).is_err(), "bit {bit}");
        assert_eq!(out, [7; 4]);
    }
}

/// A table as the writer takes it, its own region words and a catalogue.
pub fn random_cabinet(dice: &mut Dice) -> (Table, Vec<u32>, Vec<u32>) {
    let mut table = Table {
        n: dice.from_to(1, MOST_TASKS as u32) as u8,
        ..Table::default()
    };
    let mut own: Vec<u32> = (0..dice.from_to(1, 100))
        .map(|_| dice.from_to(1, 90_000))
        .collect();
    let mut catalogue: Vec<u32> = (0..dice.from_to(1, 140))
        .map(|_| dice.from_to(1, 9_000))
        .collect();
    own[0] = 1;
    catalogue[0] = 1_000_000;
    for record in &mut table.records[..table.n as usize] {
        *record = random_record(dice, &own, &catalogue);
    }
    if dice.from_to(0, 3) > 0 {
        dice.assign(&mut table);
        table.records[table.n as usize..].fill(Record::default());
    }
    (table, own, catalogue)
}

fn random_record(dice: &mut Dice, own: &[u32], catalogue: &[u32]) -> Record {
    let source = Source::from_number(dice.from_to(0, 1));
    let list = if source == Source::Own {
        own
    } else {
        catalogue
    };
    loop {
        let first = dice.from_to(0, 127.min(list.len() as u32 - 1));
        let count = dice.from_to(1, 127.min(list.len() as u32 - first));
        let cost = list[first as usize..(first + count) as usize].iter().sum();
        if cost <= MOST_TICKS {
            let (period, deadline) = (dice.from_to(1, MOST_TICKS), dice.from_to(1, MOST_TICKS));
            let name = dice.from_to(0, 127);
            return Record {
                cost,
                period,
                deadline,
                source,
                first,
                count,
                name,
                ..Record::default()
            };
        }
    }
}

#[test]
fn written_and_read_back() {
    let mut dice = Dice::new(5);
    for _ in 0..500 {
        let (table, own, catalogue) = random_cabinet(&mut dice);
        let file = file_of(&table, &own, &catalogue);
        assert_eq!(
            file.len(),
            length(Edition::One, table.n as usize, own.len())
        );
        let mut words = vec![0; own.len()];
        assert_eq!(
            read(PLATE, &catalogue, &file, &mut words),
            Ok((Edition::One, table))
        );
        assert_eq!(words, own);
        assert_eq!(file_of(&table, &words, &catalogue), file);
    }
}

#[test]
fn parts_of_what_was_written() {
    let mut dice = Dice::new(6);
    for _ in 0..100 {
        let (table, own, catalogue) = random_cabinet(&mut dice);
        let file = file_of(&table, &own, &catalogue);
        for number in 1..=table.n as u16 {
            let place = 8 + 12 * (number as usize - 1);
            let part = parts::record(PLATE, &catalogue, &file, number).expect("refused");
            assert_eq!(part.as_ptr_range(), file[place..place + 12].as_ptr_range());
            let task = &table.records[number as usize - 1];
            let regions = parts::regions(&table, &own, &catalogue, number).expect("refused");
            assert_eq!(regions.len(), task.count as usize);
            assert_eq!(regions.iter().sum::<u32>(), task.cost);
        }
        assert_eq!(parts::record(PLATE, &catalogue, &file, 0), refused(13));
        assert_eq!(
            parts::record(PLATE, &catalogue, &file, table.n as u16 + 1),
            refused(13)
        );
    }
}

#[test]
fn writing_touches_the_file_and_no_more() {
    let (table, own) = two_jobs();
    let mut out = [0xEE; 60];
    let written = write(1, PLATE, &table, &own, &[], &mut out).expect("refused");
    assert_eq!(written, length(Edition::One, 2, 2));
    assert!(out[written..].iter().all(|byte| *byte == 0xEE));
    let mut short = [0xEE; 38];
    assert_eq!(write(1, PLATE, &table, &own, &[], &mut short), refused(12));
    assert_eq!(short, [0xEE; 38]);
}

#[test]
fn names() {
    let cabinet = b"gate scan       output test     ";
    let house = b"                drive talk      watchdog";
    let name = |number| parts::name(number, cabinet, house);
    assert_eq!(name(0), Ok(&b"gate scan"[..]));
    assert_eq!(name(1), Ok(&b"output test"[..]));
    assert_eq!(name(2), refused(13));
    assert_eq!(name(63), refused(13));
    assert_eq!(name(64), Ok(&b""[..]));
    assert_eq!(name(65), Ok(&b"drive talk"[..]));
    assert_eq!(name(66), refused(13));
    assert_eq!(name(127), refused(13));
    assert_eq!(name(128), refused(9));
}
