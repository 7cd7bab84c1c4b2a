//! Edition 2 of the file (document 02, item 9), from the papers by hand: its bits, its lengths, what
//! turns it away, what the writer is told, and the round trip of each edition.

use super::*;
use crate::file::{length, read, write};
use crate::parts;
use crate::tests::files::random_cabinet;
use Edition::{One, Two};

fn refused<T>(number: u8) -> Result<T, Refusal> {
    Err(Refusal::of(number))
}

/// The number of a refusal, 0 where there is none.
fn number<T>(answer: Result<T, Refusal>) -> u8 {
    answer.map_or_else(|refusal| refusal.number, |_| 0)
}

/// What reading says of these bytes as they are; nothing is written where they are turned away.
fn reading(file: &[u8]) -> Result<(Edition, Table), Refusal> {
    let mut out = [7; 100];
    let answer = read(PLATE, &[], file, &mut out);
    assert!(answer.is_ok() || out == [7; 100]);
    answer
}

/// The two jobs with jitters, of which the second fills every part of its field: 703,710 is ABCDE in
/// hexadecimal.
fn two_late_jobs() -> (Table, Vec<u32>) {
    let million = 1_000_000;
    let mut table = assigned(&[(2, 5, 6), (4, million, million)], &[1, 2], &[1, 2]);
    let own = whole_regions(&mut table);
    (table.records[0].name, table.records[1].name) = (1, 127);
    (table.records[0].jitter, table.records[1].jitter) = (3, 703_710);
    (table, own)
}

/// The same without jitters, which can be written in both editions.
fn two_jobs_in_time() -> (Table, Vec<u32>) {
    let (mut table, own) = two_late_jobs();
    for record in &mut table.records {
        record.jitter = 0;
    }
    (table, own)
}

fn late_file() -> Vec<u8> {
    let (table, own) = two_late_jobs();
    file_in(Two, &table, &own, &[])
}

/// The bit of edition 2 at which a field of record k + 1 starts.
fn bit_of(k: usize, field: usize) -> usize {
    64 + 120 * k + field
}

/// The file with this bit turned over, sealed anew.
fn turned(mut file: Vec<u8>, bit: usize) -> Vec<u8> {
    file[bit / 8] ^= 0x80 >> (bit % 8);
    resealed(file)
}

/// The file with another first byte, edition and spare bits of the head, sealed anew.
fn headed(mut file: Vec<u8>, byte: u8) -> Vec<u8> {
    file[0] = byte;
    resealed(file)
}

// ---- the bits

/// Edition 2, spare 0, cabinet 0x011171, line 12, n 2, m 2; then
/// 00002 00005 00006 1 1, 0 0000000 0000001 0000001, 00003, 0000000000;
/// 00004 f4240 f4240 2 2, 0 0000001 0000001 1111111, abcde, 0000000000; words 00002 00004. The last
/// two bits of the name, 01 and 11, begin the twelfth byte, so the jitter falls into 6, 8 and 6
/// bits: 000000 00000000 000011, and 101010 11110011 011110. The seal comes from another CRC
/// program.
#[test]
fn bits_by_hand() {
    let by_hand = [
        0x20, 0x01, 0x11, 0x71, 0x00, 0x0c, 0x02, 0x02, // head
        0x00, 0x00, 0x20, 0x00, 0x05, 0x00, 0x00, 0x61, 0x10, 0x00, 0x20, 0x40, // record 1
        0x00, 0x0c, 0x00, // its tail
        0x00, 0x00, 0x4f, 0x42, 0x40, 0xf4, 0x24, 0x02, 0x20, 0x10, 0x3f, 0xea, // record 2
        0xf3, 0x78, 0x00, // its tail
        0x00, 0x00, 0x20, 0x00, 0x04, // words
        0x05, 0x93, // seal
    ];
    assert_eq!(late_file(), by_hand);
    assert_eq!(reading(&by_hand), Ok((Two, two_late_jobs().0)));
    for (number, part) in [(1, 8..23), (2, 23..38)] {
        let record = parts::record(PLATE, &[], &by_hand, number).expect("refused");
        assert_eq!(record.as_ptr_range(), by_hand[part].as_ptr_range());
    }
}

/// Each bit of the second's jitter by itself, the most significant first. Its period has room for
/// every power of two below it.
#[test]
fn each_bit_of_the_jitter() {
    let (mut table, own) = two_jobs_in_time();
    let file = file_in(Two, &table, &own, &[]);
    for place in 0..20 {
        let late = turned(file.clone(), bit_of(1, 90 + place));
        table.records[1].jitter = 1 << (19 - place);
        assert_eq!(reading(&late), Ok((Two, table)));
        assert_eq!(file_in(Two, &table, &own, &[]), late);
    }
}

/// Ten spare bits a record, the head's four, and the filler's four behind an odd number of words.
#[test]
fn each_spare_bit() {
    let file = late_file();
    let records = (0..2).flat_map(|k| (110..120).map(move |field| bit_of(k, field)));
    for bit in (4..8).chain(records) {
        assert_eq!(reading(&turned(file.clone(), bit)), refused(8), "bit {bit}");
    }
    let (mut table, mut own) = two_late_jobs();
    own.push(1);
    let odd = file_in(Two, &table, &own, &[]);
    for bit in bit_of(2, 60)..bit_of(2, 64) {
        assert_eq!(reading(&turned(odd.clone(), bit)), refused(8), "bit {bit}");
    }
    assert_eq!(number(reading(&turned(odd.clone(), bit_of(2, 59)))), 11);
    // The last spare bit of the fifteenth record.
    table = unassigned(&[(1, 10, 10); 15]);
    table.records.iter_mut().for_each(|record| record.count = 1);
    let fifteen = file_in(Two, &table, &[1], &[]);
    assert_eq!(reading(&fifteen), Ok((Two, table)));
    assert_eq!(reading(&turned(fifteen, bit_of(14, 119))), refused(8));
}

/// What is spare in edition 1, bits 90 to 95 of a record, has the jitter's first six bits in edition
/// 2; what is spare there stands behind the record in edition 1.
#[test]
fn spare_bits_of_the_other_edition() {
    let (table, own) = two_jobs_in_time();
    let (first, second) = (file_of(&table, &own, &[]), file_in(Two, &table, &own, &[]));
    for field in 90..96 {
        let bit = 64 + 96 + field;
        assert_eq!(reading(&turned(first.clone(), bit)), refused(8));
        let read = reading(&turned(second.clone(), bit_of(1, field)));
        let late = read.expect("a jitter").1.records[1].jitter;
        assert_eq!(late, 1 << (109 - field));
    }
}

#[test]
fn any_single_flipped_bit_is_refused() {
    let file = late_file();
    for bit in 0..8 * file.len() {
        let mut flipped = file.clone();
        flipped[bit / 8] ^= 0x80 >> (bit % 8);
        assert!(reading(&flipped).is_err(), "bit {bit}");
    }
}

// ---- the range of J

/// A file of edition 2 with one task of this period, and a jitter that is put into its bits.
fn with_jitter(period: u32, jitter: u32) -> Vec<u8> {
    let mut table = unassigned(&[(1, period, 1)]);
    let own = whole_regions(&mut table);
    let mut file = file_in(Two, &table, &own, &[]);
    // The record's bytes 11 to 13 have two bits of the name, 0 here, the jitter and two spare ones.
    let tail = (jitter << 2).to_be_bytes();
    file[19..22].copy_from_slice(&tail[1..]);
    resealed(file)
}

#[test]
fn jitters_from_0_to_below_the_period() {
    let million = 1_000_000;
    let most = (1 << 20) - 1;
    for (period, taken, turned_away) in [
        (1, vec![0], vec![1, 2, most]),
        (5, vec![0, 1, 3, 4], vec![5, 6, 1 << 19, most]),
        (65_536, vec![0, 65_535], vec![65_536, 65_537, most]),
        (
            million,
            vec![0, 1, million - 1],
            vec![million, million + 1, most],
        ),
    ] {
        for jitter in taken {
            let mut table = unassigned(&[(1, period, 1)]);
            let own = whole_regions(&mut table);
            table.records[0].jitter = jitter;
            assert_eq!(reading(&with_jitter(period, jitter)), Ok((Two, table)));
            let written = file_in(Two, &table, &own, &[]);
            assert_eq!(written, with_jitter(period, jitter));
        }
        for jitter in turned_away {
            assert_eq!(reading(&with_jitter(period, jitter)), refused(9));
        }
    }
}

/// The writer is lent 32 bits, of which the low 20 alone have a place: nothing is cut off.
#[test]
fn no_jitter_is_cut_off() {
    let (table, own) = two_late_jobs();
    for record in 0..2 {
        for jitter in [1 << 20, (1 << 20) + 1, 1 << 31, u32::MAX] {
            let mut table = table;
            table.records[record].jitter = jitter;
            let mut out = [7; 60];
            assert_eq!(write(2, PLATE, &table, &own, &[], &mut out), refused(9));
            assert_eq!(out, [7; 60]);
        }
    }
}

#[test]
fn jitters_past_n_are_not_written() {
    let (mut table, own) = two_late_jobs();
    table.records[2].jitter = u32::MAX;
    assert_eq!(file_in(Two, &table, &own, &[]), late_file());
}

// ---- lengths and editions

#[test]
fn lengths_of_both_editions() {
    assert_eq!([One.record_bytes(), Two.record_bytes()], [12, 15]);
    assert_eq!([length(One, 1, 0), length(Two, 1, 0)], [22, 25]);
    assert_eq!([length(One, 15, 100), length(Two, 15, 100)], [440, 485]);
    // 20 bits are two bytes and a half.
    assert_eq!([length(Two, 6, 1), length(Two, 6, 2)], [103, 105]);
}

/// The shortest file of edition 2 has 25 bytes. Under 22 it is 1, as it was; from there to 24 it is
/// another length than its n and m give.
#[test]
fn short_files() {
    let mut table = unassigned(&[(2, 5, 5)]);
    (table.records[0].source, table.records[0].count) = (Source::Catalogue, 1);
    let file = file_in(Two, &table, &[], &[2]);
    assert_eq!(file.len(), 25);
    for cut in 0..=27 {
        let mut bytes = file.clone();
        bytes.resize(cut, 0);
        let expected = match cut {
            0..=21 => 1,
            25 => 0,
            _ => 6,
        };
        assert_eq!(number(read(PLATE, &[2], &bytes, &mut [])), expected);
        if cut >= 22 {
            let sealed = resealed(bytes);
            assert_eq!(number(read(PLATE, &[2], &sealed, &mut [])), expected);
        }
    }
}

#[test]
fn the_longest_file() {
    let mut table = unassigned(&[(1, 10, 10); 15]);
    for record in &mut table.records {
        (record.count, record.jitter) = (1, 9);
    }
    let own = [1; 100];
    let file = file_in(Two, &table, &own, &[]);
    assert_eq!(file.len(), 485);
    assert_eq!(reading(&file), Ok((Two, table)));
    let longer = [&file[..], &[0]].concat();
    assert_eq!(reading(&longer), refused(6));
    assert_eq!(reading(&resealed(longer)), refused(6));
    assert_eq!(reading(&file[..484]), refused(6));
    assert_eq!(reading(&resealed(file[..484].to_vec())), refused(6));
    let mut short = [7; 484];
    assert_eq!(write(2, PLATE, &table, &own, &[], &mut short), refused(12));
    assert_eq!(short, [7; 484]);
}

/// A file of either edition that says it is of the other has a wrong length. Where another n makes
/// the length right again, five records of twelve bytes or four of fifteen, reading goes on: the
/// seal is asked next.
#[test]
fn the_length_of_the_other_edition() {
    let (table, own) = two_jobs_in_time();
    assert_eq!(reading(&headed(late_file(), 0x10)), refused(6));
    let first = file_of(&table, &own, &[]);
    assert_eq!(reading(&headed(first, 0x20)), refused(6));
    for (edition, n, byte, other) in [(One, 5, 0x20, 4), (Two, 4, 0x10, 5)] {
        let mut table = unassigned(&vec![(1, 10, 10); n]);
        table.records[..n].iter_mut().for_each(|k| k.count = 1);
        let mut file = file_in(edition, &table, &[1], &[]);
        assert_eq!(file.len(), 8 + 60 + 3 + 2);
        file[0] = byte;
        assert_eq!(reading(&file), refused(6));
        file[6] = other;
        assert_eq!(reading(&file), refused(7));
        // Read as records of the other size, a bit of a cost comes to stand among the spare ones.
        assert_eq!(reading(&resealed(file)), refused(8));
    }
}

/// Of the sixteen numbers that a head can hold two are editions.
#[test]
fn editions_of_a_file() {
    let (table, own) = two_jobs_in_time();
    for edition in Edition::BOTH {
        let file = file_in(edition, &table, &own, &[]);
        for said in 0..16 {
            let expected = match said {
                said if said == edition.number() => 0,
                1 | 2 => 6,
                _ => 2,
            };
            let file = headed(file.clone(), said << 4);
            assert_eq!(number(reading(&file)), expected);
            assert_eq!(number(parts::record(PLATE, &[], &file, 1)), expected);
        }
    }
}

// ---- whose file it is

/// In both editions: 1 and 2 are asked before 18, and 18 before 3 and 4, and these before length
/// and seal.
#[test]
fn labels() {
    let (table, own) = two_jobs_in_time();
    let plate = |cabinet, line| Plate { cabinet, line };
    let blank = plate(0, 0);
    for edition in Edition::BOTH {
        let file = file_in(edition, &table, &own, &[]);
        let asked = |plate, file: &[u8]| {
            let numbers = [
                number(read(plate, &[], file, &mut [0; 2])),
                number(parts::record(plate, &[], file, 1)),
            ];
            assert_eq!(numbers[0], numbers[1]);
            numbers[0]
        };
        assert_eq!(asked(PLATE, &file), 0);
        assert_eq!(asked(plate(70_002, 12), &file), 3);
        assert_eq!(asked(plate(70_002, 13), &file), 3);
        assert_eq!(asked(plate(70_001, 13), &file), 4);
        assert_eq!(asked(plate(70_001 | 1 << 24, 12), &file), 3);
        for plate in [plate(0, 12), plate(70_001, 0), blank] {
            assert_eq!(asked(plate, &file), 18);
            assert_eq!(asked(plate, &file[..22]), 18);
            assert_eq!(asked(plate, &file[..21]), 1);
        }
        for zeros in [1..4, 4..6, 1..6] {
            let mut unnamed = file.clone();
            unnamed[zeros].fill(0);
            assert_eq!(asked(PLATE, &unnamed), 18);
            assert_eq!(asked(blank, &resealed(unnamed.clone())), 18);
            assert_eq!(asked(blank, &headed(unnamed, 0x30)), 2);
        }
        // Another line with the length of the other edition, and with a wrong seal.
        let other = headed(file.clone(), if edition == One { 0x20 } else { 0x10 });
        assert_eq!(asked(plate(70_001, 13), &other), 4);
        assert_eq!(asked(PLATE, &other), 6);
        let mut unsealed = file.clone();
        unsealed[9] ^= 1;
        assert_eq!(asked(plate(70_001, 13), &unsealed), 4);
        assert_eq!(asked(PLATE, &unsealed), 7);
    }
}

// ---- what the writer is told

/// Every number of a byte but 1 and 2 is refusal 2; among them those with the low four bits of 1 or
/// 2, which a head could not tell from these.
#[test]
fn every_number_told() {
    let (table, own) = two_jobs_in_time();
    for told in 0..=255 {
        let mut out = [7; 45];
        let answer = write(told, PLATE, &table, &own, &[], &mut out);
        match told {
            1 => assert_eq!(answer, Ok(39)),
            2 => assert_eq!(answer, Ok(45)),
            _ => {
                assert_eq!(answer, refused(2), "{told}");
                assert_eq!(out, [7; 45], "{told}");
            }
        }
    }
}

/// What else may be wrong with a writing.
struct Wrong {
    plate: Plate,
    table: Table,
    own: Vec<u32>,
    room: usize,
}

/// The number that it is turned away by in edition 1 and in edition 2 where nothing before it
/// applies, and the change that makes it so. A table with a jitter is written as edition 2 alone.
const WRONGS: [(u8, u8, fn(&mut Wrong)); 11] = [
    (5, 5, |wrong| wrong.table.n = 0),
    (5, 5, |wrong| wrong.table.n = 16),
    (5, 5, |wrong| wrong.own.resize(101, 1)),
    (18, 18, |wrong| wrong.plate.cabinet = 0),
    (18, 18, |wrong| wrong.plate.line = 0),
    (9, 9, |wrong| wrong.plate.cabinet = 1 << 24),
    (9, 9, |wrong| wrong.table.records[0].jitter = 5),
    (10, 10, |wrong| wrong.table.records[1].priority = 1),
    (11, 11, |wrong| wrong.table.records[1].count = 0),
    (19, 0, |wrong| wrong.table.records[1].jitter = 1),
    (12, 12, |wrong| wrong.room = 38),
];

fn all_well() -> Wrong {
    let (table, own) = two_jobs_in_time();
    Wrong {
        plate: PLATE,
        table,
        own,
        room: 500,
    }
}

/// The number that turns this writing away, or 0. Nothing is written then.
fn writing(told: u8, wrong: &Wrong) -> u8 {
    let mut out = vec![7; wrong.room];
    let answer = write(told, wrong.plate, &wrong.table, &wrong.own, &[], &mut out);
    assert!(answer.is_ok() || out == vec![7; wrong.room]);
    number(answer)
}

/// 2, 5, 18, 9, 10, 11, 19, 12: each by itself, and each beside each that is asked later. 19 is asked
/// of edition 1 alone, so in edition 2 a jitter stands in the way of nothing.
#[test]
fn the_order_of_writing() {
    for told in [0, 3, 15, 16, 17, 18, 33, 255] {
        assert_eq!(writing(told, &all_well()), 2);
    }
    for (place, (in_one, in_two, change)) in WRONGS.into_iter().enumerate() {
        let mut wrong = all_well();
        change(&mut wrong);
        assert_eq!(writing(1, &wrong), in_one, "{place}");
        assert_eq!(writing(2, &wrong), in_two, "{place}");
        assert_eq!(writing(0, &wrong), 2, "{place}");
        assert_eq!(writing(3, &wrong), 2, "{place}");
        for (later, (_, then, other)) in WRONGS.into_iter().enumerate().skip(place + 1) {
            let mut both = all_well();
            other(&mut both);
            change(&mut both);
            let first = if in_two == 0 { then } else { in_two };
            assert_eq!(writing(1, &both), in_one, "{place} and {later}");
            assert_eq!(writing(2, &both), first, "{place} and {later}");
            assert_eq!(writing(17, &both), 2, "{place} and {later}");
            assert_eq!(writing(255, &both), 2, "{place} and {later}");
        }
    }
    let mut all = all_well();
    for (_, _, change) in WRONGS {
        change(&mut all);
    }
    assert_eq!([0, 1, 2, 3].map(|told| writing(told, &all)), [2, 5, 5, 2]);
}

/// A file of edition 2 needs six bytes more here, and none is written where one of them is missing.
#[test]
fn room_for_either_edition() {
    let mut well = all_well();
    for (room, numbers) in [
        (0, [12, 12]),
        (38, [12, 12]),
        (39, [0, 12]),
        (44, [0, 12]),
        (45, [0, 0]),
        (46, [0, 0]),
    ] {
        well.room = room;
        assert_eq!([1, 2].map(|told| writing(told, &well)), numbers);
    }
    // With a jitter, 19 is said whatever the room is, and 12 in edition 2 alone.
    well.table.records[0].jitter = 4;
    for (room, numbers) in [(0, [19, 12]), (39, [19, 12]), (44, [19, 12]), (45, [19, 0])] {
        well.room = room;
        assert_eq!([1, 2].map(|told| writing(told, &well)), numbers);
    }
}

#[test]
fn writing_touches_the_file_and_no_more() {
    let (table, own) = two_late_jobs();
    let mut out = [0xEE; 60];
    assert_eq!(write(2, PLATE, &table, &own, &[], &mut out), Ok(45));
    assert_eq!(out[..45], late_file());
    assert_eq!(out[45..], [0xEE; 15]);
}

// ---- the round trip

/// Both files of a table without a jitter read as that table, and differ in the edition.
#[test]
fn one_table_in_both_editions() {
    let mut dice = Dice::new(21);
    for _ in 0..200 {
        let (table, own, catalogue) = random_cabinet(&mut dice);
        let files = Edition::BOTH.map(|edition| file_in(edition, &table, &own, &catalogue));
        let [first, second] = &files;
        assert_eq!(second.len(), first.len() + 3 * table.n as usize);
        // But for the edition the heads are alike, and but for the seals what stands behind the records.
        assert_eq!([first[0], second[0]], [0x10, 0x20]);
        assert_eq!(first[1..8], second[1..8]);
        let words = |file: &Vec<u8>, bytes: usize| {
            file[8 + bytes * table.n as usize..file.len() - 2].to_vec()
        };
        assert_eq!(words(first, 12), words(second, 15));
        for (edition, file) in Edition::BOTH.into_iter().zip(&files) {
            let mut words = vec![0; own.len()];
            let answer = read(PLATE, &catalogue, file, &mut words);
            assert_eq!(answer, Ok((edition, table)));
            assert_eq!(words, own);
        }
    }
}

/// Written and read, and written again from what was read: in edition 2 with jitters.
#[test]
fn round_trips_of_edition_2() {
    let mut dice = Dice::new(22);
    for _ in 0..500 {
        let (mut table, own, catalogue) = random_cabinet(&mut dice);
        let n = table.n as usize;
        for record in &mut table.records[..n] {
            let most = record.period - 1;
            let some = dice.from_to(0, most);
            record.jitter = [0, 1.min(most), some, some, most][dice.from_to(0, 4) as usize];
        }
        let file = file_in(Two, &table, &own, &catalogue);
        assert_eq!(file.len(), length(Two, n, own.len()));
        let mut words = vec![0; own.len()];
        let (edition, again) = read(PLATE, &catalogue, &file, &mut words).expect("refused");
        assert_eq!((edition, again), (Two, table));
        assert_eq!(words, own);
        assert_eq!(file_in(edition, &again, &words, &catalogue), file);
        for k in 1..=table.n as u16 {
            let part = parts::record(PLATE, &catalogue, &file, k).expect("refused");
            let place = 8 + 15 * (k as usize - 1);
            assert_eq!(part.as_ptr_range(), file[place..place + 15].as_ptr_range());
        }
        let past = parts::record(PLATE, &catalogue, &file, table.n as u16 + 1);
        assert_eq!(past, refused(13));
    }
}

// ---- the listing

/// The listing's program reads both editions, and a jitter counts. A (2,5,5) and B (4,10,10) have two
/// rows. With a jitter of 3 A ends 5 ticks after it should have come if nothing is in its way, and
/// later where B is: the row in which B can't hold it up is left.
#[test]
fn the_listing_reads_both() {
    let listed = |file: &[u8]| {
        let input = [&[0x01, 0x11, 0x71, 0x00, 0x0c], file].concat();
        let mut output = Vec::new();
        crate::list::run(&input[..], &mut output).expect("a list");
        String::from_utf8(output).expect("text")
    };
    let mut table = unassigned(&[(2, 5, 5), (4, 10, 10)]);
    let own = whole_regions(&mut table);
    for edition in Edition::BOTH {
        let file = file_in(edition, &table, &own, &[]);
        assert_eq!(listed(&file), "tasks 2\n1 2 1 1\n1 2 1 2\nend 2\n");
        assert_eq!(listed(&headed(file.clone(), 0x30)), "refused 2\n");
        assert_eq!(listed(&file[..file.len() - 1]), "refused 6\n");
        assert_eq!(listed(&file[..21]), "refused 1\n");
    }
    table.records[0].jitter = 3;
    let late = file_in(Two, &table, &own, &[]);
    assert_eq!(listed(&late), "tasks 2\n1 2 1 2\nend 1\n");
    table.records[0].jitter = 4;
    let later = file_in(Two, &table, &own, &[]);
    assert_eq!(listed(&later), "tasks 2\nend 0\n");
    assert_eq!(listed(&turned(late, bit_of(0, 119))), "refused 8\n");
}
