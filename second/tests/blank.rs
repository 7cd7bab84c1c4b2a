//! Blank plates (document 02, item 1): what is answered, worked out by hand, and what the stored
//! and the made requests try.

use super::*;
use crate::ask::Body;
use crate::checks::Refusal;
use crate::draw::cabinet;
use crate::file::{read, write};
use crate::parts;
use crate::random::Random;
use crate::spoil::BLANKS;
use crate::{cases, generate};
use std::collections::BTreeSet;

/// Cabinet and line, as a plate or a file names them.
type Named = (u32, u16);

const OURS: Named = (70_001, 12);
const BLANK: Named = (0, 0);
/// A plate is held in 32 bits: of this cabinet only the low 24 are 0.
const WIDE: u32 = 1 << 24;

fn plate((cabinet, line): Named) -> Plate {
    Plate { cabinet, line }
}

/// The two jobs' file for another cabinet and line: edition and spare bits fill byte 0, the
/// cabinet bytes 1 to 3, the line bytes 4 and 5.
fn file_for((cabinet, line): Named) -> Vec<u8> {
    let (table, own) = two_jobs();
    let mut file = file_of(&table, &own, &[]);
    file[1..4].copy_from_slice(&cabinet.to_be_bytes()[1..]);
    file[4..6].copy_from_slice(&line.to_be_bytes());
    resealed(file)
}

/// The number of a refusal, 0 where there is none.
fn number<T>(answer: Result<T, Refusal>) -> u8 {
    answer.map_or_else(|refusal| refusal.number, |_| 0)
}

/// Something else that is wrong with a file.
type Change = fn(&mut Vec<u8>);

/// What stands on the plate and in the file, what else is wrong, and the number that reading and a
/// record answer; 0 is none.
#[rustfmt::skip]
const READING: [(Named, Named, Change, u8); 34] = [
    (OURS, OURS, |_| {}, 0),
    // Each zero alone, each pair, all four.
    (OURS, (0, 12), |_| {}, 18),
    (OURS, (70_001, 0), |_| {}, 18),
    ((0, 12), OURS, |_| {}, 18),
    ((70_001, 0), OURS, |_| {}, 18),
    ((0, 12), (0, 12), |_| {}, 18),
    ((70_001, 0), (70_001, 0), |_| {}, 18),
    (OURS, BLANK, |_| {}, 18),
    (BLANK, OURS, |_| {}, 18),
    ((70_001, 0), (0, 12), |_| {}, 18),
    ((0, 12), (70_001, 0), |_| {}, 18),
    (BLANK, BLANK, |_| {}, 18),
    // 1 and 2 are asked before.
    (BLANK, BLANK, |file| file.clear(), 1),
    (BLANK, BLANK, |file| file.truncate(7), 1),
    (BLANK, BLANK, |file| file.truncate(8), 1),
    (BLANK, OURS, |file| file.truncate(21), 1),
    (OURS, BLANK, |file| file.truncate(21), 1),
    (BLANK, BLANK, |file| file.truncate(22), 18),
    (BLANK, BLANK, |file| file[0] = 0x30, 2),
    (BLANK, OURS, |file| file[0] = 0x00, 2),
    (OURS, BLANK, |file| file[0] = 0xF0, 2),
    // 3, 4, 5, 7 and 8 are asked behind it.
    ((70_001, 0), (70_002, 0), |_| {}, 18),
    ((0, 12), (0, 13), |_| {}, 18),
    (BLANK, BLANK, |file| file[6] = 16, 18),
    (BLANK, BLANK, |file| file[7] = 101, 18),
    (BLANK, BLANK, |file| file[30] ^= 1, 18),
    (BLANK, BLANK, |file| file[0] = 0x11, 18),
    // A byte is 0, or three are, and the number isn't.
    ((1, 1), (1, 1), |_| {}, 0),
    ((0x100, 0x100), (0x100, 0x100), |_| {}, 0),
    ((0x1_0000, 1), (0x1_0000, 1), |_| {}, 0),
    ((WIDE, 12), OURS, |_| {}, 3),
    ((WIDE, 12), (0, 12), |_| {}, 18),
    ((WIDE, 0), OURS, |_| {}, 18),
    ((WIDE, 12), OURS, |file| file[0] = 0x30, 2),
];

#[test]
fn reading_and_a_record() {
    for (place, (on_plate, in_file, change, expected)) in READING.into_iter().enumerate() {
        let plate = plate(on_plate);
        let mut file = file_for(in_file);
        change(&mut file);
        let mut out = [7; 2];
        assert_eq!(
            number(read(plate, &[], &file, &mut out)),
            expected,
            "{place}"
        );
        assert_eq!(out == [7; 2], expected != 0, "{place}");
        assert_eq!(
            number(parts::record(plate, &[], &file, 2)),
            expected,
            "{place}"
        );
        // Neither too little room nor a record that isn't there is asked before.
        let first = |last| if expected == 0 { last } else { expected };
        assert_eq!(
            number(read(plate, &[], &file, &mut [7])),
            first(12),
            "{place}"
        );
        assert_eq!(
            number(parts::record(plate, &[], &file, 3)),
            first(13),
            "{place}"
        );
    }
}

/// What stands on the plate, how many bytes may be written, what is wrong with the table, and the
/// number that writing answers; 0 is none.
#[rustfmt::skip]
const WRITING: [(Named, usize, fn(&mut Table), u8); 22] = [
    (OURS, 39, |_| {}, 0),
    ((0, 12), 39, |_| {}, 18),
    ((70_001, 0), 39, |_| {}, 18),
    (BLANK, 39, |_| {}, 18),
    // 5 is asked before.
    (BLANK, 39, |table| table.n = 0, 5),
    ((0, 12), 39, |table| table.n = 16, 5),
    ((70_001, 0), 39, |table| table.n = 255, 5),
    // 9 to 12 are asked behind it.
    (BLANK, 39, |table| table.records[0].cost = 0, 18),
    ((0, 12), 39, |table| table.records[1].name = 128, 18),
    ((70_001, 0), 39, |table| table.records[1].period = 1_000_001, 18),
    ((WIDE, 0), 39, |_| {}, 18),
    ((u32::MAX, 0), 39, |_| {}, 18),
    (BLANK, 39, |table| table.records[0].priority = 0, 18),
    ((0, 12), 39, |table| table.records[0].count = 0, 18),
    ((70_001, 0), 38, |_| {}, 18),
    (BLANK, 0, |_| {}, 18),
    // A byte is 0, or three are, and the number isn't.
    ((1, 1), 39, |_| {}, 0),
    ((0x100, 0x100), 39, |_| {}, 0),
    ((0x1_0000, 1), 39, |_| {}, 0),
    ((WIDE, 12), 39, |_| {}, 9),
    ((WIDE, 12), 39, |table| table.n = 0, 5),
    ((WIDE, 12), 38, |table| table.records[0].priority = 0, 9),
];

#[test]
fn writing() {
    for (place, (on_plate, room, change, expected)) in WRITING.into_iter().enumerate() {
        let (mut table, own) = two_jobs();
        change(&mut table);
        let mut out = vec![7; room];
        let answer = write(1, plate(on_plate), &table, &own, &[], &mut out);
        assert_eq!(number(answer), expected, "{place}");
        assert_eq!(out == vec![7; room], expected != 0, "{place}");
    }
    let (table, _) = two_jobs();
    let too_many = write(1, plate(BLANK), &table, &[2; 101], &[], &mut []);
    assert_eq!(number(too_many), 5);
}

/// What is written for a plate reads back under it: every plate but the blank ones.
#[test]
fn plates_that_go_round() {
    let (table, own) = two_jobs();
    for cabinet in [0, 1, 0x100, 0x1_0000, 70_001, 0xFF_FFFF] {
        for line in [0, 1, 0x100, 12, 0xFFFF] {
            let plate = plate((cabinet, line));
            let mut file = [0; 39];
            let written = write(1, plate, &table, &own, &[], &mut file);
            let blank = cabinet == 0 || line == 0;
            assert_eq!(number(written), if blank { 18 } else { 0 });
            if !blank {
                let mut words = [0; 2];
                assert_eq!(
                    read(plate, &[], &file, &mut words),
                    Ok((Edition::One, table))
                );
                assert_eq!(words[..], own);
            }
        }
    }
}

/// A request that names a cabinet and a line.
pub struct Request {
    /// Which of these are 0: the file's cabinet and line, the plate's cabinet and line.
    zeros: [bool; 4],
    /// Which of 1 to 5 and 7 apply to it beside; in writing, whether 5 does.
    others: Vec<u8>,
}

fn is_writing(kind: u8) -> bool {
    kind == 2 || kind == 14
}

impl Request {
    /// Nothing where a kind names none.
    fn of(kind: u8, body: &[u8]) -> Option<Request> {
        if ![1, 2, 9, 14].contains(&kind) {
            return None;
        }
        // What the writer is told stands before all that kind 2 has too.
        let told = if kind == 14 { 1 } else { 0 };
        let no_edition = |number: u8| number != 1 && number != 2;
        let mut others = Vec::new();
        if kind == 14 && no_edition(body[0]) {
            others.push(2);
        }
        let body = &body[told..];
        let zero = |bytes: &[u8]| bytes.iter().all(|byte| *byte == 0);
        let (cabinet, line) = (&body[..4], &body[4..6]);
        let mut zeros = [false, false, zero(cabinet), zero(line)];
        let mut body = Body(&body[8..]);
        let counts_wrong = |n: u8, m: usize| n < 1 || n > 15 || m > 100;
        if is_writing(kind) {
            let n = body.table()?.n;
            let m = body.words()?.len();
            if counts_wrong(n, m) {
                others.push(5);
            }
            return Some(Request { zeros, others });
        }
        body.words()?;
        let file = body.bytes()?;
        if file.len() < 22 {
            others.push(1);
        }
        if file.len() >= 8 {
            (zeros[0], zeros[1]) = (zero(&file[1..4]), zero(&file[4..6]));
            let (head, seal) = file.split_at(file.len() - 2);
            let found = [
                (2, no_edition(file[0] >> 4)),
                (3, cabinet[0] != 0 || cabinet[1..] != file[1..4]),
                (4, line != &file[4..6]),
                (5, counts_wrong(file[6], file[7] as usize)),
                (7, crate::seal::seal(head).to_be_bytes() != seal),
            ];
            let found = found.iter().filter(|(_, applies)| *applies);
            others.extend(found.map(|(number, _)| *number));
        }
        Some(Request { zeros, others })
    }

    /// Whether 1 or 2, in writing 2 or 5, turns it away: these are asked before 18.
    fn before(&self, kind: u8) -> bool {
        let before = if is_writing(kind) { [2, 5] } else { [1, 2] };
        self.others.iter().any(|number| before.contains(number))
    }

    pub fn is_blank(kind: u8, body: &[u8]) -> bool {
        Request::of(kind, body).is_some_and(|request| request.zeros.contains(&true))
    }
}

/// Checks every answer to these requests: 18 exactly where a 0 stands and nothing is asked before
/// that turns the call away. Gives the zeros, by kind, that it came of.
fn answered(requests: &[(u8, Vec<u8>, String)]) -> BTreeSet<(u8, [bool; 4])> {
    let mut came = BTreeSet::new();
    for (kind, body, line) in requests {
        let said = line == "refused 18" || line.starts_with("refused 18 out");
        let request = Request::of(*kind, body);
        let blank =
            request.filter(|request| request.zeros.contains(&true) && !request.before(*kind));
        assert_eq!(said, blank.is_some(), "kind {kind}: {line}");
        came.extend(blank.map(|request| (*kind, request.zeros)));
    }
    came
}

/// Each zero alone, each pair and all four; of a plate alone in writing.
fn all_zeros() -> BTreeSet<(u8, [bool; 4])> {
    let mut all = BTreeSet::new();
    for bits in 1..16 {
        let zeros = [8, 4, 2, 1].map(|bit| bits & bit != 0);
        let many = zeros.iter().filter(|zero| **zero).count();
        if many != 3 {
            all.extend([(1, zeros), (9, zeros)]);
        }
        if bits < 4 {
            all.extend([(2, zeros), (14, zeros)]);
        }
    }
    all
}

#[test]
fn stored_requests() {
    assert_eq!(
        answered(&super::cases::requests(&cases::stream())),
        all_zeros()
    );
}

/// Each zero alone is stored beside each of 1 to 5 and 7, for both calls that read a file.
#[test]
fn stored_pairs() {
    let mut came = BTreeSet::new();
    for (kind, body, _) in super::cases::requests(&cases::stream()) {
        let request = Request::of(kind, &body).filter(|_| !is_writing(kind));
        let Some(Request { zeros, others }) = request else {
            continue;
        };
        if zeros.iter().filter(|zero| **zero).count() == 1 {
            came.extend(others.iter().map(|number| (kind, zeros, *number)));
        }
    }
    assert_eq!(came.len(), 2 * 4 * 6, "{came:?}");
}

#[test]
fn made_requests() {
    let mut stream = Vec::new();
    generate::stream(2, 30_000, &mut |request| stream.extend(request));
    let came = answered(&super::cases::requests(&stream));
    assert!(came.is_superset(&all_zeros()), "{came:?}");
}

#[test]
fn names_of_zeros() {
    let sets: BTreeSet<String> = BLANKS.map(|(_, zeros)| format!("{zeros:?}")).into();
    let names: BTreeSet<&str> = BLANKS.map(|(name, _)| name).into();
    assert_eq!((sets.len(), names.len()), (11, 11));
    let many = |many| {
        BLANKS
            .iter()
            .filter(|(_, zeros)| zeros.len() == many)
            .count()
    };
    assert_eq!([many(1), many(2), many(4)], [4, 6, 1]);
}

/// The writer takes what is drawn, so it is never blank.
#[test]
fn drawn_cabinets() {
    let random = &mut Random::new(4);
    let plates = (0..500).map(|_| cabinet(random, 2, true).plate);
    let plates: BTreeSet<Named> = plates.map(|plate| (plate.cabinet, plate.line)).collect();
    let of_one_byte = [(1, 1), (0x100, 0x100), (0x1_0000, 1)];
    assert!(of_one_byte.iter().all(|plate| plates.contains(plate)));
    assert!(plates
        .iter()
        .all(|(cabinet, line)| *cabinet != 0 && *line != 0));
}

/// Every third input of the listing's program is turned away, by each number in turn.
#[test]
fn inputs_that_are_turned_away() {
    let random = &mut Random::new(4);
    let asked = [1, 2, 18, 3, 4, 5, 6, 7, 8, 9, 10, 11, 1, 2, 18];
    for (third, number) in asked.into_iter().enumerate() {
        let input = generate::input(random, 3 * third as u64 + 2);
        let mut output = Vec::new();
        crate::list::run(&input[..], &mut output).expect("an answer");
        assert_eq!(output, format!("refused {number}\n").into_bytes());
    }
}
