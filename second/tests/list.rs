//! The listing program, whole outputs.

use super::*;

fn listed(plate: &[u8], file: &[u8]) -> String {
    let mut output = Vec::new();
    crate::list::run([plate, file].concat().as_slice(), &mut output).expect("a list");
    String::from_utf8(output).expect("text")
}

/// Cabinet 70,001 and line 12.
const PLATE_BYTES: [u8; 5] = [0x01, 0x11, 0x71, 0x00, 0x0c];

fn two_jobs() -> Vec<u8> {
    let mut table = unassigned(&[(2, 5, 6), (4, 10, 10)]);
    let own = whole_regions(&mut table);
    file_of(&table, &own, &[])
}

#[test]
fn example_of_document_01() {
    let text = "tasks 2\n1 2 1 1\n1 2 1 2\n2 1 1 1\n2 1 2 1\nend 4\n";
    assert_eq!(listed(&PLATE_BYTES, &two_jobs()), text);
}

#[test]
fn turned_away() {
    assert_eq!(listed(&[], &[]), "refused 1\n");
    assert_eq!(listed(&PLATE_BYTES[..4], &[]), "refused 1\n");
    assert_eq!(listed(&PLATE_BYTES, &[]), "refused 1\n");
    assert_eq!(
        listed(&[0x01, 0x11, 0x72, 0x00, 0x0c], &two_jobs()),
        "refused 3\n"
    );
    assert_eq!(
        listed(&[0x01, 0x11, 0x71, 0x00, 0x0d], &two_jobs()),
        "refused 4\n"
    );
}

/// Cabinet 0 or line 0, in the file or on the plate; a short file and another edition come first.
#[test]
fn blank_plates_and_files() {
    let mut blank = two_jobs();
    blank[1..6].fill(0);
    let blank = resealed(blank);
    for plate in [[0, 0, 0, 0, 0x0c], [0x01, 0x11, 0x71, 0, 0], [0; 5]] {
        assert_eq!(listed(&plate, &two_jobs()), "refused 18\n");
        assert_eq!(listed(&plate, &blank), "refused 18\n");
        assert_eq!(listed(&plate, &blank[..21]), "refused 1\n");
        assert_eq!(listed(&plate, &[]), "refused 1\n");
    }
    assert_eq!(listed(&PLATE_BYTES, &blank), "refused 18\n");
    let mut edition = blank;
    edition[0] = 0x30;
    assert_eq!(listed(&[0; 5], &resealed(edition)), "refused 2\n");
}

#[test]
fn bytes_past_the_file() {
    let padded = |more: usize| [two_jobs(), vec![0; more]].concat();
    assert_eq!(listed(&PLATE_BYTES, &padded(1)), "refused 6\n");
    assert_eq!(listed(&PLATE_BYTES, &padded(10_000)), "refused 6\n");
}

#[test]
fn the_catalogue_is_empty() {
    let mut table = unassigned(&[(2, 5, 6)]);
    (table.records[0].source, table.records[0].count) = (Source::Catalogue, 1);
    assert_eq!(
        listed(&PLATE_BYTES, &file_of(&table, &[], &[2])),
        "refused 11\n"
    );
}

#[test]
fn no_row() {
    let mut table = unassigned(&[(2, 5, 1)]);
    let own = whole_regions(&mut table);
    assert_eq!(
        listed(&PLATE_BYTES, &file_of(&table, &own, &[])),
        "tasks 1\nend 0\n"
    );
}

/// Three tasks with little to do pass in every row: 3! orders, each with 1·2·3 thresholds.
#[test]
fn every_row_once_and_in_order() {
    let mut table = unassigned(&[(1, 100, 100); 3]);
    let own = whole_regions(&mut table);
    let text = listed(&PLATE_BYTES, &file_of(&table, &own, &[]));
    let lines: Vec<&str> = text.lines().collect();
    assert_eq!((lines[0], lines[37]), ("tasks 3", "end 36"));
    assert_eq!(lines.len(), 38);
    assert!(lines[1..37].windows(2).all(|pair| pair[0] < pair[1]));
    assert_eq!((lines[1], lines[36]), ("1 2 3 1 1 1", "3 2 1 3 2 1"));
}

/// What is printed of these tasks where at most so many rows are.
fn printed(tasks: &[(u32, u32, u32)], most: u64) -> String {
    let mut output = Vec::new();
    crate::list::print_rows(&unassigned(tasks), most, &mut output).expect("a list");
    String::from_utf8(output).expect("text")
}

/// The example of document 01 has four rows: a total while no more than the most of them pass.
#[test]
fn more_rows_than_are_printed() {
    let paper = [(2, 5, 6), (4, 10, 10)];
    let rows = ["tasks 2", "1 2 1 1", "1 2 1 2", "2 1 1 1", "2 1 2 1"];
    for (most, last) in [
        (0, "more"),
        (1, "more"),
        (3, "more"),
        (4, "end 4"),
        (5, "end 4"),
        (1_000_000, "end 4"),
    ] {
        let shown = rows.len().min(1 + most as usize);
        let text = format!("{}\n{last}\n", rows[..shown].join("\n"));
        assert_eq!(printed(&paper, most), text, "{most}");
    }
}

/// A row that fails is no row that follows.
#[test]
fn rows_that_fail_behind_the_last() {
    let only = [(2, 5, 4), (4, 10, 10)];
    assert_eq!(printed(&only, 1), "tasks 2\n1 2 1 2\nend 1\n");
    assert_eq!(printed(&only, 0), "tasks 2\nmore\n");
    assert_eq!(printed(&[(2, 5, 1), (4, 10, 10)], 0), "tasks 2\nend 0\n");
}

/// Fifteen light tasks pass in every row: their first rows, and no walk over all of them.
#[test]
fn first_rows_of_fifteen() {
    let text = printed(&[(1, 100, 100); 15], 3);
    let order = "1 2 3 4 5 6 7 8 9 10 11 12 13 14 15";
    let ones = "1 ".repeat(14);
    let rows: String = (1..=3).map(|k| format!("{order} {ones}{k}\n")).collect();
    assert_eq!(text, format!("tasks 15\n{rows}more\n"));
}

/// Six light tasks have 720 · 720 rows, seven 5,040 · 5,040: only these are more than a million.
#[test]
fn a_million_rows() {
    let listing = |n: usize| {
        let mut table = unassigned(&vec![(1, 100, 100); n]);
        let own = whole_regions(&mut table);
        listed(&PLATE_BYTES, &file_of(&table, &own, &[]))
    };
    let six = listing(6);
    assert!(six.starts_with("tasks 6\n") && six.ends_with("\nend 518400\n"));
    let seven = listing(7);
    assert!(seven.starts_with("tasks 7\n") && seven.ends_with("\nmore\n"));
    assert_eq!(seven.lines().count(), 1_000_002);
}
