//! The stored stream of requests: what document 02, items 6 and 9, ask of it.

use super::blank::Request;
use crate::ask::Body;
use crate::cases;
use crate::file::{length, read_checked, Edition};
use crate::spoil::{in_record_of, put, seal_again, N_AT};
use std::collections::BTreeSet;

/// The requests of a stream, kind and body, each with the line that answers it.
pub fn requests(stream: &[u8]) -> Vec<(u8, Vec<u8>, String)> {
    let mut output = Vec::new();
    crate::ask::run(stream, &mut output).expect("answers");
    let text = String::from_utf8(output).expect("text");
    let mut rest = stream;
    let mut list = Vec::new();
    for line in text.lines() {
        let (head, more) = rest.split_at(3);
        let length = u16::from_be_bytes([head[1], head[2]]) as usize;
        list.push((head[0], more[..length].to_vec(), line.to_string()));
        rest = &more[length..];
    }
    assert!(rest.is_empty());
    list
}

/// Those of the stored stream. The last one is a bad request and is left out.
fn stored() -> Vec<(u8, Vec<u8>, String)> {
    let mut list = requests(&cases::stream());
    assert_eq!(
        list.pop().map(|last| last.2).as_deref(),
        Some("bad request")
    );
    list
}

/// The n that a request names: its table's, or the one in its file's head.
fn n_of(kind: u8, body: &[u8]) -> Option<u8> {
    let mut body = Body(body);
    match kind {
        1 | 9 => {
            body.plate()?;
            body.two()?;
            body.words()?;
            body.bytes()?.get(6).copied()
        }
        2 | 14 => {
            if kind == 14 {
                body.one()?;
            }
            body.plate()?;
            body.two()?;
            Some(body.table()?.n)
        }
        3..=6 | 13 => Some(body.table()?.n),
        7 | 8 | 10 | 12 => {
            body.two()?;
            Some(body.table()?.n)
        }
        _ => None,
    }
}

/// Kinds that ask 5, and how an answer of theirs for fifteen tasks begins.
const ASK_5: [(u8, &str); 13] = [
    (1, "table 15 "),
    (2, "file 440 "),
    (3, "times "),
    (4, "tolerances "),
    (5, "lengths "),
    (6, "fits"),
    (7, "row out "),
    (8, "row out "),
    (9, "record "),
    (10, "regions "),
    (12, "last "),
    (13, "points "),
    (14, "file 485 "),
];

#[test]
fn fifteen_tasks_are_answered_and_none_and_sixteen_are_not() {
    let requests = stored();
    for (kind, begin) in ASK_5 {
        let of = |n| {
            // Reading asks 18 before 5, and a writer that is told of no edition asks nothing more.
            let asked = move |body: &[u8]| match kind {
                2 => true,
                14 => body[0] == 1 || body[0] == 2,
                _ => !Request::is_blank(kind, body),
            };
            let named = requests.iter().filter(move |(k, body, _)| {
                *k == kind && n_of(kind, body) == Some(n) && asked(body)
            });
            named.map(|(_, _, line)| line.as_str())
        };
        assert!(of(15).any(|line| line.starts_with(begin)), "{kind}");
        for n in [0, 16] {
            assert!(of(n).count() > 0, "kind {kind}, n {n}");
            let refused = |line: &str| line == "refused 5" || line.starts_with("refused 5 out");
            assert!(of(n).all(refused), "kind {kind}, n {n}");
        }
    }
    let end = |(kind, body, line): &(u8, Vec<u8>, String)| {
        *kind == 8 && n_of(8, body) == Some(15) && line.starts_with("end out 165")
    };
    assert!(requests.iter().any(end));
}

/// The files of sixteen records and of none have nothing wrong but that: with a record less, or
/// with those that are missing, they read.
#[test]
fn the_number_of_records_alone_is_wrong() {
    for edition in Edition::BOTH {
        let record = |k: usize| in_record_of(edition, k, 0) / 8;
        let mut sixteen = cases::sixteen_jobs_file(edition);
        let mut none = cases::no_jobs_file(edition);
        assert_eq!([sixteen[6], none[6]], [16, 0]);
        let records: Vec<u8> = sixteen.drain(record(0)..record(16)).collect();
        assert_eq!(sixteen[8..sixteen.len() - 2], none[8..none.len() - 2]);
        for file in [&mut sixteen, &mut none] {
            assert_eq!(file.len(), length(edition, 0, file[7] as usize));
            file.splice(8..8, records[..record(15) - 8].iter().copied());
            put(file, N_AT, 8, 15);
            seal_again(file);
            let read = read_checked(cases::PLATE, &[], file);
            assert_eq!(read.map(|(read, _, _)| read), Ok(edition));
        }
    }
}

/// Of those that are lent a table some have nothing wrong but n: with fifteen they are answered.
#[test]
fn n_alone_is_wrong() {
    let requests = stored();
    for kind in [2, 3, 4, 5, 6, 7, 8, 10, 12, 13, 14] {
        for n in [0, 16] {
            let mended = requests.iter().any(|(k, body, _)| {
                if *k != kind || n_of(kind, body) != Some(n) {
                    return false;
                }
                let mut body = body.clone();
                let place = match kind {
                    2 => 8,
                    14 => 9,
                    7 | 8 | 10 | 12 => 2,
                    _ => 0,
                };
                body[place] = 15;
                let mut request = vec![kind];
                request.extend((body.len() as u16).to_be_bytes());
                request.extend(body);
                let mut output = Vec::new();
                crate::ask::run(&request[..], &mut output).expect("an answer");
                !output.starts_with(b"refused")
            });
            assert!(mended, "kind {kind}, n {n}");
        }
    }
}

/// What the stored stream asks of the editions: files of both are read and written, each number that
/// is no edition is told, and each refusal of the writer comes of either edition that gives it.
#[test]
fn both_editions_are_stored() {
    let requests = stored();
    let told = requests.iter().filter(|(kind, _, _)| *kind == 14);
    let mut came = BTreeSet::new();
    for (_, body, line) in told {
        let number = line
            .strip_prefix("refused ")
            .map_or("0", |rest| rest.split(' ').next().expect("a number"));
        came.insert((body[0], number.parse::<u8>().expect("a number")));
    }
    for edition in (0..=255).filter(|told| ![1, 2].contains(told)) {
        assert!(came.contains(&(edition, 2)), "{edition}");
    }
    let in_edition = |edition| {
        let numbers = came.iter().filter(move |(told, _)| *told == edition);
        numbers.map(|(_, number)| *number).collect::<Vec<u8>>()
    };
    assert_eq!(in_edition(1), [0, 5, 9, 10, 11, 12, 18, 19]);
    assert_eq!(in_edition(2), [0, 5, 9, 10, 11, 12, 18]);
    for (begin, wanted) in [
        ("file 22 ", 1),
        ("file 25 ", 2),
        ("file 440 ", 1),
        ("file 485 ", 2),
    ] {
        let written = |(kind, body, line): &(u8, Vec<u8>, String)| {
            *kind == 14 && body[0] == wanted && line.starts_with(begin)
        };
        assert!(requests.iter().any(written), "{begin}");
    }
    for edition in [" edition 1 out", " edition 2 out"] {
        let read = |(kind, _, line): &(u8, Vec<u8>, String)| *kind == 1 && line.contains(edition);
        assert!(requests.iter().any(read), "{edition}");
    }
    // A record of twelve bytes and one of fifteen.
    for digits in [24, 30] {
        let record = |(kind, _, line): &(u8, Vec<u8>, String)| {
            let part = line.strip_prefix("record ");
            *kind == 9 && part.is_some_and(|part| part.len() == digits)
        };
        assert!(requests.iter().any(record), "{digits}");
    }
}
