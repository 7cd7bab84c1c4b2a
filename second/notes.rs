//! What one request and its answer reach, for the count of reach.rs. Every function here notes
//! all of its things at every request, those that came and those that didn't.

mod analysis_calls;
mod edition_rules;
mod editions;
mod files;
mod jitters;
mod other_rules;
mod parts_calls;
mod points;
mod points_rules;
mod rows;
mod tables;

use crate::analysis::{self, Response, Tasks};
use crate::ask::Body;
use crate::cases::{place_of, CALLS};
use crate::checks::{self, *};
use crate::draw::{is_late, last_row, step_back, tasks_in, LIKE_A_SPACE};
use crate::file::{self, Edition};
use crate::later::{differences, reaching};
use crate::lengths;
use crate::listing::Row;
use crate::margins::{end_of_stretch, Cut};
use crate::reach::{Tally, LEAST};
use crate::spoil::{blank_plates, Zero, ALONE, BLANKS};
use crate::table::*;
use jitters::*;
use tables::*;

/// The first words of each call's answers, refusals apart.
const ANSWERS: [&[&str]; CALLS.len()] = [
    &["table"],
    &["file"],
    &["times"],
    &["tolerances"],
    &["lengths"],
    &["fits", "unfit"],
    &["row", "end"],
    &["row", "end"],
    &["record"],
    &["regions"],
    &["name"],
    &["last"],
    &["points"],
    &["file"],
];

/// Two numbers of a call that can apply together, the one that is asked first first, neighbours
/// among its numbers where these can: if each of these pairs is answered by its first, so is every
/// other pair. Beside 18 and 19, which are asked out of their turn, and 2, for which a file has no
/// layout, there are more of them. A table isn't both ill formed (10) and unassigned (14), and what is
/// told no edition (2) isn't of edition 1 (19).
#[rustfmt::skip]
const MEETINGS: [&[(u8, u8)]; CALLS.len()] = [
    &[(1, 2), (1, 18), (2, 18), (2, 3), (2, 4), (2, 5), (2, 6), (2, 7), (2, 8), (2, 9), (2, 10),
      (2, 11), (2, 12), (18, 3), (18, 4), (18, 5), (18, 7), (18, 12),
      (3, 4), (4, 5), (5, 6), (6, 7), (7, 8), (8, 9), (9, 10), (10, 11), (11, 12)],
    &[(5, 18), (5, 9), (18, 9), (18, 10), (18, 11), (18, 12), (9, 10), (10, 11), (11, 12),
      (5, 19), (18, 19), (9, 19), (10, 19), (11, 19), (19, 12)],
    &[(5, 9), (9, 10), (9, 14)],
    &[(5, 9), (9, 10), (9, 14), (10, 15), (14, 15), (15, 16)],
    &[(5, 9), (9, 10), (9, 14), (10, 15), (14, 15), (15, 16)],
    &[(5, 9), (9, 10), (10, 11), (11, 14), (14, 15), (15, 16)],
    &[(5, 9), (9, 12)],
    &[(5, 9), (9, 12), (12, 17)],
    &[(1, 2), (1, 18), (2, 18), (2, 3), (2, 4), (2, 5), (2, 6), (2, 7), (2, 8), (2, 9), (2, 10),
      (2, 11), (2, 13), (18, 3), (18, 4), (18, 5), (18, 7), (18, 13),
      (3, 4), (4, 5), (5, 6), (6, 7), (7, 8), (8, 9), (9, 10), (10, 11), (11, 13)],
    &[(5, 13), (5, 11)],
    &[(9, 13)],
    &[(5, 13), (5, 11)],
    &[(5, 9), (9, 10), (10, 11), (11, 14), (14, 15), (15, 16)],
    &[(2, 5), (2, 18), (2, 9), (2, 10), (2, 11), (2, 12),
      (5, 18), (5, 9), (18, 9), (18, 10), (18, 11), (18, 12), (9, 10), (10, 11), (11, 12),
      (5, 19), (18, 19), (9, 19), (10, 19), (11, 19), (19, 12)],
];

/// How often a thing is wanted that the stream aims at.
const AIMED_AT: u64 = 300;
/// How often one is wanted of the many that share the few requests of blank plates and files.
const SELDOM: u64 = 5;

/// An answer's line, and what it says.
struct Answer<'a> {
    line: &'a str,
    refusal: Option<u8>,
}

impl<'a> Answer<'a> {
    fn of(line: &'a str) -> Answer<'a> {
        let number = line.strip_prefix("refused ");
        let number = number.and_then(|rest| rest.split(' ').next()?.parse().ok());
        Answer {
            line,
            refusal: number,
        }
    }

    fn taken(&self) -> bool {
        self.refusal.is_none()
    }

    fn refused(&self, number: u8) -> bool {
        self.refusal == Some(number)
    }

    /// The words behind the first, without the memory that was lent.
    fn words(&self) -> impl Iterator<Item = &'a str> {
        let said = self.line.split(" out").next().unwrap_or("");
        said.split(' ').skip(1)
    }

    /// The row that was written, nothing where the answer is no row.
    fn row(&self, n: usize) -> Vec<u8> {
        let Some(out) = self.line.strip_prefix("row out ") else {
            return Vec::new();
        };
        let numbers = out.split(' ').take(2 * n);
        numbers.filter_map(|word| word.parse().ok()).collect()
    }
}

/// The bytes of a text in hexadecimal.
fn bytes_of_text(text: &str) -> Vec<u8> {
    let places = (0..text.len() / 2).map(|k| text.get(2 * k..2 * k + 2));
    places
        .filter_map(|two| u8::from_str_radix(two?, 16).ok())
        .collect()
}

/// Notes all that this request reaches. `None` where the answer is none of its call's, or the
/// body is none.
pub fn of_request(tally: &mut Tally, kind: u8, body: &[u8], line: &str) -> Option<()> {
    let answer = &Answer::of(line);
    outcome(tally, kind, answer)?;
    let body = Body(body);
    match kind {
        1 => files::of_reading(tally, body, answer),
        2 | 14 => files::of_writing(tally, kind, body, answer),
        3 => analysis_calls::of_times(tally, body, answer),
        4 => analysis_calls::of_tolerances(tally, body, answer),
        5 => analysis_calls::of_lengths(tally, body, answer),
        6 => analysis_calls::of_region_check(tally, body, answer),
        7 => rows::of_first_row(tally, body, answer),
        8 => rows::of_next_row(tally, body, answer),
        9 => files::of_record(tally, body, answer),
        10 => parts_calls::of_regions(tally, 10, body, answer),
        12 => points::of_last_region(tally, body, answer),
        13 => points::of_points(tally, body, answer),
        _ => parts_calls::of_name(tally, body, answer),
    }
}

fn outcome(tally: &mut Tally, kind: u8, answer: &Answer) -> Option<()> {
    let place = place_of(kind)?;
    let mut known = false;
    for number in CALLS[place].2 {
        tally.note(&format!("refused {number}"), answer.refused(*number));
        known |= answer.refused(*number);
    }
    let word = answer.line.split(' ').next();
    for said in ANSWERS[place] {
        tally.note(said, word == Some(said));
        known |= word == Some(said);
    }
    known.then_some(())
}

/// Numbers that apply to a request, whichever of them wins.
struct Faults(Vec<u8>);

impl Faults {
    fn add(&mut self, number: u8, applies: bool) {
        if applies {
            self.0.push(number);
        }
    }

    fn has(&self, number: u8) -> bool {
        self.0.contains(&number)
    }

    /// The first of two is answered while the second applies too: their order shows. Of 2, 18 and 19
    /// it is noted too that nothing else applies: but for that the call would go on.
    fn note_meetings(&self, tally: &mut Tally, kind: u8, answer: &Answer) {
        let place = place_of(kind).expect("a call's kind");
        for (first, second) in MEETINGS[place] {
            let met = answer.refused(*first) && self.has(*second);
            tally.note(&format!("{first} before {second}"), met);
        }
        let asked = CALLS[place].2;
        for number in [2, 18, 19]
            .into_iter()
            .filter(|number| asked.contains(number))
        {
            let mut others = asked.iter().filter(|other| **other != number);
            let alone = answer.refused(number) && !others.any(|other| self.has(*other));
            tally.note(&format!("{number} and no other"), alone);
        }
    }
}

/// The first number of each pair is asked before the second.
#[test]
fn meetings_are_in_the_order_asked() {
    for ((_, call, asked), pairs) in CALLS.iter().zip(MEETINGS) {
        let place = |number: u8| asked.iter().position(|other| *other == number);
        for (first, second) in pairs {
            let places = (place(*first), place(*second));
            let (Some(first_asked), Some(second_asked)) = places else {
                panic!("{call}: {first} and {second}");
            };
            assert!(first_asked < second_asked, "{call}: {first} and {second}");
        }
    }
}
