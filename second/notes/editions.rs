//! What reading, a record out of a file and writing reach of the two editions (document 02, item 9):
//! each number in each of them, what is no edition, the other edition's length, each spare bit, and
//! jitters in a file. And which rules that item 9 shuts out would answer otherwise.

use super::edition_rules::*;
use super::files::Read;
use super::*;
use crate::generate::NO_EDITIONS;
use crate::spoil::{other_of, put, seal_again, spare_at, MOST_IN_A_FIELD};

/// How many of a call's requests are to be of each edition, at the least.
const OF_EACH: (u64, u64) = (1, 3);
/// How many of the files that are handed over are to be of edition 2 with a jitter in their records,
/// and how many without one: those that are cut have no records.
const LATE_FILES: (u64, u64) = (1, 12);

// ---- files

/// A file with what it is handed over with.
pub struct Handed<'a> {
    pub plate: Plate,
    pub catalogue: &'a [u32],
    pub file: &'a [u8],
}

impl Handed<'_> {
    /// The number that stands where the edition does, which a file of a single byte has.
    fn said(&self) -> Option<u8> {
        self.file.first().map(|byte| byte >> 4)
    }

    fn says(&self, edition: Edition) -> bool {
        self.said() == Some(edition.number())
    }

    fn has_length(&self, edition: Edition) -> bool {
        let Some(head) = files::head_of(self.file) else {
            return false;
        };
        self.file.len() == file::length(edition, head.n as usize, head.m)
    }

    /// Whether nothing but the number of the edition, and the seal with it, keeps it from being read
    /// as a file of this one.
    fn would_read_as(&self, edition: Edition) -> bool {
        let mut file = self.file.to_vec();
        put(&mut file, 0, 4, edition.number() as u32);
        seal_again(&mut file);
        file::read_checked(self.plate, self.catalogue, &file).is_ok()
    }
}

/// What a file that is read, or that a record is handed back of, reaches.
pub fn note_file_editions(
    tally: &mut Tally,
    kind: u8,
    handed: &Handed,
    faults: &Faults,
    answer: &Answer,
) {
    for edition in Edition::BOTH {
        note_outcomes(tally, kind, edition, handed.says(edition), answer);
        note_other_length(tally, edition, handed, faults, answer);
        note_spare_bits(tally, edition, handed, faults, answer);
    }
    note_no_editions(tally, handed, faults, answer);
    note_lengths(tally, handed, answer);
    note_jitters_read(tally, handed, faults, answer);
}

/// Each answer of the call in an edition: taken, and turned away by each number but 2.
fn note_outcomes(tally: &mut Tally, kind: u8, edition: Edition, is: bool, answer: &Answer) {
    let number = edition.number();
    tally.note_share(OF_EACH, &format!("edition {number}"), is);
    tally.note(&format!("edition {number} taken"), is && answer.taken());
    let asked = place_of(kind).map_or(&[][..], |place| CALLS[place].2);
    for refusal in asked {
        // 19 is of edition 1 alone.
        let none = *refusal == 2 || *refusal == 19 && edition == Edition::Two;
        if !none {
            let what = format!("edition {number} refused {refusal}");
            tally.note(&what, is && answer.refused(*refusal));
        }
    }
}

/// The length of the other edition, which 6 alone tells; and beside what is asked before 6 and after.
fn note_other_length(
    tally: &mut Tally,
    edition: Edition,
    handed: &Handed,
    faults: &Faults,
    answer: &Answer,
) {
    let number = edition.number();
    let other = other_of(edition);
    let met = handed.says(edition) && handed.has_length(other);
    let what = format!("edition {number} with the other's length");
    let alone = met && answer.refused(6) && !faults.has(7);
    tally.note(&format!("{what}, sealed"), alone);
    let whole = alone && handed.would_read_as(other);
    tally.note(
        &format!("edition {number} said by a file of the other"),
        whole,
    );
    tally.note(
        &format!("{what}, 6 before 7"),
        met && answer.refused(6) && faults.has(7),
    );
    tally.note(&format!("{what}, 5 before 6"), met && answer.refused(5));
}

/// Every number that is no edition's, with nothing else wrong, over records of either edition.
fn note_no_editions(tally: &mut Tally, handed: &Handed, faults: &Faults, answer: &Answer) {
    let said = if answer.refused(2) && !faults.has(7) {
        handed.said()
    } else {
        None
    };
    for edition in Edition::BOTH {
        let reads = said.is_some() && handed.would_read_as(edition);
        for number in (0..16).filter(|number| Edition::from_number(*number).is_err()) {
            let over = edition.number();
            let what = format!("edition {number} over records of edition {over}");
            tally.note(&what, reads && said == Some(number));
        }
    }
}

/// Edition 2 at its shortest and its longest, a byte beside, and as short as edition 1 may be.
fn note_lengths(tally: &mut Tally, handed: &Handed, answer: &Answer) {
    let bytes = handed.file.len();
    let of_2 = handed.says(Edition::Two);
    let shortest = file::length(Edition::Two, 1, 0);
    let longest = file::length(Edition::Two, MOST_TASKS, MOST_REGION_WORDS);
    for length in [shortest, longest] {
        let came = answer.taken() && of_2 && bytes == length;
        tally.note(&format!("{length} bytes of edition 2"), came);
    }
    for length in file::SHORTEST..shortest {
        let came = answer.refused(6) && of_2 && bytes == length;
        tally.note(&format!("{length} bytes of edition 2 turned away"), came);
    }
    for length in [longest - 1, longest + 1] {
        let head = files::head_of(handed.file).map_or((0, 0), |head| (head.n as usize, head.m));
        let most = head == (MOST_TASKS, MOST_REGION_WORDS);
        let came = answer.refused(6) && of_2 && most && bytes == length;
        tally.note(&format!("{length} bytes of edition 2 turned away"), came);
    }
}

/// Each spare bit of the first record, and of the last of several, set by itself in a file that is
/// right but for it.
fn note_spare_bits(
    tally: &mut Tally,
    edition: Edition,
    handed: &Handed,
    faults: &Faults,
    answer: &Answer,
) {
    let alone = answer.refused(8) && ![9, 10, 11].iter().any(|number| faults.has(*number));
    let n = files::head_of(handed.file).map_or(0, |head| head.n as usize);
    let set = if alone && handed.says(edition) {
        spare_bits_set(handed.file, edition, n)
    } else {
        Vec::new()
    };
    let last = n.saturating_sub(1);
    let number = edition.number();
    for place in 0..edition.spare_bits() {
        let what = format!("spare bit {} of edition {number}", place + 1);
        let first = set == [(0, place)];
        tally.note(&format!("{what} alone, in record 1"), first);
        let in_last = last > 0 && set == [(last, place)];
        tally.note(&format!("{what} alone, in record n"), in_last);
    }
}

/// Record and place of each spare bit that is set in a record.
fn spare_bits_set(file: &[u8], edition: Edition, n: usize) -> Vec<(usize, usize)> {
    let is_set = |(k, place): &(usize, usize)| {
        let at = spare_at(edition, *k) + place;
        file[at / 8] >> (7 - at % 8) & 1 == 1
    };
    let places = |k: usize| (0..edition.spare_bits()).map(move |place| (k, place));
    (0..n).flat_map(places).filter(is_set).collect()
}

/// Jitters in files of edition 2: at their limits where they are taken, alone in the last record, just
/// before the region words, and past their limits where nothing else is wrong.
fn note_jitters_read(tally: &mut Tally, handed: &Handed, faults: &Faults, answer: &Answer) {
    let none = (Table::default(), Vec::new(), 0);
    let of_2 = handed.says(Edition::Two);
    let held = files::contents(handed.file).filter(|_| of_2);
    let records = held.is_some();
    let (table, own, _) = held.unwrap_or(none);
    let late = is_late(&table);
    tally.note_share(LATE_FILES, "edition 2 with a jitter", late);
    tally.note_share(LATE_FILES, "edition 2 without a jitter", records && !late);
    note_taken_jitters(tally, &table, own.len(), answer);
    let others = [8, 10, 11].iter().any(|number| faults.has(*number));
    let turned_away = answer.refused(9) && !others && !numbers_wrong(&without_jitters(&table));
    let past = |what: fn(&Record) -> bool| {
        let mut wrong = table
            .tasks()
            .iter()
            .filter(|task| task.jitter >= task.period);
        turned_away && wrong.any(what)
    };
    for (what, came) in [
        ("the period", past(|task| task.jitter == task.period)),
        (
            "the period and 1",
            past(|task| task.jitter == task.period + 1),
        ),
        ("more", past(|task| task.jitter > task.period + 1)),
        ("1048575", past(|task| task.jitter == MOST_IN_A_FIELD)),
    ] {
        tally.note(&format!("9 by a jitter of {what} alone"), came);
    }
}

fn note_taken_jitters(tally: &mut Tally, table: &Table, m: usize, answer: &Answer) {
    let n = table.n as usize;
    let late: Vec<usize> = (0..n)
        .filter(|k| answer.taken() && table.records[*k].jitter > 0)
        .collect();
    let any = |what: fn(&Record) -> bool| late.iter().any(|k| what(&table.records[*k]));
    tally.note("a jitter of 1", any(|task| task.jitter == 1));
    let most = any(|task| task.jitter + 1 == task.period);
    tally.note("a jitter of the period less 1", most);
    // Its ten high bits and its ten low ones stand apart where one reads a place too far.
    tally.note("a jitter above 1023", any(|task| task.jitter > 1023));
    tally.note("a jitter below 1024", any(|task| task.jitter < 1024));
    let in_last = n > 0 && late == [n - 1];
    for (what, has) in [
        ("m 0", m == 0),
        ("m odd", m % 2 == 1),
        ("m 100", m == 100),
        ("n 1", n == 1),
        ("n 15", n == 15),
    ] {
        let what = format!("a jitter in the last record alone, {what}");
        tally.note(&what, in_last && has);
    }
}

/// Which rules of reading would answer otherwise. A record out of a file tells them by its number
/// alone, as nothing that was read is in its answer.
pub fn note_other_readings(
    tally: &mut Tally,
    by: impl Fn(&Reading) -> Result<Read, Refusal>,
    read: Option<&Read>,
    answer: &Answer,
) {
    for (what, rule) in OF_READING {
        let other = match by(&rule) {
            Err(refusal) => !answer.refused(refusal.number),
            Ok(this) => !answer.taken() || read.is_some_and(|read| *read != this),
        };
        tally.note(&format!("another answer by {what}"), other);
    }
}

/// Which rules would hand back another part as this record.
pub fn note_other_records(tally: &mut Tally, handed: &Handed, number: u16, answer: &Answer) {
    let part = answer.line.strip_prefix("record ").map(bytes_of_text);
    for (what, rule) in OF_RECORDS {
        let other = part.as_ref().is_some_and(|part| {
            let edition = Edition::BOTH
                .into_iter()
                .find(|edition| handed.says(*edition));
            let (from, bytes) = rule(edition.unwrap_or(Edition::One), number as usize - 1);
            handed.file.get(from..from + bytes) != Some(part)
        });
        tally.note(&format!("another record by {what}"), other);
    }
}

// ---- writing

/// What is to be written, with the edition that is told and what is wrong with the rest.
pub struct ToWrite<'a> {
    pub told: u8,
    pub plate: Plate,
    pub table: &'a Table,
    pub own: &'a [u32],
    pub room: usize,
    pub faults: &'a Faults,
}

/// What the writing of an edition that is told reaches.
pub fn note_told(tally: &mut Tally, this: &ToWrite, written: Option<&[u8]>, answer: &Answer) {
    for edition in Edition::BOTH {
        let told = this.told == edition.number();
        note_outcomes(tally, 14, edition, told, answer);
    }
    let others = [5, 18, 9, 10, 11, 12].iter().any(|n| this.faults.has(*n));
    for number in NO_EDITIONS {
        let came = answer.refused(2) && this.told == number;
        tally.note(&format!("edition {number} told"), came);
        tally.note(&format!("edition {number} told, alone"), came && !others);
    }
    let late = is_late(&held(this.table));
    tally.note("2 of a table with a jitter", answer.refused(2) && late);
    let of_2 = this.told == Edition::Two.number() && late;
    tally.note("edition 2 with a jitter", of_2 && answer.taken());
    for number in [11, 12] {
        let what = format!("edition 2 with a jitter refused {number}");
        tally.note(&what, of_2 && answer.refused(number));
    }
    note_other_writings(tally, &OF_WRITING, this, written, answer);
}

pub fn note_other_writings(
    tally: &mut Tally,
    rules: &[(&str, Writing)],
    this: &ToWrite,
    written: Option<&[u8]>,
    answer: &Answer,
) {
    for (what, rule) in rules {
        let other = match write_by(rule, this) {
            Err(number) => !answer.refused(number),
            Ok(file) => written != Some(&file),
        };
        tally.note(&format!("another answer by {what}"), other);
    }
}
