//! Reading, a record out of a file and writing by rules that document 02, item 9, shuts out. A
//! request to which one of them gives another answer tells it from the right one, and such requests
//! are counted. No answer comes from here.

use super::editions::ToWrite;
use super::files::Read;
use super::*;
use crate::spoil::{in_record_of, other_of, put, seal_again, CABINET_AT, LINE_AT, N_AT};

/// Where a rule has the last fields of a record: the bits of the record at which name number and J
/// start, and its first spare bit with the one behind the last. What has no place is 0.
#[derive(Clone, Copy)]
struct Tail {
    name: usize,
    jitter: Option<usize>,
    spare: (usize, usize),
}

const OF_EDITION_1: Tail = Tail {
    name: 83,
    jitter: None,
    spare: (90, 96),
};

const OF_EDITION_2: Tail = Tail {
    name: 83,
    jitter: Some(90),
    spare: (110, 120),
};

const BEHIND_THE_SPARE_BITS: Tail = Tail {
    jitter: Some(100),
    spare: (90, 100),
    ..OF_EDITION_2
};

const BEFORE_THE_NAME: Tail = Tail {
    name: 103,
    jitter: Some(83),
    ..OF_EDITION_2
};

const A_BIT_SOONER: Tail = Tail {
    jitter: Some(89),
    ..OF_EDITION_2
};

const A_BIT_LATER: Tail = Tail {
    jitter: Some(91),
    ..OF_EDITION_2
};

const NO_JITTER: Tail = Tail {
    jitter: None,
    ..OF_EDITION_2
};

const fn asking(first: usize, behind: usize) -> Tail {
    Tail {
        spare: (first, behind),
        ..OF_EDITION_2
    }
}

/// The edition of a number by the right rule.
fn named(number: u8) -> Option<Edition> {
    Edition::from_number(number).ok()
}

fn only_1(number: u8) -> Option<Edition> {
    (number == 1).then_some(Edition::One)
}

fn all_but_2_as_1(number: u8) -> Option<Edition> {
    Some(named(number).unwrap_or(Edition::One))
}

fn all_but_1_as_2(number: u8) -> Option<Edition> {
    Some(named(number).unwrap_or(Edition::Two))
}

// ---- reading

/// A rule of reading. Of edition 1 it takes the same fields as the right one.
#[derive(Clone, Copy)]
pub struct Reading {
    /// The edition as which a file is read whose head says this number; nothing is 2.
    read_as: fn(u8) -> Option<Edition>,
    /// Below so many bytes a file whose head says this number is turned away by 1.
    shortest: fn(u8) -> usize,
    /// Whether so many bytes are the right length of a file with so many records and words (6).
    fits: fn(usize, Edition, usize, usize) -> bool,
    tail: Tail,
    /// Whether a task's J is out of its range (9).
    out_of_range: fn(&Record) -> bool,
}

const RIGHT_READING: Reading = Reading {
    read_as: named,
    shortest: |_| file::SHORTEST,
    fits: |bytes, edition, n, m| bytes == file::length(edition, n, m),
    tail: OF_EDITION_2,
    out_of_range: |task| task.jitter >= task.period,
};

const fn by_editions(read_as: fn(u8) -> Option<Edition>) -> Reading {
    Reading {
        read_as,
        ..RIGHT_READING
    }
}

const fn by_lengths(fits: fn(usize, Edition, usize, usize) -> bool) -> Reading {
    Reading {
        fits,
        ..RIGHT_READING
    }
}

const fn by_tail(tail: Tail) -> Reading {
    Reading {
        tail,
        ..RIGHT_READING
    }
}

/// Rules of reading that item 9 shuts out; a record out of a file goes by them too.
pub const OF_READING: [(&str, Reading); 20] = [
    ("edition 2 turned away", by_editions(only_1)),
    ("all but edition 2 read as 1", by_editions(all_but_2_as_1)),
    ("all but edition 1 read as 2", by_editions(all_but_1_as_2)),
    (
        "two bits of the edition",
        by_editions(|number| named(number & 3)),
    ),
    (
        "1 below 25 bytes of edition 2",
        Reading {
            shortest: |number| if number == 2 { 25 } else { 22 },
            ..RIGHT_READING
        },
    ),
    (
        "the other edition's length",
        by_lengths(|bytes, edition, n, m| bytes == file::length(other_of(edition), n, m)),
    ),
    (
        "edition 1's length in both",
        by_lengths(|bytes, _, n, m| bytes == file::length(Edition::One, n, m)),
    ),
    (
        "edition 2's length in both",
        by_lengths(|bytes, _, n, m| bytes == file::length(Edition::Two, n, m)),
    ),
    (
        "either edition's length",
        by_lengths(|bytes, _, n, m| {
            let mut both = Edition::BOTH.into_iter();
            both.any(|edition| bytes == file::length(edition, n, m))
        }),
    ),
    ("J behind the spare bits", by_tail(BEHIND_THE_SPARE_BITS)),
    ("J before the name", by_tail(BEFORE_THE_NAME)),
    ("J a bit sooner", by_tail(A_BIT_SOONER)),
    ("J a bit later", by_tail(A_BIT_LATER)),
    ("J read as 0", by_tail(NO_JITTER)),
    ("no spare bit of edition 2 asked", by_tail(asking(110, 110))),
    ("the first six spare bits asked", by_tail(asking(110, 116))),
    ("the last six spare bits asked", by_tail(asking(114, 120))),
    (
        "the spare bits of edition 1 asked of both",
        by_tail(asking(90, 96)),
    ),
    (
        "9 not asked of J",
        Reading {
            out_of_range: |_| false,
            ..RIGHT_READING
        },
    ),
    (
        "J up to T",
        Reading {
            out_of_range: |task| task.jitter > task.period,
            ..RIGHT_READING
        },
    ),
];

/// Reading by this rule, without an output.
pub fn read_by(
    rule: &Reading,
    plate: Plate,
    catalogue: &[u32],
    file: &[u8],
) -> Result<Read, Refusal> {
    refuse(1, file.len() < file::SHORTEST)?;
    let head = file::take_head(file);
    refuse(1, file.len() < (rule.shortest)(head.edition))?;
    let edition = (rule.read_as)(head.edition).ok_or(Refusal::of(2))?;
    let blank_plate = blank(plate.cabinet, plate.line as u32);
    refuse(18, blank(head.cabinet, head.line) || blank_plate)?;
    refuse(3, head.cabinet != plate.cabinet)?;
    refuse(4, head.line != plate.line as u32)?;
    refuse(5, task_count_wrong(head.n) || region_count_wrong(head.m))?;
    let n = head.n as usize;
    refuse(6, !(rule.fits)(file.len(), edition, n, head.m))?;
    refuse(7, file::seal_wrong(file))?;
    let (table, own, spare) = rule.take_all(file, edition, head.n, head.m);
    refuse(8, spare != 0)?;
    let jitters = table.tasks().iter().any(rule.out_of_range);
    refuse(9, numbers_wrong(&without_jitters(&table)) || jitters)?;
    refuse(10, assignment_wrong(&table))?;
    refuse(11, regions_wrong(&table, &own, catalogue))?;
    Ok(Read {
        edition,
        table,
        own,
    })
}

impl Reading {
    /// Table, region words, and the spare bits that are asked, together.
    fn take_all(&self, file: &[u8], edition: Edition, n: u8, m: usize) -> (Table, Vec<u32>, u32) {
        let tail = match edition {
            Edition::One => OF_EDITION_1,
            Edition::Two => self.tail,
        };
        let mut table = Table {
            n,
            ..Table::default()
        };
        let mut spare = bits(file, 4, 4);
        for (k, record) in table.records[..n as usize].iter_mut().enumerate() {
            let at = in_record_of(edition, k, 0);
            *record = take_record(file, at, tail);
            let (first, behind) = tail.spare;
            spare |= bits(file, at + first, behind - first);
        }
        let words = in_record_of(edition, n as usize, 0);
        let own = (0..m).map(|k| bits(file, words + 20 * k, 20)).collect();
        // Words that aren't whole bytes leave four bits.
        spare |= bits(file, words + 20 * m, 4 * (m % 2));
        (table, own, spare)
    }
}

fn take_record(file: &[u8], at: usize, tail: Tail) -> Record {
    let field = |from, width| bits(file, at + from, width);
    Record {
        cost: field(0, 20),
        period: field(20, 20),
        deadline: field(40, 20),
        priority: field(60, 4),
        threshold: field(64, 4),
        source: Source::from_number(field(68, 1)),
        first: field(69, 7),
        count: field(76, 7),
        name: field(tail.name, 7),
        jitter: tail.jitter.map_or(0, |from| field(from, 20)),
    }
}

/// The field of this many bits that starts at this bit. Behind a file that a rule takes though it is
/// too short there are zeros.
fn bits(file: &[u8], at: usize, width: usize) -> u32 {
    let bit = |at: usize| file.get(at / 8).map_or(0, |byte| byte >> (7 - at % 8) & 1);
    (at..at + width).fold(0, |value, at| value << 1 | bit(at) as u32)
}

// ---- a record

/// First byte and number of bytes of what comes back as record k + 1.
pub type Part = fn(Edition, usize) -> (usize, usize);

/// Rules of the record that item 9 shuts out.
pub const OF_RECORDS: [(&str, Part); 5] = [
    ("twelve bytes at the right place", |edition, k| {
        (file::HEAD_BYTES + edition.record_bytes() * k, 12)
    }),
    ("twelve bytes at edition 1's place", |_, k| {
        (file::HEAD_BYTES + 12 * k, 12)
    }),
    ("edition 1's place", |edition, k| {
        (file::HEAD_BYTES + 12 * k, edition.record_bytes())
    }),
    ("fifteen bytes at the right place", |edition, k| {
        (file::HEAD_BYTES + edition.record_bytes() * k, 15)
    }),
    ("fifteen bytes at edition 2's place", |_, k| {
        (file::HEAD_BYTES + 15 * k, 15)
    }),
];

// ---- writing

/// A rule of writing.
#[derive(Clone, Copy)]
pub struct Writing {
    /// The numbers in the order in which they are asked.
    order: [u8; 8],
    /// The edition that is written where this one is told; nothing is 2.
    written_as: fn(u8) -> Option<Edition>,
    /// The edition that the file says.
    says: fn(Edition) -> Edition,
    /// Whether an edition has no place for a jitter (19).
    no_place: fn(Edition) -> bool,
    /// How many bytes the output has at the least (12), with so many records and words.
    room: fn(Edition, usize, usize) -> usize,
    tail: Tail,
}

const RIGHT_WRITING: Writing = Writing {
    order: [2, 5, 18, 9, 10, 11, 19, 12],
    written_as: named,
    says: |edition| edition,
    no_place: |edition| edition == Edition::One,
    room: file::length,
    tail: OF_EDITION_2,
};

const fn in_order(order: [u8; 8]) -> Writing {
    Writing {
        order,
        ..RIGHT_WRITING
    }
}

const fn writing_as(written_as: fn(u8) -> Option<Edition>) -> Writing {
    Writing {
        written_as,
        ..RIGHT_WRITING
    }
}

const fn asking_19(no_place: fn(Edition) -> bool) -> Writing {
    Writing {
        no_place,
        ..RIGHT_WRITING
    }
}

const fn with_tail(tail: Tail) -> Writing {
    Writing {
        tail,
        ..RIGHT_WRITING
    }
}

/// Rules of writing an edition that item 9 shuts out.
pub const OF_WRITING: [(&str, Writing); 22] = [
    ("2 after 5", in_order([5, 2, 18, 9, 10, 11, 19, 12])),
    ("2 after 18", in_order([5, 18, 2, 9, 10, 11, 19, 12])),
    ("2 after 11", in_order([5, 18, 9, 10, 11, 2, 19, 12])),
    ("2 last", in_order([5, 18, 9, 10, 11, 19, 12, 2])),
    ("19 before 11", in_order([2, 5, 18, 9, 10, 19, 11, 12])),
    ("19 last", in_order([2, 5, 18, 9, 10, 11, 12, 19])),
    (
        "four bits of the edition",
        writing_as(|told| named(told & 15)),
    ),
    ("edition 2 turned away", writing_as(only_1)),
    ("all but edition 2 written as 1", writing_as(all_but_2_as_1)),
    ("all but edition 1 written as 2", writing_as(all_but_1_as_2)),
    (
        "edition 1 whichever is told",
        writing_as(|told| named(told).and(Some(Edition::One))),
    ),
    (
        "edition 2 whichever is told",
        writing_as(|told| named(told).and(Some(Edition::Two))),
    ),
    (
        "edition 1 in the head of both",
        Writing {
            says: |_| Edition::One,
            ..RIGHT_WRITING
        },
    ),
    ("19 of both editions", asking_19(|_| true)),
    ("19 of none", asking_19(|_| false)),
    (
        "19 of edition 2 alone",
        asking_19(|edition| edition == Edition::Two),
    ),
    (
        "edition 1's room in both",
        Writing {
            room: |_, n, m| file::length(Edition::One, n, m),
            ..RIGHT_WRITING
        },
    ),
    (
        "edition 2's room in both",
        Writing {
            room: |_, n, m| file::length(Edition::Two, n, m),
            ..RIGHT_WRITING
        },
    ),
    ("J dropped", with_tail(NO_JITTER)),
    ("J behind the spare bits", with_tail(BEHIND_THE_SPARE_BITS)),
    ("J before the name", with_tail(BEFORE_THE_NAME)),
    ("J a bit later", with_tail(A_BIT_LATER)),
];

/// The rule that kind 2, which is told no edition, isn't to have.
pub const UNTOLD: (&str, Writing) = ("edition 2", writing_as(|_| Some(Edition::Two)));

/// The file by this rule, or the number that turns it away. A rule that asks 2 late goes on till
/// then as in edition 1.
pub fn write_by(rule: &Writing, this: &ToWrite) -> Result<Vec<u8>, u8> {
    let told = (rule.written_as)(this.told);
    let edition = told.unwrap_or(Edition::One);
    let room = (rule.room)(edition, this.table.n as usize, this.own.len());
    let applies = |number: &u8| match number {
        2 => told.is_none(),
        12 => this.room < room,
        19 => (rule.no_place)(edition) && is_late(this.table),
        other => this.faults.has(*other),
    };
    match rule.order.into_iter().find(applies) {
        Some(number) => Err(number),
        None => Ok(rule.file(edition, this)),
    }
}

impl Writing {
    fn file(&self, edition: Edition, this: &ToWrite) -> Vec<u8> {
        let (n, m) = (this.table.n as usize, this.own.len());
        let mut file = vec![0; file::length(edition, n, m)];
        put(&mut file, 0, 4, (self.says)(edition).number() as u32);
        put(&mut file, CABINET_AT, 24, this.plate.cabinet);
        put(&mut file, LINE_AT, 16, this.plate.line as u32);
        put(&mut file, N_AT, 8, n as u32);
        put(&mut file, N_AT + 8, 8, m as u32);
        let tail = match edition {
            Edition::One => OF_EDITION_1,
            Edition::Two => self.tail,
        };
        for (k, task) in this.table.tasks().iter().enumerate() {
            put_record(&mut file, in_record_of(edition, k, 0), task, tail);
        }
        for (k, word) in this.own.iter().enumerate() {
            put(&mut file, in_record_of(edition, n, 20 * k), 20, *word);
        }
        seal_again(&mut file);
        file
    }
}

fn put_record(file: &mut [u8], at: usize, task: &Record, tail: Tail) {
    let mut field = |from, width, value| put(file, at + from, width, value);
    field(0, 20, task.cost);
    field(20, 20, task.period);
    field(40, 20, task.deadline);
    field(60, 4, task.priority);
    field(64, 4, task.threshold);
    field(68, 1, task.source.bit());
    field(69, 7, task.first);
    field(76, 7, task.count);
    field(tail.name, 7, task.name);
    if let Some(from) = tail.jitter {
        field(from, 20, task.jitter);
    }
}

#[cfg(test)]
use crate::tests::{file_of, two_jobs, PLATE};

/// Two jobs of which the second comes late by so much, and its file in edition 2.
#[cfg(test)]
fn late_by(jitter: u32) -> (Table, Vec<u32>, Vec<u8>) {
    let (mut table, own) = two_jobs();
    table.records[1].jitter = jitter;
    let mut file = vec![0; 45];
    let length = file::write(2, PLATE, &table, &own, &[], &mut file);
    assert_eq!(length, Ok(45));
    (table, own, file)
}

/// The right rules are those of file.rs, for what they take and for what they turn away.
#[test]
fn the_right_rules_are_right() {
    let mut read = [0; 20];
    let random = &mut crate::random::Random::new(9);
    for _ in 0..3_000 {
        let mut cabinet = crate::draw::cabinet(random, 4, true);
        crate::draw::give_edition(random, &mut cabinet);
        let file = crate::spoil::any_file(random, &mut cabinet);
        let (plate, catalogue) = (cabinet.plate, &cabinet.catalogue[..]);
        let right = file::read_checked(plate, catalogue, &file);
        let right = right.map(|(edition, table, own)| Read {
            edition,
            table,
            own,
        });
        assert_eq!(read_by(&RIGHT_READING, plate, catalogue, &file), right);
        read[right.map_or_else(|refusal| refusal.number as usize, |_| 0)] += 1;
    }
    let came = |number: usize| read[number] > 10;
    assert!((0..12).all(came), "{read:?}");
    for (told, jitter, room, right) in [
        (1, 0, 39, Ok(39)),
        (1, 1, 39, Err(19)),
        (1, 0, 38, Err(12)),
        (2, 1, 45, Ok(45)),
        (2, 1, 44, Err(12)),
        (3, 1, 44, Err(2)),
    ] {
        let (table, own, _) = late_by(jitter);
        let mut out = vec![0; room];
        let written = file::write(told, PLATE, &table, &own, &[], &mut out);
        assert_eq!(written.map_err(|refusal| refusal.number), right);
        let written = written.map(|length| out[..length].to_vec());
        let none = Faults(Vec::new());
        let this = to_write(told, &table, &own, room, &none);
        let by_rule = write_by(&RIGHT_WRITING, &this);
        assert_eq!(by_rule, written.map_err(|refusal| refusal.number));
    }
}

#[cfg(test)]
fn to_write<'a>(
    told: u8,
    table: &'a Table,
    own: &'a [u32],
    room: usize,
    faults: &'a Faults,
) -> ToWrite<'a> {
    ToWrite {
        told,
        plate: PLATE,
        table,
        own,
        room,
        faults,
    }
}

/// By hand, of a second job of period 10 and name 0 that comes late by 5, which is 101 at the end of
/// twenty bits: what each rule makes of its file.
#[test]
fn what_rules_of_reading_give() {
    let (_, _, file) = late_by(5);
    let jitter = |(_, rule): &(&str, Reading)| {
        let read = read_by(rule, PLATE, &[], &file);
        read.map(|read| read.table.records[1].jitter)
    };
    let refused = |number| Err(Refusal::of(number));
    let by_hand = [
        refused(2),
        Ok(5),
        Ok(5),
        Ok(5),
        Ok(5),
        refused(6),
        refused(6),
        Ok(5),
        Ok(5),
        // The low ten bits are the high ones of what stands behind: 5 times 1,024.
        refused(9),
        // Seven bits before, 5 is cut to its place above seven zeros, and the name takes them.
        Ok(0),
        Ok(2),
        refused(9),
        Ok(0),
        Ok(5),
        Ok(5),
        Ok(5),
        Ok(5),
        Ok(5),
        Ok(5),
    ];
    for (rule, right) in OF_READING.iter().zip(by_hand) {
        assert_eq!(jitter(rule), right, "{}", rule.0);
    }
}

/// Bits that each rule asks by 8, of a file that has one spare bit set; and a file of edition 1 that
/// says edition 2.
#[test]
fn what_other_readings_turn_away() {
    let number = |what: &str, file: &[u8]| {
        let rule = OF_READING.iter().find(|(name, _)| *name == what);
        let read = read_by(&rule.expect("a rule").1, PLATE, &[], file);
        read.err().map(|refusal| refusal.number)
    };
    let (table, own, file) = late_by(5);
    let spare = |place: usize| {
        let mut file = file.clone();
        put(&mut file, in_record_of(Edition::Two, 1, 110 + place), 1, 1);
        seal_again(&mut file);
        file
    };
    for place in 0..10 {
        let asked = |what| number(what, &spare(place)) == Some(8);
        assert!(!asked("no spare bit of edition 2 asked"));
        assert_eq!(asked("the first six spare bits asked"), place < 6);
        assert_eq!(asked("the last six spare bits asked"), place >= 4);
        assert!(asked("J read as 0"));
    }
    let mut still = table;
    still.records[1].jitter = 0;
    let mut of_1 = file_of(&still, &own, &[]);
    put(&mut of_1, 0, 4, 2);
    seal_again(&mut of_1);
    assert_eq!(number("J read as 0", &of_1), Some(6));
    assert_ne!(number("edition 1's length in both", &of_1), Some(6));
    assert_ne!(number("either edition's length", &of_1), Some(6));
}

/// By hand, of the same job: what each rule of writing makes of it in edition 2.
#[test]
fn what_rules_of_writing_give() {
    let (table, own, file) = late_by(5);
    let none = Faults(Vec::new());
    let by = |what: &str, told, room| {
        let rule = OF_WRITING.iter().find(|(name, _)| *name == what);
        write_by(
            &rule.expect("a rule").1,
            &to_write(told, &table, &own, room, &none),
        )
    };
    let at = |file: &[u8], from| bits(file, in_record_of(Edition::Two, 1, from), 20);
    let field = |what, from| by(what, 2, 45).map(|file| at(&file, from));
    assert_eq!(by("2 last", 2, 45), Ok(file));
    assert_eq!(field("J dropped", 90), Ok(0));
    assert_eq!(field("J behind the spare bits", 100), Ok(5));
    assert_eq!(field("J before the name", 83), Ok(5));
    assert_eq!(field("J a bit later", 91), Ok(5));
    let says = |told| by("edition 1 in the head of both", told, 45);
    assert_eq!(says(2).map(|file| file[0]), Ok(0x10));
    for (what, told, room, number) in [
        ("2 last", 3, 45, 19),
        ("2 after 11", 3, 45, 2),
        ("four bits of the edition", 17, 45, 19),
        ("edition 2 turned away", 2, 45, 2),
        ("edition 1 whichever is told", 2, 45, 19),
        ("19 of both editions", 2, 45, 19),
        ("19 of none", 1, 38, 12),
        ("19 last", 1, 38, 12),
        ("edition 2's room in both", 2, 44, 12),
    ] {
        assert_eq!(by(what, told, room), Err(number), "{what}");
    }
    for (what, told, room, bytes) in [
        ("four bits of the edition", 18, 45, 45),
        ("all but edition 1 written as 2", 0, 45, 45),
        ("edition 2 whichever is told", 1, 45, 45),
        ("19 of none", 1, 39, 39),
        ("edition 1's room in both", 2, 39, 45),
    ] {
        let length = by(what, told, room).map(|file| file.len());
        assert_eq!(length, Ok(bytes), "{what}");
    }
}
