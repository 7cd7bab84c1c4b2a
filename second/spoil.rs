//! What makes a drawn cabinet or its file wrong, or moves it to a limit of document 01.

use crate::draw::{is_late, Cabinet};
use crate::file::{self, Edition};
use crate::random::Random;
use crate::seal::seal;
use crate::table::*;
use Zero::*;

/// Numbers at a limit of the documents, and one past it.
const EDGES: [u32; 20] = [
    0,
    1,
    2,
    8,
    9,
    14,
    15,
    16,
    63,
    64,
    100,
    101,
    127,
    128,
    255,
    256,
    999_999,
    1_000_000,
    1_000_001,
    u32::MAX,
];

/// Costs, periods, deadlines and region words that are out of range.
const NO_TICKS: [u32; 5] = [0, 0, MOST_TICKS + 1, MOST_TICKS + 1, u32::MAX];

/// Leaves the cabinet as it is (once in three), or makes one thing or more of it wrong, each by a
/// number that the call asks; 0 stands for a change that a call may take.
pub fn spoil(random: &mut Random, cabinet: &mut Cabinet, asked: &[u8]) {
    if random.once_in(3) {
        return;
    }
    for _ in 0..random.one_of(&[1, 1, 2, 3]) {
        let k = random.place((cabinet.table.n as usize).clamp(1, MOST_TASKS));
        match random.one_of(asked) {
            5 => wrong_counts(random, cabinet, asked.contains(&11)),
            9 => wrong_number(random, &mut cabinet.table.records[k]),
            10 => wrong_place(random, &mut cabinet.table, k),
            11 => wrong_regions(random, cabinet, k),
            14 => clear(&mut cabinet.table),
            15 => late_deadline(&mut cabinet.table.records[k]),
            16 if is_late(&cabinet.table) && !random.once_in(3) => {
                no_instant(random, &mut cabinet.table.records[k])
            }
            16 => short_deadline(&mut cabinet.table.records[k]),
            _ => at_a_limit(random, cabinet, k),
        }
    }
}

/// n outside its range, or m where a list of region words is lent.
pub fn wrong_counts(random: &mut Random, cabinet: &mut Cabinet, words_lent: bool) {
    if words_lent && random.once_in(2) {
        let m = random.one_of(&[101, 101, 102, 127, 128, 255, 256]);
        cabinet.own.resize(m, 1);
    } else {
        cabinet.table.n = wrong_n(random);
    }
}

/// None, one past the most, or any above it: all but the low four bits may be what is wrong.
pub fn wrong_n(random: &mut Random) -> u8 {
    let past = MOST_TASKS as u32 + 1;
    let any = random.from(past, 255);
    random.one_of(&[0, past, 255, any]) as u8
}

pub fn wrong_number(random: &mut Random, record: &mut Record) {
    match random.from(0, 4) {
        0 => record.cost = random.one_of(&NO_TICKS),
        1 => record.period = random.one_of(&NO_TICKS),
        2 => record.deadline = random.one_of(&NO_TICKS),
        3 => wrong_jitter(random, record),
        _ => record.name = random.one_of(&[128, 128, 255, 256, u32::MAX]),
    }
}

/// A jitter of the period or more, also one that a deadline behind the period would let pass.
fn wrong_jitter(random: &mut Random, record: &mut Record) {
    let period = record.period;
    let more = period.saturating_add(random.from(1, 1000));
    if random.once_in(4) {
        record.deadline = more.clamp(1, MOST_TICKS);
        record.jitter = random.one_of(&[period, record.deadline - 1]).max(period);
        return;
    }
    record.jitter = match random.from(0, 9) {
        0 | 1 => period,
        2..=4 => period.saturating_add(1),
        5 => more,
        6 => MOST_TICKS.max(period),
        _ => u32::MAX,
    };
}

/// Once in so many late tables some record's jitter is out of its range. A table without jitters stays
/// as it is.
pub fn wrong_jitter_once_in(times: u32, random: &mut Random, table: &mut Table) {
    if is_late(table) && random.once_in(times) {
        let k = random.place(table.n as usize);
        wrong_jitter(random, &mut table.records[k]);
    }
}

pub fn wrong_place(random: &mut Random, table: &mut Table, k: usize) {
    let n = table.n as u32;
    let edge = random.one_of(&EDGES);
    let record = &mut table.records[k];
    if random.once_in(2) {
        record.priority = random.one_of(&[0, 1, 2, n, n + 1, edge]);
    } else {
        let priority = record.priority;
        record.threshold = random.one_of(&[0, 1, priority.wrapping_add(1), n + 1, edge]);
    }
}

fn wrong_regions(random: &mut Random, cabinet: &mut Cabinet, k: usize) {
    let edge = random.one_of(&EDGES);
    let record = &mut cabinet.table.records[k];
    match random.from(0, 10) {
        0 => record.first = random.one_of(&[edge, 127, 128]),
        1 => record.count = random.one_of(&[edge, 0, 127, 128]),
        2 => record.source = random.one_of(&[Source::Own, Source::Catalogue]),
        3 => record.cost = record.cost.saturating_add(1),
        4 | 5 => one_past_the_last(random, cabinet, k),
        6 => cabinet.catalogue.truncate(cabinet.catalogue.len() / 2),
        7 | 8 => wrong_word(random, &mut cabinet.own),
        9 => behind_the_list(cabinet, k),
        _ => wrong_word(random, &mut cabinet.catalogue),
    }
}

/// A first region or a count of 128, with the words that would be there and with the cost that
/// these give: nothing but the 128 is wrong.
fn one_past_the_last(random: &mut Random, cabinet: &mut Cabinet, k: usize) {
    let (first, count) = random.one_of(&[(128, 1), (128, 3), (0, 128), (1, 128)]);
    if cabinet.catalogue.len() < first + count {
        cabinet.catalogue.resize(first + count, 1);
    }
    let words = &cabinet.catalogue[first..first + count];
    let record = &mut cabinet.table.records[k];
    record.cost = words.iter().fold(0, |sum, word| sum.saturating_add(*word));
    record.source = Source::Catalogue;
    (record.first, record.count) = (first as u32, count as u32);
}

/// Regions that end one word behind their list.
fn behind_the_list(cabinet: &mut Cabinet, k: usize) {
    let record = &mut cabinet.table.records[k];
    let length = match record.source {
        Source::Own => cabinet.own.len(),
        Source::Catalogue => cabinet.catalogue.len(),
    };
    record.first = (length as u32 + 1).saturating_sub(record.count);
}

fn wrong_word(random: &mut Random, list: &mut [u32]) {
    if !list.is_empty() {
        let place = random.place(list.len());
        list[place] = random.one_of(&NO_TICKS);
    }
}

/// A region of the record with this number is out of its range, or it names 128 as a place or a count;
/// nothing happens where there is no such record, or it names no such word.
pub fn wrong_region(random: &mut Random, cabinet: &mut Cabinet, number: u32) {
    let place = (number as usize).wrapping_sub(1);
    let Some(record) = cabinet.table.records.get(place) else {
        return;
    };
    if random.once_in(2) {
        return one_past_the_last(random, cabinet, place);
    }
    let list = match record.source {
        Source::Own => &mut cabinet.own,
        Source::Catalogue => &mut cabinet.catalogue,
    };
    let first = record.first as usize;
    let words = list.get_mut(first..first.saturating_add(record.count as usize));
    if let Some(words) = words {
        wrong_word(random, words);
    }
}

pub fn clear(table: &mut Table) {
    for record in &mut table.records {
        (record.priority, record.threshold) = (0, 0);
    }
}

fn late_deadline(record: &mut Record) {
    record.period = record.period.min(MOST_TICKS - 1);
    record.deadline = record.period + 1;
    keep_jitter(record);
}

/// A deadline just below the cost, so that the tolerance is below zero.
fn short_deadline(record: &mut Record) {
    record.deadline = record.cost.saturating_sub(1).max(1);
}

/// A jitter that leaves no instant before the deadline, which comes below the period for it. A
/// period of 1 has no such jitter, and the record stays as it is.
fn no_instant(random: &mut Random, record: &mut Record) {
    if record.period < 2 {
        return;
    }
    record.deadline = record.deadline.clamp(1, record.period - 1);
    let (due, most) = (record.deadline, record.period - 1);
    let any = random.from(due, most);
    record.jitter = random.one_of(&[due, due, due + 1, most, any]).min(most);
}

/// A tolerance below zero: a deadline, less the jitter, that is shorter than the cost, though some
/// instant is left. A cost of 1 has none such, and the record stays as it is.
fn below_zero(random: &mut Random, record: &mut Record) {
    if record.cost < 2 || record.cost > record.period {
        return;
    }
    let left = random.from(1, record.cost - 1);
    if random.once_in(2) {
        record.jitter = 0;
        record.deadline = left;
    } else {
        record.deadline = record.deadline.clamp(left, record.period);
        record.jitter = record.deadline - left;
    }
}

/// No deadline above its period; and of two records one without an instant and the other below zero,
/// either of them the first, sometimes beside a third one without an instant.
pub fn two_of_16(random: &mut Random, table: &mut Table) {
    let n = table.n as usize;
    for record in &mut table.records[..n] {
        record.deadline = record.deadline.min(record.period);
    }
    if n < 2 {
        return;
    }
    let one = random.place(n);
    let other = (one + 1 + random.place(n - 1)) % n;
    let third = random.place(n);
    no_instant(random, &mut table.records[one]);
    if third != other && random.once_in(2) {
        no_instant(random, &mut table.records[third]);
    }
    below_zero(random, &mut table.records[other]);
}

/// Brings a jitter back into its range where a change left the period too short for it.
fn keep_jitter(record: &mut Record) {
    record.jitter = record.jitter.min(record.period.saturating_sub(1));
}

/// A change that leaves every number inside its range.
fn at_a_limit(random: &mut Random, cabinet: &mut Cabinet, k: usize) {
    let edge = random.one_of(&[1, MOST_TICKS]);
    let record = &mut cabinet.table.records[k];
    match random.from(0, 7) {
        0 => record.cost = edge,
        1 => record.period = edge,
        2 => record.deadline = edge,
        // Just as long as the task takes by itself, when it is late.
        3 | 4 => record.deadline = record.cost.saturating_add(record.jitter).min(MOST_TICKS),
        5 => record.deadline = record.period,
        6 => record.name = random.one_of(&[0, 63, 64, MOST_NAME_NUMBER]),
        _ => return unnamed_catalogue_word(random, cabinet),
    }
    keep_jitter(record);
}

/// A bad word behind the last of the catalogue, where no record names it.
fn unnamed_catalogue_word(random: &mut Random, cabinet: &mut Cabinet) {
    cabinet.catalogue.push(random.one_of(&NO_TICKS));
}

/// Any numbers in a record past n, which nobody looks at; seldom.
pub fn past_the_last(random: &mut Random, table: &mut Table) {
    let n = table.n as usize;
    if n == MOST_TASKS || !random.once_in(6) {
        return;
    }
    let k = n + random.place(MOST_TASKS - n);
    table.records[k] = Record {
        cost: random.one_of(&EDGES),
        period: random.one_of(&EDGES),
        deadline: random.one_of(&EDGES),
        priority: random.one_of(&EDGES),
        threshold: random.one_of(&EDGES),
        source: random.one_of(&[Source::Own, Source::Catalogue]),
        first: random.one_of(&EDGES),
        count: random.one_of(&EDGES),
        name: random.one_of(&EDGES),
        jitter: random.one_of(&EDGES),
    };
}

// ---- files

/// The cabinet's file, whole, or wrong in one of many ways; the plate may be another's, and the
/// catalogue another one.
pub fn any_file(random: &mut Random, cabinet: &mut Cabinet) -> Vec<u8> {
    let mut file = whole_file(cabinet);
    if random.once_in(BLANK_ONCE_IN) {
        some_zeros(random, cabinet, &mut file);
    } else {
        spoil_file(random, cabinet, &mut file);
        other_plate(random, &mut cabinet.plate);
    }
    if random.once_in(8) {
        other_catalogue(random, &mut cabinet.catalogue);
    }
    file
}

/// Leaves the file as it is, or makes it wrong in one of many ways.
fn spoil_file(random: &mut Random, cabinet: &Cabinet, file: &mut Vec<u8>) {
    match random.from(0, 22) {
        0 => *file = random_bytes(random),
        1 => flip(random, file, 1),
        2 => {
            let bits = random.from(2, 40);
            flip(random, file, bits);
        }
        3 => {
            flip(random, file, 1);
            seal_again(file);
        }
        4 => other_length(random, file),
        5..=13 => {
            for _ in 0..random.one_of(&[1, 1, 2, 3]) {
                damage(random, cabinet, file);
            }
            if !random.once_in(5) {
                seal_again(file);
            }
        }
        14 => {
            other_edition(random, cabinet, file);
            if random.once_in(2) {
                seal_again(file);
            }
        }
        15 => {
            if random.once_in(2) {
                damage(random, cabinet, file);
            }
            put_if_held(file, 0, 4, wrong_edition(random));
            seal_again(file);
        }
        _ => {}
    }
}

/// The cabinet's file, in its edition.
pub fn whole_file(cabinet: &Cabinet) -> Vec<u8> {
    let edition = cabinet.edition;
    let mut file = vec![0; file::length(edition, MOST_TASKS, MOST_REGION_WORDS)];
    let length = file::write(
        edition.number(),
        cabinet.plate,
        &cabinet.table,
        &cabinet.own,
        &cabinet.catalogue,
        &mut file,
    )
    .expect("the writer takes a drawn cabinet");
    file.truncate(length);
    file
}

fn random_bytes(random: &mut Random) -> Vec<u8> {
    let some = random.from(0, 60);
    (0..random.one_of(&[0, 21, 22, some]))
        .map(|_| random.from(0, 255) as u8)
        .collect()
}

/// Shorter or longer, by a byte mostly, or about as short as a file may be in either edition.
fn other_length(random: &mut Random, file: &mut Vec<u8>) {
    match random.from(0, 4) {
        0 => file.truncate(random.place(file.len() + 1)),
        1 => file.truncate(random.from(8, 24) as usize),
        2 => file.truncate(random.from(22, 24) as usize),
        3 => file.truncate(file.len().saturating_sub(1)),
        _ => file.extend(vec![0; random.one_of(&[1, 1, 2, 3, 5])]),
    }
}

/// The one of the two that this isn't.
pub fn other_of(edition: Edition) -> Edition {
    match edition {
        Edition::One => Edition::Two,
        Edition::Two => Edition::One,
    }
}

/// A number that the head has room for and that is no edition's.
fn wrong_edition(random: &mut Random) -> u32 {
    let any = random.from(3, 15);
    random.one_of(&[0, 3, any, any, any, any, any])
}

/// The number of the other edition over records that stay, or records that stay in a file of its
/// length: sealed again, only the length is wrong.
fn other_edition(random: &mut Random, cabinet: &Cabinet, file: &mut Vec<u8>) {
    let other = other_of(cabinet.edition);
    if random.once_in(2) {
        put_if_held(file, 0, 4, other.number() as u32);
    } else {
        let (n, m) = (cabinet.table.n as usize, cabinet.own.len());
        file.resize(file::length(other, n, m), 0);
    }
}

fn flip(random: &mut Random, file: &mut [u8], bits: u32) {
    for _ in 0..bits {
        let place = random.place(file.len() * 8);
        file[place / 8] ^= 0x80 >> (place % 8);
    }
}

/// Seals the file anew; one that is shorter than any file has no seal and stays as it is.
pub fn seal_again(file: &mut [u8]) {
    if file.len() < file::SHORTEST {
        return;
    }
    let end = file.len() - 2;
    let sealed = seal(&file[..end]).to_be_bytes();
    file[end..].copy_from_slice(&sealed);
}

/// A plate of another line or cabinet, or of more than 24 bits, of which the low 24 may be 0;
/// seldom.
fn other_plate(random: &mut Random, plate: &mut Plate) {
    if random.once_in(12) {
        plate.line ^= 1 << random.from(1, 15);
    }
    if random.once_in(16) {
        let other = plate.cabinet ^ 1 << random.from(1, 23);
        let wide = plate.cabinet | 1 << 24;
        plate.cabinet = random.one_of(&[other, other, other, other, wide, MOST_CABINET + 1]);
    }
}

fn other_catalogue(random: &mut Random, catalogue: &mut Vec<u32>) {
    match random.from(0, 2) {
        0 => catalogue.truncate(catalogue.len() / 2),
        1 => catalogue.push(random.one_of(&NO_TICKS)),
        _ => wrong_word(random, catalogue),
    }
}

/// The bits at which cabinet, line and n start.
pub const CABINET_AT: usize = 8;
pub const LINE_AT: usize = 32;
pub const N_AT: usize = 48;

/// The bit at which a field of record k + 1 starts in a file of this edition.
pub const fn in_record_of(edition: Edition, k: usize, field: usize) -> usize {
    8 * (file::HEAD_BYTES + edition.record_bytes() * k) + field
}

/// Puts a value into the field of this many bits that starts at this bit of the file.
pub fn put(file: &mut [u8], at: usize, width: usize, value: u32) {
    for place in 0..width {
        let bit = (value >> (width - 1 - place) & 1) as u8;
        let at = at + place;
        file[at / 8] = file[at / 8] & !(0x80 >> (at % 8)) | bit << (7 - at % 8);
    }
}

/// The same of a file that may be too short for the field, and then stays as it is.
fn put_if_held(file: &mut [u8], at: usize, width: usize, value: u32) {
    if at + width <= file.len() * 8 {
        put(file, at, width, value);
    }
}

/// One thing wrong in the cabinet's file, in a field that is chosen. The file may be damaged, and
/// shorter, already: a field that it no longer holds stays as it is.
fn damage(random: &mut Random, cabinet: &Cabinet, file: &mut Vec<u8>) {
    let edition = cabinet.edition;
    let n = cabinet.table.n as usize;
    let m = cabinet.own.len();
    let k = random.place(n);
    let field = |at| in_record_of(edition, k, at);
    let words = in_record_of(edition, n, 0);
    let (at, width, value) = match random.from(0, 24) {
        0 => (0, 4, wrong_edition(random)),
        1 | 19 | 23 => return wrong_head_count(random, edition, file),
        2 => return other_length(random, file),
        3 => (4, 4, 1 << random.from(0, 3)),
        4 => spare_bit(random, edition, k),
        5 if m % 2 == 1 => (words + 20 * m, 4, 1 << random.from(0, 3)),
        5 => spare_bit(random, edition, n - 1),
        6 | 7 => (field(0), 20, wrong_ticks(random)),
        8 | 9 => (field(20), 20, wrong_ticks(random)),
        10 | 11 => (field(40), 20, wrong_ticks(random)),
        12 | 24 => (field(60), 4, random.from(0, 15)),
        13 => (field(64), 4, random.from(0, 15)),
        14 => (field(68), 1, random.from(0, 1)),
        15 => (field(69), 7, random.one_of(&[1, 126, 127])),
        16 => (field(76), 7, random.one_of(&[0, 1, 126, 127])),
        20 => return other_edition(random, cabinet, file),
        21 | 22 if edition == Edition::Two => {
            let period = cabinet.table.records[k].period;
            (field(file::USED_BITS), 20, jitter_in_a_file(random, period))
        }
        _ if m > 0 => (words + 20 * random.place(m), 20, wrong_ticks(random)),
        _ => (field(76), 7, 0),
    };
    put_if_held(file, at, width, value);
}

/// The bit at which the spare bits of record k + 1 start.
pub fn spare_at(edition: Edition, k: usize) -> usize {
    in_record_of(edition, k + 1, 0) - edition.spare_bits()
}

/// One of the spare bits of record k + 1: where it stands, how wide it is and what it becomes.
fn spare_bit(random: &mut Random, edition: Edition, k: usize) -> (usize, usize, u32) {
    let place = random.place(edition.spare_bits());
    (spare_at(edition, k) + place, 1, 1)
}

/// The most that twenty bits hold.
pub const MOST_IN_A_FIELD: u32 = (1 << 20) - 1;

/// A jitter as a file's 20 bits can say it, at its limits for this period and past them.
fn jitter_in_a_file(random: &mut Random, period: u32) -> u32 {
    let more = random.from(period, MOST_IN_A_FIELD);
    let inside = random.one_of(&[0, 1, period - 1]);
    let past = random.one_of(&[period, period, period + 1, period + 1]);
    random.one_of(&[inside, past, past, more, MOST_IN_A_FIELD])
}

/// Ticks that are out of range, as a file's 20 bits can say them, or seldom at a limit.
fn wrong_ticks(random: &mut Random) -> u32 {
    let edge = random.one_of(&[1, MOST_TICKS]);
    let past = MOST_TICKS + 1;
    random.one_of(&[0, 0, past, past, MOST_IN_A_FIELD, edge])
}

/// An n or m outside its range, two times in three with the length that these numbers give, in this
/// edition or in the other, unless a request could not hold it.
fn wrong_head_count(random: &mut Random, edition: Edition, file: &mut Vec<u8>) {
    if file.len() < file::HEAD_BYTES {
        return;
    }
    if random.once_in(2) {
        file[6] = wrong_n(random);
    } else {
        file[7] = random.one_of(&[101, 101, 102, 255]);
    }
    let edition = random.one_of(&[edition, other_of(edition)]);
    let length = file::length(edition, file[6] as usize, file[7] as usize);
    if length < 1000 && !random.once_in(3) {
        file.resize(length, 0);
    }
}

// ---- blank plates and files

/// Reading, a record and writing are asked of a blank cabinet once in so many requests.
pub const BLANK_ONCE_IN: u32 = 20;

/// Where a 0 makes a cabinet blank (document 02, item 1).
#[derive(Clone, Copy, Debug, PartialEq)]
pub enum Zero {
    FileCabinet,
    FileLine,
    PlateCabinet,
    PlateLine,
}

/// Zeros that stand together, and their name.
pub type Blank = (&'static str, &'static [Zero]);

pub const BOTH_CABINETS: Blank = ("both cabinets are 0", &[FileCabinet, PlateCabinet]);
pub const BOTH_LINES: Blank = ("both lines are 0", &[FileLine, PlateLine]);
pub const BLANK_FILE: Blank = ("a blank file", &[FileCabinet, FileLine]);
pub const BLANK_PLATE: Blank = ("a blank plate", &[PlateCabinet, PlateLine]);
/// What spare controllers had: but for 18 such a file loads.
pub const ALL_BLANK: Blank = (
    "a blank file on a blank plate",
    &[FileCabinet, FileLine, PlateCabinet, PlateLine],
);

/// Each zero alone.
pub const ALONE: [Blank; 4] = [
    ("the file's cabinet is 0", &[FileCabinet]),
    ("the file's line is 0", &[FileLine]),
    ("the plate's cabinet is 0", &[PlateCabinet]),
    ("the plate's line is 0", &[PlateLine]),
];

/// Each zero alone, each pair of them, and all four.
pub const BLANKS: [Blank; 11] = [
    ALONE[0],
    ALONE[1],
    ALONE[2],
    ALONE[3],
    BOTH_CABINETS,
    BOTH_LINES,
    BLANK_FILE,
    BLANK_PLATE,
    (
        "the file's cabinet and the plate's line are 0",
        &[FileCabinet, PlateLine],
    ),
    (
        "the file's line and the plate's cabinet are 0",
        &[FileLine, PlateCabinet],
    ),
    ALL_BLANK,
];

/// Each zero alone, and all four: what is tried beside each of `BESIDE_ZEROS`.
pub fn alone_and_all() -> impl Iterator<Item = Blank> {
    ALONE.into_iter().chain([ALL_BLANK])
}

/// Those of a plate alone, which writing asks.
pub fn blank_plates() -> Vec<Blank> {
    let on_plate = |zero: &Zero| [PlateCabinet, PlateLine].contains(zero);
    let all = BLANKS.iter().copied();
    all.filter(|(_, zeros)| zeros.iter().all(on_plate))
        .collect()
}

/// Puts these zeros on a plate and into a file. One that is too short for its cabinet or its line
/// is left as it is.
pub fn put_zeros(zeros: &[Zero], plate: &mut Plate, file: &mut [u8]) {
    for zero in zeros {
        match zero {
            FileCabinet => put_if_held(file, CABINET_AT, 24, 0),
            FileLine => put_if_held(file, LINE_AT, 16, 0),
            PlateCabinet => plate.cabinet = 0,
            PlateLine => plate.line = 0,
        }
    }
}

/// Something that is wrong with a file: the number that reading gives it, a few words that say
/// what, and the change that makes it so.
pub type Fault = (u8, &'static str, fn(&mut Vec<u8>));

/// No file that is drawn or stored names this cabinet, or this line.
pub const ANOTHER_CABINET: Fault = (3, "another cabinet", |file| {
    put(file, CABINET_AT, 24, 70_003)
});
pub const ANOTHER_LINE: Fault = (4, "another line", |file| put(file, LINE_AT, 16, 13));

/// What reading asks before 18, and what soon after it.
pub const BESIDE_ZEROS: [Fault; 7] = [
    (1, "seven bytes", |file| file.truncate(7)),
    (1, "21 bytes", |file| file.truncate(21)),
    (2, "edition 3", |file| put(file, 0, 4, 3)),
    ANOTHER_CABINET,
    ANOTHER_LINE,
    (5, "n is 16", |file| put(file, N_AT, 8, 16)),
    (7, "a wrong seal", |file| {
        if let Some(last) = file.last_mut() {
            *last ^= 0x10;
        }
    }),
];

/// Zeros on a plate and in its file, beside something else that is wrong. The zeros are put over
/// any change, and the file is sealed behind them; only a wrong seal comes after that.
pub fn put_blank(
    zeros: &[Zero],
    (number, _, change): Fault,
    plate: &mut Plate,
    file: &mut Vec<u8>,
) {
    if number != 7 {
        change(file);
    }
    put_zeros(zeros, plate, file);
    seal_again(file);
    if number == 7 {
        change(file);
    }
}

/// Zeros on the plate and in a file that is whole; in half of them beside something else that
/// reading turns away, before 18 or after it.
fn some_zeros(random: &mut Random, cabinet: &mut Cabinet, file: &mut Vec<u8>) {
    let any = random.one_of(&BLANKS);
    let (_, zeros) = random.one_of(&[any, any, any, ALL_BLANK]);
    put_zeros(zeros, &mut cabinet.plate, file);
    let mut seal_wrong = false;
    match random.from(0, 17) {
        0 => file.truncate(random.place(file::HEAD_BYTES)),
        1 => file.truncate(random.from(8, 21) as usize),
        2 | 3 => put(file, 0, 4, wrong_edition(random)),
        4 | 5 => wrong_head_count(random, cabinet.edition, file),
        6 => damage(random, cabinet, file),
        7 | 8 => seal_wrong = true,
        _ => {}
    }
    seal_again(file);
    if seal_wrong {
        flip(random, file, 1);
    }
}

/// A plate for the writer, blank in one of three ways; where only its line is 0, its cabinet may
/// be above 24 bits.
pub fn blank_plate(random: &mut Random, plate: &mut Plate) {
    let (_, zeros) = random.one_of(&blank_plates());
    if random.once_in(3) {
        plate.cabinet = MOST_CABINET + 1;
    }
    put_zeros(zeros, plate, &mut []);
}
