//! The stored cases: for the ask protocol a stream of explicit requests that reaches every answer
//! and every refusal number of every call, at the numbers' edges, and some small streams and
//! inputs that stand in a file each. Nothing here is random.

mod editions;
mod points;

use crate::file::{self, Edition};
use crate::generate::*;
use crate::spoil::*;
use crate::table::*;
use editions::{editions, list_inputs_of_edition_2, show_inputs_of_edition_2};
use points::{points, show_inputs_of_points};
use std::fmt::Write as _;
use std::io;

/// One request of the stream, and a few words that say what it tries.
struct Case {
    kind: u8,
    what: String,
    body: Vec<u8>,
}

/// The calls by kind, with the numbers that each of them asks, in the order in which it asks them
/// (document 01, "Numbers a turned-away call returns", and document 02, items 1, 2, 8 and 9). Kind 2
/// writes edition 1, so it isn't asked 2.
pub const CALLS: [(u8, &str, &[u8]); 14] = [
    (1, "read", &[1, 2, 18, 3, 4, 5, 6, 7, 8, 9, 10, 11, 12]),
    (2, "write", &[5, 18, 9, 10, 11, 19, 12]),
    (3, "response times", &[5, 9, 10, 14]),
    (4, "tolerances", &[5, 9, 10, 14, 15, 16]),
    (5, "lengths", &[5, 9, 10, 14, 15, 16]),
    (6, "region check", &[5, 9, 10, 11, 14, 15, 16]),
    (7, "first row", &[5, 9, 12]),
    (8, "next row", &[5, 9, 12, 17]),
    (9, "record", &[1, 2, 18, 3, 4, 5, 6, 7, 8, 9, 10, 11, 13]),
    (10, "regions", &[5, 13, 11]),
    (11, "name", &[9, 13]),
    (12, "last region", &[5, 13, 11]),
    (13, "fixed preemption points", &[5, 9, 10, 11, 14, 15, 16]),
    (14, "write an edition", &[2, 5, 18, 9, 10, 11, 19, 12]),
];

/// Where the call of this kind stands among the calls.
pub fn place_of(kind: u8) -> Option<usize> {
    CALLS.iter().position(|(known, ..)| *known == kind)
}

/// A kind that stays unknown, whatever calls come: a request of it ends the stored stream.
pub const NO_KIND: u8 = 255;

pub const PLATE: Plate = Plate {
    cabinet: 70_002,
    line: 12,
};

/// The stream's requests in their order, and what those that come next are about.
struct Stream {
    cases: Vec<Case>,
    /// The edition of the files that are read.
    edition: Edition,
    /// The edition that the writer is told, by kind 14. Kind 2 tells it none.
    told: Option<Edition>,
}

fn request(kind: u8, body: &[u8]) -> Vec<u8> {
    let mut request = vec![kind];
    put_two(&mut request, body.len() as u32);
    request.extend(body);
    request
}

impl Case {
    fn request(&self) -> Vec<u8> {
        request(self.kind, &self.body)
    }

    /// The line that answers it.
    fn answer(&self) -> String {
        let mut output = Vec::new();
        crate::ask::run(&self.request()[..], &mut output).expect("an answer");
        String::from_utf8(output)
            .expect("text")
            .trim_end()
            .to_string()
    }

    /// The number of its refusal, if it is turned away.
    fn refusal(&self) -> Option<u8> {
        let answer = self.answer();
        answer
            .strip_prefix("refused ")?
            .split(' ')
            .next()?
            .parse()
            .ok()
    }
}

/// The stream of all requests. The last one is a bad request, which ends it.
pub fn stream() -> Vec<u8> {
    let mut stream: Vec<u8> = all().iter().flat_map(Case::request).collect();
    stream.extend(request(NO_KIND, &[]));
    stream
}

fn all() -> Vec<Case> {
    let mut stream = Stream {
        cases: Vec::new(),
        edition: Edition::One,
        told: None,
    };
    reading(&mut stream);
    writing(&mut stream);
    response_times(&mut stream);
    tolerances_and_lengths(&mut stream, 4);
    tolerances_and_lengths(&mut stream, 5);
    region_check(&mut stream);
    rows(&mut stream);
    records(&mut stream);
    regions(&mut stream);
    names(&mut stream);
    editions(&mut stream);
    points(&mut stream);
    stream.cases
}

// ---- tables and files

const A: (u32, u32, u32) = (2, 5, 5);
const B: (u32, u32, u32) = (4, 10, 10);

/// (cost, period, deadline) each, one own region that is the whole cost, named 0, 1, and so on.
fn unassigned(tasks: &[(u32, u32, u32)]) -> (Table, Vec<u32>) {
    let mut table = Table {
        n: tasks.len() as u8,
        ..Table::default()
    };
    for (k, (cost, period, deadline)) in tasks.iter().copied().enumerate() {
        table.records[k] = Record {
            cost,
            period,
            deadline,
            first: k as u32,
            count: 1,
            name: k as u32,
            ..Record::default()
        };
    }
    (table, tasks.iter().map(|(cost, _, _)| *cost).collect())
}

/// The same with priorities and thresholds.
fn assigned(tasks: &[(u32, u32, u32)], places: &[(u32, u32)]) -> (Table, Vec<u32>) {
    let (mut table, own) = unassigned(tasks);
    for (record, (priority, threshold)) in table.records.iter_mut().zip(places) {
        (record.priority, record.threshold) = (*priority, *threshold);
    }
    (table, own)
}

/// (cost, period, deadline, jitter) each, in the order of the priorities, with these thresholds.
fn late(tasks: &[(u32, u32, u32, u32)], thresholds: &[u32]) -> (Table, Vec<u32>) {
    let timed: Vec<_> = tasks.iter().map(|(c, t, d, _)| (*c, *t, *d)).collect();
    let places: Vec<(u32, u32)> = (1..).zip(thresholds.iter().copied()).collect();
    let (mut table, own) = assigned(&timed, &places);
    for (record, (_, _, _, jitter)) in table.records.iter_mut().zip(tasks) {
        record.jitter = *jitter;
    }
    (table, own)
}

/// The two jobs of the bench figures in an assignment that passes, B in regions of 3 and 1.
fn two_jobs() -> (Table, Vec<u32>) {
    let (mut table, own) = three_and_one(A);
    table.records[1].name = 64;
    (table, own)
}

/// This task above B, which runs in regions of 3 and 1.
fn three_and_one(task: (u32, u32, u32)) -> (Table, Vec<u32>) {
    let (mut table, _) = assigned(&[task, B], &[(1, 1), (2, 2)]);
    table.records[1].count = 2;
    (table, vec![task.0, 3, 1])
}

/// Eight tasks, which `show` is tried on.
fn eight_jobs() -> (Table, Vec<u32>) {
    let tasks: Vec<(u32, u32, u32)> = (1..=8).map(|k| (k, 40 * k, 40 * k)).collect();
    let places: Vec<(u32, u32)> = (1..=8).map(|k: u32| (k, k.div_ceil(2))).collect();
    assigned(&tasks, &places)
}

/// Fifteen tasks, all that a table holds. Every other threshold is the priority itself, so that
/// the last record has all four bits of both.
fn fifteen_jobs() -> (Table, Vec<u32>) {
    let tasks: Vec<(u32, u32, u32)> = (1..=15).map(|k| (k, 40 * k, 40 * k)).collect();
    let places: Vec<(u32, u32)> = (1..=15)
        .map(|k: u32| (k, if k % 2 == 1 { k } else { k / 2 }))
        .collect();
    assigned(&tasks, &places)
}

/// Fifteen tasks that pass in every row.
fn fifteen_light_jobs() -> Table {
    let tasks: Vec<(u32, u32, u32)> = (1..=15).map(|k| (k, 1000 + k, 1000)).collect();
    unassigned(&tasks).0
}

/// The same with jitters up to 750, and still no task comes a second time before all have run.
fn fifteen_light_jobs_late() -> Table {
    let mut table = fifteen_light_jobs();
    for (k, record) in (1..).zip(&mut table.records) {
        record.jitter = 50 * k;
    }
    table
}

/// The fifteen jobs with this n.
fn fifteen_jobs_said_to_be(n: u8) -> Table {
    Table {
        n,
        ..fifteen_jobs().0
    }
}

/// The two jobs after a change of the table.
fn changed(change: impl Fn(&mut Table)) -> Table {
    let (mut table, _) = two_jobs();
    change(&mut table);
    table
}

/// The two jobs after a change of one record.
fn record_changed(k: usize, change: impl Fn(&mut Record)) -> Table {
    changed(|table| change(&mut table.records[k]))
}

/// The two jobs with these jitters.
fn two_jobs_late(of_a: u32, of_b: u32) -> Table {
    changed(|table| (table.records[0].jitter, table.records[1].jitter) = (of_a, of_b))
}

/// The table with a record's regions in the catalogue, from this word on.
fn lent(table: &Table, k: usize, first: u32) -> Table {
    let mut table = *table;
    (table.records[k].source, table.records[k].first) = (Source::Catalogue, first);
    table
}

/// The file of edition 1.
fn file_of(table: &Table, own: &[u32], catalogue: &[u32]) -> Vec<u8> {
    file_in(Edition::One, table, own, catalogue)
}

fn file_in(edition: Edition, table: &Table, own: &[u32], catalogue: &[u32]) -> Vec<u8> {
    file_on(PLATE, edition, table, own, catalogue)
}

fn file_on(
    plate: Plate,
    edition: Edition,
    table: &Table,
    own: &[u32],
    catalogue: &[u32],
) -> Vec<u8> {
    let (mut out, edition) = ([0; 512], edition.number());
    let length = file::write(edition, plate, table, own, catalogue, &mut out).expect("a file");
    out[..length].to_vec()
}

/// The two jobs as a file of this edition has them: in edition 2 with jitters.
fn two_jobs_in(edition: Edition) -> (Table, Vec<u32>) {
    let (table, own) = two_jobs();
    match edition {
        Edition::One => (table, own),
        Edition::Two => (two_jobs_late(2, 1), own),
    }
}

/// The same of the fifteen jobs, whose jitters are as large as they may be.
fn fifteen_jobs_in(edition: Edition) -> (Table, Vec<u32>) {
    let (mut table, own) = fifteen_jobs();
    if edition == Edition::Two {
        for record in &mut table.records {
            record.jitter = record.period - 1;
        }
    }
    (table, own)
}

fn two_jobs_file(edition: Edition) -> Vec<u8> {
    let (table, own) = two_jobs_in(edition);
    file_in(edition, &table, &own, &[])
}

fn fifteen_jobs_file(edition: Edition) -> Vec<u8> {
    let (table, own) = fifteen_jobs_in(edition);
    file_in(edition, &table, &own, &[])
}

/// Where a field starts, in files of both editions.
#[derive(Clone, Copy)]
enum At {
    /// This bit of the head.
    Head(usize),
    /// This bit of the record at this place.
    Record(usize, usize),
    /// The first and the last spare bit of the record at this place.
    FirstSpare(usize),
    LastSpare(usize),
    /// This bit behind the last record.
    Words(usize),
}

impl At {
    /// The bit of a file of this edition that has so many records.
    fn bit(self, edition: Edition, n: usize) -> usize {
        match self {
            At::Head(bit) => bit,
            At::Record(k, field) => in_record_of(edition, k, field),
            At::FirstSpare(k) => in_record_of(edition, k + 1, 0) - edition.spare_bits(),
            At::LastSpare(k) => in_record_of(edition, k + 1, 0) - 1,
            At::Words(bit) => in_record_of(edition, n, bit),
        }
    }
}

/// The file of so many records with one field changed, sealed anew.
fn changed_file(edition: Edition, n: usize, mut file: Vec<u8>, field: Field) -> Vec<u8> {
    let (_, at, width, value) = field;
    put(&mut file, at.bit(edition, n), width, value);
    seal_again(&mut file);
    file
}

/// The two jobs' file with one field changed, sealed anew.
fn field_changed(edition: Edition, field: Field) -> Vec<u8> {
    changed_file(edition, 2, two_jobs_file(edition), field)
}

fn other_line_file(edition: Edition) -> Vec<u8> {
    field_changed(edition, ("another line", At::Head(LINE_AT), 16, 13))
}

/// The fifteen jobs' file with one field changed, sealed anew.
fn field_of_fifteen_changed(edition: Edition, field: Field) -> Vec<u8> {
    changed_file(edition, 15, fifteen_jobs_file(edition), field)
}

/// The fifteen jobs' file, unassigned, with other records in place of theirs and as many in n: all
/// else is right, length and seal too.
fn with_records(edition: Edition, n: u32, records: impl Fn(&[u8]) -> Vec<u8>) -> Vec<u8> {
    let (mut table, words) = fifteen_jobs_in(edition);
    clear(&mut table);
    let mut file = file_in(edition, &table, &words, &[]);
    let place = in_record_of(edition, 0, 0) / 8..in_record_of(edition, 15, 0) / 8;
    let others = records(&file[place.clone()]);
    file.splice(place, others);
    put(&mut file, N_AT, 8, n);
    seal_again(&mut file);
    file
}

/// A file of sixteen records, of which the last two are the same.
pub fn sixteen_jobs_file(edition: Edition) -> Vec<u8> {
    with_records(edition, 16, |records| {
        let last = records.len() / 15 * 14;
        [records, &records[last..]].concat()
    })
}

/// A file of no record.
pub fn no_jobs_file(edition: Edition) -> Vec<u8> {
    with_records(edition, 0, |_| Vec::new())
}

/// What a field is changed to: a few words that say it, where it starts, how wide it is, and its
/// value.
type Field = (&'static str, At, usize, u32);

/// Changes of the two jobs' file, behind those of the edition, in the order of the numbers that turn
/// the file away.
const FIELDS: [Field; 28] = [
    (
        "the file is another cabinet's",
        At::Head(CABINET_AT),
        24,
        70_003,
    ),
    ("the file is another line's", At::Head(LINE_AT), 16, 13),
    ("n is 0", At::Head(N_AT), 8, 0),
    ("n is 16", At::Head(N_AT), 8, 16),
    ("m is 101", At::Head(56), 8, 101),
    ("the length of another n", At::Head(N_AT), 8, 3),
    ("the length of another m", At::Head(56), 8, 2),
    ("a spare bit of the head", At::Head(4), 4, 1),
    ("a spare bit of record 1", At::FirstSpare(0), 1, 1),
    ("a spare bit of record 2", At::LastSpare(1), 1, 1),
    ("a filler bit behind three words", At::Words(60), 4, 1),
    ("cost 0", At::Record(0, 0), 20, 0),
    ("cost 1,000,001", At::Record(0, 0), 20, 1_000_001),
    ("period 0", At::Record(1, 20), 20, 0),
    ("period 1,000,001", At::Record(1, 20), 20, 1_000_001),
    ("deadline 0", At::Record(1, 40), 20, 0),
    ("deadline 1,000,001", At::Record(1, 40), 20, 1_000_001),
    ("priorities 0 and 2", At::Record(0, 60), 4, 0),
    ("priorities 2 and 2", At::Record(0, 60), 4, 2),
    ("priorities 1 and 3", At::Record(1, 60), 4, 3),
    ("a threshold of 0", At::Record(1, 64), 4, 0),
    ("a threshold too large", At::Record(0, 64), 4, 2),
    ("a region of the empty catalogue", At::Record(0, 68), 1, 1),
    ("first region behind the last", At::Record(0, 69), 7, 3),
    ("regions that end behind the last", At::Record(1, 69), 7, 2),
    ("count 0", At::Record(0, 76), 7, 0),
    ("a sum below the cost", At::Record(1, 76), 7, 1),
    ("a region word of 0", At::Words(0), 20, 0),
];

/// The same of the fifteen jobs' file.
const FIELDS_OF_FIFTEEN: [Field; 9] = [
    ("n is 0 of fifteen", At::Head(N_AT), 8, 0),
    ("n is 16 of fifteen", At::Head(N_AT), 8, 16),
    ("n is 31 of fifteen", At::Head(N_AT), 8, 31),
    ("n is 14 of fifteen", At::Head(N_AT), 8, 14),
    ("the last spare bit of fifteen", At::LastSpare(14), 1, 1),
    ("the last deadline of fifteen 0", At::Record(14, 40), 20, 0),
    ("priority 14 of fifteen twice", At::Record(14, 60), 4, 14),
    ("threshold 15 of priority 14", At::Record(13, 64), 4, 15),
    ("the last word of fifteen 0", At::Words(280), 20, 0),
];

/// A head that says it is of this edition.
const fn said(what: &'static str, edition: u32) -> Field {
    (what, At::Head(0), 4, edition)
}

/// A number that is no edition, and one of which the length is wrong.
const OTHER_EDITIONS: [Field; 2] = [
    said("edition 0", 0),
    said("edition 2 over records of edition 1", 2),
];

/// A file on a plate, and a few words that say what it tries.
type FileCase = (String, Plate, Vec<u8>);

/// Files that reading turns away, for the calls that read a file.
fn turned_away_files(edition: Edition) -> Vec<FileCase> {
    let mut list = wrong_files(edition);
    list.extend(blank_files(edition));
    list
}

/// Those of them in which cabinet and line are not 0.
fn wrong_files(edition: Edition) -> Vec<FileCase> {
    let mut list = Vec::new();
    let mut add = |what: &str, file| list.push((what.to_string(), PLATE, file));
    let file = two_jobs_file(edition);
    // No edition can be seen in these.
    if edition == Edition::One {
        add("no byte at all", vec![]);
    }
    add("21 bytes", file[..21].to_vec());
    add("a byte too many", [&file[..], &[0]].concat());
    add("a byte too few", file[..file.len() - 1].to_vec());
    add("a bit of the first cost flipped", flipped(&file, 10));
    add("a bit of the seal flipped", flipped(&file, file.len() - 1));
    // Heads that say another edition than 2 stand in cases/editions.rs.
    if edition == Edition::One {
        for field in OTHER_EDITIONS {
            add(field.0, field_changed(edition, field));
        }
    }
    for field in FIELDS {
        add(field.0, field_changed(edition, field));
    }
    let word: Field = ("a region word of 1,000,001", At::Words(40), 20, 1_000_001);
    add(word.0, field_changed(edition, word));
    let other_line = other_line_file(edition);
    add("wrong line and wrong seal", flipped(&other_line, 40));
    add("a spare bit and a cost of 0", spare_and_cost(edition));
    for field in FIELDS_OF_FIFTEEN {
        add(field.0, field_of_fifteen_changed(edition, field));
    }
    let sixteen = sixteen_jobs_file(edition);
    add("sixteen records and all else right", sixteen);
    add("no record and all else right", no_jobs_file(edition));
    for (what, cabinet) in [
        ("a plate of more than 24 bits", PLATE.cabinet | 1 << 24),
        ("a plate of 2^24", 1 << 24),
    ] {
        let plate = Plate { cabinet, ..PLATE };
        list.push((what.to_string(), plate, file.clone()));
    }
    list
}

fn spare_and_cost(edition: Edition) -> Vec<u8> {
    let spare: Field = ("a spare bit", At::LastSpare(1), 1, 1);
    let cost: Field = ("a cost of 0", At::Record(0, 0), 20, 0);
    changed_file(edition, 2, field_changed(edition, spare), cost)
}

/// Nothing that reading asks of the file by itself, in these words.
const fn beside(what: &'static str) -> Fault {
    (0, what, |_| {})
}

/// Zeros in the place of cabinet or line: by themselves, and beside something else that is asked
/// before 18 or after it.
fn blank_files(edition: Edition) -> Vec<FileCase> {
    let mut list: Vec<FileCase> = Vec::new();
    for blank in BLANKS {
        list.push(blanked(edition, blank, beside("")));
    }
    for blank in alone_and_all() {
        for fault in BESIDE_ZEROS {
            let case = blanked(edition, blank, fault);
            // A file of cabinet 0 is another cabinet's already.
            if !list
                .iter()
                .any(|(_, plate, file)| (plate, file) == (&case.1, &case.2))
            {
                list.push(case);
            }
        }
    }
    list.push(blanked(edition, BOTH_LINES, ANOTHER_CABINET));
    list.push(blanked(edition, BOTH_CABINETS, ANOTHER_LINE));
    list.push(blanked(
        edition,
        BLANK_PLATE,
        (1, "no byte at all", Vec::clear),
    ));
    let (what, mut plate, file) = blanked(edition, BLANK_FILE, beside("a plate of 2^24"));
    plate.cabinet = 1 << 24;
    list.push((what, plate, file));
    list
}

/// The plate and the file of the two jobs with these zeros, beside this.
fn blanked(edition: Edition, (name, zeros): Blank, fault: Fault) -> FileCase {
    let (mut plate, mut file) = (PLATE, two_jobs_file(edition));
    put_blank(zeros, fault, &mut plate, &mut file);
    let (_, what, _) = fault;
    let comma = if what.is_empty() { "" } else { ", " };
    (format!("{name}{comma}{what}"), plate, file)
}

/// Plates of which all bytes but one or two are 0.
const NEARLY_BLANK: [(&str, Plate); 3] = [
    ("cabinet 1 and line 1", plate(1, 1)),
    ("cabinet 256 and line 256", plate(256, 256)),
    ("cabinet 65,536 and line 1", plate(65_536, 1)),
];

const fn plate(cabinet: u32, line: u16) -> Plate {
    Plate { cabinet, line }
}

/// Files that read, for these plates.
fn nearly_blank_files(edition: Edition) -> Vec<FileCase> {
    let (table, own) = two_jobs_in(edition);
    let file = |plate| file_on(plate, edition, &table, &own, &[]);
    NEARLY_BLANK
        .map(|(what, plate)| (what.to_string(), plate, file(plate)))
        .to_vec()
}

/// The file with a bit of this byte flipped.
fn flipped(file: &[u8], byte: usize) -> Vec<u8> {
    let mut file = file.to_vec();
    file[byte] ^= 0x10;
    file
}

// ---- the calls

impl Stream {
    fn add(&mut self, kind: u8, what: &str, body: Vec<u8>) {
        let what = what.to_string();
        self.cases.push(Case { kind, what, body });
    }

    /// A request that reads a file; what it tries names edition 2.
    fn add_reading(&mut self, kind: u8, what: &str, body: Vec<u8>) {
        let what = in_words(self.edition, what);
        self.add(kind, &what, body);
    }

    fn read(&mut self, what: &str, room: u32, lent: &[u32], file: &[u8]) {
        self.add_reading(1, what, read_body(PLATE, room, lent, file));
    }

    /// What both calls that read a file are asked, with this room or this record's number.
    fn files(&mut self, kind: u8, room_or_record: u32) {
        let mut files = turned_away_files(self.edition);
        files.extend(nearly_blank_files(self.edition));
        for (what, plate, file) in files {
            self.add_reading(kind, &what, read_body(plate, room_or_record, &[], &file));
        }
    }

    fn record(&mut self, what: &str, number: u32, lent: &[u32], file: &[u8]) {
        self.add_reading(9, what, read_body(PLATE, number, lent, file));
    }

    /// Writes for the plate of the two jobs, with an empty catalogue.
    fn write(&mut self, what: &str, room: u32, table: &Table, own: &[u32]) {
        self.write_on(PLATE, what, room, table, (own, &[]));
    }

    /// The same for any plate, and with a catalogue behind the own words. A room that is given for a
    /// file of edition 1 grows as the file does, but for no room.
    fn write_on(
        &mut self,
        plate: Plate,
        what: &str,
        room: u32,
        table: &Table,
        (own, lent): (&[u32], &[u32]),
    ) {
        let Some(edition) = self.told else {
            return self.add(2, what, write_body(plate, room, table, own, lent));
        };
        let bytes = edition.record_bytes() - Edition::One.record_bytes();
        let longer = bytes as u32 * table.n.min(MOST_TASKS as u8) as u32;
        let room = if room == 0 { 0 } else { room + longer };
        let body = write_body(plate, room, table, own, lent);
        self.write_told(edition.number(), what, body);
    }

    /// Writes by kind 14, with this number for the edition before what kind 2 has.
    fn write_told(&mut self, edition: u8, what: &str, body: Vec<u8>) {
        let what = format!("edition {edition}, {what}");
        self.add(14, &what, [vec![edition], body].concat());
    }

    /// Response times, tolerances or lengths.
    fn analysis(&mut self, kind: u8, what: &str, table: &Table) {
        self.add(kind, what, table_body(table));
    }

    fn check(&mut self, what: &str, table: &Table, own: &[u32], lent: &[u32]) {
        let mut body = table_body(table);
        put_words(&mut body, own);
        put_words(&mut body, lent);
        self.add(6, what, body);
    }

    fn first_row(&mut self, what: &str, room: u32, table: &Table) {
        self.add(7, what, row_body(room, table));
    }

    fn next_row(&mut self, what: &str, room: u32, table: &Table, row: &[u8]) {
        let mut body = row_body(room, table);
        put_bytes(&mut body, row);
        self.add(8, what, body);
    }

    fn regions(&mut self, what: &str, k: u32, table: &Table, own: &[u32], lent: &[u32]) {
        let mut body = row_body(k, table);
        put_words(&mut body, own);
        put_words(&mut body, lent);
        self.add(10, what, body);
    }

    fn name(&mut self, what: &str, number: u32, cabinet: &[u8], house: &[u8]) {
        self.add(11, what, name_body(number, cabinet, house));
    }
}

/// What a request tries that is about a file of this edition.
fn in_words(edition: Edition, what: &str) -> String {
    match edition {
        Edition::One => what.to_string(),
        Edition::Two => format!("edition 2, {what}"),
    }
}

fn read_body(plate: Plate, two: u32, catalogue: &[u32], file: &[u8]) -> Vec<u8> {
    let mut body = Vec::new();
    put_plate(&mut body, plate);
    put_two(&mut body, two);
    put_words(&mut body, catalogue);
    put_bytes(&mut body, file);
    body
}

fn write_body(plate: Plate, room: u32, table: &Table, own: &[u32], catalogue: &[u32]) -> Vec<u8> {
    let mut body = Vec::new();
    put_plate(&mut body, plate);
    put_two(&mut body, room);
    put_table(&mut body, table);
    put_words(&mut body, own);
    put_words(&mut body, catalogue);
    body
}

fn table_body(table: &Table) -> Vec<u8> {
    let mut body = Vec::new();
    put_table(&mut body, table);
    body
}

fn row_body(two: u32, table: &Table) -> Vec<u8> {
    let mut body = Vec::new();
    put_two(&mut body, two);
    put_table(&mut body, table);
    body
}

fn name_body(number: u32, cabinet: &[u8], house: &[u8]) -> Vec<u8> {
    let mut body = Vec::new();
    put_two(&mut body, number);
    put_bytes(&mut body, cabinet);
    put_bytes(&mut body, house);
    body
}

fn reading(stream: &mut Stream) {
    let edition = stream.edition;
    let in_edition = |table: &Table, own: &[u32], lent: &[u32]| file_in(edition, table, own, lent);
    let file = two_jobs_file(edition);
    stream.read("room for just its words", 3, &[], &file);
    stream.read("room for more", 5, &[], &file);
    stream.read("room for one word less", 2, &[], &file);
    stream.read("no room", 0, &[], &file);
    stream.read("a line longer than a buffer", 6100, &[], &file);
    let (table, own) = two_jobs_in(edition);
    let mut cleared = table;
    clear(&mut cleared);
    stream.read("unassigned", 3, &[], &in_edition(&cleared, &own, &[]));
    let (one, word) = unassigned(&[(1, 1, 1)]);
    let file_of_one = in_edition(&one, &word, &[]);
    stream.read("one task, one word", 1, &[], &file_of_one);
    let shortest = in_edition(&lent(&one, 0, 0), &[], &[1]);
    stream.read("the shortest file: no word", 0, &[1], &shortest);
    stream.read("the same, another catalogue", 0, &[2], &shortest);
    let (fifteen, mut words) = fifteen_jobs_in(edition);
    let file_of_fifteen = in_edition(&fifteen, &words, &[]);
    stream.read("fifteen tasks", 15, &[], &file_of_fifteen);
    words.resize(100, 1_000_000);
    let longest = in_edition(&fifteen, &words, &[]);
    stream.read("the longest file: 100 words", 100, &[], &longest);
    stream.read("the same, room for 99", 99, &[], &longest);
    let (largest, words) = unassigned(&[(1_000_000, 1_000_000, 1_000_000)]);
    let largest = in_edition(&largest, &words, &[]);
    stream.read("the largest numbers", 1, &[], &largest);
    let of_catalogue = in_edition(&lent(&table, 0, 1), &own, &[0, 2]);
    stream.read(
        "a catalogue's 0 that no record names",
        3,
        &[0, 2],
        &of_catalogue,
    );
    stream.read("a catalogue too short", 3, &[2], &of_catalogue);
    stream.files(1, 3);
    let (what, plate, file) = blanked(edition, ALL_BLANK, beside("no room"));
    stream.add_reading(1, &what, read_body(plate, 0, &[], &file));
}

/// A change of one record of the two jobs, by its place.
type Change = (&'static str, usize, fn(&mut Record));

const OUT_OF_RANGE: [Change; 7] = [
    ("cost 0", 0, |record| record.cost = 0),
    ("cost 1,000,001", 1, |record| record.cost = 1_000_001),
    ("period 0", 0, |record| record.period = 0),
    ("period 1,000,001", 1, |record| record.period = 1_000_001),
    ("deadline 0", 0, |record| record.deadline = 0),
    ("deadline 1,000,001", 1, |record| {
        record.deadline = 1_000_001
    }),
    ("name number 128", 1, |record| record.name = 128),
];

const BAD_ASSIGNMENTS: [Change; 6] = [
    ("a priority of 0", 0, |record| record.priority = 0),
    ("priorities 2 and 2", 0, |record| record.priority = 2),
    ("priorities 1 and 3", 1, |record| record.priority = 3),
    ("a priority of 2^32 - 1", 1, |record| {
        record.priority = u32::MAX
    }),
    ("a threshold of 0", 1, |record| record.threshold = 0),
    ("a threshold too large", 0, |record| record.threshold = 2),
];

const BAD_REGIONS: [Change; 7] = [
    ("count 0", 0, |record| record.count = 0),
    ("count 2^32 - 1", 0, |record| record.count = u32::MAX),
    ("first region behind the last", 0, |record| record.first = 3),
    ("first region 2^32 - 1", 0, |record| record.first = u32::MAX),
    ("regions that end behind the last", 1, |record| {
        record.first = 2
    }),
    ("a sum above the cost", 0, |record| record.count = 2),
    ("a region of the empty catalogue", 0, |record| {
        record.source = Source::Catalogue
    }),
];

/// Jitters at the edges of their range, whatever the call is: up to T - 1 they are taken.
const JITTERS: [Change; 12] = [
    ("jitter 1", 0, |record| record.jitter = 1),
    ("the second's jitter 1", 1, |record| record.jitter = 1),
    ("jitter T - 1", 0, |record| record.jitter = 4),
    ("the second's jitter T - 1", 1, |record| record.jitter = 9),
    ("jitter T", 0, |record| record.jitter = 5),
    ("the second's jitter T", 1, |record| record.jitter = 10),
    ("jitter T + 1", 0, |record| record.jitter = 6),
    ("the second's jitter T + 1", 1, |record| record.jitter = 11),
    ("jitter 2^31", 0, |record| record.jitter = 1 << 31),
    ("jitter 2^32 - 1", 0, |record| record.jitter = u32::MAX),
    ("the second's jitter 2^32 - 1", 1, |record| {
        record.jitter = u32::MAX
    }),
    ("a jitter past n", 2, |record| record.jitter = u32::MAX),
];

/// The deadline of a jitter, A (2,9,4), from a tick below it on: the last that leaves a t for the
/// tolerance, the first that leaves none, and more.
const AT_THE_DEADLINE: [(&str, u32); 4] = [
    ("jitter D - 1", 3),
    ("jitter D", 4),
    ("jitter D + 1", 5),
    ("jitter above D, T - 1", 8),
];

/// All of these, and a period of 1, which leaves the jitter 0 alone. Costs and regions are those of
/// the two jobs.
fn jitter_tables() -> Vec<(&'static str, Table)> {
    let mut list = tables(&JITTERS);
    for (what, jitter) in AT_THE_DEADLINE {
        let table = record_changed(0, |record| {
            (record.period, record.deadline, record.jitter) = (9, 4, jitter)
        });
        list.push((what, table));
    }
    for (what, jitter) in [("jitter 0 of period 1", 0), ("jitter 1 of period 1", 1)] {
        let table = record_changed(0, |record| {
            (record.period, record.deadline, record.jitter) = (1, 1, jitter)
        });
        list.push((what, table));
    }
    list
}

/// The two jobs after each of these changes.
fn tables(changes: &[Change]) -> Vec<(&'static str, Table)> {
    let table = |change: &Change| (change.0, record_changed(change.1, change.2));
    changes.iter().map(table).collect()
}

/// Turned away by 5 for n, and by 9.
fn out_of_range_tables() -> Vec<(&'static str, Table)> {
    let mut list = tables(&OUT_OF_RANGE);
    list.push(("n is 0", changed(|table| table.n = 0)));
    list.push(("n is 16", changed(|table| table.n = 16)));
    list.push(("n is 255", changed(|table| table.n = 255)));
    list
}

/// Turned away by 5 for n and by nothing else.
fn wrong_n_alone() -> [(&'static str, Table); 2] {
    [
        ("fifteen records, n is 0", fifteen_jobs_said_to_be(0)),
        ("fifteen records, n is 16", fifteen_jobs_said_to_be(16)),
    ]
}

/// Turned away by 10.
fn bad_assignments() -> Vec<(&'static str, Table)> {
    let mut list = tables(&BAD_ASSIGNMENTS);
    let one_left = changed(|table| {
        clear(table);
        table.records[1].threshold = 1;
    });
    list.push(("all zero but one threshold", one_left));
    list
}

/// Turned away by 5 for n, 9, 10 and 11, with the two jobs' words.
fn turned_away_tables() -> Vec<(&'static str, Table)> {
    let mut list = out_of_range_tables();
    list.extend(bad_assignments());
    list.extend(tables(&BAD_REGIONS));
    list
}

fn writing(stream: &mut Stream) {
    let (table, own) = two_jobs();
    stream.write("room for just the file", 42, &table, &own);
    stream.write("room for more", 45, &table, &own);
    stream.write("room for one byte less", 41, &table, &own);
    stream.write("no room", 0, &table, &own);
    stream.write("unassigned", 42, &changed(clear), &own);
    let (one, word) = unassigned(&[(1, 1, 1)]);
    stream.write("one task", 25, &one, &word);
    let (fifteen, mut words) = fifteen_jobs();
    stream.write("fifteen tasks", 228, &fifteen, &words);
    for (what, table) in wrong_n_alone() {
        stream.write(what, 300, &table, &words);
    }
    let mut sixteenth = fifteen;
    sixteenth.records[14].priority = 16;
    stream.write("priority 16 of fifteen", 300, &sixteenth, &words);
    sixteenth.records[14] = fifteen.records[14];
    sixteenth.records[14].threshold = 16;
    stream.write("threshold 16 of fifteen", 300, &sixteenth, &words);
    words.resize(100, 1_000_000);
    stream.write("the longest file", 440, &fifteen, &words);
    stream.write("the same, one byte less", 439, &fifteen, &words);
    stream.write("101 words", 500, &fifteen, &[1; 101]);
    let past = record_changed(2, |record| record.cost = u32::MAX);
    stream.write("records past n are not looked at", 42, &past, &own);
    let zero = [2, 3, 1, 0];
    stream.write("an own word of 0 that no record names", 50, &table, &zero);
    stream.write(
        "an own word of 1,000,001",
        50,
        &table,
        &[2, 3, 1, 1_000_001],
    );
    for (what, table) in turned_away_tables() {
        stream.write(what, 42, &table, &own);
    }
    let both = changed(|table| {
        table.records[0].cost = 0;
        table.records[1].priority = 9;
    });
    stream.write("a cost of 0 and a bad assignment", 42, &both, &own);
    let from_catalogue = lent(&table, 0, 1);
    for (what, catalogue) in [
        ("a catalogue's 0 that no record names", &[0, 2][..]),
        ("a catalogue too short", &[2]),
    ] {
        stream.write_on(PLATE, what, 42, &from_catalogue, (&own, catalogue));
    }
    for (what, cabinet) in [("24 bits", MOST_CABINET), ("25 bits", MOST_CABINET + 1)] {
        let plate = plate(cabinet, u16::MAX);
        stream.write_on(plate, what, 42, &table, (&own, &[]));
    }
    for (what, plate) in NEARLY_BLANK {
        stream.write_on(plate, what, 42, &table, (&own, &[]));
    }
    writing_blank(stream);
    writing_late(stream);
}

/// Zeros on the plate: by themselves, and beside something else that is asked before 18 or after
/// it.
fn writing_blank(stream: &mut Stream) {
    let (table, own) = two_jobs();
    for (name, zeros) in blank_plates() {
        let mut plate = PLATE;
        put_zeros(zeros, &mut plate, &mut []);
        let mut write = |what: &str, room, table: &Table| {
            stream.write_on(plate, &format!("{name}{what}"), room, table, (&own, &[]));
        };
        write("", 42, &table);
        write(", n is 0", 42, &changed(|table| table.n = 0));
        write(", n is 16", 42, &changed(|table| table.n = 16));
        write(", cost 0", 42, &tables(&OUT_OF_RANGE)[0].1);
        write(", a priority of 0", 42, &tables(&BAD_ASSIGNMENTS)[0].1);
        write(", count 0", 42, &tables(&BAD_REGIONS)[0].1);
        write(", room for one byte less", 41, &table);
    }
    let (fifteen, _) = fifteen_jobs();
    let words = &[1; 101];
    let what = "a blank plate, 101 words";
    stream.write_on(plate(0, 0), what, 500, &fifteen, (words, &[]));
    let what = "the plate's line is 0, its cabinet 25 bits";
    stream.write_on(plate(1 << 24, 0), what, 42, &table, (&own, &[]));
}

/// Document 02, item 8: no jitter can be written as edition 1, and 19 says so after 11 and before 12.
fn writing_late(stream: &mut Stream) {
    let (_, own) = two_jobs();
    for (what, table) in jitter_tables() {
        stream.write(what, 42, &table, &own);
    }
    let one = two_jobs_late(0, 1);
    let with = |change: fn(&mut Table)| {
        let mut table = one;
        change(&mut table);
        table
    };
    stream.write("both with a jitter", 42, &two_jobs_late(1, 1), &own);
    stream.write("a jitter, unassigned", 42, &with(clear), &own);
    stream.write("a jitter, room for one byte less", 41, &one, &own);
    stream.write("a jitter, no room", 0, &one, &own);
    for (what, change) in BESIDE_A_JITTER {
        stream.write(what, 42, &with(change), &own);
        stream.write(&format!("{what}, no room"), 0, &with(change), &own);
    }
    stream.write("a jitter, an own word of 0", 42, &one, &[2, 3, 1, 0]);
    stream.write("a jitter, 101 words", 500, &one, &[1; 101]);
    for (what, plate) in [
        ("a jitter, a blank plate", plate(0, 0)),
        ("a jitter, cabinet 25 bits", plate(1 << 24, 12)),
    ] {
        stream.write_on(plate, what, 42, &one, (&own, &[]));
    }
    let (mut fifteen, words) = fifteen_jobs();
    fifteen.records[14].jitter = 1;
    stream.write("the fifteenth has a jitter", 228, &fifteen, &words);
    fifteen.n = 14;
    clear(&mut fifteen);
    stream.write("the same, past n", 300, &fifteen, &words);
}

/// What writing asks before 19.
const BESIDE_A_JITTER: [(&str, fn(&mut Table)); 6] = [
    ("a jitter, n is 16", |table| table.n = 16),
    ("a jitter, cost 0", |table| table.records[0].cost = 0),
    ("a jitter, and another of T", |table| {
        table.records[0].jitter = 5
    }),
    ("a jitter, priorities 2 and 2", |table| {
        table.records[0].priority = 2
    }),
    ("a jitter, count 0", |table| table.records[0].count = 0),
    ("a jitter, a sum above the cost", |table| {
        table.records[0].count = 2
    }),
];

/// Document 01, "Bench figures", as far as response times go, and what turns the call away.
fn response_times(stream: &mut Stream) {
    let most = 1_000_000;
    stream.analysis(3, "A (2,5,5), B (4,10,10), 1 2", &two_jobs().0);
    let tight = assigned(&[A, B], &[(1, 1), (2, 1)]).0;
    stream.analysis(3, "the same, thresholds 1 1", &tight);
    for (what, task) in [
        ("one task (3,2,2)", (3, 2, 2)),
        ("one task of 1,000,000", (most, most, most)),
        ("the same, period 999,999", (most, most - 1, most)),
    ] {
        stream.analysis(3, what, &assigned(&[task], &[(1, 1)]).0);
    }
    let table_1 = [(1, 7, 7), (8, 23, 23), (10, 25, 25), (3, 33, 33)];
    let places = [(1, 1), (2, 2), (4, 2), (3, 2)];
    let table_1 = assigned(&table_1, &places).0;
    stream.analysis(3, "Table 1 of source document 002", &table_1);
    blocked(stream);
    let later = assigned(&[(26, 70, 70), (62, 100, 120)], &[(1, 1), (2, 2)]).0;
    stream.analysis(3, "a later job is the worst", &later);
    worst_jobs(stream);
    let full = (600_000, most, most);
    let beyond = assigned(&[full, full], &[(1, 1), (2, 2)]).0;
    stream.analysis(3, "the second beyond", &beyond);
    stream.analysis(3, "fifteen tasks", &fifteen_jobs().0);
    let late = record_changed(0, |record| record.deadline = 1);
    stream.analysis(3, "a deadline below the cost", &late);
    stream.analysis(3, "a deadline above the period", &above_period());
    let odd = record_changed(1, |record| record.count = 9);
    stream.analysis(3, "regions are not looked at", &odd);
    turned_away_analysis(stream, 3);
    response_times_late(stream);
}

/// Document 02, item 8: each place in which a jitter stands, the horizon, and a tick too late. Most
/// tables are those of tests/jitter.rs.
fn response_times_late(stream: &mut Stream) {
    for (what, table) in jitter_tables() {
        stream.analysis(3, what, &table);
    }
    for (what, table) in in_time_and_late() {
        stream.analysis(3, what, &table);
    }
    for (what, table) in beyond_by_jitter() {
        stream.analysis(3, what, &table);
    }
    for (what, (table, _)) in [
        ("J in R", late(&[(1, 2, 2, 1)], &[1])),
        ("J in S", late(&[(1, 2, 2, 1), (1, 3, 3, 0)], &[1, 1])),
        (
            "J in the ceiling of F",
            late(&[(1, 3, 3, 1), (2, 4, 4, 0)], &[1, 2]),
        ),
        (
            "J in what has started",
            late(&[(1, 3, 3, 2), (1, 2, 4, 0)], &[1, 2]),
        ),
        ("a job more by its own J", late(&[(2, 4, 5, 3)], &[1])),
        (
            "jitters of three, the second blocked",
            late(&[(1, 4, 4, 2), (1, 10, 10, 3), (4, 20, 20, 19)], &[1, 1, 2]),
        ),
        (
            "jitters make a later job the worst",
            late(&[(3, 5, 5, 1), (1, 3, 6, 1)], &[1, 1]),
        ),
        (
            "jitter makes the first job the worst",
            late(&[(3, 8, 8, 3), (3, 5, 9, 0)], &[1, 2]),
        ),
        (
            "jitters of both, two later jobs reach R",
            late(&[(3, 8, 8, 1), (3, 5, 10, 3)], &[1, 2]),
        ),
    ] {
        stream.analysis(3, what, &table);
    }
    let (mut fifteen, _) = fifteen_jobs();
    for (k, record) in (1..).zip(&mut fifteen.records) {
        record.jitter = 40 * k - 1;
    }
    stream.analysis(3, "fifteen tasks, each jitter T - 1", &fifteen);
    let light = changed_places(&fifteen_light_jobs_late());
    stream.analysis(3, "fifteen light tasks with jitters", &light);
    let unassigned = late_and(clear);
    stream.analysis(3, "a jitter, unassigned", &unassigned);
    stream.analysis(3, "a jitter, priorities 2 and 2", &late_and(two_and_two));
    stream.analysis(3, "jitter T, unassigned", &jitter_t_and(clear));
    stream.analysis(3, "jitter T, n is 16", &jitter_t_and(|table| table.n = 16));
}

/// The table with priorities 1 to n, each threshold the priority itself.
fn changed_places(table: &Table) -> Table {
    let mut table = *table;
    for (k, record) in (1..).zip(&mut table.records) {
        (record.priority, record.threshold) = (k, k);
    }
    table
}

fn two_and_two(table: &mut Table) {
    table.records[0].priority = 2;
}

/// The two jobs with a jitter that is taken, and this.
fn late_and(change: fn(&mut Table)) -> Table {
    let mut table = two_jobs_late(1, 0);
    change(&mut table);
    table
}

/// The two jobs with a jitter that isn't taken, and this.
fn jitter_t_and(change: fn(&mut Table)) -> Table {
    let mut table = two_jobs_late(0, 10);
    change(&mut table);
    table
}

/// Jitters with which the two jobs just pass, and with which one of them is late by a tick; and a
/// later job that is the worst only by the jitter of the task above.
fn in_time_and_late() -> [(&'static str, Table); 6] {
    let later = |jitter: u32, deadline: u32| {
        let tasks = [(2, 5, 5, jitter), (1, 2, deadline, 0)];
        late(&tasks, &[1, 1]).0
    };
    [
        ("jitters 3 and 0: both just in time", two_jobs_late(3, 0)),
        (
            "jitters 4 and 0: the first a tick late",
            two_jobs_late(4, 0),
        ),
        (
            "jitters 3 and 1: the second a tick late",
            two_jobs_late(3, 1),
        ),
        ("a later job by jitter, in time", later(2, 4)),
        ("the same, a tick late", later(2, 3)),
        ("the same without jitter", later(0, 3)),
    ]
}

/// L, S and F are at or below the horizon, or L alone is above it by a jitter; and times above it.
fn beyond_by_jitter() -> [(&'static str, Table); 9] {
    let most = 1_000_000;
    let one = |cost| late(&[(cost, most, most, most - 1)], &[1]).0;
    let above = |jitter| {
        let tasks = [(300_000, most, most, jitter), (600_000, most, most, 0)];
        late(&tasks, &[1, 1]).0
    };
    let largest = [(999_998, most, most, 0), (1, most, most, most - 1)];
    [
        ("R 1,000,000 by jitter", one(1)),
        ("R 1,000,001 by jitter", one(2)),
        ("L 1,000,000 by jitter", one(500_000)),
        ("L 1,000,002 by jitter", one(500_001)),
        ("R 1,999,998 by jitter", late(&largest, &[1, 2]).0),
        ("L 900,000, not yet another job", above(100_000)),
        ("the same, another job by a tick of jitter", above(100_001)),
        (
            "L above the horizon by its own jitter",
            late(&[(300_001, 400_000, 400_000, 399_999)], &[1]).0,
        ),
        (
            "the same without jitter",
            late(&[(300_001, 400_000, 400_000, 0)], &[1]).0,
        ),
    ]
}

/// Document 02, item 5: where a tick less of what blocks shows, and an arrival at the start.
fn blocked(stream: &mut Stream) {
    let three = |c: u32, places: &[(u32, u32)]| {
        let tasks = [(1, 4, 4), (1, 10, 10), (c, 20, 20)];
        assigned(&tasks, places).0
    };
    let never_cut = [(1, 1), (2, 1), (3, 2)];
    for (what, table) in [
        ("an arrival at a blocked start", three(4, &never_cut)),
        (
            "the same, which it may cut",
            three(4, &[(1, 1), (2, 2), (3, 2)]),
        ),
        ("blocked by a cost of 1", three(1, &never_cut)),
        ("blocked by a cost of 2", three(2, &never_cut)),
        (
            "a cost of 1 that blocks nobody",
            three(1, &[(1, 1), (2, 1), (3, 3)]),
        ),
    ] {
        stream.analysis(3, what, &table);
    }
    let two = |tasks: &[(u32, u32, u32)]| assigned(tasks, &[(1, 1), (2, 1)]).0;
    let full = two(&[(2, 2, 2), (1, 20, 20)]);
    stream.analysis(3, "a full load, blocked by a cost of 1", &full);
    let full = two(&[(2, 2, 2), (2, 20, 20)]);
    stream.analysis(3, "the same by a cost of 2", &full);
    let most = 1_000_000;
    for (what, cost) in [
        ("blocked up to 999,999", 500_000),
        ("blocked up to 1,000,000", 500_001),
        ("blocked up to 1,000,001", 500_002),
    ] {
        let table = two(&[(500_000, most, most), (cost, most, most)]);
        stream.analysis(3, what, &table);
    }
}

/// The first task cuts the second, which is at its worst in job 1: it takes 6 ticks there, 5 in job
/// 0 and 4 in job 2, the last. Where it may not be cut it takes 5, 3 and 4.
fn cut_by_one(deadline: u32, cut: bool) -> (Table, Vec<u32>) {
    let threshold = if cut { 2 } else { 1 };
    let tasks = [(3, 6, 6), (2, 4, deadline)];
    assigned(&tasks, &[(1, 1), (2, threshold)])
}

/// The third is at its worst in the last of its two jobs: it takes 5 and 6 ticks. None is cut.
fn last_of_two(deadline: u32) -> (Table, Vec<u32>) {
    let tasks = [(2, 4, 4), (1, 7, 7), (2, 6, deadline)];
    assigned(&tasks, &[(1, 1), (2, 1), (3, 1)])
}

/// The third takes 5, 5, 6, 6 and 4 ticks.
fn two_later() -> (Table, Vec<u32>) {
    let tasks = [(2, 5, 5), (1, 12, 12), (2, 4, 6)];
    assigned(&tasks, &[(1, 1), (2, 1), (3, 3)])
}

/// The third takes 3, 3 and 2 ticks.
fn first_and_later() -> (Table, Vec<u32>) {
    let tasks = [(1, 3, 3), (1, 8, 8), (1, 2, 3)];
    assigned(&tasks, &[(1, 1), (2, 1), (3, 1)])
}

/// The second takes 8, 9 and 5 ticks, the third 20, 26, 21, 27 and 14.
fn later_of_two(deadline: u32) -> (Table, Vec<u32>) {
    let tasks = [(5, 10, 10), (3, 7, 8), (1, 14, deadline)];
    assigned(&tasks, &[(1, 1), (2, 2), (3, 2)])
}

/// A task for which those of `cut_by_one` leave no time, and these two.
fn beyond_beside_later() -> (Table, Vec<u32>) {
    let tasks = [(1, 100, 100), (3, 6, 6), (2, 4, 6)];
    assigned(&tasks, &[(3, 3), (1, 1), (2, 2)])
}

/// `cut_by_one` fourteen times as long, its first task in fourteen parts.
fn later_of_fifteen(deadline: u32) -> (Table, Vec<u32>) {
    let mut tasks = [(3, 84, 84); 15];
    tasks[14] = (28, 56, deadline);
    assigned(&tasks, &own_thresholds())
}

/// `two_later` thirteen times as long, its first task in thirteen parts.
fn two_later_of_fifteen() -> (Table, Vec<u32>) {
    let mut tasks = [(2, 65, 65); 15];
    tasks[13] = (13, 156, 156);
    tasks[14] = (26, 52, 78);
    assigned(&tasks, &own_thresholds())
}

/// Priorities 1 to 15, each threshold the priority itself.
fn own_thresholds() -> [(u32, u32); 15] {
    std::array::from_fn(|k| (k as u32 + 1, k as u32 + 1))
}

/// The third is at its worst in job 86,426.
fn far_behind() -> (Table, Vec<u32>) {
    let tasks = [(402, 898, 898), (309, 877, 877), (1, 5, 5)];
    assigned(&tasks, &[(1, 1), (2, 2), (3, 2)])
}

/// Document 02, item 4: which job is the worst, where several reach R, and which of them misses the
/// deadline. The tables are those of tests/worst.rs, and three of tests/bench.rs.
fn worst_jobs(stream: &mut Stream) {
    let three = |tasks: [(u32, u32, u32); 3], thresholds: [u32; 3]| {
        let places = [1, 2, 3].map(|p: u32| (p, thresholds[p as usize - 1]));
        assigned(&tasks, &places)
    };
    let to_the_horizon = |times: u32| {
        let tasks = [(3, 6, 6), (2, 4, 6)].map(|(c, t, d)| (c * times, t * times, d * times));
        assigned(&tasks, &[(1, 1), (2, 2)])
    };
    for (what, (table, _)) in [
        ("a later job is the worst, in time", cut_by_one(6, true)),
        ("the same, it alone is late", cut_by_one(5, true)),
        ("the same, the first is late too", cut_by_one(4, true)),
        ("the first of three jobs is the worst", cut_by_one(5, false)),
        ("the same, it alone is late", cut_by_one(4, false)),
        ("the last job is the worst", last_of_two(6)),
        ("the same, it alone is late", last_of_two(5)),
        (
            "the last of two jobs is the worst",
            three([(1, 6, 6), (2, 4, 4), (2, 6, 6)], [1, 1, 1]),
        ),
        ("the first job and a later one reach R", first_and_later()),
        (
            "the same, and both above cut it",
            three([(1, 3, 3), (1, 8, 8), (1, 2, 3)], [1, 1, 3]),
        ),
        (
            "the first job and two later ones do",
            three([(1, 15, 15), (2, 5, 5), (2, 4, 5)], [1, 1, 3]),
        ),
        ("two later jobs reach R", two_later()),
        (
            "jobs 1 and 2 of four do",
            three([(1, 6, 6), (2, 4, 4), (1, 3, 5)], [1, 1, 2]),
        ),
        (
            "two later jobs do, one of them the last",
            three([(2, 4, 4), (1, 5, 5), (2, 7, 7)], [1, 1, 1]),
        ),
        (
            "three later jobs do",
            three([(4, 12, 12), (4, 9, 9), (1, 5, 13)], [1, 2, 1]),
        ),
        ("two tasks, each in a later job", later_of_two(30)),
        ("beyond beside a later job", beyond_beside_later()),
        (
            "a later job of a blocked task",
            three([(3, 6, 6), (1, 3, 7), (3, 40, 40)], [1, 2, 2]),
        ),
        (
            "the same, not blocked",
            three([(3, 6, 6), (1, 3, 7), (3, 40, 40)], [1, 2, 3]),
        ),
        ("a later job of the fifteenth", later_of_fifteen(84)),
        ("two later jobs of the fifteenth", two_later_of_fifteen()),
        ("a later job, L 999,996", to_the_horizon(83_333)),
        ("the same, L 1,000,008", to_the_horizon(83_334)),
        ("job 86,426 is the worst", far_behind()),
    ] {
        stream.analysis(3, what, &table);
    }
    let (table, _) = cut_by_one(6, true);
    for (what, change) in WORST_REFUSED {
        let mut table = table;
        change(&mut table);
        stream.analysis(3, what, &table);
    }
}

/// What turns a table away whose worst job is a later one.
const WORST_REFUSED: [(&str, fn(&mut Table)); 4] = [
    ("a later job, n is 0", |table| table.n = 0),
    ("a later job, cost 0", |table| table.records[0].cost = 0),
    ("a later job, priorities 2 and 2", |table| {
        table.records[0].priority = 2
    }),
    ("a later job, unassigned", clear),
];

/// What every call of the analysis is turned away by: 5, 9, 10, 14.
fn turned_away_analysis(stream: &mut Stream, kind: u8) {
    for (what, table) in out_of_range_tables().iter().chain(&bad_assignments()) {
        stream.analysis(kind, what, table);
    }
    for (what, table) in wrong_n_alone() {
        stream.analysis(kind, what, &table);
    }
    stream.analysis(kind, "unassigned", &changed(clear));
}

fn tolerances_and_lengths(stream: &mut Stream, kind: u8) {
    let most = 1_000_000;
    stream.analysis(kind, "A (2,5,5), B (4,10,10), order A B", &two_jobs().0);
    let other = assigned(&[A, B], &[(2, 2), (1, 1)]).0;
    stream.analysis(kind, "order B A", &other);
    let tight = assigned(&[A, B], &[(1, 1), (2, 1)]).0;
    stream.analysis(kind, "thresholds play no part", &tight);
    for (what, deadline) in [("A (2,5,2)", 2), ("A (2,5,1)", 1)] {
        let table = changed(|table| table.records[0].deadline = deadline);
        stream.analysis(kind, what, &table);
    }
    let three = [(1, 10, 10), (9, 35, 35), (52, 105, 105)];
    let three = assigned(&three, &[(1, 1), (2, 2), (3, 3)]).0;
    stream.analysis(kind, "the tasks of source document 001", &three);
    for (what, cost) in [
        ("a cost at the tolerance above", 3),
        ("a cost of the tolerance and 1", 4),
        ("a cost of the tolerance and 2", 5),
    ] {
        let table = assigned(&[A, (cost, 20, 20)], &[(1, 1), (2, 2)]).0;
        stream.analysis(kind, what, &table);
    }
    let least = [(3, 10, 10), (2, 20, 8), (9, 90, 90)];
    let least = assigned(&least, &[(1, 1), (2, 2), (3, 3)]).0;
    stream.analysis(kind, "the second tolerance is the least", &least);
    stream.analysis(kind, "both tolerances below zero", &both_below().0);
    let far = assigned(&[(most, 1, 1), (most, most, most)], &[(1, 1), (2, 2)]).0;
    stream.analysis(kind, "far below zero", &far);
    stream.analysis(kind, "fifteen tasks", &fifteen_jobs().0);
    turned_away_analysis(stream, kind);
    stream.analysis(kind, "a deadline above its period", &above_period());
    tolerances_late(stream, kind);
}

/// Document 02, item 8: the range and the sum of a tolerance, and 16 of a task that has none.
fn tolerances_late(stream: &mut Stream, kind: u8) {
    for (what, table) in jitter_tables() {
        stream.analysis(kind, what, &table);
    }
    for (what, (table, _)) in tables_of_16() {
        stream.analysis(kind, what, &table);
    }
    for (what, table) in [
        ("jitters 3 and 0", two_jobs_late(3, 0)),
        ("jitters 3 and 1", two_jobs_late(3, 1)),
        ("jitters 1 and 1", two_jobs_late(1, 1)),
    ] {
        stream.analysis(kind, what, &table);
    }
    let most = 1_000_000;
    for (what, jitter) in [
        ("the largest deadline, one t", most - 1),
        ("the same, half of it", most / 2),
    ] {
        let tasks = [(1, 2, 2, 1), (1, most, most, jitter)];
        stream.analysis(kind, what, &late(&tasks, &[1, 2]).0);
    }
    for (what, (table, _)) in at_most_one_t() {
        stream.analysis(kind, what, &table);
    }
    let light = changed_places(&fifteen_light_jobs_late());
    stream.analysis(kind, "fifteen light tasks with jitters", &light);
    for (what, table) in [
        ("no t, unassigned", no_t_and(clear)),
        ("no t, priorities 2 and 2", no_t_and(two_and_two)),
        (
            "no t, a deadline above its period",
            no_t_and(|table| table.records[1].deadline = 11),
        ),
        ("jitter T, unassigned", jitter_t_and(clear)),
        (
            "jitter T, a deadline above its period",
            jitter_t_and(|table| table.records[0].deadline = 6),
        ),
    ] {
        stream.analysis(kind, what, &table);
    }
}

/// The two jobs, of which the first has no t, and this.
fn no_t_and(change: fn(&mut Table)) -> Table {
    changed(|table| {
        (table.records[0].deadline, table.records[0].jitter) = (4, 4);
        change(table);
    })
}

/// A cost of 1 above B: its one t leaves a tolerance of 0, and a tick of jitter more leaves no t.
fn at_most_one_t() -> [(&'static str, (Table, Vec<u32>)); 2] {
    let of = |jitter| late(&[(1, 9, 4, jitter), (1, 10, 10, 0)], &[1, 2]);
    [
        ("one t, and the cost in it", of(3)),
        ("the same, no t", of(4)),
    ]
}

/// Which record 16 names: tolerances the lowest that has no t, lengths and the region check the lowest
/// that has none or one below zero.
fn tables_of_16() -> [(&'static str, (Table, Vec<u32>)); 6] {
    let below = (8, 32, 21, 0);
    let none = (14, 59, 41, 50);
    let swapped = |tasks: &[(u32, u32, u32, u32)]| {
        let (mut table, words) = late(tasks, &[1, 2]);
        for (record, priority) in table.records.iter_mut().zip([2, 1]) {
            (record.priority, record.threshold) = (priority, priority);
        }
        (table, words)
    };
    let late_below = (8, 32, 21, 21);
    [
        ("below zero, then no t", swapped(&[below, none])),
        ("no t, then below zero", late(&[none, below], &[1, 2])),
        ("no t twice", late(&[none, late_below], &[1, 2])),
        (
            "the same, the lower task first",
            swapped(&[late_below, none]),
        ),
        (
            "the third alone has no t",
            late(&[(1, 9, 9, 8), (1, 20, 20, 1), (1, 50, 3, 3)], &[1, 2, 3]),
        ),
        (
            "the third alone is below zero",
            late(&[(1, 9, 9, 8), (1, 20, 20, 1), (1, 50, 3, 1)], &[1, 2, 3]),
        ),
    ]
}

fn above_period() -> Table {
    record_changed(0, |record| record.deadline = 6)
}

/// The record of lower priority is the lowest one below zero.
fn both_below() -> (Table, Vec<u32>) {
    assigned(&[(4, 10, 3), (2, 5, 1)], &[(2, 2), (1, 1)])
}

fn region_check(stream: &mut Stream) {
    let (table, own) = two_jobs();
    stream.check("regions 3 and 1 for B", &table, &own, &[]);
    let (whole, words) = assigned(&[A, B], &[(1, 1), (2, 2)]);
    stream.check("one region of 4 for B", &whole, &words, &[]);
    stream.check(
        "3 and 1 in the catalogue",
        &lent(&table, 1, 1),
        &[2],
        &[0, 3, 1],
    );
    stream.check("4 in the catalogue", &lent(&whole, 1, 0), &[2], &[4]);
    lengths_reached(stream);
    for (what, table) in turned_away_tables() {
        stream.check(what, &table, &own, &[]);
    }
    let (fifteen, words) = fifteen_jobs();
    stream.check("fifteen tasks", &fifteen, &words, &[]);
    for (what, table) in wrong_n_alone() {
        stream.check(what, &table, &words, &[]);
    }
    stream.check("101 words", &table, &[1; 101], &[]);
    let zero = [2, 3, 1, 0];
    stream.check("an own word of 0 that no record names", &table, &zero, &[]);
    stream.check("unassigned", &changed(clear), &own, &[]);
    stream.check("a deadline above its period", &above_period(), &own, &[]);
    let late = record_changed(0, |record| record.deadline = 1);
    stream.check("A (2,5,1)", &late, &own, &[]);
    let (below, words) = both_below();
    stream.check("both tolerances below zero", &below, &words, &[]);
    region_check_late(stream);
}

/// Document 02, item 8: what the other two are asked, and regions as long as a jitter lets them be.
fn region_check_late(stream: &mut Stream) {
    let (_, own) = two_jobs();
    for (what, table) in jitter_tables() {
        stream.check(what, &table, &own, &[]);
    }
    for (what, (table, words)) in tables_of_16().iter().chain(&at_most_one_t()) {
        stream.check(what, table, words, &[]);
    }
    let (whole, words) = late(&[(2, 5, 5, 1), (4, 10, 10, 0)], &[1, 2]);
    stream.check("jitter 1, one region of 4", &whole, &words, &[]);
    let tick = changed(|table| {
        table.records[0].jitter = 3;
        table.records[1].count = 4;
    });
    let ticks = [2, 1, 1, 1, 1];
    stream.check("jitter 3, regions of 1", &tick, &ticks, &[]);
    stream.check("jitter 3, a region of 3", &two_jobs_late(3, 0), &own, &[]);
    for (what, table) in [
        (
            "no t, count 0",
            no_t_and(|table| table.records[1].count = 0),
        ),
        ("no t, unassigned", no_t_and(clear)),
        (
            "no t, a deadline above its period",
            no_t_and(|table| table.records[1].deadline = 11),
        ),
        (
            "jitter T, count 0",
            jitter_t_and(|table| table.records[0].count = 0),
        ),
    ] {
        stream.check(what, &table, &own, &[]);
    }
}

/// Regions just as long as they may be, and a tick longer.
fn lengths_reached(stream: &mut Stream) {
    let of = |deadline: u32, count: u32| {
        changed(|table| {
            table.records[0].deadline = deadline;
            table.records[1].count = count;
        })
    };
    stream.check("A (2,5,4), regions 3 and 1", &of(4, 2), &[2, 3, 1], &[]);
    stream.check("A (2,5,4), one region of 4", &of(4, 1), &[2, 4], &[]);
    stream.check(
        "the same in the catalogue",
        &lent(&of(4, 1), 1, 0),
        &[2],
        &[4],
    );
    stream.check("A (2,5,2), regions of 1", &of(2, 4), &[2, 1, 1, 1, 1], &[]);
    stream.check("A (2,5,2), a region of 2", &of(2, 3), &[2, 1, 2, 1], &[]);
}

fn rows(stream: &mut Stream) {
    let paper = unassigned(&[(2, 5, 6), B]).0;
    let two = two_jobs().0;
    let only = unassigned(&[(2, 5, 4), B]).0;
    let none = unassigned(&[(2, 5, 1), B]).0;
    let most = 1_000_000;
    stream.first_row("A (2,5,6), B (4,10,10)", 4, &paper);
    stream.first_row("room for more", 6, &paper);
    stream.first_row("A (2,5,5): two rows", 4, &two);
    stream.first_row("A (2,5,4): the only row", 4, &only);
    stream.first_row("A (2,5,1): no row", 4, &none);
    let over = unassigned(&[(3, 2, 2)]).0;
    stream.first_row("one task (3,2,2)", 2, &over);
    let largest = unassigned(&[(most, most, most)]).0;
    stream.first_row("one task of 1,000,000", 2, &largest);
    stream.first_row("fifteen tasks", 30, &fifteen_jobs().0);
    stream.first_row("fifteen light tasks", 31, &fifteen_light_jobs());
    stream.first_row("the same, room for 29", 29, &fifteen_light_jobs());
    for (what, table) in wrong_n_alone() {
        stream.first_row(what, 32, &table);
    }
    let ignored = &bad_assignments()[0].1;
    stream.first_row("the table's assignment is ignored", 4, ignored);
    stream.first_row("room for one number less", 3, &paper);
    stream.first_row("no room, and no row", 0, &none);
    for (what, table) in out_of_range_tables() {
        stream.first_row(what, 4, &table);
    }
    first_rows_late(stream);
    stream.next_row("after the first", 4, &paper, &[1, 2, 1, 1]);
    stream.next_row("to another order", 4, &paper, &[1, 2, 1, 2]);
    stream.next_row("after the third", 4, &paper, &[2, 1, 1, 1]);
    stream.next_row("after the last", 5, &paper, &[2, 1, 2, 1]);
    stream.next_row("after the first of two", 4, &two, &[1, 2, 1, 1]);
    stream.next_row("after the second of two", 4, &two, &[1, 2, 1, 2]);
    stream.next_row("from a row that fails", 5, &only, &[1, 2, 1, 1]);
    stream.next_row("after the only row", 4, &only, &[1, 2, 1, 2]);
    later_jobs_in_rows(stream);
    next_rows_of_fifteen(stream);
    stream.next_row("room for one number less", 3, &paper, &[1, 2, 1, 1]);
    stream.next_row("the same, at the end", 3, &paper, &[2, 1, 2, 1]);
    for (what, row) in BAD_ROWS {
        stream.next_row(what, 4, &paper, row);
    }
    stream.next_row("no room and a bad row", 3, &paper, &[1, 2]);
    for (what, table) in out_of_range_tables() {
        stream.next_row(what, 4, &table, &[1, 2, 1, 1]);
    }
    next_rows_late(stream);
}

/// Document 02, item 8: the widened table is what the rows are tried on.
fn first_rows_late(stream: &mut Stream) {
    for (what, table) in jitter_tables() {
        stream.first_row(what, 4, &table);
    }
    for (what, table) in in_time_and_late() {
        stream.first_row(what, 4, &table);
    }
    for (what, table) in beyond_by_jitter() {
        stream.first_row(what, 4, &table);
    }
    let light = fifteen_light_jobs_late();
    stream.first_row("fifteen light tasks with jitters", 30, &light);
    stream.first_row("jitter T, no room", 0, &two_jobs_late(5, 0));
    stream.first_row("jitter 1, no room", 0, &two_jobs_late(1, 0));
}

/// The same, from a row on.
fn next_rows_late(stream: &mut Stream) {
    let first = [1, 2, 1, 1];
    for (what, table) in jitter_tables() {
        stream.next_row(what, 4, &table, &first);
    }
    for (what, table) in in_time_and_late() {
        stream.next_row(what, 4, &table, &first);
    }
    let paper = |jitter| late(&[(2, 5, 6, jitter), (4, 10, 10, 0)], &[1, 2]).0;
    for (what, jitter) in [("jitter 0", 0), ("jitter 1", 1)] {
        let what = format!("A (2,5,6), {what}, to another order");
        stream.next_row(&what, 4, &paper(jitter), &[1, 2, 1, 2]);
    }
    let light = fifteen_light_jobs_late();
    let middle = [8, 15, 1, 7, 14, 2, 6, 13, 3, 5, 12, 4, 11, 9, 10];
    let row = [middle, [1; 15]].concat();
    stream.next_row("fifteen light tasks with jitters", 30, &light, &row);
    let late = two_jobs_late(5, 0);
    stream.next_row("jitter T, no room", 0, &late, &first);
    stream.next_row("jitter T, a bad row", 4, &late, &[1, 1, 1, 1]);
    let taken = two_jobs_late(1, 0);
    stream.next_row("jitter 1, no room", 0, &taken, &first);
    stream.next_row("jitter 1, a bad row", 4, &taken, &[1, 1, 1, 1]);
}

/// Rows in which a later job is the worst: it is in time, or it alone is late.
fn later_jobs_in_rows(stream: &mut Stream) {
    for (what, table) in [
        ("a row whose last job is the worst", last_of_two(6).0),
        ("the same, that job alone late", last_of_two(5).0),
    ] {
        stream.first_row(what, 6, &table);
    }
    for (what, table) in [
        (
            "to a row whose later job is the worst",
            cut_by_one(6, true).0,
        ),
        ("the same, that job alone late", cut_by_one(5, true).0),
        ("the same, the first late too", cut_by_one(4, true).0),
    ] {
        stream.next_row(what, 4, &table, &[1, 2, 1, 1]);
    }
    let mut before: Vec<u8> = (1..=15).chain(1..=15).collect();
    before[29] = 14;
    let what = "to a row of fifteen with a later job";
    stream.next_row(what, 30, &later_of_fifteen(84).0, &before);
}

/// Near the first row of all, in the middle, and at the end, of tasks that pass in every row.
fn next_rows_of_fifteen(stream: &mut Stream) {
    let light = fifteen_light_jobs();
    let row = |order: [u8; 15], thresholds: [u8; 15]| [order, thresholds].concat();
    let rising = [1, 2, 3, 4, 5, 6, 7, 8, 9, 10, 11, 12, 13, 14, 15];
    let falling = [15, 14, 13, 12, 11, 10, 9, 8, 7, 6, 5, 4, 3, 2, 1];
    let middle = [8, 15, 1, 7, 14, 2, 6, 13, 3, 5, 12, 4, 11, 9, 10];
    let some = [3, 5, 8, 12, 9, 1, 2, 1, 14, 15, 13, 10, 7, 5, 2];
    let before_last = [15, 14, 13, 12, 11, 10, 9, 8, 7, 6, 5, 4, 3, 1, 1];
    let rising_but = |place: usize, number: u8| {
        let mut numbers = rising;
        numbers[place] = number;
        numbers
    };
    for (what, row) in [
        ("the first row of fifteen", row(rising, [1; 15])),
        ("the last row of an order of fifteen", row(rising, rising)),
        ("a row in the middle of fifteen", row(middle, some)),
        ("the last row but one of fifteen", row(falling, before_last)),
        ("the last row of fifteen", row(falling, falling)),
        ("record 16 of fifteen", row(rising_but(14, 16), [1; 15])),
        (
            "threshold 15 of priority 14",
            row(rising, rising_but(13, 15)),
        ),
        ("threshold 16 of fifteen", row(rising, rising_but(14, 16))),
        ("29 numbers of fifteen", row(rising, [1; 15])[..29].to_vec()),
    ] {
        stream.next_row(what, 30, &light, &row);
    }
    stream.next_row("room for 29", 29, &light, &row(rising, rising));
    for (what, table) in wrong_n_alone() {
        stream.next_row(what, 32, &table, &row(rising, rising));
    }
}

const BAD_ROWS: [(&str, &[u8]); 9] = [
    ("no number", &[]),
    ("one number less", &[1, 2, 1]),
    ("one number more", &[1, 2, 1, 1, 1]),
    ("a record twice", &[1, 1, 1, 1]),
    ("record 0", &[0, 1, 1, 1]),
    ("record 3 of two", &[1, 3, 1, 1]),
    ("a threshold of 0 in the row", &[1, 2, 0, 1]),
    ("threshold 2 of priority 1", &[1, 2, 2, 1]),
    ("threshold 3 of two", &[1, 2, 1, 3]),
];

fn records(stream: &mut Stream) {
    let edition = stream.edition;
    let file = two_jobs_file(edition);
    stream.record("record 1", 1, &[], &file);
    stream.record("record 2", 2, &[], &file);
    stream.record("record 0", 0, &[], &file);
    stream.record("record 3 of two", 3, &[], &file);
    stream.record("record 65,535", 65_535, &[], &file);
    let fifteen = fifteen_jobs_file(edition);
    stream.record("record 15 of fifteen", 15, &[], &fifteen);
    stream.record("record 16 of fifteen", 16, &[], &fifteen);
    let (table, own) = two_jobs_in(edition);
    let of_catalogue = file_in(edition, &lent(&table, 0, 0), &own, &[2]);
    stream.record("regions in the catalogue", 1, &[2], &of_catalogue);
    stream.record("the same, another catalogue", 1, &[3], &of_catalogue);
    stream.files(9, 1);
    let (what, plate, file) = blanked(edition, ALL_BLANK, beside("no such record"));
    stream.add_reading(9, &what, read_body(plate, 3, &[], &file));
    let other_line = other_line_file(edition);
    stream.record("no such record of another line", 9, &[], &other_line);
}

fn regions(stream: &mut Stream) {
    let (table, own) = two_jobs();
    let nines = [9, 9, 9];
    stream.regions("one own word", 1, &table, &own, &nines);
    stream.regions("two own words", 2, &table, &own, &nines);
    let from_catalogue = lent(&table, 1, 1);
    stream.regions(
        "two of the catalogue",
        2,
        &from_catalogue,
        &nines,
        &[0, 3, 1],
    );
    let mut far = lent(&table, 1, 127);
    (far.records[1].count, far.records[1].cost) = (127, 127);
    stream.regions("127 words from word 127 on", 2, &far, &[], &[1; 254]);
    let other = record_changed(0, |record| record.cost = 7);
    stream.regions("another record is bad", 2, &other, &[0, 3, 1], &[]);
    stream.regions("record 0", 0, &table, &own, &[]);
    stream.regions("record 3 of two", 3, &table, &own, &[]);
    stream.regions("101 words", 1, &table, &[2; 101], &[]);
    let (fifteen, words) = fifteen_jobs();
    stream.regions("record 15 of fifteen", 15, &fifteen, &words, &[]);
    stream.regions("record 16 of fifteen", 16, &fifteen, &words, &[]);
    for (what, table) in wrong_n_alone() {
        stream.regions(what, 1, &table, &words, &[]);
    }
    for n in [0, 16] {
        let table = changed(|table| table.n = n);
        stream.regions("n out of range", 1, &table, &own, &[]);
    }
    for (what, k, change) in BAD_REGIONS {
        let table = record_changed(k, change);
        stream.regions(what, k as u32 + 1, &table, &own, &[]);
    }
    let first = lent(&table, 1, 128);
    stream.regions("first region 128", 2, &first, &[], &[2; 254]);
    let mut count = lent(&table, 1, 0);
    (count.records[1].count, count.records[1].cost) = (128, 128);
    stream.regions("count 128", 2, &count, &[], &[1; 254]);
    stream.regions("a region word of 0", 2, &table, &[2, 4, 0], &[]);
    let large = [1_000_001, 3, 1];
    stream.regions("a region word of 1,000,001", 1, &table, &large, &[]);
    let bad = &tables(&BAD_REGIONS)[0].1;
    stream.regions("no such record, and bad regions", 3, bad, &own, &[]);
    // This call asks nothing of a jitter.
    for (what, table) in tables(&JITTERS) {
        stream.regions(what, 2, &table, &own, &[]);
    }
}

fn names(stream: &mut Stream) {
    let cabinet = name_list(&["gate scan", "output test", "", "sixteen letters!"]);
    let house = name_list(&["drive talk", " lamp"]);
    let long = name_list(&["x"; 64]);
    stream.name("the cabinet's first", 0, &cabinet, &house);
    stream.name("an entry of spaces", 2, &cabinet, &house);
    stream.name("an entry without spaces", 3, &cabinet, &house);
    stream.name("the cabinet's last", 63, &long, &house);
    stream.name("the house's first", 64, &cabinet, &house);
    stream.name("a space in front stays", 65, &cabinet, &house);
    stream.name("the house's last", 127, &cabinet, &long);
    stream.name("behind the cabinet's list", 4, &cabinet, &house);
    stream.name("behind the house's list", 66, &cabinet, &house);
    stream.name("an entry cut short", 3, &cabinet[..63], &house);
    stream.name("an empty list", 0, &[], &house);
    stream.name("name number 128", 128, &long, &long);
    stream.name("name number 65,535", 65_535, &long, &long);
}

fn name_list(names: &[&str]) -> Vec<u8> {
    let entries: Vec<String> = names.iter().map(|name| format!("{name:16}")).collect();
    entries.concat().into_bytes()
}

// ---- the table of refusals

/// docs/REFUSALS.md: which line of the stream reaches which number of which call.
pub fn refusals() -> String {
    let cases = all();
    let mut text = String::from(
        "# Which case reaches which refusal\n\n\
         The lines of `crates/ask/stdin`, a stream of requests, and of `crates/ask/stdout`, its \
         answers: line k answers request k. Both and this page are written by the second program \
         (`second cases`, `second ask`, `second refusals`); `tools/make-cases` makes them anew. \
         Document 01, \"Numbers a turned-away call returns\", lists the numbers that each call asks. \
         Document 02 adds 18 in item 1, in item 8 the writing's 19 and the tolerances' 16, and in item 9 the \
         writing's 2. They stand here \
         in the order in which a call asks them, so that the first that applies is the one it gives: mostly the \
         lowest, but 18 is asked straight after 2 in reading and straight after 5 in writing, 19 between 11 and \
         12 in writing, and 13 before 11 for a record's regions and for the last of them.\n\n\
         2 is an edition that is neither 1 nor 2: the one that stands in a file's head, or the one that the writer \
         is told, which is asked first of all. `write` is told none and writes edition 1, so it can't give 2. 19, a \
         jitter that isn't 0, is asked of edition 1 alone: edition 2 has a place for it. 6 and 8 read the edition, \
         as length and spare bits are its own; 1 doesn't, and is a file under 22 bytes in both.\n\n\
         `last region` and `fixed preemption points` are the calls of document 02, item 2. They ask what `regions` \
         and `region check` ask, in the same order. `unshown` is no refusal, and doesn't say that the task is late: \
         the test is sufficient only, and doesn't show of this task that it passes.\n\n\
         ## By call and number\n\n\
         | call | number | lines |\n|---|---|---|\n",
    );
    for (kind, call, numbers) in CALLS {
        for number in numbers {
            let lines = lines_of(&cases, kind, Some(*number));
            let _ = writeln!(text, "| {call} | {number} | {lines} |");
        }
        let lines = lines_of(&cases, kind, None);
        let _ = writeln!(text, "| {call} | not turned away | {lines} |");
    }
    text += "\n## By line\n\n| line | call | answer | case |\n|---|---|---|---|\n";
    for (place, case) in cases.iter().enumerate() {
        let call = place_of(case.kind).map_or("", |place| CALLS[place].1);
        let answer = shortened(&case.answer());
        let _ = writeln!(
            text,
            "| {} | {call} | `{answer}` | {} |",
            place + 1,
            case.what
        );
    }
    let last = cases.len() + 1;
    let _ = writeln!(text, "| {last} | | `bad request` | kind {NO_KIND} |");
    text
}

/// The lines of a kind that this number turns away, or that nothing does.
fn lines_of(cases: &[Case], kind: u8, number: Option<u8>) -> String {
    let lines: Vec<String> = cases
        .iter()
        .enumerate()
        .filter(|(_, case)| case.kind == kind && case.refusal() == number)
        .map(|(place, _)| (place + 1).to_string())
        .collect();
    lines.join(" ")
}

/// The answer without the memory that was lent, and cut where it is long.
fn shortened(answer: &str) -> String {
    let said = answer.split(" out").next().unwrap_or(answer);
    match said.char_indices().nth(40) {
        Some((end, _)) => format!("{}..", &said[..end]),
        None => said.to_string(),
    }
}

// ---- cases in a file each

/// Writes FOLDER/PROGRAM/NAME.in for each program.
pub fn small(folder: &str) -> io::Result<()> {
    for (program, inputs) in [
        ("ask", ask_streams()),
        ("list", list_inputs()),
        ("show", show_inputs()),
    ] {
        std::fs::create_dir_all(format!("{folder}/{program}"))?;
        for (name, input) in inputs {
            let name = name.replace(", ", " ").replace([' ', ',', '\''], "-");
            std::fs::write(format!("{folder}/{program}/{name}.in"), input)?;
        }
    }
    Ok(())
}

/// Streams that end in a bad request, or before the first.
fn ask_streams() -> Vec<(String, Vec<u8>)> {
    let good = request(3, &table_body(&two_jobs().0));
    let left_over = [table_body(&two_jobs().0), vec![0]].concat();
    let mut count = name_body(0, b"gate", &[]);
    *count.last_mut().expect("a count") = 1;
    let longest = name_body(0, &[b'x'; 4090], &[]);
    let too_long = name_body(0, &[b'x'; 4091], &[]);
    let no_kind = format!("kind {NO_KIND}");
    let (table, own) = two_jobs();
    let written = write_body(PLATE, 48, &table, &own, &[]);
    let mut checked = table_body(&table);
    put_words(&mut checked, &own);
    put_words(&mut checked, &[]);
    let numbered = [&[0, 1], &checked[..]].concat();
    let mut list = vec![
        ("empty".to_string(), vec![]),
        ("one".to_string(), good.clone()),
    ];
    for (name, tail) in [
        ("kind 0", request(0, &[])),
        (&no_kind, request(NO_KIND, &[])),
        ("body empty", request(3, &[])),
        ("head of 1", vec![3]),
        ("head of 2", vec![3, 1]),
        ("body cut", good[..good.len() - 1].to_vec()),
        ("bytes left over", request(3, &left_over)),
        ("count too large", request(11, &count)),
        ("body longest", request(11, &longest)),
        ("body too long", request(11, &too_long)),
        ("bad before good", [request(0, &[]), good.clone()].concat()),
        ("edition missing", request(14, &written)),
        ("edition alone", request(14, &[2])),
        (
            "edition before kind 2",
            request(2, &[&[1], &written[..]].concat()),
        ),
        ("record number missing", request(12, &checked)),
        ("record number alone", request(12, &[0, 1])),
        ("record number before kind 13", request(13, &numbered)),
    ] {
        list.push((name.to_string(), [&good[..], &tail].concat()));
    }
    list
}

/// Plates and files for the listing's program.
fn list_inputs() -> Vec<(String, Vec<u8>)> {
    let input = |tasks: &[(u32, u32, u32)]| {
        let (table, own) = unassigned(tasks);
        plated(PLATE, &file_of(&table, &own, &[]))
    };
    let most = 1_000_000;
    let paper = input(&[(2, 5, 6), B]);
    let mut list = Vec::new();
    for (name, input) in [
        ("paper", paper.clone()),
        ("two rows", input(&[A, B])),
        ("only row", input(&[(2, 5, 4), B])),
        ("no row", input(&[(2, 5, 1), B])),
        ("one task", input(&[(3, 5, 4)])),
        ("one task beyond", input(&[(3, 2, 2)])),
        ("one task largest", input(&[(most, most, most)])),
        (
            "three tasks",
            input(&[(1, 10, 10), (9, 35, 35), (52, 105, 105)]),
        ),
        (
            "four tasks",
            input(&[(1, 7, 7), (8, 23, 23), (10, 25, 25), (3, 33, 33)]),
        ),
        (
            "four tasks with all rows",
            input(&[(1, 40, 40), (2, 40, 40), (3, 40, 40), (4, 40, 40)]),
        ),
        ("deadline above period", input(&[(3, 6, 20), (4, 9, 20)])),
        ("cost above deadline", input(&[(3, 10, 2), (1, 10, 10)])),
        ("later job in time", input(&[(3, 6, 6), (2, 4, 6)])),
        ("later job late", input(&[(3, 6, 6), (2, 4, 5)])),
        (
            "last job in time",
            input(&[(2, 4, 4), (1, 7, 7), (2, 6, 6)]),
        ),
        ("last job late", input(&[(2, 4, 4), (1, 7, 7), (2, 6, 5)])),
        ("assigned", plated(PLATE, &two_jobs_file(Edition::One))),
        ("empty", vec![]),
        ("four bytes", paper[..4].to_vec()),
        ("plate alone", paper[..5].to_vec()),
        (
            "just 512",
            [&paper[..], &vec![0; 512 - paper.len()]].concat(),
        ),
        ("longer than 512", [&paper[..], &[0; 600]].concat()),
    ] {
        list.push((name.to_string(), input));
    }
    for (what, plate, file) in nearly_blank_files(Edition::One) {
        list.push((what, plated(plate, &file)));
    }
    for (what, plate, file) in turned_away_files(Edition::One) {
        // No plate on the input is above 24 bits.
        if plate.cabinet <= MOST_CABINET {
            list.push((format!("refused {what}"), plated(plate, &file)));
        }
    }
    list.extend(list_inputs_of_edition_2());
    list
}

/// Plates and files for the program that shows a cabinet. What it is to print of each was written
/// by hand, from the answers of `ask`.
fn show_inputs() -> Vec<(String, Vec<u8>)> {
    let input = |(table, own): (Table, Vec<u32>)| plated(PLATE, &file_of(&table, &own, &[]));
    let most = 1_000_000;
    let order = [(1, 1), (2, 2)];
    let full = (600_000, most, most);
    // It tolerates 2 ticks, so B may run for 3.
    let short = (2, 5, 4);
    let mut list = Vec::new();
    for (name, input) in [
        ("unassigned", input(unassigned(&[(2, 5, 6), B]))),
        ("all well", plated(PLATE, &two_jobs_file(Edition::One))),
        ("region too long", input(assigned(&[short, B], &order))),
        ("region just as long", input(three_and_one(short))),
        (
            "deadline above period",
            input(assigned(&[(2, 5, 6), B], &order)),
        ),
        (
            "tolerance below zero",
            input(assigned(&[(2, 5, 1), B], &order)),
        ),
        (
            "late and too long",
            input(assigned(&[short, B], &[(1, 1), (2, 1)])),
        ),
        ("beyond", input(assigned(&[full, full], &order))),
        ("largest", input(assigned(&[(most, most, most)], &[(1, 1)]))),
        ("eight jobs", input(eight_jobs())),
        ("later job in time", input(cut_by_one(6, true))),
        ("later job late", input(cut_by_one(5, true))),
        ("later and first job late", input(cut_by_one(4, true))),
        ("first job alone late", input(cut_by_one(4, false))),
        ("last job in time", input(last_of_two(6))),
        ("last job late", input(last_of_two(5))),
        ("first and later job alike", input(first_and_later())),
        ("two later jobs alike", input(two_later())),
        ("later jobs of two", input(later_of_two(30))),
        ("later jobs of two late", input(later_of_two(26))),
        ("beyond beside later", input(beyond_beside_later())),
        ("later of fifteen", input(later_of_fifteen(84))),
        ("later of fifteen late", input(later_of_fifteen(83))),
        ("later far behind", input(far_behind())),
        (
            "later unassigned",
            input(unassigned(&[(3, 6, 6), (2, 4, 6)])),
        ),
        (
            "another line",
            plated(PLATE, &other_line_file(Edition::One)),
        ),
        (
            "damaged",
            plated(PLATE, &flipped(&two_jobs_file(Edition::One), 10)),
        ),
        ("plate alone", plated(PLATE, &[])),
        ("four bytes", plated(PLATE, &[])[..4].to_vec()),
    ] {
        list.push((name.to_string(), input));
    }
    for blank in [BLANK_FILE, BLANK_PLATE, ALL_BLANK] {
        let (name, plate, file) = blanked(Edition::One, blank, beside(""));
        list.push((name, plated(plate, &file)));
    }
    for fault in BESIDE_ZEROS {
        // Of the numbers behind 18 one is enough here.
        if [1, 2, 5].contains(&fault.0) {
            let (name, plate, file) = blanked(Edition::One, ALL_BLANK, fault);
            list.push((name, plated(plate, &file)));
        }
    }
    list.extend(show_inputs_of_edition_2());
    list.extend(show_inputs_of_points());
    list
}

/// Each call is turned away by every number that it asks, and by no other.
#[test]
fn every_refusal_is_reached() {
    let cases = all();
    for (kind, call, numbers) in CALLS {
        for number in 1..=19 {
            let lines = lines_of(&cases, kind, Some(number));
            assert_eq!(
                lines.is_empty(),
                !numbers.contains(&number),
                "{call} {number}"
            );
        }
        assert!(!lines_of(&cases, kind, None).is_empty(), "{call}");
    }
}
