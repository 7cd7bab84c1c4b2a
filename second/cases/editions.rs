//! The stored requests of document 02, item 9: what is asked of files of edition 1 is asked of
//! edition 2, and the writer is told the edition. They stand behind all others.

use super::*;
use Edition::{One, Two};

pub fn editions(stream: &mut Stream) {
    heads(stream);
    stream.edition = Two;
    reading(stream);
    records(stream);
    tails(stream);
    numbers_told(stream);
    for edition in Edition::BOTH {
        stream.told = Some(edition);
        writing(stream);
        writing_more(stream);
    }
    rooms_of_the_other(stream);
    for edition in Edition::BOTH {
        (stream.edition, stream.told) = (edition, Some(edition));
        written_again(stream, edition);
    }
}

impl Stream {
    /// Asks both calls that read a file: with room for 100 words, and for record 1.
    fn both(&mut self, what: &str, lent: &[u32], file: &[u8]) {
        self.read(what, 100, lent, file);
        self.record(what, 1, lent, file);
    }
}

/// Heads that don't fit what stands behind them.
fn heads(stream: &mut Stream) {
    for (what, file) in odd_heads() {
        stream.both(&what, &[], &file);
    }
}

/// Numbers of no edition, of which some have bits of 1 or 2, over the records of either, behind those
/// that stand among the wrong files of edition 1; and as many bytes of records as the other edition
/// has for another n.
fn odd_heads() -> Vec<(String, Vec<u8>)> {
    let mut list = Vec::new();
    for (edition, others) in [(One, &[3, 9, 10, 15][..]), (Two, &[0, 1, 3, 9, 10, 15])] {
        let number = edition.number();
        for other in others.iter().copied() {
            let file = field_changed(edition, said("", other));
            let what = format!("edition {other} over records of edition {number}");
            list.push((what, file));
        }
    }
    for (edition, n, other, of) in [(One, 5, 2, 4), (Two, 4, 1, 5)] {
        let file = file_in(edition, &alike(n), &[1], &[]);
        let file = changed_file(edition, n as usize, file, said("", other));
        let wrong = format!("{n} records said to be of edition {other}");
        list.push((wrong, file.clone()));
        let file = changed_file(edition, n as usize, file, ("", At::Head(N_AT), 8, of));
        list.push((
            format!("{n} records said to be {of} of edition {other}"),
            file,
        ));
    }
    list
}

/// So many tasks that all name the one region word there is, unassigned.
fn alike(n: u8) -> Table {
    let mut table = Table {
        n,
        ..Table::default()
    };
    for record in &mut table.records[..n as usize] {
        (record.cost, record.period, record.deadline, record.count) = (1, 10, 10, 1);
    }
    table
}

// ---- a record's tail

/// Where the jitter stands in a record of edition 2, and how wide it is.
const JITTER_AT: usize = file::USED_BITS;
const JITTER_BITS: usize = 20;

/// Jitters and spare bits of edition 2, bit by bit and at their limits.
fn tails(stream: &mut Stream) {
    for (what, file) in short_files() {
        stream.both(&what, &[1], &file);
    }
    let (table, own) = two_jobs();
    stream.both("no jitter", &[], &file_in(Two, &table, &own, &[]));
    for (what, file) in jitter_files() {
        stream.both(&what, &[], &file);
    }
    for bit in 0..JITTER_BITS {
        let file = long_period_file(1 << bit);
        stream.both(&format!("jitter 2^{bit}"), &[], &file);
    }
    for (what, bit) in spare_bits() {
        let file = field_changed(Two, ("", At::Head(bit), 1, 1));
        stream.both(&what, &[], &file);
    }
    for (what, fields) in BESIDE_JITTER_T {
        let wrong = fields.iter().fold(jitter_t_file(), |file, field| {
            changed_file(Two, 2, file, *field)
        });
        stream.both(what, &[], &wrong);
    }
    stream.both(
        "jitter T, a wrong seal",
        &[],
        &flipped(&jitter_t_file(), 10),
    );
    let (table, own, catalogue) = largest_fields(999_999);
    let file = file_in(Two, &table, &own, &catalogue);
    stream.read("each field at its largest", 15, &catalogue, &file);
    stream.record("each field at its largest", 15, &catalogue, &file);
}

/// The shortest file of edition 2, for a catalogue of 1, has 25 bytes: cut, it is under 22 or not.
fn short_files() -> Vec<(String, Vec<u8>)> {
    let (one, _) = unassigned(&[(1, 1, 1)]);
    let file = file_in(Two, &lent(&one, 0, 0), &[], &[1]);
    let cut = |length: usize| {
        let mut bytes = file.clone();
        bytes.resize(length, 0);
        seal_again(&mut bytes);
        (format!("{length} bytes of 25"), bytes)
    };
    [7, 8, 21, 22, 23, 24, 26].map(cut).to_vec()
}

/// This jitter in the place of the one of the record at this place.
const fn jitter(what: &'static str, k: usize, jitter: u32) -> Field {
    (what, At::Record(k, JITTER_AT), JITTER_BITS, jitter)
}

/// Jitters of the two jobs at the edges of their range, as the file can say them. The periods are 5
/// and 10.
const FILE_JITTERS: [Field; 12] = [
    jitter("jitter 0", 0, 0),
    jitter("jitter 1", 0, 1),
    jitter("jitter below T", 0, 4),
    jitter("jitter T", 0, 5),
    jitter("jitter above T", 0, 6),
    jitter("jitter 524,288", 0, 1 << 19),
    jitter("jitter 1,048,575", 0, (1 << 20) - 1),
    jitter("the second's jitter 0", 1, 0),
    jitter("the second's jitter below T", 1, 9),
    jitter("the second's jitter T", 1, 10),
    jitter("the second's jitter 1,000,000", 1, 1_000_000),
    jitter("the second's jitter 1,048,575", 1, (1 << 20) - 1),
];

/// Files with these jitters, and some of the longest period and of the shortest.
fn jitter_files() -> Vec<(String, Vec<u8>)> {
    let mut list = Vec::new();
    for field in FILE_JITTERS {
        list.push((field.0.to_string(), field_changed(Two, field)));
    }
    for (late, ticks) in [
        ("999,999", 999_999),
        ("1,000,000", 1_000_000),
        ("1,000,001", 1_000_001),
        ("1,048,575", 1_048_575),
    ] {
        let field = jitter("", 1, ticks);
        let file = changed_file(Two, 2, long_period_file(0), field);
        list.push((format!("jitter {late} of the longest period"), file));
    }
    let (one, word) = unassigned(&[(1, 1, 1)]);
    for late in [0, 1] {
        let file = file_in(Two, &one, &word, &[]);
        let file = changed_file(Two, 1, file, jitter("", 0, late));
        list.push((format!("jitter {late} of period 1"), file));
    }
    let last = field_of_fifteen_changed(Two, jitter("", 14, 600));
    list.push(("the fifteenth's jitter T".to_string(), last));
    list
}

/// The two jobs, the second of the longest period and with this jitter.
fn long_period_file(jitter: u32) -> Vec<u8> {
    let (mut table, own) = two_jobs();
    let record = &mut table.records[1];
    (record.period, record.deadline, record.jitter) = (1_000_000, 1_000_000, jitter);
    file_in(Two, &table, &own, &[])
}

/// Each bit of the two jobs' file that is spare: of the head, of the records, and behind the words.
fn spare_bits() -> Vec<(String, usize)> {
    let mut list = Vec::new();
    for bit in 0..4 {
        list.push((format!("the head's spare bit {}", bit + 1), 4 + bit));
    }
    for k in 0..2 {
        for bit in 0..Two.spare_bits() {
            let at = At::FirstSpare(k).bit(Two, 2) + bit;
            list.push((format!("spare bit {} of record {}", bit + 1, k + 1), at));
        }
    }
    for bit in 0..4 {
        let at = At::Words(60 + bit).bit(Two, 2);
        list.push((format!("filler bit {}", bit + 1), at));
    }
    list
}

fn jitter_t_file() -> Vec<u8> {
    field_changed(Two, jitter("", 1, 10))
}

/// What is asked before a jitter of T, which is 9, and what behind it.
const BESIDE_JITTER_T: [(&str, &[Field]); 5] = [
    ("jitter T, n is 16", &[("", At::Head(N_AT), 8, 16)]),
    ("jitter T, edition 1", &[said("", 1)]),
    ("jitter T, a spare bit", &[("", At::LastSpare(1), 1, 1)]),
    (
        "jitter T, priorities 2 and 2",
        &[("", At::Record(0, 60), 4, 2)],
    ),
    ("jitter T, count 0", &[("", At::Record(0, 76), 7, 0)]),
];

/// Fifteen tasks, of which the last has each of its fields as large as it may be, the jitter too,
/// unless another is given; with their own words and the catalogue.
fn largest_fields(jitter: u32) -> (Table, Vec<u32>, Vec<u32>) {
    let (mut table, own) = fifteen_jobs();
    table.records[14] = Record {
        cost: MOST_TICKS,
        period: MOST_TICKS,
        deadline: MOST_TICKS,
        priority: 15,
        threshold: 15,
        source: Source::Catalogue,
        first: MOST_REGION_PLACE,
        count: MOST_REGION_PLACE,
        name: MOST_NAME_NUMBER,
        jitter,
    };
    // 126 times 7,874 and 7,876 are a million.
    let catalogue = [vec![1; 127], vec![7_874; 126], vec![7_876]].concat();
    (table, own, catalogue)
}

// ---- what the writer is told

/// Every number that can be told. Anything but 1 and 2 is refusal 2, whatever else is wrong; some have
/// the low four bits of 1 or 2.
fn numbers_told(stream: &mut Stream) {
    let (table, own) = two_jobs();
    for edition in 0..=255 {
        let body = write_body(PLATE, 48, &table, &own, &[]);
        stream.write_told(edition, "two jobs", body);
    }
    for edition in [0, 3, 17, 255] {
        for (what, body) in wrong_writings() {
            stream.write_told(edition, what, body);
        }
    }
}

/// Bodies that kind 2 turns away, by each number that it asks, and by all of them.
fn wrong_writings() -> Vec<(&'static str, Vec<u8>)> {
    let (table, own) = two_jobs();
    let of = |table: &Table| write_body(PLATE, 48, table, &own, &[]);
    let first = |changes: &[Change]| of(&tables(changes)[0].1);
    let everything = changed(|table| {
        (table.n, table.records[0].cost) = (16, 0);
        (table.records[0].priority, table.records[1].jitter) = (2, 1);
    });
    vec![
        ("n is 16", of(&changed(|table| table.n = 16))),
        ("101 words", write_body(PLATE, 500, &table, &[1; 101], &[])),
        (
            "a blank plate",
            write_body(plate(0, 0), 48, &table, &own, &[]),
        ),
        (
            "cabinet 25 bits",
            write_body(plate(1 << 24, 12), 48, &table, &own, &[]),
        ),
        ("cost 0", first(&OUT_OF_RANGE)),
        ("jitter T", of(&two_jobs_late(5, 0))),
        ("a priority of 0", first(&BAD_ASSIGNMENTS)),
        ("count 0", first(&BAD_REGIONS)),
        ("a jitter", of(&two_jobs_late(0, 1))),
        ("no room", write_body(PLATE, 0, &table, &own, &[])),
        (
            "everything else wrong",
            write_body(plate(0, 0), 0, &everything, &[0; 101], &[]),
        ),
    ]
}

/// Behind what kind 2 is asked too: the smallest and the largest n and m, and jitters of every bit.
fn writing_more(stream: &mut Stream) {
    let (one, _) = unassigned(&[(1, 1, 1)]);
    let of_catalogue = lent(&one, 0, 0);
    stream.write_on(PLATE, "one task, no word", 22, &of_catalogue, (&[], &[1]));
    stream.write_on(
        PLATE,
        "the same, a byte less",
        21,
        &of_catalogue,
        (&[], &[1]),
    );
    stream.write("one task, 99 words", 270, &one, &[1; 99]);
    stream.write("one task, 100 words", 272, &one, &[1; 100]);
    let mut fifteen = alike(15);
    for record in &mut fifteen.records {
        record.source = Source::Catalogue;
    }
    stream.write_on(PLATE, "fifteen tasks, no word", 190, &fifteen, (&[], &[1]));
    let (late, mut words) = fifteen_jobs_in(Two);
    stream.write("fifteen tasks, each jitter T - 1", 228, &late, &words);
    words.resize(99, 1);
    stream.write("the same, 99 words", 438, &late, &words);
    words.resize(100, 1_000_000);
    stream.write("the same, 100 words", 440, &late, &words);
    stream.write("the same, a byte less", 439, &late, &words);
    for (what, jitter) in [
        ("each field at its largest, no jitter", 0),
        ("each field at its largest", 999_999),
        ("each field at its largest, jitter 1,000,000", 1_000_000),
    ] {
        let (table, own, catalogue) = largest_fields(jitter);
        stream.write_on(PLATE, what, 228, &table, (&own, &catalogue));
    }
    for bit in 0..32 {
        let (mut table, own) = two_jobs();
        let record = &mut table.records[0];
        (record.period, record.deadline, record.jitter) = (1_000_000, 1_000_000, 1 << bit);
        stream.write(&format!("jitter 2^{bit}"), 42, &table, &own);
    }
    let cut_off = record_changed(0, |record| record.jitter = (1 << 20) + 1);
    stream.write("jitter 2^20 + 1", 42, &cut_off, &two_jobs().1);
}

/// Room for the two jobs' file of one edition while the other is written, and sizes between them.
fn rooms_of_the_other(stream: &mut Stream) {
    let (table, own) = two_jobs();
    for edition in [1, 2] {
        for room in [42, 47, 48] {
            let body = write_body(PLATE, room, &table, &own, &[]);
            stream.write_told(edition, &format!("room {room}"), body);
        }
    }
    for room in [42, 47, 48] {
        let body = write_body(PLATE, room, &two_jobs_late(3, 1), &own, &[]);
        stream.write_told(2, &format!("jitters, room {room}"), body);
    }
}

/// Files that read, each followed by its table as it was read, written again.
fn written_again(stream: &mut Stream, edition: Edition) {
    let (one, _) = unassigned(&[(1, 1, 1)]);
    let (fifteen, mut words) = fifteen_jobs_in(edition);
    words.resize(100, 7);
    let (two, own) = two_jobs_in(edition);
    for (what, table, own, lent) in [
        ("two jobs", two, own, vec![]),
        ("one task, no word", lent(&one, 0, 0), vec![], vec![1]),
        ("fifteen tasks, 100 words", fifteen, words, vec![]),
    ] {
        let file = file_in(edition, &table, &own, &lent);
        let room = own.len() as u32;
        stream.read(&format!("{what}, to be written again"), room, &lent, &file);
        let mut own = vec![0; own.len()];
        let (_, table) = file::read(PLATE, &lent, &file, &mut own).expect("a file that reads");
        let body = write_body(PLATE, file.len() as u32, &table, &own, &lent);
        stream.write_told(edition.number(), &format!("{what}, written again"), body);
    }
}

// ---- inputs of the listing

/// Plates and files of edition 2 for the listing's program. Whether a file is turned away stands in
/// its name.
pub fn list_inputs_of_edition_2() -> Vec<(String, Vec<u8>)> {
    let mut list = files_to_list();
    list.extend(nearly_blank_files(Two));
    list.extend(wrong_files(Two));
    list.extend(some_blank());
    for (what, file) in jitter_files() {
        list.push((what, PLATE, file));
    }
    for (what, _, _) in &mut list {
        *what = in_words(Two, what);
    }
    for (what, file) in odd_heads() {
        list.push((what, PLATE, file));
    }
    // No plate on the input is above 24 bits.
    list.retain(|(_, plate, _)| plate.cabinet <= MOST_CABINET);
    list.into_iter().map(input_of).collect()
}

fn input_of((what, plate, file): FileCase) -> (String, Vec<u8>) {
    let taken = file::read_checked(plate, &[], &file).is_ok();
    let refused = if taken { "" } else { "refused " };
    (format!("{refused}{what}"), plated(plate, &file))
}

/// Files with jitters and without, cut ones, and the longest. A listing of fifteen tasks is longer
/// than a stored case, so something is wrong behind the longest file's length.
fn files_to_list() -> Vec<FileCase> {
    let of = |tasks: &[(u32, u32, u32, u32)]| {
        let (mut table, own) = late(tasks, &[1; 15]);
        clear(&mut table);
        file_in(Two, &table, &own, &[])
    };
    let b = (4, 10, 10, 0);
    let paper = of(&[(2, 5, 6, 0), b]);
    let longest = longest_file();
    let grown = |file: &[u8], more: usize| [file, &vec![0; more]].concat();
    // The plate's five bytes count among the 512.
    let to_512 = |file: &[u8]| grown(file, 507 - file.len());
    let mut list = Vec::new();
    for (what, file) in [
        ("paper", paper.clone()),
        ("only row by jitter", of(&[(2, 5, 5, 3), b])),
        ("no row by jitter", of(&[(2, 5, 5, 4), b])),
        ("one task just in time", of(&[(3, 5, 4, 1)])),
        ("one task late", of(&[(3, 5, 4, 2)])),
        (
            "three tasks with jitters",
            of(&[(1, 10, 10, 1), (9, 35, 35, 3), (52, 105, 105, 2)]),
        ),
        (
            "four tasks with jitters",
            of(&[
                (1, 40, 40, 30),
                (2, 40, 40, 3),
                (3, 40, 40, 0),
                (4, 40, 40, 36),
            ]),
        ),
        (
            "deadline above period with jitters",
            of(&[(3, 6, 20, 5), (4, 9, 20, 8)]),
        ),
        ("assigned", two_jobs_file(Two)),
        ("just 512", to_512(&paper)),
        ("longer than 512", grown(&paper, 600)),
        ("the longest with a jitter of T", longest.clone()),
        ("the longest and a byte", grown(&longest, 1)),
        ("the longest less a byte", longest[..484].to_vec()),
        ("the longest to 512", to_512(&longest)),
        ("the longest past 512", grown(&longest, 600)),
    ] {
        list.push((what.to_string(), PLATE, file));
    }
    for length in [1, 7, 8, 22, 23, 24, 25, 44] {
        let cut = paper[..length].to_vec();
        list.push((format!("cut to {length} bytes"), PLATE, cut));
    }
    list
}

/// 485 bytes: fifteen jobs and a hundred words.
fn full_file() -> Vec<u8> {
    let (fifteen, mut words) = fifteen_jobs_in(Two);
    words.resize(100, 1);
    file_in(Two, &fifteen, &words, &[])
}

/// As long, of which the last record's jitter is its period.
fn longest_file() -> Vec<u8> {
    changed_file(Two, 15, full_file(), jitter("", 14, 600))
}

/// A blank plate, a blank file, both, and both beside what is asked before 18 and after it.
fn some_blank() -> Vec<FileCase> {
    let mut list: Vec<FileCase> = [BLANK_FILE, BLANK_PLATE, ALL_BLANK]
        .map(|blank| blanked(Two, blank, beside("")))
        .to_vec();
    list.extend(BESIDE_ZEROS.map(|fault| blanked(Two, ALL_BLANK, fault)));
    list
}

/// Files of edition 2 for the program that shows a cabinet: jitters beside none, a task that its
/// jitter leaves no time, and what turns such a file away.
pub fn show_inputs_of_edition_2() -> Vec<(String, Vec<u8>)> {
    let file = |(table, own): (Table, Vec<u32>)| file_in(Two, &table, &own, &[]);
    [
        ("edition 2", file(two_jobs())),
        ("edition 2 over a bus", file(over_a_bus())),
        ("edition 2 no time left", file(no_time_left())),
        ("edition 2 longest", full_file()),
        ("edition 2 jitter as long as the period", jitter_t_file()),
        (
            "edition 2 spare bit",
            field_changed(Two, ("", At::LastSpare(1), 1, 1)),
        ),
    ]
    .map(|(what, file)| (what.to_string(), plated(PLATE, &file)))
    .to_vec()
}

/// A gate scan and an output test that come late, the test in two regions.
fn over_a_bus() -> (Table, Vec<u32>) {
    let tasks = [(2, 10, 6, 2), (3, 20, 16, 0), (8, 40, 34, 5)];
    let (mut table, _) = late(&tasks, &[1, 2, 3]);
    table.records[2].count = 2;
    (table, vec![2, 3, 4, 4])
}

/// The jitter of record 2 lies above its deadline.
fn no_time_left() -> (Table, Vec<u32>) {
    let (mut table, own) = assigned(&[(8, 32, 21), (14, 59, 41)], &[(2, 2), (1, 1)]);
    table.records[1].jitter = 50;
    (table, own)
}
