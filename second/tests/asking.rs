//! The ask protocol: each kind's line, and requests that break the page.

use super::*;
use crate::cases::NO_KIND;

/// A body built piece by piece.
#[derive(Clone, Default)]
struct Body(Vec<u8>);

impl Body {
    fn two(mut self, number: u16) -> Body {
        self.0.extend(number.to_be_bytes());
        self
    }

    fn four(mut self, number: u32) -> Body {
        self.0.extend(number.to_be_bytes());
        self
    }

    fn plate(self) -> Body {
        self.four(PLATE.cabinet).two(PLATE.line)
    }

    fn words(self, words: &[u32]) -> Body {
        words
            .iter()
            .fold(self.two(words.len() as u16), |body, word| body.four(*word))
    }

    fn bytes(self, bytes: &[u8]) -> Body {
        let mut body = self.two(bytes.len() as u16);
        body.0.extend(bytes);
        body
    }

    fn table(mut self, table: &Table) -> Body {
        self.0.push(table.n);
        for record in &table.records {
            self = self
                .four(record.cost)
                .four(record.period)
                .four(record.deadline);
            self = self
                .four(record.priority)
                .four(record.threshold)
                .four(record.source.bit());
            self = self.four(record.first).four(record.count).four(record.name);
            self = self.four(record.jitter);
        }
        self
    }

    fn request(self, kind: u8) -> Vec<u8> {
        let mut request = vec![kind];
        request.extend((self.0.len() as u16).to_be_bytes());
        request.extend(self.0);
        request
    }
}

fn answers(input: &[u8]) -> String {
    let mut output = Vec::new();
    crate::ask::run(input, &mut output).expect("answers");
    String::from_utf8(output).expect("text")
}

fn answer(kind: u8, body: Body) -> String {
    let text = answers(&body.request(kind));
    text.strip_suffix('\n').expect("a line").to_string()
}

fn start() -> Body {
    Body::default()
}

fn two_jobs() -> (Table, Vec<u32>) {
    let mut table = assigned(&[(2, 5, 5), (4, 10, 10)], &[1, 2], &[1, 2]);
    let own = whole_regions(&mut table);
    table.records[1].name = 64;
    (table, own)
}

const TABLE_LINE: &str = "table 2 2 5 5 1 1 0 0 1 0 0 4 10 10 2 2 0 1 1 64 0 edition 1";
const RECORD_2: &str = "record 000040000a0000a220103000";

#[test]
fn kind_1_read() {
    let (table, own) = two_jobs();
    let file = file_of(&table, &own, &[]);
    let read = |room| answer(1, start().plate().two(room).words(&[]).bytes(&file));
    assert_eq!(read(3), format!("{TABLE_LINE} out 2 4 2779096485"));
    assert_eq!(read(2), format!("{TABLE_LINE} out 2 4"));
    assert_eq!(read(1), "refused 12 out 2779096485");
    assert_eq!(read(0), "refused 12 out");
}

#[test]
fn kind_2_write() {
    let (table, own) = two_jobs();
    let file: String = file_of(&table, &own, &[])
        .iter()
        .map(|byte| format!("{byte:02x}"))
        .collect();
    let write = |room| {
        answer(
            2,
            start()
                .plate()
                .two(room)
                .table(&table)
                .words(&own)
                .words(&[]),
        )
    };
    assert_eq!(write(39), format!("file 39 out {file}"));
    assert_eq!(write(41), format!("file 39 out {file}a5a5"));
    assert_eq!(write(2), "refused 12 out a5a5");
    assert_eq!(write(0), "refused 12 out");
}

/// The two jobs with jitters of 3 and 1.
fn two_jobs_late() -> (Table, Vec<u32>) {
    let (mut table, own) = two_jobs();
    (table.records[0].jitter, table.records[1].jitter) = (3, 1);
    (table, own)
}

/// Their file of edition 2, worked out by hand: head, records, words, seal. Behind the 90 bits of
/// edition 1 stand the jitter, whose last six bits begin a record's last byte but one, and ten spare
/// bits. The seal comes from another CRC program.
const LATE_FILE: [&str; 5] = [
    "20011171000c0202",
    "000020000500005110002000000c00",
    "000040000a0000a220103000000400",
    "0000200004",
    "499f",
];

/// Kind 14: the edition's one byte, then all that kind 2 has.
fn edition_body(edition: u8, room: u16, table: &Table, own: &[u32]) -> Body {
    let body = Body(vec![edition]).plate().two(room);
    body.table(table).words(own).words(&[])
}

#[test]
fn kind_14_write_an_edition() {
    let (table, own) = two_jobs_late();
    let file = LATE_FILE.concat();
    let write = |edition, room| answer(14, edition_body(edition, room, &table, &own));
    assert_eq!(write(2, 45), format!("file 45 out {file}"));
    assert_eq!(write(2, 46), format!("file 45 out {file}a5"));
    assert_eq!(write(2, 2), "refused 12 out a5a5");
    assert_eq!(write(2, 0), "refused 12 out");
    assert_eq!(write(1, 2), "refused 19 out a5a5");
    for edition in [0, 3, 18, 255] {
        assert_eq!(write(edition, 2), "refused 2 out a5a5");
        assert_eq!(write(edition, 0), "refused 2 out");
    }
}

/// Of edition 1 it answers what kind 2 does.
#[test]
fn kind_2_writes_edition_1() {
    let late = two_jobs_late();
    for (table, own) in [two_jobs(), late] {
        for room in [0, 38, 39, 41] {
            let body = edition_body(1, room, &table, &own);
            let of_kind_2 = Body(body.0[1..].to_vec());
            assert_eq!(answer(14, body), answer(2, of_kind_2));
        }
    }
}

#[test]
fn kind_14_with_another_body() {
    let (table, own) = two_jobs();
    let body = edition_body(1, 39, &table, &own);
    for length in 0..body.0.len() {
        let cut = Body(body.0[..length].to_vec());
        assert_eq!(answer(14, cut), "bad request", "{length}");
    }
    // Bytes left over are seen before the edition is asked.
    assert_eq!(
        answer(14, edition_body(3, 39, &table, &own).two(0)),
        "bad request"
    );
    // A byte too many or too few makes neither of the two the other.
    assert_eq!(answer(2, body.clone()), "bad request");
    assert_eq!(answer(14, Body(body.0[1..].to_vec())), "bad request");
}

/// Bytes out of a run of hexadecimal digits.
fn bytes_of(digits: &str) -> Vec<u8> {
    let byte = |place| u8::from_str_radix(&digits[place..place + 2], 16).expect("two digits");
    (0..digits.len()).step_by(2).map(byte).collect()
}

#[test]
fn kinds_1_and_9_of_edition_2() {
    let file = bytes_of(&LATE_FILE.concat());
    let line = "table 2 2 5 5 1 1 0 0 1 0 3 4 10 10 2 2 0 1 1 64 1 edition 2";
    let read = |room| answer(1, start().plate().two(room).words(&[]).bytes(&file));
    assert_eq!(read(3), format!("{line} out 2 4 2779096485"));
    assert_eq!(read(2), format!("{line} out 2 4"));
    assert_eq!(read(1), "refused 12 out 2779096485");
    let record = |number| answer(9, start().plate().two(number).words(&[]).bytes(&file));
    assert_eq!(record(1), format!("record {}", LATE_FILE[1]));
    assert_eq!(record(2), format!("record {}", LATE_FILE[2]));
    assert_eq!(record(0), "refused 13");
    assert_eq!(record(3), "refused 13");
    // A file of no word at all: what was lent stays, and the edition stands before it.
    let mut one = unassigned(&[(2, 5, 5)]);
    (one.records[0].source, one.records[0].count) = (Source::Catalogue, 1);
    for (edition, number) in [(Edition::One, 1), (Edition::Two, 2)] {
        let file = file_in(edition, &one, &[], &[2]);
        let read = |room| answer(1, start().plate().two(room).words(&[2]).bytes(&file));
        let line = format!("table 1 2 5 5 0 0 1 0 1 0 0 edition {number} out");
        assert_eq!(read(0), line);
        assert_eq!(read(1), format!("{line} 2779096485"));
    }
}

#[test]
fn kinds_3_to_5_analysis() {
    let (mut table, _) = two_jobs();
    let kinds = |table: &Table| [3, 4, 5].map(|kind| answer(kind, start().table(table)));
    assert_eq!(
        kinds(&table),
        ["times 2 8 jobs 0 0", "tolerances 3 2", "lengths 2 4"]
    );
    table.records[0].deadline = 1;
    assert_eq!(
        kinds(&table),
        [
            "times 2 8 jobs 0 0",
            "tolerances -1 2",
            "refused 16 record 1"
        ]
    );
    table.records[1].cost = 8;
    assert_eq!(kinds(&table)[0], "times 2 beyond jobs 0 -");
    table.n = 0;
    assert_eq!(kinds(&table), ["refused 5"; 3]);
}

#[test]
fn kind_6_region_check() {
    let (mut table, own) = two_jobs();
    let check = |table: &Table, own: &[u32]| answer(6, start().table(table).words(own).words(&[]));
    assert_eq!(check(&table, &own), "fits");
    table.records[0].deadline = 4;
    assert_eq!(check(&table, &own), "unfit");
    table.records[1].count = 2;
    assert_eq!(check(&table, &[2, 3, 1]), "fits");
    assert_eq!(check(&table, &[2, 3, 2]), "refused 11");
}

#[test]
fn kinds_7_and_8_rows() {
    let (table, _) = two_jobs();
    let first = |room| answer(7, start().two(room).table(&table));
    assert_eq!(first(5), "row out 1 2 1 1 165");
    assert_eq!(first(4), "row out 1 2 1 1");
    assert_eq!(first(3), "refused 12 out 165 165 165");
    let next = |row: &[u8]| answer(8, start().two(4).table(&table).bytes(row));
    assert_eq!(next(&[1, 2, 1, 1]), "row out 1 2 1 2");
    assert_eq!(next(&[1, 2, 1, 2]), "end out 165 165 165 165");
    assert_eq!(next(&[1, 2, 1]), "refused 17 out 165 165 165 165");
}

#[test]
fn kinds_9_to_11_parts() {
    let (table, own) = two_jobs();
    let file = file_of(&table, &own, &[]);
    let record = |number| answer(9, start().plate().two(number).words(&[]).bytes(&file));
    assert_eq!(record(2), RECORD_2);
    assert_eq!(record(3), "refused 13");
    let regions = |number| answer(10, start().two(number).table(&table).words(&own).words(&[]));
    assert_eq!(regions(2), "regions 4");
    assert_eq!(regions(0), "refused 13");
    let name = |number| {
        answer(
            11,
            start()
                .two(number)
                .bytes(b"gate scan       ")
                .bytes(&[b' '; 16]),
        )
    };
    assert_eq!(name(0), "name 67617465207363616e");
    assert_eq!(name(64), "name");
    assert_eq!(name(65), "refused 13");
    assert_eq!(name(300), "refused 9");
}

/// Document 02, item 2: the line of the last region, a word of either list.
#[test]
fn kind_12_last_region() {
    let (mut table, _) = two_jobs();
    table.records[1].count = 2;
    let own = [2, 3, 1];
    let last = |table: &Table, number| {
        let body = start().two(number).table(table);
        answer(12, body.words(&own).words(&[9, 0, 4]))
    };
    assert_eq!(last(&table, 1), "last 2");
    assert_eq!(last(&table, 2), "last 1");
    assert_eq!(last(&table, 0), "refused 13");
    assert_eq!(last(&table, 3), "refused 13");
    (table.records[1].source, table.records[1].first) = (Source::Catalogue, 2);
    assert_eq!(last(&table, 2), "refused 11");
    table.records[1].count = 1;
    assert_eq!(last(&table, 2), "last 4");
    table.n = 16;
    assert_eq!(last(&table, 2), "refused 5");
}

/// A word for each task, in the order of the records. A task that isn't shown to pass isn't said to
/// fail.
#[test]
fn kind_13_fixed_points() {
    let (mut table, own) = two_jobs();
    let points = |table: &Table, own: &[u32], lent: &[u32]| {
        answer(13, start().table(table).words(own).words(lent))
    };
    assert_eq!(points(&table, &own, &[]), "points unshown passes");
    table.records[1].count = 2;
    assert_eq!(points(&table, &[2, 3, 1], &[]), "points passes passes");
    assert_eq!(points(&table, &[2, 3, 2], &[]), "refused 11");
    table.records[1].source = Source::Catalogue;
    assert_eq!(points(&table, &[2], &[9, 1, 3]), "points passes passes");
    table.records[0].deadline = 1;
    assert_eq!(points(&table, &[2], &[9, 1, 3]), "refused 16 record 1");
    let mut one = assigned(&[(3, 5, 3)], &[1], &[1]);
    let own = whole_regions(&mut one);
    assert_eq!(points(&one, &own, &[]), "points passes");
    one.n = 0;
    assert_eq!(points(&one, &own, &[]), "refused 5");
}

/// Neither is the other, and neither takes a byte more or less.
#[test]
fn kinds_12_and_13_with_another_body() {
    let (table, own) = two_jobs();
    let lists = |body: Body| body.words(&own).words(&[3]);
    let of_12 = lists(start().two(1).table(&table));
    let of_13 = lists(start().table(&table));
    for (kind, body) in [(12, &of_12), (13, &of_13)] {
        for length in 0..body.0.len() {
            let cut = Body(body.0[..length].to_vec());
            assert_eq!(answer(kind, cut), "bad request", "{kind} {length}");
        }
        assert_eq!(answer(kind, body.clone().two(0)), "bad request");
        assert_eq!(answer(25 - kind, body.clone()), "bad request");
    }
}

/// A plate of cabinet 0 or line 0 is 18, and nothing that was lent is touched.
#[test]
fn blank_plates() {
    let (table, own) = two_jobs();
    let file = file_of(&table, &own, &[]);
    for (cabinet, line) in [(0, 12), (70_001, 0), (0, 0)] {
        let plate = || start().four(cabinet).two(line);
        let read = answer(1, plate().two(2).words(&[]).bytes(&file));
        assert_eq!(read, "refused 18 out 2779096485 2779096485");
        let write = answer(2, plate().two(2).table(&table).words(&own).words(&[]));
        assert_eq!(write, "refused 18 out a5a5");
        let record = answer(9, plate().two(1).words(&[]).bytes(&file));
        assert_eq!(record, "refused 18");
    }
    // Four bytes of the cabinet are asked, not three.
    let wide = start().four(1 << 24).two(12).two(1);
    assert_eq!(answer(9, wide.words(&[]).bytes(&file)), "refused 3");
}

#[test]
fn any_source_but_0_is_the_catalogue() {
    let (table, own) = two_jobs();
    let mut body = start().two(2).table(&table).words(&own).words(&[0, 1, 3]);
    // The source of record 2 is its sixth word.
    let source = 2 + 1 + 40 + 20;
    body.0[source] = 1;
    assert_eq!(answer(10, body.clone()), "refused 11");
    let count = source + 8;
    body.0[count + 3] = 2;
    assert_eq!(answer(10, body), "regions 1 3");
}

/// Document 02, item 8: the tenth word of a record. With J 3 the first takes 5 ticks in place of 2,
/// and holds the second up to 10 in place of 8; with J 1 the second takes 1 more.
#[test]
fn the_tenth_word_is_the_jitter() {
    let (table, _) = two_jobs();
    let mut body = start().table(&table);
    assert_eq!(body.0.len(), 1 + 15 * 40);
    assert_eq!(answer(3, body.clone()), "times 2 8 jobs 0 0");
    body.0[1 + 36 + 3] = 3;
    assert_eq!(answer(3, body.clone()), "times 5 10 jobs 0 0");
    body.0[1 + 40 + 36 + 3] = 1;
    assert_eq!(answer(3, body.clone()), "times 5 11 jobs 0 0");
    // All four bytes count.
    body.0[1 + 36] = 1;
    assert_eq!(answer(3, body.clone()), "refused 9");
    // What a table was before it, nine words a record, is too short.
    body.0.truncate(1 + 15 * 36);
    assert_eq!(answer(3, body), "bad request");
}

#[test]
fn a_stream() {
    let (table, _) = two_jobs();
    let request = start().table(&table).request(3);
    assert_eq!(answers(&[]), "");
    assert_eq!(
        answers(&request.repeat(3)),
        "times 2 8 jobs 0 0\n".repeat(3)
    );
    let broken = [request.clone(), vec![0], request].concat();
    assert_eq!(answers(&broken), "times 2 8 jobs 0 0\nbad request\n");
}

#[test]
fn bad_requests() {
    let (table, _) = two_jobs();
    let request = start().table(&table).request(3);
    for length in 1..request.len() {
        assert_eq!(answers(&request[..length]), "bad request\n", "{length}");
    }
    assert_eq!(answer(3, start().table(&table).two(0)), "bad request");
    assert_eq!(answer(3, start()), "bad request");
    // Of those behind the known kinds none has landed.
    for kind in [0, 15, 16, 17, 18, 19, 20, NO_KIND] {
        assert_eq!(answer(kind, start()), "bad request");
        assert_eq!(answer(kind, start().table(&table)), "bad request");
    }
    // A count that the body does not hold.
    assert_eq!(
        answer(11, start().two(0).bytes(b"gate").two(1)),
        "bad request"
    );
}

#[test]
fn the_longest_body() {
    let name = |filler: usize| answer(11, start().two(0).bytes(&vec![b'x'; filler]).bytes(&[]));
    assert_eq!(name(4090), format!("name {}", "78".repeat(16)));
    assert_eq!(name(4091), "bad request");
}
