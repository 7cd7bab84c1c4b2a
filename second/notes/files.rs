//! What reading, writing and a record out of a file reach.

use super::edition_rules::*;
use super::editions::*;
use super::*;

/// What is read out of a file.
#[derive(Debug, PartialEq)]
pub struct Read {
    pub edition: Edition,
    pub table: Table,
    pub own: Vec<u32>,
}

pub fn of_reading(tally: &mut Tally, mut body: Body, answer: &Answer) -> Option<()> {
    let plate = body.plate()?;
    let room = body.two()? as usize;
    let catalogue = body.words()?;
    let file = body.bytes()?;
    let m = head_of(file).map_or(0, |head| head.m);
    let mut faults = file_faults(plate, &catalogue, file);
    faults.add(12, room < m);
    faults.note_meetings(tally, 1, answer);
    note_file(tally, plate, &catalogue, file, &faults, answer);
    note_room(tally, room, m, answer);
    tally.note("no room for no words", answer.taken() && room == 0);
    let read = match answer.taken() {
        true => Some(read_of(answer, m)?),
        false => None,
    };
    let handed = Handed {
        plate,
        catalogue: &catalogue,
        file,
    };
    note_file_editions(tally, 1, &handed, &faults, answer);
    let by = |rule: &Reading| {
        let read = read_by(rule, plate, &catalogue, file)?;
        refuse(12, room < read.own.len())?;
        Ok(read)
    };
    note_other_readings(tally, by, read.as_ref(), answer);
    let again = |read| written_again(plate, &catalogue, &read).is_some_and(|again| again == file);
    read.is_none_or(again).then_some(())
}

/// What the answer says was read, of a file of m words. `None` where the line is none of this call's:
/// it has ten numbers of each record behind n, and the edition.
fn read_of(answer: &Answer, m: usize) -> Option<Read> {
    let words: Vec<&str> = answer.words().collect();
    let [n, records @ .., "edition", edition] = words.as_slice() else {
        return None;
    };
    let edition = Edition::from_number(edition.parse().ok()?).ok()?;
    let n: u8 = n.parse().ok()?;
    if task_count_wrong(n) || records.len() != 10 * n as usize {
        return None;
    }
    let mut table = Table {
        n,
        ..Table::default()
    };
    for (record, words) in table.records.iter_mut().zip(records.chunks(10)) {
        *record = record_of(words)?;
    }
    let out = answer.line.split(" out").nth(1)?.split(' ').skip(1);
    let own: Option<Vec<u32>> = out.take(m).map(|word| word.parse().ok()).collect();
    Some(Read {
        edition,
        table,
        own: own?,
    })
}

/// The ten numbers of a record.
fn record_of(words: &[&str]) -> Option<Record> {
    let numbers: Option<Vec<u32>> = words.iter().map(|word| word.parse().ok()).collect();
    let numbers: [u32; 10] = numbers?.try_into().ok()?;
    let [cost, period, deadline, priority, threshold, source, first, count, name, jitter] = numbers;
    Some(Record {
        cost,
        period,
        deadline,
        priority,
        threshold,
        source: Source::from_number(source),
        first,
        count,
        name,
        jitter,
    })
}

/// The file of what was read, in its own edition, which is the one that was read.
fn written_again(plate: Plate, catalogue: &[u32], read: &Read) -> Option<Vec<u8>> {
    let mut out = vec![0; file::length(read.edition, MOST_TASKS, MOST_REGION_WORDS)];
    let number = read.edition.number();
    let length = file::write(number, plate, &read.table, &read.own, catalogue, &mut out).ok()?;
    out.truncate(length);
    Some(out)
}

pub fn of_record(tally: &mut Tally, mut body: Body, answer: &Answer) -> Option<()> {
    let plate = body.plate()?;
    let number = body.two()?;
    let catalogue = body.words()?;
    let file = body.bytes()?;
    let n = head_of(file).map_or(0, |head| head.n);
    let mut faults = file_faults(plate, &catalogue, file);
    faults.add(13, number == 0 || number > n as u16);
    faults.note_meetings(tally, 9, answer);
    note_file(tally, plate, &catalogue, file, &faults, answer);
    note_record_number(tally, number, n, answer);
    let handed = Handed {
        plate,
        catalogue: &catalogue,
        file,
    };
    note_file_editions(tally, 9, &handed, &faults, answer);
    let by = |rule: &Reading| {
        let read = read_by(rule, plate, &catalogue, file)?;
        refuse(13, number == 0 || number > read.table.n as u16)?;
        Ok(read)
    };
    note_other_readings(tally, by, None, answer);
    note_other_records(tally, &handed, number, answer);
    Some(())
}

/// The head of a file that is long enough for one.
pub fn head_of(file: &[u8]) -> Option<file::Head> {
    (file.len() >= file::HEAD_BYTES).then(|| file::take_head(file))
}

/// The edition that a head says, or, where it says none, one whose length the file has.
fn edition_of(head: &file::Head, bytes: usize) -> Option<Edition> {
    let fits = |edition: &Edition| bytes == file::length(*edition, head.n as usize, head.m);
    let said = Edition::from_number(head.edition).ok();
    said.or_else(|| Edition::BOTH.into_iter().find(fits))
}

/// Table, region words and spare bits of a file whose head and length let them be taken.
pub fn contents(file: &[u8]) -> Option<(Table, Vec<u32>, u32)> {
    let head = head_of(file)?;
    let edition = edition_of(&head, file.len())?;
    let counts_wrong = task_count_wrong(head.n) || region_count_wrong(head.m);
    if counts_wrong || file.len() != file::length(edition, head.n as usize, head.m) {
        return None;
    }
    Some(file::take_all(file, edition, head.n, head.m))
}

/// Which of 1, 2, 18 and 3 to 11 apply to a file; 8 to 11 only where its fields can be taken, which
/// are those of an edition that fits it where it says none.
fn file_faults(plate: Plate, catalogue: &[u32], file: &[u8]) -> Faults {
    let mut faults = Faults(Vec::new());
    faults.add(1, file.len() < file::SHORTEST);
    faults.add(18, !zeros(plate, file).is_empty());
    if let Some(head) = head_of(file) {
        let edition = edition_of(&head, file.len()).unwrap_or(Edition::One);
        let length = file::length(edition, head.n as usize, head.m);
        faults.add(2, Edition::from_number(head.edition).is_err());
        faults.add(3, head.cabinet != plate.cabinet);
        faults.add(4, head.line != plate.line as u32);
        faults.add(5, task_count_wrong(head.n) || region_count_wrong(head.m));
        faults.add(6, file.len() != length);
        faults.add(7, file::seal_wrong(file));
    }
    if let Some((table, own, spare)) = contents(file) {
        faults.add(8, spare != 0);
        faults.add(9, numbers_wrong(&table));
        faults.add(10, assignment_wrong(&table));
        faults.add(11, regions_wrong(&table, &own, catalogue));
    }
    faults
}

/// The zeros in a file that is long enough for them and on a plate, in the order of `Zero`.
fn zeros(plate: Plate, file: &[u8]) -> Vec<Zero> {
    let head = head_of(file).map_or((1, 1), |head| (head.cabinet, head.line));
    let fields = [
        (Zero::FileCabinet, head.0),
        (Zero::FileLine, head.1),
        (Zero::PlateCabinet, plate.cabinet),
        (Zero::PlateLine, plate.line as u32),
    ];
    let zeros = fields.into_iter().filter(|(_, number)| *number == 0);
    zeros.map(|(zero, _)| zero).collect()
}

/// Each zero alone, each pair of them and all four turned away by 18; each zero alone beside what
/// is asked before 18 and after it; and a plate whose low 24 bits alone are 0, which isn't blank.
fn note_blank(tally: &mut Tally, plate: Plate, file: &[u8], faults: &Faults, answer: &Answer) {
    let zeros = zeros(plate, file);
    for (what, blank) in BLANKS {
        let came = answer.refused(18) && zeros == blank;
        tally.note_often(SELDOM, what, came);
    }
    for (what, blank) in ALONE {
        for number in [1, 2, 3, 4, 5, 7] {
            let first = if number < 3 { number } else { 18 };
            let came = answer.refused(first) && faults.has(number) && zeros == blank;
            tally.note_often(SELDOM, &format!("{what}, with {number}"), came);
        }
    }
    let short = answer.refused(1) && faults.has(18);
    let head = file.len() >= file::HEAD_BYTES;
    tally.note_often(SELDOM, "1 before 18, no head", short && !head);
    tally.note_often(SELDOM, "1 before 18, a head", short && head);
    let wide = answer.refused(3) && plate.cabinet == MOST_CABINET + 1;
    tally.note("a plate of 2^24 turned away", wide);
}

/// Cabinets and lines that are taken: of a single byte that isn't 0, and the largest.
fn note_plate(tally: &mut Tally, plate: Plate, answer: &Answer) {
    for cabinet in [1, 0x100, 0x1_0000, MOST_CABINET] {
        let came = answer.taken() && plate.cabinet == cabinet;
        tally.note(&format!("cabinet {cabinet}"), came);
    }
    for line in [1, 0x100, u16::MAX] {
        let came = answer.taken() && plate.line == line;
        tally.note(&format!("line {line}"), came);
    }
}

/// What reading and the record share. The seal is right where one of 8 to 12 decides.
fn note_file(
    tally: &mut Tally,
    plate: Plate,
    catalogue: &[u32],
    file: &[u8],
    faults: &Faults,
    answer: &Answer,
) {
    let several = [8, 9, 10, 11].iter().filter(|n| faults.has(**n)).count() >= 2;
    let decided = [8, 9, 10].iter().any(|number| answer.refused(*number));
    let met = several && decided;
    tally.note_often(AIMED_AT, "two of 8 to 11, sealed", met);
    note_head(tally, plate, file, answer);
    note_blank(tally, plate, file, faults, answer);
    let (table, own, _) = contents(file).unwrap_or_default();
    note_numbers(tally, &table, answer);
    note_words(tally, &own, answer);
    note_lists(tally, &table, &own, catalogue, answer);
}

fn note_head(tally: &mut Tally, plate: Plate, file: &[u8], answer: &Answer) {
    let (n, m) = head_of(file).map_or((0, 0), |head| (head.n, head.m));
    note_counts(tally, n, Some(m), answer);
    note_plate(tally, plate, answer);
    let wide = answer.refused(3) && plate.cabinet > MOST_CABINET;
    tally.note("a plate above 24 bits turned away", wide);
    let longest = file::length(Edition::One, MOST_TASKS, MOST_REGION_WORDS);
    for length in [file::SHORTEST, longest] {
        let came = answer.taken() && file.len() == length;
        tally.note(&format!("a file of {length} bytes"), came);
    }
    let one_less = answer.refused(1) && file.len() + 1 == file::SHORTEST;
    tally.note("a file of 21 bytes turned away", one_less);
    tally.note("no file", answer.refused(1) && file.is_empty());
}

/// Writing as edition 1, and writing an edition, which is told first.
pub fn of_writing(tally: &mut Tally, kind: u8, mut body: Body, answer: &Answer) -> Option<()> {
    let told = if kind == 14 { body.one()? } else { 1 };
    let plate = body.plate()?;
    let room = body.two()? as usize;
    let table = body.table()?;
    let own = body.words()?;
    let catalogue = body.words()?;
    let edition = Edition::from_number(told);
    // What is told no edition has no room where there is none for the shorter of the two.
    let needed = file::length(
        edition.unwrap_or(Edition::One),
        held(&table).n as usize,
        own.len(),
    );
    let mut faults = table_faults(&table, Some((&own, &catalogue)));
    let zeros = zeros(plate, &[]);
    faults.add(2, edition.is_err());
    faults.add(18, !zeros.is_empty());
    faults.add(9, plate.cabinet > MOST_CABINET);
    faults.add(12, room < needed);
    let late: Vec<usize> = (0..held(&table).n as usize)
        .filter(|k| table.records[*k].jitter > 0)
        .collect();
    faults.add(19, edition == Ok(Edition::One) && !late.is_empty());
    faults.note_meetings(tally, kind, answer);
    note_19(tally, held(&table).n as usize, &late, answer);
    for (what, blank) in blank_plates() {
        tally.note(what, answer.refused(18) && zeros == blank);
    }
    let line = answer.refused(18) && plate.cabinet > MOST_CABINET;
    tally.note_often(SELDOM, "line 0 of a cabinet above 24 bits", line);
    note_plate(tally, plate, answer);
    note_table(tally, kind, &table, answer);
    let in_range = plate.cabinet <= MOST_CABINET;
    note_bad_jitters(tally, &table, answer.refused(9) && in_range);
    note_counts(tally, table.n, Some(own.len()), answer);
    note_words(tally, &own, answer);
    note_lists(tally, &table, &own, &catalogue, answer);
    note_places(tally, &table, (&own, &catalogue), answer);
    note_room(tally, room, needed, answer);
    let wide = answer.refused(9) && plate.cabinet == MOST_CABINET + 1;
    tally.note("a cabinet of 2^24 turned away", wide);
    let written = match answer.taken() {
        true => Some(written_of(answer)?),
        false => None,
    };
    let this = ToWrite {
        told,
        plate,
        table: &table,
        own: &own,
        room,
        faults: &faults,
    };
    if kind == 14 {
        note_told(tally, &this, written.as_deref(), answer);
    } else {
        note_other_writings(tally, &[UNTOLD], &this, written.as_deref(), answer);
    }
    let reads = |file: &[u8]| reads_as(plate, &catalogue, file, (edition.ok()?, &table, &own));
    written
        .is_none_or(|file| reads(&file).is_some())
        .then_some(())
}

/// The bytes that were written. `None` where the line is none of this call's.
fn written_of(answer: &Answer) -> Option<Vec<u8>> {
    let words: Vec<&str> = answer.line.split(' ').collect();
    let ["file", length, "out", text] = words.as_slice() else {
        return None;
    };
    let bytes = bytes_of_text(text);
    Some(bytes.get(..length.parse().ok()?)?.to_vec())
}

/// What is read out of a file that was written, which is what it was written from.
fn reads_as(
    plate: Plate,
    catalogue: &[u32],
    file: &[u8],
    (edition, table, own): (Edition, &Table, &[u32]),
) -> Option<()> {
    let read = file::read_checked(plate, catalogue, file).ok()?;
    let same = read.1.tasks() == table.tasks();
    (read.0 == edition && same && read.2 == own).then_some(())
}

/// Which records a writing turned away by 19 would lose the jitter of: of several a single one.
fn note_19(tally: &mut Tally, n: usize, late: &[usize], answer: &Answer) {
    let one = answer.refused(19) && n > 1 && late.len() == 1;
    tally.note("19 by record 1 alone", one && late[0] == 0);
    tally.note("19 by record n alone", one && late[0] == n - 1);
    tally.note(
        "19 by several records",
        answer.refused(19) && late.len() > 1,
    );
}
