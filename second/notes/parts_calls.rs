//! What regions and names reach, and what a last region reaches in common with regions.

use super::*;

pub fn of_regions(tally: &mut Tally, kind: u8, mut body: Body, answer: &Answer) -> Option<()> {
    let number = body.two()?;
    let table = body.table()?;
    let own = body.words()?;
    let catalogue = body.words()?;
    let seen = held(&table);
    let alone = alone(&table, number);
    let slot_holds = alone.n == 1 && !region_is_wrong(&alone, &own, &catalogue);
    // Regions of other records are nothing to these calls.
    let mut faults = Faults(Vec::new());
    faults.add(
        5,
        task_count_wrong(table.n) || region_count_wrong(own.len()),
    );
    faults.add(13, number == 0 || number > table.n as u16);
    faults.add(11, alone.n == 1 && !slot_holds);
    faults.note_meetings(tally, kind, answer);
    note_counts(tally, table.n, Some(own.len()), answer);
    note_jitters(tally, kind, &table, answer);
    note_record_number(tally, number, table.n, answer);
    note_lists_of_one(tally, &alone, &own, &catalogue, answer);
    note_places(tally, &alone, (&own, &catalogue), answer);
    let past = answer.refused(13) && slot_holds;
    tally.note("a record past n whose regions hold turned away", past);
    let others = seen.n > 1 && regions_wrong(&seen, &own, &catalogue);
    tally.note("answered beside bad regions", answer.taken() && others);
    let bad_word = own.iter().any(|word| ticks_wrong(*word));
    tally.note("answered beside a bad own word", answer.taken() && bad_word);
    let numbers = answer.taken() && numbers_wrong(&seen);
    tally.note("answered for a table with a bad number", numbers);
    let jitter = numbers && !numbers_wrong(&without_jitters(&seen));
    tally.note("answered for a table with a bad jitter alone", jitter);
    Some(())
}

/// The record asked for alone, as in a table of one; a table of none where there is no such place.
pub fn alone(table: &Table, number: u16) -> Table {
    let mut alone = Table::default();
    let place = (number as usize).wrapping_sub(1);
    if let Some(record) = table.records.get(place) {
        (alone.n, alone.records[0]) = (1, *record);
    }
    alone
}

fn region_is_wrong(alone: &Table, own: &[u32], catalogue: &[u32]) -> bool {
    checks::regions(&alone.records[0], own, catalogue).is_none()
}

/// Like `note_lists`, of a single record: nothing overlaps there.
fn note_lists_of_one(
    tally: &mut Tally,
    alone: &Table,
    own: &[u32],
    catalogue: &[u32],
    answer: &Answer,
) {
    let none = Table::default();
    let taken = if answer.taken() { alone } else { &none };
    let lent = runs_of(taken, Source::Catalogue);
    let in_file = runs_of(taken, Source::Own);
    tally.note("own regions", !in_file.is_empty());
    tally.note("catalogue regions", !lent.is_empty());
    let is = |first, count| lent == [(first, first + count)];
    tally.note("127 words from word 127 on", is(127, 127));
    let long = |words| !lent.is_empty() && catalogue.len() > words;
    tally.note("a catalogue of more than 127 words", long(127));
    tally.note("a catalogue of more than 254 words", long(254));
    let words = checks::regions(&taken.records[0], own, catalogue).unwrap_or(&[]);
    tally.note("a region of 1", taken.n == 1 && words.contains(&1));
    let largest = taken.n == 1 && words.contains(&MOST_TICKS);
    tally.note("a region of 1000000", largest);
    for word in [0, MOST_TICKS + 1] {
        let came = answer.refused(11) && names_word(alone, own, catalogue, word);
        tally.note(&format!("a region of {word} turned away"), came);
    }
    let record = &alone.records[0];
    let list = list_of(record, own, catalogue);
    let end = record.first as usize + record.count as usize;
    let one_past = answer.refused(11) && end == list.len() + 1;
    tally.note("one word past the list turned away", one_past);
    let just = answer.taken() && end == list.len();
    tally.note("the list's last word", just);
}

/// Whether the record's run, inside its list, holds this word.
fn names_word(alone: &Table, own: &[u32], catalogue: &[u32], word: u32) -> bool {
    let record = &alone.records[0];
    let first = record.first as usize;
    let run = list_of(record, own, catalogue).get(first..first + record.count as usize);
    run.is_some_and(|run| run.contains(&word))
}

pub fn of_name(tally: &mut Tally, mut body: Body, answer: &Answer) -> Option<()> {
    let number = body.two()? as usize;
    let lists = [body.bytes()?, body.bytes()?];
    let which = usize::from(number >= 64);
    let entry = number.saturating_sub(64 * which);
    let end = 16 * (entry + 1);
    let mut faults = Faults(Vec::new());
    faults.add(9, number > MOST_NAME_NUMBER as usize);
    faults.add(13, end > lists[which].len());
    faults.note_meetings(tally, 11, answer);
    let name = bytes_of(answer);
    for (k, what) in ["cabinet's list", "house list"].iter().enumerate() {
        let taken = answer.taken() && which == k;
        tally.note(&format!("out of the {what}"), taken);
        for byte in 0..=255u8 {
            let came = taken && name.contains(&byte);
            tally.note(&format!("byte {byte} out of the {what}"), came);
        }
        let just = taken && end == lists[k].len();
        tally.note(&format!("the last entry of the {what}"), just);
        let behind = answer.refused(13) && which == k && end == lists[k].len() + 16;
        tally.note(&format!("an entry behind the {what}"), behind);
        let cut = answer.refused(13) && which == k && end == lists[k].len() + 1;
        tally.note(&format!("a byte missing in the {what}"), cut);
        let empty = answer.refused(13) && which == k && lists[k].is_empty();
        tally.note(&format!("an empty {what}"), empty);
    }
    for at in [0, 63, 64, 127] {
        tally.note(&format!("number {at}"), answer.taken() && number == at);
    }
    for at in [128, 255, 256, 65_535] {
        let came = answer.refused(9) && number == at;
        tally.note(&format!("number {at} turned away"), came);
    }
    for length in 0..=16 {
        let came = answer.taken() && name.len() == length;
        tally.note(&format!("a name of {length} bytes"), came);
    }
    for byte in LIKE_A_SPACE {
        let came = name.last() == Some(&byte);
        tally.note(&format!("a name that ends in byte {byte}"), came);
    }
    let front = name.first() == Some(&b' ');
    tally.note("a name that begins with a space", front);
    Some(())
}

/// The bytes of a name that was handed back.
fn bytes_of(answer: &Answer) -> Vec<u8> {
    bytes_of_text(answer.line.strip_prefix("name ").unwrap_or(""))
}
