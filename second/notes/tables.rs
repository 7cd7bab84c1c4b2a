//! What the calls share: limits and faults of a table, of lists of words, of room and of numbers.

use super::*;

/// The table with the records that it can hold, where n says more of them.
pub fn held(table: &Table) -> Table {
    Table {
        n: table.n.min(MOST_TASKS as u8),
        ..*table
    }
}

/// Which of 5, 9, 10, 11, 14 and 15 apply to a table.
pub fn table_faults(table: &Table, lists: Option<(&[u32], &[u32])>) -> Faults {
    let seen = &held(table);
    let mut faults = Faults(Vec::new());
    let words = lists.map_or(0, |(own, _)| own.len());
    faults.add(5, task_count_wrong(table.n) || region_count_wrong(words));
    faults.add(9, numbers_wrong(seen));
    faults.add(10, assignment_wrong(seen));
    if let Some((own, catalogue)) = lists {
        faults.add(11, regions_wrong(seen, own, catalogue));
    }
    faults.add(14, unassigned(seen));
    faults.add(15, deadline_above_period(seen));
    faults
}

/// What every call but that of regions notes of a table that it is handed.
pub fn note_table(tally: &mut Tally, kind: u8, table: &Table, answer: &Answer) {
    let seen = held(table);
    note_numbers(tally, &seen, answer);
    note_jitters(tally, kind, table, answer);
    // Writing asks 9 of a cabinet too, and sees to that by itself.
    if ![2, 14].contains(&kind) {
        note_bad_jitters(tally, table, answer.refused(9));
    }
    let name = |number| seen.tasks().iter().any(|task| task.name == number);
    let past = answer.refused(9) && name(MOST_NAME_NUMBER + 1);
    tally.note("name 128 turned away", past);
    let unread = &table.records[seen.n as usize..];
    let anything = unread.iter().any(|record| *record != Record::default());
    tally.note("numbers past record n", answer.taken() && anything);
}

/// Each field of ticks at its limits and one past them, and the names at theirs.
pub fn note_numbers(tally: &mut Tally, table: &Table, answer: &Answer) {
    let fields: [(&str, fn(&Record) -> u32); 3] = [
        ("cost", |task| task.cost),
        ("period", |task| task.period),
        ("deadline", |task| task.deadline),
    ];
    for (what, field) in fields {
        let has = |ticks| table.tasks().iter().any(|task| field(task) == ticks);
        for ticks in [1, MOST_TICKS] {
            tally.note(&format!("{what} {ticks}"), answer.taken() && has(ticks));
        }
        for ticks in [0, MOST_TICKS + 1] {
            let came = answer.refused(9) && has(ticks);
            tally.note(&format!("{what} {ticks} turned away"), came);
        }
    }
    for number in [0, MOST_NAME_NUMBER] {
        let has = table.tasks().iter().any(|task| task.name == number);
        tally.note(&format!("name {number}"), answer.taken() && has);
    }
}

/// n and, where there is one, m: all sizes or limits, and past them.
pub fn note_counts(tally: &mut Tally, n: u8, m: Option<usize>, answer: &Answer) {
    for size in 1..=MOST_TASKS as u8 {
        tally.note(&format!("n {size}"), answer.taken() && n == size);
    }
    for size in [0, MOST_TASKS as u8 + 1, 255] {
        let came = answer.refused(5) && n == size;
        tally.note(&format!("n {size} turned away"), came);
    }
    if let Some(m) = m {
        for size in [0, 99, 100] {
            tally.note(&format!("m {size}"), answer.taken() && m == size);
        }
        tally.note("m 101 turned away", answer.refused(5) && m == 101);
    }
}

/// Own region words at their limits and one past them.
pub fn note_words(tally: &mut Tally, own: &[u32], answer: &Answer) {
    for word in [1, MOST_TICKS] {
        let came = answer.taken() && own.contains(&word);
        tally.note(&format!("own word {word}"), came);
    }
    for word in [0, MOST_TICKS + 1] {
        let came = answer.refused(11) && own.contains(&word);
        tally.note(&format!("own word {word} turned away"), came);
    }
}

/// What the regions of a table that was taken name, of both lists.
pub fn note_lists(
    tally: &mut Tally,
    table: &Table,
    own: &[u32],
    catalogue: &[u32],
    answer: &Answer,
) {
    let none = Table::default();
    let table = if answer.taken() { table } else { &none };
    for (what, source) in [("own", Source::Own), ("catalogue", Source::Catalogue)] {
        let runs = runs_of(table, source);
        tally.note(&format!("{what} regions"), !runs.is_empty());
        tally.note(&format!("overlapping {what} regions"), overlap(&runs));
    }
    let lent = runs_of(table, Source::Catalogue);
    let reach = |words: usize| lent.iter().any(|(_, end)| *end >= words);
    let long = |words: usize| !lent.is_empty() && catalogue.len() > words;
    tally.note("a catalogue of more than 127 words", long(127));
    tally.note("a catalogue of more than 254 words", long(254));
    tally.note("a catalogue's word behind 127", reach(129));
    tally.note("a catalogue's word 253", reach(254));
    let first = |first| lent.iter().any(|run| run.0 == first);
    tally.note("first region 127", first(127));
    let count = |count| lent.iter().any(|run| run.1 - run.0 == count);
    tally.note("region count 127", count(127));
    let unnamed = |list: &[u32], source, what: fn(u32) -> bool| {
        let runs = runs_of(table, source);
        let named = |place| runs.iter().any(|run| run.0 <= place && place < run.1);
        (0..list.len()).any(|place| !named(place) && what(list[place]))
    };
    let own_word = table.n > 0 && unnamed(own, Source::Own, |_| true);
    tally.note("an own word that no record names", own_word);
    let lent_word = table.n > 0 && unnamed(catalogue, Source::Catalogue, ticks_wrong);
    tally.note("a bad catalogue word that no record names", lent_word);
    let bad = catalogue.iter().any(|word| ticks_wrong(*word));
    let came = answer.refused(11) && bad;
    tally.note("a bad catalogue word turned away", came);
}

/// First word, and the one behind the last, of each record whose regions stand in this list.
pub fn runs_of(table: &Table, source: Source) -> Vec<(usize, usize)> {
    let tasks = table.tasks().iter().filter(|task| task.source == source);
    tasks
        .map(|task| (task.first as usize, (task.first + task.count) as usize))
        .collect()
}

/// Whether two runs share a word.
pub fn overlap(runs: &[(usize, usize)]) -> bool {
    let shares = |a: &(usize, usize), b: &(usize, usize)| a.0 < b.1 && b.0 < a.1;
    let later = |k: usize, run| runs[k + 1..].iter().any(|other| shares(run, other));
    runs.iter().enumerate().any(|(k, run)| later(k, run))
}

/// A first region or a count of 128, which a file can't say, and nothing else wrong with it.
pub fn note_places(tally: &mut Tally, table: &Table, lists: (&[u32], &[u32]), answer: &Answer) {
    let seen = held(table);
    let has = |place: fn(&Record) -> u32| {
        let past = |task: &&Record| place(task) == MOST_REGION_PLACE + 1;
        let mut tasks = seen.tasks().iter().filter(past);
        answer.refused(11) && tasks.any(|task| words_hold(task, lists))
    };
    tally.note("first region 128 turned away", has(|task| task.first));
    tally.note("region count 128 turned away", has(|task| task.count));
}

/// Whether the words that a record names are there, in range, and add up to its cost.
fn words_hold(task: &Record, (own, catalogue): (&[u32], &[u32])) -> bool {
    let first = task.first as usize;
    let words = list_of(task, own, catalogue).get(first..first + task.count as usize);
    words.is_some_and(|words| {
        let sum: u64 = words.iter().map(|word| *word as u64).sum();
        words.iter().all(|word| !ticks_wrong(*word)) && sum == task.cost as u64
    })
}

pub fn note_room(tally: &mut Tally, room: usize, needed: usize, answer: &Answer) {
    tally.note("room just enough", answer.taken() && room == needed);
    tally.note("room to spare", answer.taken() && room > needed);
    let one_less = answer.refused(12) && room + 1 == needed;
    tally.note("room for one less turned away", one_less);
    tally.note("no room turned away", answer.refused(12) && room == 0);
}

pub fn note_record_number(tally: &mut Tally, number: u16, n: u8, answer: &Answer) {
    let n = n as u16;
    tally.note("record 1", answer.taken() && number == 1);
    tally.note("record n", answer.taken() && number == n);
    let last = number as usize == MOST_TASKS;
    tally.note(&format!("record {MOST_TASKS}"), answer.taken() && last);
    for (what, out) in [
        ("record 0", number == 0),
        ("record n + 1", number == n + 1),
        ("record 65535", number == 65_535),
        (
            "a record by its low byte",
            number > 256 && number - 256 <= n,
        ),
    ] {
        let what = format!("{what} turned away");
        tally.note(&what, answer.refused(13) && out);
    }
}

/// The list that the record names.
pub fn list_of<'a>(record: &Record, own: &'a [u32], catalogue: &'a [u32]) -> &'a [u32] {
    match record.source {
        Source::Own => own,
        Source::Catalogue => catalogue,
    }
}
