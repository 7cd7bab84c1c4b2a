//! What the calls on a table reach of its jitters (document 02, item 8).

use super::*;

/// How many of a call's tables are to have a jitter, at the least, and how many none: a half each,
/// but for what comes of chance and of periods of 1. Of the tables that are written as edition 1 fewer
/// have one, as no file comes of these.
fn shares(kind: u8) -> ((u64, u64), (u64, u64)) {
    if kind == 2 {
        ((1, 5), (3, 5))
    } else {
        ((2, 5), (2, 5))
    }
}

/// Half of the tables with a jitter, all others without, and jitters at their limits.
pub fn note_jitters(tally: &mut Tally, kind: u8, table: &Table, answer: &Answer) {
    let late = is_late(table);
    let (with, without) = shares(kind);
    tally.note_share(with, "a jitter in the table", late);
    tally.note_share(without, "no jitter in the table", !late);
    note_taken(tally, kind, table, answer);
    let unread = &table.records[held(table).n as usize..];
    let past = unread.iter().any(|record| record.jitter > 0);
    let alone = answer.taken() && !late && past;
    tally.note("a jitter past record n alone", alone);
}

/// Jitters inside their range, in a call that came to look at more than that.
fn note_taken(tally: &mut Tally, kind: u8, table: &Table, answer: &Answer) {
    let came = match kind {
        2 => answer.refused(19),
        14 => answer.taken() || answer.refused(19),
        4..=6 | 13 => answer.taken() || answer.refused(16),
        _ => answer.taken(),
    };
    // A deadline is nothing to writing and to regions.
    let by_deadline = if [2, 10, 12, 14].contains(&kind) {
        SELDOM
    } else {
        LEAST
    };
    let limits: [(u64, &str, fn(u32, &Record) -> bool); 6] = [
        (LEAST, "1", |jitter, _| jitter == 1),
        (LEAST, "the period less 1", |jitter, task| {
            jitter + 1 == task.period
        }),
        (by_deadline, "the deadline less 1", |jitter, task| {
            jitter + 1 == task.deadline
        }),
        (by_deadline, "the deadline", |jitter, task| {
            jitter == task.deadline
        }),
        (by_deadline, "the deadline and 1", |jitter, task| {
            jitter - 1 == task.deadline
        }),
        (LEAST, "more than 1, below all limits", |jitter, task| {
            1 < jitter && jitter + 1 < task.period.min(task.deadline)
        }),
    ];
    let seen = if came { held(table) } else { Table::default() };
    let in_range = |task: &&Record| 0 < task.jitter && task.jitter < task.period;
    for (wanted, what, is) in limits {
        let mut late = seen.tasks().iter().filter(in_range);
        let has = late.any(|task| is(task.jitter, task));
        tally.note_often(wanted, &format!("a jitter of {what}"), has);
    }
}

/// Jitters out of their range where no other number of the table is. Whether the call was turned away
/// by 9, and for the table, is known to the caller.
pub fn note_bad_jitters(tally: &mut Tally, table: &Table, turned_away: bool) {
    let seen = held(table);
    let wrong = |task: &&Record| task.jitter >= task.period;
    let alone = turned_away && !numbers_wrong(&without_jitters(&seen));
    let has = |what: fn(&Record) -> bool| alone && seen.tasks().iter().filter(wrong).any(what);
    tally.note("9 by a jitter alone", has(|_| true));
    for (what, came) in [
        ("the period", has(|task| task.jitter == task.period)),
        (
            "the period and 1",
            has(|task| task.jitter == task.period + 1),
        ),
        ("more", has(|task| task.jitter > task.period + 1)),
        (
            "less than the deadline",
            has(|task| task.jitter < task.deadline),
        ),
        ("4294967295", has(|task| task.jitter == u32::MAX)),
    ] {
        tally.note(&format!("9 by a jitter of {what}"), came);
    }
    let mut all = seen.tasks().iter();
    let at_most = all.all(|task| task.jitter <= task.period);
    let equal = alone && at_most && has(|_| true);
    tally.note("9 by a jitter of the period and no other", equal);
}

pub fn without_jitters(table: &Table) -> Table {
    let mut table = *table;
    for record in &mut table.records {
        record.jitter = 0;
    }
    table
}
