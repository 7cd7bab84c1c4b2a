//! What the first row and the next row reach.

use super::other_rules::{passes_by, NOWHERE, PASSING_LESS, PASSING_MORE, WHOLE};
use super::*;

pub fn of_first_row(tally: &mut Tally, mut body: Body, answer: &Answer) -> Option<()> {
    let room = body.two()? as usize;
    let table = body.table()?;
    let n = held(&table).n as usize;
    let mut faults = table_faults(&table, None);
    faults.add(12, room < 2 * n);
    faults.note_meetings(tally, 7, answer);
    note_listing(tally, 7, &table, room, answer);
    let row = answer.row(n);
    note_whole_blocking(tally, &table, &row);
    note_late_rows(tally, &table, &[], answer);
    let (order, thresholds) = row.split_at(row.len() / 2);
    let first = order.is_sorted() && thresholds.iter().all(|threshold| *threshold == 1);
    note_later_jobs(tally, &table, &row, &[]);
    tally.note("the first row of all", !row.is_empty() && first);
    tally.note("rows passed over", !row.is_empty() && !first);
    let over = !row.is_empty() && !first;
    tally.note("rows passed over at n 5 to 8", over && (5..=8).contains(&n));
    tally.note("rows passed over at n 9 to 15", over && n >= 9);
    for size in 1..=MOST_TASKS {
        tally.note(&format!("row at n {size}"), row.len() == 2 * size);
    }
    for size in 1..=4 {
        let came = answer.line.starts_with("end") && n == size;
        tally.note(&format!("end at n {size}"), came);
    }
    Some(())
}

pub fn of_next_row(tally: &mut Tally, mut body: Body, answer: &Answer) -> Option<()> {
    let room = body.two()? as usize;
    let table = body.table()?;
    let given = body.bytes()?;
    let n = held(&table).n as usize;
    let mut faults = table_faults(&table, None);
    faults.add(12, room < 2 * n);
    faults.add(17, Row::from_numbers(n, given).is_none());
    faults.note_meetings(tally, 8, answer);
    note_listing(tally, 8, &table, room, answer);
    let row = answer.row(n);
    note_whole_blocking(tally, &table, &row);
    note_late_rows(tally, &table, given, answer);
    let mut before = row.clone();
    step_back(&mut before);
    let over = !row.is_empty() && before != given;
    note_later_jobs(tally, &table, &row, given);
    tally.note("the row just behind", !row.is_empty() && before == given);
    tally.note("rows passed over", over);
    let some = (5..=8).contains(&n);
    tally.note("rows passed over at n 5 to 8", over && some);
    tally.note("rows passed over at n 9 to 15", over && n >= 9);
    let other_order = !row.is_empty() && row[..n] != given[..n];
    tally.note("a row in another order", other_order);
    tally.note("a row in another order at n 5 to 8", other_order && some);
    tally.note("a row in another order at n 9 to 15", other_order && n >= 9);
    // A single task has a single row, and none behind it.
    for size in 2..=MOST_TASKS {
        tally.note(&format!("row at n {size}"), row.len() == 2 * size);
    }
    for size in 1..=MOST_TASKS {
        let came = answer.line.starts_with("end") && n == size;
        tally.note(&format!("end at n {size}"), came);
    }
    note_bad_row(tally, n, given, answer);
    Some(())
}

/// A row that passes, and would fail if what blocks counted with all of its cost.
fn note_whole_blocking(tally: &mut Tally, table: &Table, row: &[u8]) {
    let fails = !row.is_empty() && !passes_by(&tasks_in(table, row), WHOLE);
    tally.note("a row that fails by all of what blocks", fails);
    let many = row.len() >= 18;
    tally.note(
        "a row that fails by all of what blocks at n 9 to 15",
        fails && many,
    );
}

/// How many of the rows before one that was found are looked at.
const ROWS_BEFORE: usize = 30;

/// A row that passes though a later job is the worst in it, and one between the given row and the one
/// found, near this, that was passed over for a later job alone.
fn note_later_jobs(tally: &mut Tally, table: &Table, row: &[u8], given: &[u8]) {
    let passes = !row.is_empty() && has_later_worst(&tasks_in(table, row));
    tally.note("a row with a later worst job", passes);
    let over = passed_over(row, given);
    let fails = over
        .iter()
        .any(|before| first_jobs_keep(&tasks_in(table, before)));
    tally.note_often(SELDOM, "a row passed over for a later job alone", fails);
}

/// The rows between the given one and the one found, as many as are looked at. None where none was
/// found.
fn passed_over(row: &[u8], given: &[u8]) -> Vec<Vec<u8>> {
    let mut rows = Vec::new();
    let mut after = row.to_vec();
    for _ in 0..ROWS_BEFORE {
        let mut before = after.clone();
        step_back(&mut before);
        // The first row of all stays.
        if before == after || before == given {
            break;
        }
        after = before.clone();
        rows.push(before);
    }
    rows
}

/// Rows that a rule which document 02, item 8, shuts out would have found before the one that was, or
/// before the end, or would have passed over.
fn note_late_rows(tally: &mut Tally, table: &Table, given: &[u8], answer: &Answer) {
    let n = held(table).n as usize;
    let row = answer.row(n);
    // A row that fails without any jitter fails with some of them.
    let by_jitter: Vec<Tasks> = late_rows_over(table, &row, given, answer)
        .iter()
        .map(|before| tasks_in(table, before))
        .filter(|tasks| passes_by(tasks, NOWHERE))
        .collect();
    tally.note("a row passed over for jitters alone", !by_jitter.is_empty());
    let many = !by_jitter.is_empty() && n >= 9;
    let what = "a row passed over for jitters alone at n 9 to 15";
    tally.note_often(SELDOM, what, many);
    for (what, rule) in PASSING_MORE {
        let found = by_jitter.iter().any(|tasks| passes_by(tasks, rule));
        let what = format!("a row passed over that passes by {what}");
        tally.note_often(SELDOM, &what, found);
    }
    for (what, rule) in PASSING_LESS {
        let found = !row.is_empty() && is_late(table);
        let fails = found && !passes_by(&tasks_in(table, &row), rule);
        tally.note_often(SELDOM, &format!("a row that fails by {what}"), fails);
    }
}

/// Some rows of a table with a jitter that were passed over: the last ones before the row that was
/// found, or before the end.
fn late_rows_over(table: &Table, row: &[u8], given: &[u8], answer: &Answer) -> Vec<Vec<u8>> {
    if !answer.taken() || !is_late(table) {
        return Vec::new();
    }
    if !row.is_empty() {
        return passed_over(row, given);
    }
    let last = last_row(table.n as usize);
    if last == given {
        return Vec::new();
    }
    let mut rows = passed_over(&last, given);
    rows.push(last);
    rows
}

fn has_later_worst(tasks: &Tasks) -> bool {
    let mut jobs = (0..tasks.n).filter_map(|i| differences(tasks, i));
    jobs.any(|all| reaching(&all)[0] > 0)
}

/// Whether no task is beyond, and the first job of each keeps the deadline.
fn first_jobs_keep(tasks: &Tasks) -> bool {
    (0..tasks.n).all(|i| {
        let all = differences(tasks, i);
        all.is_some_and(|all| all[0] <= tasks.deadline[i] as i64)
    })
}

fn note_listing(tally: &mut Tally, kind: u8, table: &Table, room: usize, answer: &Answer) {
    let n = held(table).n as usize;
    note_table(tally, kind, table, answer);
    note_counts(tally, table.n, None, answer);
    note_room(tally, room, 2 * n, answer);
    let own = answer.taken() && assignment_wrong(&held(table));
    tally.note("answered for a table of a bad assignment", own);
    let none = answer.taken() && unassigned(&held(table));
    tally.note("answered for an unassigned table", none);
}

/// What is wrong with a row that was turned away.
fn note_bad_row(tally: &mut Tally, n: usize, given: &[u8], answer: &Answer) {
    let bad = answer.refused(17);
    tally.note("no row turned away", bad && given.is_empty());
    tally.note("a number less turned away", bad && given.len() + 1 == 2 * n);
    tally.note("a number more turned away", bad && given.len() == 2 * n + 1);
    let whole = bad && given.len() == 2 * n;
    let (order, thresholds) = given.split_at(n.min(given.len()));
    let top = n as u8;
    tally.note("record 0 in a row", whole && order.contains(&0));
    tally.note("record n + 1 in a row", whole && order.contains(&(top + 1)));
    let mut sorted = order.to_vec();
    sorted.sort();
    let inside = sorted.iter().all(|record| 1 <= *record && *record <= top);
    let twice = sorted.windows(2).any(|two| two[0] == two[1]);
    tally.note("a record twice in a row", whole && inside && twice);
    let good_order = whole && inside && !twice;
    let threshold = |value| good_order && thresholds.contains(&value);
    tally.note("threshold 0 in a row", threshold(0));
    tally.note("threshold n + 1 in a row", threshold(top + 1));
    let in_range = thresholds.iter().all(|t| 1 <= *t && *t <= top);
    let above = good_order && in_range;
    tally.note("a threshold above its priority in a row", above);
}
