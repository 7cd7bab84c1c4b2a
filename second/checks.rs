//! The conditions of document 01, "Numbers a turned-away call returns", each by itself, with 18 of
//! document 02, item 1, and 19 of its item 8. A call asks its own numbers one by one, and the first
//! that applies wins; a condition may therefore rely on those that its call asks before it. They are
//! asked from the lowest up, but for three: 18 comes straight after 2 in reading and straight after
//! 5 in writing, 19 comes between 11 and 12, and a record's regions, like the last of them, are asked
//! 13 before 11.

use crate::table::*;
use std::fmt;

/// A turned-away call's number; 16 names a record too.
#[derive(Clone, Copy, Debug, PartialEq, Eq)]
pub struct Refusal {
    pub number: u8,
    pub record: Option<usize>,
}

impl Refusal {
    pub fn of(number: u8) -> Refusal {
        Refusal {
            number,
            record: None,
        }
    }
}

impl fmt::Display for Refusal {
    fn fmt(&self, out: &mut fmt::Formatter) -> fmt::Result {
        write!(out, "refused {}", self.number)?;
        match self.record {
            Some(record) => write!(out, " record {record}"),
            None => Ok(()),
        }
    }
}

/// Turns the call away with this number when the condition holds.
pub fn refuse(number: u8, when: bool) -> Result<(), Refusal> {
    if when {
        Err(Refusal::of(number))
    } else {
        Ok(())
    }
}

/// 18, of a file or of a plate: cabinet 0 or line 0.
pub fn blank(cabinet: u32, line: u32) -> bool {
    cabinet == 0 || line == 0
}

/// 5, for n.
pub fn task_count_wrong(n: u8) -> bool {
    n < 1 || n as usize > MOST_TASKS
}

/// 5, for m. Outside a file, m is the length of the lent list of region words.
pub fn region_count_wrong(m: usize) -> bool {
    m > MOST_REGION_WORDS
}

/// 9, but for the cabinet, which only the writing asks.
pub fn numbers_wrong(table: &Table) -> bool {
    table.tasks().iter().any(|task| {
        ticks_wrong(task.cost)
            || ticks_wrong(task.period)
            || ticks_wrong(task.deadline)
            || task.name > MOST_NAME_NUMBER
            || jitter_wrong(task)
    })
}

/// A jitter lies from 0 to T - 1, whatever the deadline is.
fn jitter_wrong(task: &Record) -> bool {
    task.jitter >= task.period
}

/// The range of costs, periods, deadlines and region words.
pub fn ticks_wrong(ticks: u32) -> bool {
    ticks < 1 || ticks > MOST_TICKS
}

/// 19, of edition 1: it has no place for a jitter, so a table is written as such a file only where
/// every one is 0.
pub fn some_jitter(table: &Table) -> bool {
    table.tasks().iter().any(|task| task.jitter != 0)
}

/// 10: neither all zero nor well formed.
pub fn assignment_wrong(table: &Table) -> bool {
    !unassigned(table) && !well_formed(table)
}

/// 14: all priorities and thresholds are zero.
pub fn unassigned(table: &Table) -> bool {
    table
        .tasks()
        .iter()
        .all(|task| task.priority == 0 && task.threshold == 0)
}

/// The priorities are 1 to n, each once, and each threshold lies from 1 to the task's own
/// priority.
fn well_formed(table: &Table) -> bool {
    let tasks = table.tasks();
    let each_once = (1..=tasks.len() as u32).all(|priority| {
        tasks
            .iter()
            .filter(|task| task.priority == priority)
            .count()
            == 1
    });
    let thresholds = tasks
        .iter()
        .all(|task| 1 <= task.threshold && task.threshold <= task.priority);
    each_once && thresholds
}

/// 11: a region word or a task's regions break the rules. Every own word is looked at, named by
/// a record or not; of the catalogue only the words that a record names.
pub fn regions_wrong(table: &Table, own: &[u32], catalogue: &[u32]) -> bool {
    own.iter().any(|word| ticks_wrong(*word))
        || table
            .tasks()
            .iter()
            .any(|task| regions(task, own, catalogue).is_none())
}

/// One task's regions, or nothing where they break the rules: count at least 1, first and count
/// at most 127, all words inside the list, each word in range, and together the task's cost.
pub fn regions<'a>(task: &Record, own: &'a [u32], catalogue: &'a [u32]) -> Option<&'a [u32]> {
    let list = match task.source {
        Source::Own => own,
        Source::Catalogue => catalogue,
    };
    if task.count < 1 || task.count > MOST_REGION_PLACE || task.first > MOST_REGION_PLACE {
        return None;
    }
    let first = task.first as usize;
    let words = list.get(first..first + task.count as usize)?;
    if words.iter().any(|word| ticks_wrong(*word)) {
        return None;
    }
    let sum: u64 = words.iter().map(|word| *word as u64).sum();
    if sum == task.cost as u64 {
        Some(words)
    } else {
        None
    }
}

/// 15: a deadline above its period.
pub fn deadline_above_period(table: &Table) -> bool {
    table.tasks().iter().any(|task| task.deadline > task.period)
}

/// What response times, tolerances, lengths and listing ask before anything else: 5 of n alone,
/// as they are lent no region words, and 9.
pub fn ask_counts_and_numbers(table: &Table) -> Result<(), Refusal> {
    refuse(5, task_count_wrong(table.n))?;
    refuse(9, numbers_wrong(table))
}
