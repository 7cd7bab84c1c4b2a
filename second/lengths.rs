//! Tolerances, lengths and the region check (document 01, "The analysis", after source document
//! 000; the lengths as document 02, item 5, settles them, with the jitter of its item 8). Thresholds
//! play no part.

use crate::analysis::{arrived, Tasks};
use crate::checks::{self, *};
use crate::table::*;

/// Tolerance of every task. Asks 5, 9, 10, 14, 15, and 16 of a task that has none; one below zero
/// is a number here.
pub fn tolerances(table: &Table) -> Result<Vec<i64>, Refusal> {
    let all = asked_tolerances(table)?;
    refuse_16(&all, |tolerance| tolerance.is_none())?;
    Ok(all.into_iter().flatten().collect())
}

/// Length of every task. Asks the same, but 16 of a tolerance below zero as well.
pub fn lengths(table: &Table) -> Result<Vec<i64>, Refusal> {
    let all = asked_tolerances(table)?;
    refuse_16(&all, |tolerance| {
        tolerance.is_none_or(|tolerance| tolerance < 0)
    })?;
    let tolerances: Vec<i64> = all.into_iter().flatten().collect();
    let tasks = Tasks::of(table);
    Ok((0..tasks.n)
        .map(|k| length(&tasks, &tolerances, k))
        .collect())
}

/// What both ask before 16, and then the tolerance of every task, `None` where it has none.
fn asked_tolerances(table: &Table) -> Result<Vec<Option<i64>>, Refusal> {
    ask_counts_and_numbers(table)?;
    refuse(10, assignment_wrong(table))?;
    refuse(14, unassigned(table))?;
    refuse(15, deadline_above_period(table))?;
    let tasks = Tasks::of(table);
    Ok((0..tasks.n).map(|i| tolerance(&tasks, i)).collect())
}

/// 16 of the lowest record whose tolerance is a fault.
fn refuse_16(all: &[Option<i64>], fault: impl Fn(Option<i64>) -> bool) -> Result<(), Refusal> {
    match all.iter().position(|tolerance| fault(*tolerance)) {
        Some(lowest) => Err(Refusal {
            number: 16,
            record: Some(lowest + 1),
        }),
        None => Ok(()),
    }
}

/// Yes exactly when every region of every task is at most its task's length. Asks 5 of n and m,
/// 9, 10, 11, 14, 15, 16.
pub fn regions_fit(table: &Table, own: &[u32], catalogue: &[u32]) -> Result<bool, Refusal> {
    refuse(
        5,
        task_count_wrong(table.n) || region_count_wrong(own.len()),
    )?;
    refuse(9, numbers_wrong(table))?;
    refuse(10, assignment_wrong(table))?;
    refuse(11, regions_wrong(table, own, catalogue))?;
    let lengths = lengths(table)?;
    Ok(table.tasks().iter().zip(lengths).all(|(task, length)| {
        let regions = checks::regions(task, own, catalogue).unwrap_or(&[]);
        regions.iter().all(|word| *word as i64 <= length)
    }))
}

/// The largest of t - C(i) - sum over p(j) < p(i) of ceil((t + J(j))/T(j))·C(j), for t from 1 to
/// D(i) - J(i), or `None` where that leaves no t. No ceiling changes while each t + J(j) stays
/// between two multiples of T(j), so in such a stretch the last t gives the most, and only the ends
/// of stretches are tried.
fn tolerance(tasks: &Tasks, i: usize) -> Option<i64> {
    let last = tasks.deadline[i].saturating_sub(tasks.jitter[i]);
    let mut largest = None;
    let mut t = 1;
    while t <= last {
        let end = end_of_stretch(tasks, i, t).min(last);
        largest = largest.max(Some(spare_at(tasks, i, end)));
        t = end + 1;
    }
    largest
}

/// The last instant from t up at which every ceiling is still that of t; there is no last one where
/// no task is above.
fn end_of_stretch(tasks: &Tasks, i: usize, t: u64) -> u64 {
    let mut end = u64::MAX;
    for j in above(tasks, i) {
        end = end.min(arrived(tasks, j, t) * tasks.period[j] - tasks.jitter[j]);
    }
    end
}

fn spare_at(tasks: &Tasks, i: usize, t: u64) -> i64 {
    let mut spare = t as i64 - tasks.cost[i] as i64;
    for j in above(tasks, i) {
        spare -= (arrived(tasks, j, t) * tasks.cost[j]) as i64;
    }
    spare
}

/// The smaller of C(k) and the least tolerance of the tasks above k plus 1; C(k) if none is above.
/// A region's first tick is over when a higher task arrives, so it holds that one up for a tick
/// less than it is long.
fn length(tasks: &Tasks, tolerances: &[i64], k: usize) -> i64 {
    let mut least = tasks.cost[k] as i64;
    for i in above(tasks, k) {
        least = least.min(tolerances[i] + 1);
    }
    least
}

/// The tasks of higher priority than i.
pub fn above(tasks: &Tasks, i: usize) -> impl Iterator<Item = usize> + '_ {
    (0..tasks.n).filter(move |j| tasks.priority[*j] < tasks.priority[i])
}
