//! The test for firmware that yields only where a region ends (document 02, item 2, after Theorem 3
//! of source document 000, with the jitter of item 8). A task's last region can't be cut: what can
//! still make the task late must happen before that region begins. Thresholds play no part.
//!
//! The test is sufficient only. Where every task passes, all keep their deadlines: that is the
//! theorem, which has no jitter. Of a task that doesn't pass nothing at all is said, and it may well
//! be in time.

use crate::analysis::{arrived, Tasks};
use crate::checks::{self, Refusal};
use crate::lengths::{above, regions_fit};
use crate::table::*;

/// What the test says of a task. There is no third word for one that fails, as it finds none.
#[derive(Clone, Copy, Debug, PartialEq, Eq)]
pub enum Verdict {
    Passes,
    /// Not shown to pass, which isn't shown to fail.
    Unshown,
}

/// The verdict on every task. Asks what the region check asks, and so calls it first: 5 of n and m,
/// 9, 10, 11, 14, 15, 16. Whether the regions fit plays no part.
pub fn fixed_points(
    table: &Table,
    own: &[u32],
    catalogue: &[u32],
) -> Result<Vec<Verdict>, Refusal> {
    regions_fit(table, own, catalogue)?;
    let tasks = Tasks::of(table);
    let regions: Vec<&[u32]> = table
        .tasks()
        .iter()
        .map(|task| checks::regions(task, own, catalogue).unwrap_or(&[]))
        .collect();
    Ok((0..tasks.n).map(|i| verdict(&tasks, &regions, i)).collect())
}

fn verdict(tasks: &Tasks, regions: &[&[u32]], i: usize) -> Verdict {
    if shown(tasks, i, alpha(tasks, regions, i), last_region(regions[i])) {
        Verdict::Passes
    } else {
        Verdict::Unshown
    }
}

/// alpha(i), Equation (8): the longest region of any task of lower priority, 0 where there is none.
/// No tick of it is taken off (document 02, item 5).
fn alpha(tasks: &Tasks, regions: &[&[u32]], i: usize) -> u64 {
    let mut longest = 0;
    for k in 0..tasks.n {
        if tasks.priority[k] > tasks.priority[i] {
            for word in regions[k] {
                longest = longest.max(*word as u64);
            }
        }
    }
    longest
}

/// q(i). A task has one region at the least once 11 is asked.
fn last_region(regions: &[u32]) -> u64 {
    regions.last().map_or(0, |word| *word as u64)
}

/// Nothing holds the task up (alpha is 0: it has its tolerance), or at some t from 1 to
/// D(i) - J(i) - q all that goes before its last region is done, so that this one begins in time.
/// Every t is tried, one after the other.
fn shown(tasks: &Tasks, i: usize, alpha: u64, q: u64) -> bool {
    let last = tasks.deadline[i].saturating_sub(tasks.jitter[i] + q);
    alpha == 0 || (1..=last).any(|t| before_last_region(tasks, i, q, t) + alpha <= t)
}

/// Definition (18): (C(i) - q) + sum over p(j) < p(i) of ceil((t + J(j))/T(j))·C(j).
fn before_last_region(tasks: &Tasks, i: usize, q: u64, t: u64) -> u64 {
    let mut sum = tasks.cost[i] - q;
    for j in above(tasks, i) {
        sum += arrived(tasks, j, t) * tasks.cost[j];
    }
    sum
}
