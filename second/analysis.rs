//! Response times (document 01, "The analysis", with the blocking that document 02, item 5,
//! settles, the worst job of item 4 and the jitter of item 8). p is priority, h threshold, J jitter,
//! and a smaller number is the higher priority.

use crate::checks::*;
use crate::table::*;

/// Nothing above this many ticks counts as a solution.
const HORIZON: u64 = 1_000_000;

/// The tasks as the equations see them: task i here is record i + 1.
#[derive(Clone, Copy)]
pub struct Tasks {
    pub n: usize,
    pub cost: [u64; MOST_TASKS],
    pub period: [u64; MOST_TASKS],
    pub deadline: [u64; MOST_TASKS],
    pub jitter: [u64; MOST_TASKS],
    pub priority: [u32; MOST_TASKS],
    pub threshold: [u32; MOST_TASKS],
}

impl Tasks {
    pub fn of(table: &Table) -> Tasks {
        Tasks {
            n: table.n as usize,
            cost: table.records.map(|record| record.cost as u64),
            period: table.records.map(|record| record.period as u64),
            deadline: table.records.map(|record| record.deadline as u64),
            jitter: table.records.map(|record| record.jitter as u64),
            priority: table.records.map(|record| record.priority),
            threshold: table.records.map(|record| record.threshold),
        }
    }
}

/// What a task's jobs come to: R(i), and the number k of the job that reaches it, the first where
/// several do (document 02, item 4). Jobs of an active period count from 0.
#[derive(Clone, Copy, Debug, PartialEq, Eq)]
pub struct Response {
    pub time: i64,
    pub job: u64,
}

/// The response of every task, `None` where it is beyond. Asks 5, 9, 10, 14.
pub fn response_times(table: &Table) -> Result<Vec<Option<Response>>, Refusal> {
    ask_counts_and_numbers(table)?;
    refuse(10, assignment_wrong(table))?;
    refuse(14, unassigned(table))?;
    let tasks = Tasks::of(table);
    Ok((0..tasks.n).map(|i| response(&tasks, i)).collect())
}

/// R(i), the largest F + J(i) - k·T(i) over the jobs of the active period, and the first k that has
/// it; `None` is "beyond". All jobs are gone through, as any of them may be beyond. Only L, S and F
/// are held to the horizon: R may lie above it by the jitter.
pub fn response(tasks: &Tasks, i: usize) -> Option<Response> {
    let b = blocking(tasks, i);
    let mut worst: Option<Response> = None;
    let mut s = 0;
    for k in 0..jobs(tasks, i, b)? {
        s = start(tasks, i, b, k, s)?;
        let f = finish(tasks, i, s)?;
        let time = (f + tasks.jitter[i]) as i64 - (k * tasks.period[i]) as i64;
        // A later job that only reaches the same value isn't the first.
        if worst.is_none_or(|worst| worst.time < time) {
            worst = Some(Response { time, job: k });
        }
    }
    worst
}

/// An assignment passes when every R(i) exists and R(i) ≤ D(i).
pub fn passes(tasks: &Tasks) -> bool {
    (0..tasks.n).all(|i| task_passes(tasks, i).is_some())
}

/// The same jobs as in `response`, given up at the first that is beyond or late.
fn task_passes(tasks: &Tasks, i: usize) -> Option<()> {
    let b = blocking(tasks, i);
    let mut s = 0;
    for k in 0..jobs(tasks, i, b)? {
        s = start(tasks, i, b, k, s)?;
        let f = finish(tasks, i, s)?;
        if f + tasks.jitter[i] > k * tasks.period[i] + tasks.deadline[i] {
            return None;
        }
    }
    Some(())
}

/// B(i), the largest C(j) with h(j) ≤ p(i) < p(j), or 0.
pub fn largest_blocker(tasks: &Tasks, i: usize) -> u64 {
    let mut largest = 0;
    for j in 0..tasks.n {
        if tasks.threshold[j] <= tasks.priority[i] && tasks.priority[i] < tasks.priority[j] {
            largest = largest.max(tasks.cost[j]);
        }
    }
    largest
}

/// The blocking b that stands in L and S: a job that is in the way began at an earlier tick than
/// the arrival, so at least one tick of its cost is over by then. B - 1, or 0 where B is 0
/// (document 02, item 5).
pub fn blocking(tasks: &Tasks, i: usize) -> u64 {
    largest_blocker(tasks, i).saturating_sub(1)
}

/// ceil((L + J(i))/T(i)): jobs k run from 0 to one less.
pub fn jobs(tasks: &Tasks, i: usize, b: u64) -> Option<u64> {
    Some(arrived(tasks, i, active_period(tasks, i, b)?))
}

/// How many jobs of a task come before t, at the most: ceil((t + J(j))/T(j)). The first of them may
/// be late by the whole jitter and those behind it in time, so that they stand that much closer.
pub fn arrived(tasks: &Tasks, j: usize, t: u64) -> u64 {
    (t + tasks.jitter[j]).div_ceil(tasks.period[j])
}

/// L(i), the smallest positive L with L = b + sum over p(j) ≤ p(i) of ceil((L + J(j))/T(j))·C(j).
/// The climb begins at 1, so that the trivial answer 0 is passed over.
pub fn active_period(tasks: &Tasks, i: usize, b: u64) -> Option<u64> {
    climb(1, |l| {
        let mut sum = b;
        for j in 0..tasks.n {
            if tasks.priority[j] <= tasks.priority[i] {
                sum += arrived(tasks, j, l) * tasks.cost[j];
            }
        }
        sum
    })
}

/// S of job k, the smallest S ≥ 0 with S = b + k·C(i) + sum over p(j) < p(i) of
/// started(j)·C(j). The right side grows with k, so S of the job before (0 for the first) lies
/// at or below the answer and the climb may begin there.
pub fn start(tasks: &Tasks, i: usize, b: u64, k: u64, before: u64) -> Option<u64> {
    climb(before, |s| {
        let mut sum = b + k * tasks.cost[i];
        for j in 0..tasks.n {
            if tasks.priority[j] < tasks.priority[i] {
                sum += started(tasks, j, s) * tasks.cost[j];
            }
        }
        sum
    })
}

/// How many jobs of a higher task have come by the start S, 1 + floor((S + J(j))/T(j)). One that
/// arrives at the very tick of the start goes first and counts too, whether something blocks or not
/// (document 02, item 5).
fn started(tasks: &Tasks, j: usize, s: u64) -> u64 {
    1 + (s + tasks.jitter[j]) / tasks.period[j]
}

/// F of the job that starts at S, the smallest F > S with F = S + C(i) + sum over p(j) < h(i)
/// of (ceil((F + J(j))/T(j)) - started(j))·C(j). For F > S no difference is below zero, so no
/// solution lies below S + C(i) and the climb begins there.
pub fn finish(tasks: &Tasks, i: usize, s: u64) -> Option<u64> {
    let mut begun = [0; MOST_TASKS];
    for j in 0..tasks.n {
        if tasks.priority[j] < tasks.threshold[i] {
            begun[j] = started(tasks, j, s);
        }
    }
    climb(s + tasks.cost[i], |f| {
        let mut sum = s + tasks.cost[i];
        for j in 0..tasks.n {
            if tasks.priority[j] < tasks.threshold[i] {
                sum += (arrived(tasks, j, f) - begun[j]) * tasks.cost[j];
            }
        }
        sum
    })
}

/// The smallest solution of x = side(x) from `from` up, or `None` if there is none at or below
/// the horizon. `side` never falls as x grows and side(from) ≥ from, so x climbs from below and
/// cannot step over a solution. At 1,000,000 ticks and fifteen tasks a side is below 10^14.
pub fn climb(from: u64, side: impl Fn(u64) -> u64) -> Option<u64> {
    let mut x = from;
    while x <= HORIZON {
        let next = side(x);
        if next == x {
            return Some(x);
        }
        x = next;
    }
    None
}
