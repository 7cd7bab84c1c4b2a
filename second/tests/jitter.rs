//! Document 02, item 8: a jitter J to each task. The tables are worked out by hand, and beside each
//! answer stands the one that a rule with no J in one place would give. The equations are tried out
//! value by value, with J in every place or in all but one; many random tables are run so, and tick
//! by tick. What turns a call away stands at the end.

use super::brute::rows_number_by_number;
use super::worst::{answered, first_largest, run};
use super::*;
use crate::analysis::{active_period, blocking, jobs, passes, Tasks};
use crate::file::{read, write};
use crate::lengths::{lengths, regions_fit, tolerances};
use crate::listing::{first_row, next_row, Walk};
use crate::parts;

const HORIZON: i64 = 1_000_000;

/// A table of (C, T, D, J) with priorities 1 to n in the order of the records.
fn rising(tasks: &[(u32, u32, u32, u32)], thresholds: &[u32]) -> Table {
    let timed: Vec<_> = tasks.iter().map(|(c, t, d, _)| (*c, *t, *d)).collect();
    let priorities: Vec<u32> = (1..=tasks.len() as u32).collect();
    let mut table = assigned(&timed, &priorities, thresholds);
    for (record, (_, _, _, jitter)) in table.records.iter_mut().zip(tasks) {
        record.jitter = *jitter;
    }
    table
}

/// A (2,5,5) above B (4,10,10) with these jitters.
fn two(jitter_of_a: u32, jitter_of_b: u32) -> Table {
    rising(&[(2, 5, 5, jitter_of_a), (4, 10, 10, jitter_of_b)], &[1, 2])
}

fn passing(table: &Table) -> bool {
    passes(&Tasks::of(table))
}

/// L of this record, and how many jobs it gives.
fn period_and_jobs(table: &Table, record: usize) -> (Option<u64>, Option<u64>) {
    let tasks = Tasks::of(table);
    let (i, b) = (record - 1, blocking(&tasks, record - 1));
    (active_period(&tasks, i, b), jobs(&tasks, i, b))
}

// ---- value by value

/// Where a jitter stands.
#[derive(Clone, Copy, Debug, PartialEq, Eq)]
enum Place {
    /// The sum of L, of a higher task and of the task itself.
    LAbove,
    LOwn,
    JobCount,
    Start,
    /// The ceiling of F, and the jobs that have come by S.
    FCeiling,
    FStarted,
    Response,
    ToleranceRange,
    ToleranceSum,
}

/// The equations with J in every place, or in all but one.
struct Equations<'a> {
    tasks: &'a [Record],
    left_out: Option<Place>,
}

fn ceil(above: i64, below: u32) -> i64 {
    (above + below as i64 - 1).div_euclid(below as i64)
}

fn floor(above: i64, below: u32) -> i64 {
    above.div_euclid(below as i64)
}

impl Equations<'_> {
    fn j(&self, task: &Record, place: Place) -> i64 {
        if self.left_out == Some(place) {
            0
        } else {
            task.jitter as i64
        }
    }

    fn above(&self, i: &Record) -> impl Iterator<Item = &Record> {
        let p = i.priority;
        self.tasks.iter().filter(move |j| j.priority < p)
    }

    fn blocking(&self, i: &Record) -> i64 {
        let in_the_way = |j: &&Record| j.threshold <= i.priority && i.priority < j.priority;
        let costs = self.tasks.iter().filter(in_the_way).map(|j| j.cost as i64);
        costs.max().map_or(0, |b| b - 1)
    }

    fn active_period(&self, i: &Record) -> Option<i64> {
        let b = self.blocking(i);
        (1..=HORIZON).find(|l| {
            let own = ceil(l + self.j(i, Place::LOwn), i.period) * i.cost as i64;
            let come = |j: &Record| ceil(l + self.j(j, Place::LAbove), j.period) * j.cost as i64;
            *l == b + own + self.above(i).map(come).sum::<i64>()
        })
    }

    fn jobs(&self, i: &Record) -> Option<i64> {
        let l = self.active_period(i)?;
        Some(ceil(l + self.j(i, Place::JobCount), i.period))
    }

    fn start(&self, i: &Record, k: i64) -> Option<i64> {
        let b = self.blocking(i);
        (0..=HORIZON).find(|s| {
            let come = |j: &Record| 1 + floor(s + self.j(j, Place::Start), j.period);
            let higher = self.above(i).map(|j| come(j) * j.cost as i64);
            *s == b + k * i.cost as i64 + higher.sum::<i64>()
        })
    }

    fn finish(&self, i: &Record, s: i64) -> Option<i64> {
        (s + 1..=HORIZON).find(|f| {
            let come = |j: &Record| ceil(f + self.j(j, Place::FCeiling), j.period);
            let started = |j: &Record| 1 + floor(s + self.j(j, Place::FStarted), j.period);
            let cutting = self.above(i).filter(|j| j.priority < i.threshold);
            let cut = cutting.map(|j| (come(j) - started(j)) * j.cost as i64);
            *f == s + i.cost as i64 + cut.sum::<i64>()
        })
    }

    /// R and k over the first so many jobs.
    fn response_of(&self, i: &Record, jobs: i64) -> Option<(i64, u64)> {
        let difference = |k: i64| {
            let f = self.finish(i, self.start(i, k)?)?;
            Some(f + self.j(i, Place::Response) - k * i.period as i64)
        };
        let differences: Option<Vec<i64>> = (0..jobs).map(difference).collect();
        Some(first_largest(&differences?))
    }

    fn response(&self, i: &Record) -> Option<(i64, u64)> {
        self.response_of(i, self.jobs(i)?)
    }

    fn tolerance(&self, i: &Record) -> Option<i64> {
        let last = i.deadline as i64 - self.j(i, Place::ToleranceRange);
        let at = |t: i64| {
            let come = |j: &Record| ceil(t + self.j(j, Place::ToleranceSum), j.period);
            let higher = self.above(i).map(|j| come(j) * j.cost as i64);
            t - i.cost as i64 - higher.sum::<i64>()
        };
        (1..=last).map(at).max()
    }
}

fn with_all(table: &Table) -> Equations<'_> {
    Equations {
        tasks: table.tasks(),
        left_out: None,
    }
}

fn without(table: &Table, place: Place) -> Equations<'_> {
    Equations {
        tasks: table.tasks(),
        left_out: Some(place),
    }
}

/// The record's R and k, which would be something else with no J in this place.
fn response_shows(
    table: &Table,
    record: usize,
    right: Option<(i64, u64)>,
    (place, wrong): (Place, Option<(i64, u64)>),
) {
    let task = &table.records[record - 1];
    assert_eq!(answered(table)[record - 1], right, "{place:?}");
    assert_eq!(with_all(table).response(task), right, "{place:?}");
    assert_eq!(without(table, place).response(task), wrong, "{place:?}");
    assert_ne!(right, wrong, "{place:?}");
}

/// The same of a tolerance.
fn tolerance_shows(table: &Table, record: usize, right: i64, (place, wrong): (Place, i64)) {
    let task = &table.records[record - 1];
    let answer = tolerances(table).map(|all| all[record - 1]);
    assert_eq!(answer, Ok(right), "{place:?}");
    assert_eq!(with_all(table).tolerance(task), Some(right), "{place:?}");
    let other = without(table, place).tolerance(task);
    assert_eq!(other, Some(wrong), "{place:?}");
    assert_ne!(right, wrong, "{place:?}");
}

// ---- response times, place by place

/// One task (1,2), J 1: L = 1, as ceil((1 + 1)/2) = 1; F = 1, R = 1 + 1.
#[test]
fn in_r() {
    let table = rising(&[(1, 2, 2, 1)], &[1]);
    let wrong = (Place::Response, Some((1, 0)));
    response_shows(&table, 1, Some((2, 0)), wrong);
    assert!(passing(&table));
    let late = rising(&[(1, 2, 1, 1)], &[1]);
    assert!(!passing(&late));
}

/// A (1,2), J 1, above B (1,3), which it doesn't cut. A comes at 0, 1, 3. B: L = 2·1 + 1 = 3, one
/// job. S = 2, as 1 + floor((2 + 1)/2) = 2, and F = 3. With no J it is 1, as 1 + floor(1/2) = 1.
#[test]
fn in_the_sum_of_s() {
    let table = rising(&[(1, 2, 2, 1), (1, 3, 3, 0)], &[1, 1]);
    let wrong = (Place::Start, Some((2, 0)));
    response_shows(&table, 2, Some((3, 0)), wrong);
}

/// A (1,3), J 1, above B (2,4), which it cuts. A comes at 0, 2, 5. B: L = 2·1 + 2 = 4, one job. S = 1,
/// as 1 + floor((1 + 1)/3) = 1, and F = 1 + 2 + 1 = 4, as ceil((4 + 1)/3) - 1 = 1. With no J in the
/// ceiling F is 3, as ceil(3/3) - 1 = 0.
#[test]
fn in_the_ceiling_of_f() {
    let table = rising(&[(1, 3, 3, 1), (2, 4, 4, 0)], &[1, 2]);
    let wrong = (Place::FCeiling, Some((3, 0)));
    response_shows(&table, 2, Some((4, 0)), wrong);
}

/// A (1,3), J 2, above B (1,2), which it cuts. A comes at 0, 1, 4. B: L = 2·1 + 2·1 = 4, two jobs.
///
/// - job 0: S = 2, as 1 + floor((2 + 2)/3) = 2, F = 2 + 1 + 0 = 3, as ceil((3 + 2)/3) - 2 = 0: 3
/// - job 1: S = 1 + 2 = 3, F = 3 + 1 + 0 = 4, as ceil((4 + 2)/3) - 2 = 0: 2
///
/// With no J in what has started, 1 + floor(2/3) = 1, and of job 0 F = 2 + 1 + 1 = 4. With none in
/// the ceiling F - ceil(F/3) = 3 - 2 has the solution 2 alone, which doesn't lie above S: beyond.
#[test]
fn in_what_has_started() {
    let table = rising(&[(1, 3, 3, 2), (1, 2, 4, 0)], &[1, 2]);
    let wrong = (Place::FStarted, Some((4, 0)));
    response_shows(&table, 2, Some((3, 0)), wrong);
    response_shows(&table, 2, Some((3, 0)), (Place::FCeiling, None));
}

/// The table of `in_the_sum_of_s`: with no J, L(B) = 1 + 1 = 2 in place of 3. The answer shows it
/// only at the horizon: A (300000,1000000), J 500,000, above B (600000,1000000), which it doesn't
/// cut. S = 300,000, as 1 + floor(800,000/1,000,000) = 1, and F = 900,000. But by then A has come
/// again, ceil(1,400,000/1,000,000) = 2, and L would be 1,200,000: beyond. With no J in L it is
/// 900,000.
#[test]
fn in_the_sum_of_l() {
    let small = rising(&[(1, 2, 2, 1), (1, 3, 3, 0)], &[1, 1]);
    assert_eq!(period_and_jobs(&small, 2), (Some(3), Some(1)));
    let task = &small.records[1];
    assert_eq!(without(&small, Place::LAbove).active_period(task), Some(2));
    let most = 1_000_000;
    let tasks = [(300_000, most, most, 500_000), (600_000, most, most, 0)];
    let large = rising(&tasks, &[1, 1]);
    let wrong = (Place::LAbove, Some((900_000, 0)));
    response_shows(&large, 2, None, wrong);
}

/// One task (2,3), J 2: L = 4, as ceil((4 + 2)/3) = 2; with no J of its own it is 2. At the horizon:
/// (300001,400000), J 399,999. L is no 300,001, as ceil(700,000/400,000) = 2, no 600,002, as
/// ceil(1,000,001/400,000) = 3, and no 900,003, as ceil(1,300,002/400,000) = 4: beyond. With none
/// in L it is 300,001; of its two jobs the first takes 300,001 + 399,999 and the second ends at
/// 600,002, a tick after its release, and takes less.
#[test]
fn in_the_own_part_of_l() {
    let small = rising(&[(2, 3, 3, 2)], &[1]);
    assert_eq!(period_and_jobs(&small, 1), (Some(4), Some(2)));
    let task = &small.records[0];
    assert_eq!(without(&small, Place::LOwn).active_period(task), Some(2));
    let large = rising(&[(300_001, 400_000, 400_000, 399_999)], &[1]);
    let wrong = (Place::LOwn, Some((700_000, 0)));
    response_shows(&large, 1, None, wrong);
}

/// One task (2,4), J 3: L = 4, as ceil((4 + 3)/4) = 2, and so many jobs are looked at; with no J there
/// it is ceil(4/4) = 1.
///
/// - job 0: S = 0, F = 2: 2 + 3 = 5
/// - job 1: S = 2, F = 4: 4 + 3 - 4 = 3
#[test]
fn in_the_job_count() {
    let table = rising(&[(2, 4, 5, 3)], &[1]);
    assert_eq!(period_and_jobs(&table, 1), (Some(4), Some(2)));
    let task = &table.records[0];
    assert_eq!(without(&table, Place::JobCount).jobs(task), Some(1));
    assert_eq!(run(&table, 0, 100), Some(vec![5, 3]));
    assert_eq!(answered(&table), [Some((5, 0))]);
}

/// The jobs that jitter adds to an active period are never the worst, so that where all is at or
/// below the horizon neither a J in L nor one in the job count shows in an answer. Let P be L with
/// no jitter and nothing that blocks, and m its jobs of i, so that P is at most m periods. In P ticks
/// no more of a task j comes than ceil(P/T(j)) jobs, late ones or not, so job k + m starts and ends
/// at most P after job k, and takes no longer than that one. All S and F of the jobs of L are at
/// most L, so they aren't beyond either: the job count shows nowhere.
#[test]
fn jobs_that_jitter_adds_are_never_the_worst() {
    let mut dice = Dice::new(21);
    let (mut fewer, mut later) = (0, 0);
    for _ in 0..1500 {
        let n = dice.from_to(1, 4);
        let table = late_table(&mut dice, n, 60, 95);
        let mut early = table;
        for record in &mut early.records {
            // The highest of the thresholds blocks nobody.
            (record.jitter, record.threshold) = (0, record.priority);
        }
        for i in 0..n as usize {
            let Some(all) = with_all(&table).jobs(&table.records[i]) else {
                continue;
            };
            let few = with_all(&early).jobs(&early.records[i]).expect("no longer");
            let task = &table.records[i];
            let right = with_all(&table).response_of(task, all);
            assert_eq!(with_all(&table).response_of(task, few), right, "{table:?}");
            fewer += (few < all) as usize;
            later += right.is_some_and(|(_, k)| k > 0) as usize;
        }
    }
    assert!(fewer > 500 && later > 20, "{fewer} {later}");
}

// ---- what jitter does to an answer

/// A (2,5), J 2, above B (1,2), which it doesn't cut. A comes at 0, 3, 8. B: L = 2·2 + 4 = 8, four
/// jobs.
///
/// - job 0: S = 2, F = 3: 3
/// - job 1: S = 1 + 2·2 = 5, as 1 + floor((5 + 2)/5) = 2, F = 6: 4
/// - job 2: S = 2 + 2·2 = 6, F = 7: 3
/// - job 3: S = 3 + 2·2 = 7, F = 8: 2
///
/// With J 0, L = 2 + 2 = 4, and its two jobs take 3 and 4 - 2 = 2.
#[test]
fn a_later_job_by_jitter() {
    let with = |jitter| rising(&[(2, 5, 5, jitter), (1, 2, 4, 0)], &[1, 1]);
    assert_eq!(run(&with(2), 1, 100), Some(vec![3, 4, 3, 2]));
    assert_eq!(answered(&with(2))[1], Some((4, 1)));
    assert_eq!(run(&with(0), 1, 100), Some(vec![3, 2]));
    assert_eq!(answered(&with(0))[1], Some((3, 0)));
    assert!(passing(&with(2)));
    let mut late = with(2);
    late.records[1].deadline = 3;
    assert!(!passing(&late));
}

/// A (3,5), J 1, above B (1,3), J 1, which it doesn't cut. A comes at 0, 4, 9, 14. B: L = 3·3 + 5 = 14,
/// five jobs.
///
/// - job 0: S = 3, F = 4: 4 + 1 = 5
/// - job 1: S = 1 + 2·3 = 7, F = 8: 8 + 1 - 3 = 6
/// - job 2: S = 2 + 2·3 = 8, as 1 + floor((8 + 1)/5) = 2, F = 9: 9 + 1 - 6 = 4
/// - job 3: S = 3 + 3·3 = 12, F = 13: 13 + 1 - 9 = 5
/// - job 4: S = 4 + 3·3 = 13, as 1 + floor((13 + 1)/5) = 3, F = 14: 14 + 1 - 12 = 3
#[test]
fn a_later_job_that_is_late_itself() {
    let table = rising(&[(3, 5, 5, 1), (1, 3, 6, 1)], &[1, 1]);
    assert_eq!(run(&table, 1, 100), Some(vec![5, 6, 4, 5, 3]));
    assert_eq!(answered(&table)[1], Some((6, 1)));
}

/// A above B, which it cuts. With no jitter R is 2 and 8. With J 3 of A, R(A) = 2 + 3. A comes at 0, 2
/// and 7: L(B) = 3·2 + 4 = 10, S = 4, as 1 + floor((4 + 3)/5) = 2, and F = 4 + 4 + 2 = 10, as
/// ceil((10 + 3)/5) - 2 = 1. Both just pass. A tick more of either is a tick too late: R(A) = 2 + 4,
/// R(B) = 10 + 1.
#[test]
fn just_in_time_and_a_tick_late() {
    let first = |time| Some((time, 0));
    assert_eq!(answered(&two(0, 0)), [first(2), first(8)]);
    assert_eq!(answered(&two(3, 0)), [first(5), first(10)]);
    assert!(passing(&two(3, 0)));
    assert_eq!(answered(&two(4, 0))[0], first(6));
    assert!(!passing(&two(4, 0)));
    assert_eq!(answered(&two(3, 1)), [first(5), first(11)]);
    assert!(!passing(&two(3, 1)));
    // A lower task's jitter is nothing to those above it.
    for jitter in 0..10 {
        assert_eq!(answered(&two(3, jitter))[0], first(5));
    }
}

/// A task's own jitter is in R and neither in S nor in F: of B, J 4, S = 2, F = 2 + 4 + 2 = 8, as A
/// comes at 5, and R = 8 + 4. With that J in the place of A's, A would come at 0, 1 and 6: S = 4,
/// F = 4 + 4 + 2 = 10, and R = 14.
#[test]
fn its_own_jitter_is_not_in_s() {
    assert_eq!(answered(&two(0, 4))[1], Some((12, 0)));
    assert_eq!(answered(&two(4, 0))[1], Some((10, 0)));
}

/// A deadline is no limit to the jitter: A (1,9,2), J 8, has no chance, and R = 1 + 8.
#[test]
fn a_jitter_above_the_deadline() {
    for (jitter, time) in [(1, 2), (2, 3), (3, 4), (8, 9)] {
        let table = rising(&[(1, 9, 2, jitter)], &[1]);
        assert_eq!(answered(&table), [Some((time, 0))]);
        assert_eq!(passing(&table), jitter == 1);
    }
}

/// Only L, S and F are held to the horizon. J is 999,999 and T 1,000,000 throughout.
///
/// - C 1: L = 1, R = 1,000,000. C 2: L = 2·2 = 4; 2 + 999,999, and 4 - 1.
/// - C 500,000: L = 1,000,000; 500,000 + 999,999, and 1,000,000 - 1. C 500,001: L would be
///   1,000,002, beyond.
/// - Below (999998,1000000), C 1: L = 999,998 + 2 = 1,000,000; 999,999 + 999,999, and 1,000,000 - 1.
#[test]
fn above_the_horizon() {
    let most = 1_000_000;
    let one = |cost| answered(&rising(&[(cost, most, most, most - 1)], &[1]));
    assert_eq!(one(1), [Some((1_000_000, 0))]);
    assert_eq!(one(2), [Some((1_000_001, 0))]);
    assert_eq!(one(500_000), [Some((1_499_999, 0))]);
    assert_eq!(one(500_001), [None]);
    let tasks = [(999_998, most, most, 0), (1, most, most, most - 1)];
    let largest = answered(&rising(&tasks, &[1, 2]));
    assert_eq!(largest, [(999_998, 0), (1_999_998, 0)].map(Some));
}

/// A (2,5,5), B (4,10,10). The row 1 2 1 1, in which B blocks A with 3, has R(A) = 5 + J: it passes
/// with no jitter alone. 1 2 1 2 passes up to J 3, as worked out above. In the other order A waits
/// for B: R(A) = 6 at least.
#[test]
fn rows_of_two_jobs() {
    let rows = |jitter| -> Vec<Vec<u8>> {
        let mut walk = Walk::from_start(&two(jitter, 0));
        let next = || walk.next_passing();
        let rows = std::iter::from_fn(next);
        rows.map(|row| row.numbers().to_vec()).collect()
    };
    assert_eq!(rows(0), [[1, 2, 1, 1], [1, 2, 1, 2]]);
    assert_eq!(rows(1), [[1, 2, 1, 2]]);
    assert_eq!(rows(3), [[1, 2, 1, 2]]);
    assert!(rows(4).is_empty());
}

// ---- tolerances and lengths

/// A (2,5,5) with J: t up to 5 - J, and 5 - J - 2 left. With no J in the range it is 3.
#[test]
fn in_the_range_of_a_tolerance() {
    for (jitter, right) in [(1, 2), (3, 0), (4, -1)] {
        let wrong = (Place::ToleranceRange, 3);
        tolerance_shows(&two(jitter, 0), 1, right, wrong);
    }
    assert_eq!(tolerances(&two(0, 0)), Ok(vec![3, 2]));
}

/// B (4,10,10) below A (2,5), J 1: t = 9 leaves 9 - 4 - 2·2 = 1, as ceil((9 + 1)/5) = 2, and t = 10
/// leaves 10 - 4 - 2·3 = 0; t = 4 leaves 4 - 4 - 2. With no J in the sum t = 10 leaves 2.
#[test]
fn in_the_sum_of_a_tolerance() {
    tolerance_shows(&two(1, 0), 2, 1, (Place::ToleranceSum, 2));
    // B's own J 1 is in its range alone: up to t = 9 the best is still that of 9.
    assert_eq!(tolerances(&two(1, 1)), Ok(vec![2, 1]));
    // Below A (2,4) with J 2 of B, t = 8 leaves 8 - 4 - 2·2 = 0. With B's own J in the sum it would
    // leave 8 - 4 - 2·3, as ceil((8 + 2)/4) = 3, and t = 6 no more than that.
    let own = rising(&[(2, 4, 4, 0), (4, 10, 10, 2)], &[1, 2]);
    assert_eq!(tolerances(&own), Ok(vec![2, 0]));
}

/// J = D - 1 leaves the one t = 1, and J = D none.
#[test]
fn one_t_and_none() {
    let of = |jitter| tolerances(&rising(&[(3, 9, 4, jitter)], &[1]));
    assert_eq!(of(0), Ok(vec![1]));
    assert_eq!(of(2), Ok(vec![-1]));
    assert_eq!(of(3), Ok(vec![-2]));
    for jitter in [4, 5, 8] {
        assert_eq!(of(jitter), refused_16(1));
    }
}

/// J 1 of A leaves it a tolerance of 2, so B may run for 3 ticks, and 3 and 1 fit but 4 doesn't. With
/// J 0 it is 4, and 4 fits. J 3 leaves a tolerance of 0 and a single tick.
#[test]
fn lengths_by_jitter() {
    let of = |jitter| lengths(&two(jitter, 0));
    assert_eq!([0, 1].map(of), [Ok(vec![2, 4]), Ok(vec![2, 3])]);
    let fit = |jitter, own: &[u32]| {
        let mut table = two(jitter, 0);
        whole_regions(&mut table);
        table.records[1].count = own.len() as u32 - 1;
        regions_fit(&table, own, &[])
    };
    assert_eq!(fit(0, &[2, 4]), Ok(true));
    assert_eq!(fit(1, &[2, 4]), Ok(false));
    assert_eq!(fit(1, &[2, 3, 1]), Ok(true));
    // B tolerates 10 - 4 - 2·3 = 0, and with a J of its own, up to t = 9, only 9 - 4 - 2·3 = -1.
    assert_eq!(of(3), Ok(vec![2, 1]));
    assert_eq!(tolerances(&two(3, 1)), Ok(vec![0, -1]));
    assert_eq!(lengths(&two(3, 1)), refused_16(2));
}

fn refused_16<T>(record: usize) -> Result<T, Refusal> {
    Err(Refusal {
        number: 16,
        record: Some(record),
    })
}

/// Record 1 (8,32,21), J 0, stands below record 2 (14,59,41), J 50, which has no t. The best that is
/// left to record 1 is 9 - 8 - 14·1 = -13, as ceil((9 + 50)/59) = 1: a number of the tolerances, and
/// the lowest fault of the lengths.
#[test]
fn which_record_16_names() {
    let mut table = rising(&[(8, 32, 21, 0), (14, 59, 41, 50)], &[1, 1]);
    let own = whole_regions(&mut table);
    for (record, priority) in [(0, 2), (1, 1)] {
        let record = &mut table.records[record];
        (record.priority, record.threshold) = (priority, priority);
    }
    assert_eq!(with_all(&table).tolerance(&table.records[0]), Some(-13));
    assert_eq!(tolerances(&table), refused_16(2));
    assert_eq!(lengths(&table), refused_16(1));
    assert_eq!(regions_fit(&table, &own, &[]), refused_16(1));
    // Two with no t: the lowest of them, whatever the priorities are.
    table.records[0].jitter = 21;
    assert_eq!(tolerances(&table), refused_16(1));
    // The lowest with no t stands before one below zero.
    table.records[0].jitter = 0;
    table.records.swap(0, 1);
    assert_eq!(tolerances(&table), refused_16(1));
    assert_eq!(lengths(&table), refused_16(1));
    // 16 is asked last.
    table.records[1].deadline = 33;
    assert_eq!(tolerances(&table), Err(Refusal::of(15)));
}

// ---- random tables

/// A small table that asks for about so many hundredths of the processor. A third of the jitters are
/// 0, a third as large as they may be.
fn late_table(dice: &mut Dice, n: u32, least: u32, most: u32) -> Table {
    let hundredths = dice.from_to(least, most);
    let mut tasks = Vec::new();
    for _ in 0..n {
        let cost = dice.from_to(1, 6);
        let period = (cost * n * 100 / hundredths).max(1) + dice.from_to(0, 3);
        tasks.push((cost, period, dice.from_to(cost, 3 * period)));
    }
    let mut table = unassigned(&tasks);
    dice.assign(&mut table);
    for record in &mut table.records[..n as usize] {
        let longest = record.period - 1;
        let any = dice.from_to(0, longest);
        record.jitter = [0, any, longest][dice.from_to(0, 2) as usize];
    }
    table
}

pub fn responses(table: &Table) -> Vec<Option<Response>> {
    let response = |(time, job)| Response { time, job };
    let tasks = table.tasks().iter();
    tasks
        .map(|i| with_all(table).response(i).map(response))
        .collect()
}

/// Nothing for a task that no t is left to.
pub fn all_tolerances(table: &Table) -> Vec<Option<i64>> {
    let tasks = table.tasks().iter();
    tasks.map(|i| with_all(table).tolerance(i)).collect()
}

#[test]
fn response_times_value_by_value() {
    let mut dice = Dice::new(22);
    let (mut beyond, mut later, mut above_deadline) = (0, 0, 0);
    for _ in 0..1500 {
        let n = dice.from_to(1, 5);
        let table = late_table(&mut dice, n, 50, 104);
        let all = responses(&table);
        assert_eq!(response_times(&table), Ok(all.clone()), "{table:?}");
        let in_time = table.tasks().iter().zip(&all).all(|(task, response)| {
            response.is_some_and(|response| response.time <= task.deadline as i64)
        });
        assert_eq!(passing(&table), in_time, "{table:?}");
        beyond += all.iter().filter(|one| one.is_none()).count();
        later += all.iter().flatten().filter(|one| one.job > 0).count();
        let tasks = table.tasks().iter();
        above_deadline += tasks.filter(|task| task.jitter >= task.deadline).count();
    }
    let came = [beyond, later, above_deadline];
    assert!(came.iter().all(|count| *count > 20), "{came:?}");
}

#[test]
fn tolerances_value_by_value() {
    let mut dice = Dice::new(23);
    let (mut below_zero, mut none, mut two_kinds, mut answered) = (0, 0, 0, 0);
    for _ in 0..3000 {
        let n = dice.from_to(1, 6);
        let mut table = late_table(&mut dice, n, 15, 60);
        for record in &mut table.records {
            record.deadline = record.deadline.min(record.period);
        }
        let all = all_tolerances(&table);
        let no_t = all.iter().position(|tolerance| tolerance.is_none());
        let fault = all.iter().position(|tolerance| *tolerance < Some(0));
        let expected = match no_t {
            Some(lowest) => refused_16(lowest + 1),
            None => Ok(all.iter().flatten().copied().collect()),
        };
        assert_eq!(tolerances(&table), expected, "{table:?}");
        let named = lengths(&table).err().and_then(|refusal| refusal.record);
        assert_eq!(named, fault.map(|lowest| lowest + 1), "{table:?}");
        none += no_t.is_some() as usize;
        two_kinds += (no_t.is_some() && no_t != fault) as usize;
        below_zero += (no_t.is_none() && fault.is_some()) as usize;
        answered += fault.is_none() as usize;
    }
    let came = [below_zero, none, two_kinds, answered];
    assert!(came.iter().all(|count| *count > 50), "{came:?}");
}

/// What the sums count is a run of the tasks: where job q comes at q·T - J, or at 0 where that lies
/// before it, ceil((t + J)/T) jobs have come before t > 0 and 1 + floor((s + J)/T) by s.
#[test]
fn random_tables_tick_by_tick() {
    let mut dice = Dice::new(24);
    let (mut ended, mut later, mut blocked, mut of_many) = (0, 0, 0, 0);
    for _ in 0..8000 {
        let n = dice.from_to(1, MOST_TASKS as u32);
        let table = late_table(&mut dice, n, 50, 98);
        for (i, answer) in answered(&table).into_iter().enumerate() {
            let Some(taken) = run(&table, i, 3000) else {
                continue;
            };
            assert_eq!(answer, Some(first_largest(&taken)), "task {i} of {table:?}");
            let own = table.records[i].cost as i64;
            assert!(taken.iter().all(|time| *time >= own));
            let jobs = period_and_jobs(&table, i + 1).1;
            assert_eq!(jobs, Some(taken.len() as u64), "task {i} of {table:?}");
            let is_later = answer.is_some_and(|(_, k)| k > 0);
            ended += 1;
            later += is_later as usize;
            blocked += (is_later && blocking(&Tasks::of(&table), i) > 0) as usize;
            of_many += (is_later && n > 8) as usize;
        }
    }
    let came = [later, blocked, of_many];
    assert!(
        ended > 20_000 && came.iter().all(|count| *count > 50),
        "{ended} {came:?}"
    );
}

#[test]
fn rows_of_small_tables() {
    let mut dice = Dice::new(25);
    let (mut found, mut none) = (0, 0);
    for k in 0..40 {
        let n = k % 3 + 1;
        let table = late_table(&mut dice, n, 40, 90);
        let rows = rows_number_by_number(&table, &responses);
        let mut walk = Walk::from_start(&table);
        let walked: Vec<Vec<u8>> = std::iter::from_fn(|| walk.next_passing())
            .map(|row| row.numbers().to_vec())
            .collect();
        assert_eq!(walked, rows, "{table:?}");
        found += rows.len();
        none += rows.is_empty() as usize;
    }
    assert!(found > 30 && none > 5, "{found} {none}");
}

// ---- what turns a call away

/// The number, or 0, by which each call on a table is turned away.
fn turned_away(table: &Table, own: &[u32]) -> [u8; 7] {
    let number = |refusal: Option<Refusal>| refusal.map_or(0, |refusal| refusal.number);
    let out = &mut [0; 400];
    [
        number(write(1, PLATE, table, own, &[], out).err()),
        number(response_times(table).err()),
        number(tolerances(table).err()),
        number(lengths(table).err()),
        number(regions_fit(table, own, &[]).err()),
        number(first_row(table, out).err()),
        number(next_row(table, &[1, 2, 1, 1], out).err()),
    ]
}

/// From 0 to T - 1; only the writing of edition 1 has no place for it, and a large one leaves no t.
#[test]
fn the_range_of_a_jitter() {
    for record in 0..2 {
        let (table, own) = two_jobs();
        let with = |jitter| {
            let mut table = table;
            table.records[record].jitter = jitter;
            turned_away(&table, &own)
        };
        let period = table.records[record].period;
        assert_eq!(with(0), [0; 7]);
        assert_eq!(with(1), [19, 0, 0, 0, 0, 0, 0]);
        assert_eq!(with(period - 1), [19, 0, 0, 16, 16, 0, 0]);
        for jitter in [period, period + 1, 1 << 31, u32::MAX] {
            assert_eq!(with(jitter), [9; 7]);
        }
    }
    // The period's own range comes with it: of T 1 only 0 is taken.
    for (jitter, number) in [(0, Ok(())), (1, Err(Refusal::of(9)))] {
        let table = rising(&[(1, 1, 1, jitter)], &[1]);
        assert_eq!(response_times(&table).map(|_| ()), number);
    }
}

#[test]
fn jitters_past_n_are_not_looked_at() {
    let (mut table, own) = two_jobs();
    for record in &mut table.records[2..] {
        record.jitter = u32::MAX;
    }
    assert_eq!(turned_away(&table, &own), [0; 7]);
    let file = file_of(&table, &own, &[]);
    let (clean, _) = two_jobs();
    assert_eq!(file, file_of(&clean, &own, &[]));
}

/// Regions ask 5, 13 and 11 alone.
#[test]
fn regions_do_not_ask_for_jitter() {
    let (mut table, own) = two_jobs();
    table.records[1].jitter = u32::MAX;
    assert_eq!(parts::regions(&table, &own, &[], 2), Ok(&own[1..]));
}

/// 19 stands behind 5, 18, 9, 10 and 11, and before 12; nothing is written as edition 1.
#[test]
fn nineteen_and_the_others() {
    let (mut table, own) = two_jobs();
    table.records[1].jitter = 1;
    let writing = |plate: Plate, table: &Table, own: &[u32], room: usize| {
        let mut out = vec![7; room];
        let answer = write(1, plate, table, own, &[], &mut out);
        assert_eq!(out, vec![7; room]);
        answer.expect_err("a jitter").number
    };
    let with = |change: &dyn Fn(&mut Table)| {
        let mut table = table;
        change(&mut table);
        [39, 38, 0].map(|room| writing(PLATE, &table, &own, room))
    };
    assert_eq!(with(&|_| {}), [19; 3]);
    assert_eq!(with(&|table| table.records[0].jitter = 4), [19; 3]);
    assert_eq!(with(&|table| table.n = 16), [5; 3]);
    assert_eq!(with(&|table| table.records[0].jitter = 5), [9; 3]);
    assert_eq!(with(&|table| table.records[0].priority = 2), [10; 3]);
    assert_eq!(with(&|table| table.records[0].count = 0), [11; 3]);
    assert_eq!(writing(PLATE, &table, &[2, 4, 0], 42), 11);
    let blank = Plate {
        cabinet: 0,
        ..PLATE
    };
    assert_eq!(writing(blank, &table, &own, 39), 18);
    // Unassigned tables are written as edition 1, but not with a jitter.
    let clear = |table: &mut Table| {
        for record in &mut table.records {
            (record.priority, record.threshold) = (0, 0);
        }
    };
    assert_eq!(with(&clear), [19; 3]);
    table.records[1].jitter = 0;
    assert_eq!(write(1, PLATE, &table, &own, &[], &mut [0; 39]), Ok(39));
}

/// A file of edition 1 reads with every J at 0, and is written again from that.
#[test]
fn files_read_without_jitter() {
    let (table, own) = two_jobs();
    let file = file_of(&table, &own, &[]);
    let (edition, read) = read(PLATE, &[], &file, &mut [0; 2]).expect("refused");
    assert_eq!(edition, Edition::One);
    assert!(read.records.iter().all(|record| record.jitter == 0));
    assert_eq!(file_of(&read, &own, &[]), file);
}
