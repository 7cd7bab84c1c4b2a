//! Document 02, item 2: fixed preemption points, and a task's last region. The tables are worked out
//! by hand, and beside each verdict stands the one that a slip of the rule would give. Many drawn
//! tables are answered in two other ways, and run tick by tick. What turns the calls away stands at
//! the end.

use super::*;
use crate::ask::Body;
use crate::lengths::{lengths, regions_fit, tolerances};
use crate::parts::{last_region, regions};
use crate::points::Verdict::{self, Passes, Unshown};
use crate::points::*;

/// A task by its regions, which add up to C, and T, D, J.
type Task<'a> = (&'a [u32], u32, u32, u32);

/// These tasks in the order of their priorities, the regions one behind the other in the own words.
fn divided(tasks: &[Task]) -> (Table, Vec<u32>) {
    let timed: Vec<_> = tasks
        .iter()
        .map(|(regions, period, deadline, _)| (regions.iter().sum(), *period, *deadline))
        .collect();
    let priorities: Vec<u32> = (1..=tasks.len() as u32).collect();
    let mut table = assigned(&timed, &priorities, &priorities);
    let mut own = Vec::new();
    for (record, (regions, _, _, jitter)) in table.records.iter_mut().zip(tasks) {
        record.jitter = *jitter;
        (record.first, record.count) = (own.len() as u32, regions.len() as u32);
        own.extend(*regions);
    }
    (table, own)
}

fn verdicts(tasks: &[Task]) -> Vec<Verdict> {
    let (table, own) = divided(tasks);
    fixed_points(&table, &own, &[]).expect("refused")
}

// ---- value by value, with a slip or without one

/// What could be written in the place of the rule.
#[derive(Clone, Copy, Debug, PartialEq, Eq)]
enum Slip {
    /// `<` for `<=`.
    Below,
    /// The first region for the last, in both places.
    FirstRegion,
    /// C for C - q.
    WholeCost,
    /// t up to D - J, up to D - q, and up to D.
    NoQInRange,
    NoJInRange,
    UpToD,
    /// The longest region of the tasks above, of all others, and of these and the task itself.
    AlphaAbove,
    AlphaOfOthers,
    AlphaOfAll,
    /// The longest last region, the longest cost, and the longest of those whose threshold blocks.
    AlphaLast,
    AlphaCost,
    AlphaByThreshold,
    /// A tick less, as document 02, item 5, has it of B.
    AlphaLessOne,
    /// No J in the sum, or the task's own.
    NoJInSum,
    OwnJInSum,
    /// 1 + floor for the ceiling, and the task's own jobs beside those above.
    Floor,
    SumWithItself,
    /// A task that nothing holds up is looked at like any other.
    AlphaOf0Searched,
}

fn ceil(above: i64, below: i64) -> i64 {
    (above + below - 1).div_euclid(below)
}

struct Rule<'a> {
    table: &'a Table,
    lists: (&'a [u32], &'a [u32]),
    slip: Option<Slip>,
}

impl Rule<'_> {
    fn has(&self, slip: Slip) -> bool {
        self.slip == Some(slip)
    }

    fn regions(&self, task: &Record) -> Vec<i64> {
        let (own, catalogue) = self.lists;
        let list = match task.source {
            Source::Own => own,
            Source::Catalogue => catalogue,
        };
        let words = list.iter().skip(task.first as usize);
        words
            .take(task.count as usize)
            .map(|word| *word as i64)
            .collect()
    }

    fn alpha(&self, i: &Record) -> i64 {
        let mut longest = 0;
        for k in self.table.tasks() {
            let counts = match self.slip {
                Some(Slip::AlphaAbove) => k.priority < i.priority,
                Some(Slip::AlphaOfOthers) => k.priority != i.priority,
                Some(Slip::AlphaOfAll) => true,
                Some(Slip::AlphaByThreshold) => {
                    k.priority > i.priority && k.threshold <= i.priority
                }
                _ => k.priority > i.priority,
            };
            if counts {
                let words = self.regions(k);
                let long = match self.slip {
                    Some(Slip::AlphaLast) => words.last().copied(),
                    Some(Slip::AlphaCost) => Some(k.cost as i64),
                    _ => words.iter().copied().max(),
                };
                longest = longest.max(long.expect("a region"));
            }
        }
        longest - (self.has(Slip::AlphaLessOne) && longest > 0) as i64
    }

    fn sum(&self, i: &Record, t: i64) -> i64 {
        let mut sum = 0;
        for j in self.table.tasks() {
            let itself = self.has(Slip::SumWithItself) && j.priority == i.priority;
            if j.priority < i.priority || itself {
                let late = match self.slip {
                    Some(Slip::NoJInSum) => 0,
                    Some(Slip::OwnJInSum) => i.jitter,
                    _ => j.jitter,
                };
                let (at, period) = (t + late as i64, j.period as i64);
                let jobs = if self.has(Slip::Floor) {
                    1 + at / period
                } else {
                    ceil(at, period)
                };
                sum += jobs * j.cost as i64;
            }
        }
        sum
    }

    fn last_t(&self, i: &Record, q: i64) -> i64 {
        let (d, j) = (i.deadline as i64, i.jitter as i64);
        match self.slip {
            Some(Slip::NoQInRange) => d - j,
            Some(Slip::NoJInRange) => d - q,
            Some(Slip::UpToD) => d,
            _ => d - j - q,
        }
    }

    fn verdict(&self, i: &Record) -> Verdict {
        let words = self.regions(i);
        let place = if self.has(Slip::FirstRegion) {
            0
        } else {
            words.len() - 1
        };
        let (alpha, q) = (self.alpha(i), words[place]);
        let cost = i.cost as i64 - if self.has(Slip::WholeCost) { 0 } else { q };
        let mut passes = alpha == 0 && !self.has(Slip::AlphaOf0Searched);
        for t in 1..=self.last_t(i, q) {
            let side = cost + self.sum(i, t) + alpha;
            passes |= side < t || side == t && !self.has(Slip::Below);
        }
        if passes {
            Passes
        } else {
            Unshown
        }
    }

    fn verdicts(&self) -> Vec<Verdict> {
        let tasks = self.table.tasks().iter();
        tasks.map(|i| self.verdict(i)).collect()
    }
}

fn with<'a>(table: &'a Table, own: &'a [u32], slip: Option<Slip>) -> Rule<'a> {
    Rule {
        table,
        lists: (own, &[]),
        slip,
    }
}

/// The record's verdict, which each of these slips would turn round.
fn shows(tasks: &[Task], record: usize, right: Verdict, slips: &[Slip]) {
    let (table, own) = divided(tasks);
    let answer = fixed_points(&table, &own, &[]).expect("refused");
    assert_eq!(answer[record - 1], right, "{tasks:?}");
    assert_eq!(answer, with(&table, &own, None).verdicts(), "{tasks:?}");
    for slip in slips {
        let slipped = with(&table, &own, Some(*slip)).verdicts();
        assert_ne!(slipped[record - 1], right, "{slip:?} {tasks:?}");
    }
}

// ---- worked out by hand

/// A (2,5,5) above B, which runs in 3 and 1: alpha 3, q 2, so t is up to 3 and 0 + 3 <= 3 at the last
/// of them. `<` would not have it, nor the whole cost, 2 + 3.
#[test]
fn just_in_time() {
    let tasks: [Task; 2] = [(&[2], 5, 5, 0), (&[3, 1], 10, 10, 0)];
    assert_eq!(verdicts(&tasks), [Passes, Passes]);
    shows(&tasks, 1, Passes, &[Slip::Below, Slip::WholeCost]);
    // 3 is the longest, whichever comes last, and B's cost is nothing to A.
    shows(&tasks, 1, Passes, &[Slip::AlphaCost]);
    assert_eq!(
        verdicts(&[(&[2], 5, 5, 0), (&[1, 3], 10, 10, 0)]),
        [Passes; 2]
    );
}

/// With B in one region alpha is 4, a tick more than any t. Up to D, 0 + 4 <= 4 would do; of 4 less a
/// tick, 3 <= 3.
#[test]
fn a_tick_short() {
    let tasks: [Task; 2] = [(&[2], 5, 5, 0), (&[4], 10, 10, 0)];
    assert_eq!(verdicts(&tasks), [Unshown, Passes]);
    let slips = [Slip::UpToD, Slip::NoQInRange, Slip::AlphaLessOne];
    shows(&tasks, 1, Unshown, &slips);
    // Of 1 and 4 the longest isn't the first, and of 4 and 1 it isn't the last.
    let longest: [Task; 2] = [(&[2], 5, 5, 0), (&[4, 1], 10, 10, 0)];
    shows(&longest, 1, Unshown, &[Slip::AlphaLast]);
    assert_eq!(
        verdicts(&[(&[2], 5, 5, 0), (&[1, 4], 10, 10, 0)])[0],
        Unshown
    );
}

/// A (2,5,5) with J 1, B in 3 and 1: t is up to 5 - 1 - 2 = 2, below alpha. With no J in the range, or
/// no q, t = 3 would do. Of B in 2 and 2, 0 + 2 <= 2.
#[test]
fn the_range_has_j_and_q() {
    let tasks: [Task; 2] = [(&[2], 5, 5, 1), (&[3, 1], 10, 10, 0)];
    let slips = [Slip::NoJInRange, Slip::NoQInRange, Slip::UpToD];
    shows(&tasks, 1, Unshown, &slips);
    let twos: [Task; 2] = [(&[2], 5, 5, 1), (&[2, 2], 10, 10, 0)];
    shows(&twos, 1, Passes, &[Slip::Below]);
}

/// H (2,5,5) above A (4,10,8) above B (2,20,20) in one region; alpha(A) = 2.
///
/// - A in 1 and 3: t is up to 5, and 1 + 2·1 + 2 <= 5. By the first region, 3 + 2·2 + 2 at t = 7.
/// - A in 3 and 1: t is up to 7; 3 + 2·1 + 2 at t = 5, 3 + 2·2 + 2 from t = 6 on: unshown. By the
///   first region it is the other case.
#[test]
fn the_last_region_and_not_the_first() {
    let of = |a| [(&[2][..], 5, 5, 0), (a, 10, 8, 0), (&[2][..], 20, 20, 0)];
    let late: [Task; 3] = of(&[1, 3]);
    shows(&late, 2, Passes, &[Slip::FirstRegion, Slip::Below]);
    let early: [Task; 3] = of(&[3, 1]);
    shows(&early, 2, Unshown, &[Slip::FirstRegion]);
    // Of three regions the second is neither.
    shows(&of(&[1, 2, 1]), 2, Unshown, &[]);
    shows(&of(&[2, 1, 1]), 2, Unshown, &[]);
    shows(&of(&[1, 1, 2]), 2, Unshown, &[]);
}

/// The same with A in 1 and 3: B's region of 2 is longer than the region check lets it be, as A
/// tolerates nothing, and all three pass here. H: alpha is A's 3, t up to 3. B: nothing is below it.
#[test]
fn regions_that_do_not_fit_pass() {
    let tasks: [Task; 3] = [(&[2], 5, 5, 0), (&[1, 3], 10, 8, 0), (&[2], 20, 20, 0)];
    let (table, own) = divided(&tasks);
    assert_eq!(tolerances(&table), Ok(vec![3, 0, 2]));
    assert_eq!(lengths(&table), Ok(vec![2, 4, 1]));
    assert_eq!(regions_fit(&table, &own, &[]), Ok(false));
    assert_eq!(fixed_points(&table, &own, &[]), Ok(vec![Passes; 3]));
}

/// The other way round: a region of 4 fits below A (2,5,5), and A isn't shown to pass.
#[test]
fn regions_that_fit_are_unshown() {
    let (table, own) = two_jobs();
    assert_eq!(regions_fit(&table, &own, &[]), Ok(true));
    assert_eq!(fixed_points(&table, &own, &[]), Ok(vec![Unshown, Passes]));
}

/// H (4,20,20) above M (1,20,7) above L (1,20,20), a region each. Only L is below M: 0 + 4 + 1 <= 5,
/// and t is up to 6. With H's region in place of L's, or beside it, 0 + 4 + 4.
#[test]
fn alpha_is_of_the_tasks_below() {
    let tasks: [Task; 3] = [(&[4], 20, 20, 0), (&[1], 20, 7, 0), (&[1], 20, 20, 0)];
    let slips = [Slip::AlphaAbove, Slip::AlphaOfOthers, Slip::AlphaOfAll];
    shows(&tasks, 2, Passes, &slips);
    // A (4,10,7) in one region above a tick: 0 + 1 <= 1, and its own 4 is more than any t.
    let own: [Task; 2] = [(&[4], 10, 7, 0), (&[1], 10, 10, 0)];
    shows(&own, 1, Passes, &[Slip::AlphaOfAll]);
    // All below count, not the next one alone: 1 and then 4.
    let far: [Task; 3] = [(&[2], 5, 5, 0), (&[1], 20, 20, 0), (&[4], 20, 20, 0)];
    shows(&far, 1, Unshown, &[Slip::AlphaAbove]);
}

/// H (1,4,4), J 2, above M (2,10,6) above L in one region of 3. M: t is up to 4, where
/// 0 + ceil((4 + 2)/4)·1 + 3 = 5. With no J in the sum it is 4. Of L in 2 and 1, 0 + 2 + 2 <= 4.
#[test]
fn the_sum_has_j() {
    let of = |l| [(&[1][..], 4, 4, 2), (&[2][..], 10, 6, 0), (l, 20, 20, 0)];
    shows(&of(&[3]), 2, Unshown, &[Slip::NoJInSum]);
    shows(&of(&[2, 1]), 2, Passes, &[Slip::Below]);
    // M (2,10,8), J 2, below H with none: t is up to 4, and 0 + ceil(4/4)·1 + 3 <= 4. With M's own J
    // in the sum it would be 5.
    let own: [Task; 3] = [(&[1], 4, 4, 0), (&[2], 10, 8, 2), (&[3], 20, 20, 0)];
    shows(&own, 2, Passes, &[Slip::OwnJInSum, Slip::SumWithItself]);
}

/// A task that comes at t is behind it: H (1,4,4) above M (2,10,6) above L in 3. M: t is up to 4, and
/// 0 + ceil(4/4)·1 + 3 <= 4; with 1 + floor it is 5.
#[test]
fn an_arrival_at_t() {
    let tasks: [Task; 3] = [(&[1], 4, 4, 0), (&[2], 10, 6, 0), (&[3], 20, 20, 0)];
    shows(&tasks, 2, Passes, &[Slip::Floor, Slip::Below]);
}

/// The same with L in one region of 4: 0 + ceil(t/4)·1 + 4 is 5 at t = 4, and 6 from t = 5 on.
///
/// - D 6: of 4 less a tick it would be 4 <= 4 and M would pass. It is late: L begins a tick before H
///   and M come and ends at 3, H runs to 4 and again, having come at 4, to 5, and M from there to 7.
/// - D 7: t is up to 5, unshown. But M ends at 7: it is in time for all that.
/// - D 8: t is up to 6, and 6 <= 6.
///
/// H is unshown throughout, as 4 is more than 4 - 1, and is in time: it ends at 4.
#[test]
fn the_whole_alpha() {
    let of = |deadline| -> [Task<'static>; 3] {
        [(&[1], 4, 4, 0), (&[2], 10, deadline, 0), (&[4], 20, 20, 0)]
    };
    shows(&of(6), 2, Unshown, &[Slip::AlphaLessOne]);
    shows(&of(7), 2, Unshown, &[Slip::AlphaLessOne, Slip::UpToD]);
    shows(&of(8), 2, Passes, &[Slip::Below]);
    let come_first = |deadline| in_time(&divided(&of(deadline)), &[1, 1, 0], &mut |_| 0);
    assert_eq!(come_first(6), [true, false, true]);
    assert_eq!(come_first(7), [true; 3]);
    for deadline in [7, 8] {
        let cabinet = divided(&of(deadline));
        for h in 0..4 {
            for m in 0..10 {
                for l in 0..20 {
                    assert_eq!(in_time(&cabinet, &[h, m, l], &mut |_| 0), [true; 3]);
                }
            }
        }
    }
}

/// A region of 4 below A (2,5,5): A is unshown and never late, whenever the two come first. B has run
/// for a tick when A comes.
#[test]
fn unshown_is_not_late() {
    let cabinet = divided(&[(&[2], 5, 5, 0), (&[4], 10, 10, 0)]);
    let (table, own) = &cabinet;
    assert_eq!(fixed_points(table, own, &[]), Ok(vec![Unshown, Passes]));
    for a in 0..5 {
        for b in 0..10 {
            assert_eq!(in_time(&cabinet, &[a, b], &mut |_| 0), [true; 2]);
        }
    }
}

/// D - J - q is 0, so there is no t: only a task that nothing is below passes. A tick more of D, or
/// less of J, is a t of 1, and 0 + 1 <= 1.
#[test]
fn no_t() {
    let of = |deadline, jitter| -> [Task<'static>; 2] {
        [(&[2], 5, deadline, jitter), (&[1, 1], 10, 10, 0)]
    };
    shows(&of(2, 0), 1, Unshown, &[Slip::NoQInRange, Slip::UpToD]);
    shows(&of(4, 2), 1, Unshown, &[Slip::NoJInRange, Slip::NoQInRange]);
    shows(&of(3, 0), 1, Passes, &[Slip::Below]);
    shows(&of(4, 1), 1, Passes, &[Slip::Below]);
    assert_eq!(verdicts(&of(2, 0)), [Unshown, Passes]);
}

/// A task alone always passes. Only where it has no t does that take the word on an alpha of 0: with a
/// tolerance and something above it a t is always found, as R less its last region is one.
#[test]
fn nothing_below() {
    for tasks in [
        [(&[3][..], 5, 3, 0)],
        [(&[3], 5, 5, 2)],
        [(&[1], 1, 1, 0)],
        [(&[1_000_000], 1_000_000, 1_000_000, 0)],
        [(&[1], 1_000_000, 1_000_000, 999_999)],
    ] {
        shows(&tasks, 1, Passes, &[Slip::AlphaOf0Searched]);
    }
    for tasks in [
        [(&[2, 1][..], 5, 3, 0)],
        [(&[1, 2], 5, 3, 0)],
        [(&[3], 5, 4, 0)],
    ] {
        shows(&tasks, 1, Passes, &[]);
    }
    // Below a task that fills the rest, to the tick.
    let full: [Task; 2] = [(&[2], 5, 5, 0), (&[3], 5, 5, 0)];
    shows(&full, 2, Passes, &[]);
}

/// Thresholds are nothing to the test: with each of them, A's verdict is that of B's longest region.
#[test]
fn thresholds_play_no_part() {
    for (tasks, right) in [
        ([(&[2][..], 5, 5, 0), (&[4][..], 10, 10, 0)], Unshown),
        ([(&[2], 5, 5, 0), (&[3, 1], 10, 10, 0)], Passes),
    ] {
        let (mut table, own) = divided(&tasks);
        for threshold in [1, 2] {
            table.records[1].threshold = threshold;
            let answer = fixed_points(&table, &own, &[]);
            assert_eq!(answer, Ok(vec![right, Passes]));
        }
    }
    // `divided` gives each task the highest that its priority has, which blocks nobody.
    let tasks: [Task; 2] = [(&[2], 5, 5, 0), (&[4], 10, 10, 0)];
    shows(&tasks, 1, Unshown, &[Slip::AlphaByThreshold]);
}

/// The records stand in another order than the priorities, and so do the verdicts.
#[test]
fn verdicts_stand_in_the_order_of_the_records() {
    let mut table = assigned(&[(4, 10, 10), (2, 5, 5)], &[2, 1], &[1, 1]);
    let own = whole_regions(&mut table);
    assert_eq!(fixed_points(&table, &own, &[]), Ok(vec![Passes, Unshown]));
}

/// B's regions stand in the catalogue from its second word on. Words that no record names are
/// nothing, in range or not; own ones must be in range.
#[test]
fn regions_of_the_catalogue() {
    let (mut table, _) = divided(&[(&[2], 5, 5, 0), (&[3, 1], 10, 10, 0)]);
    (table.records[1].source, table.records[1].first) = (Source::Catalogue, 1);
    let of = |own: &[u32], catalogue: &[u32]| fixed_points(&table, own, catalogue);
    for catalogue in [
        &[9, 3, 1, 9][..],
        &[0, 1, 3, 0],
        &[1_000_001, 2, 2],
        &[4, 3, 1],
    ] {
        assert_eq!(of(&[2, 9], catalogue), Ok(vec![Passes; 2]));
    }
    assert_eq!(of(&[2, 0], &[9, 3, 1]), Err(Refusal::of(11)));
    table.records[1].count = 1;
    let whole = |catalogue: &[u32]| fixed_points(&table, &[2, 3, 1], catalogue);
    assert_eq!(whole(&[1, 4, 1]), Ok(vec![Unshown, Passes]));
    // The last region too comes from there: A of the catalogue's 1 and 3 and of the own 3 and 1, of
    // `the_last_region_and_not_the_first`.
    let tasks: [Task; 3] = [(&[2], 5, 5, 0), (&[3, 1], 10, 8, 0), (&[2], 20, 20, 0)];
    let (mut table, own) = divided(&tasks);
    let answer = |table: &Table| fixed_points(table, &own, &[0, 1, 3]);
    assert_eq!(answer(&table), Ok(vec![Passes, Unshown, Passes]));
    (table.records[1].source, table.records[1].first) = (Source::Catalogue, 1);
    assert_eq!(answer(&table), Ok(vec![Passes; 3]));
}

/// Fifteen tasks of 1 and 1, T and D 100, above each other. Task i: 1 + 2·(i - 1) + 1 <= t, at most
/// 2·i, and t is up to 99. With the last in one region of 98, the first has 1 + 98 <= 99, the second
/// 1 + 2 + 98; but then the last takes 98 + 28 ticks, so D and T grow to 126: t is up to 125, and
/// 1 + 2·(i - 1) + 98 <= 125 up to i = 14.
#[test]
fn fifteen_tasks() {
    let ones: Task = (&[1, 1], 100, 100, 0);
    assert_eq!(verdicts(&[ones; 15]), [Passes; 15]);
    let mut tasks: [Task; 15] = [(&[1, 1], 126, 126, 0); 15];
    tasks[14] = (&[98], 126, 126, 0);
    assert_eq!(verdicts(&tasks), [Passes; 15]);
    // A tick less of D of the fourteenth, and of the second.
    tasks[13].2 = 125;
    let mut short = [Passes; 15];
    short[13] = Unshown;
    assert_eq!(verdicts(&tasks), short);
    tasks[13].2 = 126;
    tasks[1].2 = 101;
    short = [Passes; 15];
    short[1] = Unshown;
    assert_eq!(verdicts(&tasks), short);
    tasks[1].2 = 102;
    assert_eq!(verdicts(&tasks), [Passes; 15]);
}

/// A (1,T,T) above B in one region of T - 1, which is all the time there is: t is up to T - 1, and with
/// a D less it is a tick short. Above one of T/2, A has J 499,999 to spare.
#[test]
fn the_largest_numbers() {
    let most = 1_000_000;
    let whole = [most - 1];
    let of = |deadline| -> [Task<'_>; 2] { [(&[1], most, deadline, 0), (&whole, most, most, 0)] };
    assert_eq!(verdicts(&of(most)), [Passes; 2]);
    assert_eq!(verdicts(&of(most - 1)), [Unshown, Passes]);
    let late = |jitter| -> [Task<'static>; 2] {
        [(&[1], most, most, jitter), (&[500_000], most, most, 0)]
    };
    assert_eq!(verdicts(&late(499_999)), [Passes; 2]);
    assert_eq!(verdicts(&late(500_000)), [Unshown, Passes]);
    // J at its limit leaves A the one tick that it runs, and no t.
    assert_eq!(verdicts(&late(most - 1)), [Unshown, Passes]);
    assert_eq!(verdicts(&late(most - 1)[..1]), [Passes]);
}

// ---- drawn tables

/// A cost cut into regions anywhere.
fn cut(dice: &mut Dice, cost: u32) -> Vec<u32> {
    let mut words = Vec::new();
    let mut left = cost;
    while left > 0 {
        let word = dice.from_to(1, left);
        words.push(word);
        left -= word;
    }
    words
}

/// A small table that asks for about so many hundredths of the processor, mostly in the order of its
/// periods, with jitters that leave the cost its place before D, mostly, and regions of either list.
/// Half of the tables have deadlines about as short as the tasks bear.
fn drawn(dice: &mut Dice, n: u32, least: u32, most: u32) -> (Table, Vec<u32>, Vec<u32>) {
    let hundredths = dice.from_to(least, most);
    let mut tasks = Vec::new();
    for _ in 0..n {
        let cost = dice.from_to(1, 9);
        let period = (cost * n * 100 / hundredths).max(cost) + dice.from_to(0, 6);
        tasks.push((cost, period, dice.from_to(cost.max(period / 2), period)));
    }
    tasks.sort_by_key(|(_, period, _)| *period);
    let mut table = unassigned(&tasks);
    for (priority, record) in (1..).zip(&mut table.records) {
        (record.priority, record.threshold) = (priority, dice.from_to(1, priority));
    }
    if dice.from_to(0, 3) == 0 {
        dice.assign(&mut table);
    }
    let (mut own, mut catalogue) = (Vec::new(), vec![0; dice.from_to(0, 2) as usize]);
    for record in &mut table.records[..n as usize] {
        let slack = (record.deadline - record.cost).min(record.period - 1);
        let any = dice.from_to(0, slack / 2);
        let most = [slack, record.period - 1][(dice.from_to(0, 9) == 0) as usize];
        record.jitter = [0, 0, 0, any, any, most][dice.from_to(0, 5) as usize];
        record.source = Source::from_number(dice.from_to(0, 1));
        let list = match record.source {
            Source::Own => &mut own,
            Source::Catalogue => &mut catalogue,
        };
        let words = cut(dice, record.cost);
        (record.first, record.count) = (list.len() as u32, words.len() as u32);
        list.extend(words);
    }
    if dice.from_to(0, 1) == 0 {
        shorten(dice, &mut table);
    }
    (table, own, catalogue)
}

/// Deadlines at the first t that bears the whole cost, or a few ticks behind it.
fn shorten(dice: &mut Dice, table: &mut Table) {
    let tasks = *table;
    let rule = with(&tasks, &[], None);
    for record in &mut table.records[..tasks.n as usize] {
        let last = record.deadline as i64 - record.jitter as i64;
        let borne = (1..=last).find(|t| record.cost as i64 + rule.sum(record, *t) <= *t);
        if let Some(t) = borne {
            let behind = t as u32 + record.jitter + dice.from_to(0, 8);
            record.deadline = record.deadline.min(behind);
        }
    }
}

/// What a task is tried by: alpha, q, and the jobs of those above.
fn parts_of(table: &Table, i: usize, lists: (&[u32], &[u32])) -> (i64, i64, Vec<Record>) {
    let words = |k: usize| regions(table, lists.0, lists.1, k as u16 + 1).expect("regions");
    let n = table.n as usize;
    let p = table.records[i].priority;
    let below = (0..n).filter(|k| table.records[*k].priority > p);
    let alpha = below.flat_map(words).max().map_or(0, |word| *word as i64);
    let above = table.tasks().iter().filter(|j| j.priority < p).copied();
    let last = last_region(table, lists.0, lists.1, i as u16 + 1).expect("a last region");
    (alpha, last[0] as i64, above.collect())
}

/// By the least t that bears its sum: from 1 up, each side is the next t.
fn by_climbing(table: &Table, i: usize, lists: (&[u32], &[u32])) -> Verdict {
    let (alpha, q, above) = parts_of(table, i, lists);
    let task = &table.records[i];
    let last = task.deadline as i64 - task.jitter as i64 - q;
    let side = |t: i64| {
        let jobs = |j: &Record| (t + j.jitter as i64 + j.period as i64 - 1) / j.period as i64;
        let higher: i64 = above.iter().map(|j| jobs(j) * j.cost as i64).sum();
        task.cost as i64 - q + higher + alpha
    };
    let mut t = 1;
    while t <= last && side(t) > t {
        t = side(t);
    }
    if alpha == 0 || t <= last {
        Passes
    } else {
        Unshown
    }
}

/// By what the task bears at the ends of the stretches in which no other job comes (Equation (24)):
/// alpha is at most the most of it.
fn by_what_it_bears(table: &Table, i: usize, lists: (&[u32], &[u32])) -> Verdict {
    let (alpha, q, above) = parts_of(table, i, lists);
    let task = &table.records[i];
    let last = task.deadline as i64 - task.jitter as i64 - q;
    let mut ends = vec![last];
    for j in &above {
        let (period, jitter) = (j.period as i64, j.jitter as i64);
        ends.extend((1..=last / period + 2).map(|k| k * period - jitter));
    }
    let bears = |t: i64| {
        // Job k comes at k·T - J.
        let jobs = |j: &Record| {
            let before = |k: &i64| k * (j.period as i64) - (j.jitter as i64) < t;
            (0..).take_while(before).count() as i64
        };
        let higher: i64 = above.iter().map(|j| jobs(j) * j.cost as i64).sum();
        t - (task.cost as i64 - q) - higher
    };
    let in_range = ends.into_iter().filter(|t| 1 <= *t && *t <= last);
    if alpha == 0 || in_range.map(bears).max() >= Some(alpha) {
        Passes
    } else {
        Unshown
    }
}

#[test]
fn drawn_tables_in_other_ways() {
    let mut dice = Dice::new(31);
    let (mut turned_away, mut answered) = (0, 0);
    let (mut passing, mut unshown, mut late, mut of_many) = (0, 0, 0, 0);
    for _ in 0..12_000 {
        let n = dice.from_to(1, 8);
        let (table, own, catalogue) = drawn(&mut dice, n, 15, 90);
        let lists = (&own[..], &catalogue[..]);
        let Ok(answer) = fixed_points(&table, &own, &catalogue) else {
            turned_away += 1;
            continue;
        };
        answered += 1;
        assert_eq!(answer.len(), n as usize);
        for (i, verdict) in answer.into_iter().enumerate() {
            assert_eq!(verdict, by_climbing(&table, i, lists), "{i} of {table:?}");
            assert_eq!(
                verdict,
                by_what_it_bears(&table, i, lists),
                "{i} of {table:?}"
            );
            let held_up = table.records[i].priority < n;
            passing += (held_up && verdict == Passes) as usize;
            unshown += (verdict == Unshown) as usize;
            let some_jitter = table.tasks().iter().any(|task| task.jitter > 0);
            late += (held_up && some_jitter && verdict == Passes) as usize;
            of_many += (held_up && table.records[i].count > 1 && verdict == Passes) as usize;
        }
    }
    let came = [turned_away, answered, passing, unshown, late, of_many];
    assert!(came.iter().all(|count| *count > 1000), "{came:?}");
}

/// Each slip shows on some drawn table.
#[test]
fn every_slip_shows() {
    let mut dice = Dice::new(32);
    let mut shown = Vec::new();
    for _ in 0..3000 {
        let n = dice.from_to(1, 4);
        let (table, own, catalogue) = drawn(&mut dice, n, 15, 90);
        let Ok(answer) = fixed_points(&table, &own, &catalogue) else {
            continue;
        };
        let rule = |slip| Rule {
            table: &table,
            lists: (&own, &catalogue),
            slip,
        };
        assert_eq!(answer, rule(None).verdicts(), "{table:?}");
        for slip in SLIPS {
            if answer != rule(Some(slip)).verdicts() {
                shown.push(slip);
            }
        }
    }
    for slip in SLIPS {
        let count = shown.iter().filter(|other| **other == slip).count();
        assert!(count > 5, "{slip:?} {count}");
    }
}

/// Each slip shows in the stored stream too, and so does the first region in the place of the last.
#[test]
fn every_slip_shows_in_the_stored_stream() {
    let (mut shown, mut first_for_last) = (Vec::new(), 0);
    for (kind, body, line) in super::cases::requests(&crate::cases::stream()) {
        let mut body = Body(&body);
        let number = if kind == 12 { body.two() } else { None };
        if ![12, 13].contains(&kind) || line.starts_with("refused") {
            continue;
        }
        let table = body.table().expect("a table");
        let own = body.words().expect("own words");
        let catalogue = body.words().expect("a catalogue");
        if let Some(number) = number {
            let words = regions(&table, &own, &catalogue, number).expect("regions");
            first_for_last += (line != format!("last {}", words[0])) as usize;
            continue;
        }
        // Those of long deadlines would take long.
        if table.tasks().iter().any(|task| task.deadline > 1000) {
            continue;
        }
        let said = |slip| {
            let lists = (&own[..], &catalogue[..]);
            let table = &table;
            text_of(&Rule { table, lists, slip }.verdicts())
        };
        assert_eq!(line, said(None));
        shown.extend(SLIPS.into_iter().filter(|slip| line != said(Some(*slip))));
    }
    for slip in SLIPS {
        assert!(shown.contains(&slip), "{slip:?}");
    }
    assert!(first_for_last > 5, "{first_for_last}");
}

fn text_of(verdicts: &[Verdict]) -> String {
    let words = verdicts.iter().map(|verdict| match verdict {
        Passes => " passes",
        Unshown => " unshown",
    });
    format!("points{}", words.collect::<String>())
}

const SLIPS: [Slip; 18] = [
    Slip::Below,
    Slip::FirstRegion,
    Slip::WholeCost,
    Slip::NoQInRange,
    Slip::NoJInRange,
    Slip::UpToD,
    Slip::AlphaAbove,
    Slip::AlphaOfOthers,
    Slip::AlphaOfAll,
    Slip::AlphaLast,
    Slip::AlphaCost,
    Slip::AlphaByThreshold,
    Slip::AlphaLessOne,
    Slip::NoJInSum,
    Slip::OwnJInSum,
    Slip::Floor,
    Slip::SumWithItself,
    Slip::AlphaOf0Searched,
];

/// A tolerance of alpha or more is a t with all of the cost before it, and the last region earlier the
/// rest stands before it too. The other way round it doesn't hold: a passing task may tolerate less.
#[test]
fn what_is_tolerated_passes() {
    let mut dice = Dice::new(33);
    let (mut tolerated, mut passing_beyond) = (0, 0);
    for _ in 0..15_000 {
        let n = dice.from_to(2, 8);
        let (table, own, catalogue) = drawn(&mut dice, n, 15, 80);
        let Ok(answer) = fixed_points(&table, &own, &catalogue) else {
            continue;
        };
        let all = tolerances(&table).expect("asked by the test too");
        for (i, verdict) in answer.into_iter().enumerate() {
            let (alpha, _, _) = parts_of(&table, i, (&own, &catalogue));
            if all[i] >= alpha {
                assert_eq!(verdict, Passes, "{i} of {table:?}");
                tolerated += (alpha > 0) as usize;
            } else {
                passing_beyond += (verdict == Passes) as usize;
            }
        }
    }
    let came = [tolerated, passing_beyond];
    assert!(came.iter().all(|count| *count > 100), "{came:?}");
}

// ---- tick by tick

/// For how many ticks a table is run.
const TICKS: u32 = 400;

/// Which tasks are always in time where they yield only at the ends of their regions. Job k of a task
/// is released at its first release plus k·T, comes as late as `late` says of its jitter, and is to
/// end by its release plus D.
fn in_time(
    (table, own): &(Table, Vec<u32>),
    first: &[u32],
    late: &mut impl FnMut(u32) -> u32,
) -> Vec<bool> {
    let n = table.n as usize;
    let words = |i: usize| regions(table, own, &[], i as u16 + 1).expect("regions");
    // Each task's jobs that wait: their deadline, and how many regions are over.
    let mut waiting: Vec<Vec<(u32, usize)>> = vec![Vec::new(); n];
    let mut coming: Vec<Vec<(u32, u32)>> = Vec::new();
    for (task, first) in table.tasks().iter().zip(first) {
        let releases = (*first..TICKS).step_by(task.period as usize);
        let jobs = releases.map(|at| (at + late(task.jitter), at + task.deadline));
        coming.push(jobs.collect());
    }
    let mut good = vec![true; n];
    let mut running: Option<(usize, u32)> = None;
    for tick in 0..TICKS {
        for i in 0..n {
            let come = coming[i].iter().filter(|(at, _)| *at == tick);
            waiting[i].extend(come.map(|(_, deadline)| (*deadline, 0)));
        }
        if let Some((i, end)) = running {
            if end == tick {
                end_region(&mut waiting[i], words(i).len(), tick, &mut good[i]);
                running = None;
            }
        }
        if running.is_none() {
            let ready = (0..n).filter(|i| !waiting[*i].is_empty());
            let next = ready.min_by_key(|i| table.records[*i].priority);
            running = next.map(|i| (i, tick + words(i)[waiting[i][0].1]));
        }
    }
    // What still waits is late if its deadline is over.
    for i in 0..n {
        good[i] &= waiting[i].iter().all(|(deadline, _)| *deadline >= TICKS);
    }
    good
}

fn end_region(jobs: &mut Vec<(u32, usize)>, count: usize, tick: u32, good: &mut bool) {
    jobs[0].1 += 1;
    if jobs[0].1 == count {
        *good &= tick <= jobs[0].0;
        jobs.remove(0);
    }
}

/// Where every task passes none is ever late, whenever the tasks come first and however late their
/// jobs come; where some are unshown they are late in some of the runs and in time in others.
#[test]
fn passing_tables_are_never_late() {
    let mut dice = Dice::new(34);
    let (mut all_pass, mut late, mut never) = (0, 0, 0);
    for _ in 0..4000 {
        let n = dice.from_to(2, 4);
        let (mut table, own, catalogue) = drawn(&mut dice, n, 30, 95);
        // One list for the run: the catalogue's words behind the own ones.
        for record in &mut table.records {
            if record.source == Source::Catalogue {
                record.first += own.len() as u32;
                record.source = Source::Own;
            }
        }
        let catalogue = catalogue.into_iter().map(|word| word.max(1));
        let own: Vec<u32> = own.into_iter().chain(catalogue).collect();
        let Ok(answer) = fixed_points(&table, &own, &[]) else {
            continue;
        };
        let cabinet = (table, own);
        let passing = answer.iter().all(|verdict| *verdict == Passes);
        let mut good = true;
        for _ in 0..12 {
            let first: Vec<u32> = (0..n).map(|_| dice.from_to(0, 12)).collect();
            let ran = in_time(&cabinet, &first, &mut |jitter| {
                [0, jitter, dice.from_to(0, jitter)][dice.from_to(0, 2) as usize]
            });
            good &= ran.iter().all(|good| *good);
        }
        assert!(good || !passing, "{cabinet:?}");
        all_pass += passing as usize;
        late += !good as usize;
        never += (good && !passing) as usize;
    }
    let came = [all_pass, late, never];
    assert!(came.iter().all(|count| *count > 100), "{came:?}");
}

// ---- the last region

/// The part is a word of the list itself, not a copy.
fn is_at(part: Result<&[u32], Refusal>, list: &[u32], place: usize) -> bool {
    part.is_ok_and(|part| part.len() == 1 && std::ptr::eq(&part[0], &list[place]))
}

#[test]
fn last_regions() {
    let (mut table, own) = divided(&[
        (&[2], 5, 5, 0),
        (&[3, 1], 10, 10, 0),
        (&[1, 1, 7], 90, 90, 0),
    ]);
    let catalogue = [0, 5, 4, 6];
    for (record, place) in [(1, 0), (2, 2), (3, 5)] {
        assert!(is_at(
            last_region(&table, &own, &catalogue, record),
            &own,
            place
        ));
    }
    assert_eq!(last_region(&table, &own, &catalogue, 2), Ok(&[1][..]));
    // One word of the catalogue, and two.
    (table.records[0].source, table.records[0].first) = (Source::Catalogue, 2);
    (table.records[0].cost, table.records[1].cost) = (4, 9);
    (table.records[1].source, table.records[1].first) = (Source::Catalogue, 1);
    for record in [1, 2] {
        assert!(is_at(
            last_region(&table, &own, &catalogue, record),
            &catalogue,
            2
        ));
    }
}

/// The last word that can be named, of 127 from word 127 on; and the hundredth own one.
#[test]
fn last_regions_far_behind() {
    let mut table = unassigned(&[(127, 200, 200)]);
    (table.records[0].first, table.records[0].count) = (127, 127);
    table.records[0].source = Source::Catalogue;
    let catalogue = [1; 300];
    assert!(is_at(
        last_region(&table, &[], &catalogue, 1),
        &catalogue,
        253
    ));
    (table.records[0].first, table.records[0].count) = (0, 100);
    (table.records[0].source, table.records[0].cost) = (Source::Own, 1_000_099);
    let mut own = [1; 100];
    own[99] = 1_000_000;
    assert!(is_at(last_region(&table, &own, &[], 1), &own, 99));
    assert_eq!(last_region(&table, &own, &[], 1), Ok(&[1_000_000][..]));
}

fn refused<T>(number: u8) -> Result<T, Refusal> {
    Err(Refusal::of(number))
}

/// 5, 13, 11, in this order, and nothing else, like the regions' own call.
#[test]
fn what_turns_a_last_region_away() {
    let (table, own) = divided(&[(&[2], 5, 5, 0), (&[3, 1], 10, 10, 0)]);
    let asked = |change: &dyn Fn(&mut Table), own: &[u32], number: u16| {
        let mut table = table;
        change(&mut table);
        let words = regions(&table, own, &[], number).map(|words| words[words.len() - 1]);
        let last = last_region(&table, own, &[], number).map(|word| word[0]);
        assert_eq!(last, words);
        last
    };
    let same = |_: &mut Table| {};
    assert_eq!(asked(&same, &own, 2), Ok(1));
    for n in [0, 16, 255] {
        assert_eq!(asked(&|table| table.n = n, &own, 1), refused(5));
        assert_eq!(asked(&|table| table.n = n, &own, 0), refused(5));
    }
    assert_eq!(asked(&same, &[1; 101], 1), refused(5));
    assert_eq!(asked(&same, &[1; 101], 3), refused(5));
    for number in [0, 3, 15, 16, 65_535] {
        assert_eq!(asked(&same, &own, number), refused(13));
        let bad = |table: &mut Table| table.records[0].count = 0;
        assert_eq!(asked(&bad, &own, number), refused(13));
    }
    let changes: [fn(&mut Record); 7] = [
        |record| record.count = 0,
        |record| record.count = 1,
        |record| record.count = 3,
        |record| record.count = 128,
        |record| record.first = 0,
        |record| record.first = u32::MAX,
        |record| record.source = Source::Catalogue,
    ];
    for change in changes {
        assert_eq!(
            asked(&|table| change(&mut table.records[1]), &own, 2),
            refused(11)
        );
        assert_eq!(
            asked(&|table| change(&mut table.records[1]), &own, 1),
            Ok(2)
        );
    }
    assert_eq!(asked(&same, &[2, 4, 0], 2), refused(11));
    // Only the record's own words count, and nothing but its regions.
    assert_eq!(asked(&same, &[0, 3, 1, 0], 2), Ok(1));
    assert_eq!(asked(&same, &[0, 3, 1, 0], 1), refused(11));
    let other = |table: &mut Table| {
        table.records[0].cost = 0;
        table.records[1].period = 0;
        table.records[1].priority = 9;
        table.records[1].jitter = u32::MAX;
        table.records[1].name = 128;
    };
    assert_eq!(asked(&other, &own, 2), Ok(1));
}

// ---- what turns the test away

/// Each number by itself, and before each that is asked later. `faults` stand in the order asked.
#[test]
fn the_numbers_in_their_order() {
    let (table, own) = divided(&[(&[2], 5, 5, 0), (&[3, 1], 10, 10, 0)]);
    let faults: [(u8, fn(&mut Table)); 7] = [
        (5, |table| table.n = 16),
        (9, |table| table.records[1].name = 128),
        (10, |table| table.records[1].threshold = 0),
        (11, |table| table.records[1].count = 1),
        (14, |table| {
            for record in &mut table.records {
                (record.priority, record.threshold) = (0, 0);
            }
        }),
        (15, |table| table.records[1].deadline = 11),
        (16, |table| table.records[0].deadline = 1),
    ];
    for (first, (number, change)) in faults.iter().enumerate() {
        for (later, also) in &faults[first..] {
            // What is unassigned isn't ill formed.
            if (*number, *later) == (10, 14) {
                continue;
            }
            let mut table = table;
            also(&mut table);
            change(&mut table);
            let refusal = fixed_points(&table, &own, &[]).expect_err("a fault");
            assert_eq!(refusal.number, *number, "{number} and {later}");
            assert_eq!(refusal.record, (*number == 16).then_some(1));
            assert_eq!(Some(refusal), regions_fit(&table, &own, &[]).err());
        }
    }
    assert_eq!(fixed_points(&table, &[2; 101], &[]), refused(5));
    assert_eq!(fixed_points(&table, &[2, 3, 1, 0], &[]), refused(11));
    assert_eq!(fixed_points(&Table::default(), &[], &[]), refused(5));
}

/// A tolerance below zero, or none, wherever it stands; the lowest record is named.
#[test]
fn which_record_16_names() {
    for (tasks, record) in [
        ([(&[2][..], 5, 1, 0), (&[4][..], 10, 10, 0)], 1),
        ([(&[2], 5, 5, 0), (&[4], 10, 5, 0)], 2),
        ([(&[2], 5, 1, 0), (&[4], 10, 3, 0)], 1),
        ([(&[2], 5, 5, 4), (&[4], 10, 10, 0)], 1),
        ([(&[2], 5, 4, 4), (&[4], 10, 10, 0)], 1),
        ([(&[2], 5, 5, 0), (&[4], 10, 10, 9)], 2),
    ] {
        let (table, own) = divided(&tasks);
        let refusal = Refusal {
            number: 16,
            record: Some(record),
        };
        assert_eq!(fixed_points(&table, &own, &[]), Err(refusal));
        assert_eq!(regions_fit(&table, &own, &[]), Err(refusal));
    }
    // A tolerance of 0 is taken: A (2,5,2) has one, and no t.
    let none: [Task; 2] = [(&[2], 5, 2, 0), (&[4], 10, 10, 0)];
    assert_eq!(verdicts(&none), [Unshown, Passes]);
}

/// Records that nothing is asked of: those past n.
#[test]
fn records_past_n_are_not_looked_at() {
    let (mut table, own) = divided(&[(&[2], 5, 5, 0), (&[3, 1], 10, 10, 0)]);
    for record in &mut table.records[2..] {
        *record = Record {
            cost: u32::MAX,
            priority: u32::MAX,
            count: 3,
            jitter: u32::MAX,
            ..Record::default()
        };
    }
    assert_eq!(fixed_points(&table, &own, &[]), Ok(vec![Passes; 2]));
    assert_eq!(last_region(&table, &own, &[], 3), refused(13));
}
