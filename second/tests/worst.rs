//! Document 02, item 4: which job of the active period was the worst. The tables are worked out by
//! hand; a line `job k: S, F: F - k·T` stands for each job that is looked at. The same tables, and
//! many random ones, are also run tick by tick, with no equation at all.
//!
//! No difference is zero or below, so none of that kind is here: F > S, and job k starts no sooner
//! than it is released. For k above 0 suppose S ≤ k·T(i). k·T(i) lies below L, so S does; at every
//! positive x below L the sum that L solves is more than x, and at S that sum has at most k jobs of i
//! and of the others no more than have started by S: it is at most S. So S > k·T(i), and every
//! difference is more than C(i), but for the first job, whose F is C(i) at least.

use super::*;
use crate::analysis::*;
use crate::lengths::lengths;

/// R and k of each task.
pub fn answered(table: &Table) -> Vec<Option<(i64, u64)>> {
    let responses = response_times(table).expect("refused");
    let pair = |response: Response| (response.time, response.job);
    responses.into_iter().map(|one| one.map(pair)).collect()
}

/// A table of (cost, period), each deadline the period, in the order of the priorities.
fn rising(tasks: &[(u32, u32)], thresholds: &[u32]) -> Table {
    let tasks: Vec<_> = tasks.iter().map(|(c, t)| (*c, *t, *t)).collect();
    let priorities: Vec<u32> = (1..=tasks.len() as u32).collect();
    assigned(&tasks, &priorities, thresholds)
}

/// The table with this deadline in this record.
fn due(mut table: Table, record: usize, deadline: u32) -> Table {
    table.records[record - 1].deadline = deadline;
    table
}

fn passing(table: &Table) -> bool {
    passes(&Tasks::of(table))
}

/// A (3,6) above B (2,4), which it cuts. L(A) = 3, one job. B: L = 2·3 + 3·2 = 12, three jobs.
///
/// - job 0: S = 3, F = 3 + 2 = 5: 5
/// - job 1: S = 2 + 3 = 5, F = 5 + 2 + 3 = 10, as A comes at 6: 6
/// - job 2: S = 4 + 2·3 = 10, F = 12: 4
fn cut() -> Table {
    rising(&[(3, 6), (2, 4)], &[1, 2])
}

#[test]
fn a_later_job() {
    assert_eq!(answered(&cut()), [Some((3, 0)), Some((6, 1))]);
}

/// Job 1 takes 6, job 0 takes 5, job 2 takes 4: R and k are the same whichever of them miss the
/// deadline.
#[test]
fn a_later_job_and_the_deadline() {
    // In time at the last tick.
    assert!(passing(&due(cut(), 2, 6)));
    // Job 1 alone misses it; job 0 keeps it at the last tick.
    assert!(!passing(&due(cut(), 2, 5)));
    // Job 0 misses it by 1 and job 1 by 2; job 2 keeps it.
    assert!(!passing(&due(cut(), 2, 4)));
    for deadline in [4, 5, 6] {
        let table = due(cut(), 2, deadline);
        assert_eq!(answered(&table)[1], Some((6, 1)));
    }
}

/// The same two, but nothing cuts B, and B blocks A with 2 - 1: L(A) = 4, S = 1, F = 4. B: L = 12.
///
/// - job 0: S = 3, F = 5: 5
/// - job 1: S = 5, F = 7: 3
/// - job 2: S = 10, F = 12: 4
#[test]
fn the_first_of_several_jobs() {
    let table = rising(&[(3, 6), (2, 4)], &[1, 1]);
    assert_eq!(answered(&table), [Some((4, 0)), Some((5, 0))]);
    assert!(passing(&due(table, 2, 5)));
    // Job 0 alone misses it: the others keep it, the last one at the last tick.
    assert!(!passing(&due(table, 2, 4)));
}

/// A (2,4), B (1,7), C (2,6), of which none cuts another. C: L = 3·2 + 2·1 + 2·2 = 12, two jobs.
///
/// - job 0: S = 2 + 1 = 3, F = 5: 5
/// - job 1: S = 2 + 3·2 + 2·1 = 10 (by 5, 7, 8), F = 12: 6
///
/// A: b = 2 - 1, S = 1, F = 3. B: b = 1 as well, S = 1 + 2 = 3, F = 4.
fn last() -> Table {
    rising(&[(2, 4), (1, 7), (2, 6)], &[1, 1, 1])
}

/// A program that leaves out the last job doesn't see it.
#[test]
fn the_last_job_of_all() {
    assert_eq!(answered(&last()), [(3, 0), (4, 0), (6, 1)].map(Some));
    assert!(passing(&last()));
    // Deadlines below the period, and still a later job alone misses it.
    assert!(!passing(&due(last(), 3, 5)));
}

/// A (1,3), B (1,8), C (1,2), of which none cuts another. C: L = 2 + 1 + 3 = 6, three jobs.
///
/// - job 0: S = 1 + 1 = 2, F = 3: 3
/// - job 1: S = 1 + 2 + 1 = 4, F = 5: 3
/// - job 2: S = 2 + 2 + 1 = 5, F = 6: 2
///
/// What blocks A and B is a single tick each, so nothing: F = 1 and 2.
#[test]
fn the_first_and_a_later_job() {
    let table = rising(&[(1, 3), (1, 8), (1, 2)], &[1, 1, 1]);
    assert_eq!(answered(&table), [(1, 0), (2, 0), (3, 0)].map(Some));
}

/// A (1,15), B (2,5), C (2,4); B and A cut C. C: L = 1 + 3·2 + 4·2 = 15, four jobs.
///
/// - job 0: S = 1 + 2 = 3, F = 5: 5
/// - job 1: S = 2 + 1 + 2·2 = 7, F = 9: 5
/// - job 2: S = 4 + 1 + 2·2 = 9, F = 9 + 2 + 2 = 13, as B comes at 10: 5
/// - job 3: S = 6 + 1 + 3·2 = 13, F = 15: 3
#[test]
fn the_first_and_two_later_jobs() {
    let table = rising(&[(1, 15), (2, 5), (2, 4)], &[1, 1, 3]);
    assert_eq!(answered(&table)[2], Some((5, 0)));
}

/// A (2,5), B (1,12), C (2,4), which both cut. C: L = 4·2 + 2·1 + 5·2 = 20, five jobs.
///
/// - job 0: S = 2 + 1 = 3, F = 5: 5
/// - job 1: S = 2 + 2·2 + 1 = 7, F = 9: 5
/// - job 2: S = 4 + 2·2 + 1 = 9, F = 9 + 2 + 2 + 1 = 14, as A comes at 10 and B at 12: 6
/// - job 3: S = 6 + 3·2 + 2·1 = 14, F = 14 + 2 + 2 = 18, as A comes at 15: 6
/// - job 4: S = 8 + 4·2 + 2·1 = 18, F = 20: 4
///
/// So k is neither 0, nor the last that reaches R, nor the first that is no better than job 0.
fn two_later() -> Table {
    rising(&[(2, 5), (1, 12), (2, 4)], &[1, 1, 3])
}

#[test]
fn two_later_jobs() {
    assert_eq!(answered(&two_later()), [(2, 0), (3, 0), (6, 2)].map(Some));
}

/// A (2,4), B (1,5), C (2,7), of which none cuts another. C: L = 5·2 + 4·1 + 3·2 = 20, three jobs.
///
/// - job 0: S = 2 + 1 = 3, F = 5: 5
/// - job 1: S = 2 + 3·2 + 3·1 = 11, F = 13: 6
/// - job 2: S = 4 + 5·2 + 4·1 = 18, F = 20: 6
#[test]
fn two_later_jobs_and_the_second_the_last() {
    let table = rising(&[(2, 4), (1, 5), (2, 7)], &[1, 1, 1]);
    assert_eq!(answered(&table)[2], Some((6, 1)));
}

/// A (4,12), B (4,9), C (1,5), which nothing cuts. C: L = 3·4 + 4·4 + 7 = 35, seven jobs.
///
/// - job 0: S = 4 + 4 = 8, F = 9: 9
/// - job 1: S = 1 + 2·4 + 2·4 = 17, F = 18: 13
/// - job 2: S = 2 + 2·4 + 3·4 = 22, F = 23: 13
/// - job 3: S = 3 + 2·4 + 3·4 = 23, F = 24: 9
/// - job 4: S = 4 + 3·4 + 4·4 = 32, F = 33: 13
/// - job 5: S = 5 + 3·4 + 4·4 = 33, F = 34: 9
/// - job 6: S = 6 + 3·4 + 4·4 = 34, F = 35: 5
#[test]
fn three_later_jobs() {
    let table = rising(&[(4, 12), (4, 9), (1, 5)], &[1, 2, 1]);
    assert_eq!(answered(&table), [(4, 0), (8, 0), (13, 1)].map(Some));
}

/// A and B of `a_later_job` take every tick, so C, the first record here, never ends: there is no L.
#[test]
fn beyond_beside_a_later_job() {
    let tasks = [(1, 100, 100), (3, 6, 6), (2, 4, 6)];
    let table = assigned(&tasks, &[3, 1, 2], &[3, 1, 2]);
    assert_eq!(answered(&table), [None, Some((3, 0)), Some((6, 1))]);
    assert!(!passing(&table));
}

/// A (3,6) above B (1,3), which C (3,40) blocks with 3 - 1: L(B) = 2 + 2·3 + 4 = 12, four jobs.
///
/// - job 0: S = 2 + 3 = 5, F = 6: 6
/// - job 1: S = 2 + 1 + 2·3 = 9, F = 10: 7
/// - job 2: S = 2 + 2 + 2·3 = 10, F = 11: 5
/// - job 3: S = 2 + 3 + 2·3 = 11, F = 12: 3
///
/// Where C doesn't block it, L(B) = 3 + 2 = 5, S = 3 and 4, F = 4 and 5: 4 and 2. So what blocks
/// counts for the later jobs too, and alone makes one of them the worst.
#[test]
fn a_later_job_of_a_blocked_task() {
    let blocked = |threshold| answered(&rising(&[(3, 6), (1, 3), (3, 40)], &[1, 2, threshold]));
    assert_eq!(blocked(2)[1], Some((7, 1)));
    assert_eq!(blocked(3)[1], Some((4, 0)));
}

/// A (5,10), B (3,7), C (1,14), which A alone cuts. B: L = 2·5 + 3·3 = 19, three jobs; C blocks it
/// with 1 - 1.
///
/// - job 0: S = 5, F = 8: 8
/// - job 1: S = 3 + 5 = 8, F = 8 + 3 + 5 = 16, as A comes at 10: 9
/// - job 2: S = 6 + 2·5 = 16, F = 19: 5
///
/// C: L = 7·5 + 10·3 + 5 = 70, five jobs.
///
/// - job 0: S = 2·5 + 3·3 = 19, F = 20: 20
/// - job 1: S = 1 + 4·5 + 6·3 = 39, F = 40: 26
/// - job 2: S = 2 + 5·5 + 7·3 = 48, F = 49: 21
/// - job 3: S = 3 + 7·5 + 10·3 = 68, F = 69: 27
/// - job 4: S = 4 + 7·5 + 10·3 = 69, F = 70: 14
#[test]
fn later_jobs_of_two_tasks() {
    let table = rising(&[(5, 10), (3, 7), (1, 14)], &[1, 2, 2]);
    assert_eq!(answered(&table), [(5, 0), (9, 1), (27, 3)].map(Some));
}

/// `a_later_job` fourteen times as long, A in fourteen parts of its period: fourteen tasks (3,84)
/// above (28,56). Of these task p ends at 3·p. The last: L = 2·42 + 3·28 = 168, three jobs.
///
/// - job 0: S = 42, F = 70: 70
/// - job 1: S = 28 + 42 = 70, F = 70 + 28 + 42 = 140, as the others come at 84: 84
/// - job 2: S = 56 + 2·42 = 140, F = 168: 56
fn fifteen() -> Table {
    let mut tasks = [(3, 84); 15];
    tasks[14] = (28, 56);
    let own: Vec<u32> = (1..=15).collect();
    due(rising(&tasks, &own), 15, 84)
}

#[test]
fn a_later_job_of_the_fifteenth_task() {
    let all = answered(&fifteen());
    let higher: Vec<_> = (1..=14).map(|p| Some((3 * p, 0))).collect();
    assert_eq!(all[..14], higher);
    assert_eq!(all[14], Some((84, 1)));
    assert!(passing(&fifteen()));
    assert!(!passing(&due(fifteen(), 15, 83)));
}

/// `two_later_jobs` thirteen times as long, A in thirteen parts: thirteen tasks (2,65), (13,156) and
/// (26,52). The differences of the last are 13·5, 13·5, 13·6, 13·6 and 13·4.
#[test]
fn two_later_jobs_of_the_fifteenth_task() {
    let mut tasks = [(2, 65); 15];
    (tasks[13], tasks[14]) = ((13, 156), (26, 52));
    let own: Vec<u32> = (1..=15).collect();
    assert_eq!(answered(&rising(&tasks, &own))[14], Some((78, 2)));
}

/// `a_later_job` 83,333 times as long, where L = 999,996, and 83,334 times, where it is 1,000,008 and
/// beyond, though jobs 0 and 1 end at 416,670 and 833,340.
#[test]
fn a_later_job_at_the_horizon() {
    let longer = |times: u32| {
        let tasks = [(3, 6), (2, 4)].map(|(c, t)| (c * times, t * times));
        answered(&rising(&tasks, &[1, 2]))
    };
    assert_eq!(longer(83_333)[1], Some((6 * 83_333, 1)));
    assert_eq!(longer(83_334)[1], None);
}

/// The number of a job is no small one: it takes more than 16 bits here, and no hand works it out.
#[test]
fn a_job_far_behind() {
    let table = rising(&[(402, 898), (309, 877), (1, 5)], &[1, 2, 2]);
    let taken = run(&table, 2, 1_000_000).expect("an end");
    let far = first_largest(&taken);
    assert!(far.1 > 65_535);
    assert_eq!(answered(&table)[2], Some(far));
}

/// Whether a job of the task comes at this tick when its first one comes at tick 0 as late as it may
/// and no other is late: job q is due for release at q·T - J (document 02, item 8). J is below T, so
/// one alone comes at tick 0.
fn comes(task: &Record, tick: u32) -> bool {
    tick == 0 || (tick + task.jitter) % task.period == 0
}

/// How long each job takes from the tick at which it was due for release to its end when task i and
/// those above it are run tick by tick: all come at tick 0, as late as they may, and then in time
/// with each period, and before anybody else runs what still has to run of a lower task that is in
/// the way. It ends with the active period: at the first tick at which nothing is left of what came
/// before. `None` where that takes longer.
pub fn run(table: &Table, i: usize, longest: u32) -> Option<Vec<i64>> {
    let own = table.records[i];
    let others = table.tasks().iter();
    let (higher, lower): (Vec<&Record>, Vec<&Record>) = others
        .filter(|task| task.priority != own.priority)
        .partition(|task| task.priority < own.priority);
    let in_the_way = lower.iter().filter(|task| task.threshold <= own.priority);
    let mut in_the_way = in_the_way.map(|task| task.cost).max().unwrap_or(1) - 1;
    let mut left = vec![0; higher.len()];
    // The jobs of i that wait, the ticks left of the one that has begun, and what the others took.
    let (mut waiting, mut begun) = (0, 0);
    let mut taken = Vec::new();
    for tick in 0..longest {
        let idle = in_the_way + waiting + begun + left.iter().sum::<u32>() == 0;
        if tick > 0 && idle {
            return Some(taken);
        }
        for (left, task) in left.iter_mut().zip(&higher) {
            *left += if comes(task, tick) { task.cost } else { 0 };
        }
        waiting += comes(&own, tick) as u32;
        if in_the_way > 0 {
            in_the_way -= 1;
            continue;
        }
        // Whom nobody cuts waits for nobody once it has begun.
        let cuts = |task: &Record| begun == 0 || task.priority < own.threshold;
        let next = (0..left.len()).find(|j| left[*j] > 0 && cuts(higher[*j]));
        if let Some(j) = next {
            left[j] -= 1;
            continue;
        }
        if begun == 0 && waiting > 0 {
            (waiting, begun) = (waiting - 1, own.cost);
        }
        if begun > 0 {
            begun -= 1;
            if begun == 0 {
                let due = taken.len() as i64 * own.period as i64 - own.jitter as i64;
                taken.push(tick as i64 + 1 - due);
            }
        }
    }
    None
}

/// The largest of these, and its first place.
pub fn first_largest(taken: &[i64]) -> (i64, u64) {
    let mut first = (taken[0], 0);
    for (k, time) in taken.iter().enumerate() {
        if *time > first.0 {
            first = (*time, k as u64);
        }
    }
    first
}

/// The differences of the comments above come out tick by tick.
#[test]
fn worked_tables_tick_by_tick() {
    for (tasks, thresholds, taken) in [
        (&[(3, 6), (2, 4)][..], &[1, 2][..], &[5, 6, 4][..]),
        (&[(3, 6), (2, 4)], &[1, 1], &[5, 3, 4]),
        (&[(2, 4), (1, 7), (2, 6)], &[1, 1, 1], &[5, 6]),
        (&[(1, 3), (1, 8), (1, 2)], &[1, 1, 1], &[3, 3, 2]),
        (&[(1, 15), (2, 5), (2, 4)], &[1, 1, 3], &[5, 5, 5, 3]),
        (&[(2, 5), (1, 12), (2, 4)], &[1, 1, 3], &[5, 5, 6, 6, 4]),
        (&[(2, 4), (1, 5), (2, 7)], &[1, 1, 1], &[5, 6, 6]),
        (
            &[(4, 12), (4, 9), (1, 5)],
            &[1, 2, 1],
            &[9, 13, 13, 9, 13, 9, 5],
        ),
        (
            &[(5, 10), (3, 7), (1, 14)],
            &[1, 2, 2],
            &[20, 26, 21, 27, 14],
        ),
    ] {
        let table = rising(tasks, thresholds);
        let lowest = tasks.len() - 1;
        assert_eq!(run(&table, lowest, 100).as_deref(), Some(taken));
    }
    let blocked = rising(&[(3, 6), (1, 3), (3, 40)], &[1, 2, 2]);
    assert_eq!(run(&blocked, 1, 100).as_deref(), Some(&[6, 7, 5, 3][..]));
    assert_eq!(run(&fifteen(), 14, 200).as_deref(), Some(&[70, 84, 56][..]));
    // No end: what is left of C after its first tick is never made up for.
    let full = rising(&[(2, 2), (2, 20)], &[1, 1]);
    assert_eq!(run(&full, 0, 1000), None);
}

/// Two or three shares that fill the processor nearly, each in up to five tasks of small numbers, with
/// any assignment.
fn nearly_full(dice: &mut Dice) -> Table {
    loop {
        let mut tasks = Vec::new();
        let mut load = 0;
        for _ in 0..dice.from_to(2, 3) {
            let period = dice.from_to(2, 14);
            let cost = dice.from_to(1, period - 1);
            let count = [1, 1, 1, 2, 3, 5][dice.from_to(0, 5) as usize];
            load += cost * 1000 / period;
            tasks.extend(vec![(cost, period * count, period * count); count as usize]);
        }
        if (850..=1000).contains(&load) {
            let mut table = unassigned(&tasks);
            dice.assign(&mut table);
            return table;
        }
    }
}

/// R and k of random tables are those of the run, tick by tick, wherever that comes to an end.
#[test]
fn random_tables_tick_by_tick() {
    let mut dice = Dice::new(10);
    let (mut later, mut ties_at_first, mut later_ties, mut blocked, mut of_many) = (0, 0, 0, 0, 0);
    for _ in 0..20_000 {
        let table = nearly_full(&mut dice);
        for (i, answer) in answered(&table).into_iter().enumerate() {
            let Some(taken) = run(&table, i, 4000) else {
                continue;
            };
            let first = first_largest(&taken);
            assert_eq!(answer, Some(first), "task {i} of {table:?}");
            let own = table.records[i].cost as i64;
            assert!(taken.iter().all(|time| *time >= own));
            let several = taken.iter().filter(|time| **time == first.0).count() > 1;
            later += (first.1 > 0) as usize;
            ties_at_first += (several && first.1 == 0) as usize;
            later_ties += (several && first.1 > 0) as usize;
            blocked += (first.1 > 0 && blocking(&Tasks::of(&table), i) > 0) as usize;
            of_many += (first.1 > 0 && table.n >= 9) as usize;
        }
    }
    // The tables are worth the trouble only if all of these come up.
    let came = [later, ties_at_first, later_ties, blocked, of_many];
    assert!(came.iter().all(|count| *count > 20), "{came:?}");
}

/// Where no deadline is above its period and no tolerance is below zero, no job takes longer than the
/// one before it: in the t ticks at which the tolerance is reached, t at most the period, the
/// processor does all that comes above the task and one job of it. So the first is the worst.
#[test]
fn the_first_is_the_worst_where_lengths_are_answered() {
    let mut dice = Dice::new(12);
    let mut several = 0;
    for _ in 0..20_000 {
        let table = nearly_full(&mut dice);
        if lengths(&table).is_err() {
            continue;
        }
        for (i, answer) in answered(&table).into_iter().enumerate() {
            let Some(taken) = run(&table, i, 4000) else {
                continue;
            };
            assert!(taken.is_sorted_by(|one, next| one >= next), "{table:?}");
            assert_eq!(answer, Some((taken[0], 0)), "{table:?}");
            several += (taken.len() > 1) as usize;
        }
    }
    assert!(several > 20, "{several}");
}

/// The pass test says what the responses say, and what the run tick by tick does.
#[test]
fn passing_job_by_job() {
    let mut dice = Dice::new(11);
    let (mut passed, mut late_later) = (0, 0);
    for _ in 0..10_000 {
        let mut table = nearly_full(&mut dice);
        let each = (0..table.n as usize).map(|i| run(&table, i, 4000));
        let Some(taken) = each.collect::<Option<Vec<Vec<i64>>>>() else {
            continue;
        };
        for (record, taken) in table.records.iter_mut().zip(&taken) {
            // Seldom below what the task takes, and then by a tick or two.
            let less = dice.from_to(0, 20).saturating_sub(18);
            record.deadline = (first_largest(taken).0 as u32).saturating_sub(less).max(1);
        }
        let due = |i: usize| table.records[i].deadline as i64;
        let late = |i: usize| taken[i].iter().position(|time| *time > due(i));
        let in_time = (0..taken.len()).all(|i| late(i).is_none());
        assert_eq!(passes(&Tasks::of(&table)), in_time, "{table:?}");
        let mut answers = answered(&table).into_iter().enumerate();
        let kept = answers.all(|(i, answer)| answer.is_some_and(|(time, _)| time <= due(i)));
        assert_eq!(kept, in_time, "{table:?}");
        passed += in_time as usize;
        late_later += (0..taken.len()).any(|i| late(i) > Some(0)) as usize;
    }
    assert!(passed > 20 && late_later > 20, "{passed} {late_later}");
}
