//! The analysis tried out value by value: every L, S, F, t and length one after the other, straight
//! by the equations of document 01, "The analysis", with the changes of document 02, item 5, in
//! signed numbers. No jitter stands in them: that with every J at 0 the answers are those of before
//! is what these tests say of item 8. Tables with jitter stand in jitter.rs.

use super::*;
use crate::analysis::*;
use crate::checks::Refusal;
use crate::lengths::{lengths, tolerances};
use crate::listing::Walk;

const HORIZON: i64 = 1_000_000;

/// One task of the equations: C, T, D, p, h.
#[derive(Clone, Copy)]
struct Task {
    c: i64,
    t: i64,
    d: i64,
    p: i64,
    h: i64,
}

fn tasks_of(table: &Table) -> Vec<Task> {
    let task = |record: &Record| Task {
        c: record.cost as i64,
        t: record.period as i64,
        d: record.deadline as i64,
        p: record.priority as i64,
        h: record.threshold as i64,
    };
    table.tasks().iter().map(task).collect()
}

fn ceil(above: i64, below: i64) -> i64 {
    let mut whole = 0;
    while whole * below < above {
        whole += 1;
    }
    whole
}

fn floor(above: i64, below: i64) -> i64 {
    above.div_euclid(below)
}

/// B(i).
fn largest_cost_in_the_way(tasks: &[Task], i: Task) -> i64 {
    let in_the_way = tasks.iter().filter(|j| j.h <= i.p && i.p < j.p);
    in_the_way.map(|j| j.c).max().unwrap_or(0)
}

/// What L and S have of it.
fn blocking(tasks: &[Task], i: Task) -> i64 {
    match largest_cost_in_the_way(tasks, i) {
        0 => 0,
        b => b - 1,
    }
}

fn active_period(tasks: &[Task], i: Task) -> Option<i64> {
    let b = blocking(tasks, i);
    let above: Vec<&Task> = tasks.iter().filter(|j| j.p <= i.p).collect();
    (1..=HORIZON).find(|l| *l == b + above.iter().map(|j| (l + j.t - 1) / j.t * j.c).sum::<i64>())
}

fn started(s: i64, j: &Task) -> i64 {
    1 + floor(s, j.t)
}

fn start(tasks: &[Task], i: Task, k: i64) -> Option<i64> {
    let b = blocking(tasks, i);
    let side = |s: i64| {
        let higher = tasks.iter().filter(|j| j.p < i.p);
        b + k * i.c + higher.map(|j| started(s, j) * j.c).sum::<i64>()
    };
    (0..=HORIZON).find(|s| *s == side(*s))
}

fn finish(tasks: &[Task], i: Task, s: i64) -> Option<i64> {
    finish_with(tasks, i, s, &started)
}

/// F by this count of the jobs that have come by S.
fn finish_with(
    tasks: &[Task],
    i: Task,
    s: i64,
    started: &dyn Fn(i64, &Task) -> i64,
) -> Option<i64> {
    let side = |f: i64| {
        let higher = tasks.iter().filter(|j| j.p < i.h);
        s + i.c
            + higher
                .map(|j| (ceil(f, j.t) - started(s, j)) * j.c)
                .sum::<i64>()
    };
    (s + 1..=HORIZON).find(|f| *f == side(*f))
}

/// How many jobs are looked at.
fn jobs(tasks: &[Task], i: Task) -> Option<i64> {
    Some(ceil(active_period(tasks, i)?, i.t))
}

fn response(tasks: &[Task], i: Task) -> Option<Response> {
    let differences: Option<Vec<i64>> = (0..=jobs(tasks, i)? - 1)
        .map(|k| Some(finish(tasks, i, start(tasks, i, k)?)? - k * i.t))
        .collect();
    let differences = differences?;
    let time = differences.iter().copied().max()?;
    let first = differences.iter().position(|other| *other == time)?;
    Some(Response {
        time,
        job: first as u64,
    })
}

pub fn responses(table: &Table) -> Vec<Option<Response>> {
    let tasks = tasks_of(table);
    tasks.iter().map(|i| response(&tasks, *i)).collect()
}

fn tolerance(tasks: &[Task], i: Task) -> i64 {
    let at = |t: i64| {
        let higher = tasks.iter().filter(|j| j.p < i.p);
        t - i.c - higher.map(|j| ceil(t, j.t) * j.c).sum::<i64>()
    };
    (1..=i.d).map(at).max().expect("a deadline is at least 1")
}

pub fn all_tolerances(table: &Table) -> Vec<i64> {
    let tasks = tasks_of(table);
    tasks.iter().map(|i| tolerance(&tasks, *i)).collect()
}

/// The largest q, from 0 up, that is no more than the cost and no more than a tick above each
/// tolerance of a higher task.
fn length(tasks: &[Task], k: Task) -> i64 {
    let higher: Vec<i64> = tasks
        .iter()
        .filter(|i| i.p < k.p)
        .map(|i| tolerance(tasks, *i))
        .collect();
    let may_be = |q: &i64| *q <= k.c && higher.iter().all(|tolerance| *q <= tolerance + 1);
    (0..).take_while(may_be).last().expect("0 may be")
}

/// The lengths, or the record that stands in their way.
pub fn all_lengths(table: &Table) -> Result<Vec<i64>, Refusal> {
    for (k, tolerance) in all_tolerances(table).into_iter().enumerate() {
        if tolerance < 0 {
            return Err(Refusal {
                number: 16,
                record: Some(k + 1),
            });
        }
    }
    let tasks = tasks_of(table);
    Ok(tasks.iter().map(|k| length(&tasks, *k)).collect())
}

/// A small table that asks for 60 to 105 hundredths of the processor, more or less, so that long
/// active periods are common and some tasks are beyond.
fn small_table(dice: &mut Dice, n: u32) -> Table {
    let hundredths = dice.from_to(60, 105);
    table_of_load(dice, n, hundredths)
}

fn table_of_load(dice: &mut Dice, n: u32, hundredths: u32) -> Table {
    let mut tasks = Vec::new();
    for _ in 0..n {
        let cost = dice.from_to(1, 9);
        let period = (cost * n * 100 / hundredths).max(1) + dice.from_to(0, 2);
        tasks.push((cost, period, dice.from_to(cost, 3 * period)));
    }
    let mut table = unassigned(&tasks);
    dice.assign(&mut table);
    table
}

#[test]
fn response_times_value_by_value() {
    let mut dice = Dice::new(1);
    let (mut beyond, mut later_job_worse, mut named) = (0, 0, 0);
    for _ in 0..400 {
        let n = dice.from_to(1, 5);
        let table = small_table(&mut dice, n);
        let times = responses(&table);
        assert_eq!(response_times(&table), Ok(times.clone()), "{table:?}");
        beyond += times.iter().filter(|time| time.is_none()).count();
        later_job_worse += count_later_job_worse(&tasks_of(&table), &times);
        let later = |time: &&Option<Response>| time.is_some_and(|time| time.job > 0);
        named += times.iter().filter(later).count();
    }
    // The tables are worth the trouble only if both of these come up, and often.
    assert!(
        beyond > 20 && later_job_worse > 20,
        "{beyond} {later_job_worse}"
    );
    assert_eq!(named, later_job_worse);
}

/// Of many tasks a full load would take too long to try out, so few of these have one.
#[test]
fn response_times_of_many_value_by_value() {
    let mut dice = Dice::new(7);
    for k in 0..60 {
        let n = 6 + k % 10;
        let hundredths = if k % 15 == 9 {
            105
        } else {
            dice.from_to(40, 85)
        };
        let table = table_of_load(&mut dice, n, hundredths);
        let times = responses(&table);
        assert_eq!(response_times(&table), Ok(times), "{table:?}");
    }
}

/// How many tasks have a response time that their first job does not show.
fn count_later_job_worse(tasks: &[Task], times: &[Option<Response>]) -> usize {
    let first_job = |i: Task| finish(tasks, i, start(tasks, i, 0)?);
    tasks
        .iter()
        .zip(times)
        .filter(|(i, time)| time.is_some() && first_job(**i) < time_of(**time))
        .count()
}

#[test]
fn passing_is_all_times_within_deadlines() {
    let mut dice = Dice::new(2);
    let mut passing = 0;
    for _ in 0..2000 {
        let n = dice.from_to(1, MOST_TASKS as u32);
        let table = small_table(&mut dice, n);
        let times = times_of(&table).expect("refused");
        let in_time = table
            .tasks()
            .iter()
            .zip(&times)
            .all(|(task, time)| match time {
                Some(ticks) => *ticks <= task.deadline as i64,
                None => false,
            });
        assert_eq!(passes(&Tasks::of(&table)), in_time, "{table:?}");
        passing += in_time as usize;
    }
    assert!(0 < passing && passing < 2000, "{passing}");
}

#[test]
fn tolerances_value_by_value() {
    let mut dice = Dice::new(3);
    let mut below_zero = 0;
    for _ in 0..400 {
        let n = dice.from_to(1, MOST_TASKS as u32);
        let mut table = small_table(&mut dice, n);
        for record in &mut table.records {
            record.deadline = record.deadline.min(record.period);
        }
        let all = all_tolerances(&table);
        below_zero += all.iter().filter(|tolerance| **tolerance < 0).count();
        assert_eq!(tolerances(&table), Ok(all), "{table:?}");
    }
    assert!(below_zero > 0);
}

/// Deadlines at or below the periods, and loads at which some tolerances are small and not all of
/// the tables are turned away.
#[test]
fn lengths_value_by_value() {
    let mut dice = Dice::new(8);
    let (mut answered, mut below_cost, mut of_one) = (0, 0, 0);
    for _ in 0..1000 {
        let n = dice.from_to(1, 8);
        let hundredths = dice.from_to(20, 70);
        let mut table = table_of_load(&mut dice, n, hundredths);
        for record in &mut table.records {
            record.deadline = record.deadline.min(record.period);
        }
        let all = all_lengths(&table);
        assert_eq!(lengths(&table), all, "{table:?}");
        for (task, length) in table.tasks().iter().zip(all.unwrap_or_default()) {
            answered += 1;
            below_cost += (length < task.cost as i64) as usize;
            of_one += (length == 1 && task.cost > 1) as usize;
        }
    }
    assert!(
        answered > 500 && below_cost > 50 && of_one > 10,
        "{answered} {below_cost} {of_one}"
    );
}

/// No job starts at an arrival of a higher task. At such an S the count of arrivals has just gone
/// up, so one tick before it the sum was smaller by a cost at least, and S would not be the
/// smallest that bears its sum. A job that only waits for higher ones can't start at 0 either.
/// So at each start both forms of `started` are the same number, and whether F reads the ceiling
/// or 1 + floor can't be seen in any answer: this test is all that there is to see of it. It tries
/// the equations as they stand in this file.
#[test]
fn no_job_starts_at_an_arrival() {
    let mut dice = Dice::new(9);
    let (mut starts, mut blocked, mut cut) = (0, 0, 0);
    for _ in 0..600 {
        let n = dice.from_to(2, 6);
        let hundredths = dice.from_to(40, 98);
        let table = table_of_load(&mut dice, n, hundredths);
        let tasks = tasks_of(&table);
        for i in &tasks {
            for k in 0..jobs(&tasks, *i).unwrap_or(0) {
                let Some(s) = start(&tasks, *i, k) else {
                    continue;
                };
                for j in tasks.iter().filter(|j| j.p < i.p) {
                    assert_ne!(s % j.t, 0, "job {k} of {}: {table:?}", i.p);
                }
                let by_ceiling = finish_with(&tasks, *i, s, &|s, j| ceil(s, j.t));
                assert_eq!(by_ceiling, finish(&tasks, *i, s), "{table:?}");
                starts += 1;
                blocked += (largest_cost_in_the_way(&tasks, *i) > 0) as usize;
                cut += (i.h > 1) as usize;
            }
        }
    }
    assert!(
        starts > 2000 && blocked > 500 && cut > 500,
        "{starts} {blocked} {cut}"
    );
}

/// What the tasks of a table come to.
pub type Responses = dyn Fn(&Table) -> Vec<Option<Response>>;

/// Every run of 2n numbers from 0 to n, in order, kept if it is a well-formed assignment that
/// passes by these responses.
pub fn rows_number_by_number(table: &Table, responses: &Responses) -> Vec<Vec<u8>> {
    let n = table.n as usize;
    let runs = (n + 1).pow(2 * n as u32);
    let numbers = |run: usize| -> Vec<u8> {
        (0..2 * n)
            .rev()
            .map(|place| (run / (n + 1).pow(place as u32) % (n + 1)) as u8)
            .collect()
    };
    (0..runs)
        .map(numbers)
        .filter(|row| row_passes(table, row, responses))
        .collect()
}

fn row_passes(table: &Table, row: &[u8], responses: &Responses) -> bool {
    let n = table.n as usize;
    let mut table = *table;
    for record in &mut table.records {
        record.priority = 0;
    }
    for place in 0..n {
        if row[place] == 0 {
            return false;
        }
        table.records[row[place] as usize - 1].priority = place as u32 + 1;
        table.records[place].threshold = row[n + place] as u32;
    }
    let well_formed = table
        .tasks()
        .iter()
        .all(|task| task.threshold >= 1 && task.threshold <= task.priority);
    well_formed
        && responses(&table)
            .iter()
            .zip(table.tasks())
            .all(|(response, task)| match response {
                Some(response) => response.time <= task.deadline as i64,
                None => false,
            })
}

#[test]
fn rows_of_small_tables() {
    let mut dice = Dice::new(4);
    let mut found = 0;
    for run in 0..30 {
        let n = run % 3 + 1;
        let table = small_table(&mut dice, n);
        let rows = rows_number_by_number(&table, &responses);
        let mut walk = Walk::from_start(&table);
        let walked: Vec<Vec<u8>> = std::iter::from_fn(|| walk.next_passing())
            .map(|row| row.numbers().to_vec())
            .collect();
        assert_eq!(walked, rows, "{table:?}");
        found += rows.len();
    }
    assert!(found > 30, "{found}");
}
