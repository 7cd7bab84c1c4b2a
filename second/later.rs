//! Tables drawn so that a later job of some task is its worst one, or that several of its jobs reach
//! the same value (document 02, item 4). A few tasks of small numbers are tried until the jobs of
//! the lowest are as wished. Then each task above it is split into several of its period and its
//! jitter, and all numbers grow by one factor: neither changes which jobs are the worst.

use crate::analysis::{active_period, blocking, finish, jobs, start, Tasks};
use crate::draw::{draw_jitters, step_back, threshold_of};
use crate::random::Random;
use crate::table::*;

/// F + J(i) - k·T(i) of each job of the active period; `None` is "beyond".
pub fn differences(tasks: &Tasks, i: usize) -> Option<Vec<i64>> {
    differences_behind(tasks, i, blocking(tasks, i))
}

/// The same with this in place of what blocks.
fn differences_behind(tasks: &Tasks, i: usize, b: u64) -> Option<Vec<i64>> {
    let mut s = 0;
    let difference = |k: u64| {
        s = start(tasks, i, b, k, s)?;
        let f = finish(tasks, i, s)?;
        Some((f + tasks.jitter[i]) as i64 - (k * tasks.period[i]) as i64)
    };
    (0..jobs(tasks, i, b)?).map(difference).collect()
}

/// The jobs that reach the largest of these, in their order.
pub fn reaching(differences: &[i64]) -> Vec<usize> {
    let largest = differences.iter().max();
    let jobs = 0..differences.len();
    jobs.filter(|k| differences.get(*k) == largest).collect()
}

/// What a task's jobs are to be like: asked of their differences and of those that reach the
/// largest.
type Wish = fn(&[i64], &[usize]) -> bool;

/// The wishes as often as they are drawn.
const WISHES: [Wish; 13] = [
    |_, worst| worst[0] > 0,
    |_, worst| worst[0] > 0,
    |_, worst| worst[0] > 0,
    |_, worst| worst[0] > 1,
    |_, worst| worst[0] > 0 && worst.len() > 1,
    |_, worst| worst[0] > 0 && worst.len() > 1,
    |_, worst| worst[0] > 0 && worst.len() > 2,
    |_, worst| worst[0] > 0 && worst.len() > 2,
    |_, worst| worst[0] == 0 && worst.len() > 1,
    |all, worst| worst[0] > 0 && worst[0] == all.len() - 1,
    |all, worst| worst[0] > 0 && worst[0] == all.len() - 1,
    |all, worst| worst[0] > 0 && worst[0] == all.len() - 1,
    |all, worst| all.len() > 1 && worst == [0],
];

/// A job whose number doesn't fit in a byte.
const FAR: Wish = |_, worst| worst[0] > 255;

/// How few tasks are drawn for a wish: how often, what share of the processor they may leave, in
/// hundredths, and how long an active period may be.
struct Draw {
    times: Times,
    tries: u32,
    spare: u64,
    longest: u64,
}

const SMALL: Draw = Draw {
    times: small_times,
    tries: 400,
    spare: 15,
    longest: 400,
};

/// Of most of these drawn the load alone is looked at.
const UNEVEN: Draw = Draw {
    times: uneven_times,
    tries: 150,
    spare: 2,
    longest: 20_000,
};

/// A task below a few others, in the order of their priorities, and what its jobs are like.
struct Few {
    tasks: Tasks,
    /// What blocks it, a tick less than a cost.
    b: u64,
    /// How much of the processor is left, in parts of the whole.
    spare: u64,
    whole: u64,
    active_period: u64,
    differences: Vec<i64>,
}

impl Few {
    fn target(&self) -> usize {
        self.tasks.n - 1
    }
}

/// Gives an assigned table of two tasks or more such times and such an assignment, half of them with
/// jitters. The highest of several tasks is at its worst in the first job, and so is a single one.
pub fn later_jobs(random: &mut Random, table: &mut Table) {
    let n = table.n as usize;
    let late = random.once_in(2);
    if n < 2 || table.records[0].priority == 0 {
        if late {
            draw_jitters(random, table);
        }
        return;
    }
    let lower = random.place(4).min(n - 2);
    draw_later_jobs(random, table, lower, late);
}

/// The same with so many tasks below the one that all is about.
fn draw_later_jobs(random: &mut Random, table: &mut Table, lower: usize, late: bool) {
    let n = table.n as usize;
    let most = (n - 1 - lower).min(3);
    let above = random.one_of(&[1, most, most]);
    let few = if above > 1 && random.once_in(12) {
        few_as_wished(random, above, FAR, &UNEVEN, late)
    } else {
        let wish = random.one_of(&WISHES);
        few_as_wished(random, above, wish, &SMALL, late)
    };
    // Some wishes come seldom, and below a single task some never do.
    let few = few.or_else(|| few_as_wished(random, above, WISHES[0], &SMALL, late));
    if let Some(few) = few {
        spread(random, table, &few, lower);
    }
}

/// Such a table of no tasks below, with jitters or without, with deadlines that all others keep in
/// its own row, and a row shortly before that one. The table stays as it is, and there is no row,
/// where it is of one task or unassigned.
pub fn later_row(random: &mut Random, table: &mut Table, late: bool) -> Option<Vec<u8>> {
    let n = table.n as usize;
    if n < 2 || table.records[0].priority == 0 {
        return None;
    }
    draw_later_jobs(random, table, 0, late);
    let tasks = Tasks::of(table);
    for i in 0..n {
        let all = differences(&tasks, i)?;
        let most = *all.iter().max()? as u32;
        let later = reaching(&all)[0] > 0;
        let record = &mut table.records[i];
        record.deadline = if later {
            random.one_of(&[most, most, all[0] as u32, most - 1])
        } else {
            record.deadline.max(most)
        };
        // Late by a jitter a job may take longer than any deadline.
        record.deadline = record.deadline.min(MOST_TICKS);
    }
    let mut row = vec![0; 2 * n];
    for (k, record) in table.tasks().iter().enumerate() {
        row[record.priority as usize - 1] = k as u8 + 1;
        row[n + k] = record.threshold as u8;
    }
    for _ in 0..random.one_of(&[1, 1, 2, 5]) {
        step_back(&mut row);
    }
    Some(row)
}

/// Cost and period of a task, which is told whether it is the lowest. The lowest's cost will be what
/// the others leave.
type Times = fn(&mut Random, bool) -> (u64, u64);

fn small_times(random: &mut Random, _lowest: bool) -> (u64, u64) {
    let longest = random.one_of(&[8, 12, 20]);
    let period = random.from(2, longest);
    (random.from(1, period - 1) as u64, period as u64)
}

/// A short period below long ones: many jobs.
fn uneven_times(random: &mut Random, lowest: bool) -> (u64, u64) {
    let period = if lowest {
        random.from(2, 6)
    } else {
        random.from(200, 600)
    };
    (random.from(1, 2 * period / 3) as u64, period as u64)
}

/// A task below so many others whose jobs are as wished, or nothing where none came.
fn few_as_wished(
    random: &mut Random,
    above: usize,
    wish: Wish,
    draw: &Draw,
    late: bool,
) -> Option<Few> {
    for _ in 0..draw.tries {
        let few = few(random, above, draw, late);
        let wished = |few: &Few| wish(&few.differences, &reaching(&few.differences));
        if few.as_ref().is_some_and(wished) {
            return few;
        }
    }
    None
}

/// A task below so many others, or nothing where the load or the active period isn't such.
fn few(random: &mut Random, above: usize, draw: &Draw, late: bool) -> Option<Few> {
    let (mut tasks, spare, whole) = few_tasks(random, above, draw)?;
    // With a full load something late, or something that blocks, would have no end.
    if late {
        if spare == 0 {
            return None;
        }
        few_jitters(random, &mut tasks);
    }
    let some = random.from(1, 4) as u64;
    let b = if spare == 0 {
        0
    } else {
        random.one_of(&[0, 0, some])
    };
    let active_period = active_period(&tasks, above, b)?;
    if active_period > draw.longest {
        return None;
    }
    Some(Few {
        tasks,
        b,
        spare,
        whole,
        active_period,
        differences: differences_behind(&tasks, above, b)?,
    })
}

/// Tasks that load the processor nearly or fully, and what they leave of it, in parts of the whole.
/// Nothing where they leave more than they may, or ask for too much.
fn few_tasks(random: &mut Random, above: usize, draw: &Draw) -> Option<(Tasks, u64, u64)> {
    let mut tasks = Tasks {
        n: above + 1,
        ..Tasks::of(&Table::default())
    };
    let mut whole = 1;
    for j in 0..=above {
        (tasks.cost[j], tasks.period[j]) = (draw.times)(random, j == above);
        whole *= tasks.period[j];
        tasks.priority[j] = j as u32 + 1;
        tasks.threshold[j] = j as u32 + 1;
    }
    let share = |j: usize| whole / tasks.period[j];
    let load: u64 = (0..above).map(|j| share(j) * tasks.cost[j]).sum();
    let left = whole.checked_sub(load)?;
    let spare = left % share(above);
    let cost = left / share(above);
    if cost == 0 || spare * 100 > whole * draw.spare {
        return None;
    }
    tasks.cost[above] = cost;
    tasks.threshold[above] = random.from(1, above as u32 + 1);
    Some((tasks, spare, whole))
}

/// Jitters of the few, one at least: most of them small, and seldom one that is as large as it may be.
fn few_jitters(random: &mut Random, tasks: &mut Tasks) {
    for j in 0..tasks.n {
        let most = tasks.period[j] as u32 - 1;
        let small = random.from(0, most.min(3));
        let any = random.from(0, most);
        tasks.jitter[j] = random.one_of(&[0, 0, small, small, small, any, most]) as u64;
    }
    if tasks.jitter[..tasks.n].iter().all(|jitter| *jitter == 0) {
        // All periods are 2 at least.
        tasks.jitter[random.place(tasks.n)] = 1;
    }
}

/// The few tasks as the table's: all times longer by one factor, each of the higher tasks in several
/// records, and so many tasks below that don't change its times.
fn spread(random: &mut Random, table: &mut Table, few: &Few, lower: usize) {
    let n = table.n as usize;
    let target = few.target();
    // A task that blocks is one of those below.
    let lower = if few.b > 0 { lower.max(1) } else { lower };
    if target + 1 + lower > n {
        return;
    }
    let parts = parts_of(random, n - 1 - lower, target);
    let factor = factor(random, few, &parts, lower);
    let mut records: Vec<Record> = Vec::new();
    for (j, count) in parts.iter().enumerate() {
        let period = few.tasks.period[j] as u32 * factor;
        let jitter = few.tasks.jitter[j] as u32 * factor;
        for cost in split(random, few.tasks.cost[j] as u32 * factor, *count) {
            records.push(Record {
                jitter,
                ..timed(cost, period, period)
            });
        }
    }
    let cut_by: usize = parts[..few.tasks.threshold[target] as usize - 1]
        .iter()
        .sum();
    records.push(target_record(random, few, factor));
    for place in 0..lower {
        let blocks = place == 0 && few.b > 0;
        records.push(if blocks {
            overload(random, few.b as u32 * factor + 1)
        } else {
            below(random, few, factor)
        });
    }
    let own = n - lower;
    for (place, record) in records.iter_mut().enumerate() {
        record.priority = place as u32 + 1;
        record.threshold = if record.priority == own as u32 {
            cut_by as u32 + 1
        } else {
            threshold_beside(random, record.priority, own as u32, few.b > 0)
        };
    }
    put_records(random, table, &records, own - 1);
}

/// A threshold for another task than that of priority `own`: of the tasks below it the first blocks
/// it, or none does.
fn threshold_beside(random: &mut Random, priority: u32, own: u32, blocks: bool) -> u32 {
    if priority < own {
        threshold_of(random, priority)
    } else if blocks && priority == own + 1 {
        random.from(1, own)
    } else {
        random.from(own + 1, priority)
    }
}

/// How many records each of the tasks above gets, one at least.
fn parts_of(random: &mut Random, records: usize, tasks: usize) -> Vec<usize> {
    let mut parts = vec![1; tasks];
    for _ in tasks..records {
        parts[random.place(tasks)] += 1;
    }
    parts
}

/// At least so much that each part has a tick, at most so much that nothing goes beyond. With tasks
/// below it is large: these may be beyond, and a sum that climbs there by single ticks takes long.
fn factor(random: &mut Random, few: &Few, parts: &[usize], lower: usize) -> u32 {
    let most = (MOST_TICKS as u64 / few.active_period.max(longest_period(few))) as u32;
    let parts = parts.iter().zip(few.tasks.cost);
    let least = parts.map(|(count, cost)| (*count as u64).div_ceil(cost));
    let least = least.max().unwrap_or(1) as u32;
    let least = if lower > 0 { least.max(500) } else { least };
    let least = least.min(most);
    let some = random.from(least, most.min(least + 20));
    let any = random.from(least, most);
    random.one_of(&[least, least, some, any])
}

fn longest_period(few: &Few) -> u64 {
    let periods = few.tasks.period[..few.tasks.n].iter();
    periods.copied().max().unwrap_or(1)
}

/// So many costs, each a tick at least, that add up to this one.
pub fn split(random: &mut Random, cost: u32, count: usize) -> Vec<u32> {
    let mut left = cost;
    let mut costs = Vec::new();
    for others in (1..count as u32).rev() {
        let most = (left - others).min(2 * left / (others + 1));
        let part = random.from(1, most.max(1));
        costs.push(part);
        left -= part;
    }
    costs.push(left);
    costs
}

fn timed(cost: u32, period: u32, deadline: u32) -> Record {
    Record {
        cost,
        period,
        deadline,
        ..Record::default()
    }
}

/// The task that all of this is about, its deadline about what its first job takes, or the worst.
fn target_record(random: &mut Random, few: &Few, factor: u32) -> Record {
    let target = few.target();
    let longer = |ticks: u64| ticks as u32 * factor;
    let period = longer(few.tasks.period[target]);
    let largest = few.differences.iter().max().copied().unwrap_or(1);
    let worst = longer(largest as u64);
    let first = longer(few.differences[0] as u64);
    let more = worst + random.from(0, period);
    let deadline = random.one_of(&[worst, worst - 1, first, first - 1, period, more]);
    let deadline = deadline.clamp(1, MOST_TICKS);
    Record {
        jitter: longer(few.tasks.jitter[target]),
        ..timed(longer(few.tasks.cost[target]), period, deadline)
    }
}

/// A task below: more than the processor can bear, mostly, or in the same period what is left of it,
/// so that its worst job may be a later one too.
fn below(random: &mut Random, few: &Few, factor: u32) -> Record {
    let period = few.tasks.period[few.target()] * factor as u64;
    let left = (period as u128 * few.spare as u128 / few.whole as u128) as u32;
    if left > 0 && random.once_in(2) {
        return timed(random.from(1, left), period as u32, period as u32);
    }
    let cost = random.from(1, factor);
    overload(random, cost)
}

fn overload(random: &mut Random, cost: u32) -> Record {
    let times = random.one_of(&[1, 2, 2, 1000]);
    let period = (cost as u64 * times).min(MOST_TICKS as u64) as u32;
    timed(cost, period, period)
}

/// The records in any order, the one that all is about often the first or the last. What they hold
/// beside times and places stays.
fn put_records(random: &mut Random, table: &mut Table, records: &[Record], target: usize) {
    let n = records.len();
    let mut order: Vec<usize> = (0..n).collect();
    for k in (1..n).rev() {
        order.swap(k, random.place(k + 1));
    }
    let at = order.iter().position(|k| *k == target).unwrap_or(0);
    let wanted = random.one_of(&[at, at, 0, n - 1]);
    order.swap(at, wanted);
    for (record, k) in table.records.iter_mut().zip(order) {
        let new = &records[k];
        (record.cost, record.period, record.deadline) = (new.cost, new.period, new.deadline);
        (record.priority, record.threshold) = (new.priority, new.threshold);
        record.jitter = new.jitter;
    }
}
