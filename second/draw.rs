//! Cabinets, rows and name lists drawn from random numbers: all of them good, so that a call
//! takes them. What makes them wrong stands in spoil.rs.

use crate::analysis::{blocking, finish, passes, response, response_times, start};
use crate::analysis::{Response, Tasks};
use crate::file::Edition;
use crate::lengths::{lengths, tolerances};
use crate::random::Random;
use crate::table::*;

/// A cabinet as the writer would take it, but for what a later step makes wrong.
#[derive(Clone)]
pub struct Cabinet {
    pub plate: Plate,
    /// The edition of its file; the first, unless one is given.
    pub edition: Edition,
    pub table: Table,
    pub own: Vec<u32>,
    pub catalogue: Vec<u32>,
}

/// What the tasks of a table are like.
#[derive(Clone, Copy, PartialEq)]
enum Mood {
    /// Loads from light to more than full, deadlines around the periods.
    Any,
    /// Loads that leave time over, deadlines at most the periods: tolerances mostly above zero.
    Calm,
    /// The smallest numbers: all costs 1, periods and deadlines down to 1.
    Tiny,
    /// All jobs together take the whole horizon, or one tick more.
    Brim,
}

/// A cabinet that the writer takes, of n tasks or sometimes fewer, with a lent catalogue or an
/// empty one.
pub fn cabinet(random: &mut Random, n: u32, lent: bool) -> Cabinet {
    let mood = match random.from(0, 8) {
        0 => Mood::Brim,
        1 => Mood::Tiny,
        2..=4 => Mood::Calm,
        _ => Mood::Any,
    };
    let mut cabinet = Cabinet {
        plate: plate(random),
        edition: Edition::One,
        table: tasks(random, mood, n),
        own: Vec::new(),
        catalogue: if lent { catalogue(random) } else { Vec::new() },
    };
    for k in 0..cabinet.table.n as usize {
        give_regions(random, &mut cabinet, k, mood);
    }
    if !random.once_in(8) {
        assign(random, &mut cabinet.table);
        if mood != Mood::Any && !random.once_in(4) {
            order_by_deadline(&mut cabinet.table);
        }
    }
    if random.once_in(5) {
        unnamed_words(random, &mut cabinet.own);
    }
    cabinet
}

/// Own words behind those that records name, up to as many as a file holds.
fn unnamed_words(random: &mut Random, own: &mut Vec<u32>) {
    let most = MOST_REGION_WORDS;
    let m = random.one_of(&[most - 1, most - 1, most]);
    let word = random.one_of(&[1, MOST_TICKS]);
    if own.len() < m {
        own.resize(m, word);
    }
}

/// Never blank, but with all bytes 0 but one now and then, whichever it is.
fn plate(random: &mut Random) -> Plate {
    Plate {
        cabinet: random.one_of(&[1, 0x100, 0x1_0000, 70_001, MOST_CABINET]),
        line: random.one_of(&[1, 0x100, 12, u16::MAX]),
    }
}

/// Mostly short. The long ones reach behind word 127, the last that a first region can name, and
/// behind word 253, the last that any region can.
fn catalogue(random: &mut Random) -> Vec<u32> {
    let length = match random.from(0, 9) {
        0..=4 => random.from(0, 10),
        5 => random.from(11, 126),
        6 => random.one_of(&[127, 128, 129, 200]),
        _ => random.one_of(&[253, 254, 254, 255, 256, 300]),
    };
    (0..length).map(|_| random.from(1, 9)).collect()
}

/// Cost, period, deadline and name of each task; no assignment and no regions yet.
fn tasks(random: &mut Random, mood: Mood, n: u32) -> Table {
    let n = match mood {
        Mood::Brim => random.from(1, n.min(3)),
        Mood::Tiny if random.once_in(2) => 1,
        _ => n,
    };
    let mut table = Table {
        n: n as u8,
        ..Table::default()
    };
    match mood {
        Mood::Any => any_times(random, &mut table),
        Mood::Calm => {
            let load = random.from(20, 80);
            calm_times(random, &mut table, load);
        }
        Mood::Tiny => tiny_times(random, &mut table),
        Mood::Brim => brim_times(random, &mut table),
    }
    give_names(random, &mut table);
    table
}

fn give_names(random: &mut Random, table: &mut Table) {
    for record in &mut table.records[..table.n as usize] {
        let any = random.from(0, MOST_NAME_NUMBER);
        record.name = random.one_of(&[any, any, any, any, 0, MOST_NAME_NUMBER]);
    }
}

fn any_times(random: &mut Random, table: &mut Table) {
    let n = table.n as u32;
    let longest = random.one_of(&[12, 40, 200, 2000, MOST_TICKS]);
    // Near the full load a task's later jobs may be its worst.
    let (some, full) = (random.from(30, 110), random.from(85, 100));
    let load = random.one_of(&[some, full, full]);
    for record in &mut table.records[..n as usize] {
        record.period = random.from(1, longest);
        record.cost = share(record.period, load, n) + random.from(0, 1);
        record.cost = record.cost.min(MOST_TICKS);
        record.deadline = match random.from(0, 5) {
            0 => random.from(1, record.period),
            1 => (record.period + random.from(0, record.period)).min(MOST_TICKS),
            _ => record.period,
        };
    }
}

fn calm_times(random: &mut Random, table: &mut Table, load: u32) {
    let n = table.n as u32;
    let longest = random.one_of(&[200, 2000, 20_000]);
    for record in &mut table.records[..n as usize] {
        record.period = random.from(longest / 10, longest);
        record.cost = share(record.period, load, n);
        record.deadline = if random.once_in(2) {
            record.period
        } else {
            random.from(record.period / 2, record.period)
        };
    }
}

/// Nearly the full load, periods of much the same length and deadlines above them, the shortest
/// period the highest where the table is assigned: later jobs are often the worst.
pub fn full_times(random: &mut Random, table: &mut Table) {
    let n = table.n as u32;
    let shortest = random.one_of(&[3 * n, 10 * n, 300]);
    let load = random.from(88, 100);
    for record in &mut table.records[..n as usize] {
        record.period = random.from(shortest, 2 * shortest);
        record.cost = share(record.period, load, n);
        record.deadline = record.period;
    }
    order_by_deadline(table);
    for record in &mut table.records[..n as usize] {
        record.deadline += random.from(0, record.period);
    }
}

/// Costs of a few ticks and periods with common multiples: blockers of a tick or two, and starts
/// that would fall on an arrival if it weren't counted.
pub fn short_times(random: &mut Random, table: &mut Table) {
    let n = table.n as u32;
    let step = random.one_of(&[2, 3, 4]);
    for record in &mut table.records[..n as usize] {
        record.cost = random.one_of(&[1, 1, 2, 2, 3]);
        record.period = step * random.from(n, 2 * n);
        record.deadline = record.period;
    }
}

/// All but the lowest task load the processor fully, and that one takes a tick or two. Whom it
/// blocks with one tick it keeps from nothing, though with that tick counted there would be no end;
/// of two ticks one is left, and there is none.
pub fn full_above_a_tick_or_two(random: &mut Random, table: &mut Table) {
    let n = table.n as usize;
    let lowest = lowest(table);
    let mut sum = 0;
    for record in &mut table.records[..n] {
        record.cost = random.from(1, 5);
        sum += record.cost;
    }
    sum -= table.records[lowest].cost;
    table.records[lowest].cost = random.one_of(&[1, 1, 2]);
    for record in &mut table.records[..n] {
        record.period = sum.max(1);
        record.deadline = sum.max(1);
    }
}

/// The record of lowest priority.
pub fn lowest(table: &Table) -> usize {
    let places = 0..table.n as usize;
    let lowest = places.max_by_key(|k| table.records[*k].priority);
    lowest.unwrap_or(0)
}

/// Every deadline at the response time or behind it, but for one, mostly, that is just kept or
/// missed by a tick. The table stays as it is where a task is beyond or takes longer than any
/// deadline, or none has a priority.
pub fn deadlines_at_the_times(random: &mut Random, table: &mut Table) {
    let Ok(responses) = response_times(table) else {
        return;
    };
    let Some(responses) = responses.into_iter().collect::<Option<Vec<Response>>>() else {
        return;
    };
    if responses
        .iter()
        .any(|response| response.time > MOST_TICKS as i64)
    {
        return;
    }
    for (record, response) in table.records.iter_mut().zip(&responses) {
        record.deadline = record.deadline.max(response.time as u32);
    }
    let k = random.place(responses.len());
    let less = random.one_of(&[0, 0, 1]);
    table.records[k].deadline = (responses[k].time as u32 - less).max(1);
}

/// All tasks together load the processor fully, with long periods and deadlines, and one of them,
/// mostly the lowest, is late: its active period has no end, though each job finishes soon.
pub fn full_and_late(random: &mut Random, table: &mut Table) {
    let n = table.n as usize;
    let mut sum = 0;
    for record in &mut table.records[..n] {
        record.cost = random.from(10_000, 20_000);
        record.jitter = 0;
        sum += record.cost;
    }
    for record in &mut table.records[..n] {
        record.period = sum;
        record.deadline = random.from(2 * sum, 3 * sum);
    }
    let any = random.place(n);
    let k = random.one_of(&[lowest(table), any]);
    table.records[k].jitter = random.from(1, sum / 2);
}

/// The lowest task is so late that its response time lies above the horizon, though its active
/// period ends before: all others together leave it some of their one period, and it costs little.
pub fn late_above_the_horizon(random: &mut Random, table: &mut Table) {
    let n = table.n as usize;
    let lowest = lowest(table);
    let mut used = 0;
    for (k, record) in table.records[..n].iter_mut().enumerate() {
        // Two jobs of the lowest stand in its active period, one of each other task.
        record.cost = if k == lowest {
            random.from(1, 50_000)
        } else {
            random.from(1, 850_000 / n as u32)
        };
        used += record.cost;
        record.period = MOST_TICKS;
        record.deadline = MOST_TICKS;
        record.jitter = 0;
    }
    table.records[lowest].jitter = random.from(MOST_TICKS - used + 1, MOST_TICKS - 1);
}

/// The cost of one of n tasks that together load the processor by so much of a hundred.
pub fn share(period: u32, load: u32, n: u32) -> u32 {
    (period as u64 * load as u64 / 100 / n as u64).max(1) as u32
}

fn tiny_times(random: &mut Random, table: &mut Table) {
    let n = table.n as u32;
    for record in &mut table.records[..n as usize] {
        record.cost = 1;
        record.period = random.from(1, 3 * n);
        let sooner = random.from(1, record.period);
        record.deadline = random.one_of(&[sooner, record.period]);
    }
}

fn brim_times(random: &mut Random, table: &mut Table) {
    let n = table.n as usize;
    let period = random.one_of(&[MOST_TICKS, MOST_TICKS, MOST_TICKS - 1]);
    let deadline = random.one_of(&[MOST_TICKS, period]);
    let mut left = MOST_TICKS;
    for k in 0..n {
        let others = (n - 1 - k) as u32;
        let cost = if others == 0 {
            left
        } else {
            random.from(1, left - others)
        };
        left -= cost;
        table.records[k] = Record {
            cost,
            period,
            deadline,
            ..Record::default()
        };
    }
    // A single cost can't lie above the horizon.
    if n > 1 && random.once_in(2) {
        table.records[n - 1].cost += 1;
    }
}

/// A well-formed assignment; half of the thresholds are the priorities themselves.
pub fn assign(random: &mut Random, table: &mut Table) {
    let n = table.n as usize;
    let mut order: Vec<usize> = (0..n).collect();
    for k in (1..n).rev() {
        order.swap(k, random.place(k + 1));
    }
    for (place, k) in order.into_iter().enumerate() {
        let priority = place as u32 + 1;
        table.records[k].priority = priority;
        table.records[k].threshold = threshold_of(random, priority);
    }
}

/// A threshold for this priority, which is the priority itself half of the time.
pub fn threshold_of(random: &mut Random, priority: u32) -> u32 {
    if random.once_in(2) {
        priority
    } else {
        random.from(1, priority)
    }
}

/// Gives the priorities again, the earliest deadline the highest. Each threshold goes with its
/// priority, so the assignment stays well formed.
pub fn order_by_deadline(table: &mut Table) {
    let n = table.n as usize;
    let mut places: Vec<(u32, u32)> = Vec::new();
    for record in table.tasks() {
        places.push((record.priority, record.threshold));
    }
    places.sort();
    let mut order: Vec<usize> = (0..n).collect();
    order.sort_by_key(|k| table.records[*k].deadline);
    for (k, (priority, threshold)) in order.into_iter().zip(places) {
        (table.records[k].priority, table.records[k].threshold) = (priority, threshold);
    }
}

// ---- editions

/// Makes half of the files edition 2, and gives half of those a jitter.
pub fn give_edition(random: &mut Random, cabinet: &mut Cabinet) {
    let edition = random.one_of(&Edition::BOTH);
    give_this_edition(random, cabinet, edition);
}

/// Makes the file one of this edition, and gives half of those of edition 2 a jitter.
pub fn give_this_edition(random: &mut Random, cabinet: &mut Cabinet, edition: Edition) {
    cabinet.edition = edition;
    if cabinet.edition == Edition::Two {
        give_jitters(random, &mut cabinet.table);
        if is_late(&cabinet.table) && random.once_in(3) {
            one_late_record(random, &mut cabinet.table);
        }
    }
}

/// Leaves the jitter to one record, mostly the last, behind which the region words stand.
fn one_late_record(random: &mut Random, table: &mut Table) {
    let last = table.n as usize - 1;
    let any = random.place(last + 1);
    let k = random.one_of(&[any, last, last]);
    for record in &mut table.records[..=last] {
        record.jitter = 0;
    }
    table.records[k].jitter = any_jitter(random, table.records[k].period);
    at_least_one(table);
}

// ---- jitter

/// Whether some task has a jitter.
pub fn is_late(table: &Table) -> bool {
    let n = (table.n as usize).min(MOST_TASKS);
    table.records[..n].iter().any(|record| record.jitter > 0)
}

/// Gives half of the tables a jitter.
pub fn give_jitters(random: &mut Random, table: &mut Table) {
    if random.once_in(2) {
        draw_jitters(random, table);
    }
}

/// Gives a table jitters inside their range, some other than 0 where any period is above 1: small
/// ones mostly, as large ones leave no room for the tasks below.
pub fn draw_jitters(random: &mut Random, table: &mut Table) {
    let n = table.n as usize;
    let one = random.place(n);
    match random.from(0, 11) {
        0..=4 => {
            for record in &mut table.records[..n] {
                record.jitter = small_jitter(random, record.period);
            }
        }
        5..=7 => table.records[one].jitter = any_jitter(random, table.records[one].period),
        8..=10 => one_at_a_limit(random, table),
        _ => {
            for record in &mut table.records[..n] {
                record.jitter = any_jitter(random, record.period);
            }
        }
    }
    at_least_one(table);
}

/// At most about an eighth of the period, and 0 as often as not.
fn small_jitter(random: &mut Random, period: u32) -> u32 {
    let some = random.from(0, (period / 8 + 1).min(period - 1));
    random.one_of(&[0, some])
}

fn any_jitter(random: &mut Random, period: u32) -> u32 {
    random.from(0, period - 1)
}

/// 1, the most that there is, or about a deadline, which comes below the period for it.
fn jitter_at_a_limit(random: &mut Random, record: &mut Record) {
    let most = record.period - 1;
    if most > 1 && !random.once_in(3) {
        record.deadline = record.deadline.min(most - 1);
        let due = record.deadline;
        record.jitter = random.one_of(&[due - 1, due, due + 1, due + 1]);
    } else {
        record.jitter = random.one_of(&[1, most]).min(most);
    }
}

/// One task's jitter is at a limit, whatever the others have.
pub fn one_at_a_limit(random: &mut Random, table: &mut Table) {
    let k = random.place(table.n as usize);
    jitter_at_a_limit(random, &mut table.records[k]);
}

/// Where all came to 0, the first task that can have a jitter has one of a tick.
fn at_least_one(table: &mut Table) {
    if is_late(table) {
        return;
    }
    let mut tasks = table.records[..table.n as usize].iter_mut();
    if let Some(task) = tasks.find(|task| task.period > 1) {
        task.jitter = 1;
    }
}

/// Halves the jitters until no tolerance is below zero, and none missing, if that can be had by
/// jitters alone.
pub fn ease_jitters(table: &mut Table) {
    let mut still = *table;
    for record in &mut still.records {
        record.jitter = 0;
    }
    if !is_late(table) || lengths(&still).is_err() {
        return;
    }
    while lengths(table).is_err() {
        for record in &mut table.records[..table.n as usize] {
            record.jitter /= 2;
        }
    }
    at_least_one(table);
}

/// The highest task costs one tick and is so late that a single instant is left for it, which is
/// enough. The cabinet stays as it is where no word can be added or the table is unassigned.
pub fn one_instant(random: &mut Random, cabinet: &mut Cabinet) {
    let tasks = cabinet.table.tasks();
    let Some(k) = (0..tasks.len()).find(|k| tasks[*k].priority == 1) else {
        return;
    };
    if cabinet.own.len() == MOST_REGION_WORDS {
        return;
    }
    let record = &mut cabinet.table.records[k];
    record.deadline = record.deadline.min(record.period);
    record.cost = 1;
    // Once in a while there is an instant more.
    record.jitter = (record.deadline - 1).saturating_sub(random.one_of(&[0, 0, 0, 1]));
    (record.source, record.first, record.count) = (Source::Own, cabinet.own.len() as u32, 1);
    cabinet.own.push(1);
}

// ---- regions

/// Regions of one record: a run of the catalogue or of the own words that other records name
/// already, whose sum becomes its cost; or words of its own.
fn give_regions(random: &mut Random, cabinet: &mut Cabinet, k: usize, mood: Mood) {
    if mood != Mood::Brim && !cabinet.catalogue.is_empty() && random.once_in(3) {
        let (first, count) = run_of(random, cabinet.catalogue.len(), mood);
        let cost = cabinet.catalogue[first..first + count].iter().sum();
        name_run(random, cabinet, k, Source::Catalogue, (first, count, cost));
        return;
    }
    if mood != Mood::Brim && !cabinet.own.is_empty() && random.once_in(4) {
        let (first, count) = run_of(random, cabinet.own.len(), mood);
        let cost: u32 = cabinet.own[first..first + count].iter().sum();
        if cost <= MOST_TICKS {
            name_run(random, cabinet, k, Source::Own, (first, count, cost));
            return;
        }
    }
    own_words(random, cabinet, k, mood);
}

/// First and count of some words of a list, also the most that a record can name.
fn run_of(random: &mut Random, length: usize, mood: Mood) -> (usize, usize) {
    let most = MOST_REGION_PLACE as usize;
    let last_first = most.min(length - 1);
    if random.once_in(4) {
        return (last_first, most.min(length - last_first));
    }
    let first = random.place(last_first + 1);
    let longest = if mood == Mood::Calm { 4 } else { most };
    let left = longest.min(length - first);
    let some = 1 + random.place(left);
    (first, random.one_of(&[left, some]))
}

/// The record names as many words as any, as far behind in the catalogue as any.
pub fn the_most_words(cabinet: &mut Cabinet, k: usize) {
    let most = MOST_REGION_PLACE as usize;
    if cabinet.catalogue.len() < 2 * most {
        cabinet.catalogue.resize(2 * most, 1);
    }
    let words = &cabinet.catalogue[most..2 * most];
    let record = &mut cabinet.table.records[k];
    record.cost = words.iter().fold(0, |sum, word| sum.saturating_add(*word));
    (record.first, record.count) = (most as u32, most as u32);
    record.source = Source::Catalogue;
}

/// The record names a single own word, as long as any; it stays as it is where no word can be added.
pub fn the_longest_word(cabinet: &mut Cabinet, k: usize) {
    let place = cabinet.own.len();
    if place >= MOST_REGION_WORDS {
        return;
    }
    cabinet.own.push(MOST_TICKS);
    let record = &mut cabinet.table.records[k];
    (record.source, record.cost) = (Source::Own, MOST_TICKS);
    (record.first, record.count) = (place as u32, 1);
}

/// The record names this run. Its cost is the run's sum, so mostly its period and deadline grow
/// where they would be too short for it.
fn name_run(
    random: &mut Random,
    cabinet: &mut Cabinet,
    k: usize,
    source: Source,
    (first, count, cost): (usize, usize, u32),
) {
    let n = cabinet.table.n as u64;
    let record = &mut cabinet.table.records[k];
    (record.first, record.count) = (first as u32, count as u32);
    (record.source, record.cost) = (source, cost);
    let wide = (cost as u64 * n * 2).min(MOST_TICKS as u64) as u32;
    if record.period < wide && !random.once_in(4) {
        record.period = wide;
        record.deadline = wide;
    }
}

/// New own words for a record, at most its share of what a file holds.
fn own_words(random: &mut Random, cabinet: &mut Cabinet, k: usize, mood: Mood) {
    let share = MOST_REGION_WORDS as u32 / cabinet.table.n as u32;
    let record = &mut cabinet.table.records[k];
    let most = match mood {
        Mood::Calm => share.min(12),
        Mood::Brim if random.once_in(2) => 1,
        _ => 4,
    };
    let parts = random.from(1, record.cost.min(most));
    record.first = cabinet.own.len() as u32;
    record.count = parts;
    let mut left = record.cost;
    for part in (1..parts).rev() {
        // Calm regions are of much the same length, so that the longest may fit.
        let word = if mood == Mood::Calm {
            left / (part + 1)
        } else {
            random.from(1, left - part)
        };
        cabinet.own.push(word);
        left -= word;
    }
    cabinet.own.push(left);
}

/// Regions cut as long as the lengths let them be, half the time one of them a tick longer; the
/// cabinet stays as it is where that can't be had.
pub fn cut_to_lengths(random: &mut Random, cabinet: &mut Cabinet) {
    let mut table = cabinet.table;
    let mut own = Vec::new();
    let Ok(lengths) = lengths(&table) else {
        return;
    };
    for (record, length) in table.records.iter_mut().zip(lengths) {
        let count = record.cost.div_ceil(length as u32);
        record.source = Source::Own;
        (record.first, record.count) = (own.len() as u32, count);
        if own.len() + count as usize > MOST_REGION_WORDS {
            return;
        }
        own.extend(pieces(record.cost, length as u32));
    }
    if random.once_in(2) {
        lengthen_one(&table, &mut own);
    }
    (cabinet.table, cabinet.own) = (table, own);
}

/// The lowest task costs about what the others tolerate, from a tick less to three more, and runs
/// in one region. The cabinet stays as it is where nothing is tolerated, or there are no others.
pub fn cost_at_the_tolerance(random: &mut Random, cabinet: &mut Cabinet) {
    let Ok(tolerances) = tolerances(&cabinet.table) else {
        return;
    };
    let k = lowest(&cabinet.table);
    let others = (0..tolerances.len()).filter(|other| *other != k);
    let least = others.map(|other| tolerances[other]).min();
    let Some(least @ 0..) = least else {
        return;
    };
    if cabinet.own.len() == MOST_REGION_WORDS {
        return;
    }
    let cost = least + random.one_of(&[-1, 0, 1, 1, 2, 2, 3]);
    let cost = cost.clamp(1, MOST_TICKS as i64) as u32;
    // Long enough that it bears the others in most tables.
    let wide = (cost as u64 * 4 * cabinet.table.n as u64).min(MOST_TICKS as u64) as u32;
    let record = &mut cabinet.table.records[k];
    record.cost = cost;
    record.period = record.period.max(wide);
    record.deadline = record.period;
    (record.source, record.first, record.count) = (Source::Own, cabinet.own.len() as u32, 1);
    cabinet.own.push(cost);
}

/// A task, mostly the lowest, runs in one region, which seldom fits.
pub fn one_region(random: &mut Random, cabinet: &mut Cabinet) {
    let n = cabinet.table.n as usize;
    if cabinet.own.len() == MOST_REGION_WORDS {
        return;
    }
    let (any, lowest) = (random.place(n), lowest(&cabinet.table));
    let k = random.one_of(&[any, lowest, lowest]);
    let record = &mut cabinet.table.records[k];
    (record.source, record.first, record.count) = (Source::Own, cabinet.own.len() as u32, 1);
    cabinet.own.push(record.cost);
}

/// A region of the first task that can do so takes a tick from the one behind it.
fn lengthen_one(table: &Table, own: &mut [u32]) {
    for task in table.tasks() {
        let last = (task.first + task.count) as usize - 1;
        if task.count > 1 && own[last] > 1 {
            own[last - 1] += 1;
            own[last] -= 1;
            return;
        }
    }
}

/// Words of the whole cost, each as long as may be.
fn pieces(cost: u32, length: u32) -> Vec<u32> {
    let mut words = vec![length; (cost / length) as usize];
    if cost % length > 0 {
        words.push(cost % length);
    }
    words
}

// ---- rows

/// The fewest tasks of a table that has too many rows to walk over all of them.
pub const MANY_TASKS: u32 = 5;
/// Sizes up to this one are drawn more often than larger ones.
pub const SOME_TASKS: u32 = 8;

/// A table of many tasks whose first passing row is one of the first n·(n-1): both programs walk
/// row by row, so it must be near. Half the time it is the first row of all. Its tasks are late, or
/// none is.
pub fn near_table(random: &mut Random, late: bool) -> Table {
    let some = random.from(MANY_TASKS, SOME_TASKS);
    let more = random.from(SOME_TASKS + 1, MOST_TASKS as u32);
    // There are four sizes of some tasks, and seven of more.
    let n = random.one_of(&[some, some, more, more, more]);
    let row_of_all = random.once_in(2);
    loop {
        let mut table = light_table(random, n, late);
        let first = first_row(n as usize);
        if row_of_all {
            if row_passes(&table, &first) {
                return table;
            }
        } else {
            // The thresholds of the last two records are the first to move.
            let mut row = first.clone();
            row[2 * n as usize - 2] = random.from(1, n - 1) as u8;
            row[2 * n as usize - 1] = random.from(1, n) as u8;
            if pass_at(random, &mut table, &row, &first) {
                return table;
            }
        }
    }
}

/// Tasks with time to spare, the earliest deadline first.
fn light_table(random: &mut Random, n: u32, late: bool) -> Table {
    let mut table = Table {
        n: n as u8,
        ..Table::default()
    };
    let load = random.from(5, 75);
    calm_times(random, &mut table, load);
    give_names(random, &mut table);
    table.records[..n as usize].sort_by_key(|record| record.deadline);
    if late {
        draw_jitters(random, &mut table);
    }
    table
}

/// Gives the table deadlines at which this row passes and the other one fails. Says no, and leaves
/// the table alone, where deadlines can't do that.
fn pass_at(random: &mut Random, table: &mut Table, row: &[u8], other: &[u8]) -> bool {
    let Some(times) = times_of(table, row)
        .into_iter()
        .collect::<Option<Vec<u32>>>()
    else {
        return false;
    };
    // No deadline is kept by a time above all of them.
    if times.iter().any(|time| *time > MOST_TICKS) {
        return false;
    }
    let mut later = Vec::new();
    for (k, time) in times_of(table, other).into_iter().enumerate() {
        let time = time.unwrap_or(MOST_TICKS + 1).min(MOST_TICKS + 1);
        if time > times[k] {
            later.push((k, time));
        }
    }
    if later.is_empty() {
        return false;
    }
    for (record, time) in table.records.iter_mut().zip(&times) {
        record.deadline = record.deadline.max(*time);
    }
    let (k, time) = random.one_of(&later);
    let any = random.from(times[k], time - 1);
    table.records[k].deadline = random.one_of(&[times[k], time - 1, any]);
    true
}

/// The response times of the table in this row.
fn times_of(table: &Table, row: &[u8]) -> Vec<Option<u32>> {
    let tasks = tasks_in(table, row);
    let time = |i| response(&tasks, i).map(|response| response.time as u32);
    (0..tasks.n).map(time).collect()
}

/// A row shortly before one that passes, or shortly before the last row of all. The table's
/// deadlines may change for it.
pub fn near_row(random: &mut Random, table: &mut Table) -> Vec<u8> {
    let mut row = match random.from(0, 6) {
        0..=2 => last_row(table.n as usize),
        3 | 4 => passing_row(random, table),
        _ => row_made_to_pass(random, table),
    };
    for _ in 0..random.one_of(&[0, 1, 1, 2, 5, 12, 30]) {
        step_back(&mut row);
    }
    row
}

/// A passing row among some that are tried, every other one at the start of its order; if there
/// is none, the last row of all.
fn passing_row(random: &mut Random, table: &Table) -> Vec<u8> {
    for _ in 0..20 {
        let mut row = any_row(random, table.n as usize);
        if random.once_in(2) {
            row[table.n as usize..].fill(1);
        }
        if row_passes(table, &row) {
            return row;
        }
    }
    last_row(table.n as usize)
}

/// A row with which the table is made to pass while it fails with the row before; if that can't
/// be had, the last row of all.
fn row_made_to_pass(random: &mut Random, table: &mut Table) -> Vec<u8> {
    for _ in 0..20 {
        let mut row = any_row(random, table.n as usize);
        if random.once_in(2) {
            row[table.n as usize..].fill(1);
        }
        let mut before = row.clone();
        step_back(&mut before);
        if pass_at(random, table, &row, &before) {
            return row;
        }
    }
    last_row(table.n as usize)
}

/// A row in which one task is late by a tick, mostly, or just in time, and all others keep their
/// deadlines: what the table's jitters add decides. It comes with deadlines for that; nothing comes
/// where a task is beyond, or takes longer than any deadline.
pub fn row_at_the_times(random: &mut Random, table: &mut Table) -> Option<Vec<u8>> {
    let n = table.n as usize;
    let (mut row, later) = row_that_finishes_later(random, table);
    let times: Option<Vec<u32>> = times_of(table, &row).into_iter().collect();
    let times = times.filter(|times| times.iter().all(|time| *time <= MOST_TICKS))?;
    for (record, time) in table.records.iter_mut().zip(&times) {
        record.deadline = record.deadline.max(*time);
    }
    let any = random.place(n);
    let later = later.unwrap_or(any);
    let k = random.one_of(&[any, later, later, later]);
    let less = random.one_of(&[1, 1, 0]);
    table.records[k].deadline = (times[k] - less).max(1);
    for _ in 0..random.one_of(&[1, 1, 2, 5]) {
        step_back(&mut row);
    }
    Some(row)
}

/// Any row, or one of the first order, which the search from the start comes to soon; and a task in
/// it that jitters make finish later, if some tries come to one.
fn row_that_finishes_later(random: &mut Random, table: &Table) -> (Vec<u8>, Option<usize>) {
    let n = table.n as usize;
    let mut row = Vec::new();
    for _ in 0..8 {
        row = any_row(random, n);
        if random.once_in(2) {
            row = first_row(n);
            for k in 0..n {
                row[n + k] = threshold_of(random, k as u32 + 1) as u8;
            }
        }
        let tasks = tasks_in(table, &row);
        if let Some(later) = (0..n).find(|i| finishes_later(&tasks, *i)) {
            return (row, Some(later));
        }
    }
    (row, None)
}

/// Whether jitters make the first job finish later than it would without them from the same start.
fn finishes_later(tasks: &Tasks, i: usize) -> bool {
    let mut still = *tasks;
    still.jitter = [0; MOST_TASKS];
    let start = start(tasks, i, blocking(tasks, i), 0, 0);
    start.is_some_and(|s| finish(tasks, i, s) > finish(&still, i, s))
}

fn row_passes(table: &Table, row: &[u8]) -> bool {
    passes(&tasks_in(table, row))
}

/// The table's tasks with this row's assignment.
pub fn tasks_in(table: &Table, row: &[u8]) -> Tasks {
    let mut tasks = Tasks::of(table);
    let (order, thresholds) = row.split_at(tasks.n);
    for place in 0..tasks.n {
        tasks.priority[order[place] as usize - 1] = place as u32 + 1;
        tasks.threshold[place] = thresholds[place] as u32;
    }
    tasks
}

/// A well-formed row of n tasks.
pub fn any_row(random: &mut Random, n: usize) -> Vec<u8> {
    let mut table = Table {
        n: n as u8,
        ..Table::default()
    };
    assign(random, &mut table);
    let mut row = vec![0; 2 * n];
    for k in 0..n {
        row[table.records[k].priority as usize - 1] = k as u8 + 1;
        row[n + k] = table.records[k].threshold as u8;
    }
    row
}

/// 1 2 .. n, all thresholds 1.
fn first_row(n: usize) -> Vec<u8> {
    let mut row: Vec<u8> = (1..=n as u8).collect();
    row.resize(2 * n, 1);
    row
}

/// n .. 2 1, each threshold the priority itself.
pub fn last_row(n: usize) -> Vec<u8> {
    let falling: Vec<u8> = (1..=n as u8).rev().collect();
    [&falling[..], &falling[..]].concat()
}

/// The well-formed row before this one; the first row of all stays.
pub fn step_back(row: &mut [u8]) {
    let n = row.len() / 2;
    let (order, thresholds) = row.split_at_mut(n);
    if thresholds.iter().all(|threshold| *threshold == 1) && !order_back(order) {
        return;
    }
    for k in (0..n).rev() {
        if thresholds[k] > 1 {
            thresholds[k] -= 1;
            return;
        }
        thresholds[k] = priority(order, k);
    }
}

/// The place of record k + 1 in the order, counted from 1.
fn priority(order: &[u8], k: usize) -> u8 {
    let place = order.iter().position(|record| *record as usize == k + 1);
    place.expect("each record stands in the order") as u8 + 1
}

/// The order before this one; says no at the first.
fn order_back(order: &mut [u8]) -> bool {
    let Some(place) = (1..order.len()).rev().find(|at| order[at - 1] > order[*at]) else {
        return false;
    };
    let giving_way = order[place - 1];
    let smaller = order.iter().rposition(|record| *record < giving_way);
    order.swap(place - 1, smaller.expect("one behind is smaller"));
    order[place..].reverse();
    true
}

// ---- names

/// Bytes that look like a space to many programs, and aren't one.
pub const LIKE_A_SPACE: [u8; 8] = [0, 9, 10, 11, 12, 13, 0x85, 0xA0];

/// A name list of so many entries.
pub fn names(random: &mut Random, entries: usize) -> Vec<u8> {
    (0..entries).flat_map(|_| name_entry(random)).collect()
}

fn name_entry(random: &mut Random) -> [u8; 16] {
    let any = random.from(0, 16);
    let used = random.one_of(&[0, 15, 16, 16, any, any]) as usize;
    let printed = random.once_in(6);
    let mut entry = [b' '; 16];
    for byte in &mut entry[..used] {
        *byte = match random.from(0, 15) {
            0 => b' ',
            _ if printed => random.from(33, 126) as u8,
            _ => random.from(0, 255) as u8,
        };
    }
    if used > 0 && random.once_in(4) {
        entry[used - 1] = random.one_of(&LIKE_A_SPACE);
    }
    entry
}
