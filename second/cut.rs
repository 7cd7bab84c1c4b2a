//! Cabinets drawn for the test of fixed preemption points (document 02, item 2): regions of one word
//! and of many, out of either list, and tables in which some task just passes, or is not shown by a
//! tick. Some are left as they are drawn, and so is one that a few tries don't bring to a limit.

use crate::checks::regions_wrong;
use crate::draw::{assign, draw_jitters, ease_jitters, is_late};
use crate::draw::{lowest, order_by_deadline, share, Cabinet};
use crate::later::split;
use crate::lengths::lengths;
use crate::margins::Cut;
use crate::random::Random;
use crate::table::*;

/// Whether the test gives verdicts on it.
fn is_taken(cabinet: &Cabinet) -> bool {
    let wrong = regions_wrong(&cabinet.table, &cabinet.own, &cabinet.catalogue);
    !wrong && lengths(&cabinet.table).is_ok()
}

fn cut_of(cabinet: &Cabinet) -> Option<Cut> {
    Cut::of(&cabinet.table, &cabinet.own, &cabinet.catalogue)
}

// ---- tables and their regions

/// New times, a new assignment and new regions for the cabinet's tasks, half of them late. Mostly no
/// tolerance is below zero, and the search over every t is soon done.
pub fn cut_anew(random: &mut Random, cabinet: &mut Cabinet) {
    let longest = random.one_of(&[6, 20, 60, 200]) * cabinet.table.n as u32;
    cut_up_to(random, cabinet, longest);
}

/// The same with periods of up to all the ticks that there are: the search over t may take long.
pub fn cut_far(random: &mut Random, cabinet: &mut Cabinet) {
    let longest = random.one_of(&[MOST_TICKS / 4, MOST_TICKS]);
    cut_up_to(random, cabinet, longest);
}

fn cut_up_to(random: &mut Random, cabinet: &mut Cabinet, longest: u32) {
    let table = &mut cabinet.table;
    let late = random.once_in(2);
    for _ in 0..20 {
        times_up_to(random, table, longest);
        assign(random, table);
        if !random.once_in(4) {
            order_by_deadline(table);
        }
        if late {
            draw_jitters(random, table);
            ease_jitters(table);
        }
        if lengths(table).is_ok() {
            break;
        }
    }
    new_lists(random, cabinet);
}

/// Loads from light to nearly full.
fn times_up_to(random: &mut Random, table: &mut Table, longest: u32) {
    let n = table.n as u32;
    let load = random.from(10, 95);
    for record in &mut table.records[..n as usize] {
        record.period = random.from(longest / 6, longest);
        let cost = share(record.period, load, n);
        record.cost = random.one_of(&[cost, cost, (cost / 2).max(1)]);
        let sooner = random.from((record.period / 2).max(1), record.period);
        record.deadline = random.one_of(&[sooner, record.period]);
        record.jitter = 0;
    }
}

/// Regions for all tasks, in lists that hold other words before and behind them now and then.
fn new_lists(random: &mut Random, cabinet: &mut Cabinet) {
    (cabinet.own, cabinet.catalogue) = (some_words(random), some_words(random));
    let far = random
        .once_in(FAR_ONCE_IN)
        .then(|| far_words(random, cabinet));
    let n = cabinet.table.n as usize;
    for k in (0..n).filter(|k| Some(*k) != far) {
        // A word is left for each task behind, so that the own words always have room.
        let most = MOST_REGION_WORDS - cabinet.own.len() - (n - 1 - k);
        let words = words_of(random, cabinet.table.records[k].cost, most);
        give_words(random, cabinet, k, &words);
    }
    cabinet.catalogue.extend(some_words(random));
    if random.once_in(25) {
        // Of the catalogue a word that no record names isn't looked at.
        cabinet.catalogue.push(random.one_of(&[0, MOST_TICKS + 1]));
    }
    let words = some_words(random);
    let fill = MOST_REGION_WORDS - random.from(0, 1) as usize;
    if random.once_in(10) && cabinet.own.len() < fill {
        cabinet.own.resize(fill, 1);
    } else if cabinet.own.len() + words.len() <= MOST_REGION_WORDS {
        cabinet.own.extend(words);
    }
}

fn some_words(random: &mut Random) -> Vec<u32> {
    let count = random.one_of(&[0, 0, 0, 1, 3]);
    (0..count).map(|_| random.from(1, 99)).collect()
}

/// How often a record has as many regions as any, as far behind in the catalogue as any.
const FAR_ONCE_IN: u32 = 25;

/// The record of the largest cost runs in 127 regions from word 127 on, and all periods grow as much
/// as its cost does for it.
fn far_words(random: &mut Random, cabinet: &mut Cabinet) -> usize {
    let most = MOST_REGION_PLACE;
    cabinet.catalogue.resize(most as usize, 1);
    let costs = cabinet.table.tasks().iter().enumerate();
    let (k, _) = costs.max_by_key(|(_, task)| task.cost).expect("a task");
    let before = cabinet.table.records[k].cost;
    let cost = before.max(most + random.from(0, 40));
    let words = one_long_word(random, cost, most as usize);
    put_words(cabinet, k, Source::Catalogue, &words);
    for record in &mut cabinet.table.records[..cabinet.table.n as usize] {
        let times = cost.div_ceil(before);
        (record.period, record.deadline) = (record.period * times, record.deadline * times);
    }
    k
}

/// A cost in one word, in two, in several or in many, each of them a tick at least.
fn words_of(random: &mut Random, cost: u32, most: usize) -> Vec<u32> {
    let (several, many) = (random.from(3, 6), random.from(7, 100));
    let count = random.one_of(&[1, 1, 2, 2, several, several, several, many]);
    let count = most.min(count.min(cost) as usize);
    if random.once_in(2) {
        split(random, cost, count)
    } else {
        one_long_word(random, cost, count)
    }
}

/// All words but one are of a tick or two.
fn one_long_word(random: &mut Random, cost: u32, count: usize) -> Vec<u32> {
    let mut words = vec![1; count];
    let mut left = cost - count as u32;
    let long = random.one_of(&[0, count / 2, count - 1]);
    for (place, word) in words.iter_mut().enumerate() {
        if place != long && left > 0 && random.once_in(3) {
            *word += 1;
            left -= 1;
        }
    }
    words[long] += left;
    words
}

/// Gives the record these words, behind all others of one of the lists, and the cost that they come
/// to. Says no, and leaves all as it is, where no list has room.
fn give_words(random: &mut Random, cabinet: &mut Cabinet, k: usize, words: &[u32]) -> bool {
    let place = MOST_REGION_PLACE as usize;
    let own = cabinet.own.len() + words.len() <= MOST_REGION_WORDS;
    let lent = cabinet.catalogue.len() <= place && words.len() <= place;
    let source = match (own, lent) {
        (false, false) => return false,
        (true, false) => Source::Own,
        (false, true) => Source::Catalogue,
        (true, true) => random.one_of(&[Source::Own, Source::Catalogue]),
    };
    put_words(cabinet, k, source, words);
    true
}

fn put_words(cabinet: &mut Cabinet, k: usize, source: Source, words: &[u32]) {
    let list = list_of(cabinet, source);
    let first = list.len() as u32;
    list.extend(words);
    let record = &mut cabinet.table.records[k];
    (record.source, record.first, record.count) = (source, first, words.len() as u32);
    record.cost = words.iter().sum();
}

fn list_of(cabinet: &mut Cabinet, source: Source) -> &mut Vec<u32> {
    match source {
        Source::Own => &mut cabinet.own,
        Source::Catalogue => &mut cabinet.catalogue,
    }
}

// ---- at the limit

/// A number that is moved until a task just passes.
#[derive(Clone, Copy)]
enum Knob {
    /// The deadline of this record.
    Deadline(usize),
    /// The jitter of this record.
    Jitter(usize),
    /// A region of this record, by its place among them, and the record's cost with it.
    Region(usize, usize),
}

impl Knob {
    fn set(self, cut: &mut Cut, value: u64) {
        match self {
            Knob::Deadline(k) => cut.tasks.deadline[k] = value,
            Knob::Jitter(k) => cut.tasks.jitter[k] = value,
            Knob::Region(k, place) => {
                cut.regions[k][place] = value;
                cut.tasks.cost[k] = cut.regions[k].iter().sum();
            }
        }
    }

    /// The least and the most that it may be. A region longer than the deadline of the task that is
    /// looked at lets nothing pass.
    fn range(self, cut: &Cut, i: usize) -> (u64, u64) {
        match self {
            Knob::Deadline(k) => (1, cut.tasks.period[k]),
            Knob::Jitter(k) => (0, cut.tasks.period[k] - 1),
            Knob::Region(..) => (1, cut.tasks.deadline[i]),
        }
    }

    /// Puts what was set into the cabinet. A record whose regions were moved gets words that it shares
    /// with no other.
    fn put(self, random: &mut Random, cut: &Cut, cabinet: &mut Cabinet) -> Option<()> {
        match self {
            Knob::Deadline(k) => cabinet.table.records[k].deadline = cut.tasks.deadline[k] as u32,
            Knob::Jitter(k) => cabinet.table.records[k].jitter = cut.tasks.jitter[k] as u32,
            Knob::Region(k, _) => {
                let words: Vec<u32> = cut.regions[k].iter().map(|word| *word as u32).collect();
                if !give_words(random, cabinet, k, &words) {
                    return None;
                }
                widen(cabinet, k);
            }
        }
        Some(())
    }
}

/// Moves one number so that some task but the lowest passes with it and not with a tick more or less,
/// or the other way round. The cabinet stays as it is where some tries don't come to that.
pub fn to_the_limit(random: &mut Random, cabinet: &mut Cabinet) {
    if !is_taken(cabinet) || cabinet.table.n < 2 {
        return;
    }
    let way = random.one_of(&[move_one, move_one, move_one, by_the_last_region]);
    for _ in 0..12 {
        let mut moved = cabinet.clone();
        if way(random, &mut moved).is_some() && is_taken(&moved) {
            *cabinet = moved;
            return;
        }
    }
}

/// Any task but the lowest.
fn above_the_lowest(random: &mut Random, table: &Table) -> usize {
    let n = table.n as usize;
    (lowest(table) + 1 + random.place(n - 1)) % n
}

fn move_one(random: &mut Random, cabinet: &mut Cabinet) -> Option<()> {
    let i = above_the_lowest(random, &cabinet.table);
    let mut cut = cut_of(cabinet)?;
    let knob = knob(random, &cut, i, is_late(&cabinet.table));
    let (passing, not) = limit(&mut cut, i, knob)?;
    knob.set(&mut cut, random.one_of(&[passing, not]));
    knob.put(random, &cut, cabinet)
}

/// Something that task i passes by: of its own, of a higher task or, most often, of a lower one. What
/// isn't late stays so.
fn knob(random: &mut Random, cut: &Cut, i: usize, late: bool) -> Knob {
    let (higher, lower) = (cut.higher(i), cut.lower(i));
    match random.from(0, 9) {
        0..=2 => Knob::Deadline(i),
        3 if late => Knob::Jitter(i),
        4 if late && !higher.is_empty() => Knob::Jitter(random.one_of(&higher)),
        5 => region(random, cut, i),
        6 if !higher.is_empty() => {
            let k = random.one_of(&higher);
            region(random, cut, k)
        }
        _ => {
            let k = random.one_of(&lower);
            region(random, cut, k)
        }
    }
}

fn region(random: &mut Random, cut: &Cut, k: usize) -> Knob {
    let count = cut.regions[k].len();
    let any = random.place(count);
    Knob::Region(k, random.one_of(&[any, 0, count - 1]))
}

/// Two neighbours, with the first of which task i passes and with the second not.
fn limit(cut: &mut Cut, i: usize, knob: Knob) -> Option<(u64, u64)> {
    let (mut low, mut high) = knob.range(cut, i);
    let mut passes = |value: u64| {
        knob.set(cut, value);
        cut.passes(i)
    };
    let at_low = passes(low);
    if at_low == passes(high) {
        return None;
    }
    while high - low > 1 {
        let middle = low + (high - low) / 2;
        if passes(middle) == at_low {
            low = middle;
        } else {
            high = middle;
        }
    }
    Some(if at_low { (low, high) } else { (high, low) })
}

/// Gives a task a deadline with which its last region decides: with the first or the longest in its
/// place the task would pass and doesn't, or the other way round.
fn by_the_last_region(random: &mut Random, cabinet: &mut Cabinet) -> Option<()> {
    let i = above_the_lowest(random, &cabinet.table);
    let mut cut = cut_of(cabinet)?;
    let by_last = least_deadline(&mut cut, i);
    let longest = cut.longest(i);
    let regions = &mut cut.regions[i];
    let place = regions.iter().position(|word| *word == longest)?;
    let end = regions.len() - 1;
    regions.swap(random.one_of(&[0, place]), end);
    let by_other = least_deadline(&mut cut, i);
    let (low, high) = (by_last.min(by_other), by_last.max(by_other));
    if low == high {
        return None;
    }
    cabinet.table.records[i].deadline = random.from(low as u32, high as u32 - 1);
    Some(())
}

/// The least deadline with which the task passes, one above its period where there is none.
fn least_deadline(cut: &mut Cut, i: usize) -> u64 {
    let (mut low, mut high) = (1, cut.tasks.period[i] + 1);
    while low < high {
        cut.tasks.deadline[i] = (low + high) / 2;
        if cut.passes(i) {
            high = cut.tasks.deadline[i];
        } else {
            low = cut.tasks.deadline[i] + 1;
        }
    }
    low
}

/// A record that costs more gets a period up to eight times as long, until all tasks have their
/// tolerances again. Where that isn't enough a longer one seldom is.
fn widen(cabinet: &mut Cabinet, k: usize) {
    for _ in 0..3 {
        if lengths(&cabinet.table).is_ok() {
            return;
        }
        let record = &mut cabinet.table.records[k];
        record.period = (2 * record.period).min(MOST_TICKS);
        record.deadline = record.period;
    }
}

// ---- no t

/// The highest task runs in one region, and of its deadline no tick is left for it to begin later, or
/// a single one. Half the time no other task's region is longer than a tick.
pub fn no_t_or_one(random: &mut Random, cabinet: &mut Cabinet) {
    let tasks = cabinet.table.tasks();
    let Some(k) = (0..tasks.len()).find(|k| tasks[*k].priority == 1) else {
        return;
    };
    let before = cabinet.clone();
    let cost = cabinet.table.records[k].cost;
    let mut given = give_words(random, cabinet, k, &[cost]);
    if random.once_in(2) {
        for other in (0..cabinet.table.n as usize).filter(|other| *other != k) {
            let ticks = random.one_of(&[1, 1, 2, 3]);
            given &= give_words(random, cabinet, other, &vec![1; ticks]);
        }
    }
    let record = &mut cabinet.table.records[k];
    record.deadline = cost + random.one_of(&[0, 0, 1, 1, 1]) + record.jitter;
    record.period = record.period.max(record.deadline);
    if !given || !is_taken(cabinet) {
        *cabinet = before;
    }
}

/// A single task that takes the whole horizon.
pub fn whole_horizon(random: &mut Random, cabinet: &mut Cabinet) {
    cabinet.table.n = 1;
    let record = &mut cabinet.table.records[0];
    (record.priority, record.threshold, record.jitter) = (1, 1, 0);
    (record.period, record.deadline) = (MOST_TICKS, MOST_TICKS);
    (cabinet.own, cabinet.catalogue) = (Vec::new(), Vec::new());
    let words = words_of(random, MOST_TICKS, MOST_REGION_WORDS);
    give_words(random, cabinet, 0, &words);
}
