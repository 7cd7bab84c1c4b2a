//! Streams of requests for the comparison at scale: every kind of the ask protocol, valid, at
//! each limit and one past it, with one fault and with several, damaged in one bit and in many,
//! cut at any length, with right and wrong seals. The same seed gives the same stream. What a
//! stream is to reach, and did reach, is counted in reach.rs.

use crate::analysis::{active_period, arrived, Tasks};
use crate::checks::{numbers_wrong, task_count_wrong};
use crate::cut::{cut_anew, cut_far, no_t_or_one, to_the_limit, whole_horizon};
use crate::draw::*;
use crate::file::{self, Edition};
use crate::later::{later_jobs, later_row};
use crate::lengths::lengths;
use crate::listing::{Row, Walk};
use crate::random::Random;
use crate::spoil::*;
use crate::table::*;

/// The kinds as often as they are drawn: more often those that have more to reach.
const KINDS: [u8; 54] = [
    1, 1, 1, 1, 2, 2, 2, 3, 3, 3, 3, 4, 4, 4, 5, 5, 5, 5, 6, 6, 6, 6, 6, 6, 7, 7, 7, 8, 8, 8, 8, 9,
    9, 9, 9, 10, 10, 10, 11, 11, 11, 11, 12, 12, 12, 13, 13, 13, 13, 13, 14, 14, 14, 14,
];

/// How many single requests stand between two files that are cut at every length and blanked in
/// every place.
const BETWEEN_CUTS: u64 = 10_000;
/// How many stand between two cabinets whose files are spoiled in all that the editions differ in.
const BETWEEN_EDITIONS: u64 = 4_000;

pub fn stream(seed: u64, count: u64, out: &mut impl FnMut(&[u8])) {
    let random = &mut Random::new(seed);
    for k in 0..count {
        if k == 0 {
            for edition in Edition::BOTH {
                every_cut(&longest_cabinet(random, edition), out);
            }
        }
        if k % BETWEEN_CUTS == 0 {
            let mut cabinet = any_cabinet(random);
            // In turn: there are few of them, and each stands in hundreds of requests.
            let turn = (k / BETWEEN_CUTS) as usize % Edition::BOTH.len();
            give_this_edition(random, &mut cabinet, Edition::BOTH[turn]);
            every_cut(&cabinet, out);
            every_zero(&cabinet, out);
        }
        if k % BETWEEN_EDITIONS == 0 {
            every_edition(random, out);
        }
        let kind = random.one_of(&KINDS);
        let body = body(random, kind);
        put_request(kind, &body, out);
    }
}

fn put_request(kind: u8, body: &[u8], out: &mut impl FnMut(&[u8])) {
    assert!(
        body.len() <= longest_body(kind),
        "a body that no request holds"
    );
    let mut request = vec![kind];
    request.extend((body.len() as u16).to_be_bytes());
    request.extend(body);
    out(&request);
}

/// A cabinet whose file is as long as any of this edition.
fn longest_cabinet(random: &mut Random, edition: Edition) -> Cabinet {
    loop {
        let mut cabinet = cabinet(random, MOST_TASKS as u32, true);
        cabinet.own.resize(MOST_REGION_WORDS, 1);
        if cabinet.table.n as usize == MOST_TASKS {
            cabinet.edition = edition;
            return cabinet;
        }
    }
}

/// A cabinet of one task whose file has no region words, and is as short as any of this edition.
fn shortest_cabinet(random: &mut Random, edition: Edition) -> Cabinet {
    loop {
        let mut cabinet = cabinet(random, 1, true);
        if cabinet.own.is_empty() {
            cabinet.edition = edition;
            return cabinet;
        }
    }
}

/// A file that reads, cut at every length, and one byte longer.
fn every_cut(cabinet: &Cabinet, out: &mut impl FnMut(&[u8])) {
    let mut file = whole_file(cabinet);
    file.push(0);
    for cut in 0..=file.len() {
        put_read(cabinet.plate, &cabinet.catalogue, &file[..cut], out);
    }
}

/// A file that reads with each zero by itself, with each pair of them and with all; and with each by
/// itself and with all of them beside everything else that may be wrong there.
fn every_zero(cabinet: &Cabinet, out: &mut impl FnMut(&[u8])) {
    for (_, zeros) in BLANKS {
        let (mut plate, mut file) = (cabinet.plate, whole_file(cabinet));
        put_zeros(zeros, &mut plate, &mut file);
        seal_again(&mut file);
        put_read(plate, &cabinet.catalogue, &file, out);
    }
    for (_, zeros) in alone_and_all() {
        for fault in BESIDE_ZEROS {
            let (mut plate, mut file) = (cabinet.plate, whole_file(cabinet));
            put_blank(zeros, fault, &mut plate, &mut file);
            put_read(plate, &cabinet.catalogue, &file, out);
        }
    }
}

/// All that the editions differ in: of a cabinet of several tasks in both, and of the longest file of
/// edition 2 and the shortest.
fn every_edition(random: &mut Random, out: &mut impl FnMut(&[u8])) {
    let mut cabinet = loop {
        let cabinet = any_cabinet(random);
        if cabinet.table.n > 1 {
            break cabinet;
        }
    };
    for edition in Edition::BOTH {
        cabinet.edition = edition;
        for (at, width, value) in changes(&cabinet) {
            let mut file = whole_file(&cabinet);
            put(&mut file, at, width, value);
            put_sealed(&cabinet, file, out);
        }
    }
    beside_its_length(&longest_cabinet(random, Edition::Two), out);
    beside_its_length(&shortest_cabinet(random, Edition::Two), out);
}

/// Each number in the edition's place, each spare bit, and each jitter at its limits and past them: at
/// which bit, how wide, and what it becomes.
fn changes(cabinet: &Cabinet) -> Vec<(usize, usize, u32)> {
    let edition = cabinet.edition;
    let mut changes: Vec<(usize, usize, u32)> = (0..16).map(|number| (0, 4, number)).collect();
    for k in [0, cabinet.table.n as usize - 1] {
        let places = 0..edition.spare_bits();
        changes.extend(places.map(|place| (spare_at(edition, k) + place, 1, 1)));
        let period = cabinet.table.records[k].period;
        let at = in_record_of(edition, k, file::USED_BITS);
        if edition == Edition::Two {
            let jitters = [1, period - 1, period, period + 1, MOST_IN_A_FIELD];
            changes.extend(jitters.map(|jitter| (at, 20, jitter)));
        }
    }
    changes
}

/// A file of edition 2 with a jitter in its last record, just before the region words, and with a
/// length about its own.
fn beside_its_length(cabinet: &Cabinet, out: &mut impl FnMut(&[u8])) {
    let mut file = whole_file(cabinet);
    let last = cabinet.table.n as usize - 1;
    let most = cabinet.table.records[last].period - 1;
    put(
        &mut file,
        in_record_of(cabinet.edition, last, file::USED_BITS),
        20,
        most,
    );
    for bytes in file.len() - 3..=file.len() + 1 {
        let mut file = file.clone();
        file.resize(bytes, 0);
        put_sealed(cabinet, file, out);
    }
}

/// The cabinet's file, changed and sealed again.
fn put_sealed(cabinet: &Cabinet, mut file: Vec<u8>, out: &mut impl FnMut(&[u8])) {
    seal_again(&mut file);
    put_read(cabinet.plate, &cabinet.catalogue, &file, out);
}

/// Both requests that read a file: with room for all words, and for its first record.
fn put_read(plate: Plate, catalogue: &[u32], file: &[u8], out: &mut impl FnMut(&[u8])) {
    for kind in [1, 9] {
        let mut body = Vec::new();
        put_plate(&mut body, plate);
        put_two(&mut body, if kind == 1 { 100 } else { 1 });
        put_words(&mut body, catalogue);
        put_bytes(&mut body, file);
        put_request(kind, &body, out);
    }
}

/// The numbers by which reading turns away what stands on the listing's input, as they are asked:
/// there is always room for the words.
const READING: [u8; 12] = [1, 2, 18, 3, 4, 5, 6, 7, 8, 9, 10, 11];

/// Plate and file number k for the listing's program, five plate bytes first. Two in three are
/// listed; the others are turned away, by each number in turn.
pub fn input(random: &mut Random, k: u64) -> Vec<u8> {
    if k % 3 == 2 {
        return turned_away_input(random, READING[k as usize / 3 % READING.len()]);
    }
    let cabinet = loop {
        // A table of six has half a million rows, so few of them.
        let some = random.one_of(&[1, 2, 3, 4, 4, 5, 5]);
        let n = if random.once_in(25) { 6 } else { some };
        let mut cabinet = cabinet(random, n, false);
        give_edition(random, &mut cabinet);
        if soon_tried(&cabinet.table) {
            break cabinet;
        }
    };
    plated(cabinet.plate, &whole_file(&cabinet))
}

/// Whether a row of this table is soon tried: not many jobs stand in its longest busy stretch. All
/// rows are listed, so a table of long rows would take minutes.
fn soon_tried(table: &Table) -> bool {
    most_jobs(table) < 300
}

/// The most jobs that can stand in one busy stretch of this table, whatever the assignment: those
/// of the lowest task with the largest cost, but for its first tick, as its blocking.
fn most_jobs(table: &Table) -> u64 {
    let mut tasks = Tasks::of(table);
    for k in 0..tasks.n {
        tasks.priority[k] = k as u32 + 1;
    }
    let largest = tasks.cost[..tasks.n].iter().copied().max().unwrap_or(1);
    let stretch = active_period(&tasks, tasks.n - 1, largest - 1).unwrap_or(MOST_TICKS as u64);
    (0..tasks.n).map(|j| arrived(&tasks, j, stretch)).sum()
}

/// An input that this number turns away: files are drawn until one is.
fn turned_away_input(random: &mut Random, number: u8) -> Vec<u8> {
    let (plate, mut file) = loop {
        let n = random.from(1, MOST_TASKS as u32);
        let mut cabinet = cabinet(random, n, false);
        give_edition(random, &mut cabinet);
        let file = any_file(random, &mut cabinet);
        // No plate on the input is above 24 bits.
        cabinet.plate.cabinet &= MOST_CABINET;
        let read = file::read_checked(cabinet.plate, &[], &file);
        if read.is_err_and(|refusal| refusal.number == number) {
            break (cabinet.plate, file);
        }
    };
    if number == 6 && random.once_in(2) {
        // Longer than any file is, so that it can't become the right length.
        file.resize(random.from(486, 700) as usize, 0);
    }
    let mut input = plated(plate, &file);
    if number == 1 && random.once_in(2) {
        input.truncate(random.place(8));
    }
    input
}

/// The file behind its five plate bytes.
pub fn plated(plate: Plate, file: &[u8]) -> Vec<u8> {
    let cabinet = plate.cabinet.to_be_bytes();
    [&cabinet[1..], &plate.line.to_be_bytes(), file].concat()
}

fn body(random: &mut Random, kind: u8) -> Vec<u8> {
    match kind {
        1 | 9 => of_a_file(random, kind),
        2 | 14 => of_writing(random, kind),
        3..=6 => of_analysis(random, kind),
        7 | 8 => of_rows(random, kind),
        10 | 12 => of_regions(random),
        13 => of_points(random),
        _ => of_a_name(random),
    }
}

/// A cabinet of any size, more often of few tasks, on which the cases that are hard to meet are
/// met soonest, and of the most.
fn any_cabinet(random: &mut Random) -> Cabinet {
    let some = random.from(1, SOME_TASKS);
    let more = random.from(SOME_TASKS + 1, MOST_TASKS as u32);
    let n = match random.from(0, 11) {
        0..=5 => some,
        6..=9 => more,
        _ => MOST_TASKS as u32,
    };
    let mut cabinet = cabinet(random, n, true);
    past_the_last(random, &mut cabinet.table);
    cabinet
}

/// How often a file that is drawn is as long as any, and how often it is as short.
const LIMITS_ONCE_IN: u32 = 20;

/// Reading, and a record out of a file.
fn of_a_file(random: &mut Random, kind: u8) -> Vec<u8> {
    let mut cabinet = match random.from(1, LIMITS_ONCE_IN) {
        1 => longest_cabinet(random, Edition::One),
        2 => shortest_cabinet(random, Edition::One),
        _ => any_cabinet(random),
    };
    give_edition(random, &mut cabinet);
    let file = any_file(random, &mut cabinet);
    let mut body = Vec::new();
    put_plate(&mut body, cabinet.plate);
    if kind == 1 {
        put_two(&mut body, room(random, cabinet.own.len()));
    } else {
        put_two(&mut body, record_number(random, cabinet.table.n));
    }
    put_words(&mut body, &cabinet.catalogue);
    put_bytes(&mut body, &file);
    body
}

/// Just enough for an answer of this many elements (half the time), or less, or more.
fn room(random: &mut Random, needed: usize) -> u32 {
    let needed = needed as u32;
    let less = needed.saturating_sub(1);
    random.one_of(&[
        0,
        less,
        less,
        needed,
        needed,
        needed,
        needed,
        needed + 1,
        needed + 9,
        400,
    ])
}

/// One of the records mostly, or none of them: also one whose low byte is a record's number.
fn record_number(random: &mut Random, n: u8) -> u32 {
    let n = n as u32;
    let some = random.from(1, n.max(1));
    random.one_of(&[some, some, some, n, 1, 0, n + 1, some + 256, 65_535])
}

/// The tables that are written as edition 1 alone are late once in so many: such a file has no place
/// for a jitter, and most are to be written.
const LATE_WRITING_ONCE_IN: u32 = 4;

/// Writing edition 1, and writing an edition that is told.
fn of_writing(random: &mut Random, kind: u8) -> Vec<u8> {
    let mut cabinet = any_cabinet(random);
    let told = if kind == 14 { told_edition(random) } else { 1 };
    if random.once_in(if kind == 14 { 2 } else { LATE_WRITING_ONCE_IN }) {
        draw_jitters(random, &mut cabinet.table);
    }
    wrong_jitter_once_in(5, random, &mut cabinet.table);
    // What is told no edition is turned away by that alone more often than beside something else.
    if Edition::from_number(told).is_ok() || random.once_in(2) {
        spoil(random, &mut cabinet, &[0, 5, 9, 10, 11]);
    }
    if random.once_in(12) {
        cabinet.plate.cabinet = random.one_of(&[MOST_CABINET, MOST_CABINET + 1, u32::MAX]);
    }
    if random.once_in(BLANK_ONCE_IN) {
        blank_plate(random, &mut cabinet.plate);
    }
    let mut body = Vec::new();
    if kind == 14 {
        body.push(told);
    }
    put_plate(&mut body, cabinet.plate);
    put_two(&mut body, room_for_a_file(random, kind, told, &cabinet));
    put_table(&mut body, &cabinet.table);
    put_words(&mut body, &cabinet.own);
    put_words(&mut body, &cabinet.catalogue);
    body
}

/// Numbers that are told and are no edition's: some with the low bits of one.
pub const NO_EDITIONS: [u8; 11] = [0, 3, 15, 16, 17, 18, 33, 34, 241, 242, 255];

/// One of the two editions, mostly.
fn told_edition(random: &mut Random) -> u8 {
    let none = random.one_of(&NO_EDITIONS);
    random.one_of(&[1, 1, 2, 2, none])
}

/// Room about as long as the file that is told, or, where an edition is told, as that of the other one
/// now and then.
fn room_for_a_file(random: &mut Random, kind: u8, told: u8, cabinet: &Cabinet) -> u32 {
    let n = (cabinet.table.n as usize).min(MOST_TASKS);
    let edition = Edition::from_number(told).unwrap_or(Edition::One);
    let other = kind == 14 && random.once_in(6);
    let edition = if other { other_of(edition) } else { edition };
    room(random, file::length(edition, n, cabinet.own.len()))
}

/// How often a jitter of a late table is out of its range, for the analysis and the listing.
const WRONG_JITTER_ONCE_IN: u32 = 14;

/// Of the late tables of tolerances, lengths and the region check: how often one has a record with no
/// tolerance and another with one below zero, ...
const TWO_OF_16_ONCE_IN: u32 = 20;
/// ... how often a single instant is left to the highest task, ...
const ONE_INSTANT_ONCE_IN: u32 = 10;
/// ... and how often the jitters stay whether the table bears them or not.
const UNEASED_ONCE_IN: u32 = 8;

/// Response times, tolerances, lengths and the region check.
fn of_analysis(random: &mut Random, kind: u8) -> Vec<u8> {
    let mut cabinet = any_cabinet(random);
    let asked: &[u8] = match kind {
        3 => &[0, 0, 5, 9, 10, 14],
        6 => &[0, 0, 5, 9, 10, 11, 14, 15, 16],
        _ => &[0, 0, 0, 0, 5, 9, 10, 14, 15, 16],
    };
    match kind {
        3 => aimed_times(random, &mut cabinet.table),
        _ => aimed_tolerances(random, &mut cabinet, kind),
    }
    wrong_jitter_once_in(WRONG_JITTER_ONCE_IN, random, &mut cabinet.table);
    if kind != 3 && is_late(&cabinet.table) && random.once_in(TWO_OF_16_ONCE_IN) {
        two_of_16(random, &mut cabinet.table);
    } else if kind != 5 || !random.once_in(6) {
        // Lengths turn away the most tables, so more of theirs stay as they are.
        spoil(random, &mut cabinet, asked);
    }
    let mut body = Vec::new();
    put_table(&mut body, &cabinet.table);
    if kind == 6 {
        put_words(&mut body, &cabinet.own);
        put_words(&mut body, &cabinet.catalogue);
    }
    body
}

/// Tables, more often than not, whose response times show what one drawn anyhow seldom shows.
fn aimed_times(random: &mut Random, table: &mut Table) {
    let way = random.from(0, 19);
    match way {
        0..=3 => full_times(random, table),
        4 | 5 => short_times(random, table),
        6 | 7 => full_above_a_tick_or_two(random, table),
        8..=13 => return later_jobs(random, table),
        14 => return late_above_the_horizon(random, table),
        15 if random.once_in(2) => return full_and_late(random, table),
        _ => {}
    }
    // Where something is late, what is full has no end, blocked or not.
    if ![6, 7].contains(&way) {
        give_jitters(random, table);
    }
    if random.once_in(3) {
        deadlines_at_the_times(random, table);
    }
}

/// Tables, half of them late, of which most bear their jitters; and costs or regions about as long as
/// these tolerances let them be.
fn aimed_tolerances(random: &mut Random, cabinet: &mut Cabinet, kind: u8) {
    give_jitters(random, &mut cabinet.table);
    if is_late(&cabinet.table) && random.once_in(ONE_INSTANT_ONCE_IN) {
        one_instant(random, cabinet);
    }
    if !random.once_in(UNEASED_ONCE_IN) {
        ease_jitters(&mut cabinet.table);
    }
    match kind {
        5 if random.once_in(2) => cost_at_the_tolerance(random, cabinet),
        6 => aimed_regions(random, cabinet),
        _ => {}
    }
}

/// Regions about as long as they may be, mostly.
fn aimed_regions(random: &mut Random, cabinet: &mut Cabinet) {
    match random.from(0, 8) {
        0..=2 => cut_to_lengths(random, cabinet),
        3 | 4 => one_region(random, cabinet),
        5 | 6 => cost_at_the_tolerance(random, cabinet),
        _ => {}
    }
}

/// The longest search over t that is asked for, but for one in so many: the t of all tasks, each as
/// often as tasks are above. All are gone through where a task is not shown.
const MOST_T_TRIED: u64 = 200_000;
const LONG_SEARCH_ONCE_IN: u32 = 20;
/// Of the tables of so few tasks one in so many has deadlines as long as any.
const FEW_SEARCHED: u8 = 4;
const FAR_SEARCH_ONCE_IN: u32 = 8;

/// How often a table of the most tasks says that it has more, or none.
const WRONG_N_ONCE_IN: u32 = 14;

/// Fixed preemption points.
fn of_points(random: &mut Random) -> Vec<u8> {
    let mut cabinet = points_cabinet(random);
    let full = cabinet.table.n as usize == MOST_TASKS;
    wrong_jitter_once_in(WRONG_JITTER_ONCE_IN, random, &mut cabinet.table);
    if is_late(&cabinet.table) && random.once_in(TWO_OF_16_ONCE_IN) {
        two_of_16(random, &mut cabinet.table);
    } else if full && random.once_in(WRONG_N_ONCE_IN) {
        cabinet.table.n = wrong_n(random);
    } else if random.once_in(2) {
        spoil(
            random,
            &mut cabinet,
            &[0, 0, 5, 9, 9, 10, 11, 11, 14, 15, 16],
        );
    }
    let mut body = Vec::new();
    put_table(&mut body, &cabinet.table);
    put_words(&mut body, &cabinet.own);
    put_words(&mut body, &cabinet.catalogue);
    body
}

/// Tables drawn for this test, or such as the region check has; and of either those in which a task
/// just passes, or just doesn't.
fn points_cabinet(random: &mut Random) -> Cabinet {
    let mut cabinet = loop {
        let mut cabinet = any_cabinet(random);
        if random.once_in(2) {
            aimed_tolerances(random, &mut cabinet, 6);
        } else {
            cut_anew(random, &mut cabinet);
        }
        if t_tried(&cabinet.table) <= MOST_T_TRIED || random.once_in(LONG_SEARCH_ONCE_IN) {
            break cabinet;
        }
    };
    if cabinet.table.n <= FEW_SEARCHED && random.once_in(FAR_SEARCH_ONCE_IN) {
        cut_far(random, &mut cabinet);
    }
    match random.from(0, 19) {
        0 | 1 => no_t_or_one(random, &mut cabinet),
        2 if random.once_in(6) => whole_horizon(random, &mut cabinet),
        3..=14 => to_the_limit(random, &mut cabinet),
        _ => {}
    }
    cabinet
}

/// How many t a search over this table tries at the most. The lowest task needs none.
fn t_tried(table: &Table) -> u64 {
    if lengths(table).is_err() {
        return 0;
    }
    let above = |task: &Record| task.priority as u64 - 1;
    let searched = |task: &&Record| task.priority < table.n as u32;
    let tasks = table.tasks().iter().filter(searched);
    tasks
        .map(|task| task.deadline as u64 * above(task).max(1))
        .sum()
}

/// A row is searched for. Of few tasks all rows can be walked over; of many the table is drawn so
/// that the search ends soon. Either way it is tried whether it does. Whether tasks are late is
/// settled before, so that it stays half of the tables.
fn of_rows(random: &mut Random, kind: u8) -> Vec<u8> {
    let late = random.once_in(2);
    let (table, row) = loop {
        let (table, row) = if random.once_in(2) {
            rows_of_few(random, late)
        } else {
            rows_of_many(random, kind, late)
        };
        let row = (kind == 8).then(|| spoilt_row(random, row));
        if soon_answered(&table, row.as_deref()) {
            break (table, row);
        }
    };
    let n = (table.n as usize).min(MOST_TASKS);
    let mut body = Vec::new();
    put_two(&mut body, room(random, 2 * n));
    put_table(&mut body, &table);
    if let Some(row) = row {
        put_bytes(&mut body, &row);
    }
    body
}

/// How many rows a search may try: all 576 of four tasks, and some.
pub const MOST_ROWS_TRIED: u64 = 600;
/// What a search may cost at the worst, so that it takes some thousandths of a second: the rows it
/// tries, by the jobs that can stand in one row, by the tasks twice, as each task's jobs look at
/// all tasks.
const MOST_STEPS: u64 = 20_000_000;

/// Whether the search for the row after this one, or for the first, is turned away, or comes to a
/// row or the end before it costs too much. The walk itself is tried.
fn soon_answered(table: &Table, row: Option<&[u8]>) -> bool {
    if task_count_wrong(table.n) || numbers_wrong(table) {
        return true;
    }
    let n = table.n as usize;
    // Three tasks have 36 rows, few enough even where each is overloaded.
    if n <= 3 {
        return true;
    }
    let walk = match row {
        None => Walk::from_start(table),
        Some(row) => match Row::from_numbers(n, row) {
            None => return true,
            Some(row) => Walk::after(table, row),
        },
    };
    let rows = MOST_STEPS / (most_jobs(table) * (n * n) as u64);
    walk.is_near(rows.min(MOST_ROWS_TRIED))
}

fn rows_of_few(random: &mut Random, late: bool) -> (Table, Vec<u8>) {
    let n = random.from(1, MANY_TASKS - 1);
    let mut cabinet = cabinet(random, n, true);
    past_the_last(random, &mut cabinet.table);
    if late {
        draw_jitters(random, &mut cabinet.table);
    }
    let row = match random.from(0, 11) {
        0..=3 => later_row(random, &mut cabinet.table, late),
        4..=7 if late => row_at_the_times(random, &mut cabinet.table),
        8 if late => {
            full_and_late(random, &mut cabinet.table);
            None
        }
        9 if late => {
            one_at_a_limit(random, &mut cabinet.table);
            None
        }
        _ => None,
    };
    let row = row.unwrap_or_else(|| any_row(random, cabinet.table.n as usize));
    wrong_jitter_once_in(WRONG_JITTER_ONCE_IN, random, &mut cabinet.table);
    if random.once_in(2) {
        spoil(random, &mut cabinet, &[0, 0, 5, 9, 10, 14, 16]);
    }
    (cabinet.table, row)
}

/// What is spoilt here is either asked before the search or ignored by it, so the row stays near.
fn rows_of_many(random: &mut Random, kind: u8, late: bool) -> (Table, Vec<u8>) {
    let mut table = near_table(random, late);
    let row = if kind == 8 {
        near_row(random, &mut table)
    } else {
        Vec::new()
    };
    past_the_last(random, &mut table);
    wrong_jitter_once_in(WRONG_JITTER_ONCE_IN, random, &mut table);
    let k = random.place(table.n as usize);
    match random.from(0, 7) {
        0 => table.n = wrong_n(random),
        1 => wrong_number(random, &mut table.records[k]),
        2 => wrong_place(random, &mut table, k),
        _ => {}
    }
    (table, row)
}

/// The row, mostly, or one that a number makes wrong, or one of another length.
fn spoilt_row(random: &mut Random, mut row: Vec<u8>) -> Vec<u8> {
    let n = row.len() / 2;
    let place = random.place(n);
    match random.from(0, 12) {
        0 => row[place] = random.one_of(&[0, 1, n as u8, n as u8 + 1, 255]),
        1 | 5 => row[n + place] = random.one_of(&[0, n as u8, n as u8, n as u8 + 1, 255]),
        2 => row.truncate(random.place(row.len())),
        3 => row.truncate(row.len() - 1),
        4 => row.push(1),
        _ => {}
    }
    row
}

/// Of so many records that are asked for two have regions that are wrong, one has the most of them and
/// one the longest.
const ASKED_FOR_ONCE_IN: u32 = 25;

/// A task's regions, or the last of them.
fn of_regions(random: &mut Random) -> Vec<u8> {
    let mut cabinet = any_cabinet(random);
    give_jitters(random, &mut cabinet.table);
    spoil(random, &mut cabinet, &[0, 5, 9, 11, 11, 11]);
    // A record past n whose regions hold is no record all the same.
    if cabinet.table.n > 1 && random.once_in(6) {
        cabinet.table.n -= 1;
    }
    let number = record_number(random, cabinet.table.n);
    let place = (number as usize).wrapping_sub(1);
    match random.from(1, ASKED_FOR_ONCE_IN) {
        1 | 2 => wrong_region(random, &mut cabinet, number),
        3 if place < MOST_TASKS => the_most_words(&mut cabinet, place),
        4 if place < MOST_TASKS => the_longest_word(&mut cabinet, place),
        _ => {}
    }
    let mut body = Vec::new();
    put_two(&mut body, number);
    put_table(&mut body, &cabinet.table);
    put_words(&mut body, &cabinet.own);
    put_words(&mut body, &cabinet.catalogue);
    body
}

fn of_a_name(random: &mut Random) -> Vec<u8> {
    let entries = [0; 2].map(|_| random.one_of(&[0, 1, 2, 3, 4, 5, 63, 64, 64]));
    let lists = entries.map(|entries| names_perhaps_cut(random, entries));
    let which = random.place(2);
    let mut body = Vec::new();
    put_two(&mut body, name_number(random, which, entries[which]));
    put_bytes(&mut body, &lists[0]);
    put_bytes(&mut body, &lists[1]);
    body
}

/// The number of an entry in one of the lists, at the list's ends mostly, or above all names.
fn name_number(random: &mut Random, which: usize, entries: usize) -> u32 {
    let entries = entries as u32;
    let some = random.from(0, 63);
    let inside = random.from(0, entries.max(1) - 1);
    let last = entries.max(1) - 1;
    let entry = random.one_of(&[
        0,
        inside,
        inside,
        inside,
        last,
        last,
        entries,
        entries + 1,
        some,
    ]);
    match random.from(0, 11) {
        0 => random.one_of(&[128, 128, 129, 255, 256, 65_535]),
        _ => 64 * which as u32 + entry,
    }
}

/// A name list whose last entry may be cut short, also by a single byte.
fn names_perhaps_cut(random: &mut Random, entries: usize) -> Vec<u8> {
    let mut list = names(random, entries);
    let cut = match random.from(0, 5) {
        0 => 1,
        1 => random.from(1, 15) as usize,
        _ => 0,
    };
    list.truncate(list.len().saturating_sub(cut));
    list
}

pub fn put_two(body: &mut Vec<u8>, number: u32) {
    body.extend((number as u16).to_be_bytes());
}

pub fn put_plate(body: &mut Vec<u8>, plate: Plate) {
    body.extend(plate.cabinet.to_be_bytes());
    body.extend(plate.line.to_be_bytes());
}

pub fn put_words(body: &mut Vec<u8>, words: &[u32]) {
    put_two(body, words.len() as u32);
    for word in words {
        body.extend(word.to_be_bytes());
    }
}

pub fn put_bytes(body: &mut Vec<u8>, bytes: &[u8]) {
    put_two(body, bytes.len() as u32);
    body.extend(bytes);
}

pub fn put_table(body: &mut Vec<u8>, table: &Table) {
    body.push(table.n);
    for r in &table.records {
        for word in [
            r.cost,
            r.period,
            r.deadline,
            r.priority,
            r.threshold,
            r.source.bit(),
            r.first,
            r.count,
            r.name,
            r.jitter,
        ] {
            body.extend(word.to_be_bytes());
        }
    }
}
