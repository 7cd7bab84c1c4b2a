//! Speed of the proved core beside the second program, in one process: the same work on the same
//! inputs, both optimised, as a ratio (above 1 the core is quicker). Not a test: nothing here fails
//! on a time. `bash tools/bench` builds and runs it.

#[path = "../second/analysis.rs"]
mod analysis;
#[path = "../second/bits.rs"]
mod bits;
#[path = "../second/checks.rs"]
mod checks;
#[path = "../second/cut.rs"]
mod cut;
#[path = "../second/draw.rs"]
mod draw;
#[path = "../second/file.rs"]
mod file;
#[path = "../second/generate.rs"]
mod generate;
#[path = "../second/later.rs"]
mod later;
#[path = "../second/lengths.rs"]
mod lengths;
#[path = "../second/listing.rs"]
mod listing;
#[path = "../second/margins.rs"]
mod margins;
mod measure;
#[path = "../second/points.rs"]
mod points;
#[path = "../second/random.rs"]
mod random;
#[path = "../second/seal.rs"]
mod seal;
#[path = "../second/spoil.rs"]
mod spoil;
#[path = "../second/table.rs"]
mod table;

use measure::{measure, say};
use random::Random;
use std::hint::black_box;
use table::*;

/// The core's calls, by numbers and slices (crates/bench_c). A table is the bytes of a request's.
mod core {
    use crate::table::MOST_TASKS;
    use crate::TASK_COLUMNS;

    extern "C" {
        pub fn bench_read(
            file: *const u8,
            file_len: usize,
            cabinet: u32,
            line: u16,
            out: *mut u32,
            out_len: usize,
        ) -> u64;
        pub fn bench_write(
            table: *const u8,
            table_len: usize,
            own: *const u32,
            own_len: usize,
            out: *mut u8,
            out_len: usize,
        ) -> u64;
        pub fn bench_times(table: *const u8, table_len: usize) -> u64;
        pub fn bench_tolerances(table: *const u8, table_len: usize) -> i64;
        pub fn bench_points(
            table: *const u8,
            table_len: usize,
            own: *const u32,
            own_len: usize,
        ) -> u64;
        pub fn bench_passes(
            n: usize,
            y: &[u64; TASK_COLUMNS * MOST_TASKS],
            p: &[u64; MOST_TASKS],
            h: &[u64; MOST_TASKS],
        ) -> bool;
    }
}

/// Costs, periods, deadlines, jitters.
const TASK_COLUMNS: usize = 4;

/// The numbers that the core's pass test is lent: of the tasks, column after column, and of the assignment.
struct Lent {
    n: usize,
    y: [u64; TASK_COLUMNS * MOST_TASKS],
    p: [u64; MOST_TASKS],
    h: [u64; MOST_TASKS],
}

impl Lent {
    fn of(tasks: &analysis::Tasks) -> Self {
        let columns = [tasks.cost, tasks.period, tasks.deadline, tasks.jitter].concat();
        Lent {
            n: tasks.n,
            y: columns.try_into().expect("all columns"),
            p: tasks.priority.map(u64::from),
            h: tasks.threshold.map(u64::from),
        }
    }
}

const PLATE: Plate = Plate {
    cabinet: 70_001,
    line: 12,
};

const LONGEST_OF_EDITION_1: usize = 440;

fn main() {
    println!("| work | core | second | ratio |\n|---|---|---|---|");
    reading_and_writing();
    analysis_of(6, 0);
    analysis_of(8, 0);
    analysis_of(8, 10);
    analysis_of(MOST_TASKS, 0);
    tolerance_of_a_long_deadline();
    points_of_a_long_deadline(2_000);
    points_of_a_long_deadline(1_000_000);
}

/// Own regions of each of the fifteen tasks.
const REGIONS: u32 = 6;

/// A full file: fifteen tasks and 100 region words, of which they name 90.
fn reading_and_writing() {
    let mut table = Table {
        n: MOST_TASKS as u8,
        ..Table::default()
    };
    for (k, record) in table.records.iter_mut().enumerate() {
        *record = Record {
            cost: REGIONS,
            period: 1000 + k as u32,
            deadline: 1000,
            priority: k as u32 + 1,
            threshold: 1,
            first: REGIONS * k as u32,
            count: REGIONS,
            name: k as u32,
            ..Record::default()
        };
    }
    let own = vec![1; 100];
    let mut made = vec![0; LONGEST_OF_EDITION_1];
    let length = file::write(1, PLATE, &table, &own, &[], &mut made).expect("it is a legal table");
    assert_eq!(length, LONGEST_OF_EDITION_1);
    let mut words = vec![0u32; 100];
    let read_core = measure(20_000, || unsafe {
        core::bench_read(
            made.as_ptr(),
            made.len(),
            PLATE.cabinet,
            PLATE.line,
            words.as_mut_ptr(),
            words.len(),
        )
    });
    let mut other = vec![0u32; 100];
    let read_second = measure(20_000, || {
        file::read(PLATE, &[], black_box(&made), &mut other).is_ok() as u64
    });
    assert_eq!(words, other);
    say("read, 15 tasks and 100 words", read_core, read_second);

    let bytes = table_bytes(&table);
    let mut file_core = vec![0u8; LONGEST_OF_EDITION_1];
    let write_core = measure(20_000, || unsafe {
        core::bench_write(
            bytes.as_ptr(),
            bytes.len(),
            own.as_ptr(),
            own.len(),
            file_core.as_mut_ptr(),
            LONGEST_OF_EDITION_1,
        )
    });
    let mut file_second = vec![0u8; LONGEST_OF_EDITION_1];
    let write_second = measure(20_000, || {
        file::write(1, PLATE, black_box(&table), &own, &[], &mut file_second).is_ok() as u64
    });
    assert_eq!(file_core, file_second);
    say("write, 15 tasks and 100 words", write_core, write_second);
}

/// Random tables of n tasks, loads from 60 to 105 percent, assigned; jitters up to so many percent of the periods.
fn analysis_of(n: usize, jitter: u32) {
    let random = &mut Random::new(n as u64);
    let mut tables: Vec<Table> = (0..200).map(|_| random_table(random, n)).collect();
    for record in tables.iter_mut().flat_map(|table| &mut table.records[..n]) {
        record.jitter = random.from(0, record.period * jitter / 100);
    }
    let late = if jitter == 0 {
        String::new()
    } else {
        format!(", jitters to {jitter} percent")
    };
    let bytes: Vec<Vec<u8>> = tables.iter().map(table_bytes).collect();
    let times_core = measure(20, || {
        bytes
            .iter()
            .map(|b| unsafe { core::bench_times(b.as_ptr(), b.len()) })
            .sum()
    });
    let times_second = measure(20, || {
        tables
            .iter()
            .map(|t| {
                analysis::response_times(black_box(t))
                    .expect("assigned")
                    .iter()
                    .map(|r| r.map_or(0, |r| r.time as u64 + r.job))
                    .sum::<u64>()
            })
            .sum()
    });
    assert_eq!(times_core.1, times_second.1);
    say(
        &format!("response times, 200 random tables of {n}{late}"),
        times_core,
        times_second,
    );

    let columns: Vec<analysis::Tasks> = tables.iter().map(analysis::Tasks::of).collect();
    let lent: Vec<Lent> = columns.iter().map(Lent::of).collect();
    let passes_core = measure(40, || {
        lent.iter()
            .map(|a| unsafe { core::bench_passes(a.n, &a.y, &a.p, &a.h) as u64 })
            .sum()
    });
    let passes_second = measure(40, || {
        columns
            .iter()
            .map(|y| analysis::passes(black_box(y)) as u64)
            .sum()
    });
    assert_eq!(passes_core.1, passes_second.1);
    say(
        &format!("pass test, 200 random tables of {n}{late}"),
        passes_core,
        passes_second,
    );
}

/// The lowest of eight tasks has deadline 1,000,000.
fn tolerance_of_a_long_deadline() {
    let mut table = Table {
        n: 8,
        ..Table::default()
    };
    for (k, record) in table.records[..8].iter_mut().enumerate() {
        let period = if k == 7 {
            1_000_000
        } else {
            900 + 37 * k as u32
        };
        *record = Record {
            cost: 90,
            period,
            deadline: period,
            priority: k as u32 + 1,
            threshold: 1,
            ..Record::default()
        };
    }
    let bytes = table_bytes(&table);
    let core = measure(50, || unsafe {
        core::bench_tolerances(bytes.as_ptr(), bytes.len()) as u64
    });
    let second = measure(50, || {
        let tolerances = lengths::tolerances(black_box(&table)).expect("assigned");
        tolerances[table.n as usize - 1] as u64
    });
    assert_eq!(core.1, second.1);
    say(
        "tolerances, deadline 1,000,000 below seven tasks",
        core,
        second,
    );
}

/// Eight tasks, each of one region; the last but one has this deadline. The core climbs, whatever the deadline is; the second
/// program tries one t after the other until one will do.
fn points_of_a_long_deadline(deadline: u32) {
    let mut table = Table {
        n: 8,
        ..Table::default()
    };
    for (k, record) in table.records[..8].iter_mut().enumerate() {
        let period = if k == 6 {
            deadline
        } else {
            900 + 37 * k as u32
        };
        *record = Record {
            cost: if k == 6 { 200 } else { 90 },
            period: if k == 7 { 1_000_000 } else { period },
            deadline: if k == 7 { 1_000_000 } else { period },
            priority: k as u32 + 1,
            threshold: 1,
            first: k as u32,
            count: 1,
            ..Record::default()
        };
    }
    let own: Vec<u32> = table.records[..8].iter().map(|r| r.cost).collect();
    let bytes = table_bytes(&table);
    let core = measure(50, || unsafe {
        core::bench_points(bytes.as_ptr(), bytes.len(), own.as_ptr(), own.len())
    });
    let second = measure(50, || {
        let verdicts = points::fixed_points(black_box(&table), &own, &[]).expect("answered");
        let passing = |verdict: &&points::Verdict| **verdict == points::Verdict::Passes;
        verdicts.iter().filter(passing).count() as u64
    });
    assert_eq!(core.1, second.1);
    say(
        &format!("fixed points of eight tasks, one of deadline {deadline}"),
        core,
        second,
    );
}

fn random_table(random: &mut Random, n: usize) -> Table {
    let mut table = Table {
        n: n as u8,
        ..Table::default()
    };
    let load = random.from(60, 105) as u64;
    for k in 0..n {
        let period = random.from(20, 2000);
        let cost = ((period as u64 * load / 100 / n as u64).max(1)) as u32;
        table.records[k] = Record {
            cost,
            period,
            deadline: period,
            priority: k as u32 + 1,
            threshold: random.from(1, k as u32 + 1),
            ..Record::default()
        };
    }
    table
}

fn table_bytes(table: &Table) -> Vec<u8> {
    let mut bytes = Vec::new();
    generate::put_table(&mut bytes, table);
    bytes
}
