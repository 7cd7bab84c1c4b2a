//! The second program's own tests, and what they share.

mod asking;
mod bench;
mod blank;
mod blocked;
mod brute;
mod cases;
mod editions;
mod files;
mod jitter;
mod list;
mod making;
mod points;
mod reach;
mod refusals;
mod samples;
mod worst;

use crate::analysis::{response_times, Response};
use crate::checks::Refusal;
use crate::file::Edition;
use crate::table::*;

pub const PLATE: Plate = Plate {
    cabinet: 70_001,
    line: 12,
};

/// A table of (cost, period, deadline), unassigned, without regions or names.
pub fn unassigned(tasks: &[(u32, u32, u32)]) -> Table {
    let mut table = Table {
        n: tasks.len() as u8,
        ..Table::default()
    };
    for (record, (cost, period, deadline)) in table.records.iter_mut().zip(tasks) {
        *record = Record {
            cost: *cost,
            period: *period,
            deadline: *deadline,
            ..Record::default()
        };
    }
    table
}

/// The same with priorities and thresholds.
pub fn assigned(tasks: &[(u32, u32, u32)], priorities: &[u32], thresholds: &[u32]) -> Table {
    let mut table = unassigned(tasks);
    for (i, record) in table.records[..tasks.len()].iter_mut().enumerate() {
        record.priority = priorities[i];
        record.threshold = thresholds[i];
    }
    table
}

/// R of each task, where the worst jobs aren't what is tried.
pub fn times_of(table: &Table) -> Result<Vec<Option<i64>>, Refusal> {
    let times = |all: Vec<Option<Response>>| all.into_iter().map(time_of).collect();
    response_times(table).map(times)
}

pub fn time_of(response: Option<Response>) -> Option<i64> {
    response.map(|response| response.time)
}

/// Responses of which each has its worst in the first job.
pub fn of_first_jobs(times: &[i64]) -> Vec<Option<Response>> {
    let response = |time: &i64| Response {
        time: *time,
        job: 0,
    };
    times.iter().map(response).map(Some).collect()
}

/// Gives every record one own region that is its whole cost, and hands back these words.
pub fn whole_regions(table: &mut Table) -> Vec<u32> {
    for (i, record) in table.records[..table.n as usize].iter_mut().enumerate() {
        record.first = i as u32;
        record.count = 1;
    }
    table.tasks().iter().map(|task| task.cost).collect()
}

/// Two jobs, each with one region of its own.
pub fn two_jobs() -> (Table, Vec<u32>) {
    let mut table = assigned(&[(2, 5, 5), (4, 10, 10)], &[1, 2], &[1, 2]);
    let own = whole_regions(&mut table);
    (table, own)
}

/// The file of edition 1 of a table that the writer takes.
pub fn file_of(table: &Table, own: &[u32], catalogue: &[u32]) -> Vec<u8> {
    file_in(Edition::One, table, own, catalogue)
}

/// The same in this edition.
pub fn file_in(edition: Edition, table: &Table, own: &[u32], catalogue: &[u32]) -> Vec<u8> {
    let (mut out, edition) = ([0; 512], edition.number());
    let length =
        crate::file::write(edition, PLATE, table, own, catalogue, &mut out).expect("refused");
    out[..length].to_vec()
}

/// The file with a right seal again after its bytes were changed.
pub fn resealed(mut file: Vec<u8>) -> Vec<u8> {
    file.truncate(file.len() - 2);
    let seal = crate::seal::seal(&file);
    file.extend(seal.to_be_bytes());
    file
}

/// Numbers that look random and are the same on every run (xorshift).
pub struct Dice(u64);

impl Dice {
    pub fn new(seed: u64) -> Dice {
        Dice(seed.wrapping_mul(0x9E37_79B9_7F4A_7C15) | 1)
    }

    /// A number from `low` to `high`, both possible.
    pub fn from_to(&mut self, low: u32, high: u32) -> u32 {
        self.0 ^= self.0 << 13;
        self.0 ^= self.0 >> 7;
        self.0 ^= self.0 << 17;
        low + (self.0 >> 16) as u32 % (high - low + 1)
    }

    /// A well-formed assignment of the table's tasks.
    pub fn assign(&mut self, table: &mut Table) {
        let n = table.n as usize;
        let mut priorities: Vec<u32> = (1..=n as u32).collect();
        for place in (1..n).rev() {
            priorities.swap(place, self.from_to(0, place as u32) as usize);
        }
        for (record, priority) in table.records.iter_mut().zip(priorities) {
            record.priority = priority;
            record.threshold = self.from_to(1, priority);
        }
    }
}
