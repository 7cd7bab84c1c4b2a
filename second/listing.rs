//! The list of assignments (document 01, the section of that name): every row in the written
//! order, each put to the response test.

use crate::analysis::{passes, Tasks};
use crate::checks::*;
use crate::table::*;

/// A row: record numbers from highest priority to lowest, then the thresholds of records 1 to n.
#[derive(Clone, Copy, Debug, PartialEq, Eq)]
pub struct Row {
    n: usize,
    numbers: [u8; 2 * MOST_TASKS],
}

impl Row {
    /// The first well-formed row of n tasks: 1 2 .. n, all thresholds 1.
    fn first(n: usize) -> Row {
        let mut row = Row {
            n,
            numbers: [1; 2 * MOST_TASKS],
        };
        for place in 0..n {
            row.numbers[place] = place as u8 + 1;
        }
        row
    }

    /// These numbers as a row, or nothing unless they are 2n and a well-formed assignment.
    pub fn from_numbers(n: usize, numbers: &[u8]) -> Option<Row> {
        if numbers.len() != 2 * n {
            return None;
        }
        let mut row = Row::first(n);
        row.numbers[..2 * n].copy_from_slice(numbers);
        row.is_well_formed().then_some(row)
    }

    /// Each record stands in the order once, and each threshold lies from 1 to the record's
    /// priority.
    fn is_well_formed(&self) -> bool {
        let order = &self.numbers[..self.n];
        let each_once = (1..=self.n as u8)
            .all(|record| order.iter().filter(|number| **number == record).count() == 1);
        each_once
            && (0..self.n).all(|i| 1 <= self.threshold(i) && self.threshold(i) <= self.priority(i))
    }

    pub fn numbers(&self) -> &[u8] {
        &self.numbers[..2 * self.n]
    }

    /// The priority of record i + 1 is its place in the order.
    fn priority(&self, i: usize) -> u8 {
        let mut place = 0;
        while self.numbers[place] != i as u8 + 1 {
            place += 1;
        }
        place as u8 + 1
    }

    fn threshold(&self, i: usize) -> u8 {
        self.numbers[self.n + i]
    }

    /// Steps to the next well-formed row; says no, and is of no more use, after the last one.
    /// The row's last numbers are the first to move, as the first number that differs decides.
    fn step(&mut self) -> bool {
        self.step_thresholds() || self.step_order()
    }

    /// Counts the thresholds up like an odometer whose last wheel is record n. Says no, with all
    /// of them back at 1, when every one stood at its record's priority.
    fn step_thresholds(&mut self) -> bool {
        for i in (0..self.n).rev() {
            if self.threshold(i) < self.priority(i) {
                self.numbers[self.n + i] += 1;
                return true;
            }
            self.numbers[self.n + i] = 1;
        }
        false
    }

    /// The next order of the records: the last number that has a larger one behind it gives way
    /// to the smallest such, and what then stands behind it is put in rising order.
    fn step_order(&mut self) -> bool {
        let order = &mut self.numbers[..self.n];
        let Some(place) = (1..order.len()).rev().find(|at| order[at - 1] < order[*at]) else {
            return false;
        };
        let giving_way = order[place - 1];
        // What stands behind falls all the way, so the last larger number is the smallest such.
        let mut other = order.len() - 1;
        while order[other] < giving_way {
            other -= 1;
        }
        order.swap(place - 1, other);
        order[place..].reverse();
        true
    }
}

/// A plain walk over all rows of one table, in order.
pub struct Walk {
    tasks: Tasks,
    row: Row,
    ended: bool,
}

impl Walk {
    /// A walk that tries the first row of all first. Listing asks 5 and 9 of the table.
    pub fn from_start(table: &Table) -> Walk {
        let tasks = Tasks::of(table);
        Walk {
            tasks,
            row: Row::first(tasks.n),
            ended: false,
        }
    }

    /// A walk that tries the row after this one first.
    pub fn after(table: &Table, row: Row) -> Walk {
        let mut walk = Walk {
            tasks: Tasks::of(table),
            row,
            ended: false,
        };
        walk.ended = !walk.row.step();
        walk
    }

    /// The next passing row, or nothing at the end.
    pub fn next_passing(&mut self) -> Option<Row> {
        while !self.ended {
            if let Some(row) = self.try_next() {
                return Some(row);
            }
        }
        None
    }

    /// The next row, if it passes. Asked only before the end.
    fn try_next(&mut self) -> Option<Row> {
        let row = self.row;
        self.ended = !self.row.step();
        self.row_passes(&row).then_some(row)
    }

    /// Whether a passing row, or the end, is met when so many rows are tried.
    pub fn is_near(mut self, rows: u64) -> bool {
        for _ in 0..rows {
            if self.ended || self.try_next().is_some() {
                return true;
            }
        }
        self.ended
    }

    fn row_passes(&mut self, row: &Row) -> bool {
        for i in 0..row.n {
            self.tasks.priority[row.numbers[i] as usize - 1] = i as u32 + 1;
            self.tasks.threshold[i] = row.threshold(i) as u32;
        }
        passes(&self.tasks)
    }
}

/// The first passing row of all is written to the front of `out`; says no at the end, which
/// writes nothing. Asks 5, 9, 12.
pub fn first_row(table: &Table, out: &mut [u8]) -> Result<bool, Refusal> {
    ask_counts_and_numbers(table)?;
    refuse(12, out.len() < 2 * table.n as usize)?;
    Ok(write_next(Walk::from_start(table), out))
}

/// The first passing row strictly after the given one, likewise. Asks 5, 9, 12, 17.
pub fn next_row(table: &Table, row: &[u8], out: &mut [u8]) -> Result<bool, Refusal> {
    ask_counts_and_numbers(table)?;
    refuse(12, out.len() < 2 * table.n as usize)?;
    let row = Row::from_numbers(table.n as usize, row).ok_or(Refusal::of(17))?;
    Ok(write_next(Walk::after(table, row), out))
}

fn write_next(mut walk: Walk, out: &mut [u8]) -> bool {
    match walk.next_passing() {
        Some(row) => {
            out[..row.numbers().len()].copy_from_slice(row.numbers());
            true
        }
        None => false,
    }
}
