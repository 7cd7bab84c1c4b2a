//! By how much a task passes the test of fixed preemption points (document 02, item 2), or doesn't:
//! the drawing aims at it, and the count of what a stream reached looks at it. No answer comes from
//! here.

use crate::analysis::{arrived, Tasks};
use crate::checks;
use crate::table::*;

/// The tasks of a table with the lengths of each one's regions, in their order.
pub struct Cut {
    pub tasks: Tasks,
    pub regions: Vec<Vec<u64>>,
}

impl Cut {
    /// Nothing where the regions of some record break the rules.
    pub fn of(table: &Table, own: &[u32], catalogue: &[u32]) -> Option<Cut> {
        let lengths = |task: &Record| {
            let words = checks::regions(task, own, catalogue)?;
            Some(words.iter().map(|word| *word as u64).collect())
        };
        let regions: Option<Vec<Vec<u64>>> = table.tasks().iter().map(lengths).collect();
        Some(Cut {
            tasks: Tasks::of(table),
            regions: regions?,
        })
    }

    pub fn higher(&self, i: usize) -> Vec<usize> {
        let own = self.tasks.priority[i];
        let above = |j: &usize| self.tasks.priority[*j] < own;
        (0..self.tasks.n).filter(above).collect()
    }

    pub fn lower(&self, i: usize) -> Vec<usize> {
        let own = self.tasks.priority[i];
        let below = |j: &usize| self.tasks.priority[*j] > own;
        (0..self.tasks.n).filter(below).collect()
    }

    /// q, the task's last region.
    pub fn last(&self, i: usize) -> u64 {
        self.regions[i].last().copied().unwrap_or(0)
    }

    pub fn longest(&self, i: usize) -> u64 {
        self.regions[i].iter().copied().max().unwrap_or(0)
    }

    /// The longest region of the lower tasks, 0 where there are none.
    pub fn alpha(&self, i: usize) -> u64 {
        let lower = self.lower(i);
        lower
            .into_iter()
            .map(|j| self.longest(j))
            .max()
            .unwrap_or(0)
    }

    /// D - J - q: t runs from 1 to here.
    pub fn last_t(&self, i: usize) -> i64 {
        let tasks = &self.tasks;
        tasks.deadline[i] as i64 - tasks.jitter[i] as i64 - self.last(i) as i64
    }

    /// What the higher tasks must leave of some t: C - q and alpha.
    pub fn wanted(&self, i: usize) -> i64 {
        (self.tasks.cost[i] - self.last(i) + self.alpha(i)) as i64
    }

    /// The most by which some t has more than the task wants of it; below zero it is how much is
    /// missing. Nothing where there is no t.
    pub fn margin(&self, i: usize) -> Option<i64> {
        let left = most_left(&self.tasks, &self.higher(i), self.last_t(i))?;
        Some(left - self.wanted(i))
    }

    pub fn passes(&self, i: usize) -> bool {
        self.alpha(i) == 0 || self.margin(i).is_some_and(|margin| margin >= 0)
    }
}

/// The most that these tasks leave of t, for t from 1 to the last; nothing where that is no t. What
/// they leave grows by a tick from each t to the next but where one of them arrives, so only the t
/// before an arrival and the last one are looked at.
pub fn most_left(tasks: &Tasks, higher: &[usize], last: i64) -> Option<i64> {
    let mut most = None;
    let mut t = 1;
    while t <= last {
        let end = end_of_stretch(tasks, higher, t).min(last);
        most = most.max(Some(left_at(tasks, higher, end)));
        t = end + 1;
    }
    most
}

/// The last t from this one on before one of these tasks arrives again.
pub fn end_of_stretch(tasks: &Tasks, higher: &[usize], t: i64) -> i64 {
    let next = |j: &usize| {
        let jobs = arrived(tasks, *j, t as u64);
        (jobs * tasks.period[*j] - tasks.jitter[*j]) as i64
    };
    higher.iter().map(next).min().unwrap_or(i64::MAX)
}

/// What these tasks leave of t.
pub fn left_at(tasks: &Tasks, higher: &[usize], t: i64) -> i64 {
    let used = |j: &usize| arrived(tasks, *j, t as u64) * tasks.cost[*j];
    t - higher.iter().map(used).sum::<u64>() as i64
}

/// The bench figures' two jobs: B cut into 3 and 1 holds A up for as long as A bears, B in one piece
/// for a tick longer.
#[test]
fn margins_by_hand() {
    let margins = |words: &[u32]| {
        let (mut table, _) = crate::tests::two_jobs();
        table.records[1].count = words.len() as u32 - 1;
        let cut = Cut::of(&table, words, &[]).expect("regions");
        assert_eq!([cut.last_t(0), cut.wanted(1)], [3, 4 - cut.last(1) as i64]);
        assert!(cut.passes(1) && cut.alpha(1) == 0);
        (cut.passes(0), cut.margin(0))
    };
    assert_eq!(margins(&[2, 3, 1]), (true, Some(0)));
    assert_eq!(margins(&[2, 1, 1, 1, 1]), (true, Some(2)));
    assert_eq!(margins(&[2, 4]), (false, Some(-1)));
    // Of 5 ticks A leaves 3, of 6 only 2; and before its last region B, in one piece, wants nothing.
    let (table, own) = crate::tests::two_jobs();
    let cut = Cut::of(&table, &own, &[]).expect("regions");
    assert_eq!(cut.margin(1), Some(3));
}
