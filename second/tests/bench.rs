//! Document 01, "Bench figures", with those that document 02, item 5, changes, and ours for item 4. A
//! is record 1 and B is (4,10,10).

use super::*;
use crate::analysis::*;
use crate::checks::Refusal;
use crate::lengths::{lengths, regions_fit, tolerances};
use crate::listing::Walk;

const B: (u32, u32, u32) = (4, 10, 10);

fn rows(table: &Table) -> Vec<Vec<u8>> {
    let mut walk = Walk::from_start(table);
    std::iter::from_fn(|| walk.next_passing())
        .map(|row| row.numbers().to_vec())
        .collect()
}

#[test]
fn a_b_thresholds_1_2() {
    let table = assigned(&[(2, 5, 5), B], &[1, 2], &[1, 2]);
    assert_eq!(response_times(&table), Ok(of_first_jobs(&[2, 8])));
    assert!(passes(&Tasks::of(&table)));
}

#[test]
fn a_b_thresholds_1_1() {
    let table = assigned(&[(2, 5, 5), B], &[1, 2], &[1, 1]);
    assert_eq!(response_times(&table), Ok(of_first_jobs(&[5, 6])));
    assert!(passes(&Tasks::of(&table)));
}

#[test]
fn two_rows_of_a_b() {
    let two = vec![vec![1, 2, 1, 1], vec![1, 2, 1, 2]];
    assert_eq!(rows(&unassigned(&[(2, 5, 5), B])), two);
}

#[test]
fn four_rows_of_a_later_a() {
    let four = [[1, 2, 1, 1], [1, 2, 1, 2], [2, 1, 1, 1], [2, 1, 2, 1]];
    assert_eq!(rows(&unassigned(&[(2, 5, 6), B])), four);
}

#[test]
fn no_row_passes() {
    assert_eq!(rows(&unassigned(&[(2, 5, 1), B])), Vec::<Vec<u8>>::new());
}

#[test]
fn tolerances_and_lengths_of_a_b() {
    let table = assigned(&[(2, 5, 5), B], &[1, 2], &[1, 2]);
    assert_eq!(tolerances(&table), Ok(vec![3, 2]));
    assert_eq!(lengths(&table), Ok(vec![2, 4]));
}

#[test]
fn regions_of_b() {
    let mut table = assigned(&[(2, 5, 5), B], &[1, 2], &[1, 2]);
    let whole = whole_regions(&mut table);
    assert_eq!(regions_fit(&table, &whole, &[]), Ok(true));
    table.records[1].count = 2;
    assert_eq!(regions_fit(&table, &[2, 3, 1], &[]), Ok(true));
}

/// A tolerates nothing, and a single tick of B is no wait for it.
#[test]
fn length_of_b_is_1() {
    let mut table = assigned(&[(2, 5, 2), B], &[1, 2], &[1, 2]);
    assert_eq!(tolerances(&table).map(|tolerances| tolerances[0]), Ok(0));
    assert_eq!(lengths(&table).map(|lengths| lengths[1]), Ok(1));
    whole_regions(&mut table);
    table.records[1].count = 4;
    assert_eq!(regions_fit(&table, &[2, 1, 1, 1, 1], &[]), Ok(true));
    table.records[1].count = 3;
    assert_eq!(regions_fit(&table, &[2, 1, 2, 1], &[]), Ok(false));
}

#[test]
fn a_tolerance_below_zero() {
    let table = assigned(&[(2, 5, 1), B], &[1, 2], &[1, 2]);
    assert_eq!(tolerances(&table).map(|tolerances| tolerances[0]), Ok(-1));
    assert_eq!(
        lengths(&table),
        Err(Refusal {
            number: 16,
            record: Some(1)
        })
    );
}

#[test]
fn three_tasks_of_source_001() {
    let tasks = [(1, 10, 10), (9, 35, 35), (52, 105, 105)];
    let table = assigned(&tasks, &[1, 2, 3], &[1, 2, 3]);
    let tolerances = tolerances(&table).expect("refused");
    assert_eq!(tolerances[..2], [9, 22]);
    assert_eq!(lengths(&table).map(|lengths| lengths[2]), Ok(10));
}

#[test]
fn one_task_at_the_horizon() {
    let time = |task| times_of(&assigned(&[task], &[1], &[1])).map(|times| times[0]);
    assert_eq!(time((3, 2, 2)), Ok(None));
    assert_eq!(time((1_000_000, 1_000_000, 1_000_000)), Ok(Some(1_000_000)));
    assert_eq!(time((1_000_000, 999_999, 1_000_000)), Ok(None));
    assert_eq!(rows(&unassigned(&[(3, 2, 2)])), Vec::<Vec<u8>>::new());
    assert_eq!(
        rows(&unassigned(&[(1_000_000, 1_000_000, 1_000_000)])),
        vec![vec![1, 1]]
    );
    assert_eq!(
        rows(&unassigned(&[(1_000_000, 999_999, 1_000_000)])),
        Vec::<Vec<u8>>::new()
    );
}

fn table_1_of_source_002() -> Table {
    let tasks = [(1, 7, 7), (8, 23, 23), (10, 25, 25), (3, 33, 33)];
    assigned(&tasks, &[1, 2, 4, 3], &[1, 2, 2, 2])
}

#[test]
fn first_jobs_of_table_1() {
    let tasks = Tasks::of(&table_1_of_source_002());
    let first_finish = |i| finish(&tasks, i, start(&tasks, i, blocking(&tasks, i), 0, 0)?);
    let finishes: Vec<Option<u64>> = (0..4).map(first_finish).collect();
    assert_eq!(finishes, [Some(1), Some(20), Some(25), Some(24)]);
}

/// Source document 002 prints 1, 21, 25, 25. Tasks 2 and 4 are blocked by task 3, 10 ticks there
/// and 9 here, and end a tick sooner:
///
/// - task 2: S = 9 + (1 + floor(11/7)) = 11, and task 1 cuts in once more, at 14: F = 11 + 8 + 1;
/// - task 4: S = 9 + (1 + floor(20/7)) + 8 = 20, and task 1 cuts in at 21: F = 20 + 3 + 1.
///
/// Each has one job to look at: L(2) = 9 + 3 + 8 = 20, below 23, and L(4) = 9 + 5 + 16 + 3 = 33,
/// just its period. Tasks 1 and 3 are blocked by nobody, so theirs are the printed ones.
#[test]
fn all_of_table_1() {
    let table = table_1_of_source_002();
    let times = response_times(&table);
    assert_eq!(times, Ok(of_first_jobs(&[1, 20, 25, 24])));
    let tasks = Tasks::of(&table);
    assert_eq!(
        [0, 1, 2, 3].map(|i| largest_blocker(&tasks, i)),
        [0, 10, 0, 10]
    );
    assert_eq!([0, 1, 2, 3].map(|i| blocking(&tasks, i)), [0, 9, 0, 9]);
    let stretch = |i| active_period(&tasks, i, blocking(&tasks, i));
    assert_eq!([stretch(1), stretch(3)], [Some(20), Some(33)]);
}

#[test]
fn published_check_value_of_the_seal() {
    assert_eq!(crate::seal::seal(b"123456789"), 0x29B1);
}

/// Tables on which a later job is the worst, the last of all is, the first and a later one reach R,
/// and two later ones do: what the jobs of the last task take stands beside each.
#[test]
fn worst_jobs() {
    let two = [(3, 6, 6), (2, 4, 6)];
    for (tasks, thresholds, times, jobs) in [
        // 5, 6, 4
        (&two[..], &[1, 2][..], &[3, 6][..], &[0, 1][..]),
        // 5, 6
        (
            &[(1, 6, 6), (2, 4, 4), (2, 6, 6)],
            &[1, 1, 1],
            &[2, 4, 6],
            &[0, 0, 1],
        ),
        // 3, 3, 2
        (
            &[(1, 3, 3), (1, 8, 8), (1, 2, 3)],
            &[1, 1, 3],
            &[1, 2, 3],
            &[0, 0, 0],
        ),
        // 4, 5, 5, 3
        (
            &[(1, 6, 6), (2, 4, 4), (1, 3, 5)],
            &[1, 1, 2],
            &[2, 3, 5],
            &[0, 0, 1],
        ),
    ] {
        let priorities: Vec<u32> = (1..=tasks.len() as u32).collect();
        let table = assigned(tasks, &priorities, thresholds);
        let each = times.iter().zip(jobs);
        let responses = each.map(|(time, job)| {
            Some(Response {
                time: *time,
                job: *job,
            })
        });
        assert_eq!(response_times(&table), Ok(responses.collect()));
    }
}
