//! Document 02, item 5, where another rule would give another answer. Every figure was worked out
//! by hand, by the rule and by the wrong one that stands beside it.

use super::*;
use crate::analysis::*;
use crate::lengths::{lengths, regions_fit, tolerances};

fn times(table: &Table) -> Vec<Option<i64>> {
    times_of(table).expect("refused")
}

/// A above B above C, which nothing of B's priority or below cuts.
fn three(c: u32, threshold_of_b: u32) -> Table {
    let tasks = [(1, 4, 4), (1, 10, 10), (c, 20, 20)];
    assigned(&tasks, &[1, 2, 3], &[1, threshold_of_b, 2])
}

/// B starts behind 3 of C's 4 ticks and two jobs of A, those of 0 and 4: S = 3 + 1 + floor(5/4) = 5.
///
/// - By the ceiling, S = 3 + ceil(4/4) = 4, at which A comes and isn't counted, and R(B) is 5.
/// - With all 4 ticks, S = 4 + 1 + floor(6/4) = 6 and R(B) is 7.
/// - By document 01, with both, S = 4 + ceil(6/4) = 6 and R(B) is 7 too.
#[test]
fn an_arrival_at_a_blocked_start() {
    assert_eq!(times(&three(4, 1))[1], Some(6));
}

/// Where A may cut B it doesn't show: started at 4, B would be cut by A at once, and end at 6.
#[test]
fn an_arrival_at_a_start_that_it_could_cut() {
    assert_eq!(times(&three(4, 2))[1], Some(6));
}

/// A blocker of a single tick is over when somebody comes: B starts behind A alone, at 1, as if C
/// didn't block.
///
/// - By the ceiling, B would start at S = ceil(0/4) = 0, before A, and R(B) is 1.
/// - With the whole tick, S = 1 + 1 + floor(2/4) = 2, by the ceiling too, and R(B) is 3.
#[test]
fn a_blocker_of_one_tick() {
    let table = three(1, 1);
    let tasks = Tasks::of(&table);
    assert_eq!((largest_blocker(&tasks, 1), blocking(&tasks, 1)), (1, 0));
    assert_eq!(times(&table)[1], Some(2));
    let mut unblocked = table;
    unblocked.records[2].threshold = 3;
    assert_eq!(largest_blocker(&Tasks::of(&unblocked), 1), 0);
    assert_eq!(times(&unblocked)[1], Some(2));
}

/// Of 2 ticks one is left: S = 1 + 1 + floor(2/4) = 2, R(B) = 3.
#[test]
fn a_blocker_of_two_ticks() {
    let table = three(2, 1);
    let tasks = Tasks::of(&table);
    assert_eq!((largest_blocker(&tasks, 1), blocking(&tasks, 1)), (2, 1));
    assert_eq!(times(&table)[1], Some(3));
}

/// A passes with one tick less of B and fails with all of it: R(A) is 4 - 1 + 2 = 5, else 6.
#[test]
fn all_of_what_blocks_is_late() {
    let row = |deadline| {
        let tasks = [(2, 5, deadline), (4, 10, 10)];
        let table = assigned(&tasks, &[1, 2], &[1, 1]);
        assert_eq!(times(&table)[0], Some(5));
        passes(&Tasks::of(&table))
    };
    assert_eq!([6, 5, 4].map(row), [true, true, false]);
}

/// L has the tick less too. A alone fills the processor; the tick of C is over when A comes, so
/// L(A) = 2. With all of C in L no L is 1 + ceil(L/2)·2, and A would be beyond; with all of it in S
/// alone, R(A) would be 3. C never gets the processor. Of a C of 2 ticks one is left, and never
/// made up for: A is beyond, though with no blocking in L its first job would end at 3.
#[test]
fn what_blocks_counts_in_l() {
    let full = |c| times(&assigned(&[(2, 2, 2), (c, 20, 20)], &[1, 2], &[1, 1]));
    assert_eq!(full(1), [Some(2), None]);
    assert_eq!(full(2), [None, None]);
}

/// The same at the horizon: L = 500,000 + 500,000, with all of C a tick more. How many jobs L gives
/// shows in no other way: the jobs that blocking adds to L are never the worst. Let L' be L with no
/// blocking, and m its jobs of i: job k + m starts and ends at most L' after job k, for in that time
/// no more comes than L' holds, and L' is at most m periods.
#[test]
fn blocked_up_to_the_horizon() {
    let most = 1_000_000;
    let times_with = |c| {
        let tasks = [(500_000, most, most), (c, most, most)];
        times(&assigned(&tasks, &[1, 2], &[1, 1]))
    };
    assert_eq!(times_with(500_001), [Some(1_000_000), None]);
    assert_eq!(times_with(500_002), [None, None]);
    assert_eq!(times_with(500_000), [Some(999_999), Some(1_000_000)]);
}

/// A (2,5,5) tolerates 3 ticks, so what stands below it may run for 4: all of a cost of 3 or 4, and
/// 4 ticks of 5. Without the one tick more it would be 3 for each of them.
#[test]
fn lengths_around_the_cost() {
    for (cost, length) in [(3, 3), (4, 4), (5, 4)] {
        let table = assigned(&[(2, 5, 5), (cost, 20, 20)], &[1, 2], &[1, 2]);
        assert_eq!(tolerances(&table).map(|all| all[0]), Ok(3));
        assert_eq!(lengths(&table), Ok(vec![2, length]));
    }
}

/// A region of a tolerance plus 1 fits; a tick more doesn't.
#[test]
fn regions_around_the_tolerance() {
    let mut table = assigned(&[(2, 5, 5), (7, 20, 20)], &[1, 2], &[1, 2]);
    whole_regions(&mut table);
    table.records[1].count = 2;
    assert_eq!(regions_fit(&table, &[2, 3, 4], &[]), Ok(true));
    assert_eq!(regions_fit(&table, &[2, 2, 5], &[]), Ok(false));
}

/// The tick more is added to the least of the tolerances, not once for each task above: 10 - 3 and
/// 8 - 2 - 3 leave 7 and 3, so the third may run for 4. The second's own length is not in it.
#[test]
fn the_least_tolerance_and_one() {
    let tasks = [(3, 10, 10), (2, 20, 8), (9, 90, 90)];
    let table = assigned(&tasks, &[1, 2, 3], &[1, 2, 3]);
    let least = tolerances(&table).map(|all| (all[0], all[1]));
    assert_eq!(least, Ok((7, 3)));
    assert_eq!(lengths(&table), Ok(vec![3, 2, 4]));
}
