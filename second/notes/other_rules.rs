//! Response times by rules that document 02, items 5 and 8, shut out, worst jobs by rules that item 4
//! does, and tolerances by rules that item 8 does. A request for which one of them gives another
//! answer tells it from the right one, and such requests are counted. No answer comes from here.
//!
//! One rule of jitters can't be told from the right one by any answer: the job count by ceil(L/T(i))
//! in place of ceil((L + J(i))/T(i)). All the jobs that the right count goes through finish at or
//! before L. With N jobs, L - C(i) is no less than the right side of S of any of them at that
//! instant, as 1 + floor(x/T) ≤ ceil((x + 1)/T) and k + 1 ≤ N, so S ≤ L - C(i). In the same way L is
//! no less than the right side of F at L, where S is written out as its own sum, so F ≤ L. None of
//! them is beyond, then. The jobs that only the right count has are those with k·T(i) ≥ L, so
//! F + J(i) - k·T(i) ≤ J(i), which is less than what job 0 takes: they are never the worst, and no
//! first of several either. The test at the end tries it.

use crate::analysis::{active_period, arrived, climb, finish, largest_blocker, start};
use crate::analysis::{Response, Tasks};
use crate::later::reaching;
use crate::table::MOST_TASKS;

/// Which job such a rule names, by what each job takes.
pub type WorstRule = fn(&[i64]) -> u64;

/// Where several reach R, the last of them.
pub const LAST: WorstRule = |differences| reaching(differences).last().map_or(0, |k| *k as u64);

/// The first job, whichever it was.
pub const JOB_0: WorstRule = |_| 0;

/// The first job is number 1.
pub const FROM_1: WorstRule = |differences| reaching(differences)[0] as u64 + 1;

/// How much of what blocks counts.
#[derive(Clone, Copy)]
enum Counted {
    All,
    AllButATick,
    Nothing,
}

/// Whose jitter stands beside the argument of a ceiling or floor.
#[derive(Clone, Copy, PartialEq)]
pub enum Late {
    /// J(j) of each task.
    OfEach,
    OfNone,
    /// J(i) of the task that is asked for, whichever j is counted.
    OfTheTask,
    /// J(j) of all tasks but the one that is asked for.
    OfTheOthers,
}

/// The tasks with the jitters that a sum of task i reads.
pub fn read_by(tasks: &Tasks, i: usize, late: Late) -> Tasks {
    let mut tasks = *tasks;
    match late {
        Late::OfEach => {}
        Late::OfNone => tasks.jitter = [0; MOST_TASKS],
        Late::OfTheTask => tasks.jitter = [tasks.jitter[i]; MOST_TASKS],
        Late::OfTheOthers => tasks.jitter[i] = 0,
    }
    tasks
}

/// How much of what blocks a rule counts in L and in S, and whether it counts by the ceiling where
/// something blocks, which leaves out jobs that arrive at the start. Then whose jitters it reads in
/// L, in S, in F's ceiling and in what has started by S, and whether J(i) stands in the job count
/// and in R.
#[derive(Clone, Copy)]
pub struct Rule {
    in_l: Counted,
    in_s: Counted,
    ceiling: bool,
    late_in_l: Late,
    late_in_s: Late,
    late_in_f: Late,
    late_in_started: Late,
    late_in_count: bool,
    late_in_r: bool,
}

const RIGHT: Rule = Rule {
    in_l: Counted::AllButATick,
    in_s: Counted::AllButATick,
    ceiling: false,
    late_in_l: Late::OfEach,
    late_in_s: Late::OfEach,
    late_in_f: Late::OfEach,
    late_in_started: Late::OfEach,
    late_in_count: true,
    late_in_r: true,
};

pub const WHOLE_IN_L: Rule = Rule {
    in_l: Counted::All,
    ..RIGHT
};

pub const NOTHING_IN_L: Rule = Rule {
    in_l: Counted::Nothing,
    ..RIGHT
};

pub const WHOLE_IN_S: Rule = Rule {
    in_s: Counted::All,
    ..RIGHT
};

pub const WHOLE: Rule = Rule {
    in_s: Counted::All,
    ..WHOLE_IN_L
};

pub const CEILING: Rule = Rule {
    ceiling: true,
    ..RIGHT
};

/// The rule of document 01.
pub const BEFORE: Rule = Rule {
    ceiling: true,
    ..WHOLE
};

/// No jitter in the job count, which changes no answer.
#[cfg(test)]
const NOT_IN_COUNT: Rule = Rule {
    late_in_count: false,
    ..RIGHT
};

/// The rule before jitters. No other of those that leave them out finds a row that it doesn't.
pub const NOWHERE: Rule = Rule {
    late_in_l: Late::OfNone,
    late_in_s: Late::OfNone,
    late_in_f: Late::OfNone,
    late_in_started: Late::OfNone,
    late_in_count: false,
    late_in_r: false,
    ..RIGHT
};

const NOT_IN_L: Rule = Rule {
    late_in_l: Late::OfNone,
    ..RIGHT
};

const NOT_OWN_IN_L: Rule = Rule {
    late_in_l: Late::OfTheOthers,
    ..RIGHT
};

const NOT_IN_S: Rule = Rule {
    late_in_s: Late::OfNone,
    ..RIGHT
};

const NOT_IN_FS_CEILING: Rule = Rule {
    late_in_f: Late::OfNone,
    ..RIGHT
};

const NOT_IN_STARTED: Rule = Rule {
    late_in_started: Late::OfNone,
    ..RIGHT
};

const NOT_IN_F: Rule = Rule {
    late_in_f: Late::OfNone,
    ..NOT_IN_STARTED
};

const NOT_IN_R: Rule = Rule {
    late_in_r: false,
    ..RIGHT
};

const THE_TASKS_IN_S: Rule = Rule {
    late_in_s: Late::OfTheTask,
    ..RIGHT
};

const THE_TASKS_IN_F: Rule = Rule {
    late_in_f: Late::OfTheTask,
    late_in_started: Late::OfTheTask,
    ..RIGHT
};

const THE_TASKS_IN_ALL: Rule = Rule {
    late_in_l: Late::OfTheTask,
    late_in_s: Late::OfTheTask,
    ..THE_TASKS_IN_F
};

/// Rules that document 02, item 8, shuts out.
pub const OF_JITTERS: [(&str, Rule); 11] = [
    ("no jitter", NOWHERE),
    ("no jitter in L", NOT_IN_L),
    ("no jitter of its own in L", NOT_OWN_IN_L),
    ("no jitter in S", NOT_IN_S),
    ("no jitter in F's ceiling", NOT_IN_FS_CEILING),
    ("no jitter in what has started", NOT_IN_STARTED),
    ("no jitter in F", NOT_IN_F),
    ("no jitter in R", NOT_IN_R),
    ("the task's jitter in S", THE_TASKS_IN_S),
    ("the task's jitter in F", THE_TASKS_IN_F),
    ("the task's jitter in all sums", THE_TASKS_IN_ALL),
];

/// Those of them that may find a row where the right one finds none. Less jitter in what has started
/// only makes F later.
pub const PASSING_MORE: [(&str, Rule); 8] = [
    ("no jitter", NOWHERE),
    ("no jitter in L", NOT_IN_L),
    ("no jitter in S", NOT_IN_S),
    ("no jitter in F's ceiling", NOT_IN_FS_CEILING),
    ("no jitter in F", NOT_IN_F),
    ("no jitter in R", NOT_IN_R),
    ("the task's jitter in S", THE_TASKS_IN_S),
    ("the task's jitter in all sums", THE_TASKS_IN_ALL),
];

/// Those of them that may miss a row that the right one finds.
pub const PASSING_LESS: [(&str, Rule); 4] = [
    ("no jitter in what has started", NOT_IN_STARTED),
    ("the task's jitter in S", THE_TASKS_IN_S),
    ("the task's jitter in F", THE_TASKS_IN_F),
    ("the task's jitter in all sums", THE_TASKS_IN_ALL),
];

/// Whether rules of jitters can differ for this task: some task that it counts, or itself, is late.
pub fn counts_late(tasks: &Tasks, i: usize) -> bool {
    let counted = |j: &usize| tasks.priority[*j] <= tasks.priority[i];
    let mut counted = (0..tasks.n).filter(counted);
    counted.any(|j| tasks.jitter[j] > 0)
}

/// A task and a rule, with the tasks as each sum of the rule reads them.
struct Sums {
    i: usize,
    rule: Rule,
    in_l: Tasks,
    in_s: Tasks,
    in_f: Tasks,
    in_started: Tasks,
}

/// R(i) and its job by this rule.
pub fn response_by(tasks: &Tasks, i: usize, rule: Rule) -> Option<Response> {
    let sums = Sums::of(tasks, i, rule);
    let late = if rule.late_in_r { tasks.jitter[i] } else { 0 };
    let mut worst: Option<Response> = None;
    let mut s = 0;
    for k in 0..sums.jobs(tasks)? {
        s = sums.start(k, s)?;
        let time = (sums.finish(s)? + late) as i64 - (k * tasks.period[i]) as i64;
        if worst.is_none_or(|worst| worst.time < time) {
            worst = Some(Response { time, job: k });
        }
    }
    worst
}

pub fn passes_by(tasks: &Tasks, rule: Rule) -> bool {
    let in_time = |i: usize, time: i64| time <= tasks.deadline[i] as i64;
    let passes = |i| response_by(tasks, i, rule).is_some_and(|r| in_time(i, r.time));
    (0..tasks.n).all(passes)
}

/// Whether some job of a blocked task would start at an arrival of a higher one if such arrivals
/// were left out. The right start is later then.
pub fn blocked_at_an_arrival(tasks: &Tasks, i: usize) -> bool {
    if largest_blocker(tasks, i) == 0 {
        return false;
    }
    let arrives = |s: u64| {
        let mut higher = (0..tasks.n).filter(|j| tasks.priority[*j] < tasks.priority[i]);
        higher.any(|j| (s + tasks.jitter[j]) % tasks.period[j] == 0)
    };
    let sums = Sums::of(tasks, i, CEILING);
    let mut s = 0;
    for k in 0..sums.jobs(tasks).unwrap_or(0) {
        match sums.start(k, s) {
            Some(at) if arrives(at) => return true,
            Some(at) => s = at,
            None => return false,
        }
    }
    false
}

fn blocking(tasks: &Tasks, i: usize, counted: Counted) -> u64 {
    match counted {
        Counted::All => largest_blocker(tasks, i),
        Counted::AllButATick => largest_blocker(tasks, i).saturating_sub(1),
        Counted::Nothing => 0,
    }
}

impl Sums {
    fn of(tasks: &Tasks, i: usize, rule: Rule) -> Sums {
        Sums {
            i,
            rule,
            in_l: read_by(tasks, i, rule.late_in_l),
            in_s: read_by(tasks, i, rule.late_in_s),
            in_f: read_by(tasks, i, rule.late_in_f),
            in_started: read_by(tasks, i, rule.late_in_started),
        }
    }

    fn jobs(&self, tasks: &Tasks) -> Option<u64> {
        let i = self.i;
        let b = blocking(tasks, i, self.rule.in_l);
        let l = active_period(&self.in_l, i, b)?;
        let late = if self.rule.late_in_count {
            tasks.jitter[i]
        } else {
            0
        };
        Some((l + late).div_ceil(tasks.period[i]))
    }

    fn by_ceiling(&self) -> bool {
        self.rule.ceiling && largest_blocker(&self.in_s, self.i) > 0
    }

    fn start(&self, k: u64, before: u64) -> Option<u64> {
        let (tasks, i) = (&self.in_s, self.i);
        let b = blocking(tasks, i, self.rule.in_s);
        if !self.by_ceiling() {
            return start(tasks, i, b, k, before);
        }
        let higher = |j: &usize| tasks.priority[*j] < tasks.priority[i];
        climb(before, |s| {
            let count = |j: usize| arrived(tasks, j, s) * tasks.cost[j];
            b + k * tasks.cost[i] + (0..tasks.n).filter(higher).map(count).sum::<u64>()
        })
    }

    /// Where the jitters of the two counts aren't the same, a difference below zero counts as 0.
    fn finish(&self, s: u64) -> Option<u64> {
        let (tasks, i) = (&self.in_f, self.i);
        if !self.by_ceiling() && self.rule.late_in_f == self.rule.late_in_started {
            return finish(tasks, i, s);
        }
        let mut started = [0; MOST_TASKS];
        for (j, count) in started.iter_mut().enumerate().take(tasks.n) {
            *count = if self.by_ceiling() {
                arrived(&self.in_started, j, s)
            } else {
                1 + (s + self.in_started.jitter[j]) / tasks.period[j]
            };
        }
        let cuts = |j: &usize| tasks.priority[*j] < tasks.threshold[i];
        climb(s + tasks.cost[i], |f| {
            let later = |j: usize| arrived(tasks, j, f).saturating_sub(started[j]);
            let costs = |j: usize| later(j) * tasks.cost[j];
            s + tasks.cost[i] + (0..tasks.n).filter(cuts).map(costs).sum::<u64>()
        })
    }
}

// ---- tolerances

/// Whether a tolerance's range ends at D(i) - J(i), or at D(i), and whose jitters its sum reads.
#[derive(Clone, Copy)]
pub struct ToleranceRule {
    late_in_range: bool,
    late_in_sum: Late,
}

pub const RIGHT_TOLERANCE: ToleranceRule = ToleranceRule {
    late_in_range: true,
    late_in_sum: Late::OfEach,
};

/// Rules that document 02, item 8, shuts out.
pub const OF_TOLERANCES: [(&str, ToleranceRule); 4] = [
    (
        "no jitter",
        ToleranceRule {
            late_in_range: false,
            late_in_sum: Late::OfNone,
        },
    ),
    (
        "no jitter in the range",
        ToleranceRule {
            late_in_range: false,
            ..RIGHT_TOLERANCE
        },
    ),
    (
        "no jitter in the sum",
        ToleranceRule {
            late_in_sum: Late::OfNone,
            ..RIGHT_TOLERANCE
        },
    ),
    (
        "the task's jitter in the sum",
        ToleranceRule {
            late_in_sum: Late::OfTheTask,
            ..RIGHT_TOLERANCE
        },
    ),
];

/// The tolerance of every task by this rule, `None` where it has no t.
pub fn tolerances_by(tasks: &Tasks, rule: ToleranceRule) -> Vec<Option<i64>> {
    let tolerance = |i: usize| {
        let late = if rule.late_in_range {
            tasks.jitter[i]
        } else {
            0
        };
        let last = tasks.deadline[i].saturating_sub(late);
        tolerance_to(&read_by(tasks, i, rule.late_in_sum), i, last)
    };
    (0..tasks.n).map(tolerance).collect()
}

/// The largest of what is left at t, for t from 1 to the last. Only where a ceiling is about to
/// change, and at the last, can it be the largest.
fn tolerance_to(tasks: &Tasks, i: usize, last: u64) -> Option<i64> {
    let higher = |j: &usize| tasks.priority[*j] < tasks.priority[i];
    let higher: Vec<usize> = (0..tasks.n).filter(higher).collect();
    let change = |t: u64, j: usize| arrived(tasks, j, t) * tasks.period[j] - tasks.jitter[j];
    let mut largest = None;
    let mut t = 1;
    while t <= last {
        let changes = higher.iter().map(|j| change(t, *j));
        let end = changes.min().unwrap_or(last).min(last);
        let sum: u64 = higher
            .iter()
            .map(|j| arrived(tasks, *j, end) * tasks.cost[*j])
            .sum();
        largest = largest.max(Some(end as i64 - (tasks.cost[i] + sum) as i64));
        t = end + 1;
    }
    largest
}

/// The figures of tests/blocked.rs: R of the second of three tasks, which the third blocks.
#[test]
fn what_other_rules_give() {
    let rules = [
        RIGHT,
        WHOLE_IN_L,
        NOTHING_IN_L,
        WHOLE_IN_S,
        WHOLE,
        CEILING,
        BEFORE,
    ];
    for (cost, times) in [(4, [6, 6, 6, 7, 7, 5, 7]), (1, [2, 2, 2, 3, 3, 1, 3])] {
        let tasks = [(1, 4, 4), (1, 10, 10), (cost, 20, 20)];
        let tasks = Tasks::of(&crate::tests::assigned(&tasks, &[1, 2, 3], &[1, 1, 2]));
        let time = |rule| response_by(&tasks, 1, rule).map(|response| response.time);
        assert_eq!(rules.map(time), times.map(Some));
        assert!(blocked_at_an_arrival(&tasks, 1) && !blocked_at_an_arrival(&tasks, 0));
    }
    for (cost, times) in [
        (1, [Some(2), None, Some(2), Some(3), None, Some(2), None]),
        (2, [None, None, Some(3), None, None, None, None]),
    ] {
        let tasks = [(2, 2, 2), (cost, 20, 20)];
        let full = Tasks::of(&crate::tests::assigned(&tasks, &[1, 2], &[1, 1]));
        let time = |rule| response_by(&full, 0, rule).map(|response| response.time);
        assert_eq!(rules.map(time), times);
    }
}

/// The figures of tests/worst.rs: jobs 2 and 3 of five reach R, and job 0 and 1 of three.
#[test]
fn which_job_other_rules_name() {
    let rules = [LAST, JOB_0, FROM_1];
    assert_eq!(rules.map(|rule| rule(&[5, 5, 6, 6, 4])), [3, 0, 3]);
    assert_eq!(rules.map(|rule| rule(&[3, 3, 2])), [1, 0, 1]);
    assert_eq!(rules.map(|rule| rule(&[7])), [0, 0, 1]);
}

/// Tasks of (cost, period, jitter) in the order of their priorities, each threshold the priority
/// itself.
#[cfg(test)]
fn late_tasks(tasks: &[(u32, u32, u32)]) -> Tasks {
    let places: Vec<u32> = (1..=tasks.len() as u32).collect();
    let times: Vec<(u32, u32, u32)> = tasks.iter().map(|(c, t, _)| (*c, *t, *t)).collect();
    let mut table = crate::tests::assigned(&times, &places, &places);
    for (record, (_, _, jitter)) in table.records.iter_mut().zip(tasks) {
        record.jitter = *jitter;
    }
    Tasks::of(&table)
}

/// R of the last task, worked out by hand: S = 7 and F = 13 by the right rule, and what each other
/// rule makes of them. Where the last task's jitter stands for all, S = 9, and F is 13 again.
#[test]
fn what_rules_of_jitters_give() {
    let time = |tasks: &Tasks, rule| response_by(tasks, tasks.n - 1, rule).map(|r| r.time);
    let tasks = late_tasks(&[(2, 6, 4), (3, 20, 1), (4, 40, 5)]);
    assert_eq!(time(&tasks, RIGHT), Some(18));
    let times = OF_JITTERS.map(|(_, rule)| time(&tasks, rule));
    let by_hand = [11, 18, 18, 16, 16, 18, 16, 13, 18, 16, 18];
    assert_eq!(times, by_hand.map(Some));
    let tasks = late_tasks(&[(2, 6, 5), (1, 20, 0), (4, 40, 0)]);
    assert_eq!(time(&tasks, RIGHT), Some(11));
    assert_eq!(time(&tasks, NOT_IN_STARTED), Some(13));
    let tasks = late_tasks(&[(2, 6, 0), (1, 20, 0), (4, 40, 5)]);
    assert_eq!(time(&tasks, RIGHT), Some(14));
    assert_eq!(time(&tasks, THE_TASKS_IN_S), Some(16));
    // A full load has no end once something is late.
    let tasks = late_tasks(&[(2, 5, 1), (3, 5, 0)]);
    let rules = [RIGHT, NOT_IN_L, NOT_OWN_IN_L];
    assert_eq!(rules.map(|rule| time(&tasks, rule)), [None, Some(7), None]);
    let tasks = late_tasks(&[(2, 5, 0), (3, 5, 1)]);
    let times = rules.map(|rule| time(&tasks, rule));
    assert_eq!(times, [None, Some(6), Some(6)]);
}

/// The right rule is that of the analysis, and stays so without J(i) in the job count.
#[test]
fn the_job_count_changes_no_answer() {
    let random = &mut crate::random::Random::new(8);
    let mut more_jobs = 0;
    for _ in 0..2_000 {
        let n = random.from(1, 4);
        let times: Vec<(u32, u32, u32)> = (0..n)
            .map(|_| {
                let period = random.from(2, 30);
                (random.from(1, (period / n).max(1)), period, period)
            })
            .collect();
        let mut table = crate::tests::unassigned(&times);
        crate::draw::assign(random, &mut table);
        for record in &mut table.records[..n as usize] {
            record.jitter = random.from(0, record.period - 1);
        }
        let tasks = Tasks::of(&table);
        for i in 0..tasks.n {
            let right = crate::analysis::response(&tasks, i);
            assert_eq!(response_by(&tasks, i, RIGHT), right);
            assert_eq!(response_by(&tasks, i, NOT_IN_COUNT), right);
            let jobs = |rule| Sums::of(&tasks, i, rule).jobs(&tasks);
            more_jobs += u32::from(jobs(RIGHT) > jobs(NOT_IN_COUNT));
        }
    }
    assert!(more_jobs > 500, "{more_jobs}");
}

/// By hand: with 2 ticks in 5, one of them late, the second task has most left at t = 9 of 10.
#[test]
fn what_rules_of_tolerances_give() {
    let tasks = late_tasks(&[(2, 5, 1), (4, 12, 2)]);
    let right = tolerances_by(&tasks, RIGHT_TOLERANCE);
    assert_eq!(right, [Some(2), Some(1)]);
    let others = OF_TOLERANCES.map(|(_, rule)| tolerances_by(&tasks, rule));
    let by_hand = [[3, 2], [3, 2], [2, 2], [2, 0]];
    assert_eq!(others, by_hand.map(|all| all.map(Some).to_vec()));
    let mut none = tasks;
    none.deadline[0] = 1;
    assert_eq!(tolerances_by(&none, RIGHT_TOLERANCE)[0], None);
    assert_eq!(tolerances_by(&none, OF_TOLERANCES[1].1)[0], Some(-1));
}
