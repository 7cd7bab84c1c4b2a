//! The test of fixed preemption points by rules that document 02, items 2, 5 and 8, shut out. A
//! request to which one of them gives another answer tells it from the right one, and such requests
//! are counted. No answer comes from here.
//!
//! That a task passes by itself where alpha is 0 tells by a single task alone. Any other lowest task
//! has a t in C + sum(t) ≤ t, as it has its tolerance, and some task above it, so that t is more than
//! q; and at t - q, which lies in its range, (C - q) + sum(t - q) is no more than t - q.

use super::other_rules::{read_by, Late};
use crate::analysis::Tasks;
use crate::margins::{end_of_stretch, left_at, most_left, Cut};

/// Which t a rule looks at.
#[derive(Clone, Copy)]
enum Tried {
    All,
    /// Up to the first arrival of a higher task behind the beginning.
    FirstStretch,
    LastAlone,
}

/// How a rule says whether task i, with j another task, and the regions of a task, pass.
#[derive(Clone, Copy)]
pub struct Rule {
    /// Whether j stands in the sum, ...
    higher: fn(&Tasks, usize, usize) -> bool,
    /// ... and whether its regions count for alpha, ...
    lower: fn(&Tasks, usize, usize) -> bool,
    /// ... by which length.
    holds_up: fn(&[u64]) -> u64,
    /// What is taken off alpha, before it is asked whether it is 0, ...
    off_alpha: u64,
    /// ... and behind that.
    off_in_the_sum: u64,
    /// q, of a task's regions.
    last: fn(&[u64]) -> u64,
    /// What stands in the sum of the task itself, by C and q.
    before: fn(u64, u64) -> u64,
    /// The last t, by D, J and q.
    until: fn(i64, i64, i64) -> i64,
    late: Late,
    /// An arrival at t itself counts too, by 1 + floor in place of the ceiling.
    arrivals_at_t: bool,
    /// How much less than t the sum must be.
    below: i64,
    alpha_0_passes: bool,
    tried: Tried,
}

fn last_of(regions: &[u64]) -> u64 {
    regions.last().copied().unwrap_or(0)
}

fn first_of(regions: &[u64]) -> u64 {
    regions.first().copied().unwrap_or(0)
}

fn longest_of(regions: &[u64]) -> u64 {
    regions.iter().copied().max().unwrap_or(0)
}

const RIGHT: Rule = Rule {
    higher: |tasks, i, j| tasks.priority[j] < tasks.priority[i],
    lower: |tasks, i, j| tasks.priority[j] > tasks.priority[i],
    holds_up: longest_of,
    off_alpha: 0,
    off_in_the_sum: 0,
    last: last_of,
    before: |cost, q| cost - q,
    until: |d, j, q| d - j - q,
    late: Late::OfEach,
    arrivals_at_t: false,
    below: 0,
    alpha_0_passes: true,
    tried: Tried::All,
};

const fn alpha_of(lower: fn(&Tasks, usize, usize) -> bool) -> Rule {
    Rule { lower, ..RIGHT }
}

const fn alpha_by(holds_up: fn(&[u64]) -> u64) -> Rule {
    Rule { holds_up, ..RIGHT }
}

const fn last_by(last: fn(&[u64]) -> u64) -> Rule {
    Rule { last, ..RIGHT }
}

const fn until(until: fn(i64, i64, i64) -> i64) -> Rule {
    Rule { until, ..RIGHT }
}

const fn late(late: Late) -> Rule {
    Rule { late, ..RIGHT }
}

const fn tried(tried: Tried) -> Rule {
    Rule { tried, ..RIGHT }
}

pub const OF_POINTS: [(&str, Rule); 30] = [
    (
        "alpha of the higher tasks",
        alpha_of(|tasks, i, j| tasks.priority[j] < tasks.priority[i]),
    ),
    ("alpha of every other task", alpha_of(|_, i, j| i != j)),
    ("alpha of every task", alpha_of(|_, _, _| true)),
    (
        "alpha of the next lower task",
        alpha_of(|tasks, i, j| tasks.priority[j] == tasks.priority[i] + 1),
    ),
    (
        "alpha of the lowest task",
        alpha_of(|tasks, i, j| i != j && tasks.priority[j] == tasks.n as u32),
    ),
    (
        "alpha of those whose threshold reaches up",
        alpha_of(|tasks, i, j| {
            tasks.threshold[j] <= tasks.priority[i] && tasks.priority[i] < tasks.priority[j]
        }),
    ),
    (
        "alpha of whole costs",
        alpha_by(|regions| regions.iter().sum()),
    ),
    ("alpha of first regions", alpha_by(first_of)),
    ("alpha of last regions", alpha_by(last_of)),
    (
        "alpha less one",
        Rule {
            off_alpha: 1,
            ..RIGHT
        },
    ),
    (
        "alpha less one in the sum alone",
        Rule {
            off_in_the_sum: 1,
            ..RIGHT
        },
    ),
    ("no alpha", alpha_of(|_, _, _| false)),
    ("the first region for the last", last_by(first_of)),
    ("the longest region for the last", last_by(longest_of)),
    (
        "all regions for the last",
        last_by(|regions| regions.iter().sum()),
    ),
    ("no last region", last_by(|_| 0)),
    ("< for ≤", Rule { below: 1, ..RIGHT }),
    ("t up to D - J", until(|d, j, _| d - j)),
    ("t up to D - q", until(|d, _, q| d - q)),
    ("t up to D", until(|d, _, _| d)),
    ("t below D - J - q", until(|d, j, q| d - j - q - 1)),
    ("t up to a tick more", until(|d, j, q| d - j - q + 1)),
    ("no jitter in the sum", late(Late::OfNone)),
    ("the task's jitter in the sum", late(Late::OfTheTask)),
    (
        "arrivals at t",
        Rule {
            arrivals_at_t: true,
            ..RIGHT
        },
    ),
    (
        "alpha 0 tried as the others",
        Rule {
            alpha_0_passes: false,
            ..RIGHT
        },
    ),
    (
        "C for C - q",
        Rule {
            before: |cost, _| cost,
            ..RIGHT
        },
    ),
    (
        "thresholds for priorities",
        Rule {
            higher: |tasks, i, j| tasks.threshold[j] < tasks.threshold[i],
            lower: |tasks, i, j| tasks.threshold[j] > tasks.threshold[i],
            ..RIGHT
        },
    ),
    ("t of the first stretch", tried(Tried::FirstStretch)),
    ("the last t alone", tried(Tried::LastAlone)),
];

/// Whether each task passes by this rule.
pub fn passing_by(cut: &Cut, rule: &Rule) -> Vec<bool> {
    (0..cut.tasks.n).map(|i| passes_by(cut, i, rule)).collect()
}

fn passes_by(cut: &Cut, i: usize, rule: &Rule) -> bool {
    let tasks = &cut.tasks;
    let lower = (0..tasks.n).filter(|j| (rule.lower)(tasks, i, *j));
    let alpha = lower.map(|j| (rule.holds_up)(&cut.regions[j])).max();
    let alpha = alpha.unwrap_or(0).saturating_sub(rule.off_alpha);
    if alpha == 0 && rule.alpha_0_passes {
        return true;
    }
    let q = (rule.last)(&cut.regions[i]);
    let alpha = alpha.saturating_sub(rule.off_in_the_sum);
    let wanted = ((rule.before)(tasks.cost[i], q) + alpha) as i64 + rule.below;
    let (d, j) = (tasks.deadline[i] as i64, tasks.jitter[i] as i64);
    let last = (rule.until)(d, j, q as i64);
    let left = left_by(tasks, i, last, rule);
    left.is_some_and(|left| left >= wanted)
}

/// The most that the tasks in the sum leave of the t that are looked at.
fn left_by(tasks: &Tasks, i: usize, last: i64, rule: &Rule) -> Option<i64> {
    let higher = (0..tasks.n).filter(|j| (rule.higher)(tasks, i, *j));
    let higher: Vec<usize> = higher.collect();
    let mut tasks = read_by(tasks, i, rule.late);
    if rule.arrivals_at_t {
        // 1 + floor(x/T) is ceil((x + 1)/T).
        tasks.jitter = tasks.jitter.map(|jitter| jitter + 1);
    }
    match rule.tried {
        Tried::All => most_left(&tasks, &higher, last),
        Tried::FirstStretch => {
            let end = end_of_stretch(&tasks, &higher, 1);
            most_left(&tasks, &higher, last.min(end))
        }
        Tried::LastAlone => (last >= 1).then(|| left_at(&tasks, &higher, last)),
    }
}

#[cfg(test)]
fn named(what: &str) -> Rule {
    let rule = OF_POINTS.into_iter().find(|(named, _)| *named == what);
    rule.expect("a rule").1
}

/// Tasks of (period, deadline, jitter, regions) in the order of their priorities, each threshold the
/// priority itself.
#[cfg(test)]
fn cut(tasks: &[(u32, u32, u32, &[u32])]) -> Cut {
    let places: Vec<u32> = (1..=tasks.len() as u32).collect();
    let times = |(period, deadline, _, words): &(u32, u32, u32, &[u32])| {
        (words.iter().sum::<u32>(), *period, *deadline)
    };
    let times: Vec<(u32, u32, u32)> = tasks.iter().map(times).collect();
    let mut table = crate::tests::assigned(&times, &places, &places);
    let mut own = Vec::new();
    for (record, (_, _, jitter, words)) in table.records.iter_mut().zip(tasks) {
        (record.jitter, record.first) = (*jitter, own.len() as u32);
        record.count = words.len() as u32;
        own.extend(*words);
    }
    Cut::of(&table, &own, &[]).expect("regions")
}

/// Three tasks: 2 ticks in 4, then 5 of which the last region has 3, then 4 of which the longest has 2.
/// The jitters are those of the first two, the deadline is the second's.
#[cfg(test)]
fn three(deadline: u32, jitters: [u32; 2]) -> Cut {
    cut(&[
        (4, 4, jitters[0], &[1, 1]),
        (20, deadline, jitters[1], &[2, 3]),
        (60, 60, 0, &[1, 2, 1]),
    ])
}

/// Whether the second passes with each of two deadlines, by this rule.
#[cfg(test)]
fn with_both(deadlines: [u32; 2], jitters: [u32; 2], rule: &Rule) -> [bool; 2] {
    deadlines.map(|deadline| passing_by(&three(deadline, jitters), rule)[1])
}

/// By hand: before its last region the second task wants 2, and 2 more by alpha. The first leaves it 2
/// of 4 ticks, 3 of 7 and 4 of 8, so 8 + 3 is the least deadline.
#[test]
fn what_other_rules_say() {
    assert_eq!(with_both([11, 10], [0, 0], &RIGHT), [true, false]);
    for (what, at_11, at_10) in [
        ("alpha of the higher tasks", true, true),
        ("alpha of every other task", true, false),
        ("alpha of every task", false, false),
        ("alpha of the next lower task", true, false),
        ("alpha of whole costs", false, false),
        ("alpha of first regions", true, true),
        ("alpha of last regions", true, true),
        ("alpha less one", true, true),
        ("alpha less one in the sum alone", true, true),
        ("no alpha", true, true),
        ("the first region for the last", false, false),
        ("the longest region for the last", true, false),
        ("all regions for the last", true, true),
        ("no last region", false, false),
        ("< for ≤", false, false),
        ("t up to D - J", true, true),
        ("t below D - J - q", false, false),
        ("t up to a tick more", true, true),
        ("arrivals at t", false, false),
        ("C for C - q", false, false),
        ("t of the first stretch", false, false),
        ("the last t alone", true, false),
    ] {
        let said = with_both([11, 10], [0, 0], &named(what));
        assert_eq!(said, [at_11, at_10], "{what}");
    }
}

/// By hand: with a tick of jitter the first task leaves 3 of 9 ticks and 4 of 10, so with 3 of its own
/// the second's least deadline is 10 + 3 + 3.
#[test]
fn what_rules_of_jitters_say() {
    assert_eq!(with_both([16, 15], [1, 3], &RIGHT), [true, false]);
    for (what, at_16, at_15) in [
        ("no jitter in the sum", true, true),
        ("the task's jitter in the sum", false, false),
        ("t up to D - q", true, true),
        ("t up to D - J", true, true),
        ("t up to D", true, true),
    ] {
        let said = with_both([16, 15], [1, 3], &named(what));
        assert_eq!(said, [at_16, at_15], "{what}");
    }
}

/// A single task that must begin at once passes, but not by a t; and where all thresholds are the same
/// no task is higher or lower by them.
#[test]
fn what_rules_of_places_say() {
    let single = cut(&[(9, 5, 2, &[3])]);
    assert_eq!(passing_by(&single, &RIGHT), [true]);
    let tried = named("alpha 0 tried as the others");
    assert_eq!(passing_by(&single, &tried), [false]);
    assert_eq!(passing_by(&cut(&[(9, 6, 2, &[3])]), &tried), [true]);
    let mut same = three(10, [0, 0]);
    same.tasks.threshold = [1; crate::table::MOST_TASKS];
    let passing = |cut: &Cut, what: &str| passing_by(cut, &named(what));
    let all = passing(&same, "thresholds for priorities");
    assert_eq!(all, [true, true, true]);
    // Of the first task's deadline 3 ticks are left, and a region of 3 holds it up before its own tick.
    let reaching = "alpha of those whose threshold reaches up";
    assert_eq!(passing(&same, reaching), [false, false, true]);
    let own = three(10, [0, 0]);
    assert_eq!(passing_by(&own, &RIGHT), [false, false, true]);
    assert_eq!(passing(&own, reaching), [true, true, true]);
}

/// The right rule is that of the margins, and the answers are theirs, whatever is drawn.
#[test]
fn the_right_rule_is_the_margins() {
    use crate::points;
    let random = &mut crate::random::Random::new(8);
    let (mut unshown, mut answered) = (0, 0);
    for _ in 0..300 {
        let n = random.from(1, 6);
        let mut cabinet = crate::draw::cabinet(random, n, true);
        crate::cut::cut_anew(random, &mut cabinet);
        let cut = Cut::of(&cabinet.table, &cabinet.own, &cabinet.catalogue).expect("regions");
        let passing: Vec<bool> = (0..cut.tasks.n).map(|i| cut.passes(i)).collect();
        assert_eq!(passing_by(&cut, &RIGHT), passing);
        let (table, own, catalogue) = (&cabinet.table, &cabinet.own, &cabinet.catalogue);
        if let Ok(verdicts) = points::fixed_points(table, own, catalogue) {
            let passes = |verdict: &points::Verdict| *verdict == points::Verdict::Passes;
            let said: Vec<bool> = verdicts.iter().map(passes).collect();
            assert_eq!(said, passing);
            answered += 1;
        }
        unshown += u32::from(passing.contains(&false));
    }
    assert!(unshown > 20, "{unshown}");
    assert!(answered > 100, "{answered}");
}
