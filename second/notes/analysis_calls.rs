//! What response times, tolerances, lengths and the region check reach.

use super::other_rules::*;
use super::*;
use std::ops::RangeInclusive;

/// How often a thing is wanted that comes beside one aimed at.
pub const HALF_AS_OFTEN: u64 = AIMED_AT / 2;

pub fn of_times(tally: &mut Tally, mut body: Body, answer: &Answer) -> Option<()> {
    let table = body.table()?;
    table_faults(&table, None).note_meetings(tally, 3, answer);
    note_table(tally, 3, &table, answer);
    note_counts(tally, table.n, None, answer);
    let responses = responses_of(answer, &table)?;
    let times: Vec<Option<u64>> = responses
        .iter()
        .map(|response| response.map(|response| response.time as u64))
        .collect();
    let tasks = Tasks::of(&table);
    let any = |what: &dyn Fn(usize, u64) -> bool| {
        let mut places = times.iter().enumerate();
        places.any(|(i, time)| time.is_some_and(|time| what(i, time)))
    };
    tally.note("a time", any(&|_, _| true));
    tally.note("beyond", times.contains(&None));
    let both = times.contains(&None) && any(&|_, _| true);
    tally.note("beyond beside a time", both);
    let none_beyond = answer.taken() && !times.contains(&None);
    let many = table.n >= 9;
    tally.note("a time of each at n 9 to 15", none_beyond && many);
    tally.note("beyond beside a time at n 9 to 15", both && many);
    tally.note(
        "in time at the last tick",
        any(&|i, r| r == tasks.deadline[i]),
    );
    tally.note("late by a tick", any(&|i, r| r == tasks.deadline[i] + 1));
    tally.note("a time of the whole horizon", any(&|_, r| r == 1_000_000));
    tally.note("a time above the horizon", any(&|_, r| r > 1_000_000));
    let by = |what: fn(u64) -> bool| any(&|i, _| what(analysis::largest_blocker(&tasks, i)));
    tally.note("not blocked", by(|cost| cost == 0));
    tally.note("blocked by a cost of 1", by(|cost| cost == 1));
    tally.note("blocked by a cost of 2", by(|cost| cost == 2));
    tally.note("blocked by a larger cost", by(|cost| cost > 2));
    let equal = any(&|i, _| blocked_by_equal(&tasks, i));
    tally.note("blocked by a threshold of its own priority", equal);
    let arrival = any(&|i, _| starts_at_an_arrival(&tasks, i));
    tally.note("an arrival at the start, not blocked", arrival);
    let arrival = any(&|i, _| blocked_at_an_arrival(&tasks, i));
    tally.note("an arrival at the start, blocked", arrival);
    note_other_rules(tally, &tasks, &times);
    note_worst_jobs(tally, &tasks, &responses);
    note_late(tally, &tasks, &responses);
    Some(())
}

/// What response times reach by jitters, and which rules that document 02, item 8, shuts out would
/// answer otherwise.
fn note_late(tally: &mut Tally, tasks: &Tasks, responses: &[Option<Response>]) {
    let late: Vec<usize> = (0..responses.len())
        .filter(|i| counts_late(tasks, *i))
        .collect();
    for (what, rule) in OF_JITTERS {
        let other = late
            .iter()
            .any(|i| response_by(tasks, *i, rule) != responses[*i]);
        tally.note(&format!("another answer by {what}"), other);
    }
    let any = |what: &dyn Fn(usize, &Response) -> bool| {
        let mut late = late.iter();
        late.any(|i| responses[*i].as_ref().is_some_and(|r| what(*i, r)))
    };
    tally.note_often(AIMED_AT, "a time by a jitter", any(&|_, _| true));
    let beyond = late.iter().any(|i| responses[*i].is_none());
    tally.note("beyond by a jitter or beside one", beyond);
    tally.note_often(
        HALF_AS_OFTEN,
        "a later job is the worst, with a jitter",
        any(&|_, r| r.job > 0),
    );
    let own = |i: usize| tasks.jitter[i] > 0;
    tally.note(
        "a later job of a late task is the worst",
        any(&|i, r| r.job > 0 && own(i)),
    );
    tally.note("jobs that a jitter adds", any(&|i, _| adds_jobs(tasks, i)));
}

/// Whether there are more jobs by J(i) in their count.
fn adds_jobs(tasks: &Tasks, i: usize) -> bool {
    let l = analysis::active_period(tasks, i, analysis::blocking(tasks, i));
    l.is_some_and(|l| analysis::arrived(tasks, i, l) > l.div_ceil(tasks.period[i]))
}

/// The responses that were answered, none where the call was turned away. `None` where the line is
/// none of this call's: it has a time and a job for each task, and a job exactly beside a time.
fn responses_of(answer: &Answer, table: &Table) -> Option<Vec<Option<Response>>> {
    if !answer.taken() {
        return Some(Vec::new());
    }
    let n = table.n as usize;
    let words: Vec<&str> = answer.words().collect();
    if words.len() != 2 * n + 1 || words[n] != "jobs" {
        return None;
    }
    let response = |(time, job): (&&str, &&str)| match (*time, *job) {
        ("beyond", "-") => Some(None),
        (time, job) => Some(Some(Response {
            time: time.parse().ok()?,
            job: job.parse().ok()?,
        })),
    };
    words[..n]
        .iter()
        .zip(&words[n + 1..])
        .map(response)
        .collect()
}

/// Which rules that document 02, item 5, shuts out would answer otherwise. They differ from the
/// right one for blocked tasks alone.
fn note_other_rules(tally: &mut Tally, tasks: &Tasks, times: &[Option<u64>]) {
    for (what, rule) in [
        ("all of what blocks", WHOLE),
        ("all of what blocks in L alone", WHOLE_IN_L),
        ("nothing of what blocks in L", NOTHING_IN_L),
        ("all of what blocks in S alone", WHOLE_IN_S),
        ("the ceiling where something blocks", CEILING),
        ("the rule before", BEFORE),
    ] {
        let mut blocked = (0..times.len()).filter(|i| analysis::largest_blocker(tasks, *i) > 0);
        let time = |i| response_by(tasks, i, rule).map(|response| response.time as u64);
        let other = blocked.any(|i| time(i) != times[i]);
        tally.note(&format!("another time by {what}"), other);
    }
    let in_time = |(i, time): (usize, &Option<u64>)| time.is_some_and(|r| r <= tasks.deadline[i]);
    let passes = !times.is_empty() && times.iter().enumerate().all(in_time);
    let late = passes && !passes_by(tasks, WHOLE);
    tally.note("in time, and late by all of what blocks", late);
}

/// A task that isn't beyond: what was answered of it, what each of its jobs takes, and which of
/// them reach the most.
struct Worst {
    task: usize,
    response: Response,
    differences: Vec<i64>,
    reaching: Vec<usize>,
}

impl Worst {
    /// A later job is worse than the first.
    fn is_later(&self) -> bool {
        self.response.job > 0
    }

    fn several(&self) -> bool {
        self.reaching.len() > 1
    }
}

/// One answer in so many has a worst job above 0.
const LATER: (u64, u64) = (1, 50);

/// The worst jobs (document 02, item 4), and which rules that are wrong would name others.
fn note_worst_jobs(tally: &mut Tally, tasks: &Tasks, responses: &[Option<Response>]) {
    let worst: Vec<Worst> = (0..responses.len())
        .filter_map(|task| {
            let differences = differences(tasks, task)?;
            Some(Worst {
                task,
                response: responses[task]?,
                reaching: reaching(&differences),
                differences,
            })
        })
        .collect();
    note_later(tally, tasks, responses, &worst);
    note_several(tally, tasks, &worst);
    note_missed(tally, tasks, &worst);
    let any = |what: &dyn Fn(&Worst) -> bool| worst.iter().any(what);
    for (what, rule) in [
        ("the last that reaches R", LAST),
        ("job 0 always", JOB_0),
        ("counting from 1", FROM_1),
    ] {
        let other = any(&|w| rule(&w.differences) != w.response.job);
        tally.note(&format!("another job by {what}"), other);
    }
    let first = any(&|w| w.differences[0] != w.response.time);
    tally.note("another time by the first job alone", first);
}

/// Where a later job is the worst.
fn note_later(tally: &mut Tally, tasks: &Tasks, responses: &[Option<Response>], worst: &[Worst]) {
    let any = |what: &dyn Fn(&Worst) -> bool| worst.iter().any(what);
    let later = any(&Worst::is_later);
    tally.note_share(LATER, "a worst job above 0", later);
    tally.note_often(AIMED_AT, "a later job is the worst", later);
    let many = tasks.n >= 9;
    tally.note_often(
        HALF_AS_OFTEN,
        "a later job is the worst at n 9 to 15",
        later && many,
    );
    // A single task has a single job.
    for size in 2..=MOST_TASKS {
        let what = format!("a later job is the worst at n {size}");
        tally.note_often(SELDOM, &what, later && tasks.n == size);
    }
    for (what, record) in [("the first", 0), ("the last", tasks.n.max(1) - 1)] {
        let what = format!("a later job is the worst in {what} record");
        tally.note(&what, any(&|w| w.is_later() && w.task == record));
    }
    tally.note("a worst job of 2 or more", any(&|w| w.response.job >= 2));
    tally.note_often(
        SELDOM,
        "a worst job above 255",
        any(&|w| w.response.job > 255),
    );
    let two = worst.iter().filter(|w| w.is_later()).count() > 1;
    tally.note_often(SELDOM, "two tasks with a later worst job", two);
    let beyond = responses.contains(&None);
    tally.note("beyond beside a worst job above 0", later && beyond);
    let blocked = |w: &Worst| analysis::blocking(tasks, w.task) > 0;
    tally.note(
        "a later job of a blocked task is the worst",
        any(&|w| w.is_later() && blocked(w)),
    );
    let last = |w: &Worst| w.response.job as usize == w.differences.len() - 1;
    tally.note_often(
        SELDOM,
        "a later job is the worst, and the last of all",
        any(&|w| w.is_later() && last(w)),
    );
}

/// Where several jobs reach R.
fn note_several(tally: &mut Tally, tasks: &Tasks, worst: &[Worst]) {
    let any = |what: &dyn Fn(&Worst) -> bool| worst.iter().any(what);
    let above_0 = |w: &Worst| w.is_later() && w.several();
    tally.note(
        "several jobs reach R, job 0 among them",
        any(&|w| !w.is_later() && w.several()),
    );
    tally.note("several later jobs reach R", any(&above_0));
    tally.note(
        "several later jobs reach R at n 9 to 15",
        any(&above_0) && tasks.n >= 9,
    );
    let three = any(&|w| w.is_later() && w.reaching.len() >= 3);
    tally.note_often(SELDOM, "three later jobs reach R", three);
}

/// Which jobs of a task miss its deadline.
fn note_missed(tally: &mut Tally, tasks: &Tasks, worst: &[Worst]) {
    let any = |what: &dyn Fn(&Worst, i64) -> bool| {
        let mut worst = worst.iter();
        worst.any(|w| what(w, tasks.deadline[w.task] as i64))
    };
    let kept_at_first = |w: &Worst, due: i64| w.differences[0] <= due && due < w.response.time;
    tally.note(
        "a later job misses the deadline, job 0 keeps it",
        any(&kept_at_first),
    );
    let many = tasks.n >= 9;
    tally.note(
        "a later job misses the deadline, job 0 keeps it, at n 9 to 15",
        any(&kept_at_first) && many,
    );
    tally.note(
        "job 0 misses the deadline, a later one by more",
        any(&|w, due| due < w.differences[0] && w.is_later()),
    );
    let others_keep = |w: &Worst, due: i64| w.differences[1..].iter().all(|later| *later <= due);
    tally.note(
        "of several jobs the first alone misses the deadline",
        any(&|w, due| w.differences.len() > 1 && due < w.differences[0] && others_keep(w, due)),
    );
    tally.note(
        "a later job is the worst, and in time",
        any(&|w, due| w.is_later() && w.response.time <= due),
    );
}

/// Whether the largest blocking comes from thresholds equal to the priority alone.
fn blocked_by_equal(tasks: &Tasks, i: usize) -> bool {
    let largest = |above: &dyn Fn(u32) -> bool| {
        let lower = (0..tasks.n).filter(|j| tasks.priority[i] < tasks.priority[*j]);
        let blocking = lower.filter(|j| above(tasks.threshold[*j]));
        blocking.map(|j| tasks.cost[j]).max().unwrap_or(0)
    };
    let own = tasks.priority[i];
    largest(&|threshold| threshold <= own) > largest(&|threshold| threshold < own)
}

/// Whether, with nothing that blocks, the first job's start would fall on the arrival of a higher
/// task if arrivals at the start itself were left out.
fn starts_at_an_arrival(tasks: &Tasks, i: usize) -> bool {
    if analysis::largest_blocker(tasks, i) > 0 {
        return false;
    }
    let higher: Vec<usize> = (0..tasks.n)
        .filter(|j| tasks.priority[*j] < tasks.priority[i])
        .collect();
    let mut start: u64 = 0;
    loop {
        let jobs = |j: usize| analysis::arrived(tasks, j, start).max(1);
        let sum = higher.iter().map(|j| jobs(*j) * tasks.cost[*j]).sum();
        if sum == start || sum > MOST_TICKS as u64 {
            break;
        }
        start = sum;
    }
    let arrives = |j: usize| (start + tasks.jitter[j]) % tasks.period[j] == 0;
    start > 0 && higher.iter().any(|j| arrives(*j))
}

pub fn of_tolerances(tally: &mut Tally, mut body: Body, answer: &Answer) -> Option<()> {
    let table = body.table()?;
    let mut faults = table_faults(&table, None);
    faults.add(16, held(&table).tasks().iter().any(no_instant));
    faults.note_meetings(tally, 4, answer);
    note_table(tally, 4, &table, answer);
    note_counts(tally, table.n, None, answer);
    let ticks = ticks_of(answer);
    tally.note("a tolerance below zero", ticks.iter().any(|t| *t < 0));
    tally.note("a tolerance of -1", ticks.contains(&-1));
    tally.note("a tolerance of 0", ticks.contains(&0));
    tally.note("a tolerance of 1", ticks.contains(&1));
    tally.note("a tolerance above zero", ticks.iter().any(|t| *t > 0));
    let late = late_tolerances(&table, answer);
    note_16(tally, &late, answer);
    for (what, rule) in OF_TOLERANCES {
        let line = tolerances_line(&late.by(rule));
        tally.note(&format!("another answer by {what}"), late.tells(&line));
    }
    let below_too = late.right.iter().position(is_16).map(refused_16);
    let other = below_too.is_some_and(|line| late.tells(&line));
    tally.note("another answer by 16 of tolerances below zero too", other);
    Some(())
}

/// A task whose jitter leaves it no t.
fn no_instant(task: &Record) -> bool {
    task.jitter >= task.deadline
}

/// No t, or a tolerance below zero.
fn is_16(tolerance: &Option<i64>) -> bool {
    tolerance.is_none_or(|tolerance| tolerance < 0)
}

fn refused_16(place: usize) -> String {
    format!("refused 16 record {}", place + 1)
}

/// The tasks of a table with a jitter that came as far as its tolerances, these by the right rule,
/// and what was answered; no tasks otherwise.
pub struct LateTolerances<'a> {
    tasks: Tasks,
    right: Vec<Option<i64>>,
    line: &'a str,
}

pub fn late_tolerances<'a>(table: &Table, answer: &Answer<'a>) -> LateTolerances<'a> {
    let mut tasks = Tasks::of(&held(table));
    if !is_late(table) || !(answer.taken() || answer.refused(16)) {
        tasks.n = 0;
    }
    LateTolerances {
        right: tolerances_by(&tasks, RIGHT_TOLERANCE),
        tasks,
        line: answer.line,
    }
}

impl LateTolerances<'_> {
    fn by(&self, rule: ToleranceRule) -> Vec<Option<i64>> {
        tolerances_by(&self.tasks, rule)
    }

    /// Whether this line is another than the answer.
    fn tells(&self, line: &str) -> bool {
        self.tasks.n > 0 && line != self.line
    }

    /// The first that has no t, and the first below zero.
    fn firsts(&self) -> (Option<usize>, Option<usize>) {
        let none = self.right.iter().position(|tolerance| tolerance.is_none());
        let below = self.right.iter().position(|t| t.is_some_and(|t| t < 0));
        (none, below)
    }
}

/// What tolerances answer where these come out.
fn tolerances_line(tolerances: &[Option<i64>]) -> String {
    if let Some(place) = tolerances.iter().position(|tolerance| tolerance.is_none()) {
        return refused_16(place);
    }
    let numbers = tolerances.iter().flatten();
    let words: Vec<String> = numbers.map(|tolerance| format!(" {tolerance}")).collect();
    format!("tolerances{}", words.concat())
}

/// The lengths where these tolerances come out, or the place of the record that 16 names.
fn lengths_by(tasks: &Tasks, tolerances: &[Option<i64>]) -> Result<Vec<i64>, usize> {
    if let Some(place) = tolerances.iter().position(is_16) {
        return Err(place);
    }
    let length = |k: usize| {
        let above = (0..tasks.n).filter(|i| tasks.priority[*i] < tasks.priority[k]);
        let least = above.filter_map(|i| tolerances[i]).min();
        let cost = tasks.cost[k] as i64;
        least.map_or(cost, |least| cost.min(least + 1))
    };
    Ok((0..tasks.n).map(length).collect())
}

/// What a call that asks 16 of a tolerance below zero too answers, where these tolerances come out.
fn line_by(tasks: &Tasks, tolerances: &[Option<i64>], line: impl Fn(&[i64]) -> String) -> String {
    match lengths_by(tasks, tolerances) {
        Ok(lengths) => line(&lengths),
        Err(place) => refused_16(place),
    }
}

fn lengths_line(lengths: &[i64]) -> String {
    let words: Vec<String> = lengths.iter().map(|length| format!(" {length}")).collect();
    format!("lengths{}", words.concat())
}

/// Which answers of lengths and of the region check tell rules apart that item 8 shuts out.
pub fn note_other_tolerances(
    tally: &mut Tally,
    late: &LateTolerances,
    line: impl Fn(&[i64]) -> String,
) {
    for (what, rule) in OF_TOLERANCES {
        let other = line_by(&late.tasks, &late.by(rule), &line);
        tally.note(&format!("another answer by {what}"), late.tells(&other));
    }
    let (none, _) = late.firsts();
    let other = none.is_some_and(|place| late.tells(&refused_16(place)));
    tally.note("another answer by 16 naming a record of no t first", other);
}

/// The two ways to 16 beside each other. Tolerances and the calls that ask 16 of those below zero
/// too name another record where the one below zero is the first.
pub fn note_16(tally: &mut Tally, late: &LateTolerances, answer: &Answer) {
    let (none, below) = late.firsts();
    let refused = answer.refused(16);
    tally.note("16 by no t", refused && none.is_some());
    tally.note(
        "16 by no t alone",
        refused && none.is_some() && below.is_none(),
    );
    let both = refused && none.is_some() && below.is_some();
    tally.note("16, no t before one below zero", both && none < below);
    tally.note("16, one below zero before no t", both && below < none);
    let count = late.right.iter().filter(|tolerance| tolerance.is_none());
    tally.note("16, no t twice", refused && count.count() > 1);
    let tasks = &late.tasks;
    let one = |i: usize| tasks.jitter[i] > 0 && tasks.deadline[i] == tasks.jitter[i] + 1;
    let single = answer.taken() && (0..tasks.n).any(one);
    tally.note("a tolerance of a single t", single);
}

/// The numbers answered; none where the call was turned away.
fn ticks_of(answer: &Answer) -> Vec<i64> {
    if !answer.taken() {
        return Vec::new();
    }
    answer
        .words()
        .filter_map(|word| word.parse().ok())
        .collect()
}

pub fn of_lengths(tally: &mut Tally, mut body: Body, answer: &Answer) -> Option<()> {
    let table = body.table()?;
    let mut faults = table_faults(&table, None);
    faults.add(16, held(&table).tasks().iter().any(too_short));
    faults.note_meetings(tally, 5, answer);
    note_table(tally, 5, &table, answer);
    note_counts(tally, table.n, None, answer);
    let answered = |sizes: RangeInclusive<u8>| answer.taken() && sizes.contains(&table.n);
    tally.note_often(HALF_AS_OFTEN, "answered at n 6 to 8", answered(6..=8));
    tally.note_often(AIMED_AT, "answered at n 9 to 15", answered(9..=15));
    let ticks = ticks_of(answer);
    let seen = held(&table);
    let cost = |k: usize| seen.records[k].cost as i64;
    let mut places = ticks.iter().enumerate();
    tally.note("a length of the cost", places.any(|(k, t)| *t == cost(k)));
    let mut places = ticks.iter().enumerate();
    tally.note("a length below the cost", places.any(|(k, t)| *t < cost(k)));
    note_least_tolerances(tally, &seen, &ticks);
    note_below_zero(tally, &table, answer);
    let late = late_tolerances(&table, answer);
    note_16(tally, &late, answer);
    note_other_tolerances(tally, &late, lengths_line);
    // A higher task can always bear a region of a single tick.
    ticks.iter().all(|length| *length >= 1).then_some(())
}

/// A task that doesn't fit before its deadline even by itself.
pub fn too_short(task: &Record) -> bool {
    task.cost as u64 + task.jitter as u64 > task.deadline as u64
}

/// How the least tolerance above a task lies to its cost, and which length comes of that.
fn note_least_tolerances(tally: &mut Tally, table: &Table, lengths: &[i64]) {
    let least = least_above(table);
    let any = |what: &dyn Fn(i64, i64, i64) -> bool| {
        let mut places = table.tasks().iter().zip(lengths).zip(&least);
        places.any(|((task, length), least)| {
            least.is_some_and(|least| what(*length, least, task.cost as i64))
        })
    };
    let below = |length, least, cost| length == least + 1 && length < cost;
    tally.note(
        "a length of a tolerance plus 1, below the cost",
        any(&below),
    );
    let one = |length, least, cost| least == 0 && length == 1 && cost > 1;
    tally.note("a length of 1 below a tolerance of 0", any(&one));
    for (what, more) in [
        ("the cost less 2", -2),
        ("the cost less 1", -1),
        ("the cost", 0),
        ("the cost and 1", 1),
    ] {
        let what = format!("the least tolerance above is {what}");
        tally.note(&what, any(&|_, least, cost| least == cost + more));
    }
    let far = any(&|_, least, cost| least > cost + 1);
    tally.note("the least tolerance above is larger", far);
}

/// The least tolerance of the tasks above each task; none above the highest, and none where the
/// tolerances are refused.
fn least_above(table: &Table) -> Vec<Option<i64>> {
    let tolerances = lengths::tolerances(table).unwrap_or_default();
    let priority = |k: usize| table.records[k].priority;
    let least = |k: usize| {
        let above = (0..tolerances.len()).filter(|i| priority(*i) < priority(k));
        above.map(|i| tolerances[i]).min()
    };
    (0..tolerances.len()).map(least).collect()
}

/// Which record a refusal 16 names.
pub fn note_below_zero(tally: &mut Tally, table: &Table, answer: &Answer) {
    let tolerances = if answer.refused(16) {
        tolerances_by(&Tasks::of(table), RIGHT_TOLERANCE)
    } else {
        Vec::new()
    };
    let below: Vec<usize> = (0..tolerances.len())
        .filter(|k| is_16(&tolerances[*k]))
        .collect();
    let first = below.first().copied();
    tally.note("16 names record 1", first == Some(0));
    tally.note("16 names a later record", first.is_some_and(|k| k > 0));
    tally.note("16 could name two records", below.len() > 1);
    let priority = |k: &usize| table.records[*k].priority;
    let highest = below.iter().copied().min_by_key(priority);
    tally.note("16 names not the highest of two", highest != first);
}

pub fn of_region_check(tally: &mut Tally, mut body: Body, answer: &Answer) -> Option<()> {
    let table = body.table()?;
    let own = body.words()?;
    let catalogue = body.words()?;
    let mut faults = table_faults(&table, Some((&own, &catalogue)));
    faults.add(16, held(&table).tasks().iter().any(too_short));
    faults.note_meetings(tally, 6, answer);
    note_table(tally, 6, &table, answer);
    note_counts(tally, table.n, Some(own.len()), answer);
    note_words(tally, &own, answer);
    note_lists(tally, &table, &own, &catalogue, answer);
    note_places(tally, &table, (&own, &catalogue), answer);
    note_below_zero(tally, &table, answer);
    let late = late_tolerances(&table, answer);
    note_16(tally, &late, answer);
    let seen = held(&table);
    note_other_tolerances(tally, &late, |lengths| {
        fit_line(&seen, &own, &catalogue, lengths)
    });
    for (wanted, sizes) in [(HALF_AS_OFTEN, 6..=8), (AIMED_AT, 9..=15)] {
        let named = format!("at n {} to {}", sizes.start(), sizes.end());
        let large = answer.taken() && sizes.contains(&table.n);
        tally.note_often(wanted, &format!("answered {named}"), large);
        for said in ["fits", "unfit"] {
            tally.note(&format!("{said} {named}"), large && answer.line == said);
        }
    }
    let left = least_left(&table, &own, &catalogue, answer);
    tally.note("a region of just its length", left == Some(0));
    tally.note("a region one too long", left == Some(-1));
    let above = longest_above_tolerance(&table, &own, &catalogue, answer);
    for (said, more) in [("fits", 0), ("fits", 1), ("unfit", 2)] {
        let what = format!("{said}, a region of a tolerance plus {more}");
        tally.note(&what, answer.line == said && above == Some(more));
    }
    Some(())
}

/// What the region check answers where these are the lengths.
fn fit_line(table: &Table, own: &[u32], catalogue: &[u32], lengths: &[i64]) -> String {
    let fits = |(task, length): (&Record, &i64)| {
        let regions = checks::regions(task, own, catalogue).unwrap_or(&[]);
        regions.iter().all(|word| *word as i64 <= *length)
    };
    let fit = table.tasks().iter().zip(lengths).all(fits);
    String::from(if fit { "fits" } else { "unfit" })
}

/// By how much the longest region of a task lies above the least tolerance of the higher ones, the
/// most of all tasks.
fn longest_above_tolerance(
    table: &Table,
    own: &[u32],
    catalogue: &[u32],
    answer: &Answer,
) -> Option<i64> {
    if !answer.taken() {
        return None;
    }
    let above = |(task, least): (&Record, Option<i64>)| {
        let regions = checks::regions(task, own, catalogue)?;
        Some(*regions.iter().max()? as i64 - least?)
    };
    let tasks = table.tasks().iter().zip(least_above(table));
    tasks.filter_map(above).max()
}

/// The least that a length leaves over its longest region, lengths of the whole cost apart.
fn least_left(table: &Table, own: &[u32], catalogue: &[u32], answer: &Answer) -> Option<i64> {
    if !answer.taken() {
        return None;
    }
    let lengths = lengths::lengths(table).ok()?;
    let left = |(task, length): (&Record, i64)| {
        let regions = checks::regions(task, own, catalogue)?;
        let longest = *regions.iter().max()? as i64;
        (length < task.cost as i64).then_some(length - longest)
    };
    table.tasks().iter().zip(lengths).filter_map(left).min()
}
