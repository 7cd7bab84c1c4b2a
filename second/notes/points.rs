//! What the test of fixed preemption points reaches, and a task's last region (document 02, item 2).

use super::analysis_calls::*;
use super::points_rules::*;
use super::*;
use crate::margins::most_left;

/// Regions of a task from so many on are many.
const MANY_WORDS: usize = 10;

// ---- last region

pub fn of_last_region(tally: &mut Tally, mut body: Body, answer: &Answer) -> Option<()> {
    parts_calls::of_regions(tally, 12, Body(body.0), answer)?;
    let number = body.two()?;
    let table = body.table()?;
    let own = body.words()?;
    let catalogue = body.words()?;
    let none = Table::default();
    let alone = parts_calls::alone(if answer.taken() { &table } else { &none }, number);
    let record = &alone.records[0];
    let words = checks::regions(record, &own, &catalogue).unwrap_or(&[]);
    let list = list_of(record, &own, &catalogue);
    let last = last_word(answer)?;
    let in_list = Placed {
        source: record.source,
        count: words.len(),
        at_the_end: record.first as usize + words.len() == list.len(),
    };
    note_placed(tally, &[in_list]);
    let count = record.count as usize;
    for (what, word) in [
        ("the first region", words.first()),
        ("the longest region", words.iter().max()),
        (
            "the word behind the last region",
            list.get(record.first as usize + count),
        ),
        ("the word before the last region", words.iter().nth_back(1)),
        ("the list's last word", list.last()),
        (
            "the count's place in the list",
            list.get(count.wrapping_sub(1)),
        ),
        (
            "the other list",
            other_list(record, &own, &catalogue, words.len()),
        ),
    ] {
        let other = last.is_some() && word.copied() != last;
        tally.note(&format!("another word by {what}"), other);
        // Where there is such a word, a program that looks for it there doesn't stop.
        tally.note(&format!("{what} is another word"), other && word.is_some());
    }
    Some(())
}

/// The word at the last region's place in the list that the record doesn't name.
fn other_list<'a>(
    record: &Record,
    own: &'a [u32],
    catalogue: &'a [u32],
    count: usize,
) -> Option<&'a u32> {
    let other = match record.source {
        Source::Own => catalogue,
        Source::Catalogue => own,
    };
    other.get((record.first as usize + count).checked_sub(1)?)
}

/// The word answered, `Some(None)` where the call was turned away; `None` where the line isn't of one
/// word.
fn last_word(answer: &Answer) -> Option<Option<u32>> {
    if !answer.taken() {
        return Some(None);
    }
    let words: Vec<&str> = answer.words().collect();
    let [word] = words.as_slice() else {
        return None;
    };
    Some(Some(word.parse().ok()?))
}

/// In which list the last region of a task stands, how many regions the task has, and whether it is
/// the list's last word. Of no task the count is 0.
struct Placed {
    source: Source,
    count: usize,
    at_the_end: bool,
}

fn note_placed(tally: &mut Tally, all: &[Placed]) {
    let any = |what: &dyn Fn(&Placed) -> bool| all.iter().any(|p| p.count > 0 && what(p));
    for (what, source) in [("own words", Source::Own), ("catalogue", Source::Catalogue)] {
        let end = any(&|p| p.source == source && p.at_the_end);
        tally.note(&format!("a last region at the end of the {what}"), end);
        let inside = any(&|p| p.source == source && !p.at_the_end);
        tally.note(&format!("a last region inside the {what}"), inside);
        for (counted, is) in COUNTS {
            let of = any(&|p| p.source == source && is(p.count));
            tally.note(&format!("the last of {counted} of the {what}"), of);
        }
    }
}

/// How many regions a task has.
const COUNTS: [(&str, fn(usize) -> bool); 4] = [
    ("one word", |count| count == 1),
    ("two words", |count| count == 2),
    ("several words", |count| 2 < count && count < MANY_WORDS),
    ("many words", |count| count >= MANY_WORDS),
];

// ---- fixed preemption points

pub fn of_points(tally: &mut Tally, mut body: Body, answer: &Answer) -> Option<()> {
    let table = body.table()?;
    let own = body.words()?;
    let catalogue = body.words()?;
    note_refusals(tally, &table, &own, &catalogue, answer);
    note_table(tally, 13, &table, answer);
    note_counts(tally, table.n, Some(own.len()), answer);
    note_words(tally, &own, answer);
    note_lists(tally, &table, &own, &catalogue, answer);
    note_places(tally, &table, (&own, &catalogue), answer);
    let late = late_tolerances(&table, answer);
    note_16(tally, &late, answer);
    // Tolerances only decide whether there are verdicts.
    note_other_tolerances(tally, &late, |_| {
        String::from(if answer.taken() {
            answer.line
        } else {
            "points"
        })
    });
    let taken = if answer.taken() {
        held(&table)
    } else {
        Table::default()
    };
    let cut = Cut::of(&taken, &own, &catalogue)?;
    let test = Test {
        passes: verdicts(answer, &cut)?,
        cut,
    };
    note_verdicts(tally, &test);
    note_margins(tally, &test);
    note_t(tally, &test);
    note_alphas(tally, &test);
    note_placed(tally, &test.placed(&taken, &own, &catalogue));
    for (what, rule) in OF_POINTS {
        let other = passing_by(&test.cut, &rule) != test.passes;
        tally.note(&format!("another answer by {what}"), other);
    }
    Some(())
}

/// Each number with nothing else wrong, and pairs that make the order show.
fn note_refusals(
    tally: &mut Tally,
    table: &Table,
    own: &[u32],
    catalogue: &[u32],
    answer: &Answer,
) {
    let mut faults = table_faults(table, Some((own, catalogue)));
    faults.add(16, held(table).tasks().iter().any(too_short));
    faults.note_meetings(tally, 13, answer);
    note_below_zero(tally, table, answer);
    let alone = |number: u8| answer.refused(number) && faults.0 == [number];
    for number in [9, 10, 11, 14, 15, 16] {
        // What makes 16 of the tasks together isn't among the faults.
        let came = alone(number) || number == 16 && answer.refused(16) && faults.0.is_empty();
        tally.note(&format!("{number} and no other"), came);
    }
    let by_n = task_count_wrong(table.n);
    let by_m = region_count_wrong(own.len());
    tally.note("5 by n", answer.refused(5) && by_n && !by_m);
    tally.note("5 by the own words", answer.refused(5) && by_m && !by_n);
    tally.note("5 by n and no other", alone(5) && by_n && !by_m);
    tally.note("5 by the own words and no other", alone(5) && by_m && !by_n);
    for number in [9, 10, 11, 14, 15, 16] {
        let met = answer.refused(5) && by_m && !by_n && faults.has(number);
        tally.note_often(SELDOM, &format!("5 by the own words before {number}"), met);
    }
}

/// The tasks that were given verdicts, and which of them pass; no task where the call was turned away.
struct Test {
    cut: Cut,
    passes: Vec<bool>,
}

/// A verdict for each task. `None` where the line isn't of so many, or the lowest task doesn't pass:
/// no region can hold it up.
fn verdicts(answer: &Answer, cut: &Cut) -> Option<Vec<bool>> {
    if !answer.taken() {
        return Some(Vec::new());
    }
    let verdict = |word: &str| match word {
        "passes" => Some(true),
        "unshown" => Some(false),
        _ => None,
    };
    let passes: Vec<bool> = answer.words().map(verdict).collect::<Option<_>>()?;
    let each = passes.len() == cut.tasks.n;
    let lowest = |i: usize| cut.tasks.priority[i] == cut.tasks.n as u32;
    let all = each && (0..passes.len()).all(|i| passes[i] || !lowest(i));
    all.then_some(passes)
}

impl Test {
    fn n(&self) -> usize {
        self.cut.tasks.n
    }

    /// The tasks that something holds up.
    fn held_up(&self) -> impl Iterator<Item = usize> + '_ {
        (0..self.n()).filter(|i| self.cut.alpha(*i) > 0)
    }

    /// Whether one of them is such.
    fn any(&self, what: impl Fn(usize) -> bool) -> bool {
        self.held_up().any(what)
    }

    fn is_late(&self, i: usize) -> bool {
        self.cut.tasks.jitter[i] > 0
    }

    /// Where the last regions of those tasks stand.
    fn placed(&self, table: &Table, own: &[u32], catalogue: &[u32]) -> Vec<Placed> {
        let placed = |i: usize| {
            let record = &table.records[i];
            let end = record.first as usize + record.count as usize;
            Placed {
                source: record.source,
                count: record.count as usize,
                at_the_end: end == list_of(record, own, catalogue).len(),
            }
        };
        self.held_up().map(placed).collect()
    }
}

/// So many t don't fit in two bytes.
const FAR: i64 = 65_535;

/// One answer in so many has each of the verdicts.
const VERDICTS: (u64, u64) = (1, 5);

fn note_verdicts(tally: &mut Tally, test: &Test) {
    let passes = |i: usize| test.passes[i];
    let unshown = test.any(|i| !passes(i));
    let passed = test.any(passes);
    let every = test.n() > 0 && !unshown;
    tally.note_share_of_taken(VERDICTS, "unshown", unshown);
    tally.note_share_of_taken(VERDICTS, "a task that isn't the lowest passes", passed);
    tally.note_share_of_taken(VERDICTS, "every task passes", every);
    tally.note_often(AIMED_AT, "every task of several passes", every && passed);
    tally.note("passes beside unshown, above the lowest", passed && unshown);
    let none = test.n() > 1 && !passed;
    tally.note("no task but the lowest passes", none);
    for (what, i) in [("1", 0), ("n", test.n().max(1) - 1)] {
        let up = |i: usize| test.held_up().any(|other| other == i);
        let place = format!("in record {what}");
        tally.note(&format!("unshown {place}"), up(i) && !passes(i));
        tally.note(&format!("passes {place}"), up(i) && passes(i));
    }
    let highest = |i: usize| test.cut.tasks.priority[i] == 1;
    tally.note("the highest passes", test.any(|i| highest(i) && passes(i)));
    let not = test.any(|i| highest(i) && !passes(i));
    tally.note("the highest is unshown", not);
    let far = |i: usize| test.cut.last_t(i) > FAR;
    let far_passes = test.any(|i| far(i) && passes(i));
    tally.note(&format!("passes by one of more than {FAR} t"), far_passes);
    let not = test.any(|i| far(i) && !passes(i));
    tally.note(&format!("unshown by more than {FAR} t"), not);
    for (what, sizes) in [("2 to 5", 2..=5), ("6 to 8", 6..=8), ("9 to 15", 9..=15)] {
        let of = sizes.contains(&test.n());
        tally.note(&format!("unshown at n {what}"), of && unshown);
        tally.note(&format!("every task passes at n {what}"), of && every);
    }
}

/// By how much tasks pass, or don't.
fn note_margins(tally: &mut Tally, test: &Test) {
    let margins: Vec<(usize, Option<i64>)> =
        test.held_up().map(|i| (i, test.cut.margin(i))).collect();
    let any = |what: &dyn Fn(usize, i64) -> bool| {
        let mut margins = margins.iter();
        margins.any(|(i, margin)| margin.is_some_and(|margin| what(*i, margin)))
    };
    let just = |i: usize, margin: i64| margin == 0 && test.passes[i];
    let missed = |i: usize, margin: i64| margin == -1 && !test.passes[i];
    tally.note_often(AIMED_AT, "passes by a tick", any(&just));
    tally.note_often(AIMED_AT, "unshown by a tick", any(&missed));
    tally.note("passes by two ticks", any(&|_, margin| margin == 1));
    tally.note("unshown by two ticks", any(&|_, margin| margin == -2));
    tally.note("passes by more", any(&|_, margin| margin > 1));
    tally.note("unshown by more", any(&|_, margin| margin < -2));
    let late = |i: usize| test.is_late(i);
    let late_above = |i: usize| test.cut.higher(i).into_iter().any(late);
    for (what, at) in [
        ("a late task", &late as &dyn Fn(usize) -> bool),
        ("a task below a late one", &late_above),
        ("the highest task", &|i| test.cut.higher(i).is_empty()),
        ("a task of several regions", &|i| {
            test.cut.regions[i].len() > 2
        }),
        ("a task of one region", &|i| test.cut.regions[i].len() == 1),
        ("one of nine or more", &|_| test.n() >= 9),
    ] {
        let passes = any(&|i, margin| just(i, margin) && at(i));
        tally.note(&format!("{what} passes by a tick"), passes);
        let not = any(&|i, margin| missed(i, margin) && at(i));
        tally.note(&format!("{what} is unshown by a tick"), not);
    }
}

/// Which t there are, and by which of them a task passes.
fn note_t(tally: &mut Tally, test: &Test) {
    let cut = &test.cut;
    let alone = test.n() == 1 && cut.last_t(0) == 0;
    tally.note("alpha 0", test.n() > 0);
    tally.note("alpha 0 of a single task", test.n() == 1);
    tally.note("alpha 0, and no t", alone);
    tally.note("no t", test.any(|i| cut.last_t(i) == 0));
    let no_t = |i: usize| cut.last_t(i) == 0 && test.is_late(i);
    tally.note("no t of a late task", test.any(no_t));
    let one = |i: usize| cut.last_t(i) == 1;
    tally.note(
        "passes by a single t",
        test.any(|i| one(i) && test.passes[i]),
    );
    let not = test.any(|i| one(i) && !test.passes[i]);
    tally.note("unshown by a single t", not);
    // Whether the t up to this one let it pass.
    let by = |i: usize, last: i64| {
        let left = most_left(&cut.tasks, &cut.higher(i), last);
        left.is_some_and(|left| left >= cut.wanted(i))
    };
    let first = |i: usize| end_of_stretch(&cut.tasks, &cut.higher(i), 1).min(cut.last_t(i));
    let later = test.any(|i| test.passes[i] && !by(i, first(i)));
    tally.note("passes by a t behind the first stretch alone", later);
    let last = |i: usize| test.passes[i] && !by(i, cut.last_t(i) - 1);
    tally.note("passes by the last t alone", test.any(last));
    let behind = |i: usize| !test.passes[i] && by(i, cut.last_t(i) + 1);
    tally.note("passes by the t behind the last alone", test.any(behind));
}

/// Where the longest region of the lower tasks stands.
fn note_alphas(tally: &mut Tally, test: &Test) {
    let cut = &test.cut;
    let any = |what: &dyn Fn(usize, usize) -> bool| {
        test.any(|i| {
            let alpha = cut.alpha(i);
            let mut lower = cut.lower(i).into_iter();
            lower.any(|j| cut.longest(j) == alpha && what(i, j))
        })
    };
    // Where it stands twice in a task it is the first of these.
    let place = |j: usize| {
        let longest = cut.longest(j);
        let place = cut.regions[j].iter().position(|word| *word == longest);
        (place.unwrap_or(0), cut.regions[j].len())
    };
    tally.note(
        "alpha by the one region of a task",
        any(&|_, j| cut.regions[j].len() == 1),
    );
    let places: [(&str, fn(usize, usize) -> bool); 3] = [
        ("the first", |place, _| place == 0),
        ("a middle one", |place, count| {
            0 < place && place + 1 < count
        }),
        ("the last", |place, count| place + 1 == count),
    ];
    for (what, is) in places {
        let of_several = any(&|_, j| {
            let (place, count) = place(j);
            count > 2 && is(place, count)
        });
        tally.note(&format!("alpha by {what} of several regions"), of_several);
    }
    let priority = |i: usize| cut.tasks.priority[i] as usize;
    let next = |i: usize, j: usize| priority(j) == priority(i) + 1;
    let lowest = |j: usize| priority(j) == test.n();
    tally.note(
        "alpha by the next lower task",
        any(&|i, j| next(i, j) && !lowest(j)),
    );
    tally.note(
        "alpha by the lowest task",
        any(&|i, j| !next(i, j) && lowest(j)),
    );
    let between = any(&|i, j| !next(i, j) && !lowest(j));
    tally.note("alpha by a task between", between);
    for ticks in [1, 2] {
        let came = test.any(|i| cut.alpha(i) == ticks);
        tally.note(&format!("alpha {ticks}"), came);
    }
    let longer = |i: usize| {
        let mut higher = cut.higher(i).into_iter();
        higher.any(|j| cut.longest(j) > cut.alpha(i))
    };
    tally.note("a higher task's region is longer", test.any(longer));
    let own = test.any(|i| cut.longest(i) > cut.alpha(i));
    tally.note("the task's own region is longer", own);
}
