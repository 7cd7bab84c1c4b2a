//! The stored requests of document 02, item 2: all that is asked of the regions' call is asked of the
//! last region, and all that is asked of the region check is asked of the fixed preemption points;
//! behind these, what is theirs alone. They stand behind all others. Most tables are those of
//! tests/points.rs. Last, what the program that shows a cabinet is tried on.

use super::*;

pub fn points(stream: &mut Stream) {
    as_kind(12, stream, regions);
    last_regions(stream);
    last_regions_turned_away(stream);
    as_kind(13, stream, region_check);
    around_alpha(stream);
    around_the_last_region(stream);
    around_jitter(stream);
    one_task(stream);
    fifteen_tasks(stream);
    largest_numbers(stream);
    of_either_list(stream);
    two_numbers(stream);
}

impl Stream {
    fn last_region(&mut self, what: &str, k: u32, table: &Table, own: &[u32], lent: &[u32]) {
        let mut body = row_body(k, table);
        put_words(&mut body, own);
        put_words(&mut body, lent);
        self.add(12, what, body);
    }

    fn fixed_points(&mut self, what: &str, table: &Table, own: &[u32], lent: &[u32]) {
        let mut body = table_body(table);
        put_words(&mut body, own);
        put_words(&mut body, lent);
        self.add(13, what, body);
    }

    /// Of tasks by their regions, which stand one behind the other in the own words.
    fn of_tasks(&mut self, what: &str, tasks: &[Divided]) {
        let (table, own) = divided(tasks);
        self.fixed_points(what, &table, &own, &[]);
    }
}

/// The requests that another call is asked, whose bodies are the same, by this kind.
fn as_kind(kind: u8, stream: &mut Stream, asked: fn(&mut Stream)) {
    let mut other = Stream {
        cases: Vec::new(),
        edition: Edition::One,
        told: None,
    };
    asked(&mut other);
    for case in other.cases {
        stream.add(kind, &case.what, case.body);
    }
}

/// A task by its regions, which add up to C, and T, D, J.
type Divided<'a> = (&'a [u32], u32, u32, u32);

/// These tasks in the order of their priorities, each threshold the priority itself.
fn divided(tasks: &[Divided]) -> (Table, Vec<u32>) {
    let timed: Vec<(u32, u32, u32, u32)> = tasks
        .iter()
        .map(|(regions, t, d, j)| (regions.iter().sum(), *t, *d, *j))
        .collect();
    let thresholds: Vec<u32> = (1..=tasks.len() as u32).collect();
    let (mut table, _) = late(&timed, &thresholds);
    let mut own = Vec::new();
    for (record, (regions, ..)) in table.records.iter_mut().zip(tasks) {
        (record.first, record.count) = (own.len() as u32, regions.len() as u32);
        own.extend(*regions);
    }
    (table, own)
}

// ---- the last region

/// Words that are all different, so that another place in the list shows.
fn last_regions(stream: &mut Stream) {
    let nines = [9, 9, 9, 9, 9, 9];
    let (table, own) = divided(&[
        (&[2], 5, 5, 0),
        (&[3, 1], 10, 10, 0),
        (&[4, 5, 6, 7], 90, 90, 0),
    ]);
    for k in 1..=3 {
        let what = format!("the last of record {k}");
        stream.last_region(&what, k, &table, &own, &nines);
        let mut of_catalogue = table;
        for record in &mut of_catalogue.records {
            record.source = Source::Catalogue;
        }
        let what = format!("{what}, in the catalogue");
        stream.last_region(&what, k, &of_catalogue, &nines, &own);
    }
    let counted: Vec<u32> = (1..=254).collect();
    let of = |source, first: u32, count: u32| {
        let (mut one, _) = unassigned(&[(1, 9, 9)]);
        let words = &counted[first as usize..(first + count) as usize];
        let record = &mut one.records[0];
        (record.source, record.first, record.count) = (source, first, count);
        record.cost = words.iter().sum();
        one
    };
    for (what, first, count) in [
        ("the first of 254", 0, 1),
        ("the first two", 0, 2),
        ("127 words of 254", 0, 127),
        ("word 127", 127, 1),
        ("127 words from word 127 on, all different", 127, 127),
    ] {
        let table = of(Source::Catalogue, first, count);
        stream.last_region(what, 1, &table, &[], &counted);
    }
    for (what, first, count) in [
        ("the hundredth own word", 99, 1),
        ("a hundred own words", 0, 100),
        ("99 own words of a hundred", 0, 99),
    ] {
        let table = of(Source::Own, first, count);
        stream.last_region(what, 1, &table, &counted[..100], &counted[100..]);
    }
    for (what, words) in [
        ("the largest word last", &[1, 1_000_000][..]),
        ("the largest word first", &[1_000_000, 1]),
        ("a tick", &[1]),
        ("the largest word alone", &[1_000_000]),
    ] {
        let (table, own) = divided(&[(words, 9, 9, 0)]);
        stream.last_region(what, 1, &table, &own, &[]);
    }
    let (fifteen, words) = fifteen_divided(600, 0);
    for k in [1, 8, 15] {
        let what = format!("record {k} of fifteen, in threes");
        stream.last_region(&what, k, &fifteen, &words, &[]);
    }
    // This call asks nothing of any number but those of the regions.
    let odd = changed(|table| {
        clear(table);
        let record = &mut table.records[1];
        (record.period, record.deadline, record.name) = (0, 0, 128);
    });
    let (_, own) = two_jobs();
    stream.last_region("nothing else is asked", 2, &odd, &own, &[]);
    let bad = [0, 3, 1, 0, 1_000_001];
    let (table, _) = two_jobs();
    stream.last_region("bad words of no or another record", 2, &table, &bad, &bad);
}

/// 5 before 13 and 11, which can't meet each other: what is no record has no regions.
fn last_regions_turned_away(stream: &mut Stream) {
    let (table, own) = two_jobs();
    for n in [0, 16] {
        let wrong = changed(|table| table.n = n);
        stream.last_region("n out of range, record 0", 0, &wrong, &own, &[]);
        stream.last_region("n out of range, record 17", 17, &wrong, &own, &[]);
        stream.last_region("n out of range, bad regions", 1, &wrong, &[0], &[]);
    }
    stream.last_region("101 words, record 0", 0, &table, &[1; 101], &[]);
    stream.last_region("101 words, bad regions", 2, &table, &[0; 101], &[]);
    let room = [&own[..], &[1; 97]].concat();
    stream.last_region("100 words", 2, &table, &room, &[]);
    stream.last_region("record 65,535", 65_535, &table, &own, &[]);
    stream.last_region("record 256 and 2", 258, &table, &own, &[]);
    for (what, words) in [
        ("a last word of 0", [2, 4, 0]),
        ("a first word of 0", [2, 0, 4]),
        ("a last word of 1,000,001", [2, 3, 1_000_001]),
        ("words that add up to less", [2, 2, 1]),
        ("words that add up to more", [2, 3, 2]),
        // They add up to 4 in 32 bits.
        ("words that add up to 4 and 2^32", [2, u32::MAX, 5]),
    ] {
        stream.last_region(what, 2, &table, &words, &[]);
        let of_catalogue = lent(&table, 1, 1);
        let what = format!("{what}, in the catalogue");
        stream.last_region(&what, 2, &of_catalogue, &own, &words);
    }
    let short = lent(&table, 1, 2);
    stream.last_region("a catalogue too short by a word", 2, &short, &own, &own);
}

// ---- fixed preemption points

/// Fifteen tasks of this period, each in regions of 1, 1 and its number, with this jitter. They run for
/// 150 ticks together.
fn fifteen_divided(period: u32, jitter: u32) -> (Table, Vec<u32>) {
    let regions: Vec<[u32; 3]> = (1..=15).map(|k| [1, 1, k]).collect();
    let tasks: Vec<Divided> = regions
        .iter()
        .map(|regions| (&regions[..], period, period, jitter))
        .collect();
    divided(&tasks)
}

/// The longest region below a task, whole, against the t that there are.
fn around_alpha(stream: &mut Stream) {
    let above = |b| [(&[2][..], 5, 5, 0), (b, 10, 10, 0)];
    stream.of_tasks("alpha 3 and t up to 3", &above(&[3, 1]));
    stream.of_tasks("the same, the longest last", &above(&[1, 3]));
    stream.of_tasks("alpha 4 and t up to 3", &above(&[4]));
    stream.of_tasks("the same, the longest first", &above(&[4, 1]));
    stream.of_tasks("the same, the longest in the middle", &above(&[1, 4, 1]));
    for threshold in [1, 2] {
        let (mut table, own) = divided(&above(&[4]));
        table.records[1].threshold = threshold;
        let what = format!("threshold {threshold} plays no part");
        stream.fixed_points(&what, &table, &own, &[]);
    }
    let three = |m: Divided<'static>, l: &'static [u32]| [(&[1][..], 4, 4, 0), m, (l, 20, 20, 0)];
    let m = (&[2][..], 10, 6, 0);
    stream.of_tasks("alpha 3, an arrival at the last t", &three(m, &[3]));
    stream.of_tasks("alpha 4, late if it were less a tick", &three(m, &[4]));
    for (what, deadline) in [("alpha 4, D 7", 7), ("alpha 4, D 8", 8)] {
        stream.of_tasks(what, &three((&[2], 10, deadline, 0), &[4]));
    }
    let tick: &[u32] = &[1];
    let above: [Divided; 3] = [(&[4], 20, 20, 0), (tick, 20, 7, 0), (tick, 20, 20, 0)];
    stream.of_tasks("the longest is above", &above);
    let below = |l| [(tick, 20, 7, 0), (tick, 20, 20, 0), (l, 20, 20, 0)];
    stream.of_tasks("the longest is two below", &below(&[1, 6]));
    stream.of_tasks("the same, a tick longer", &below(&[1, 7]));
    let own: [Divided; 2] = [(&[4], 10, 7, 0), (&[1], 10, 10, 0)];
    stream.of_tasks("the longest is the task's own", &own);
    let (table, own) = assigned(&[B, A], &[(2, 2), (1, 1)]);
    stream.fixed_points("the higher task is the second record", &table, &own, &[]);
}

/// H (2,5,5) above A (4,10,8) in these regions above B in one of 2, and deadlines of A about there.
fn around_the_last_region(stream: &mut Stream) {
    let of = |a, deadline, b| [(&[2][..], 5, 5, 0), (a, 10, deadline, 0), (b, 20, 20, 0)];
    let two: &[u32] = &[2];
    for (what, a) in [
        ("a last region of 3 behind 1", &[1, 3][..]),
        ("a last region of 1 behind 3", &[3, 1]),
        ("a last region of 2 behind 2", &[2, 2]),
        ("a last region of 2 behind 1 and 1", &[1, 1, 2]),
        ("a last region of 1 behind 2 and 1", &[2, 1, 1]),
        ("one region of 4", &[4]),
        ("regions of a tick", &[1, 1, 1, 1]),
    ] {
        for deadline in [8, 9, 10] {
            let what = format!("{what}, D {deadline}");
            stream.of_tasks(&what, &of(a, deadline, two));
        }
    }
    stream.of_tasks("1 and 3 above a region of 3", &of(&[1, 3], 8, &[3]));
    let tasks = of(&[1, 3], 8, two);
    let (table, own) = divided(&tasks);
    stream.check("regions that don't fit, and all pass", &table, &own, &[]);
    stream.fixed_points("the same", &table, &own, &[]);
    let (table, own) = assigned(&[A, B], &[(1, 1), (2, 2)]);
    stream.check("regions that fit, and one is unshown", &table, &own, &[]);
    stream.fixed_points("the same", &table, &own, &[]);
}

/// J in the range and in the sum, and no t at all.
fn around_jitter(stream: &mut Stream) {
    let two = |deadline, jitter, b| [(&[2][..], 5, deadline, jitter), (b, 10, 10, 0)];
    stream.of_tasks("J 1, alpha 3 and t up to 2", &two(5, 1, &[3, 1]));
    stream.of_tasks("J 1, alpha 2 and t up to 2", &two(5, 1, &[2, 2]));
    stream.of_tasks("J 2, alpha 1 and t up to 1", &two(5, 2, &[1, 1, 1, 1]));
    stream.of_tasks("J 3, alpha 1 and no t", &two(5, 3, &[1, 1, 1, 1]));
    stream.of_tasks("D 2, alpha 1 and no t", &two(2, 0, &[1, 1]));
    stream.of_tasks("D 3, alpha 1 and t up to 1", &two(3, 0, &[1, 1]));
    stream.of_tasks("D 4, J 2, alpha 1 and no t", &two(4, 2, &[1, 1]));
    stream.of_tasks("a tolerance of 0 and no t", &two(2, 0, &[4]));
    stream.of_tasks("a jitter below is nothing", &{
        let mut tasks = two(5, 0, &[3, 1]);
        tasks[1].3 = 2;
        tasks
    });
    let three =
        |of_h, m, l: &'static [u32]| -> [Divided; 3] { [(&[1], 4, 4, of_h), m, (l, 20, 20, 0)] };
    stream.of_tasks("J of the sum, alpha 3", &three(2, (&[2], 10, 6, 0), &[3]));
    stream.of_tasks(
        "J of the sum, alpha 2",
        &three(2, (&[2], 10, 6, 0), &[2, 1]),
    );
    stream.of_tasks("J of the range alone", &three(0, (&[2], 10, 8, 2), &[3]));
    stream.of_tasks("the same, a tick later", &three(0, (&[2], 10, 8, 3), &[3]));
    stream.of_tasks("J of both", &three(2, (&[2], 10, 9, 2), &[3]));
    stream.of_tasks("J of both, a tick later", &three(2, (&[2], 10, 9, 3), &[3]));
    stream.of_tasks("J T - 1 above", &three(3, (&[1, 1], 10, 10, 0), &[2, 1]));
}

/// A task alone passes, whatever t there are.
fn one_task(stream: &mut Stream) {
    for (what, task) in [
        ("one task, no t", (&[3][..], 5, 3, 0)),
        ("one task, no t by jitter", (&[3], 5, 5, 2)),
        ("one task, one t", (&[3], 5, 4, 0)),
        ("one task in 2 and 1", (&[2, 1], 5, 3, 0)),
        ("one task of a tick", (&[1], 1, 1, 0)),
        ("one task below zero", (&[3], 5, 2, 0)),
        ("one task below zero by jitter", (&[3], 5, 5, 3)),
    ] {
        stream.of_tasks(what, &[task]);
    }
}

/// Fifteen tasks of 1 and 1, of which the last runs for 98 ticks at a time. It and the one above it have
/// no tick to spare.
const FIFTEEN: [Divided; 15] = {
    let mut tasks: [Divided; 15] = [(&[1, 1], 126, 126, 0); 15];
    tasks[14] = (&[98], 126, 126, 0);
    tasks
};

/// The same, this record a tick short by this deadline.
fn fifteen_short(place: usize, deadline: u32) -> [Divided<'static>; 15] {
    let mut short = FIFTEEN;
    short[place].2 = deadline;
    short
}

fn fifteen_tasks(stream: &mut Stream) {
    let tasks = FIFTEEN;
    stream.of_tasks("fifteen tasks, all just in time", &tasks);
    for (place, deadline) in [(0, 99), (1, 101), (6, 111), (13, 125)] {
        let what = format!("the same, task {} a tick short", place + 1);
        stream.of_tasks(&what, &fifteen_short(place, deadline));
    }
    let (mut reversed, own) = divided(&tasks);
    for (k, record) in reversed.records.iter_mut().enumerate() {
        let priority = 15 - k as u32;
        (record.priority, record.threshold) = (priority, priority.div_ceil(2));
    }
    stream.fixed_points("the same, the last is the highest", &reversed, &own, &[]);
    for (what, period, jitter) in [
        ("fifteen in threes", 600, 0),
        ("fifteen in threes, no tick to spare", 150, 0),
        ("the same, a tick less", 149, 0),
        ("fifteen in threes, jitters of 450", 600, 450),
        ("the same, of 451", 600, 451),
        ("fifteen in threes, the longest periods", 1_000_000, 0),
        ("the same, jitters of 999,850", 1_000_000, 999_850),
        ("the same, of 999,851", 1_000_000, 999_851),
    ] {
        let (table, own) = fifteen_divided(period, jitter);
        stream.fixed_points(what, &table, &own, &[]);
    }
}

/// Costs, periods, deadlines and regions of a million, and jitters of about as much.
fn largest_numbers(stream: &mut Stream) {
    let most = 1_000_000;
    let one = |jitter| [(&[1][..], most, most, jitter)];
    stream.of_tasks("one task of 1,000,000", &[(&[most], most, most, 0)]);
    stream.of_tasks("a tick, the largest jitter", &one(most - 1));
    let whole = [most - 1];
    for (what, deadline) in [
        ("a region of 999,999 below a tick", most),
        ("the same, a tick short", most - 1),
    ] {
        let tasks = [(&[1][..], most, deadline, 0), (&whole, most, most, 0)];
        stream.of_tasks(what, &tasks);
    }
    let half = [most / 2];
    for (what, jitter) in [
        ("a region of 500,000, jitter 499,999", 499_999),
        ("the same, jitter 500,000", 500_000),
        ("the same, jitter 999,999", 999_999),
    ] {
        let tasks = [(&[1][..], most, most, jitter), (&half, most, most, 0)];
        stream.of_tasks(what, &tasks);
    }
    let thirds: [Divided; 3] = [
        (&[333_333], most, most, 0),
        (&[1, 333_332], most, most, 0),
        (&[333_334], most, most, 0),
    ];
    stream.of_tasks("a third each", &thirds);
    let mut short = thirds;
    short[1].2 = most - 1;
    stream.of_tasks("the same, the second a tick short", &short);
    let tick = &[1][..];
    for deadline in [most, 500_001, 500_000] {
        let below = (&[250_000][..], most, most, 0);
        let tasks = [(tick, 2, 2, 0), (tick, most, deadline, 0), below];
        let what = format!("a tick of every two above D {deadline}");
        stream.of_tasks(&what, &tasks);
    }
}

/// Regions of both lists, in which the same place holds something else, and words of nobody.
fn of_either_list(stream: &mut Stream) {
    let (table, own) = divided(&[(&[2], 5, 5, 0), (&[3, 1], 10, 8, 0), (&[2], 20, 20, 0)]);
    let catalogue = [0, 1, 3, 1_000_001, 2];
    stream.fixed_points("3 and 1 of the own words", &table, &own, &catalogue);
    let last = lent(&table, 1, 1);
    let what = "1 and 3 of the catalogue";
    stream.fixed_points(what, &last, &own, &catalogue);
    let both = lent(&last, 2, 4);
    stream.fixed_points("the lowest's there too", &both, &own, &catalogue);
    let all = lent(&both, 0, 4);
    stream.fixed_points("all of the catalogue", &all, &[], &catalogue);
    stream.fixed_points("the same, 100 own words", &all, &[9; 100], &catalogue);
    stream.fixed_points("the same, 101 own words", &all, &[9; 101], &catalogue);
    stream.fixed_points("the same, an own word of 0", &all, &[0], &catalogue);
    stream.fixed_points("a catalogue too short", &all, &[], &catalogue[..4]);
    let long = [&own[..], &[9, 1_000_000]].concat();
    stream.fixed_points("own words of nobody", &table, &long, &[]);
    let mut far = lent(&table, 1, 127);
    (far.records[1].count, far.records[1].cost) = (127, 127);
    (far.records[1].period, far.records[1].deadline) = (400, 400);
    (far.records[2].period, far.records[2].deadline) = (900, 900);
    stream.fixed_points("127 words from word 127 on", &far, &own, &[1; 254]);
    let shared: [Divided; 2] = [(&[2], 5, 5, 0), (&[2], 10, 10, 0)];
    let (mut shared, _) = divided(&shared);
    shared.records[1].first = 0;
    stream.fixed_points("two tasks of one word", &shared, &[2], &[]);
}

/// What is asked, in that order, and something that is wrong by it.
const FAULTS: [(u8, &str, fn(&mut Table)); 7] = [
    (5, "n is 16", |table| table.n = 16),
    (9, "name number 128", |table| table.records[1].name = 128),
    (10, "a threshold of 0", |table| {
        table.records[1].threshold = 0
    }),
    (11, "a sum below the cost", |table| {
        table.records[1].count = 1
    }),
    (14, "unassigned", clear),
    (15, "a deadline above its period", |table| {
        table.records[1].deadline = 11
    }),
    (16, "a tolerance below zero", |table| {
        table.records[0].deadline = 1
    }),
];

/// Each number by itself and before each that is asked later: the order shows.
fn two_numbers(stream: &mut Stream) {
    let (_, own) = two_jobs();
    for (place, (number, what, change)) in FAULTS.iter().enumerate() {
        stream.fixed_points(what, &changed(change), &own, &[]);
        for (later, also, beside) in &FAULTS[place + 1..] {
            // What is unassigned isn't ill formed.
            if (*number, *later) != (10, 14) {
                let both = changed(|table| {
                    beside(table);
                    change(table);
                });
                let what = format!("{what}, and {also}");
                stream.fixed_points(&what, &both, &own, &[]);
            }
        }
    }
    let wrong = changed(|table| table.records[1].name = 128);
    stream.fixed_points("101 words, and name number 128", &wrong, &[1; 101], &[]);
    let both = changed(|table| {
        (table.records[0].deadline, table.records[1].deadline) = (1, 3);
    });
    stream.fixed_points("two tolerances below zero", &both, &own, &[]);
}

// ---- what is shown of a cabinet

/// Files for the program that shows a cabinet, of edition 2 where a task has a jitter.
pub fn show_inputs_of_points() -> Vec<(String, Vec<u8>)> {
    use Edition::{One, Two};
    [
        ("points pass and region too long", One, all_pass_unfit()),
        ("points of fifteen", One, divided(&FIFTEEN)),
        (
            "points of fifteen a tick short",
            One,
            divided(&fifteen_short(13, 125)),
        ),
        ("points of two not shown", One, two_not_shown()),
        ("points not shown beside late", One, not_shown_beside_late()),
        ("points pass and job late", One, all_pass_late()),
        ("points refused", One, would_not_be_shown()),
        ("edition 2 points a tick of jitter", Two, tick_of_jitter()),
    ]
    .map(|(what, edition, (table, own))| {
        let file = file_in(edition, &table, &own, &[]);
        (what.to_string(), plated(PLATE, &file))
    })
    .to_vec()
}

/// The second tolerates nothing, so the third's region may be a tick long and is 2. All pass.
fn all_pass_unfit() -> (Table, Vec<u32>) {
    divided(&[(&[2], 5, 5, 0), (&[1, 3], 10, 8, 0), (&[2], 20, 20, 0)])
}

/// The lowest is the first record, and the region of 4 is its: neither of the others is shown, record 2
/// before record 3, which is the highest. Both are in time, and the region fits.
fn two_not_shown() -> (Table, Vec<u32>) {
    let tasks = [(&[4][..], 20, 20, 0), (&[2], 10, 7, 0), (&[1], 4, 4, 0)];
    let (mut table, own) = divided(&tasks);
    placed(&mut table, &[(3, 3), (2, 2), (1, 1)]);
    (table, own)
}

/// The last, in regions of 2, may be cut by the third alone and so makes the first and the second late
/// by 2 ticks each: 7 + 1 + 2 = 10, and with the third once more 7 + 2 + 2 + 2 = 13. Both pass. The
/// third is in time and isn't shown, as 2 is more than 2 - 1.
fn not_shown_beside_late() -> (Table, Vec<u32>) {
    let tasks = [
        (&[2][..], 20, 8, 0),
        (&[2], 20, 11, 0),
        (&[1], 10, 2, 0),
        (&[2, 2, 2, 2], 40, 40, 0),
    ];
    let (mut table, own) = divided(&tasks);
    placed(&mut table, &[(2, 2), (3, 3), (1, 1), (4, 2)]);
    (table, own)
}

/// The second may not be cut and makes the first late: 3 + 2 ticks. Cut where its regions end it
/// doesn't: 0 + 2 <= 4 - 2. The regions fit.
fn all_pass_late() -> (Table, Vec<u32>) {
    let (mut table, own) = divided(&[(&[2], 5, 4, 0), (&[2, 2], 10, 10, 0)]);
    placed(&mut table, &[(1, 1), (2, 1)]);
    (table, own)
}

/// The first would not be shown, as 4 is more than 5 - 2, but the third's tolerance is below zero.
fn would_not_be_shown() -> (Table, Vec<u32>) {
    divided(&[(&[2], 5, 5, 0), (&[4], 10, 10, 0), (&[1], 20, 1, 0)])
}

/// The second in 1 and 1: t is up to 5, where 1 + ceil((5 + 4)/8)·1 + 3 is 6; with a jitter of 3 above it
/// would be 5. The first is shown, 0 + 3 <= 8 - 4 - 1, and the region of 3 fits.
fn tick_of_jitter() -> (Table, Vec<u32>) {
    divided(&[(&[1], 8, 8, 4), (&[1, 1], 20, 6, 0), (&[3], 30, 30, 0)])
}

fn placed(table: &mut Table, places: &[(u32, u32)]) {
    for (record, place) in table.records.iter_mut().zip(places) {
        (record.priority, record.threshold) = *place;
    }
}
