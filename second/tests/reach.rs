//! The made streams, and the count of what they reach.

use super::*;
use crate::draw::{any_row, cabinet, draw_jitters, ease_jitters};
use crate::draw::{is_late, last_row, step_back};
use crate::listing::Walk;
use crate::random::Random;
use crate::{ask, file, generate, listing, reach, Stop};

/// Few enough requests for a test, and enough for the count to assert.
const COUNT: u64 = 20_000;

/// The requests of a made stream.
fn requests(seed: u64, count: u64) -> Vec<Vec<u8>> {
    let mut list = Vec::new();
    generate::stream(seed, count, &mut |request| list.push(request.to_vec()));
    list
}

fn answers(stream: &[u8]) -> Vec<u8> {
    let mut output = Vec::new();
    ask::run(stream, &mut output).expect("answers");
    output
}

/// What the count finds missing, or nothing.
fn missing(stream: &[u8], answers: &[u8]) -> Option<String> {
    match reach::run(stream, answers, &mut Vec::new()) {
        Ok(()) => None,
        Err(Stop::Short(message)) => Some(message),
        Err(Stop::Wrong(message)) => panic!("{message}"),
        Err(Stop::Broken(error)) => panic!("{error}"),
    }
}

/// The stream without the requests of this kind whose answers begin like this.
fn without(requests: &[Vec<u8>], kind: u8, begin: &str) -> Vec<u8> {
    let kept = requests
        .iter()
        .filter(|request| request[0] != kind || !answers(request).starts_with(begin.as_bytes()));
    kept.flatten().copied().collect()
}

#[test]
fn a_missing_outcome_is_named() {
    let requests = requests(5, COUNT + 2_000);
    let whole = requests.concat();
    assert_eq!(missing(&whole, &answers(&whole)), None);
    for (kind, begin, line) in [
        (1, "refused 8", "read, refused 8: came 0 times, wanted 1"),
        (2, "refused 18", "write, refused 18: came 0 times, wanted 1"),
        (
            2,
            "refused 19",
            "write, 19 before 12: came 0 times, wanted 1",
        ),
        (
            4,
            "refused 16",
            "tolerances, 16, one below zero before no t: came 0 times, wanted 1",
        ),
        (
            9,
            "refused 18",
            "record, 18 before 7: came 0 times, wanted 1",
        ),
        (6, "unfit", "region check, unfit: came 0 times, wanted 1"),
        (8, "row", "next row, row: came 0 times, wanted 1"),
        (
            10,
            "refused 13",
            "regions, refused 13: came 0 times, wanted 1",
        ),
        (
            12,
            "refused 13",
            "last region, refused 13: came 0 times, wanted 1",
        ),
        (
            12,
            "last",
            "last region, another word by the first region: came 0 times, wanted 1",
        ),
        (
            13,
            "refused 11",
            "fixed preemption points, 11 before 14: came 0 times, wanted 1",
        ),
        (
            13,
            "points",
            "fixed preemption points, another answer by alpha less one: came 0 times, wanted 1",
        ),
        (
            14,
            "refused 2 ",
            "write an edition, another answer by four bits of the edition: came 0 times, wanted 1",
        ),
        (
            14,
            "refused 19",
            "write an edition, edition 1 refused 19: came 0 times, wanted 1",
        ),
    ] {
        let stream = without(&requests, kind, begin);
        let said = missing(&stream, &answers(&stream)).expect("a missing outcome");
        assert!(said.lines().any(|said| said == line), "{said}");
    }
    let stream = without(&requests, 11, "");
    let said = missing(&stream, &answers(&stream)).expect("a missing call");
    assert!(said.contains("name: no request"), "{said}");
}

#[test]
fn an_answer_of_another_call_fails() {
    let stream = requests(5, 1).concat();
    let count = answers(&stream)
        .iter()
        .filter(|byte| **byte == b'\n')
        .count();
    for line in ["refused 14\n", "refused\n", "tolerances 1\n", "\n"] {
        let said = missing(&stream, line.repeat(count).as_bytes()).expect("a failure");
        assert!(said.contains("can't answer"), "{said}");
    }
}

/// No task is left without a single tick: a length of 0 is no answer.
#[test]
fn a_length_of_0_fails() {
    let table = assigned(&[(2, 5, 2), (4, 10, 10)], &[1, 2], &[1, 2]);
    let mut body = Vec::new();
    generate::put_table(&mut body, &table);
    let stream = [&[5][..], &(body.len() as u16).to_be_bytes(), &body].concat();
    assert_eq!(answers(&stream), b"lengths 2 1\n");
    assert_eq!(missing(&stream, b"lengths 2 1\n"), None);
    let said = missing(&stream, b"lengths 2 0\n").expect("a failure");
    assert_eq!(said, "request 1: lengths can't answer `lengths 2 0`");
}

/// A job stands beside each time and beside nothing else.
#[test]
fn times_without_their_jobs_fail() {
    let tasks = [(3, 6, 6), (2, 4, 6), (1, 100, 100)];
    let table = assigned(&tasks, &[1, 2, 3], &[1, 2, 3]);
    let mut body = Vec::new();
    generate::put_table(&mut body, &table);
    let stream = [&[3][..], &(body.len() as u16).to_be_bytes(), &body].concat();
    let right = "times 3 6 beyond jobs 0 1 -";
    assert_eq!(answers(&stream), format!("{right}\n").as_bytes());
    assert_eq!(missing(&stream, right.as_bytes()), None);
    for wrong in [
        "times 3 6 beyond",
        "times 3 6 beyond jobs",
        "times 3 6 beyond jobs 0 1",
        "times 3 6 beyond jobs 0 1 0",
        "times 3 6 beyond jobs 0 - -",
        "times 3 6 beyond jobs 0 1 - -",
        "times 3 6 beyond jobs 0 -1 -",
        "times 3 6 jobs 0 1",
    ] {
        let said = missing(&stream, wrong.as_bytes()).expect("a failure");
        let line = format!("request 1: response times can't answer `{wrong}`");
        assert_eq!(said, line);
    }
}

/// Of a stream that has ten answers with a worst job above 0 it is said that they are too few.
#[test]
fn too_few_later_jobs_are_named() {
    let later = |request: &Vec<u8>| {
        let line = String::from_utf8(answers(request)).expect("text");
        let jobs = line.trim_end().split(" jobs ").nth(1).unwrap_or("-");
        jobs.split(' ').any(|job| job != "-" && job != "0")
    };
    let requests = requests(5, COUNT + 2_000);
    let (with, mut stream): (Vec<_>, Vec<_>) = requests
        .into_iter()
        .partition(|request| request[0] == 3 && later(request));
    stream.extend(with[..10].iter().cloned());
    let whole = stream.concat();
    let said = missing(&whole, &answers(&whole)).expect("too few");
    let line = "response times, a worst job above 0: came 10 times in ";
    assert!(said.lines().any(|said| said.starts_with(line)), "{said}");
}

/// The verdicts on a request of fixed preemption points, but for the lowest task's; nothing where it is
/// turned away, or is another request.
fn verdicts_above(request: &[u8]) -> Option<Vec<bool>> {
    if request[0] != 13 {
        return None;
    }
    let line = String::from_utf8(answers(request)).expect("text");
    let said = line.trim_end().strip_prefix("points ")?;
    let table = ask::Body(&request[3..]).table().expect("a table");
    let tasks = said.split(' ').zip(table.tasks());
    let above = tasks.filter(|(_, task)| task.priority < table.n as u32);
    Some(above.map(|(said, _)| said == "passes").collect())
}

/// Of a stream that has ten answers with a task that is not shown, or ten in which one above the lowest
/// passes, or ten in which all do, it is said that they are too few.
#[test]
fn too_few_verdicts_are_named() {
    let requests = requests(5, COUNT + 4_000);
    let cases: [(&str, fn(&[bool]) -> bool); 3] = [
        ("unshown", |passes| passes.contains(&false)),
        ("a task that isn't the lowest passes", |passes| {
            passes.contains(&true)
        }),
        ("every task passes", |passes| !passes.contains(&false)),
    ];
    for (what, has) in cases {
        let has = |request: &Vec<u8>| verdicts_above(request).is_some_and(|passes| has(&passes));
        let (with, mut stream): (Vec<_>, Vec<_>) = requests.iter().cloned().partition(has);
        stream.extend(with[..10].iter().cloned());
        let whole = stream.concat();
        let said = missing(&whole, &answers(&whole)).expect("too few");
        let begin = format!("fixed preemption points, {what}: came 10 times in ");
        let of_taken = |said: &str| {
            said.starts_with(&begin) && said.ends_with(" answers not turned away, wanted 1 in 5")
        };
        assert!(said.lines().any(of_taken), "{said}");
    }
}

/// With none at all it is said that they never came.
#[test]
fn missing_verdicts_are_named() {
    let requests = requests(5, COUNT + 4_000);
    for (word, what) in [
        (false, "unshown"),
        (true, "a task that isn't the lowest passes"),
    ] {
        let has = |request: &&Vec<u8>| {
            let passes = verdicts_above(request);
            passes.is_some_and(|passes| passes.contains(&word))
        };
        let stream: Vec<u8> = requests
            .iter()
            .filter(|request| !has(request))
            .flatten()
            .copied()
            .collect();
        let said = missing(&stream, &answers(&stream)).expect("none");
        let line = format!("fixed preemption points, {what}: came 0 times, wanted 1");
        assert!(said.lines().any(|said| said == line), "{said}");
    }
}

/// A verdict for each task, and nothing can hold the lowest up.
#[test]
fn other_verdicts_fail() {
    let (table, own) = two_jobs();
    let mut body = Vec::new();
    generate::put_table(&mut body, &table);
    generate::put_words(&mut body, &own);
    generate::put_words(&mut body, &[]);
    let stream = stream_of(13, &body);
    let right = "points unshown passes";
    assert_eq!(answers(&stream), format!("{right}\n").as_bytes());
    assert_eq!(missing(&stream, right.as_bytes()), None);
    for wrong in [
        "points",
        "points passes",
        "points passes unshown",
        "points unshown unshown",
        "points unshown passes passes",
        "points fails passes",
        "points unshown  passes",
    ] {
        let said = missing(&stream, wrong.as_bytes()).expect("a failure");
        let line = format!("request 1: fixed preemption points can't answer `{wrong}`");
        assert_eq!(said, line);
    }
}

/// The last region is one word.
#[test]
fn other_last_regions_fail() {
    let (table, own) = two_jobs();
    let mut body = Vec::new();
    generate::put_two(&mut body, 2);
    generate::put_table(&mut body, &table);
    generate::put_words(&mut body, &own);
    generate::put_words(&mut body, &[]);
    let stream = stream_of(12, &body);
    assert_eq!(answers(&stream), b"last 4\n");
    assert_eq!(missing(&stream, b"last 4"), None);
    for wrong in ["last", "last 2 4", "last four", "regions 4"] {
        let said = missing(&stream, wrong.as_bytes()).expect("a failure");
        assert_eq!(
            said,
            format!("request 1: last region can't answer `{wrong}`")
        );
    }
}

fn stream_of(kind: u8, body: &[u8]) -> Vec<u8> {
    [&[kind][..], &(body.len() as u16).to_be_bytes(), body].concat()
}

/// What is read, written again in its edition, is the file: another number, or another edition, fails.
#[test]
fn another_table_than_the_files_fails() {
    let (mut table, own) = two_jobs();
    for (edition, jitter) in [(1, 0), (2, 0), (2, 3)] {
        table.records[1].jitter = jitter;
        let mut file = [0; 45];
        let length = file::write(edition, PLATE, &table, &own, &[], &mut file).expect("a file");
        let mut body = Vec::new();
        generate::put_plate(&mut body, PLATE);
        generate::put_two(&mut body, 2);
        generate::put_words(&mut body, &[]);
        generate::put_bytes(&mut body, &file[..length]);
        let stream = stream_of(1, &body);
        let right = format!(
            "table 2 2 5 5 1 1 0 0 1 0 0 4 10 10 2 2 0 1 1 0 {jitter} edition {edition} out 2 4"
        );
        assert_eq!(answers(&stream), format!("{right}\n").as_bytes());
        assert_eq!(missing(&stream, right.as_bytes()), None);
        for (from, to) in [
            (
                format!("0 {jitter} edition"),
                format!("0 {} edition", jitter + 1),
            ),
            (String::from("1 0 0 4"), String::from("1 0 3 4")),
            (
                format!("edition {edition}"),
                format!("edition {}", 3 - edition),
            ),
            (format!("edition {edition} "), String::new()),
            (format!(" {jitter} edition"), String::from(" edition")),
            (String::from("out 2 4"), String::from("out 2 5")),
        ] {
            let wrong = right.replace(&from, &to);
            assert_ne!(wrong, right);
            let said = missing(&stream, wrong.as_bytes()).expect("a failure");
            assert_eq!(said, format!("request 1: read can't answer `{wrong}`"));
        }
    }
}

/// What is written reads as it was, in the edition that was told.
#[test]
fn another_file_than_the_tables_fails() {
    let (mut table, own) = two_jobs();
    table.records[1].jitter = 3;
    let mut body = vec![2];
    generate::put_plate(&mut body, PLATE);
    generate::put_two(&mut body, 46);
    generate::put_table(&mut body, &table);
    generate::put_words(&mut body, &own);
    generate::put_words(&mut body, &[]);
    let stream = stream_of(14, &body);
    let right = String::from_utf8(answers(&stream)).expect("text");
    assert_eq!(missing(&stream, right.as_bytes()), None);
    table.records[1].jitter = 0;
    let text = |edition, table: &Table| {
        let mut file = [0xA5; 46];
        let length = file::write(edition, PLATE, table, &own, &[], &mut file).expect("a file");
        let bytes: String = file.iter().map(|byte| format!("{byte:02x}")).collect();
        format!("file {length} out {bytes}")
    };
    for wrong in [
        text(1, &table),
        text(2, &table),
        right.replace("file 45", "file 46"),
    ] {
        let said = missing(&stream, wrong.as_bytes()).expect("a failure");
        let wrong = wrong.trim_end();
        let line = format!("request 1: write an edition can't answer `{wrong}`");
        assert_eq!(said, line);
    }
}

/// Of a stream in which few tables of response times have a jitter, or few have none, that is said.
#[test]
fn too_few_jitters_are_named() {
    let late = |request: &Vec<u8>| {
        let table = ask::Body(&request[3..]).table().expect("a table");
        is_late(&table)
    };
    for (wanted, line) in [
        (
            true,
            "response times, a jitter in the table: came 30 times in ",
        ),
        (
            false,
            "response times, no jitter in the table: came 30 times in ",
        ),
    ] {
        let (with, mut stream): (Vec<_>, Vec<_>) = requests(5, COUNT + 4_000)
            .into_iter()
            .partition(|request| request[0] == 3 && late(request) == wanted);
        stream.extend(with[..30].iter().cloned());
        let whole = stream.concat();
        let said = missing(&whole, &answers(&whole)).expect("too few");
        assert!(said.lines().any(|said| said.starts_with(line)), "{said}");
    }
}

/// Jitters are drawn inside their range, and not all are 0 where one can be above it.
#[test]
fn drawn_jitters_are_in_range() {
    let random = &mut Random::new(8);
    for n in 1..=MOST_TASKS as u32 {
        for _ in 0..200 {
            let mut cabinet = cabinet(random, n, false);
            draw_jitters(random, &mut cabinet.table);
            let tasks = cabinet.table.tasks();
            assert!(tasks.iter().all(|task| task.jitter < task.period));
            let can_be = tasks.iter().any(|task| task.period > 1);
            assert_eq!(is_late(&cabinet.table), can_be);
        }
    }
}

/// Jitters that are eased leave no tolerance below zero where that can be had by jitters of more than
/// a tick; a table that none are to blame for stays as it is.
#[test]
fn eased_jitters_are_borne() {
    let late = |jitters: [u32; 2], deadline| {
        let mut table = assigned(&[(2, 10, deadline), (4, 20, 20)], &[1, 2], &[1, 2]);
        for (record, jitter) in table.records.iter_mut().zip(jitters) {
            record.jitter = jitter;
        }
        ease_jitters(&mut table);
        [table.records[0].jitter, table.records[1].jitter]
    };
    assert_eq!(late([8, 3], 10), [8, 3]);
    assert_eq!(late([9, 3], 10), [4, 1]);
    assert_eq!(late([9, 19], 10), [4, 9]);
    assert_eq!(late([9, 19], 1), [9, 19]);
    assert_eq!(late([0, 0], 10), [0, 0]);
}

#[test]
fn an_unanswered_request_fails() {
    let stream = requests(5, 1).concat();
    let said = missing(&stream, &[]).expect("a failure");
    assert_eq!(said, "only 0 requests are answered");
}

/// The first files that a stream cuts are as long as any of the two editions: all their cuts come, and
/// one byte more.
#[test]
fn the_longest_files_are_cut() {
    let mut cuts = requests(5, 1).into_iter().filter(|request| request[0] == 1);
    for longest in [440, 485] {
        for cut in 0..=longest + 1 {
            let request = cuts.next().expect("a cut");
            let mut body = ask::Body(&request[3..]);
            body.plate().expect("a plate");
            body.two().expect("room");
            body.words().expect("a catalogue");
            assert_eq!(body.bytes().expect("a file").len(), cut);
            let read = answers(&request).starts_with(b"table 15 ");
            assert_eq!(read, cut == longest, "{cut}");
        }
    }
}

/// A step back is the row before: the listing of a table that every row passes goes forward.
#[test]
fn steps_back() {
    let table = unassigned(&[(1, 100, 100), (1, 100, 100), (1, 100, 100)]);
    let mut row = last_row(3);
    let mut rows = 1;
    loop {
        let after = row.clone();
        step_back(&mut row);
        if row == after {
            break;
        }
        let mut next = [0; 6];
        assert_eq!(listing::next_row(&table, &row, &mut next), Ok(true));
        assert_eq!(next[..], after[..]);
        rows += 1;
    }
    assert_eq!(rows, 36);
    assert_eq!(row, [1, 2, 3, 1, 1, 1]);
}

/// Of the searches that a stream asks for none is long, whatever the number of tasks.
#[test]
fn searches_are_short() {
    let mut searches = [0; MOST_TASKS + 1];
    for request in requests(6, 4_000) {
        let kind = request[0];
        if kind != 7 && kind != 8 || answers(&request).starts_with(b"refused") {
            continue;
        }
        let mut body = ask::Body(&request[3..]);
        body.two().expect("room");
        let table = body.table().expect("a table");
        let walk = match body.bytes() {
            None => Walk::from_start(&table),
            Some(row) => {
                let row = listing::Row::from_numbers(table.n as usize, row);
                Walk::after(&table, row.expect("a row"))
            }
        };
        assert!(walk.is_near(generate::MOST_ROWS_TRIED), "{table:?}");
        searches[table.n as usize] += 1;
    }
    assert!(searches[1..].iter().all(|count| *count > 0), "{searches:?}");
}

/// The walk comes to a row, or to the end, at just this many rows and at none fewer.
#[test]
fn how_near_a_row_is() {
    for (deadline, rows) in [(6, 1), (5, 1), (4, 2), (1, 4)] {
        let table = unassigned(&[(2, 5, deadline), (4, 10, 10)]);
        for tried in 0..6 {
            assert_eq!(Walk::from_start(&table).is_near(tried), tried >= rows);
        }
    }
}

#[test]
fn drawn_rows_are_well_formed() {
    let random = &mut Random::new(3);
    for n in 1..=MOST_TASKS {
        for _ in 0..100 {
            let row = any_row(random, n);
            assert!(listing::Row::from_numbers(n, &row).is_some());
        }
    }
}
