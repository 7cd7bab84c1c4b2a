//! Descriptions: what they make, and what stops them.

use super::*;
use crate::make;
use crate::Stop;

const TWO_JOBS: &str = "\
# two jobs
cabinet 70001
line 12

task cost 2 period 5 deadline 6 priority 1 threshold 1 own 0 1 name 3 # gate scan
task cost 4 period 10 deadline 10 priority 2 threshold 1 catalogue 1 2 name 64
regions 2
catalogue 9 3
catalogue 1
";

fn made(text: &str) -> Option<Vec<u8>> {
    match make::file(text) {
        Ok(file) => Some(file),
        Err(Stop::Wrong(_)) => None,
        Err(Stop::Short(message)) => panic!("{message}"),
        Err(Stop::Broken(error)) => panic!("{error}"),
    }
}

#[test]
fn a_description() {
    let mut table = assigned(&[(2, 5, 6), (4, 10, 10)], &[1, 2], &[1, 1]);
    (table.records[0].count, table.records[0].name) = (1, 3);
    let second = &mut table.records[1];
    (second.source, second.first, second.count, second.name) = (Source::Catalogue, 1, 2, 64);
    assert_eq!(made(TWO_JOBS), Some(file_of(&table, &[2], &[9, 3, 1])));
    assert_eq!(
        make::plate(TWO_JOBS).ok(),
        Some([0x01, 0x11, 0x71, 0x00, 0x0c])
    );
    assert_eq!(
        make::catalogue(TWO_JOBS).ok(),
        Some("9\n3\n1\n".to_string())
    );
}

/// The same description as edition 2, and with jitters; without an edition it is as edition 1.
#[test]
fn editions_and_jitters() {
    let mut table = assigned(&[(2, 5, 6), (4, 10, 10)], &[1, 2], &[1, 1]);
    (table.records[0].count, table.records[0].name) = (1, 3);
    let second = &mut table.records[1];
    (second.source, second.first, second.count, second.name) = (Source::Catalogue, 1, 2, 64);
    let file = |edition, table: &Table| Some(file_in(edition, table, &[2], &[9, 3, 1]));
    let first = file(Edition::One, &table);
    assert_eq!(made(&format!("{TWO_JOBS}edition 1\n")), first);
    let second = file(Edition::Two, &table);
    assert_eq!(made(&format!("edition 2\n{TWO_JOBS}")), second);
    let in_time = TWO_JOBS.replace("name 64", "name 64 jitter 0");
    assert_eq!(made(&in_time), first);
    // Some of the tasks may have one.
    let late = TWO_JOBS.replace("name 64", "name 64 jitter 9");
    table.records[1].jitter = 9;
    let second = file(Edition::Two, &table);
    assert_eq!(made(&format!("{late}edition 2")), second);
    let both = late.replace("name 3", "name 3 jitter 4");
    table.records[0].jitter = 4;
    let second = file(Edition::Two, &table);
    assert_eq!(made(&format!("{both}edition 2")), second);
    // The writer has the last word: 19, 9 and 2.
    assert_eq!(made(&late), None);
    assert_eq!(made(&format!("{late}edition 1")), None);
    let too_late = late.replace("jitter 9", "jitter 10");
    assert_eq!(made(&format!("{too_late}edition 2")), None);
    for edition in ["0", "3", "17", "255", "256", "257", "258", "-1", "two", ""] {
        assert_eq!(made(&format!("{TWO_JOBS}edition {edition}\n")), None);
    }
    // Once, and its words in their order.
    assert_eq!(made(&format!("{TWO_JOBS}edition 2\nedition 2\n")), None);
    for task in [
        "name 64 jitter",
        "name 64 jitter 1 2",
        "name 64 jitter 1 jitter 1",
        "name 64 late 1",
        "jitter 1 name 64",
    ] {
        let text = TWO_JOBS.replace("name 64", task);
        assert_eq!(made(&format!("{text}edition 2\n")), None, "{task}");
    }
}

#[test]
fn damage() {
    let sound = made(TWO_JOBS).expect("a file");
    let mut damaged = made(&format!("{TWO_JOBS}damage 9 0\ndamage 9 7\n")).expect("a file");
    damaged[9] ^= 0x81;
    assert_eq!(damaged, sound);
    assert_eq!(made(&format!("{TWO_JOBS}damage {} 0\n", sound.len())), None);
    assert_eq!(made(&format!("{TWO_JOBS}damage 9 8\n")), None);
}

#[test]
fn wrong_descriptions() {
    for more in [
        "line 12",
        "cabinet 70001",
        "gate scan",
        "regions -1",
        "regions +1",
        "regions one",
        "regions 4294967296",
        "damage 9",
        "task cost 2",
        "task cost 2 period 5 deadline 6 priority 0 threshold 0 own 0 1 name",
        "task cost 2 period 5 deadline 6 priority 0 threshold 0 own 0 1 name 3 4",
        "task cost 2 period 5 deadline 6 priority 1 threshold 1 house 0 1 name 3",
        "task period 5 cost 2 deadline 6 priority 1 threshold 1 own 0 1 name 3",
        // Written as it should be, but the writer turns it away: two tasks of priority 1.
        "task cost 2 period 5 deadline 6 priority 1 threshold 1 own 0 1 name 3",
    ] {
        assert_eq!(made(&format!("{TWO_JOBS}{more}\n")), None, "{more}");
    }
    assert_eq!(made(""), None);
    assert_eq!(made("cabinet 1\nline 65536\n"), None);
    assert_eq!(made(&TWO_JOBS.replace("70001", "16777216")), None);
    assert_eq!(made(&TWO_JOBS.replace("70001", "0")), None);
    assert_eq!(made(&TWO_JOBS.replace("line 12", "line 0")), None);
    let unassigned = "task cost 2 period 5 deadline 6 priority 0 threshold 0 own 0 1 name 3\n";
    let tasks = |n| format!("cabinet 1\nline 1\nregions 2\n{}", unassigned.repeat(n));
    assert!(made(&tasks(0)).is_none());
    assert!(made(&tasks(15)).is_some());
    assert!(made(&tasks(16)).is_none());
}
