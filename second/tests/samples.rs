//! The samples: each is what its description makes, and is what its description says.

use super::brute::{all_lengths, all_tolerances, responses};
use super::jitter;
use super::*;
use crate::analysis::{passes, Tasks};
use crate::checks::Refusal;
use crate::file::read;
use crate::lengths::{lengths, regions_fit, tolerances};
use crate::{make, parts};

struct Sample {
    description: &'static str,
    file: &'static [u8],
    plate: &'static [u8],
}

macro_rules! sample {
    ($name:literal) => {
        Sample {
            description: include_str!(concat!("../../samples/", $name, ".txt")),
            file: include_bytes!(concat!("../../samples/", $name, ".cab")),
            plate: include_bytes!(concat!("../../samples/", $name, ".plate")),
        }
    };
}

const TWO_JOBS: Sample = sample!("two-jobs");
const TWO_JOBS_ASSIGNED: Sample = sample!("two-jobs-assigned");
const DAMAGED: Sample = sample!("damaged");
const PACKER_SIX: Sample = sample!("packer-six");
const LIGHT_SIX: Sample = sample!("light-six");
const TIGHT_SIX: Sample = sample!("tight-six");
const PRESS_EIGHT: Sample = sample!("press-eight");
const PRESS_EIGHT_CATALOGUE: &str = include_str!("../../samples/press-eight.catalogue");
const PACKER_FIFTEEN: Sample = sample!("packer-fifteen");
const PACKER_FIFTEEN_CATALOGUE: &str = include_str!("../../samples/packer-fifteen.catalogue");
const BUS_SIX: Sample = sample!("bus-six");
const BUS_EIGHT: Sample = sample!("bus-eight");
const BUS_EIGHT_CATALOGUE: &str = include_str!("../../samples/bus-eight.catalogue");
const CABINET_NAMES: &[u8] = include_bytes!("../../samples/cabinet.names");
const HOUSE_NAMES: &[u8] = include_bytes!("../../samples/house.names");

fn listed(sample: &Sample) -> String {
    let mut output = Vec::new();
    crate::list::run([sample.plate, sample.file].concat().as_slice(), &mut output).expect("a list");
    String::from_utf8(output).expect("text")
}

fn plate_of(sample: &Sample) -> Plate {
    let [high, middle, low, line_high, line_low] = sample.plate.try_into().expect("five bytes");
    Plate {
        cabinet: u32::from_be_bytes([0, high, middle, low]),
        line: u16::from_be_bytes([line_high, line_low]),
    }
}

/// The sample's table and own region words. A file has jitters exactly where it is of edition 2.
fn cabinet(sample: &Sample, catalogue: &[u32]) -> Result<(Table, Vec<u32>), Refusal> {
    let mut words = [0; MOST_REGION_WORDS];
    let (edition, table) = read(plate_of(sample), catalogue, sample.file, &mut words)?;
    let late = table.tasks().iter().any(|task| task.jitter > 0);
    assert_eq!(late, edition == Edition::Two);
    Ok((table, words[..sample.file[7] as usize].to_vec()))
}

fn words_of(catalogue: &str) -> Vec<u32> {
    let word = |line: &str| line.parse().expect("a number");
    catalogue.lines().map(word).collect()
}

#[test]
fn made_from_their_descriptions() {
    for sample in [
        TWO_JOBS,
        TWO_JOBS_ASSIGNED,
        DAMAGED,
        PACKER_SIX,
        LIGHT_SIX,
        TIGHT_SIX,
        PRESS_EIGHT,
        PACKER_FIFTEEN,
        BUS_SIX,
        BUS_EIGHT,
    ] {
        assert_eq!(
            make::file(sample.description).ok().as_deref(),
            Some(sample.file)
        );
        assert_eq!(
            make::plate(sample.description)
                .ok()
                .as_ref()
                .map(|p| &p[..]),
            Some(sample.plate)
        );
    }
    for (sample, catalogue) in [
        (PRESS_EIGHT, PRESS_EIGHT_CATALOGUE),
        (PACKER_FIFTEEN, PACKER_FIFTEEN_CATALOGUE),
        (BUS_EIGHT, BUS_EIGHT_CATALOGUE),
    ] {
        let made = make::catalogue(sample.description).ok();
        assert_eq!(made.as_deref(), Some(catalogue));
    }
}

#[test]
fn two_jobs() {
    let text = "tasks 2\n1 2 1 1\n1 2 1 2\n2 1 1 1\n2 1 2 1\nend 4\n";
    assert_eq!(listed(&TWO_JOBS), text);
}

#[test]
fn two_jobs_assigned() {
    let (table, own) = cabinet(&TWO_JOBS_ASSIGNED, &[]).expect("refused");
    assert_eq!(response_times(&table), Ok(of_first_jobs(&[2, 8])));
    assert_eq!(lengths(&table), Ok(vec![2, 4]));
    assert_eq!(regions_fit(&table, &own, &[]), Ok(true));
    let text = "tasks 2\n1 2 1 1\n1 2 1 2\nend 2\n";
    assert_eq!(listed(&TWO_JOBS_ASSIGNED), text);
}

#[test]
fn damaged() {
    assert_eq!(cabinet(&DAMAGED, &[]), Err(Refusal::of(7)));
    assert_eq!(listed(&DAMAGED), "refused 7\n");
}

#[test]
fn packer_six() {
    let (table, own) = cabinet(&PACKER_SIX, &[]).expect("refused");
    let times = of_first_jobs(&[2, 10, 20, 27, 87, 98]);
    assert_eq!(responses(&table), times);
    assert_eq!(response_times(&table), Ok(times));
    assert!(passes(&Tasks::of(&table)));
    let longest = Ok(vec![2, 3, 5, 5, 5, 5]);
    assert_eq!(all_lengths(&table), longest);
    assert_eq!(lengths(&table), longest);
    assert_eq!(regions_fit(&table, &own, &[]), Ok(true));
    let text = listed(&PACKER_SIX);
    assert!(text.contains("\n1 2 3 4 5 6 1 2 3 2 3 5\n") && text.ends_with("\nend 710\n"));
    assert_eq!(text.lines().count(), 712);
}

/// How many rows a sample lists, which is what it says at the end.
fn rows(sample: &Sample) -> usize {
    let text = listed(sample);
    let rows = text.lines().count() - 2;
    assert!(text.ends_with(&format!("\nend {rows}\n")));
    rows
}

const ROWS_OF_SIX: usize = 720 * 720;

#[test]
fn light_six() {
    assert_eq!(rows(&LIGHT_SIX), ROWS_OF_SIX);
}

#[test]
fn tight_six() {
    let rows = rows(&TIGHT_SIX);
    assert!(ROWS_OF_SIX * 3 / 10 < rows && rows < ROWS_OF_SIX * 4 / 10);
}

#[test]
fn press_eight() {
    let catalogue = words_of(PRESS_EIGHT_CATALOGUE);
    let (table, own) = cabinet(&PRESS_EIGHT, &catalogue).expect("refused");
    let times = of_first_jobs(&[2, 6, 14, 79, 34, 19, 112, 113]);
    assert_eq!(responses(&table), times);
    assert_eq!(response_times(&table), Ok(times));
    assert!(passes(&Tasks::of(&table)));
    let longest = Ok(vec![2, 2, 3, 8, 9, 4, 6, 11]);
    assert_eq!(all_lengths(&table), longest);
    assert_eq!(lengths(&table), longest);
    assert_eq!(regions_fit(&table, &own, &catalogue), Ok(true));
    assert_eq!(listed(&PRESS_EIGHT), "refused 11\n");
}

#[test]
fn packer_fifteen() {
    let catalogue = words_of(PACKER_FIFTEEN_CATALOGUE);
    let (table, own) = cabinet(&PACKER_FIFTEEN, &catalogue).expect("refused");
    let times = [1, 2, 5, 8, 13, 16, 30, 36, 40, 69, 75, 95, 196, 266, 280];
    let times = of_first_jobs(&times);
    assert_eq!(responses(&table), times);
    assert_eq!(response_times(&table), Ok(times));
    assert!(passes(&Tasks::of(&table)));
    let ticks = [5, 6, 10, 13, 13, 18, 15, 22, 6, 15, 25, 10, 33, 38, 41];
    assert_eq!(tolerances(&table), Ok(ticks.to_vec()));
    assert_eq!(all_tolerances(&table), ticks);
    let longest = [1, 1, 2, 2, 3, 3, 3, 6, 4, 3, 4, 6, 6, 5, 6];
    assert_eq!(lengths(&table), Ok(longest.to_vec()));
    assert_eq!(all_lengths(&table), Ok(longest.to_vec()));
    assert_eq!(regions_fit(&table, &own, &catalogue), Ok(true));
    assert_eq!(listed(&PACKER_FIFTEEN), "refused 11\n");
}

/// The jitters of the jobs, in the order of the records.
fn jitters(table: &Table) -> Vec<u32> {
    table.tasks().iter().map(|task| task.jitter).collect()
}

#[test]
fn bus_six() {
    let (table, own) = cabinet(&BUS_SIX, &[]).expect("refused");
    assert_eq!(jitters(&table), [4, 0, 6, 10, 0, 0]);
    let times = of_first_jobs(&[6, 9, 25, 33, 64, 65]);
    assert_eq!(jitter::responses(&table), times);
    assert_eq!(response_times(&table), Ok(times));
    assert!(passes(&Tasks::of(&table)));
    // The least of the higher jobs' is 9 from the second on, so each length but the last is its cost.
    let ticks = [9, 13, 19, 15, 27, 49];
    assert_eq!(jitter::all_tolerances(&table), ticks.map(Some));
    assert_eq!(tolerances(&table), Ok(ticks.to_vec()));
    assert_eq!(lengths(&table), Ok(vec![2, 3, 5, 4, 8, 10]));
    assert_eq!(regions_fit(&table, &own, &[]), Ok(true));
    // Those of the event log are as long as they may be.
    let longer = [&own[..7], &[11, 9, 2]].concat();
    assert_eq!(regions_fit(&table, &longer, &[]), Ok(false));
    assert_eq!(rows(&BUS_SIX), 4568);
}

#[test]
fn bus_eight() {
    let catalogue = words_of(BUS_EIGHT_CATALOGUE);
    let (mut table, own) = cabinet(&BUS_EIGHT, &catalogue).expect("refused");
    assert_eq!(jitters(&table), [3, 0, 5, 0, 12, 30, 0, 0]);
    let times = of_first_jobs(&[5, 6, 19, 103, 52, 53, 112, 113]);
    assert_eq!(jitter::responses(&table), times);
    assert_eq!(response_times(&table), Ok(times));
    assert!(!passes(&Tasks::of(&table)));
    let no_t = Refusal {
        number: 16,
        record: Some(6),
    };
    assert_eq!(jitter::all_tolerances(&table)[5], None);
    assert_eq!(tolerances(&table), Err(no_t));
    assert_eq!(lengths(&table), Err(no_t));
    assert_eq!(regions_fit(&table, &own, &catalogue), Err(no_t));
    assert_eq!(listed(&BUS_EIGHT), "refused 11\n");
    for (jitter, in_time) in [(7, true), (8, false)] {
        table.records[5].jitter = jitter;
        assert_eq!(passes(&Tasks::of(&table)), in_time);
    }
    table.records[5].jitter = 7;
    assert_eq!(times_of(&table).expect("refused")[5], Some(30));
}

#[test]
fn names_of_the_jobs() {
    let catalogue = words_of(PRESS_EIGHT_CATALOGUE);
    let (table, _) = cabinet(&PRESS_EIGHT, &catalogue).expect("refused");
    let name = |task: &Record| {
        let part = parts::name(task.name, CABINET_NAMES, HOUSE_NAMES).expect("refused");
        String::from_utf8(part.to_vec()).expect("text")
    };
    let names: Vec<String> = table.tasks().iter().map(name).collect();
    let press = [
        "gate scan",
        "two-hand check",
        "light curtain",
        "output test",
    ];
    assert_eq!(names[..4], press);
    assert_eq!(
        names[4..],
        ["drive talk", "valve watch", "lamp driver", "event log"]
    );
}
