//! The seal of the same bytes in four ways: the core's, from a table; the core's as it was before,
//! bit by bit (crates/bench); plain Rust from a table; and the second program's, bit by bit.
//! `bash tools/bench` builds and runs it.
//!
//!     bench-seal                      how long each takes, as a table
//!     bench-seal FORM BYTES TIMES     so many seals of so many bytes, for whoever counts instructions

mod measure;
#[path = "../second/random.rs"]
mod random;
#[path = "../second/seal.rs"]
mod second;

use measure::{measure, say};
use random::Random;
use std::hint::black_box;

extern "C" {
    fn bench_seal(s: *const u8, s_len: usize) -> u16;
    fn bench_seal_bits(s: *const u8, s_len: usize) -> u16;
}

/// How many bytes, and how many seals of them in a run: those before the seal of the longest file, and 64 KiB.
const LENGTHS: [(usize, u32); 2] = [(483, 20_000), (65_536, 200)];

type Seal = fn(&[u8]) -> u16;

const FORMS: [(&str, Seal); 4] = [
    ("core-table", core_table),
    ("core-bits", core_bits),
    ("plain-table", plain_table),
    ("second", second::seal),
];

fn core_table(s: &[u8]) -> u16 {
    unsafe { bench_seal(s.as_ptr(), s.len()) }
}

fn core_bits(s: &[u8]) -> u16 {
    unsafe { bench_seal_bits(s.as_ptr(), s.len()) }
}

/// What eight moves make of each byte in the register's upper half: made from its bits when this is compiled.
const TABLE: [u16; 256] = {
    let mut table = [0; 256];
    let mut at = 0;
    while at < 256 {
        let mut rest = (at as u16) << 8;
        let mut place = 0;
        while place < 8 {
            let out = rest >> 15;
            rest = rest << 1 ^ out * 0x1021;
            place += 1;
        }
        table[at] = rest;
        at += 1;
    }
    table
};

#[inline(never)]
fn plain_table(s: &[u8]) -> u16 {
    s.iter().fold(0xFFFF, |rest, byte| {
        rest << 8 ^ TABLE[usize::from((rest >> 8) as u8 ^ byte)]
    })
}

fn main() {
    let words: Vec<String> = std::env::args().skip(1).collect();
    let words: Vec<&str> = words.iter().map(String::as_str).collect();
    match words[..] {
        [] => compare(),
        [form, bytes, times] => {
            let (Some(seal), Ok(bytes), Ok(times)) = (form_of(form), bytes.parse(), times.parse())
            else {
                return usage();
            };
            repeat(seal, bytes, times);
        }
        _ => usage(),
    }
}

fn usage() {
    let forms = FORMS.map(|(name, _)| name).join(", ");
    eprintln!(
        "bench-seal: give nothing, or a form ({forms}), a number of bytes and a number of times"
    );
    std::process::exit(2);
}

fn form_of(name: &str) -> Option<Seal> {
    let found = FORMS.iter().find(|form| form.0 == name);
    found.map(|form| form.1)
}

fn repeat(seal: Seal, bytes: usize, times: u32) {
    let bytes = made(bytes);
    assert_eq!(seal(&bytes), second::seal(&bytes));
    for _ in 0..times {
        black_box(seal(black_box(&bytes)));
    }
}

/// Random bytes, so that no branch can be foretold.
fn made(length: usize) -> Vec<u8> {
    let mut random = Random::new(1);
    (0..length).map(|_| random.from(0, 255) as u8).collect()
}

fn compare() {
    println!("| work | core, from a table | the other | ratio |\n|---|---|---|---|");
    for (length, times) in LENGTHS {
        let bytes = made(length);
        let took = FORMS.map(|(_, seal)| measure(times, || seal(black_box(&bytes)).into()));
        assert!(
            took.iter().all(|one| one.1 == took[0].1),
            "not all four come to the same"
        );
        for (other, form) in took.iter().zip(FORMS).skip(1) {
            say(
                &format!("seal of {length} bytes beside {}", form.0),
                took[0],
                *other,
            );
        }
    }
}
