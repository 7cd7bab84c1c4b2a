//! What a stream of requests reached, call by call. A comparison of two programs speaks only for
//! what was asked of them: this counts, for each call, each refusal number and each answer that it
//! can give, the limits of the documents with one past them, and pairs of faults that make the
//! order of the numbers show. What came too seldom is said by name. It knows no answer better
//! than the two programs: it only reads requests and the answers they agreed on.

use crate::cases::{place_of, CALLS};
use crate::notes;
use crate::Stop;
use std::collections::HashMap;
use std::io::{BufRead, Read, Write};

/// A stream of fewer requests can't reach everything, so nothing is asserted of it but that each
/// answer is one that its call can give.
const SOME: u64 = 20_000;
/// From this many requests on each thing must have come its wanted number of times; before, once,
/// unless it is seldom.
const MANY: u64 = 100_000;
/// How often a thing is wanted of which nothing else is said. One that is wanted less is seldom.
pub const LEAST: u64 = 20;

/// What one call reached.
#[derive(Default)]
pub struct Tally {
    requests: u64,
    turned_away: u64,
    things: HashMap<String, Thing>,
}

#[derive(Default)]
struct Thing {
    came: u64,
    wanted: u64,
    /// Where it is wanted as a share.
    share: Option<Share>,
}

/// So many times in so many requests of the call, those that are turned away among them or not.
#[derive(Clone, Copy)]
struct Share {
    part: u64,
    whole: u64,
    turned_away_too: bool,
}

impl Thing {
    /// How often it must have come in a stream of so many requests, which are some at least.
    fn wanted_of(&self, count: u64) -> u64 {
        if count >= MANY {
            self.wanted
        } else if self.wanted >= LEAST {
            1
        } else {
            0
        }
    }
}

impl Share {
    /// Of how many requests it is a share, and what these are called.
    fn of(&self, tally: &Tally) -> (u64, &'static str) {
        if self.turned_away_too {
            (tally.requests, "answers")
        } else {
            (
                tally.requests - tally.turned_away,
                "answers not turned away",
            )
        }
    }

    fn falls_short(&self, came: u64, tally: &Tally) -> bool {
        came * self.whole < self.of(tally).0 * self.part
    }
}

impl Tally {
    /// Notes that this thing came, or didn't. It is noted either way, at every request, so that
    /// one which never comes is missed.
    pub fn note(&mut self, what: &str, came: bool) {
        self.note_often(LEAST, what, came);
    }

    pub fn note_often(&mut self, wanted: u64, what: &str, came: bool) {
        self.note_thing(wanted, None, what, came);
    }

    /// Notes a thing that is to come so many times in so many requests of the call, those that are
    /// turned away among them.
    pub fn note_share(&mut self, (part, whole): (u64, u64), what: &str, came: bool) {
        let share = Share {
            part,
            whole,
            turned_away_too: true,
        };
        self.note_thing(LEAST, Some(share), what, came);
    }

    /// The same of the requests that are not turned away.
    pub fn note_share_of_taken(&mut self, (part, whole): (u64, u64), what: &str, came: bool) {
        let share = Share {
            part,
            whole,
            turned_away_too: false,
        };
        self.note_thing(LEAST, Some(share), what, came);
    }

    fn note_thing(&mut self, wanted: u64, share: Option<Share>, what: &str, came: bool) {
        if let Some(thing) = self.things.get_mut(what) {
            thing.came += came as u64;
            return;
        }
        let thing = Thing {
            came: came as u64,
            wanted,
            share,
        };
        self.things.insert(what.to_string(), thing);
    }

    /// All things in the order of their names.
    fn sorted(&self) -> Vec<(&String, &Thing)> {
        let mut things: Vec<(&String, &Thing)> = self.things.iter().collect();
        things.sort_by_key(|(what, _)| *what);
        things
    }
}

/// Counts a stream and its answers, prints a table and fails where something came too seldom.
pub fn run(
    mut requests: impl Read,
    answers: impl BufRead,
    output: &mut impl Write,
) -> Result<(), Stop> {
    let mut tallies: [Tally; CALLS.len()] = Default::default();
    let mut count = 0;
    for answer in answers.lines() {
        count += 1;
        let answer = answer?;
        let (kind, place, body) = request(&mut requests)?;
        let tally = &mut tallies[place];
        tally.requests += 1;
        tally.turned_away += answer.starts_with("refused") as u64;
        if notes::of_request(tally, kind, &body, &answer).is_none() {
            let call = CALLS[place].1;
            return short(format!("request {count}: {call} can't answer `{answer}`"));
        }
    }
    if requests.read(&mut [0])? != 0 {
        return short(format!("only {count} requests are answered"));
    }
    print(&tallies, output)?;
    let missing = missing(&tallies, count);
    if missing.is_empty() {
        Ok(())
    } else {
        short(missing.join("\n"))
    }
}

fn short(what: String) -> Result<(), Stop> {
    Err(Stop::Short(what))
}

/// The next request's kind, one of the calls', with the call's place, and its body.
fn request(requests: &mut impl Read) -> Result<(u8, usize, Vec<u8>), Stop> {
    let mut head = [0; 3];
    requests.read_exact(&mut head)?;
    let [kind, high, low] = head;
    let Some(place) = place_of(kind) else {
        return Err(Stop::Short(format!("there is no kind {kind}")));
    };
    let mut body = vec![0; u16::from_be_bytes([high, low]) as usize];
    requests.read_exact(&mut body)?;
    Ok((kind, place, body))
}

/// A line for each call: how many requests, and which thing it reached least often.
fn print(tallies: &[Tally], output: &mut impl Write) -> Result<(), Stop> {
    writeln!(
        output,
        "{:<23} {:>8} {:>11} {:>8} {:>6}  rarest",
        "call", "requests", "turned away", "answered", "things"
    )?;
    for ((_, call, _), tally) in CALLS.iter().zip(tallies) {
        let things = tally.sorted();
        let rarest = things.iter().min_by_key(|(_, thing)| thing.came);
        let rarest = rarest.map_or(String::from("-"), |(what, thing)| {
            format!("{what}: {}", thing.came)
        });
        writeln!(
            output,
            "{:<23} {:>8} {:>11} {:>8} {:>6}  {rarest}",
            call,
            tally.requests,
            tally.turned_away,
            tally.requests - tally.turned_away,
            tally.things.len(),
        )?;
    }
    for line in shares(tallies) {
        writeln!(output, "{line}")?;
    }
    Ok(())
}

/// A line for each thing that is wanted as a share.
fn shares(tallies: &[Tally]) -> Vec<String> {
    let mut lines = Vec::new();
    for ((_, call, _), tally) in CALLS.iter().zip(tallies) {
        for (what, thing) in tally.sorted() {
            if let Some(share) = thing.share {
                let Share { part, whole, .. } = share;
                let (came, (requests, called)) = (thing.came, share.of(tally));
                let hundredths = 100.0 * came as f64 / requests as f64;
                lines.push(format!(
                    "{call}, {what}: {came} of {requests} {called}, {hundredths:.1} in a hundred; wanted {part} in {whole}"
                ));
            }
        }
    }
    lines
}

/// A line for each thing that came too seldom in a stream of so many requests.
fn missing(tallies: &[Tally], count: u64) -> Vec<String> {
    let mut lines = Vec::new();
    if count < SOME {
        return lines;
    }
    for ((_, call, _), tally) in CALLS.iter().zip(tallies) {
        if tally.requests == 0 {
            lines.push(format!("{call}: no request"));
        }
        for (what, thing) in tally.sorted() {
            let wanted = thing.wanted_of(count);
            if thing.came < wanted {
                lines.push(format!(
                    "{call}, {what}: came {} times, wanted {wanted}",
                    thing.came
                ));
                continue;
            }
            let share = thing
                .share
                .filter(|share| share.falls_short(thing.came, tally));
            if let Some(share) = share {
                let Share { part, whole, .. } = share;
                let (came, (requests, called)) = (thing.came, share.of(tally));
                lines.push(format!(
                    "{call}, {what}: came {came} times in {requests} {called}, wanted {part} in {whole}"
                ));
            }
        }
    }
    lines
}

#[test]
fn what_is_wanted_of_a_stream() {
    let mut tallies: [Tally; CALLS.len()] = Default::default();
    for tally in &mut tallies {
        tally.requests = 1;
    }
    tallies[0].note("often", false);
    tallies[0].note_often(2, "seldom", false);
    assert!(missing(&tallies, SOME - 1).is_empty());
    let often = ["read, often: came 0 times, wanted 1"];
    assert_eq!(missing(&tallies, SOME), often);
    assert_eq!(missing(&tallies, MANY - 1), often);
    let both = [
        "read, often: came 0 times, wanted 20",
        "read, seldom: came 0 times, wanted 2",
    ];
    assert_eq!(missing(&tallies, MANY), both);
}

/// One in fifty of a call's answers: at 20 of 1,000 it is kept, at 20 of 1,001 it isn't.
#[test]
fn a_share_of_a_call() {
    let mut tallies: [Tally; CALLS.len()] = Default::default();
    for tally in &mut tallies {
        tally.requests = 1_000;
    }
    for _ in 0..20 {
        tallies[2].note_share((1, 50), "shared", true);
    }
    tallies[2].note_share((1, 50), "shared", false);
    assert!(missing(&tallies, MANY).is_empty());
    let said = "response times, shared: 20 of 1000 answers, 2.0 in a hundred; wanted 1 in 50";
    assert_eq!(shares(&tallies), [said]);
    tallies[2].requests += 1;
    assert!(missing(&tallies, SOME - 1).is_empty());
    let short = ["response times, shared: came 20 times in 1001 answers, wanted 1 in 50"];
    assert_eq!(missing(&tallies, SOME), short);
    assert_eq!(missing(&tallies, MANY), short);
}

/// One in five of those that are not turned away: at 20 of 100 it is kept, at 20 of 101 it isn't.
#[test]
fn a_share_of_the_taken() {
    let mut tallies: [Tally; CALLS.len()] = Default::default();
    for tally in &mut tallies {
        (tally.requests, tally.turned_away) = (1_000, 900);
    }
    for _ in 0..20 {
        tallies[2].note_share_of_taken((1, 5), "shared", true);
    }
    assert!(missing(&tallies, MANY).is_empty());
    let said =
        "response times, shared: 20 of 100 answers not turned away, 20.0 in a hundred; wanted 1 in 5";
    assert_eq!(shares(&tallies), [said]);
    tallies[2].turned_away -= 1;
    let short =
        ["response times, shared: came 20 times in 101 answers not turned away, wanted 1 in 5"];
    assert_eq!(missing(&tallies, SOME), short);
}
