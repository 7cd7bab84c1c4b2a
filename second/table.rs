//! The table of one cabinet, and the ranges of document 01, "Numbers a table may hold", with n up
//! to 15 by document 02, item 6, and a jitter to each task by item 8.

pub const MOST_TASKS: usize = 15;
pub const MOST_REGION_WORDS: usize = 100;
/// The largest cost, period, deadline and region word; the smallest is 1.
pub const MOST_TICKS: u32 = 1_000_000;
pub const MOST_NAME_NUMBER: u32 = 127;
/// The largest first region and the largest region count.
pub const MOST_REGION_PLACE: u32 = 127;
/// Cabinets have 24 bits.
pub const MOST_CABINET: u32 = (1 << 24) - 1;
/// The longest body of a request (docs/ASK.md).
pub const LONGEST_BODY: usize = 4096;

/// The longest body of a request of this kind. All kinds have the one limit; one that is to have
/// another gets it here.
pub fn longest_body(_kind: u8) -> usize {
    LONGEST_BODY
}

/// Where a task's regions stand (document 01, "The file, bit by bit": 0 own, 1 catalogue).
#[derive(Clone, Copy, Debug, Default, PartialEq, Eq)]
pub enum Source {
    #[default]
    Own,
    Catalogue,
}

impl Source {
    pub fn bit(self) -> u32 {
        match self {
            Source::Own => 0,
            Source::Catalogue => 1,
        }
    }

    /// Any number but 0 names the catalogue.
    pub fn from_number(number: u32) -> Source {
        if number == 0 {
            Source::Own
        } else {
            Source::Catalogue
        }
    }
}

/// One record. Every number may hold anything: the checks decide what is taken.
#[derive(Clone, Copy, Debug, Default, PartialEq, Eq)]
pub struct Record {
    pub cost: u32,
    pub period: u32,
    pub deadline: u32,
    pub priority: u32,
    pub threshold: u32,
    pub source: Source,
    pub first: u32,
    pub count: u32,
    pub name: u32,
    /// By how much a job may come late, J (document 02, item 8).
    pub jitter: u32,
}

/// A table of n records. Records past n are not looked at; the reader leaves them zero.
#[derive(Clone, Copy, Debug, Default, PartialEq, Eq)]
pub struct Table {
    pub n: u8,
    pub records: [Record; MOST_TASKS],
}

impl Table {
    /// Records 1 to n. Asked only once n is known to be in its range.
    pub fn tasks(&self) -> &[Record] {
        &self.records[..self.n as usize]
    }
}

/// What stands on the cabinet's plate.
#[derive(Clone, Copy, Debug, PartialEq, Eq)]
pub struct Plate {
    pub cabinet: u32,
    pub line: u16,
}
