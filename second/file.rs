//! Reading and writing the file (document 01, "The file, bit by bit") in both of its editions
//! (document 02, item 9). No blank plate and no blank file is taken (item 1).

use crate::bits::{Putter, Taker};
use crate::checks::*;
use crate::seal::seal;
use crate::table::*;

pub const HEAD_BYTES: usize = 8;
const SEAL_BYTES: usize = 2;
/// A file under this length is refused with 1, whatever its edition; the shortest legal one of
/// edition 2 has 25 bytes.
pub const SHORTEST: usize = 22;

/// The editions of the file. They differ in the tail of a record alone: edition 1 has no place for
/// the jitter there.
#[derive(Clone, Copy, Debug, PartialEq, Eq)]
pub enum Edition {
    One,
    Two,
}

impl Edition {
    pub const BOTH: [Edition; 2] = [Edition::One, Edition::Two];

    pub const fn number(self) -> u8 {
        match self {
            Edition::One => 1,
            Edition::Two => 2,
        }
    }

    /// The edition of this number, of the head or of the writer's caller; anything but 1 and 2 is
    /// refusal 2.
    pub fn from_number(number: u8) -> Result<Edition, Refusal> {
        let named = |edition: &Edition| edition.number() == number;
        let edition = Edition::BOTH.into_iter().find(named);
        edition.ok_or(Refusal::of(2))
    }

    /// How many bits a record has for the jitter.
    const fn jitter_bits(self) -> usize {
        match self {
            Edition::One => 0,
            Edition::Two => 20,
        }
    }

    /// How many spare bits end a record.
    pub const fn spare_bits(self) -> usize {
        match self {
            Edition::One => 6,
            Edition::Two => 10,
        }
    }

    /// 12 or 15.
    pub const fn record_bytes(self) -> usize {
        (USED_BITS + self.jitter_bits() + self.spare_bits()) / 8
    }
}

/// The bits of a record that both editions have, before its tail.
pub const USED_BITS: usize = 90;

/// 8 + 12n + (20m/8 rounded up) + 2, with 15n in edition 2.
pub fn length(edition: Edition, n: usize, m: usize) -> usize {
    HEAD_BYTES + edition.record_bytes() * n + (20 * m).div_ceil(8) + SEAL_BYTES
}

/// Reading: asks 1, 2, 18 and then 3 to 12, hands back the file's edition and table and writes its
/// region words to `out`.
pub fn read(
    plate: Plate,
    catalogue: &[u32],
    file: &[u8],
    out: &mut [u32],
) -> Result<(Edition, Table), Refusal> {
    let (edition, table, own) = read_checked(plate, catalogue, file)?;
    refuse(12, out.len() < own.len())?;
    out[..own.len()].copy_from_slice(&own);
    Ok((edition, table))
}

/// Reading without an output: asks 1, 2, 18 and then 3 to 11. Handing back a record reads the file
/// like this.
pub fn read_checked(
    plate: Plate,
    catalogue: &[u32],
    file: &[u8],
) -> Result<(Edition, Table, Vec<u32>), Refusal> {
    refuse(1, file.len() < SHORTEST)?;
    let head = take_head(file);
    let edition = Edition::from_number(head.edition)?;
    refuse(18, blank(head.cabinet, head.line) || plate_blank(plate))?;
    refuse(3, head.cabinet != plate.cabinet)?;
    refuse(4, head.line != plate.line as u32)?;
    refuse(5, task_count_wrong(head.n) || region_count_wrong(head.m))?;
    refuse(6, file.len() != length(edition, head.n as usize, head.m))?;
    refuse(7, seal_wrong(file))?;
    let (table, own, spare) = take_all(file, edition, head.n, head.m);
    refuse(8, spare != 0)?;
    refuse(9, numbers_wrong(&table))?;
    refuse(10, assignment_wrong(&table))?;
    refuse(11, regions_wrong(&table, &own, catalogue))?;
    Ok((edition, table, own))
}

fn plate_blank(plate: Plate) -> bool {
    blank(plate.cabinet, plate.line as u32)
}

pub struct Head {
    /// The number that stands there, whether it is an edition's or not.
    pub edition: u8,
    spare: u32,
    pub cabinet: u32,
    pub line: u32,
    pub n: u8,
    pub m: usize,
}

/// Head, 64 bits: edition 4, spare 4, cabinet 24, line 16, n 8, m 8.
pub fn take_head(file: &[u8]) -> Head {
    let mut fields = Taker::new(file);
    Head {
        edition: fields.take(4) as u8,
        spare: fields.take(4),
        cabinet: fields.take(24),
        line: fields.take(16),
        n: fields.take(8) as u8,
        m: fields.take(8) as usize,
    }
}

pub fn seal_wrong(file: &[u8]) -> bool {
    let (sealed, last) = file.split_at(file.len() - SEAL_BYTES);
    seal(sealed).to_be_bytes() != last
}

/// The table, the region words, and all spare and filler bits put together by `or`, so that the
/// last is 0 exactly when every one of them is.
pub fn take_all(file: &[u8], edition: Edition, n: u8, m: usize) -> (Table, Vec<u32>, u32) {
    let mut spare = take_head(file).spare;
    let mut fields = Taker::new(&file[HEAD_BYTES..]);
    let mut table = Table {
        n,
        ..Table::default()
    };
    for record in &mut table.records[..n as usize] {
        *record = take_record(&mut fields, edition);
        spare |= fields.take(edition.spare_bits());
    }
    let own = (0..m).map(|_| fields.take(20)).collect();
    spare |= fields.take(fields.left_in_byte());
    (table, own, spare)
}

/// A record but for its spare bits: C 20, T 20, D 20, priority 4, threshold 4, region source 1,
/// first region 7, region count 7, name number 7, and the jitter in as many bits as the edition has
/// for it. A field of no bits is 0, and so is the jitter of a file of edition 1.
fn take_record(fields: &mut Taker, edition: Edition) -> Record {
    Record {
        cost: fields.take(20),
        period: fields.take(20),
        deadline: fields.take(20),
        priority: fields.take(4),
        threshold: fields.take(4),
        source: Source::from_number(fields.take(1)),
        first: fields.take(7),
        count: fields.take(7),
        name: fields.take(7),
        jitter: fields.take(edition.jitter_bits()),
    }
}

/// Writing in the edition of this number: asks 2, 5, 18, 9, 10, 11, 19, 12, of which 19 of edition 1
/// alone, writes the file to the front of `out` and hands back its length.
pub fn write(
    edition: u8,
    plate: Plate,
    table: &Table,
    own: &[u32],
    catalogue: &[u32],
    out: &mut [u8],
) -> Result<usize, Refusal> {
    let edition = Edition::from_number(edition)?;
    refuse(
        5,
        task_count_wrong(table.n) || region_count_wrong(own.len()),
    )?;
    refuse(18, plate_blank(plate))?;
    refuse(9, numbers_wrong(table) || plate.cabinet > MOST_CABINET)?;
    refuse(10, assignment_wrong(table))?;
    refuse(11, regions_wrong(table, own, catalogue))?;
    refuse(19, edition == Edition::One && some_jitter(table))?;
    let file = sealed(put_all(edition, plate, table, own));
    refuse(12, out.len() < file.len())?;
    out[..file.len()].copy_from_slice(&file);
    Ok(file.len())
}

fn put_all(edition: Edition, plate: Plate, table: &Table, own: &[u32]) -> Vec<u8> {
    let mut fields = Putter::default();
    put_head(&mut fields, edition, plate, table.n, own.len());
    for record in table.tasks() {
        put_record(&mut fields, edition, record);
    }
    for word in own {
        fields.put(*word, 20);
    }
    fields.bytes()
}

fn put_head(fields: &mut Putter, edition: Edition, plate: Plate, n: u8, m: usize) {
    fields.put(edition.number() as u32, 4);
    fields.put(0, 4);
    fields.put(plate.cabinet, 24);
    fields.put(plate.line as u32, 16);
    fields.put(n as u32, 8);
    fields.put(m as u32, 8);
}

fn put_record(fields: &mut Putter, edition: Edition, record: &Record) {
    fields.put(record.cost, 20);
    fields.put(record.period, 20);
    fields.put(record.deadline, 20);
    fields.put(record.priority, 4);
    fields.put(record.threshold, 4);
    fields.put(record.source.bit(), 1);
    fields.put(record.first, 7);
    fields.put(record.count, 7);
    fields.put(record.name, 7);
    fields.put(record.jitter, edition.jitter_bits());
    fields.put(0, edition.spare_bits());
}

fn sealed(mut bytes: Vec<u8>) -> Vec<u8> {
    let seal = seal(&bytes);
    bytes.extend(seal.to_be_bytes());
    bytes
}
