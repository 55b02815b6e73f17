//! Jobs with one damage each.

use crate::job::{MAX_BYTES, MAX_CELLS};
use crate::testing::jobs::{job, with_length, JobDrift, JobFields};
use crate::testing::random::Random;
use crate::testing::shapes::{layout, limit_shape};

/// A way to damage a job.
#[derive(Clone, Copy, Debug, PartialEq, Eq, Hash)]
pub enum Damage {
    /// More bytes than a job may have.
    TooLong,
    /// No byte at all.
    Empty,
    /// Another version.
    Version,
    /// Cut within version and length.
    Header,
    /// Another length.
    Length,
    /// Cut, the length left as it was.
    Cut,
    /// Bytes too many, the length left as it was.
    Extra,
    /// Cut to fewer than the eight bytes that every job has, the length
    /// adjusted.
    Stub,
    /// A bad radix.
    Radix,
    /// Bad digits.
    Digits,
    /// Bad errors.
    Errors,
    /// A bad width.
    Width,
    /// Bad rows.
    Rows,
    /// More cells than a job may have.
    Cells,
    /// Cut, the length adjusted.
    CutAdjusted,
    /// Bytes too many, the length adjusted.
    ExtraAdjusted,
    /// Another drift count.
    Count,
    /// A level that is too high.
    Level,
    /// A drift outside the rows.
    DriftRow,
    /// A drift outside the columns.
    DriftColumn,
    /// A drift to a level that is too high.
    DriftLevel,
}

impl Damage {
    /// All ways to damage a job.
    pub const ALL: [Damage; 21] = [
        Damage::TooLong,
        Damage::Empty,
        Damage::Version,
        Damage::Header,
        Damage::Length,
        Damage::Cut,
        Damage::Extra,
        Damage::Stub,
        Damage::Radix,
        Damage::Digits,
        Damage::Errors,
        Damage::Width,
        Damage::Rows,
        Damage::Cells,
        Damage::CutAdjusted,
        Damage::ExtraAdjusted,
        Damage::Count,
        Damage::Level,
        Damage::DriftRow,
        Damage::DriftColumn,
        Damage::DriftLevel,
    ];

    /// The number with which a job is refused that has this damage alone.
    pub fn number(self) -> u8 {
        match self {
            Damage::TooLong => 10,
            Damage::Empty | Damage::Version => 11,
            Damage::Header | Damage::Length | Damage::Cut | Damage::Extra | Damage::Stub => 12,
            Damage::Radix => 1,
            Damage::Digits => 2,
            Damage::Errors => 3,
            Damage::Width => 4,
            Damage::Rows => 5,
            Damage::Cells => 13,
            Damage::CutAdjusted | Damage::ExtraAdjusted | Damage::Count => 14,
            Damage::Level | Damage::DriftLevel => 8,
            Damage::DriftRow | Damage::DriftColumn => 7,
        }
    }
}

/// A job with one damage and no other.
pub fn damaged_job(random: &mut Random, damage: Damage) -> Vec<u8> {
    let good = job(random);
    match damage {
        Damage::TooLong => too_long(random, &good),
        Damage::Empty => Vec::new(),
        Damage::Header => good.bytes()[..random.between(1, 4)].to_vec(),
        Damage::Length => other_length(random, &good),
        Damage::Cut => {
            let bytes = good.bytes();
            bytes[..random.between(5, bytes.len() - 1)].to_vec()
        }
        Damage::Extra => lengthened(random, good.bytes()),
        Damage::Stub => with_length(&good.body()[..random.below(8)]),
        Damage::CutAdjusted => {
            let body = good.body();
            with_length(&body[..random.between(8, body.len() - 1)])
        }
        Damage::ExtraAdjusted => with_length(&lengthened(random, good.body())),
        Damage::Cells => too_many_cells(random),
        _ => spoiled_fields(random, good, damage).bytes(),
    }
}

/// The damages that lie in one field.
fn spoiled_fields(random: &mut Random, good: JobFields, damage: Damage) -> JobFields {
    let mut job = good;
    match damage {
        Damage::Version => job.version = random.byte().max(1).wrapping_add(1),
        Damage::Radix => job.radix = random.pick(&[0, 1]),
        Damage::Digits => job.digits = random.pick(&[0, 9, 255]),
        Damage::Errors => job.errors = random.pick(&[0, 4, 255]),
        Damage::Width => job.width = if random.one_in(2) { 0 } else { 255 },
        Damage::Rows => job.rows = random.pick(&[0, 4097, u16::MAX]),
        Damage::Count => job.count = job.count.wrapping_add(random.pick(&[1, 256, u16::MAX])),
        Damage::Level => {
            let place = random.below(job.levels.len());
            job.levels[place] = too_high(random, &job);
        }
        _ => spoil_drift(random, &mut job, damage),
    }
    job
}

/// Adds a bad drift between good ones.
fn spoil_drift(random: &mut Random, job: &mut JobFields, damage: Damage) {
    let columns = layout(job.shape()).columns();
    let mut bad = JobDrift {
        row: 0,
        column: 0,
        level: 0,
    };
    match damage {
        Damage::DriftRow => bad.row = job.rows.saturating_add(random.byte().into()),
        Damage::DriftColumn => bad.column = random.between(columns, 255) as u8,
        _ => bad.level = too_high(random, job),
    }
    let place = random.below(job.drifts.len() + 1);
    job.drifts.insert(place, bad);
    job.count += 1;
}

/// A level that is too high for a good job on a small array.
fn too_high(random: &mut Random, job: &JobFields) -> u8 {
    let levels = usize::from(job.radix).pow(job.digits.into());
    random.between(levels, 255) as u8
}

/// A job whose length field differs from what follows.
fn other_length(random: &mut Random, good: &JobFields) -> Vec<u8> {
    let mut bytes = good.bytes();
    let place = random.between(1, 4);
    bytes[place] = bytes[place].wrapping_add(random.pick(&[1, 128, 255]));
    bytes
}

/// A few bytes more.
fn lengthened(random: &mut Random, mut bytes: Vec<u8>) -> Vec<u8> {
    let more = random.between(1, 9);
    bytes.extend(random.bytes(more));
    bytes
}

/// A job past the largest size, its length adjusted or not.
fn too_long(random: &mut Random, good: &JobFields) -> Vec<u8> {
    let length = MAX_BYTES + random.between(1, 4000);
    if random.one_in(2) {
        let mut body = good.body();
        body.resize(length - 5, 0);
        with_length(&body)
    } else {
        let mut bytes = good.bytes();
        bytes.resize(length, 0);
        bytes
    }
}

/// A job with a good shape of too many cells; its levels may be absent.
fn too_many_cells(random: &mut Random) -> Vec<u8> {
    let shape = loop {
        let shape = limit_shape(random);
        if layout(shape).cells() > MAX_CELLS {
            break shape;
        }
    };
    let most = MAX_BYTES - 13;
    let levels = vec![0; (shape.rows * shape.width).min(most)];
    JobFields::new(shape, levels, Vec::new()).bytes()
}
