//! Random jobs, good ones and such with a few bytes changed.

use crate::job::{MAX_BYTES, MAX_CELLS, VERSION};
use crate::shape::Shape;
use crate::testing::random::Random;
use crate::testing::shapes::{layout, limit_shape, small_shape};

/// One drift of a job.
#[derive(Clone, Copy, Debug, PartialEq, Eq)]
pub struct JobDrift {
    /// The cell's row.
    pub row: u16,
    /// The cell's column.
    pub column: u8,
    /// The level it takes.
    pub level: u8,
}

/// The fields of a job, good or not, before they are put in bytes.
#[derive(Clone, Debug, PartialEq, Eq)]
pub struct JobFields {
    /// The version byte.
    pub version: u8,
    /// The radix.
    pub radix: u8,
    /// The digits.
    pub digits: u8,
    /// The errors to be caught.
    pub errors: u8,
    /// The rule columns.
    pub width: u8,
    /// The rows.
    pub rows: u16,
    /// The levels of all rows.
    pub levels: Vec<u8>,
    /// The drift count as stated.
    pub count: u16,
    /// The drifts.
    pub drifts: Vec<JobDrift>,
}

impl JobFields {
    /// A job for a good shape with the given levels and drifts.
    pub fn new(shape: Shape, levels: Vec<u8>, drifts: Vec<JobDrift>) -> JobFields {
        JobFields {
            version: VERSION,
            radix: shape.radix as u8,
            digits: shape.digits as u8,
            errors: shape.errors as u8,
            width: shape.width as u8,
            rows: shape.rows as u16,
            levels,
            count: drifts.len() as u16,
            drifts,
        }
    }

    /// The shape that the job states.
    pub fn shape(&self) -> Shape {
        Shape {
            radix: self.radix.into(),
            digits: self.digits.into(),
            errors: self.errors.into(),
            width: self.width.into(),
            rows: self.rows.into(),
        }
    }

    /// The job in bytes, with the length that its fields give.
    pub fn bytes(&self) -> Vec<u8> {
        let mut bytes = with_length(&self.body());
        bytes[0] = self.version;
        bytes
    }

    /// What follows the length.
    pub(crate) fn body(&self) -> Vec<u8> {
        let mut body = vec![self.radix, self.digits, self.errors, self.width];
        body.extend(self.rows.to_be_bytes());
        body.extend(&self.levels);
        body.extend(self.count.to_be_bytes());
        for drift in &self.drifts {
            body.extend(drift.row.to_be_bytes());
            body.extend([drift.column, drift.level]);
        }
        body
    }
}

/// A good job on a small array.
pub fn job(random: &mut Random) -> JobFields {
    let shape = small_shape(random);
    job_of(random, shape)
}

/// A good job on an array near the limits; its cycle may be long.
pub fn large_job(random: &mut Random) -> JobFields {
    let mut shape = limit_shape(random);
    let columns = layout(shape).columns();
    shape.rows = shape.rows.min(MAX_CELLS / columns);
    job_of(random, shape)
}

/// A good job of the given shape: any levels, and some drifts.
pub fn job_of(random: &mut Random, shape: Shape) -> JobFields {
    let layout = layout(shape);
    let levels = random.levels(layout.levels(), shape.rows * shape.width);
    let drifts = (0..random.below(2 * shape.rows + 2))
        .map(|_| JobDrift {
            row: random.below(shape.rows) as u16,
            column: random.below(layout.columns()) as u8,
            level: random.level(layout.levels()),
        })
        .collect();
    let mut job = JobFields::new(shape, levels, drifts);
    while job.bytes().len() > MAX_BYTES {
        job.drifts.truncate(job.drifts.len() / 2);
        job.count = job.drifts.len() as u16;
    }
    job
}

/// A job with a few bytes changed at random places; it may still be good.
pub fn noisy_job(random: &mut Random) -> Vec<u8> {
    let mut bytes = job(random).bytes();
    for _ in 0..random.between(1, 3) {
        let place = random.below(bytes.len());
        bytes[place] = random.byte();
    }
    bytes
}

/// A version and a length put before the bytes.
pub(crate) fn with_length(body: &[u8]) -> Vec<u8> {
    let mut bytes = vec![VERSION];
    bytes.extend((body.len() as u32).to_be_bytes());
    bytes.extend(body);
    bytes
}
