//! The job program: the example, every refusal, and random jobs against the
//! definitions.

use std::collections::BTreeSet;
use std::path::Path;

use peer::testing::damage::{damaged_job, Damage};
use peer::testing::jobs::{self, noisy_job, JobDrift, JobFields};
use peer::testing::naive::job::job as plain_job;
use peer::testing::{program, settings};
use peer::{job, Shape};

/// The bytes of hexadecimal text.
fn bytes(text: &str) -> Vec<u8> {
    let digits: String = text.split_whitespace().collect();
    (0..digits.len())
        .step_by(2)
        .map(|place| u8::from_str_radix(&digits[place..place + 2], 16).unwrap())
        .collect()
}

const EXAMPLE: &str = "01 00000012 02 03 01 03 0002 050201 000000 0001 0001 02 04";
const EXAMPLE_REPORT: &str = "levels 8 columns 4 lookups 30\nrow 0 ok\nrow 1 flagged\n";

fn refused(number: u8) -> Vec<u8> {
    format!("refused {number}\n").into_bytes()
}

#[test]
fn the_example_byte_for_byte() {
    assert_eq!(job(&bytes(EXAMPLE)), EXAMPLE_REPORT.as_bytes());
}

/// Jobs that are refused and their numbers, in the order in which the questions
/// are asked.
const REFUSALS: [(u8, &str); 32] = [
    (11, ""),
    (11, "02 00000008 02 03 01 03 0002 0000"),
    (12, "01 000000"),
    (12, "01 00000000"),
    (12, "01 00000007 02 03 01 03 0002 00"),
    (
        12,
        "01 00000013 02 03 01 03 0002 050201 000000 0001 0001 02 04",
    ),
    (
        12,
        "01 00000011 02 03 01 03 0002 050201 000000 0001 0001 02 04",
    ),
    (1, "01 00000008 01 00 00 00 0000 0000"),
    (1, "01 00000008 00 03 01 03 0002 0000"),
    (2, "01 00000008 02 00 00 00 0000 0000"),
    (2, "01 00000008 02 09 01 03 0002 0000"),
    (2, "01 00000008 11 02 01 03 0002 0000"),
    (3, "01 00000008 02 03 00 00 0000 0000"),
    (3, "01 00000008 02 03 04 03 0002 0000"),
    (4, "01 00000008 02 03 01 00 0000 0000"),
    (4, "01 00000008 02 03 01 ff 0002 0000"),
    (4, "01 00000008 02 03 02 f8 0002 0000"),
    (4, "01 00000008 02 03 03 79 0002 0000"),
    (5, "01 00000008 02 03 01 03 0000 0000"),
    (5, "01 00000008 02 03 01 03 1001 0000"),
    (13, "01 00000008 02 03 01 04 1000 0000"),
    (14, "01 00000008 02 03 01 03 0002 0000"),
    (14, "01 0000000d 02 03 01 03 0002 050201 000000 00"),
    (14, "01 0000000e 02 03 01 03 0002 050201 000000 0001"),
    (14, "01 0000000f 02 03 01 03 0002 050201 000000 0000 00"),
    (
        14,
        "01 00000011 02 03 01 03 0002 050201 000000 0001 0001 02",
    ),
    (8, "01 0000000e 02 03 01 03 0002 050201 000800 0000"),
    (
        8,
        "01 00000012 02 03 01 03 0002 050201 000008 0001 0002 02 04",
    ),
    (
        7,
        "01 00000012 02 03 01 03 0002 050201 000000 0001 0002 02 04",
    ),
    (
        7,
        "01 00000012 02 03 01 03 0002 050201 000000 0001 0001 04 08",
    ),
    (
        8,
        "01 00000012 02 03 01 03 0002 050201 000000 0001 0001 02 08",
    ),
    (
        8,
        "01 00000016 02 03 01 03 0002 050201 000000 0002 0001 03 08 0009 00 00",
    ),
];

/// One job for each question, and more.
#[test]
fn each_refusal_of_a_job() {
    assert_eq!(job(&[1; 32_769]), refused(10));
    for (number, text) in REFUSALS {
        assert_eq!(job(&bytes(text)), refused(number), "{text}");
        assert_eq!(plain_job(&bytes(text)).as_bytes(), refused(number));
    }
}

/// The largest job of all: 32,768 bytes are taken, one more is refused.
#[test]
fn a_job_of_the_largest_size() {
    let shape = Shape::new(2, 1, 1, 3, 1);
    let drift = JobDrift {
        row: 0,
        column: 1,
        level: 1,
    };
    let mut bytes = JobFields::new(shape, vec![1, 0, 0], vec![drift; 8188]).bytes();
    assert_eq!(bytes.len(), 32_768);
    assert_eq!(
        job(&bytes),
        b"levels 2 columns 4 lookups 6\nrow 0 flagged\n"
    );
    bytes.push(0);
    assert_eq!(job(&bytes), refused(10));
}

/// 16,384 cells are taken, 16,385 are refused.
#[test]
fn a_job_with_the_most_cells() {
    let shape = Shape::new(2, 2, 1, 3, 4096);
    let fields = JobFields::new(shape, vec![3; 3 * 4096], Vec::new());
    let report = String::from_utf8(job(&fields.bytes())).unwrap();
    assert!(report.starts_with("levels 4 columns 4 lookups 14\nrow 0 ok\n"));
    assert!(report.ends_with("\nrow 4095 ok\n"));
    assert_eq!(report.lines().count(), 4097);
    for (rows, too_many) in [(3276, false), (3277, true)] {
        let wider = Shape {
            width: 4,
            rows,
            ..shape
        };
        let fields = JobFields::new(wider, vec![3; 4 * rows], Vec::new());
        assert_eq!(job(&fields.bytes()) == refused(13), too_many);
    }
}

#[test]
fn good_random_jobs_agree_with_the_definitions() {
    let mut random = settings::random(14);
    let (mut ok, mut flagged) = (0, 0);
    for _ in 0..settings::jobs(1_500) {
        let bytes = jobs::job(&mut random).bytes();
        let report = String::from_utf8(job(&bytes)).unwrap();
        assert_eq!(report, plain_job(&bytes));
        assert!(report.starts_with("levels "));
        ok += report.matches(" ok\n").count();
        flagged += report.matches(" flagged\n").count();
    }
    assert!(ok > 500 && flagged > 500, "{ok} {flagged}");
}

/// Large jobs; the definitions are followed where that does not take too long.
#[test]
fn large_random_jobs_agree_with_the_definitions() {
    let mut random = settings::random(15);
    let mut compared = 0;
    for _ in 0..settings::jobs(60) {
        let fields = jobs::large_job(&mut random);
        let bytes = fields.bytes();
        let layout = fields.shape().layout().unwrap();
        let report = String::from_utf8(job(&bytes)).unwrap();
        let first = format!(
            "levels {} columns {} lookups {}\n",
            layout.levels(),
            layout.columns(),
            layout.steps(0)
        );
        assert!(report.starts_with(&first));
        assert_eq!(report.lines().count(), 1 + layout.rows());
        if layout.steps(0) * layout.cells() < 30_000_000 {
            assert_eq!(report, plain_job(&bytes));
            compared += 1;
        }
    }
    assert!(compared > 10, "{compared}");
}

#[test]
fn damaged_jobs_are_refused_with_their_number() {
    let mut random = settings::random(16);
    let jobs = settings::jobs(300);
    let mut numbers = BTreeSet::new();
    for damage in Damage::ALL {
        for _ in 0..jobs {
            let bytes = damaged_job(&mut random, damage);
            assert_eq!(job(&bytes), refused(damage.number()), "{damage:?}");
            assert_eq!(plain_job(&bytes).as_bytes(), refused(damage.number()));
        }
        numbers.insert(damage.number());
    }
    let all = [1, 2, 3, 4, 5, 7, 8, 10, 11, 12, 13, 14];
    assert!(numbers.into_iter().eq(all));
}

/// Jobs with some bytes changed, and plain noise.
#[test]
fn noise_agrees_with_the_definitions() {
    let mut random = settings::random(17);
    for _ in 0..settings::jobs(4_000) {
        let bytes = noisy_job(&mut random);
        assert_eq!(job(&bytes), plain_job(&bytes).as_bytes());
        let length = random.below(40);
        let mut bytes = random.bytes(length);
        if let (Some(first), true) = (bytes.first_mut(), random.one_in(2)) {
            *first = 1;
        }
        assert_eq!(job(&bytes), plain_job(&bytes).as_bytes());
    }
}

/// Every beginning of a job but the whole is refused.
#[test]
fn every_cut_of_the_example_is_refused() {
    let example = bytes(EXAMPLE);
    assert_eq!(job(&[]), refused(11));
    for length in 1..example.len() {
        assert_eq!(job(&example[..length]), refused(12));
    }
}

/// What this build's job program prints.
fn run_program(input: &[u8]) -> Vec<u8> {
    program::printed(Path::new(env!("CARGO_BIN_EXE_job")), input)
}

#[test]
fn the_program_prints_what_the_function_gives() {
    assert_eq!(run_program(&bytes(EXAMPLE)), EXAMPLE_REPORT.as_bytes());
    assert_eq!(run_program(&[]), refused(11));
    assert_eq!(run_program(&[1; 32_769]), refused(10));
    assert_eq!(run_program(&[1; 1 << 20]), refused(10));
    let mut random = settings::random(18);
    for _ in 0..settings::jobs(20) {
        let bytes = noisy_job(&mut random);
        assert_eq!(run_program(&bytes), job(&bytes));
    }
}
