//! What is set in the environment: the seed, the numbers of lists and of jobs,
//! and the proved program. The module above says how.

use std::path::PathBuf;
use std::{env, thread};

use crate::testing::random::Random;

/// Sets the seed of every random test.
const SEED: &str = "PEER_SEED";

/// Sets the number of lists, and the usual one.
const LISTS: (&str, usize) = ("PEER_LISTS", 1_000);

/// Sets the number of jobs, and the usual one.
const JOBS: (&str, usize) = ("PEER_JOBS", 1_200);

/// Names the proved job program.
const RUN_JOB: &str = "RUN_JOB";

/// The seed in force in a test whose own one is given. It is printed, with the
/// name of the test, which its thread bears.
pub fn seed(own: u64) -> u64 {
    let seed = whole_number(SEED, own);
    let thread = thread::current();
    println!("{}: seed {seed}", thread.name().unwrap_or("a test"));
    seed
}

/// The generator with the seed in force.
pub fn random(own: u64) -> Random {
    Random::new(seed(own))
}

/// How many lists are made where so many are usual.
pub fn lists(usual: usize) -> usize {
    in_proportion(LISTS, usual)
}

/// How many jobs are made where so many are usual.
pub fn jobs(usual: usize) -> usize {
    in_proportion(JOBS, usual)
}

/// The proved job program, where it is named.
pub fn job_program() -> Option<PathBuf> {
    env::var_os(RUN_JOB).map(PathBuf::from)
}

/// So many times the usual number as the variable is of its own usual value.
/// Fewer than usual are refused: the tests ask how often each thing was seen.
fn in_proportion((variable, own): (&str, usize), usual: usize) -> usize {
    let set = whole_number(variable, own as u64);
    assert!(set >= own as u64, "{variable} is {set}, less than {own}");
    let number = u128::from(set) * usual as u128 / own as u128;
    usize::try_from(number).unwrap_or_else(|_| panic!("{variable} is {set}, which is too much"))
}

/// The value of a variable, or the usual one where it is not set.
fn whole_number(variable: &str, usual: u64) -> u64 {
    match env::var_os(variable) {
        None => usual,
        Some(text) => parsed(&text.to_string_lossy()).unwrap_or_else(|| {
            panic!("{variable} is {text:?}, which is no whole number below 2^64")
        }),
    }
}

/// Digits alone, with _ between them if wanted.
fn parsed(text: &str) -> Option<u64> {
    text.replace('_', "").parse().ok()
}

#[cfg(test)]
mod tests {
    use super::{in_proportion, parsed};

    #[test]
    fn values_are_whole_numbers() {
        assert_eq!(parsed("0"), Some(0));
        assert_eq!(parsed("20_261_116"), Some(20_261_116));
        assert_eq!(parsed("18446744073709551615"), Some(u64::MAX));
        for bad in ["", "-1", "1.5", "ten", " 1", "18446744073709551616"] {
            assert_eq!(parsed(bad), None, "{bad}");
        }
    }

    #[test]
    fn a_variable_that_is_not_set_gives_the_usual_number() {
        assert_eq!(in_proportion(("PEER_NO_SUCH_VARIABLE", 1_000), 250), 250);
    }
}
