//! Random jobs through the proved job program and through this build: every
//! byte that they print is compared.
//!
//! The program is ../target/bin/run_job, or what RUN_JOB names.

use std::collections::BTreeMap;

use peer::job;
use peer::testing::damage::{damaged_job, Damage};
use peer::testing::jobs::{job as random_job, large_job, noisy_job};
use peer::testing::print::hexadecimal;
use peer::testing::program::{printed, proved};
use peer::testing::settings;

const SEED: u64 = 20_261_115;

/// Good jobs, noisy ones, so many of each damage, and two at the largest size.
fn random_jobs() -> Vec<Vec<u8>> {
    let mut random = settings::random(SEED);
    let [small, large, noisy, damaged] = [1_200, 40, 500, 30].map(settings::jobs);
    let mut jobs: Vec<Vec<u8>> = Vec::new();
    jobs.extend((0..small).map(|_| random_job(&mut random).bytes()));
    jobs.extend((0..large).map(|_| large_job(&mut random).bytes()));
    jobs.extend((0..noisy).map(|_| noisy_job(&mut random)));
    for damage in Damage::ALL {
        jobs.extend((0..damaged).map(|_| damaged_job(&mut random, damage)));
    }
    jobs.push(vec![1; 32_768]);
    jobs.push(vec![1; 32_769]);
    println!("{} jobs", jobs.len());
    jobs
}

#[test]
fn random_jobs_print_the_same() {
    let program = proved();
    let jobs = random_jobs();
    assert!(jobs.len() >= 2_000);
    let mut reports = 0;
    let mut refusals: BTreeMap<String, usize> = BTreeMap::new();
    for input in &jobs {
        let wanted = job(input);
        let given = printed(&program, input);
        assert!(
            given == wanted,
            "the proved program prints\n{}\nand this build\n{}\nfor the job {}",
            String::from_utf8_lossy(&given),
            String::from_utf8_lossy(&wanted),
            hexadecimal(input)
        );
        match String::from_utf8_lossy(&given).strip_prefix("refused ") {
            Some(number) => *refusals.entry(number.trim_end().to_string()).or_default() += 1,
            None => reports += 1,
        }
    }
    println!("{reports} reports, refusals {refusals:?}");
    assert!(reports >= 1_000, "{reports} reports");
    for number in [1, 2, 3, 4, 5, 7, 8, 10, 11, 12, 13, 14] {
        assert!(
            refusals.contains_key(&number.to_string()),
            "refusal {number} did not happen"
        );
    }
}
