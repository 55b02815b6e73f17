//! A job program that is fed and listened to, and where the proved one is.

use std::io::Write;
use std::path::{Path, PathBuf};
use std::process::{Command, Stdio};

use crate::testing::settings;

/// The proved job program: where it is built, or where the environment says.
///
/// # Panics
///
/// If it is not there.
pub fn proved() -> PathBuf {
    let built = || PathBuf::from(env!("CARGO_MANIFEST_DIR")).join("../target/bin/run_job");
    let path = settings::job_program().unwrap_or_else(built);
    assert!(
        path.is_file(),
        "the proved job program is not at {}: build it with tools/build run_job",
        path.display()
    );
    path
}

/// Feeds a job to a program and gives what it prints.
///
/// # Panics
///
/// If the program does not start, or ends with another status than 0.
pub fn printed(program: &Path, job: &[u8]) -> Vec<u8> {
    let mut child = Command::new(program)
        .stdin(Stdio::piped())
        .stdout(Stdio::piped())
        .spawn()
        .unwrap_or_else(|error| panic!("{} does not start: {error}", program.display()));
    let mut pipe = child.stdin.take().expect("a pipe to write to");
    // the program stops reading one byte past its limit, so a long job's pipe may be closed early
    let _ = pipe.write_all(job);
    drop(pipe);
    let output = child.wait_with_output().expect("the program ends");
    assert!(output.status.success(), "status {:?}", output.status);
    output.stdout
}
