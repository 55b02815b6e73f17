//! The script that runs a job, and the proved program under it: what they print, what
//! they say and how they end, also where a file cannot be read or written.
//!
//! The script is ../scrub, the program ../target/bin/run_job.

use std::collections::BTreeMap;
use std::env;
use std::ffi::OsString;
use std::fs::{self, File};
use std::io::Write;
use std::path::{Path, PathBuf};
use std::process::{Command, Output, Stdio};

use peer::job;
use peer::testing::jobs::JobFields;
use peer::testing::print::hexadecimal;
use peer::testing::program::proved;
use peer::Shape;

/// The job ran.
const RAN: i32 = 0;
/// It was refused, or its result could not be written.
const REFUSED: i32 = 1;
/// It could not be run.
const NOT_RUN: i32 = 2;

const EXAMPLE: &str = "../examples/document.hex";

/// Jobs that are refused, with the numbers.
const REFUSALS: [(u8, &str); 12] = [
    (1, "01 00000008 01 00 00 00 0000 0000"),
    (2, "01 00000008 02 09 01 03 0002 0000"),
    (3, "01 00000008 02 03 04 03 0002 0000"),
    (4, "01 00000008 02 03 01 ff 0002 0000"),
    (5, "01 00000008 02 03 01 03 0000 0000"),
    (
        7,
        "01 00000012 02 03 01 03 0002 050201 000000 0001 0002 02 04",
    ),
    (
        8,
        "01 00000012 02 03 01 03 0002 050201 000000 0001 0001 02 08",
    ),
    (11, "02"),
    (11, ""),
    (12, "01 000000"),
    (13, "01 00000008 02 03 01 04 1000 0000"),
    (14, "01 00000008 02 03 01 03 0002 0000"),
];

// ---- the script, and files for it

/// A file of this name for one of the tests, with these bytes.
fn file(name: &str, bytes: &[u8]) -> PathBuf {
    let path = Path::new(env!("CARGO_TARGET_TMPDIR")).join(name);
    fs::write(&path, bytes).expect("a file is written");
    path
}

/// Where commands are looked for, without the folders that have rt, so that the script
/// does not ask it. All of them where bash would be lost too.
fn path_without_rt() -> OsString {
    let path = env::var_os("PATH").unwrap_or_default();
    let folders: Vec<PathBuf> = env::split_paths(&path).collect();
    let has = |folder: &PathBuf, command: &str| folder.join(command).is_file();
    let (_, left): (Vec<PathBuf>, _) = folders.into_iter().partition(|folder| has(folder, "rt"));
    if left.iter().any(|folder| has(folder, "bash")) {
        env::join_paths(left).expect("folders of a path")
    } else {
        path
    }
}

/// The script, without rt.
fn scrub() -> Command {
    proved();
    let mut command = Command::new("../scrub");
    command.env("PATH", path_without_rt()).stdin(Stdio::null());
    command
}

/// How a command ended, what it printed and what it said.
#[derive(Debug)]
struct Ended {
    status: Option<i32>,
    printed: String,
    said: String,
}

fn ended(output: Output) -> Ended {
    Ended {
        status: output.status.code(),
        printed: String::from_utf8_lossy(&output.stdout).into_owned(),
        said: String::from_utf8_lossy(&output.stderr).into_owned(),
    }
}

fn run(command: &mut Command) -> Ended {
    ended(command.output().expect("the script starts"))
}

/// Runs a command with something written to its standard input.
fn fed(command: &mut Command, input: &[u8]) -> Ended {
    let pipes = command
        .stdin(Stdio::piped())
        .stdout(Stdio::piped())
        .stderr(Stdio::piped());
    let mut child = pipes.spawn().expect("the script starts");
    let mut pipe = child.stdin.take().expect("a pipe to write to");
    pipe.write_all(input).expect("the job is taken");
    drop(pipe);
    ended(child.wait_with_output().expect("the script ends"))
}

/// A place where nothing can be written.
fn full() -> File {
    let options = File::options().write(true).open("/dev/full");
    options.expect("/dev/full is there")
}

impl Ended {
    /// It ended with the status, printed nothing, and said something.
    fn only_says(&self, status: i32) {
        assert_eq!(self.status, Some(status), "{self:?}");
        assert_eq!(self.printed, "", "{self:?}");
        assert!(!self.said.trim().is_empty(), "{self:?}");
    }
}

// ---- jobs that run

#[test]
fn the_examples_print_what_is_stored() {
    let mut examples = 0;
    for entry in fs::read_dir("../examples").expect("the examples") {
        let path = entry.expect("an example").path();
        if path.extension().is_some_and(|ending| ending == "hex") {
            let stored = fs::read_to_string(path.with_extension("txt")).expect("what is stored");
            let ended = run(scrub().arg(&path));
            assert_eq!(ended.status, Some(RAN), "{ended:?}");
            assert_eq!(ended.printed, stored, "{}", path.display());
            assert_eq!(ended.said, "");
            examples += 1;
        }
    }
    assert!(examples >= 3, "{examples} examples");
}

/// With rt, where it is there: the script asks it whether the program is the proved one.
#[test]
fn the_example_of_document_01_with_rt() {
    proved();
    let ended = run(Command::new("../scrub").arg(EXAMPLE));
    let stored = fs::read_to_string("../examples/document.txt").expect("what is stored");
    assert_eq!((ended.status, ended.printed), (Some(RAN), stored));
}

/// The bytes of the example.
fn example_bytes() -> Vec<u8> {
    let text = fs::read_to_string(EXAMPLE).expect("the example");
    let rules = text
        .lines()
        .map(|line| line.split('#').next().unwrap_or(""));
    bytes(&rules.collect::<String>())
}

/// The bytes of hexadecimal text.
fn bytes(text: &str) -> Vec<u8> {
    let digits: Vec<char> = text.chars().filter(|c| !c.is_whitespace()).collect();
    let pairs = digits.chunks(2).map(|pair| pair.iter().collect::<String>());
    pairs
        .map(|pair| u8::from_str_radix(&pair, 16).expect("hexadecimal digits"))
        .collect()
}

#[test]
fn raw_bytes_and_standard_input_are_the_same_job() {
    let raw = example_bytes();
    let stored = fs::read_to_string("../examples/document.txt").expect("what is stored");
    let path = file("scrub_raw", &raw);
    let text = hexadecimal(&raw);
    for ended in [
        run(scrub().arg(path)),
        fed(scrub().arg("-"), &raw),
        fed(scrub().arg("-"), text.as_bytes()),
    ] {
        assert_eq!(ended.status, Some(RAN), "{ended:?}");
        assert_eq!(ended.printed, stored);
    }
}

// ---- jobs that are refused

/// The words of each number in the list of refusals.
fn words() -> BTreeMap<u8, String> {
    let list = fs::read_to_string("../include/jorivelune_refusals.h").expect("the refusals");
    let entries = list
        .lines()
        .filter_map(|line| line.trim().strip_prefix("ENTRY("));
    let words: BTreeMap<u8, String> = entries
        .map(|entry| {
            let fields: Vec<&str> = entry.splitn(3, ", ").collect();
            let number = fields[1].parse().expect("a number");
            let quoted = fields[2].split('"').nth(1).expect("words");
            (number, quoted.to_string())
        })
        .collect();
    assert!(words.len() >= 18, "{words:?}");
    words
}

/// A refusal: its line alone is printed, and its words are said.
fn is_refused(ended: &Ended, number: u8) {
    assert_eq!(ended.status, Some(REFUSED), "{ended:?}");
    assert_eq!(ended.printed, format!("refused {number}\n"));
    assert!(ended.said.contains(&words()[&number]), "{ended:?}");
}

#[test]
fn a_refused_job_gives_its_number_and_its_words() {
    for (place, (number, text)) in REFUSALS.into_iter().enumerate() {
        let line = format!("refused {number}\n");
        assert_eq!(job(&bytes(text)), line.as_bytes());
        let path = file(&format!("scrub_refused_{place}"), text.as_bytes());
        is_refused(&run(scrub().arg(path)), number);
    }
    let long = file("scrub_refused_long", &[1; 32_769]);
    is_refused(&run(scrub().arg(long)), 10);
    let no_digits = file("scrub_refused_words", b"no job at all\n");
    is_refused(&run(scrub().arg(no_digits)), 11);
}

// ---- results that cannot be written

#[test]
fn a_result_that_cannot_be_written_is_no_success() {
    let refused = file("scrub_full_refused", b"02");
    for path in [Path::new(EXAMPLE), &refused] {
        let ended = run(scrub().arg(path).stdout(full()));
        assert_eq!(ended.status, Some(REFUSED), "{ended:?}");
        assert!(!ended.said.trim().is_empty(), "{ended:?}");
    }
}

#[test]
fn the_program_says_that_it_cannot_write() {
    let refused = file("scrub_program_refused", b"\x02");
    let example = file("scrub_program_example", &example_bytes());
    for path in [refused, example] {
        let input = File::open(path).expect("a job");
        let ended = run(Command::new(proved()).stdin(input).stdout(full()));
        assert!(!ended.said.trim().is_empty(), "{ended:?}");
    }
}

/// A read that fails is no empty job.
#[test]
fn the_program_says_that_it_cannot_read() {
    let folder = File::open("..").expect("a folder");
    let ended = run(Command::new(proved()).stdin(folder));
    assert_eq!(ended.printed, "", "{ended:?}");
    assert!(!ended.said.trim().is_empty(), "{ended:?}");
    let empty = File::open(file("scrub_empty", b"")).expect("an empty file");
    let ended = run(Command::new(proved()).stdin(empty));
    assert_eq!(ended.printed, "refused 11\n");
    assert_eq!(ended.said, "");
}

// ---- jobs that cannot be run

#[test]
fn the_usage_is_asked_for() {
    let help = run(scrub().arg("--help"));
    assert_eq!((help.status, &help.said[..]), (Some(RAN), ""), "{help:?}");
    for word in ["scrub", "FILE", "0", "1", "2"] {
        assert!(help.printed.contains(word), "{word}: {help:?}");
    }
    run(&mut scrub()).only_says(NOT_RUN);
    run(scrub().args([EXAMPLE, EXAMPLE])).only_says(NOT_RUN);
}

#[test]
fn a_file_that_cannot_be_read_is_not_run() {
    run(scrub().arg("..")).only_says(NOT_RUN);
    run(scrub().arg("../examples/no_such_job.hex")).only_says(NOT_RUN);
    run(scrub().arg("")).only_says(NOT_RUN);
}

#[test]
fn an_odd_number_of_digits_is_not_run() {
    let path = file("scrub_odd", b"01 0000001 # a digit is lost\n");
    run(scrub().arg(path)).only_says(NOT_RUN);
}

/// A copy of the script in a folder of its own, where there is no program.
#[test]
fn without_the_program_and_rt_nothing_is_run() {
    let folder = Path::new(env!("CARGO_TARGET_TMPDIR")).join("scrub_alone");
    fs::create_dir_all(folder.join("include")).expect("a folder");
    for name in ["scrub", "crates.txt", "include/jorivelune_refusals.h"] {
        fs::copy(Path::new("..").join(name), folder.join(name)).expect("a copy");
    }
    let example = fs::canonicalize(EXAMPLE).expect("the example");
    let mut copy = Command::new(folder.join("scrub"));
    copy.env("PATH", path_without_rt()).stdin(Stdio::null());
    run(copy.arg(example)).only_says(NOT_RUN);
}

// ---- no room for the script's own files

/// Nothing wrong is printed as if all were well: the result is whole, or the script says
/// that something failed.
fn is_whole_or_says(ended: &Ended, wanted: &[u8]) {
    match ended.status {
        Some(RAN) => assert_eq!(ended.printed.as_bytes(), wanted, "{ended:?}"),
        Some(REFUSED | NOT_RUN) => assert!(!ended.said.trim().is_empty(), "{ended:?}"),
        _ => panic!("{ended:?}"),
    }
}

/// A folder for its files that is none.
#[test]
fn without_a_folder_for_its_files_the_script_fails() {
    for folder in ["/dev/full", "/dev/null", "/no/such/folder", EXAMPLE] {
        let ended = run(scrub().arg(EXAMPLE).env("TMPDIR", folder));
        assert!(matches!(ended.status, Some(REFUSED | NOT_RUN)), "{ended:?}");
        assert_eq!(ended.printed, "");
        assert!(!ended.said.trim().is_empty(), "{ended:?}");
    }
}

/// A job of so many rows that stand as they were written.
fn many_rows(rows: usize) -> Vec<u8> {
    let shape = Shape::new(2, 1, 1, 1, rows);
    JobFields::new(shape, vec![0; rows], Vec::new()).bytes()
}

/// The script on a file, by a shell that first does something else.
fn after(first: &str, path: &Path) -> Command {
    let mut command = Command::new("bash");
    command
        .env("PATH", path_without_rt())
        .stdin(Stdio::null())
        .args(["-c", &format!("{first} && exec ../scrub \"$1\""), "bash"])
        .arg(path);
    command
}

/// No file may be longer than some kilobytes: the copy of the job is, or its text as
/// digits, or the result.
#[test]
fn where_files_cannot_grow_the_result_is_whole_or_the_script_fails() {
    proved();
    let job_bytes = many_rows(1_500);
    let wanted = job(&job_bytes);
    let raw = file("scrub_rows_raw", &job_bytes);
    let text = file("scrub_rows_text", hexadecimal(&job_bytes).as_bytes());
    for kilobytes in [0, 1, 2, 3, 4, 8, 64] {
        for path in [&raw, &text] {
            let limit = format!("trap '' XFSZ && ulimit -f {kilobytes}");
            let ended = run(&mut after(&limit, path));
            is_whole_or_says(&ended, &wanted);
            let copied = kilobytes * 1_024 >= fs::metadata(path).expect("a file").len();
            if !copied {
                ended.only_says(NOT_RUN);
            }
        }
    }
    let ended = run(&mut after("ulimit -f 64", &raw));
    assert_eq!(
        (ended.status, ended.printed.as_bytes()),
        (Some(RAN), &wanted[..])
    );
}

/// The script on a file, with a small file system for its own files that nobody else sees.
fn on_small_system(kilobytes: usize, path: &Path) -> Command {
    let folder = Path::new(env!("CARGO_TARGET_TMPDIR")).join("scrub_small");
    fs::create_dir_all(&folder).expect("a folder");
    let place = folder.display();
    let first =
        format!("mount -t tmpfs -o size={kilobytes}k none '{place}' && export TMPDIR='{place}'");
    let script = after(&first, path);
    let mut command = Command::new("unshare");
    command
        .env("PATH", path_without_rt())
        .stdin(Stdio::null())
        .args(["-r", "-m", "bash"])
        .args(script.get_args());
    command
}

#[test]
fn on_a_full_file_system_the_result_is_whole_or_the_script_fails() {
    proved();
    for rows in [1_500, 4_000] {
        let job_bytes = many_rows(rows);
        let wanted = job(&job_bytes);
        let path = file(&format!("scrub_small_{rows}"), &job_bytes);
        let roomy = on_small_system(1_024, &path).output();
        if !roomy.is_ok_and(|output| output.stdout == wanted) {
            println!("left out: no file system can be mounted here");
            return;
        }
        for kilobytes in [4, 8, 16, 20, 40] {
            is_whole_or_says(&run(&mut on_small_system(kilobytes, &path)), &wanted);
        }
    }
}
