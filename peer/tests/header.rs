//! The headers for C and C++: they compile without a warning, refuse what they have
//! to, and two programs that are compiled against them, linked with the proved library
//! and run make the calls.
//!
//! The library is ../target/staticlib/libjorivelune.a, made by tools/build jorivelune.

use std::env;
use std::fs;
use std::io::Write;
use std::path::{Path, PathBuf};
use std::process::{Command, Stdio};

const ARCHIVE: &str = "../target/staticlib/libjorivelune.a";

const HEADERS: [&str; 2] = ["jorivelune.h", "jorivelune_head.h"];

const C: Language = Language {
    name: "c",
    standard: "-std=c11",
    variable: "CC",
    compilers: ["gcc", "clang"],
};

const CPP: Language = Language {
    name: "c++",
    standard: "-std=c++17",
    variable: "CXX",
    compilers: ["g++", "clang++"],
};

/// A language as the compilers are told of it, the variable that may name a compiler
/// more, and the usual ones.
#[derive(Clone, Copy)]
struct Language {
    name: &'static str,
    standard: &'static str,
    variable: &'static str,
    compilers: [&'static str; 2],
}

/// A compiler that is installed, of a language.
struct Compiler {
    name: String,
    language: Language,
}

impl Language {
    /// The compilers that are installed. They are printed.
    fn compilers(self) -> Vec<Compiler> {
        let named = env::var(self.variable).ok();
        let usual = self.compilers.map(String::from);
        let found: Vec<Compiler> = named
            .into_iter()
            .chain(usual)
            .filter(|name| runs(name))
            .map(|name| Compiler {
                name,
                language: self,
            })
            .collect();
        let names: Vec<&str> = found.iter().map(|found| found.name.as_str()).collect();
        println!("{} by {names:?}", self.standard);
        found
    }
}

/// Whether the compiler is there.
fn runs(name: &str) -> bool {
    let version = Command::new(name).arg("--version").output();
    version.is_ok_and(|output| output.status.success())
}

/// The compilers of C; one has to be there.
fn of_c() -> Vec<Compiler> {
    let found = C.compilers();
    assert!(!found.is_empty(), "no compiler of C is installed");
    found
}

/// The compilers of both languages; one of C has to be there.
fn of_both() -> Vec<Compiler> {
    of_c().into_iter().chain(CPP.compilers()).collect()
}

impl Compiler {
    /// The compiler with its language, where every warning is an error.
    fn command(&self) -> Command {
        let mut command = Command::new(&self.name);
        command
            .arg(self.language.standard)
            .args(["-Wall", "-Wextra", "-Wpedantic", "-Werror"])
            .args(["-I../include", "-x", self.language.name]);
        command
    }

    /// Compiles a text with some more arguments, and gives what it says where it
    /// refuses.
    fn compile(&self, text: &str, more: &[&str]) -> Result<(), String> {
        let mut child = self
            .command()
            .args(more)
            .args(["-c", "-o", "/dev/null", "-"])
            .stdin(Stdio::piped())
            .stderr(Stdio::piped())
            .spawn()
            .expect("the compiler starts");
        let mut pipe = child.stdin.take().expect("a pipe to write to");
        pipe.write_all(text.as_bytes()).expect("the text is taken");
        drop(pipe);
        let output = child.wait_with_output().expect("the compiler ends");
        if output.status.success() {
            Ok(())
        } else {
            Err(String::from_utf8_lossy(&output.stderr).into_owned())
        }
    }

    /// Compiles a program, links it with the proved library and runs it.
    fn run(&self, source: &str) {
        assert!(
            Path::new(ARCHIVE).is_file(),
            "target/staticlib/libjorivelune.a is missing: run tools/build jorivelune"
        );
        let program = self.program(source);
        let built = self
            .command()
            .args([source, "-x", "none", ARCHIVE, "-o"])
            .arg(&program)
            .status()
            .expect("the compiler starts");
        assert!(built.success(), "{} refuses {source}", self.name);
        let ran = Command::new(&program).output().expect("runs");
        let said = String::from_utf8_lossy(&ran.stderr);
        assert!(ran.status.success(), "by {}: {said}", self.name);
    }

    /// Where the program of a source is put: each compiler has a place of its own.
    fn program(&self, source: &str) -> PathBuf {
        let source = Path::new(source).file_stem().expect("a file");
        let compiler = Path::new(&self.name).file_name().expect("a compiler");
        let name = format!("{}-{}", source.display(), compiler.display());
        Path::new(env!("CARGO_TARGET_TMPDIR")).join(name)
    }
}

/// A text that includes the headers, and then something else.
fn including(headers: &[&str], rest: &str) -> String {
    let lines = headers.iter().map(|name| format!("#include \"{name}\"\n"));
    lines.collect::<String>() + rest
}

// ---- programs

#[test]
fn a_program_in_c_makes_the_calls_by_the_header() {
    for compiler in of_c() {
        compiler.run("tests/in_c/calls.c");
    }
}

#[test]
fn a_program_in_c_and_cpp_makes_the_calls_on_one_struct() {
    for compiler in of_both() {
        compiler.run("tests/in_c/head.c");
    }
}

// ---- what compiles, and what does not

/// Each header by itself, both in either order, and each again.
#[test]
fn the_headers_compile_without_a_warning() {
    let [calls, head] = HEADERS;
    let orders: [&[&str]; 4] = [&[calls], &[head], &[calls, head], &[head, calls, head]];
    let function = "int main(void) { return JORIVELUNE_TAKEN; }\n";
    for compiler in of_both() {
        for headers in orders {
            for level in ["-O0", "-O2"] {
                let compiled = compiler.compile(&including(headers, function), &[level]);
                assert_eq!(compiled, Ok(()), "{} {headers:?}", compiler.name);
            }
        }
    }
}

/// What the header says where it is compiled for another machine.
fn words_for_other_machines() -> String {
    let header = fs::read_to_string("../include/jorivelune.h").expect("the header");
    let mut errors = header
        .lines()
        .filter_map(|line| line.strip_prefix("#error "));
    let words = errors.next().expect("the header refuses other machines");
    assert_eq!(errors.next(), None, "one refusal");
    words.trim_matches('"').to_string()
}

/// Another processor, short pointers, and another calling convention.
#[test]
fn other_machines_are_refused() {
    let words = words_for_other_machines();
    for compiler in of_both() {
        for header in HEADERS {
            for other in ["-U__x86_64__", "-D__ILP32__", "-D_WIN32"] {
                let said = compiler.compile(&including(&[header], ""), &[other, "-fsyntax-only"]);
                let said = said.expect_err("another machine");
                assert!(said.contains(&words), "{} {other}: {said}", compiler.name);
            }
        }
    }
}

/// A function that starts a cycle with a record of this kind.
fn starting(record: &str, given: &str) -> String {
    let function = format!(
        "uint8_t f(struct jorivelune_shape shape, uint8_t *bytes);\n\
         uint8_t f(struct jorivelune_shape shape, uint8_t *bytes)\n{{\n\
         {record};\n\
         return jorivelune_start({given}, shape, 0, bytes, 1, bytes, 1, bytes, 1);\n}}\n"
    );
    including(&HEADERS[..1], &function)
}

/// Seven bare words, of which any index would do, are no record any more.
#[test]
fn an_array_of_words_is_no_record() {
    let right = starting(
        "struct jorivelune_record record = {0, 0, 0, 0, 0, 0, 0}",
        "&record",
    );
    let wrong = starting("size_t record[7] = {0, 0, 0, 0, 0, 0, 0}", "record");
    for compiler in of_both() {
        assert_eq!(compiler.compile(&right, &[]), Ok(()), "{}", compiler.name);
        let said = compiler.compile(&wrong, &[]).expect_err("bare words");
        assert!(said.contains("jorivelune_record"), "{said}");
    }
}
