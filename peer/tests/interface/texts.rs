//! The texts that have to agree, and what differs between them.

use std::fs;
use std::path::Path;

use peer::testing::records::Words;

use super::function::{Function, Listing};
use super::text::Read;
use super::{bindings, head, header, rattle};

const SHAPE: &str = "jorivelune_shape";
const RECORD: &str = "jorivelune_record";

/// How many words a record has in the second build.
const WORDS: usize = size_of::<Words>() / size_of::<usize>();

/// The texts.
#[derive(Clone)]
pub struct Texts {
    /// The files with the extern functions.
    pub calls: Vec<String>,
    /// The file with the shape.
    pub shape: String,
    pub header: String,
    /// The header with one struct.
    pub head: String,
    pub bindings: String,
}

fn read(path: &Path) -> String {
    fs::read_to_string(path).unwrap_or_else(|error| panic!("{}: {error}", path.display()))
}

/// The files of a folder in the language of the proved library.
fn read_folder(path: &str) -> Vec<String> {
    let files = fs::read_dir(path).unwrap_or_else(|error| panic!("{path}: {error}"));
    files
        .map(|file| file.expect("a file").path())
        .filter(|path| path.extension().is_some_and(|ending| ending == "rt"))
        .map(|path| read(&path))
        .collect()
}

impl Texts {
    /// Those of the repository.
    pub fn of_repository() -> Texts {
        let text = |path: &str| read(Path::new(path));
        Texts {
            calls: read_folder("../crates/jorivelune_c/src"),
            shape: text("../crates/parity/src/lib.rt"),
            header: text("../include/jorivelune.h"),
            head: text("../include/jorivelune_head.h"),
            bindings: text("tests/proved_calls/linked.rs"),
        }
    }

    /// All that differs, or what cannot be read.
    pub fn differences(&self) -> Vec<String> {
        let parts = [
            self.functions(),
            self.shapes(),
            self.records(),
            self.calls_on_a_head(),
        ];
        let or_why = |found: Read<Vec<String>>| found.unwrap_or_else(|why| vec![why]);
        parts.into_iter().flat_map(or_why).collect()
    }

    /// The extern functions.
    fn calls(&self) -> Read<rattle::Calls> {
        let mut calls = rattle::Calls::default();
        for text in &self.calls {
            calls.read(text)?;
        }
        Ok(calls)
    }

    /// The functions of the proved library, the header and the bindings.
    fn functions(&self) -> Read<Vec<String>> {
        let proved = self.calls()?.functions;
        let bytes = proved.iter().cloned().map(Function::with_bytes).collect();
        let listed = |text, functions| Listing { text, functions };
        let header = listed("the header", header::functions(&self.header)?);
        let bindings = listed("the bindings", bindings::functions(&self.bindings)?);
        let mut found = listed("the library", proved).differences(&header);
        found.extend(listed("the library", bytes).differences(&bindings));
        Ok(found)
    }

    /// The fields of the shape, in order, in all three.
    fn shapes(&self) -> Read<Vec<String>> {
        let proved = rattle::fields(&self.shape, "Shape")?;
        let header = header::members(&self.header, SHAPE)?;
        let bindings = rattle::fields(&self.bindings, "Numbers")?;
        let asserted = header::asserted(&self.header, SHAPE)?;
        let mut found = Vec::new();
        if header != proved || bindings != proved {
            found.push(format!("{SHAPE}: {proved:?}, {header:?} and {bindings:?}"));
        }
        if asserted != proved.len() {
            found.push(format!("{SHAPE}: {asserted} words are asserted"));
        }
        Ok(found)
    }

    /// The number of the record's words, wherever it stands.
    fn records(&self) -> Read<Vec<String>> {
        let members = header::members(&self.header, RECORD)?.len();
        let asserted = header::asserted(&self.header, RECORD)?;
        let mut numbers = self.calls()?.words;
        numbers.push(("the second build".into(), WORDS));
        numbers.push(("the header's assertion".into(), asserted));
        let unequal = numbers.into_iter().filter(|(_, words)| *words != members);
        let says = |(place, words)| format!("{RECORD}: {words} words in {place}, not {members}");
        Ok(unequal.map(says).collect())
    }

    /// The calls that the header with one struct makes.
    fn calls_on_a_head(&self) -> Read<Vec<String>> {
        head::differences(&self.head, &header::functions(&self.header)?)
    }
}
