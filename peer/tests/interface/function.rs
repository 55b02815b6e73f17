//! A function as its caller in C sees it, and what differs between two.

use super::text::{parts, Read};
use std::fmt::{self, Display};

/// A number, by its width.
#[derive(Clone, Copy, Debug, PartialEq, Eq)]
pub enum Width {
    Byte,
    Pair,
    Size,
    /// A byte that is 0 or 1.
    Truth,
}

/// What a parameter is.
#[derive(Clone, Copy, Debug, PartialEq, Eq)]
pub enum Kind {
    /// The shape itself.
    Shape,
    /// A pointer to the record, to be written.
    Record,
    /// A number.
    Number(Width),
    /// A pointer to numbers that are read.
    Given(Width),
    /// A pointer to numbers that may be written.
    Lent(Width),
}

/// A parameter.
#[derive(Clone, Debug, PartialEq, Eq)]
pub struct Parameter {
    pub name: String,
    pub kind: Kind,
}

/// A function.
#[derive(Clone, Debug, PartialEq, Eq)]
pub struct Function {
    pub name: String,
    pub parameters: Vec<Parameter>,
    pub gives: Kind,
}

impl Parameter {
    pub fn new(name: &str, kind: Kind) -> Parameter {
        Parameter {
            name: name.to_string(),
            kind,
        }
    }

    /// The length that is given after a buffer of the name.
    pub fn length(name: &str) -> Parameter {
        Parameter::new(&format!("{name}_length"), Kind::Number(Width::Size))
    }
}

impl Function {
    /// A function whose parameters are read one by one from what its brackets hold.
    pub fn read(
        name: &str,
        inside: &str,
        parameter: impl Fn(&str) -> Read<Parameter>,
        gives: Kind,
    ) -> Read<Function> {
        let parameters: Read<_> = parts(inside).into_iter().map(parameter).collect();
        Ok(Function {
            name: name.to_string(),
            parameters: parameters?,
            gives,
        })
    }

    /// The same function where yes and no cross as a byte.
    pub fn with_bytes(mut self) -> Function {
        for parameter in &mut self.parameters {
            if parameter.kind == Kind::Lent(Width::Truth) {
                parameter.kind = Kind::Lent(Width::Byte);
            }
        }
        self
    }
}

impl Display for Width {
    fn fmt(&self, f: &mut fmt::Formatter) -> fmt::Result {
        f.write_str(match self {
            Width::Byte => "uint8_t",
            Width::Pair => "uint16_t",
            Width::Size => "size_t",
            Width::Truth => "bool",
        })
    }
}

impl Display for Kind {
    fn fmt(&self, f: &mut fmt::Formatter) -> fmt::Result {
        match self {
            Kind::Shape => f.write_str("struct jorivelune_shape"),
            Kind::Record => f.write_str("struct jorivelune_record *"),
            Kind::Number(width) => write!(f, "{width}"),
            Kind::Given(width) => write!(f, "const {width} *"),
            Kind::Lent(width) => write!(f, "{width} *"),
        }
    }
}

impl Display for Parameter {
    fn fmt(&self, f: &mut fmt::Formatter) -> fmt::Result {
        write!(f, "{}: {}", self.name, self.kind)
    }
}

/// Functions, and what the text is called that has them.
pub struct Listing<'a> {
    pub text: &'a str,
    pub functions: Vec<Function>,
}

impl Listing<'_> {
    fn find(&self, name: &str) -> Option<&Function> {
        self.functions.iter().find(|other| other.name == name)
    }

    /// The functions that the other text has not.
    fn missing_in<'a>(&'a self, other: &'a Listing) -> impl Iterator<Item = String> + 'a {
        let missing = |function: &&Function| other.find(&function.name).is_none();
        let says = |function: &Function| format!("{}: not in {}", function.name, other.text);
        self.functions.iter().filter(missing).map(says)
    }

    /// All that differs from the other text.
    pub fn differences(&self, other: &Listing) -> Vec<String> {
        let mut found: Vec<String> = self.missing_in(other).collect();
        found.extend(other.missing_in(self));
        for here in &self.functions {
            if let Some(there) = other.find(&here.name) {
                let says =
                    |what| format!("{} in {} and {}: {what}", here.name, self.text, other.text);
                found.extend(between(here, there).into_iter().map(says));
            }
        }
        found
    }
}

/// All that differs between two functions of one name.
fn between(here: &Function, there: &Function) -> Vec<String> {
    let mut found = Vec::new();
    if here.gives != there.gives {
        found.push(format!("gives {} and {}", here.gives, there.gives));
    }
    let numbers = [&here.parameters, &there.parameters].map(Vec::len);
    if numbers[0] != numbers[1] {
        found.push(format!("{} and {} parameters", numbers[0], numbers[1]));
    }
    let pairs = here.parameters.iter().zip(&there.parameters);
    let unequal = pairs.filter(|(here, there)| here != there);
    found.extend(unequal.map(|(here, there)| format!("{here} and {there}")));
    found
}
