//! The extern functions and the shape in the text of the proved library.

use super::function::{Function, Kind, Parameter, Width};
use super::text::{beginning, bracketed, parts, without_comments, word, Read};

const EXTERN: &str = "extern \"C\" fn ";

/// The extern functions, each with what it takes and gives, and the numbers of words of
/// their records.
#[derive(Default)]
pub struct Calls {
    pub functions: Vec<Function>,
    pub words: Vec<(String, usize)>,
}

impl Calls {
    /// Reads the functions of one more file.
    pub fn read(&mut self, text: &str) -> Read<()> {
        let text = without_comments(text);
        let pieces: Vec<&str> = text.split(EXTERN).collect();
        for pair in pieces.windows(2) {
            let (name, _) = word(pair[1]);
            self.read_function(pair[0], pair[1])
                .map_err(|why| format!("{name}: {why}"))?;
        }
        let marks = text.matches("#[unsafe(no_mangle)]").count();
        if marks + 1 != pieces.len() {
            return Err(format!("{marks} marks and {} functions", pieces.len() - 1));
        }
        Ok(())
    }

    /// One function, from its name on, and what stands before it.
    fn read_function(&mut self, before: &str, text: &str) -> Read<()> {
        let item = before.rsplit(['}', ';']).next().unwrap_or(before);
        if !item.contains("#[unsafe(no_mangle)]") {
            return Err("no #[unsafe(no_mangle)]".into());
        }
        if !item.trim_end().ends_with("pub") {
            return Err("not pub".into());
        }
        let (name, rest) = word(text);
        let (inside, rest) = bracketed(rest, ['(', ')'])?;
        let mut parameters = Vec::new();
        for part in parts(inside) {
            let (called, of) = part.split_once(':').ok_or(format!("{part:?}"))?;
            parameters.extend(self.parameters(name, called.trim(), of.trim())?);
        }
        let rest = rest
            .trim_start()
            .strip_prefix("->")
            .ok_or("gives nothing")?;
        let (gives, rest) = word(rest.trim_start());
        ask_clauses(rest)?;
        self.functions.push(Function {
            name: name.to_string(),
            parameters,
            gives: Kind::Number(number(gives)?),
        });
        Ok(())
    }

    /// The parameters in C for one of a function.
    fn parameters(&mut self, function: &str, name: &str, of: &str) -> Read<Vec<Parameter>> {
        if let Some(words) = record_words(of) {
            self.words.push((function.to_string(), words));
            // `record` is a keyword of contracts, so it has another name there
            let name = if name == "words" { "record" } else { name };
            return Ok(vec![Parameter::new(name, Kind::Record)]);
        }
        if let Some(kind) = slice(of) {
            let length = Parameter::length(name);
            return Ok(vec![Parameter::new(name, kind), length]);
        }
        let kind = match of {
            "Shape" => Kind::Shape,
            "&mut usize" => Kind::Lent(Width::Size),
            "&mut u8" => Kind::Lent(Width::Byte),
            "&mut bool" => Kind::Lent(Width::Truth),
            _ => Kind::Number(number(of)?),
        };
        Ok(vec![Parameter::new(name, kind)])
    }
}

/// A number that crosses by itself.
fn number(of: &str) -> Read<Width> {
    match of {
        "u8" => Ok(Width::Byte),
        "u16" => Ok(Width::Pair),
        "usize" => Ok(Width::Size),
        _ => Err(format!("the type {of:?} does not cross to C")),
    }
}

/// A slice, which crosses as a pointer and a length.
fn slice(of: &str) -> Option<Kind> {
    match of {
        "&[u8]" => Some(Kind::Given(Width::Byte)),
        "&mut [u8]" => Some(Kind::Lent(Width::Byte)),
        "&[u16]" => Some(Kind::Given(Width::Pair)),
        "&mut [u16]" => Some(Kind::Lent(Width::Pair)),
        _ => None,
    }
}

/// How many words a record has.
fn record_words(of: &str) -> Option<usize> {
    let length = of.strip_prefix("&mut [usize;")?.strip_suffix(']')?;
    length.trim().parse().ok()
}

/// The clauses between a function's parameters and its body: something is promised, and
/// nothing is asked of the caller.
fn ask_clauses(text: &str) -> Read<()> {
    let mut ensured = false;
    let mut rest = text.trim_start();
    while !rest.starts_with('{') {
        let (clause, inside) = word(rest);
        match clause {
            "requires" => return Err("a caller in C cannot be asked for what it requires".into()),
            "ensures" => ensured = true,
            _ => return Err(format!("a clause of another form: {:?}", beginning(rest))),
        }
        // where a kind has two clauses, each has a name
        let inside = inside.trim_start();
        let inside = if inside.starts_with('{') {
            inside
        } else {
            word(inside).1.trim_start()
        };
        rest = bracketed(inside, ['{', '}'])?.1.trim_start();
    }
    ensured.then_some(()).ok_or("no ensures".into())
}

/// The fields of a public struct that crosses, which all are sizes.
pub fn fields(text: &str, name: &str) -> Read<Vec<String>> {
    let text = without_comments(text);
    let beginning = format!("struct {name} {{");
    let start = text.find(&beginning).ok_or(format!("no struct {name}"))?;
    let (before, rest) = text.split_at(start);
    let item = before.rsplit(['}', ';']).next().unwrap_or(before);
    if !item.contains("#[repr(C)]") {
        return Err(format!("{name}: no #[repr(C)]"));
    }
    let (inside, _) = bracketed(&rest[beginning.len() - 1..], ['{', '}'])?;
    parts(inside)
        .into_iter()
        .map(|field| size_field(field).ok_or(format!("{name}: the field {field:?} is no usize")))
        .collect()
}

/// The name of a field that is a size.
fn size_field(field: &str) -> Option<String> {
    let (name, of) = field.split_once(':')?;
    let name = name.trim().trim_start_matches("pub ");
    (of.trim() == "usize").then(|| name.trim().to_string())
}
