//! The functions and the structs of the header for C.

use super::function::{Function, Kind, Parameter, Width};
use super::text::{bracketed, even, last_word, places, without_comments, Read};

/// What the name of every function begins with.
pub const BEGINNING: &str = "jorivelune_";

/// The text without comments and without the lines of the preprocessor.
fn declarations(text: &str) -> String {
    let text = without_comments(text).replace("\\\n", " ");
    let lines = text.lines().filter(|line| !line.starts_with('#'));
    lines.map(|line| format!("{line}\n")).collect()
}

/// The functions that the header declares.
pub fn functions(text: &str) -> Read<Vec<Function>> {
    let text = declarations(text);
    places(&text, BEGINNING)
        .filter(|place| place.after.starts_with('('))
        .map(|place| {
            let item = place.before.rsplit([';', '}', '{']).next().unwrap_or("");
            let (inside, rest) = bracketed(place.after, ['(', ')'])?;
            if !rest.starts_with(';') {
                return Err(format!("{}: no declaration", place.word));
            }
            let gives = Kind::Number(number(&even(item))?);
            Function::read(place.word, inside, parameter, gives)
        })
        .collect()
}

/// One parameter.
fn parameter(text: &str) -> Read<Parameter> {
    let name = last_word(text);
    let of = even(text.strip_suffix(name).ok_or(format!("{text:?}"))?);
    Ok(Parameter::new(name, kind(&of)?))
}

fn kind(of: &str) -> Read<Kind> {
    match (of, of.strip_suffix('*')) {
        ("struct jorivelune_shape", _) => Ok(Kind::Shape),
        ("struct jorivelune_record*", _) => Ok(Kind::Record),
        (_, None) => Ok(Kind::Number(number(of)?)),
        (_, Some(to)) => match to.strip_prefix("const ") {
            Some(to) => Ok(Kind::Given(number(to)?)),
            None => Ok(Kind::Lent(number(to)?)),
        },
    }
}

fn number(of: &str) -> Read<Width> {
    match of {
        "uint8_t" => Ok(Width::Byte),
        "uint16_t" => Ok(Width::Pair),
        "size_t" => Ok(Width::Size),
        "bool" => Ok(Width::Truth),
        _ => Err(format!("the type {of:?} is none of the header's")),
    }
}

/// The members of a struct, which all are sizes.
pub fn members(text: &str, name: &str) -> Read<Vec<String>> {
    let text = declarations(text);
    let beginning = format!("struct {name} {{");
    let start = text.find(&beginning).ok_or(format!("no struct {name}"))?;
    let (inside, _) = bracketed(&text[start + beginning.len() - 1..], ['{', '}'])?;
    let members = inside.split(';').map(str::trim).filter(|m| !m.is_empty());
    members
        .map(|member| {
            let called = member.strip_prefix("size_t ").map(str::trim);
            called
                .map(String::from)
                .ok_or(format!("{name}: the member {member:?} is no size_t"))
        })
        .collect()
}

/// How many words a struct has by the header's own assertion.
pub fn asserted(text: &str, name: &str) -> Read<usize> {
    let sized = format!("static_assert(sizeof(struct {name}) == ");
    let text = declarations(text);
    let (_, after) = text
        .split_once(&sized)
        .ok_or(format!("{name}: no assertion"))?;
    let (number, _) = after
        .split_once(" * sizeof(size_t)")
        .ok_or(format!("{name}: an assertion of another form"))?;
    number
        .parse()
        .map_err(|_| format!("{name}: {number:?} words"))
}
