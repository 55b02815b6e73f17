//! The functions as the second build declares them.

use super::function::{Function, Kind, Parameter, Width};
use super::header::BEGINNING;
use super::text::{bracketed, places, without_comments, word, Read};

/// The functions that are declared.
pub fn functions(text: &str) -> Read<Vec<Function>> {
    let text = without_comments(text);
    places(&text, BEGINNING)
        .filter(|place| place.before.ends_with("fn "))
        .map(|place| {
            let (inside, rest) = bracketed(place.after, ['(', ')'])?;
            let rest = rest.trim_start().strip_prefix("->");
            let gives = rest.ok_or(format!("{}: gives nothing", place.word))?;
            let gives = kind(word(gives.trim_start()).0)?;
            Function::read(place.word, inside, parameter, gives)
        })
        .collect()
}

fn parameter(text: &str) -> Read<Parameter> {
    let (name, of) = text.split_once(':').ok_or(format!("{text:?}"))?;
    Ok(Parameter::new(name.trim(), kind(of.trim())?))
}

fn kind(of: &str) -> Read<Kind> {
    match of {
        "Numbers" => Ok(Kind::Shape),
        "*mut Words" => Ok(Kind::Record),
        "u8" => Ok(Kind::Number(Width::Byte)),
        "u16" => Ok(Kind::Number(Width::Pair)),
        "usize" => Ok(Kind::Number(Width::Size)),
        "*const u8" => Ok(Kind::Given(Width::Byte)),
        "*const u16" => Ok(Kind::Given(Width::Pair)),
        "*mut u8" => Ok(Kind::Lent(Width::Byte)),
        "*mut u16" => Ok(Kind::Lent(Width::Pair)),
        "*mut usize" => Ok(Kind::Lent(Width::Size)),
        _ => Err(format!("the type {of:?} is none of the bindings'")),
    }
}
