//! The calls that the header with one struct makes.

use super::function::Function;
use super::text::{bracketed, last_word, parts, places, without_comments, Place, Read};

/// The parts of a head that several calls take, by one name.
const ROW_PARTS: &str = "JORIVELUNE_ROW_PARTS";

/// What stands for a buffer and its length.
const BUFFERS: [&str; 4] = [
    "JORIVELUNE_PART(",
    "JORIVELUNE_GIVEN(",
    "JORIVELUNE_INPUTS(",
    "JORIVELUNE_LENT(",
];

/// What is wrong with the calls of the functions: each is made once, in the inline
/// function of its name, and every argument bears the name of its parameter.
pub fn differences(text: &str, functions: &[Function]) -> Read<Vec<String>> {
    let text = without_comments(text).replace("\\\n", " ");
    let shared = row_parts(&text)?;
    let mut found = Vec::new();
    for function in functions {
        let calls: Vec<Place> = places(&text, &function.name)
            .filter(|place| place.word == function.name && place.after.starts_with('('))
            .collect();
        match calls[..] {
            [call] => {
                found.extend(wrong_call(call, function, &shared)?);
                found.extend(wrong_maker(call)?);
            }
            _ => found.push(format!("{}: called {} times", function.name, calls.len())),
        }
    }
    Ok(found)
}

/// What is wrong with the inline function in which a call stands: its name is that of
/// the call, with the head in it.
fn wrong_maker(call: Place) -> Read<Option<String>> {
    let outside = || format!("{}: called in no inline function", call.word);
    let (_, function) = call
        .before
        .rsplit_once("static inline ")
        .ok_or_else(outside)?;
    let maker = places(function, "jorivelune_head_")
        .find(|place| place.after.starts_with('('))
        .ok_or_else(outside)?;
    let wanted = call.word.replacen("jorivelune_", "jorivelune_head_", 1);
    let wrong = maker.word != wanted;
    Ok(wrong.then(|| format!("{}: made by {}", call.word, maker.word)))
}

/// What the name for several parts stands for.
fn row_parts(text: &str) -> Read<String> {
    let define = format!("#define {ROW_PARTS}(head)");
    let mut lines = text.lines().filter_map(|line| line.strip_prefix(&define));
    lines
        .next()
        .map(String::from)
        .ok_or(format!("no {ROW_PARTS}"))
}

/// What is wrong with one call.
fn wrong_call(call: Place, function: &Function, shared: &str) -> Read<Option<String>> {
    let name = &function.name;
    if !call.before.trim_end().ends_with("return") {
        return Ok(Some(format!("{name}: its answer is not passed on")));
    }
    let (inside, _) = bracketed(call.after, ['(', ')'])?;
    let inside = inside.replace(&format!("{ROW_PARTS}(head)"), shared);
    let given: Vec<String> = parts(&inside).into_iter().flat_map(names).collect();
    let wanted = function.parameters.iter().map(|parameter| &parameter.name);
    if given.iter().eq(wanted) {
        Ok(None)
    } else {
        Ok(Some(format!("{name}: called with {}", given.join(", "))))
    }
}

/// The names of the parameters that an argument is for.
fn names(argument: &str) -> Vec<String> {
    let name = last_word(argument).to_string();
    if BUFFERS.iter().any(|buffer| argument.starts_with(buffer)) {
        let length = format!("{name}_length");
        vec![name, length]
    } else {
        vec![name]
    }
}
