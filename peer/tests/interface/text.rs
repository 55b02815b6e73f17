//! Readers of program text of any language.

/// What a reader gives, or why the text is not as it has to be.
pub type Read<T> = Result<T, String>;

/// The text without its comments: those to the end of a line, and those between
/// /* and */.
pub fn without_comments(text: &str) -> String {
    let mut kept = String::new();
    let mut left = text;
    while let Some(start) = ["//", "/*"].into_iter().filter_map(|m| left.find(m)).min() {
        let comment = &left[start..];
        let end = match comment.starts_with("//") {
            true => comment.find('\n'),
            false => comment.find("*/").map(|end| end + 2),
        };
        kept += &left[..start];
        kept += " ";
        left = &comment[end.unwrap_or(comment.len())..];
    }
    kept + left
}

/// Whether a letter may stand in a word.
fn is_letter(letter: char) -> bool {
    letter.is_alphanumeric() || letter == '_'
}

/// The word that the text begins with, and what follows it. The word may be empty.
pub fn word(text: &str) -> (&str, &str) {
    text.split_at(text.find(|letter| !is_letter(letter)).unwrap_or(text.len()))
}

/// The last word of the text.
pub fn last_word(text: &str) -> &str {
    let mut words = text.rsplit(|letter| !is_letter(letter));
    words.find(|word| !word.is_empty()).unwrap_or_default()
}

/// A word of a text, with what stands before and after it.
#[derive(Clone, Copy)]
pub struct Place<'a> {
    pub before: &'a str,
    pub word: &'a str,
    pub after: &'a str,
}

/// The places of all words that begin so.
pub fn places<'a>(text: &'a str, beginning: &'a str) -> impl Iterator<Item = Place<'a>> {
    text.match_indices(beginning)
        .map(|(start, _)| text.split_at(start))
        .filter(|(before, _)| !before.ends_with(is_letter))
        .map(|(before, rest)| {
            let (word, after) = word(rest);
            Place {
                before,
                word,
                after,
            }
        })
}

/// What stands between the bracket that the text begins with and its fellow, and what
/// follows that.
pub fn bracketed(text: &str, [open, close]: [char; 2]) -> Read<(&str, &str)> {
    let none = || format!("no {open} and {close} at {:?}", beginning(text));
    let inside = text.strip_prefix(open).ok_or_else(none)?;
    let mut depth = 1;
    for (place, letter) in inside.char_indices() {
        depth += i32::from(letter == open) - i32::from(letter == close);
        if depth == 0 {
            return Ok((&inside[..place], &inside[place + 1..]));
        }
    }
    Err(none())
}

/// The first letters of a text, for what is said of it.
pub fn beginning(text: &str) -> String {
    text.trim_start().chars().take(40).collect()
}

/// The parts between commas that stand in no brackets, without blanks around them; an
/// empty one after the last comma is none.
pub fn parts(text: &str) -> Vec<&str> {
    let mut depth = 0;
    let outside = move |letter: char| {
        depth += i32::from("([{".contains(letter)) - i32::from(")]}".contains(letter));
        letter == ',' && depth == 0
    };
    let mut parts: Vec<&str> = text.split(outside).map(str::trim).collect();
    parts.pop_if(|last| last.is_empty());
    parts
}

/// The text with one blank in place of several, and none after a star or before one.
pub fn even(text: &str) -> String {
    let words: Vec<&str> = text.split_whitespace().collect();
    words.join(" ").replace("* ", "*").replace(" *", "*")
}

#[cfg(test)]
mod tests {
    use super::{bracketed, even, last_word, parts, places, without_comments, word};

    #[test]
    fn comments_are_left_out() {
        let text = "a // b { \nc /* d\n */ e // f";
        assert_eq!(without_comments(text), "a  \nc   e  ");
        assert_eq!(without_comments("a / b * c"), "a / b * c");
    }

    #[test]
    fn words_are_whole() {
        assert_eq!(word("step_1(a)"), ("step_1", "(a)"));
        assert_eq!(word("(a)"), ("", "(a)"));
        assert_eq!(last_word("(head)->flags)"), "flags");
        assert_eq!(last_word("flags"), "flags");
        let found: Vec<&str> = places("a_step b a_steps not_a_step", "a_step")
            .map(|place| place.word)
            .collect();
        assert_eq!(found, ["a_step", "a_steps"]);
    }

    #[test]
    fn brackets_have_fellows() {
        assert_eq!(bracketed("(a (b)) c", ['(', ')']), Ok(("a (b)", " c")));
        assert!(bracketed("(a (b) c", ['(', ')']).is_err());
        assert!(bracketed("a (b)", ['(', ')']).is_err());
    }

    #[test]
    fn commas_in_brackets_part_nothing() {
        assert_eq!(parts("a, f(b, c), [d; 7],\n"), ["a", "f(b, c)", "[d; 7]"]);
        assert_eq!(parts(" "), [""; 0]);
        assert_eq!(even("const  uint8_t\n * cells"), "const uint8_t*cells");
    }
}
