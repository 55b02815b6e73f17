//! The functions for C as the proved library has them, as the header declares them and
//! as this build binds them: names, order, constness and widths of all parameters are
//! compared by the texts themselves, and so are the shape and the record.
//!
//! The texts are read by small functions of their own (`tests/interface`), which are
//! tried on texts that are damaged.

mod interface {
    pub mod bindings;
    pub mod example;
    pub mod function;
    pub mod head;
    pub mod header;
    pub mod rattle;
    pub mod text;
    pub mod texts;
}

use interface::example;
use interface::texts::Texts;

#[test]
fn library_header_and_bindings_agree() {
    let found = Texts::of_repository().differences();
    assert!(found.is_empty(), "\n{}", found.join("\n"));
}

// ---- damaged texts

/// One of the texts of the example, to be damaged.
#[derive(Clone, Copy, Debug)]
enum Text {
    Calls(usize),
    Shape,
    Header,
    Head,
    Bindings,
}

impl Text {
    fn of(self, texts: &mut Texts) -> &mut String {
        match self {
            Text::Calls(file) => &mut texts.calls[file],
            Text::Shape => &mut texts.shape,
            Text::Header => &mut texts.header,
            Text::Head => &mut texts.head,
            Text::Bindings => &mut texts.bindings,
        }
    }
}

/// What differs after one thing of a text is replaced.
fn damaged(text: Text, from: &str, to: &str) -> Vec<String> {
    let mut texts = example::texts();
    let damaged = text.of(&mut texts);
    assert_eq!(damaged.matches(from).count(), 1, "{text:?}: {from}");
    *damaged = damaged.replace(from, to);
    texts.differences()
}

/// The damage is found, and what is said of it has these words.
fn finds(text: Text, from: &str, to: &str, words: &str) {
    let found = damaged(text, from, to);
    let said = found.iter().any(|line| line.contains(words));
    assert!(said, "{text:?}, {to} for {from}: {found:?}");
}

#[test]
fn the_example_agrees() {
    assert_eq!(example::texts().differences(), [""; 0]);
}

#[test]
fn swapped_answers_are_found_in_each_text() {
    let words = "jorivelune_panel in the library and the header: total: size_t * and first";
    let swapped = "size_t *first, size_t *total";
    finds(Text::Header, "size_t *total, size_t *first", swapped, words);
    let words = "jorivelune_panel in the library and the bindings: total: size_t * and first";
    let in_order = "        total: *mut usize,\n        first: *mut usize,";
    let swapped = "        first: *mut usize,\n        total: *mut usize,";
    finds(Text::Bindings, in_order, swapped, words);
    let words = "jorivelune_panel in the library and the header: first: size_t * and total";
    let in_order = "    total: &mut usize,\n    first: &mut usize,";
    let swapped = "    first: &mut usize,\n    total: &mut usize,";
    finds(Text::Calls(0), in_order, swapped, words);
}

#[test]
fn a_lost_const_is_found_in_each_text() {
    let words = "flags: const uint8_t * and flags: uint8_t *";
    finds(
        Text::Header,
        "const uint8_t *flags",
        "uint8_t *flags",
        words,
    );
    finds(Text::Bindings, "flags: *const u8", "flags: *mut u8", words);
    let words = "flags: uint8_t * and flags: const uint8_t *";
    finds(Text::Calls(0), "flags: &[u8]", "flags: &mut [u8]", words);
    let words = "out: uint8_t * and out: const uint8_t *";
    finds(Text::Header, "uint8_t *out", "const uint8_t *out", words);
}

#[test]
fn another_width_is_found_in_each_text() {
    let words = "row: size_t and row: uint8_t";
    finds(Text::Header, "size_t row,", "uint8_t row,", words);
    finds(Text::Bindings, "row: usize", "row: u8", words);
    finds(
        Text::Calls(1),
        "row: usize",
        "row: u16",
        "row: uint16_t and row: size_t",
    );
    let words = "input: uint16_t and input: uint8_t";
    finds(Text::Header, "uint16_t input,", "uint8_t input,", words);
    let words = "inputs: const uint16_t * and inputs: const uint8_t *";
    finds(Text::Bindings, "*const u16", "*const u8", words);
    finds(Text::Header, "const uint16_t *", "const uint8_t *", words);
    let words = "inputs: const uint8_t * and inputs: const uint16_t *";
    finds(Text::Calls(1), "inputs: &[u16]", "inputs: &[u8]", words);
    finds(
        Text::Header,
        "bool *holds",
        "uint8_t *holds",
        "holds: bool * and holds: uint8_t *",
    );
    finds(
        Text::Header,
        "uint8_t jorivelune_sound",
        "size_t jorivelune_sound",
        "gives uint8_t and size_t",
    );
    finds(
        Text::Calls(1),
        "holds: &mut bool) -> u8",
        "holds: &mut bool) -> u16",
        "gives uint16_t",
    );
}

/// A byte that is answered, one that is given, and bytes with a length.
#[test]
fn another_kind_of_byte_is_found_in_each_text() {
    let words = "belt: uint8_t * and belt: uint8_t";
    finds(Text::Header, "uint8_t *belt", "uint8_t belt", words);
    finds(Text::Bindings, "belt: *mut u8", "belt: u8", words);
    let words = "belt: uint8_t and belt: uint8_t *";
    finds(Text::Calls(1), "belt: &mut u8", "belt: u8", words);
    let words = "jorivelune_route in the library and the header: 5 and 4 parameters";
    finds(Text::Calls(1), "belt: &mut u8", "belt: &mut [u8]", words);
    let words = "belt: size_t * and belt: uint8_t *";
    finds(Text::Calls(1), "belt: &mut u8", "belt: &mut usize", words);
    let from = "? &unread : found,";
    finds(
        Text::Head,
        from,
        "? &unread : belt,",
        "jorivelune_route: called with",
    );
}

#[test]
fn another_order_or_number_of_parameters_is_found() {
    finds(
        Text::Header,
        "size_t row, uint8_t byte",
        "uint8_t byte, size_t row",
        "row: size_t and byte",
    );
    finds(
        Text::Bindings,
        "        flags_length: usize,\n",
        "",
        "5 and 4 parameters",
    );
    finds(Text::Calls(1), ", byte: u8", "", "jorivelune_sound");
    finds(
        Text::Header,
        "flags_length",
        "flag_length",
        "flags_length: size_t and flag_length",
    );
}

#[test]
fn a_missing_function_is_found_in_each_text() {
    let sound = "uint8_t jorivelune_sound(struct jorivelune_shape shape, size_t row, \
                 uint8_t byte, bool *holds);\n";
    finds(
        Text::Header,
        sound,
        "",
        "jorivelune_sound: not in the header",
    );
    let sound =
        "    fn jorivelune_sound(shape: Numbers, row: usize, byte: u8, holds: *mut u8) -> u8;\n";
    finds(
        Text::Bindings,
        sound,
        "",
        "jorivelune_sound: not in the bindings",
    );
    let mut texts = example::texts();
    texts.calls.pop();
    let found = texts.differences();
    assert!(
        found.contains(&"jorivelune_sound: not in the library".into()),
        "{found:?}"
    );
    assert!(
        found.contains(&"jorivelune_wide: not in the library".into()),
        "{found:?}"
    );
}

#[test]
fn the_clauses_of_an_extern_function_are_asked_for() {
    let ensures = "    ensures { result ≡ started { words, shape } }\n";
    let requires = "    requires { 0 < shape.rows }\n";
    let both = [
        requires.to_string() + ensures,
        ensures.to_string() + requires,
    ];
    for clauses in &both {
        finds(
            Text::Calls(0),
            ensures,
            clauses,
            "jorivelune_start: a caller in C cannot be asked",
        );
    }
    finds(Text::Calls(0), ensures, "", "jorivelune_start: no ensures");
    finds(
        Text::Calls(0),
        ensures,
        "    promises it all\n",
        "a clause of another form",
    );
}

#[test]
fn the_marks_of_an_extern_function_are_asked_for() {
    let start = "#[unsafe(no_mangle)]\npub extern \"C\" fn jorivelune_start";
    let unmarked = "pub extern \"C\" fn jorivelune_start";
    finds(
        Text::Calls(0),
        start,
        unmarked,
        "jorivelune_start: no #[unsafe(no_mangle)]",
    );
    let private = "#[unsafe(no_mangle)]\nextern \"C\" fn jorivelune_start";
    finds(Text::Calls(0), start, private, "jorivelune_start: not pub");
    let foreign = "#[unsafe(no_mangle)]\npub fn jorivelune_start";
    finds(Text::Calls(0), start, foreign, "2 marks and 1 functions");
}

#[test]
fn a_type_that_does_not_cross_is_named() {
    finds(
        Text::Calls(1),
        "row: usize",
        "row: u32",
        "jorivelune_sound: the type \"u32\"",
    );
    finds(
        Text::Calls(0),
        "flags: &[u8]",
        "flags: &Flags",
        "jorivelune_panel: the type \"&Flags\"",
    );
    finds(
        Text::Header,
        "size_t row,",
        "unsigned row,",
        "the type \"unsigned\"",
    );
    finds(Text::Bindings, "row: usize", "row: u64", "the type \"u64\"");
}

#[test]
fn another_shape_is_found_in_each_text() {
    let in_order = "    size_t radix; // rho\n    size_t rows;";
    let swapped = "    size_t rows;\n    size_t radix;";
    finds(Text::Header, in_order, swapped, "[\"rows\", \"radix\"]");
    let in_order = "    radix: usize,\n    rows: usize,";
    finds(
        Text::Bindings,
        in_order,
        "    rows: usize,\n    radix: usize,",
        "[\"rows\", \"radix\"]",
    );
    let swapped = "    pub rows: usize,\n    pub radix: usize,\n";
    let in_order = "    pub radix: usize,\n    // the rows\n    pub rows: usize,\n";
    finds(
        Text::Shape,
        in_order,
        swapped,
        "jorivelune_shape: [\"rows\", \"radix\"]",
    );
    finds(Text::Shape, "#[repr(C)]\n", "", "Shape: no #[repr(C)]");
    finds(Text::Bindings, "#[repr(C)]\n", "", "Numbers: no #[repr(C)]");
    finds(Text::Shape, "rows: usize", "rows: u16", "is no usize");
    finds(
        Text::Header,
        "== 2 * sizeof",
        "== 5 * sizeof",
        "jorivelune_shape: 5 words are asserted",
    );
}

#[test]
fn another_number_of_words_is_found_in_each_text() {
    let skip = "    size_t skip;\n";
    finds(
        Text::Header,
        skip,
        "    size_t skip;\n    size_t more;\n",
        "7 words in the second build, not 8",
    );
    finds(Text::Header, skip, "", "7 words in jorivelune_start, not 6");
    finds(
        Text::Header,
        skip,
        "    uint8_t skip;\n",
        "the member \"uint8_t skip\" is no size_t",
    );
    finds(
        Text::Header,
        "== 7 * sizeof",
        "== 8 * sizeof",
        "8 words in the header's assertion",
    );
    finds(
        Text::Calls(0),
        "[usize; 7]",
        "[usize; 8]",
        "8 words in jorivelune_start, not 7",
    );
}

#[test]
fn a_call_that_a_head_does_not_make_is_found() {
    let call =
        "    return jorivelune_sound(head->shape, row, byte, holds == NULL ? &unread : holds);\n";
    finds(
        Text::Head,
        call,
        "    return 0;\n",
        "jorivelune_sound: called 0 times",
    );
    finds(
        Text::Head,
        call,
        &call.repeat(2),
        "jorivelune_sound: called 2 times",
    );
    finds(
        Text::Head,
        "return jorivelune_sound",
        "(void)jorivelune_sound",
        "not passed on",
    );
    let next =
        "}\nstatic inline uint8_t jorivelune_head_panel(const struct jorivelune_head *head, \
                struct panel *panel)\n{\n";
    finds(
        Text::Head,
        next,
        "",
        "jorivelune_panel: made by jorivelune_head_start",
    );
    finds(
        Text::Head,
        "uint8_t jorivelune_head_panel(",
        "uint8_t jorivelune_head_show(",
        "jorivelune_panel: made by jorivelune_head_show",
    );
}

#[test]
fn another_argument_of_a_call_on_a_head_is_found() {
    let swapped = "&panel->first, &panel->total";
    finds(
        Text::Head,
        "&panel->total, &panel->first",
        swapped,
        "jorivelune_panel: called with",
    );
    finds(
        Text::Head,
        "PART((head)->counters)",
        "PART((head)->flags)",
        "jorivelune_start: called with",
    );
    finds(
        Text::Head,
        "row, byte, holds",
        "byte, row, holds",
        "jorivelune_sound: called with",
    );
    finds(
        Text::Head,
        "JORIVELUNE_PART(head->flags)",
        "head->flags",
        "jorivelune_panel: called with",
    );
}
