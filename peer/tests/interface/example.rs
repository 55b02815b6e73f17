//! Texts that agree, to be damaged.

use super::texts::Texts;

/// Functions with every type that crosses, in one file and another.
const CALLS: [&str; 2] = [
    r#"
use parity::Shape;

/// A call that has { the record.
#[unsafe(no_mangle)]
pub extern "C" fn jorivelune_start(words: &mut [usize; 7], shape: Shape, counters: &mut [u8]) -> u8
    ensures { result ≡ started { words, shape } }
{
    if shape.rows == 0 { 5 } else { 0 }
}

fn helper(shape: &Shape) -> u8
    requires { 0 < shape.rows }
    ensures { result ≡ 0 }
{
    0
}

#[unsafe(no_mangle)]
pub extern "C" fn jorivelune_panel(
    shape: Shape,
    flags: &[u8], // one for each row
    total: &mut usize,
    first: &mut usize,
) -> u8
    ensures told { result ≡ 0 }
    ensures first { result ≡ 0 }
{
    0
}
"#,
    r#"
#[unsafe(no_mangle)]
pub extern "C" fn jorivelune_sound(shape: Shape, row: usize, byte: u8, holds: &mut bool) -> u8
    ensures { result ≡ 0 }
{
    0
}

#[unsafe(no_mangle)]
pub extern "C" fn jorivelune_wide(inputs: &[u16], input: u16, out: &mut [u8]) -> u8
    ensures { result ≡ 0 }
{
    0
}

#[unsafe(no_mangle)]
pub extern "C" fn jorivelune_route(values: &[u8], found: &mut usize, belt: &mut u8) -> u8
    ensures { result ≡ 0 }
{
    0
}
"#,
];

const SHAPE: &str = r#"
/// The shape.
#[repr(C)]
pub struct Shape {
    /// The radix { rho.
    pub radix: usize,
    // the rows
    pub rows: usize,
}
"#;

const HEADER: &str = r#"
// jorivelune_old(a) is no function any more.
#ifndef JORIVELUNE_H
#define JORIVELUNE_H
#ifdef __cplusplus
extern "C" {
#endif
enum jorivelune_phase {
    JORIVELUNE_IDLE = 0,
};
struct jorivelune_shape {
    size_t radix; // rho
    size_t rows;
};
struct jorivelune_record {
    size_t phase;
    size_t check; // the place
    size_t digit;
    size_t column;
    size_t factor;
    size_t count;
    size_t skip;
};
static_assert(sizeof(struct jorivelune_record) == 7 * sizeof(size_t), "seven");
static_assert(sizeof(struct jorivelune_shape) == 2 * sizeof(size_t), "two");
/* A call that has the record. */
uint8_t jorivelune_start(struct jorivelune_record *record, struct jorivelune_shape shape,
                         uint8_t *counters, size_t counters_length);
uint8_t jorivelune_panel(struct jorivelune_shape shape,
                         const uint8_t *flags, size_t flags_length,
                         size_t *total, size_t *first);
uint8_t jorivelune_sound(struct jorivelune_shape shape, size_t row, uint8_t byte, bool *holds);
uint8_t jorivelune_wide(const uint16_t *inputs, size_t inputs_length, uint16_t input,
                        uint8_t *out, size_t out_length);
uint8_t jorivelune_route(const uint8_t *values, size_t values_length, size_t *found, uint8_t *belt);
#ifdef __cplusplus
}
#endif
#endif
"#;

const HEAD: &str = r#"
// jorivelune_start(a) is called once.
#define JORIVELUNE_PART(part) (part).bytes, (part).length
#define JORIVELUNE_ROW_PARTS(head) \
    JORIVELUNE_PART((head)->counters)
static inline uint8_t jorivelune_head_start(struct jorivelune_head *head)
{
    return jorivelune_start(&head->record, head->shape, JORIVELUNE_ROW_PARTS(head));
}
static inline uint8_t jorivelune_head_panel(const struct jorivelune_head *head, struct panel *panel)
{
    return jorivelune_panel(head->shape, JORIVELUNE_PART(head->flags),
                            &panel->total, &panel->first);
}
static inline uint8_t jorivelune_head_sound(const struct jorivelune_head *head, size_t row,
                                            uint8_t byte, bool *holds)
{
    bool unread;
    return jorivelune_sound(head->shape, row, byte, holds == NULL ? &unread : holds);
}
static inline uint8_t jorivelune_head_wide(const uint16_t *inputs, size_t inputs_length,
                                           uint16_t input, uint8_t *out, size_t out_length)
{
    return jorivelune_wide(JORIVELUNE_INPUTS(inputs), input, JORIVELUNE_LENT(out));
}
static inline uint8_t jorivelune_head_route(const uint8_t *values, size_t values_length,
                                            size_t *found, uint8_t *belt)
{
    size_t unread;
    uint8_t unread_belt;
    return jorivelune_route(JORIVELUNE_GIVEN(values), found == NULL ? &unread : found,
                            belt == NULL ? &unread_belt : belt);
}
"#;

const BINDINGS: &str = r#"
/// The shape as it crosses.
#[repr(C)]
pub struct Numbers {
    radix: usize,
    rows: usize,
}

macro_rules! linked {
    ($(fn $name:ident($($argument:ident: $kind:ty),* $(,)?) -> u8;)*) => {};
}

linked! {
    fn jorivelune_start(
        record: *mut Words,
        shape: Numbers,
        counters: *mut u8,
        counters_length: usize,
    ) -> u8;
    fn jorivelune_panel(
        shape: Numbers,
        flags: *const u8,
        flags_length: usize,
        total: *mut usize,
        first: *mut usize,
    ) -> u8;
    fn jorivelune_sound(shape: Numbers, row: usize, byte: u8, holds: *mut u8) -> u8;
    fn jorivelune_wide(
        inputs: *const u16,
        inputs_length: usize,
        input: u16,
        out: *mut u8,
        out_length: usize,
    ) -> u8;
    fn jorivelune_route(
        values: *const u8,
        values_length: usize,
        found: *mut usize,
        belt: *mut u8,
    ) -> u8;
}
"#;

/// The texts.
pub fn texts() -> Texts {
    Texts {
        calls: CALLS.map(String::from).to_vec(),
        shape: SHAPE.into(),
        header: HEADER.into(),
        head: HEAD.into(),
        bindings: BINDINGS.into(),
    }
}
