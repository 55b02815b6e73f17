//! The functions of the archive as they are declared in C.

use peer::testing::records::Words;
use peer::Shape;

/// What the calls say where there is no archive.
const MISSING: &str = "target/staticlib/libjorivelune.a is missing: run tools/build jorivelune";

/// The shape as it crosses.
#[repr(C)]
#[derive(Clone, Copy)]
pub struct Numbers {
    radix: usize,
    digits: usize,
    errors: usize,
    width: usize,
    rows: usize,
}

impl From<Shape> for Numbers {
    fn from(shape: Shape) -> Numbers {
        Numbers {
            radix: shape.radix,
            digits: shape.digits,
            errors: shape.errors,
            width: shape.width,
            rows: shape.rows,
        }
    }
}

/// Declares the functions, or has each of them fail where they are not linked.
macro_rules! linked {
    ($(fn $name:ident($($argument:ident: $kind:ty),* $(,)?) -> u8;)*) => {
        #[cfg(proved)]
        #[link(name = "jorivelune", kind = "static")]
        extern "C" {
            $(pub fn $name($($argument: $kind),*) -> u8;)*
        }

        $(
            #[cfg(not(proved))]
            pub unsafe fn $name($(_: $kind),*) -> u8 {
                panic!("{MISSING}")
            }
        )*
    };
}

linked! {
    fn jorivelune_sizes(
        shape: Numbers,
        skip: usize,
        levels: *mut usize,
        checks: *mut usize,
        columns: *mut usize,
        cells: *mut usize,
        blocks: *mut usize,
        steps: *mut usize,
    ) -> u8;
    fn jorivelune_clear(
        record: *mut Words,
        shape: Numbers,
        cells: *mut u8,
        cells_length: usize,
        lines: *mut u8,
        lines_length: usize,
        counters: *mut u8,
        counters_length: usize,
        flags: *mut u8,
        flags_length: usize,
        totals: *mut u8,
        totals_length: usize,
    ) -> u8;
    fn jorivelune_program(
        record: *mut Words,
        shape: Numbers,
        cells: *mut u8,
        cells_length: usize,
        row: usize,
        levels: *const u8,
        levels_length: usize,
    ) -> u8;
    fn jorivelune_commit(
        record: *mut Words,
        shape: Numbers,
        cells: *mut u8,
        cells_length: usize,
        row: usize,
        finished: *const u8,
        finished_length: usize,
    ) -> u8;
    fn jorivelune_start(
        record: *mut Words,
        shape: Numbers,
        skip: usize,
        counters: *mut u8,
        counters_length: usize,
        flags: *mut u8,
        flags_length: usize,
        totals: *mut u8,
        totals_length: usize,
    ) -> u8;
    fn jorivelune_step(
        record: *mut Words,
        shape: Numbers,
        cells: *const u8,
        cells_length: usize,
        lines: *const u8,
        lines_length: usize,
        counters: *mut u8,
        counters_length: usize,
        flags: *mut u8,
        flags_length: usize,
        totals: *mut u8,
        totals_length: usize,
        matches: *mut u8,
        matches_length: usize,
    ) -> u8;
    fn jorivelune_steps(
        record: *mut Words,
        shape: Numbers,
        most: usize,
        cells: *const u8,
        cells_length: usize,
        lines: *const u8,
        lines_length: usize,
        counters: *mut u8,
        counters_length: usize,
        flags: *mut u8,
        flags_length: usize,
        totals: *mut u8,
        totals_length: usize,
        matches: *mut u8,
        matches_length: usize,
    ) -> u8;
    fn jorivelune_run(
        record: *mut Words,
        shape: Numbers,
        skip: usize,
        cells: *const u8,
        cells_length: usize,
        lines: *const u8,
        lines_length: usize,
        counters: *mut u8,
        counters_length: usize,
        flags: *mut u8,
        flags_length: usize,
        totals: *mut u8,
        totals_length: usize,
        matches: *mut u8,
        matches_length: usize,
    ) -> u8;
    fn jorivelune_rule(
        record: *mut Words,
        shape: Numbers,
        cells: *mut u8,
        cells_length: usize,
        belts: *mut u8,
        belts_length: usize,
        row: usize,
        lows: *const u8,
        lows_length: usize,
        highs: *const u8,
        highs_length: usize,
        belt: u8,
    ) -> u8;
    fn jorivelune_route(
        shape: Numbers,
        cells: *const u8,
        cells_length: usize,
        lines: *const u8,
        lines_length: usize,
        belts: *const u8,
        belts_length: usize,
        values: *const u8,
        values_length: usize,
        found: *mut usize,
        belt: *mut u8,
    ) -> u8;
    fn jorivelune_rule_at(
        shape: Numbers,
        cells: *const u8,
        cells_length: usize,
        belts: *const u8,
        belts_length: usize,
        row: usize,
        lows: *mut u8,
        lows_length: usize,
        highs: *mut u8,
        highs_length: usize,
        belt: *mut u8,
    ) -> u8;
    fn jorivelune_panel(
        shape: Numbers,
        flags: *const u8,
        flags_length: usize,
        totals: *const u8,
        totals_length: usize,
        total: *mut usize,
        first: *mut usize,
        read: *mut usize,
    ) -> u8;
    fn jorivelune_line(
        shape: Numbers,
        lines: *mut u8,
        lines_length: usize,
        row: usize,
        byte: u8,
    ) -> u8;
    fn jorivelune_drift(
        shape: Numbers,
        cells: *mut u8,
        cells_length: usize,
        row: usize,
        column: usize,
        level: u8,
    ) -> u8;
    fn jorivelune_read(
        shape: Numbers,
        cells: *const u8,
        cells_length: usize,
        row: usize,
        out: *mut u8,
        out_length: usize,
    ) -> u8;
    fn jorivelune_ask(
        shape: Numbers,
        cells: *const u8,
        cells_length: usize,
        row: usize,
        levels: *const u8,
        levels_length: usize,
        finished: *mut u8,
        finished_length: usize,
        changed: *mut usize,
    ) -> u8;
    fn jorivelune_lookup(
        shape: Numbers,
        cells: *const u8,
        cells_length: usize,
        lines: *const u8,
        lines_length: usize,
        inputs: *const u16,
        inputs_length: usize,
        matches: *mut u8,
        matches_length: usize,
        count: *mut usize,
    ) -> u8;
    fn jorivelune_first_match(
        shape: Numbers,
        cells: *const u8,
        cells_length: usize,
        lines: *const u8,
        lines_length: usize,
        inputs: *const u16,
        inputs_length: usize,
        found: *mut usize,
    ) -> u8;
    fn jorivelune_sound(
        shape: Numbers,
        cells: *const u8,
        cells_length: usize,
        row: usize,
        holds: *mut u8,
    ) -> u8;
}
