//! The loops in C, where they were compiled.

use peer::testing::records::Words;
use peer::{Layout, Route, Rule, Shape, State};

/// Whether they were.
pub const THERE: bool = cfg!(in_c);

/// The compiler, as it was called.
pub const COMPILER: Option<&str> = option_env!("C_COMPILER");

/// What is set up once for an array.
#[repr(C)]
pub struct Array {
    radix: usize,
    digits: usize,
    width: usize,
    rows: usize,
    checks: usize,
    columns: usize,
    powers: [usize; 9],
    matrix: [u8; 255],
}

impl Array {
    pub fn new(shape: Shape) -> Array {
        let layout: Layout = shape.layout().expect("a good shape");
        let mut powers = [0; 9];
        let mut matrix = [0; 255];
        for (digit, power) in powers.iter_mut().enumerate().take(shape.digits + 1) {
            *power = shape.radix.pow(digit as u32);
        }
        for (place, column) in matrix.iter_mut().zip(layout.matrix()) {
            *place = column;
        }
        Array {
            radix: shape.radix,
            digits: shape.digits,
            width: shape.width,
            rows: shape.rows,
            checks: layout.checks(),
            columns: layout.columns(),
            powers,
            matrix,
        }
    }

    /// Whether the buffers have the lengths that the loops trust in.
    fn fits(&self, state: &State<&mut [u8]>) -> bool {
        state.cells.len() == self.cells()
            && state.lines.len() == self.rows
            && state.counters.len() == self.rows
            && state.flags.len() == self.rows
            && state.totals.len() == self.blocks()
    }

    /// Whether cells, lines and inputs have the lengths that the lookups trust in.
    fn fits_lookup(&self, cells: &[u8], lines: &[u8], inputs: &[u16]) -> bool {
        cells.len() == self.cells() && lines.len() == self.rows && inputs.len() == self.width
    }

    /// Whether there are as many cells as the calls on a row trust in, and such a
    /// row.
    fn fits_row(&self, cells: &[u8], row: usize) -> bool {
        cells.len() == self.cells() && row < self.rows
    }

    fn cells(&self) -> usize {
        self.rows * self.columns
    }

    fn blocks(&self) -> usize {
        self.rows.div_ceil(Shape::BLOCK)
    }
}

/// What the panel is told: the total, the first flagged row, m where there is
/// none, and the number of flags read.
pub type Told = [usize; 3];

/// Declares the functions, or has each of them fail where they are not linked.
macro_rules! linked {
    ($(fn $name:ident($($argument:ident: $kind:ty),* $(,)?) $(-> $answer:ty)?;)*) => {
        #[cfg(in_c)]
        extern "C" {
            $(fn $name($($argument: $kind),*) $(-> $answer)?;)*
        }

        $(
            #[cfg(not(in_c))]
            unsafe fn $name($(_: $kind),*) $(-> $answer)? {
                panic!("no C compiler was found")
            }
        )*
    };
}

linked! {
    fn loops_clear(
        array: *const Array,
        record: *mut Words,
        cells: *mut u8,
        lines: *mut u8,
        counters: *mut u8,
        flags: *mut u8,
        totals: *mut u8,
    );
    fn loops_program(
        array: *const Array,
        record: *mut Words,
        cells: *mut u8,
        row: usize,
        levels: *const u8,
    );
    fn loops_start(
        array: *const Array,
        record: *mut Words,
        skip: usize,
        counters: *mut u8,
        flags: *mut u8,
        totals: *mut u8,
    );
    fn loops_step(
        array: *const Array,
        record: *mut Words,
        cells: *const u8,
        lines: *const u8,
        counters: *mut u8,
        flags: *mut u8,
        totals: *mut u8,
        matches: *mut u8,
    ) -> u8;
    fn loops_steps(
        array: *const Array,
        record: *mut Words,
        most: usize,
        cells: *const u8,
        lines: *const u8,
        counters: *mut u8,
        flags: *mut u8,
        totals: *mut u8,
        matches: *mut u8,
        held: *mut u8,
    ) -> u8;
    fn loops_lookup(
        array: *const Array,
        cells: *const u8,
        lines: *const u8,
        inputs: *const u16,
        matches: *mut u8,
    ) -> usize;
    fn loops_first_match(
        array: *const Array,
        cells: *const u8,
        lines: *const u8,
        inputs: *const u16,
    ) -> usize;
    fn loops_panel(array: *const Array, flags: *const u8, totals: *const u8, told: *mut Told);
    fn loops_reading(array: *const Array, flags: *const u8, told: *mut Told);
    fn loops_ask(
        array: *const Array,
        cells: *const u8,
        row: usize,
        levels: *const u8,
        finished: *mut u8,
    ) -> usize;
    fn loops_commit(
        array: *const Array,
        record: *mut Words,
        cells: *mut u8,
        row: usize,
        finished: *const u8,
    ) -> u8;
    fn loops_rule(
        array: *const Array,
        record: *mut Words,
        cells: *mut u8,
        belts: *mut u8,
        row: usize,
        lows: *const u8,
        highs: *const u8,
        belt: u8,
    );
    fn loops_route(
        array: *const Array,
        cells: *const u8,
        lines: *const u8,
        belts: *const u8,
        values: *const u8,
        belt: *mut u8,
    ) -> usize;
}

pub fn clear(array: &Array, words: &mut Words, state: State<&mut [u8]>) {
    assert!(array.fits(&state));
    unsafe {
        loops_clear(
            array,
            words,
            state.cells.as_mut_ptr(),
            state.lines.as_mut_ptr(),
            state.counters.as_mut_ptr(),
            state.flags.as_mut_ptr(),
            state.totals.as_mut_ptr(),
        )
    }
}

pub fn program(array: &Array, words: &mut Words, cells: &mut [u8], row: usize, levels: &[u8]) {
    assert!(array.fits_row(cells, row) && levels.len() == array.width);
    unsafe { loops_program(array, words, cells.as_mut_ptr(), row, levels.as_ptr()) }
}

/// The number of cells that would change.
pub fn ask(array: &Array, cells: &[u8], row: usize, levels: &[u8], finished: &mut [u8]) -> usize {
    assert!(array.fits_row(cells, row));
    assert!(levels.len() == array.width && finished.len() == array.columns);
    let finished = finished.as_mut_ptr();
    unsafe { loops_ask(array, cells.as_ptr(), row, levels.as_ptr(), finished) }
}

/// 0 where it is taken, 17 where the row is not sound.
pub fn commit(
    array: &Array,
    words: &mut Words,
    cells: &mut [u8],
    row: usize,
    finished: &[u8],
) -> u8 {
    assert!(array.fits_row(cells, row) && finished.len() == array.columns);
    unsafe { loops_commit(array, words, cells.as_mut_ptr(), row, finished.as_ptr()) }
}

pub fn start(array: &Array, words: &mut Words, skip: usize, state: State<&mut [u8]>) {
    assert!(array.fits(&state) && skip < array.digits);
    unsafe {
        loops_start(
            array,
            words,
            skip,
            state.counters.as_mut_ptr(),
            state.flags.as_mut_ptr(),
            state.totals.as_mut_ptr(),
        )
    }
}

/// Makes so many steps.
pub fn steps(
    array: &Array,
    words: &mut Words,
    state: State<&mut [u8]>,
    matches: &mut [u8],
    steps: usize,
) {
    assert!(array.fits(&state) && matches.len() == array.rows);
    for _ in 0..steps {
        let number = unsafe {
            loops_step(
                array,
                words,
                state.cells.as_ptr(),
                state.lines.as_ptr(),
                state.counters.as_mut_ptr(),
                state.flags.as_mut_ptr(),
                state.totals.as_mut_ptr(),
                matches.as_mut_ptr(),
            )
        };
        assert_eq!(number, 0);
    }
}

/// Makes at most so many steps, with the cells of a column held in a buffer for them.
pub fn held_steps(
    array: &Array,
    words: &mut Words,
    state: State<&mut [u8]>,
    matches: &mut [u8],
    held: &mut [u8],
    most: usize,
) {
    assert!(array.fits(&state) && matches.len() == array.rows && held.len() == array.rows);
    let number = unsafe {
        loops_steps(
            array,
            words,
            most,
            state.cells.as_ptr(),
            state.lines.as_ptr(),
            state.counters.as_mut_ptr(),
            state.flags.as_mut_ptr(),
            state.totals.as_mut_ptr(),
            matches.as_mut_ptr(),
            held.as_mut_ptr(),
        )
    };
    assert_eq!(number, 0);
}

/// The number of matches.
pub fn lookup(
    array: &Array,
    cells: &[u8],
    lines: &[u8],
    inputs: &[u16],
    matches: &mut [u8],
) -> usize {
    assert!(array.fits_lookup(cells, lines, inputs) && matches.len() == array.rows);
    unsafe {
        loops_lookup(
            array,
            cells.as_ptr(),
            lines.as_ptr(),
            inputs.as_ptr(),
            matches.as_mut_ptr(),
        )
    }
}

/// The first row that matches, m where there is none.
pub fn first_match(array: &Array, cells: &[u8], lines: &[u8], inputs: &[u16]) -> usize {
    assert!(array.fits_lookup(cells, lines, inputs));
    unsafe { loops_first_match(array, cells.as_ptr(), lines.as_ptr(), inputs.as_ptr()) }
}

pub fn rule(
    array: &Array,
    words: &mut Words,
    cells: &mut [u8],
    belts: &mut [u8],
    row: usize,
    rule: Rule<&[u8]>,
) {
    let Rule { lows, highs, belt } = rule;
    assert!(array.fits_row(cells, row) && belts.len() == array.rows);
    assert!(2 * lows.len() == array.width && 2 * highs.len() == array.width);
    let (cells, belts) = (cells.as_mut_ptr(), belts.as_mut_ptr());
    let (lows, highs) = (lows.as_ptr(), highs.as_ptr());
    unsafe { loops_rule(array, words, cells, belts, row, lows, highs, belt) }
}

/// Where a bottle goes.
pub fn route(
    array: &Array,
    cells: &[u8],
    lines: &[u8],
    belts: &[u8],
    values: &[u8],
) -> Option<Route> {
    assert!(cells.len() == array.cells() && lines.len() == array.rows);
    assert!(belts.len() == array.rows && 2 * values.len() == array.width);
    let mut belt = 0;
    let row = unsafe {
        loops_route(
            array,
            cells.as_ptr(),
            lines.as_ptr(),
            belts.as_ptr(),
            values.as_ptr(),
            &mut belt,
        )
    };
    (row < array.rows).then_some(Route { row, belt })
}

pub fn panel(array: &Array, flags: &[u8], totals: &[u8]) -> Told {
    assert!(flags.len() == array.rows && totals.len() == array.blocks());
    let mut told = [0; 3];
    unsafe { loops_panel(array, flags.as_ptr(), totals.as_ptr(), &mut told) };
    told
}

/// A full reading of the flags.
pub fn reading(array: &Array, flags: &[u8]) -> Told {
    assert_eq!(flags.len(), array.rows);
    let mut told = [0; 3];
    unsafe { loops_reading(array, flags.as_ptr(), &mut told) };
    told
}
