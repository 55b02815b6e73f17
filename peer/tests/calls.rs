//! The calls with arbitrary arguments against the definitions: answer, record
//! and every lent byte.

use peer::testing::draw::{self, some_bytes, some_length, some_number, Draw, Right};
use peer::testing::inputs::{any_inputs, as_inputs, spoil_input, Inputs};
use peer::testing::lent::Own;
use peer::testing::lines::{any_lines, settable, Lines, FOREIGN};
use peer::testing::naive::calls::make;
use peer::testing::naive::panel::blocks;
use peer::testing::naive::spec::{questions, Spec};
use peer::testing::random::Random;
use peer::testing::records::forged;
use peer::testing::rows::{any_row, sound_row};
use peer::testing::rules::{any_bottle, any_rule, bottle_for, rule_of, spoil_rule, Rules};
use peer::testing::settings;
use peer::testing::shapes::{any_shape, small_shape};
use peer::testing::skips::Skips;
use peer::testing::steps::{left, some_most, Steps};
use peer::testing::tally::Tally;
use peer::{match_byte, Answer, Array, Call, Cycle, Layout, Name, Rule, Shape, State};

/// The sizes that arguments are drawn for.
struct Sizes {
    cells: usize,
    rows: usize,
    blocks: usize,
    width: usize,
    columns: usize,
    digits: usize,
    levels: usize,
}

impl Sizes {
    /// Those of a good shape; for a bad one all is of small size.
    fn new(spec: Option<&Spec>) -> Sizes {
        match spec {
            Some(spec) => Sizes {
                cells: spec.cells(),
                rows: spec.shape.rows,
                blocks: blocks(spec.shape.rows),
                width: spec.shape.width,
                columns: spec.columns(),
                digits: spec.shape.digits,
                levels: spec.levels,
            },
            None => Sizes {
                cells: 12,
                rows: 3,
                blocks: 1,
                width: 3,
                columns: 4,
                digits: 3,
                levels: 8,
            },
        }
    }
}

/// What any call may be given, drawn beforehand.
struct Given {
    /// One buffer for each [`Own`].
    own: [Vec<u8>; 5],
    row: usize,
    column: usize,
    level: u8,
    line: u8,
    levels: Vec<u8>,
    inputs: Vec<u16>,
    finished: Vec<u8>,
    rule: Rule<Vec<u8>>,
    values: Vec<u8>,
    skip: usize,
    most: usize,
}

impl Draw for Given {
    type Buffer = Vec<u8>;

    fn levels(&mut self) -> (usize, Vec<u8>) {
        (self.row, self.levels.clone())
    }

    fn finished(&mut self) -> Vec<u8> {
        self.finished.clone()
    }

    fn row(&mut self) -> usize {
        self.row
    }

    fn column(&mut self) -> usize {
        self.column
    }

    fn level(&mut self) -> u8 {
        self.level
    }

    fn line(&mut self) -> u8 {
        self.line
    }

    fn inputs(&mut self) -> Vec<u16> {
        self.inputs.clone()
    }

    fn rule(&mut self) -> Rule<Vec<u8>> {
        self.rule.clone()
    }

    fn values(&mut self) -> Vec<u8> {
        self.values.clone()
    }

    fn skip(&mut self) -> usize {
        self.skip
    }

    fn most(&mut self) -> usize {
        self.most
    }

    fn buffer(&mut self, own: Own) -> Vec<u8> {
        self.own[own as usize].clone()
    }
}

/// Buffers mostly of their lengths.
fn some_state(random: &mut Random, spec: Option<&Spec>, sizes: &Sizes) -> State<Vec<u8>> {
    let cells = match spec {
        Some(spec) if random.one_in(2) => some_rows(random, spec),
        _ => some_cells(random, sizes),
    };
    State {
        cells,
        lines: some_lines(random, sizes.rows),
        counters: some_counters(random, sizes.rows),
        flags: some_marks(random, sizes.rows),
        totals: some_marks(random, sizes.blocks),
    }
}

/// Arguments mostly in range, for an array with the cells and the record.
fn given(random: &mut Random, array: &Array, sizes: &Sizes) -> Given {
    let &Array { shape, cycle, .. } = array;
    let features = sizes.width / 2;
    let own = [sizes.rows, sizes.width, sizes.columns, features, features];
    let own = own.map(|wanted| some_bytes(random, wanted));
    let length = some_length(random, sizes.width);
    let bound = match random.below(10) {
        0 => 256,
        1..=3 => sizes.levels,
        _ => sizes.levels.min(3),
    };
    Given {
        own,
        row: some_number(random, sizes.rows),
        column: some_number(random, sizes.columns),
        level: if random.one_in(5) {
            random.byte()
        } else {
            random.level(sizes.levels)
        },
        line: if random.one_in(5) {
            random.byte()
        } else {
            settable(random)
        },
        levels: random.levels(bound, length),
        inputs: some_inputs(random, sizes),
        finished: some_finished(random, shape, sizes),
        rule: some_rule(random, shape),
        values: some_values(random, shape, &array.state.cells),
        skip: some_number(random, sizes.digits),
        most: some_most(random, left(shape, cycle), ROW_STEPS / sizes.rows),
    }
}

/// Mostly as many inputs as there are rule columns, now and then one above q.
fn some_inputs(random: &mut Random, sizes: &Sizes) -> Vec<u16> {
    let mut inputs = any_inputs(random, sizes.levels, sizes.width);
    inputs.resize(some_length(random, inputs.len()), 0);
    if random.one_in(10) {
        spoil_input(random, sizes.levels, &mut inputs);
    }
    inputs
}

/// Mostly as many line bytes as there are rows, of every kind.
fn some_lines(random: &mut Random, wanted: usize) -> Vec<u8> {
    let length = some_length(random, wanted);
    any_lines(random, length)
}

/// Mostly as many counters as there are rows: any bytes, or below every radix.
fn some_counters(random: &mut Random, wanted: usize) -> Vec<u8> {
    let length = some_length(random, wanted);
    let bound = random.pick(&[2, 256]);
    random.levels(bound, length)
}

/// Mostly as many cells as there are, levels or any bytes.
fn some_cells(random: &mut Random, sizes: &Sizes) -> Vec<u8> {
    let length = some_length(random, sizes.cells);
    let bound = if random.one_in(2) { sizes.levels } else { 256 };
    random.levels(bound, length)
}

/// Flags or totals, mostly as many as there are: any bytes, many of them 0.
fn some_marks(random: &mut Random, wanted: usize) -> Vec<u8> {
    let length = some_length(random, wanted);
    let times = random.pick(&[1, 2, 8, 64]);
    random.sparse(length, times)
}

/// Mostly n bytes for a commit, a sound row or not; any for a bad shape.
fn some_finished(random: &mut Random, shape: Shape, sizes: &Sizes) -> Vec<u8> {
    let mut finished = match shape.layout() {
        Ok(layout) => {
            let asked = sound_row(random, &layout);
            any_row(random, &layout, &asked)
        }
        Err(_) => random.bytes(sizes.columns),
    };
    finished.resize(some_length(random, sizes.columns), 0);
    finished
}

/// A rule for a good shape, now and then with some things wrong in it; for a bad
/// shape one for another.
fn some_rule(random: &mut Random, shape: Shape) -> Rule<Vec<u8>> {
    let mut rule = any_rule(random, &layout_or_other(shape));
    for _ in 0..random.below(6).saturating_sub(3) {
        spoil_rule(random, &mut rule);
    }
    rule
}

/// The layout of a good shape, and a small one for a bad shape.
fn layout_or_other(shape: Shape) -> Layout {
    let other = || Shape::new(2, 3, 1, 4, 3).layout().expect("a good shape");
    shape.layout().unwrap_or_else(|_| other())
}

/// A bottle, often for a row of the cells; now and then with a value too many or
/// too few, or with one that is too high.
fn some_values(random: &mut Random, shape: Shape, cells: &[u8]) -> Vec<u8> {
    let layout = layout_or_other(shape);
    let row = random.below(layout.rows());
    let mut values = match cells.chunks_exact(layout.columns()).nth(row) {
        Some(row) => bottle_for(random, &layout, &rule_of(&layout, row)),
        None => any_bottle(random, &layout),
    };
    values.resize(some_length(random, values.len()), 0);
    if random.one_in(8) && !values.is_empty() {
        let feature = random.below(values.len());
        values[feature] = random.byte();
    }
    values
}

/// Sound rows, a few of them with a cell changed.
fn some_rows(random: &mut Random, spec: &Spec) -> Vec<u8> {
    let rows: Vec<Vec<u8>> = (0..3)
        .map(|_| spec.encoded(&random.levels(spec.levels, spec.shape.width)))
        .collect();
    let mut cells = Vec::new();
    for _ in 0..spec.shape.rows {
        cells.extend(&rows[random.below(3)]);
    }
    for _ in 0..random.below(4) {
        let place = random.below(cells.len());
        cells[place] = random.byte();
    }
    cells
}

/// A record of a cycle of any z, its openings and its last places often. Long
/// schedules are not written out; the first opening serves.
fn some_record(random: &mut Random, spec: &Spec) -> Cycle {
    let skip = random.below(spec.shape.digits);
    let steps = spec.steps(skip);
    if steps > 2000 {
        return Cycle::open(skip);
    }
    let count = match random.below(7) {
        0 => steps,
        1 => steps - 1,
        2 | 3 => random.below(2),
        _ => random.below(steps),
    };
    spec.schedule(skip).record(count)
}

/// The record itself, a forged one, or one with another z.
fn some_change(random: &mut Random, record: Cycle, sizes: &Sizes) -> Cycle {
    match random.below(6) {
        0 | 1 => forged(random, record),
        2 | 3 => Cycle {
            skip: some_number(random, sizes.digits),
            ..record
        },
        _ => record,
    }
}

/// What the calls were answered, what they did with skipped digits, what lines and
/// inputs they were given, and what was seen of several steps and of belt rules.
#[derive(Debug, Default)]
struct Seen {
    tally: Tally,
    skips: Skips,
    lines: Lines,
    inputs: Inputs,
    steps: Steps,
    rules: Rules,
}

/// Makes a call by this build and by the definitions, and compares.
fn compare(random: &mut Random, shape: Shape, name: Name, seen: &mut Seen) {
    let spec = questions(shape).ok();
    let spec = spec.as_ref();
    let sizes = Sizes::new(spec);
    let record = spec.map_or(Cycle::IDLE, |spec| some_record(random, spec));
    let cycle = some_change(random, record, &sizes);
    let mut ours = Array {
        shape,
        state: some_state(random, spec, &sizes),
        belts: some_bytes(random, sizes.rows),
        cycle,
    };
    let mut call = draw::call(name, &mut given(random, &ours, &sizes));
    let before = (ours.clone(), call.clone());
    let (mut plain, mut plain_call) = before.clone();
    let answer = ours.make(&mut call);
    assert_eq!(
        answer,
        make(&mut plain, &mut plain_call),
        "{name:?} {shape:?}"
    );
    assert_eq!((&ours, &call), (&plain, &plain_call), "{name:?} {shape:?}");
    seen.tally.add(name, answer);
    seen.skips.add(name, answer, cycle, ours.cycle);
    let State {
        cells,
        lines,
        counters,
        ..
    } = &before.0.state;
    seen.lines.add(name, answer, cycle, ours.cycle, lines);
    seen.inputs.add(shape, &call, answer, cells, lines);
    seen.steps.add(shape, &call, answer, cycle, counters);
    seen.rules.add(shape, &call, answer, cycle, cells, lines);
    if matches!(name, Name::Step | Name::Steps) {
        seen.skips.add_forged(answer, record, cycle);
    }
    if let Answer::Refused(_) = answer {
        assert_eq!((ours, call), before, "{name:?} {shape:?}");
    }
}

#[test]
fn the_calls_do_what_the_definitions_say() {
    let mut random = settings::random(11);
    let mut seen = Seen::default();
    for turn in 0..20_000 {
        let mut shape = any_shape(&mut random);
        if turn % 10 != 0 && shape.layout().is_ok() {
            shape.rows = shape.rows.min(9);
        }
        for &name in Name::ALL {
            if name == Name::Run && is_long(shape) {
                continue;
            }
            compare(&mut random, shape, name, &mut seen);
        }
    }
    println!("{} calls: {seen:?}", seen.tally.calls());
    seen.tally.assert_complete();
    seen.skips.assert_each(8);
    seen.lines.assert_each(2);
    seen.inputs.assert_each(20);
    seen.steps.assert_each(5);
    seen.rules.assert_each(8);
}

/// How many rows the steps of one call look at, at most.
const ROW_STEPS: usize = 5_000;

/// Whether a cycle on the shape looks at too many rows to be run here.
fn is_long(shape: Shape) -> bool {
    questions(shape).is_ok_and(|spec| spec.steps(0) * shape.rows > ROW_STEPS)
}

/// The rule of a match line on all pairs of a cell and an input that is a level: in
/// a row with a sound line, in a shorted one, and in one with a dead line of any
/// byte.
#[test]
fn a_cell_answers_when_the_input_is_at_most_the_cell() {
    for cell in 0..=255 {
        for input in 0..=255 {
            let wanted = u8::from(input <= cell);
            assert_eq!(match_byte(0, &[cell], &[input]), wanted);
            assert_eq!(match_byte(0, &[255, cell, 0], &[255, input, 0]), wanted);
            assert_eq!(match_byte(0, &[cell, 0, 0], &[input]), wanted);
            assert_eq!(match_byte(2, &[cell], &[input]), 1);
            for line in FOREIGN.into_iter().chain([1]) {
                assert_eq!(match_byte(line, &[cell], &[input]), 0);
            }
        }
    }
    for line in 0..=255 {
        let wanted = u8::from(line == 0 || line == 2);
        assert_eq!(match_byte(line, &[0, 255], &[0, 255]), wanted);
        assert_eq!(match_byte(line, &[7], &[]), wanted);
    }
}

/// One row of one rule cell, with every byte in it: inputs up to q are taken, and q
/// is answered by no cell, those of q and more among them. An input above q is
/// refused, and with it one that is so in another column.
#[test]
fn no_cell_answers_to_q() {
    for (radix, digits) in [(2, 1), (2, 3), (15, 2), (255, 1), (2, 8), (16, 2)] {
        let shape = Shape::new(radix, digits, 1, 1, 1);
        let levels = shape.layout().unwrap().levels() as u16;
        for (cell, line) in (0..=255).flat_map(|cell| [0, 1, 2, 3].map(|line| (cell, line))) {
            for input in (0..=levels + 1).chain([512, u16::MAX]) {
                let mut matches = [7];
                let count = peer::lookup(shape, &[cell, 255], &[line], &[input], &mut matches);
                let first = peer::first_match(shape, &[cell, 255], &[line], &[input]);
                let answers = input < levels && input <= cell.into();
                let matched = line == 2 || line == 0 && answers;
                if input > levels {
                    assert_eq!(count.map_err(u8::from), Err(8));
                    assert_eq!(first.map_err(u8::from), Err(8));
                    assert_eq!(matches, [7]);
                } else {
                    assert_eq!(count, Ok(matched.into()), "{shape} {cell} {line} {input}");
                    assert_eq!(first, Ok(matched.then_some(0)));
                    assert_eq!(matches, [matched.into()]);
                }
            }
        }
    }
}

/// Puts a byte in a call, in the place of a level, a low, a high or a value.
type Put = fn(&mut Call<Own>, u8);

/// The calls that are given such bytes.
const PUTS: [(Name, Put); 8] = [
    (Name::Program, put_level),
    (Name::Ask, put_level),
    (Name::Commit, put_level),
    (Name::Route, put_level),
    (Name::Commit, |call, byte| {
        *call.levels_mut().unwrap().last_mut().unwrap() = byte;
    }),
    (Name::Drift, |call, byte| *call.level_mut().unwrap() = byte),
    (Name::Rule, |call, byte| {
        call.rule_mut().unwrap().lows[1] = byte
    }),
    (Name::Rule, |call, byte| {
        call.rule_mut().unwrap().highs[0] = byte
    }),
];

fn put_level(call: &mut Call<Own>, byte: u8) {
    call.levels_mut().unwrap()[1] = byte;
}

/// q is an input alone: as a level, a low, a high or a value it is refused with 8,
/// where it is a byte.
#[test]
fn q_is_no_level_and_no_value() {
    let random = &mut settings::random(14);
    for (radix, digits) in [(2, 1), (2, 3), (3, 2), (15, 2), (254, 1), (255, 1)] {
        let shape = Shape::new(radix, digits, 1, 4, 2);
        let layout = &shape.layout().unwrap();
        for (name, put) in PUTS {
            let mut call = draw::call(name, &mut Right { random, layout });
            put(&mut call, layout.levels() as u8);
            let mut call = call.map(|own| vec![0; own.length(layout)]);
            let answer = Array::fresh(shape).unwrap().make(&mut call);
            assert_eq!(answer, Answer::Refused(8), "{call:?} on {shape}");
        }
    }
}

/// At the widest shapes an input of q in each column by itself, with all others 0
/// and every cell at its most: no row with a sound line matches. One above q is
/// refused in each column.
#[test]
fn q_counts_in_every_column() {
    for (radix, digits, errors, width) in [(255, 1, 1, 254), (2, 8, 2, 247), (11, 2, 3, 120)] {
        let shape = Shape::new(radix, digits, errors, width, 3);
        let layout = shape.layout().unwrap();
        let levels = layout.levels() as u16;
        for (cell, column) in [layout.highest(), 255]
            .into_iter()
            .flat_map(|cell| (0..width).map(move |column| (cell, column)))
        {
            let cells = vec![cell; layout.cells()];
            let lines = [0, 2, 0];
            for (input, wanted) in [
                (levels - 1, Ok((3, Some(0)))),
                (levels, Ok((1, Some(1)))),
                (levels + 1, Err(8)),
            ] {
                let mut inputs = vec![0; width];
                inputs[column] = input;
                let count = peer::lookup(shape, &cells, &lines, &inputs, &mut [7; 3]);
                let first = peer::first_match(shape, &cells, &lines, &inputs);
                let both = count.and_then(|count| Ok((count, first?)));
                assert_eq!(both.map_err(u8::from), wanted, "{shape} {column} {input}");
            }
        }
    }
}

/// First match and task lookup agree, and both ways out are seen; so are dead
/// lines of rows whose cells match, before the first match and without one, and
/// shorted lines of rows whose cells do not, before the first match and without
/// one.
#[test]
fn first_match_is_the_first_one_of_the_match_bytes() {
    let mut random = settings::random(12);
    let (mut some, mut none, mut later, mut lost) = (0, 0, 0, 0);
    let (mut sooner, mut won) = (0, 0);
    for _ in 0..10_000 {
        let shape = small_shape(&mut random);
        let layout = shape.layout().unwrap();
        let cells = random.levels(layout.levels(), layout.cells());
        let lines = any_lines(&mut random, shape.rows);
        let inputs = match random.below(4) {
            0 => any_inputs(&mut random, layout.levels(), shape.width),
            _ => as_inputs(&random.levels(layout.levels().min(3), shape.width)),
        };
        let look_up = |lines: &[u8]| {
            let mut matches = vec![9; shape.rows];
            let count = peer::lookup(shape, &cells, lines, &inputs, &mut matches).unwrap();
            let first = peer::first_match(shape, &cells, lines, &inputs).unwrap();
            assert_eq!(first, matches.iter().position(|&matched| matched == 1));
            assert!(matches.iter().all(|&matched| matched <= 1));
            assert_eq!(count, matches.iter().map(|&m| usize::from(m)).sum());
            (matches, first)
        };
        let (cells_match, earlier) = look_up(&vec![0; shape.rows]);
        let (matches, first) = look_up(&lines);
        for row in 0..shape.rows {
            let wanted = match lines[row] {
                0 => cells_match[row],
                2 => 1,
                _ => 0,
            };
            assert_eq!(matches[row], wanted);
        }
        match first {
            Some(_) => some += 1,
            None => none += 1,
        }
        match (earlier, first) {
            (Some(earlier), Some(first)) if first > earlier => later += 1,
            (Some(earlier), Some(first)) if first < earlier => sooner += 1,
            (Some(_), None) => lost += 1,
            (None, Some(_)) => won += 1,
            _ => {}
        }
    }
    assert!(some > 500 && none > 500, "{some} {none}");
    assert!(later > 100 && lost > 100, "{later} {lost}");
    assert!(sooner > 100 && won > 100, "{sooner} {won}");
}
