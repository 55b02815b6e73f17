//! Ask and commit: the example, their questions, an ask that leaves everything,
//! the rows that a commit takes, and that a commit of what an ask wrote is one
//! programming in its place.

use peer::testing::arrays::{any_array, started_array, Make, BOTH};
use peer::testing::asks::{example, Example};
use peer::testing::lists::list;
use peer::testing::log::{Last, Log, LoggedCycle};
use peer::testing::naive::calls::IDLE;
use peer::testing::naive::spec::{questions, Spec};
use peer::testing::random::Random;
use peer::testing::rows::{all_rows, any_row, damage, sound_row};
use peer::testing::settings;
use peer::testing::shapes::{any_good_shape, asked, short_coarse_shape, small_shape};
use peer::testing::verdict::assert_flag;
use peer::{Answer, Array, Call, Phase, Shape};

/// Three binary digits and two rows of three levels and a check cell.
const GOOD: Shape = Shape::new(2, 3, 1, 3, 2);

/// Rows outside of two. Cut to one byte or to four, some of them are small.
const OUTSIDE: [usize; 5] = [2, 256, 1 << 32, (1 << 32) + 1, usize::MAX];

/// A row of the array.
fn row_of(array: &Array, row: usize) -> &[u8] {
    let columns = array.shape.layout().unwrap().columns();
    &array.state.cells[row * columns..][..columns]
}

/// Puts cells in a row of the array.
fn put_row(array: &mut Array, row: usize, cells: &[u8]) {
    let columns = cells.len();
    array.state.cells[row * columns..][..columns].copy_from_slice(cells);
}

/// Makes an ask that is to be taken: what it writes and says.
fn ask(
    shape: Shape,
    row: usize,
    levels: &[u8],
    make: impl FnOnce(&mut Call<Vec<u8>>) -> Answer,
) -> (Vec<u8>, usize) {
    let mut call = Call::Ask {
        row,
        levels: levels.to_vec(),
        finished: vec![0xa5; shape.layout().unwrap().columns()],
    };
    let answer = make(&mut call);
    match (call, answer) {
        (Call::Ask { finished, .. }, Answer::Changed(changed)) => (finished, changed),
        (call, answer) => panic!("{answer:?} for {call:?} on {shape}"),
    }
}

fn commit(row: usize, finished: &[u8]) -> Call<Vec<u8>> {
    Call::Commit {
        row,
        finished: finished.to_vec(),
    }
}

fn program(row: usize, levels: &[u8]) -> Call<Vec<u8>> {
    Call::Program {
        row,
        levels: levels.to_vec(),
    }
}

#[test]
fn the_example() {
    let Example {
        shape,
        calls,
        standing,
        finished,
    } = example();
    for make in BOTH {
        let mut array = Array::fresh(shape).unwrap();
        let mut written = Vec::new();
        for (call, wanted) in calls.clone() {
            let mut call = call.map(|_| vec![7; 4]);
            assert_eq!(make(&mut array, &mut call), wanted);
            if let Call::Ask { finished, .. } = call {
                written = finished;
            }
        }
        assert_eq!(row_of(&array, 0), standing);
        assert_eq!(written, finished);
        let answer = make(&mut array, &mut commit(0, &written));
        assert_eq!(answer, Answer::Done);
        assert_eq!(row_of(&array, 0), finished);
        let again = ask(shape, 0, &[4, 3, 1], |call| make(&mut array, call));
        assert_eq!(again, (written, 0));
    }
}

// ---- the questions

/// An array of the shape with so many cells, in which a cycle is open. No other
/// buffer is lent to an ask or a commit.
fn with_cells_alone(shape: Shape, cells: usize) -> Array {
    let mut array = Array::fresh(GOOD).unwrap();
    assert_eq!(array.start(1), Answer::Done);
    array.shape = shape;
    array.state.cells.resize(cells, 7);
    array.state.lines.clear();
    array.state.counters.clear();
    array.state.flags.clear();
    array.state.totals.clear();
    array.belts.clear();
    array
}

/// The first question that fails counts, and a refused call leaves everything.
fn check_number(make: Make, array: &mut Array, call: &mut Call<Vec<u8>>, wanted: u8) {
    let before = (array.clone(), call.clone());
    let number = make(array, call).number();
    assert_eq!(number, wanted, "{before:?}");
    if wanted != 0 {
        assert_eq!((&*array, &*call), (&before.0, &before.1));
    }
}

/// Three levels, as they are and with another one at each place, and the number
/// that question 8 gives for them.
fn some_levels() -> Vec<(Vec<u8>, u8)> {
    let mut all = vec![(vec![5, 2, 1], 0)];
    for place in 0..3 {
        for (level, number) in [(0, 0), (7, 0), (8, 8), (13, 8), (255, 8)] {
            let mut levels = vec![5, 2, 1];
            levels[place] = level;
            all.push((levels, number));
        }
    }
    all
}

#[test]
fn the_questions_of_an_ask_come_in_order() {
    let check = |make, number, shape, lengths: [usize; 3], row, (levels, question_8): &(_, u8)| {
        let [cells, given, finished] = lengths;
        let mut levels: Vec<u8> = Vec::clone(levels);
        levels.resize(given, 0);
        let finished = vec![7; finished];
        let wanted = match number {
            0 if lengths != [8, 3, 4] => 6,
            0 if row >= 2 => 7,
            0 => *question_8,
            number => number,
        };
        let mut call = Call::Ask {
            row,
            levels,
            finished,
        };
        check_number(make, &mut with_cells_alone(shape, cells), &mut call, wanted);
    };
    for make in BOTH {
        for (number, shape) in asked(GOOD) {
            for cells in [0, 7, 8, 9] {
                for lengths in all_rows(&[0, 2, 3, 4, 5], 2) {
                    let lengths = [cells, lengths[0].into(), lengths[1].into()];
                    for row in [0, 1].into_iter().chain(OUTSIDE) {
                        for levels in &some_levels() {
                            check(make, number, shape, lengths, row, levels);
                        }
                    }
                }
            }
        }
    }
}

/// Rows of four cells, and the number that questions 8 and 17 give for each. The
/// bytes of q or more are often such that their three low digits would do.
const ROWS: [([u8; 4], u8); 12] = [
    ([5, 2, 1, 6], 0),
    ([4, 3, 1, 6], 0),
    ([0, 0, 0, 0], 0),
    ([5, 2, 0, 6], 17),
    ([5, 2, 1, 0], 17),
    ([7, 7, 7, 0], 17),
    ([8, 0, 0, 0], 8),
    ([0, 0, 0, 8], 8),
    ([13, 2, 1, 6], 8),
    ([5, 2, 1, 14], 8),
    ([5, 2, 0, 255], 8),
    ([255, 255, 255, 255], 8),
];

#[test]
fn question_17_comes_after_8_and_6_before_7() {
    let check = |make, number, shape, lengths: [usize; 2], row, (cells, in_row): ([u8; 4], u8)| {
        let mut finished = cells.to_vec();
        finished.resize(lengths[1], 0);
        let wanted = match number {
            0 if lengths != [8, 4] => 6,
            0 if row >= 2 => 7,
            0 => in_row,
            number => number,
        };
        let mut array = with_cells_alone(shape, lengths[0]);
        check_number(make, &mut array, &mut commit(row, &finished), wanted);
    };
    for make in BOTH {
        for (number, shape) in asked(GOOD) {
            for cells in [0, 7, 8, 9] {
                for finished in [0, 3, 4, 5, 8] {
                    for row in [0, 1].into_iter().chain(OUTSIDE) {
                        for given in ROWS {
                            check(make, number, shape, [cells, finished], row, given);
                        }
                    }
                }
            }
        }
    }
}

// ---- ask

/// An array with any bytes in it, and in one row often the finished row of the
/// levels, with a few cells changed.
fn array_beside(random: &mut Random, spec: &Spec, row: usize, levels: &[u8]) -> Array {
    let mut array = any_array(random, spec.shape);
    if !random.one_in(3) {
        let mut cells = spec.encoded(levels);
        for _ in 0..random.below(4) {
            let column = random.below(cells.len());
            cells[column] = random.byte();
        }
        put_row(&mut array, row, &cells);
    }
    array
}

#[test]
fn an_ask_leaves_everything_and_counts_by_a_plain_comparison() {
    let mut random = settings::random(37);
    let (mut none, mut some, mut all, mut open) = (0, 0, 0, 0);
    for make in BOTH.repeat(1_500) {
        let shape = small_shape(&mut random);
        let spec = questions(shape).unwrap();
        let row = random.below(shape.rows);
        let levels = random.levels(spec.levels, shape.width);
        let before = array_beside(&mut random, &spec, row, &levels);
        let mut array = before.clone();
        let (finished, changed) = ask(shape, row, &levels, |call| make(&mut array, call));
        assert_eq!(array, before, "{shape}");
        assert_eq!(finished, spec.encoded(&levels), "{shape}");
        let mut wanted = 0;
        for (column, &cell) in row_of(&before, row).iter().enumerate() {
            if cell != finished[column] {
                wanted += 1;
            }
        }
        assert_eq!(changed, wanted, "{shape}");
        open += usize::from(before.cycle.phase == Phase::Open);
        match changed {
            0 => none += 1,
            cells if cells == spec.columns() => all += 1,
            _ => some += 1,
        }
    }
    let seen = [none, some, all, open];
    assert!(seen.iter().all(|&times| times > 200), "{seen:?}");
}

/// Before each step of a cycle a row is asked for, an ask is refused, and so is a
/// commit. The cycle goes on and ends as one without them.
#[test]
fn asks_and_refused_commits_leave_an_open_cycle() {
    let mut random = settings::random(38);
    for make in BOTH.repeat(30) {
        let shape = small_shape(&mut random);
        let layout = shape.layout().unwrap();
        let (mut left, skip) = started_array(&mut random, shape);
        let mut asking = left.clone();
        let mut matches = vec![7; shape.rows];
        for _ in 0..layout.steps(skip) {
            let row = random.below(shape.rows);
            let levels = random.levels(layout.levels(), shape.width);
            let (mut finished, _) = ask(shape, row, &levels, |call| make(&mut asking, call));
            check_number(make, &mut asking, &mut commit(shape.rows, &finished), 7);
            damage(&mut random, &layout, &mut finished);
            let answer = make(&mut asking, &mut commit(row, &finished));
            assert!(matches!(answer, Answer::Refused(8 | 17)));
            let mut short = Call::Ask {
                row,
                levels,
                finished: finished[1..].to_vec(),
            };
            check_number(make, &mut asking, &mut short, 6);
            assert_eq!(asking, left);
            assert_eq!(asking.step(&mut matches), Answer::Done);
            assert_eq!(left.step(&mut matches), Answer::Done);
        }
        assert_eq!(asking, left);
        assert_eq!(left.cycle.phase, Phase::Complete);
    }
}

// ---- commit

/// Commits a row and compares with the definition of a sound row: where it is
/// taken, the row has the cells, the record is idle, and nothing else has changed;
/// and programming the first k of them leaves the same. Where it is refused,
/// nothing has changed. Gives the number.
fn check_commit(make: Make, spec: &Spec, before: &Array, row: usize, finished: &[u8]) -> u8 {
    let mut array = before.clone();
    let number = make(&mut array, &mut commit(row, finished)).number();
    let above = finished
        .iter()
        .any(|&cell| usize::from(cell) >= spec.levels);
    let mut wanted = before.clone();
    if spec.is_sound(finished) {
        assert_eq!(number, 0, "{finished:?}");
        put_row(&mut wanted, row, finished);
        wanted.cycle = IDLE;
        let mut programmed = before.clone();
        let levels = &finished[..spec.shape.width];
        let answer = make(&mut programmed, &mut program(row, levels));
        assert_eq!(answer, Answer::Done);
        assert_eq!(array, programmed, "{finished:?}");
    } else {
        assert_eq!(number, if above { 8 } else { 17 }, "{finished:?}");
    }
    assert_eq!(array, wanted, "{finished:?}");
    number
}

/// How many rows were taken, and refused with 8 and with 17.
#[derive(Debug, Default, PartialEq, Eq)]
struct Answers {
    taken: usize,
    above: usize,
    unsound: usize,
}

impl Answers {
    fn add(&mut self, number: u8) {
        match number {
            0 => self.taken += 1,
            8 => self.above += 1,
            _ => self.unsound += 1,
        }
    }
}

/// Every row of some tiny shapes: all levels, and two bytes above them.
#[test]
fn every_row_of_tiny_shapes_is_committed_exactly_where_it_is_sound() {
    let mut random = settings::random(39);
    for (radix, digits, errors, width) in [
        (2, 1, 1, 4),
        (2, 2, 1, 3),
        (2, 3, 1, 2),
        (3, 1, 1, 3),
        (3, 2, 1, 2),
        (2, 1, 2, 4),
        (2, 2, 2, 1),
        (3, 1, 2, 2),
        (2, 1, 3, 2),
        (4, 1, 3, 1),
    ] {
        let shape = Shape::new(radix, digits, errors, width, 2);
        let spec = questions(shape).unwrap();
        let q = spec.levels;
        let bytes: Vec<u8> = (0..=q as u8).chain([255]).collect();
        for make in BOTH {
            let before = any_array(&mut random, shape);
            let mut answers = Answers::default();
            for finished in all_rows(&bytes, spec.columns()) {
                let row = random.below(2);
                answers.add(check_commit(make, &spec, &before, row, &finished));
            }
            let rows = |bytes: usize, cells| bytes.pow(cells as u32);
            let of_levels = rows(q, spec.columns());
            let wanted = Answers {
                taken: rows(q, width),
                above: rows(q + 2, spec.columns()) - of_levels,
                unsound: of_levels - rows(q, width),
            };
            assert_eq!(answers, wanted);
        }
    }
}

/// Rows of every kind at shapes of every size.
#[test]
fn a_commit_is_the_programming_of_its_first_levels_or_changes_nothing() {
    let mut random = settings::random(40);
    let mut answers = Answers::default();
    for make in BOTH.repeat(600) {
        let good = any_good_shape(&mut random);
        let shape = Shape {
            rows: good.rows.min(5),
            ..good
        };
        let layout = shape.layout().unwrap();
        let spec = questions(shape).unwrap();
        let before = any_array(&mut random, shape);
        let asked = sound_row(&mut random, &layout);
        for _ in 0..5 {
            let row = random.below(shape.rows);
            let finished = any_row(&mut random, &layout, &asked);
            answers.add(check_commit(make, &spec, &before, row, &finished));
        }
    }
    let Answers {
        taken,
        above,
        unsound,
    } = answers;
    assert!(taken > 500 && above > 500 && unsound > 500, "{answers:?}");
}

// ---- a commit in place of a programming

/// An array with the log of its calls.
#[derive(Clone, Debug, PartialEq, Eq)]
struct Logged {
    array: Array,
    log: Log,
}

impl Logged {
    fn fresh(shape: Shape) -> Logged {
        Logged {
            array: Array::fresh(shape).unwrap(),
            log: Log::new(shape),
        }
    }

    fn make(&mut self, make: Make, call: &mut Call<Vec<u8>>) -> Answer {
        self.log.feed(call);
        make(&mut self.array, call)
    }

    fn make_all(&mut self, make: Make, calls: &[Call<Vec<u8>>]) {
        for call in calls {
            self.make(make, &mut call.clone());
        }
    }

    /// A start and steps to the end of the cycle; each flag is right.
    fn run_cycle(&mut self, make: Make, skip: usize) {
        assert_eq!(self.make(make, &mut Call::Start { skip }), Answer::Done);
        while self.array.cycle.phase == Phase::Open {
            let matches = vec![7; self.array.shape.rows];
            let answer = self.make(make, &mut Call::Step { matches });
            assert_eq!(answer, Answer::Done);
        }
        assert_eq!(self.log.cycle, LoggedCycle::Ended);
        for (row, &flag) in self.log.rows().zip(&self.array.state.flags) {
            assert_flag(&self.log.spec, row, skip, flag);
        }
    }
}

/// What stood between ask and commit.
#[derive(Debug, Default)]
struct Between {
    /// The record at the ask and the one at the commit were both those of an open
    /// cycle.
    open: usize,
    /// The row to be written had drifted, and its line was dead or shorted.
    drifted: usize,
    dead: usize,
    shorted: usize,
    /// The row was another than the one asked for.
    moved: usize,
    /// By the commit a row became another.
    changed: usize,
}

/// Any calls, and half the time the beginning of a cycle after them.
fn some_calls(random: &mut Random, shape: Shape) -> Vec<Call<Vec<u8>>> {
    let pieces = random.below(5);
    let mut calls = list(random, shape, pieces);
    if random.one_in(2) {
        let skip = random.below(shape.digits);
        calls.push(Call::Start { skip });
        calls.extend((0..random.below(20)).map(|_| Call::Step {
            matches: vec![7; shape.rows],
        }));
    }
    calls
}

/// The log after a row was written: both its forms are the cells, there is no
/// cycle, and all else stays, the mark too.
fn written_in_log(before: &Log, row: usize, cells: &[u8]) -> Log {
    let mut log = before.clone();
    log.written[row] = cells.to_vec();
    log.standing[row] = cells.to_vec();
    log.last[row] = Last::Plain;
    log.cycle = LoggedCycle::None;
    log.count = 0;
    log.skip = 0;
    log
}

/// A list with an ask in it and after it the commit of what it wrote, with any
/// calls before, between and after; and the same list without the ask and with a
/// programming in the place of the commit. Both have the same state, the same log
/// and the same answers, and cycles flag the same rows.
fn compare(make: Make, random: &mut Random, shape: Shape, seen: &mut Between) {
    let [before, between, after] = [(); 3].map(|()| some_calls(random, shape));
    let levels = random.levels(shape.layout().unwrap().levels(), shape.width);
    let [asked_for, row] = [(); 2].map(|()| random.below(shape.rows));
    let mut committing = Logged::fresh(shape);
    let mut programming = committing.clone();
    for logged in [&mut committing, &mut programming] {
        logged.make_all(make, &before);
    }
    let was_open = committing.array.cycle.phase == Phase::Open;
    let (finished, _) = ask(shape, asked_for, &levels, |call| {
        committing.make(make, call)
    });
    for logged in [&mut committing, &mut programming] {
        logged.make_all(make, &between);
    }
    assert_eq!(committing, programming, "{shape}");
    seen.count(was_open, &committing, asked_for, row, &finished);
    let logged = written_in_log(&committing.log, row, &finished);
    let answer = committing.make(make, &mut commit(row, &finished));
    assert_eq!(answer, Answer::Done, "{shape}");
    assert_eq!(committing.log, logged, "{shape}");
    let answer = programming.make(make, &mut program(row, &levels));
    assert_eq!(answer, Answer::Done, "{shape}");
    assert_eq!(committing, programming, "{shape}");
    for mut call in after {
        let mut same = call.clone();
        let answer = committing.make(make, &mut call);
        assert_eq!(answer, programming.make(make, &mut same));
        assert_eq!((&committing, &call), (&programming, &same), "{shape}");
    }
    for skip in 0..shape.digits {
        committing.run_cycle(make, skip);
        programming.run_cycle(make, skip);
        assert_eq!(committing, programming, "{shape}");
    }
}

impl Between {
    /// Counts what stands before a commit of the cells to the row.
    fn count(&mut self, was_open: bool, now: &Logged, asked_for: usize, row: usize, cells: &[u8]) {
        let log = &now.log;
        let is_open = log.cycle == LoggedCycle::Open;
        self.open += usize::from(was_open && is_open);
        self.drifted += usize::from(log.standing[row] != log.written[row]);
        self.dead += usize::from(log.lines[row] == 1);
        self.shorted += usize::from(log.lines[row] == 2);
        self.moved += usize::from(row != asked_for);
        self.changed += usize::from(log.standing[row] != cells);
    }
}

#[test]
fn a_commit_of_what_an_ask_wrote_is_one_programming_in_its_place() {
    let mut random = settings::random(41);
    let mut seen = Between::default();
    for make in BOTH.repeat(settings::lists(1_000)) {
        let shape = short_coarse_shape(&mut random, 60);
        compare(make, &mut random, shape, &mut seen);
    }
    println!("{seen:?}");
    let Between {
        open,
        drifted,
        dead,
        shorted,
        moved,
        changed,
    } = seen;
    assert!(open > 300 && drifted > 300);
    assert!(dead > 50 && shorted > 50);
    assert!(moved > 500 && changed > 500);
}
