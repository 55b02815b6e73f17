//! Cycles of every z on arrays that stand still: which rows they flag, and that
//! none but those whose line is not sound is flagged once the flagged ones are
//! programmed anew.

use peer::testing::lists::list;
use peer::testing::naive::spec::{questions, Spec};
use peer::testing::random::Random;
use peer::testing::rows::all_rows;
use peer::testing::settings;
use peer::testing::shapes::short_coarse_shape;
use peer::testing::verdict::{assert_flag, Row};
use peer::{Answer, Array, Call, Phase, Shape};

/// A start and steps to the end of the cycle.
fn run_cycle(array: &mut Array, skip: usize) {
    assert_eq!(array.start(skip), Answer::Done);
    let mut matches = vec![0; array.shape.rows];
    while array.cycle.phase == Phase::Open {
        assert_eq!(array.step(&mut matches), Answer::Done);
    }
}

/// The flags that a cycle leaves on the rows with their lines.
fn flags_after(shape: Shape, rows: &[Vec<u8>], lines: &[u8], skip: usize) -> Vec<u8> {
    let mut array = Array::fresh(shape).unwrap();
    array.state.cells = rows.concat();
    array.state.lines = lines.to_vec();
    run_cycle(&mut array, skip);
    assert_eq!(array.state.lines, lines);
    array.state.flags
}

/// Some small shapes and all that can become of a row of them, with a sound line,
/// with a dead one and with a shorted one. Every change of up to τ cells above the
/// skipped digits is caught, and every line that is not sound.
#[test]
fn every_change_of_few_cells_and_every_unsound_line_is_flagged() {
    for (radix, digits, errors, width) in [
        (2, 1, 1, 1),
        (2, 2, 1, 3),
        (2, 3, 1, 2),
        (3, 1, 1, 2),
        (3, 2, 1, 1),
        (4, 1, 2, 1),
        (2, 3, 2, 1),
        (3, 1, 2, 2),
        (2, 1, 3, 4),
        (2, 2, 3, 1),
        (3, 1, 3, 1),
    ] {
        let mut spec = questions(Shape::new(radix, digits, errors, width, 1)).unwrap();
        let levels: Vec<u8> = (0..width).map(|c| (c * 5 % spec.levels) as u8).collect();
        let written = spec.encoded(&levels);
        let all_levels: Vec<u8> = (0..spec.levels as u8).collect();
        let rows: Vec<Vec<u8>> = all_rows(&all_levels, spec.columns()).collect();
        spec.shape.rows = rows.len();
        for skip in 0..digits {
            for line in [0, 1, 2, 3, 255] {
                let flags = flags_after(spec.shape, &rows, &vec![line; rows.len()], skip);
                for (standing, flag) in rows.iter().zip(flags) {
                    let row = Row {
                        written: &written,
                        standing,
                        line,
                    };
                    assert_flag(&spec, row, skip, flag);
                }
            }
        }
    }
}

/// A sound row, and the same with a few cells at other levels, often near ones.
fn changed_row(random: &mut Random, spec: &Spec) -> (Vec<u8>, Vec<u8>) {
    let written = spec.encoded(&random.levels(spec.levels, spec.shape.width));
    let mut standing = written.clone();
    for _ in 0..random.below(spec.shape.errors + 3) {
        let column = random.below(spec.columns());
        let most = random.pick(&[2, spec.shape.radix, spec.levels]);
        let level = usize::from(standing[column]) + random.below(most);
        standing[column] = (level % spec.levels) as u8;
    }
    (written, standing)
}

/// Shapes of many digits: rows that differ above the skipped digits, below them
/// alone, in more cells than are caught, and not at all; and such with a dead line
/// and with a shorted one.
#[test]
fn changes_of_many_digits() {
    let mut random = settings::random(29);
    let (mut above, mut below, mut beyond, mut clean) = (0, 0, 0, 0);
    let (mut dead, mut shorted) = (0, 0);
    for (radix, digits) in [(2, 8), (2, 5), (3, 5), (4, 4), (6, 3), (15, 2), (16, 2)] {
        for errors in [1, 2, 3] {
            let spec = questions(Shape::new(radix, digits, errors, 5, 100)).unwrap();
            let rows = (0..100).map(|_| changed_row(&mut random, &spec));
            let (written, standing): (Vec<_>, Vec<_>) = rows.unzip();
            let line = |_| random.pick(&[0, 0, 0, 0, 0, 0, 1, 255, 2, 2]);
            let lines: Vec<u8> = (0..100).map(line).collect();
            for skip in 0..digits {
                let flags = flags_after(spec.shape, &standing, &lines, skip);
                for (number, flag) in flags.into_iter().enumerate() {
                    let row = Row {
                        written: &written[number],
                        standing: &standing[number],
                        line: lines[number],
                    };
                    assert_flag(&spec, row, skip, flag);
                    match row.differing(&spec, skip) {
                        _ if row.line == 2 => shorted += 1,
                        _ if !row.has_sound_line() => dead += 1,
                        0 if row.written == row.standing => clean += 1,
                        0 => below += 1,
                        cells if cells > errors => beyond += 1,
                        _ => above += 1,
                    }
                }
            }
        }
    }
    let seen = [above, below, beyond, clean, dead, shorted];
    println!("above, below alone, beyond, clean, dead, shorted: {seen:?}");
    assert!(seen.iter().all(|&rows| rows > 300));
}

/// Programs the flagged rows anew, with any levels.
fn reprogram(random: &mut Random, array: &mut Array) {
    let layout = array.shape.layout().unwrap();
    for row in 0..array.shape.rows {
        if array.state.flags[row] == 1 {
            let levels = random.levels(layout.levels(), layout.width());
            let answer = array.make(&mut Call::<Vec<u8>>::Program { row, levels });
            assert_eq!(answer, Answer::Done);
        }
    }
}

/// Makes every line sound.
fn mend_lines(array: &mut Array) {
    for row in 0..array.shape.rows {
        let answer = array.make(&mut Call::<Vec<u8>>::Line { row, byte: 0 });
        assert_eq!(answer, Answer::Done);
    }
}

/// The rows that a cycle flags.
fn flagged_by(array: &mut Array, skip: usize) -> Vec<bool> {
    run_cycle(array, skip);
    array.state.flags.iter().map(|&flag| flag == 1).collect()
}

/// Once the rows that a cycle flags are programmed anew, a cycle that skips as
/// many digits or more flags exactly those whose line is dead or shorted, and none
/// where the lines are sound; so after one of all digits no cycle does. One that
/// skips fewer may see what the first one skipped.
#[test]
fn no_row_with_a_sound_line_is_flagged_after_the_flagged_ones_are_programmed() {
    let mut random = settings::random(27);
    let (mut shut_down, mut seen_below) = (0, 0);
    let (mut still_dead, mut still_shorted) = (0, 0);
    for _ in 0..settings::lists(1_000) {
        let shape = short_coarse_shape(&mut random, 120);
        let mut array = Array::fresh(shape).unwrap();
        for mut call in list(&mut random, shape, 10) {
            array.make(&mut call);
        }
        let none = vec![false; shape.rows];
        for first in 0..shape.digits {
            let mut mended = array.clone();
            let flagged = flagged_by(&mut mended, first) != none;
            reprogram(&mut random, &mut mended);
            let lines = &array.state.lines;
            let unsound: Vec<bool> = lines.iter().map(|&line| line != 0).collect();
            let mut sound = mended.clone();
            mend_lines(&mut sound);
            for second in 0..shape.digits {
                let flagged_again = flagged_by(&mut sound, second);
                if second < first {
                    seen_below += usize::from(flagged_again != none);
                } else {
                    assert_eq!(flagged_again, none, "{shape} {first} {second}");
                    assert_eq!(flagged_by(&mut mended, second), unsound);
                    shut_down += usize::from(flagged);
                    still_dead += usize::from(lines.contains(&1));
                    still_shorted += usize::from(lines.contains(&2));
                }
            }
        }
    }
    println!("{shut_down} shut down, {seen_below} seen below");
    println!("{still_dead} still dead, {still_shorted} still shorted");
    assert!(shut_down > 1_000 && seen_below > 100);
    assert!(still_dead > 300 && still_shorted > 300);
}
