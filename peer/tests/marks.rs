//! The marked rows and shapes, the paper's table, and the tables of the matrix.

use peer::matrix::{LARGEST_WIDTH, ORDER};
use peer::testing::naive::spec::questions;
use peer::testing::rows::all_rows;
use peer::testing::settings;
use peer::testing::shapes::any_good_shape;
use peer::{encode, is_codeword, Layout, Refusal, Shape};

fn shape(radix: usize, digits: usize, errors: usize, width: usize) -> Shape {
    Shape::new(radix, digits, errors, width, 1)
}

fn layout(radix: usize, digits: usize, errors: usize, width: usize) -> Layout {
    shape(radix, digits, errors, width).layout().unwrap()
}

/// The check cells that the encoder writes over whatever stood there.
fn checks_of(layout: &Layout, levels: &[u8]) -> Vec<u8> {
    let mut row = levels.to_vec();
    row.resize(layout.columns(), 0xa5);
    encode(layout, &mut row);
    assert_eq!(&row[..levels.len()], levels);
    assert!(is_codeword(layout, &row));
    row.split_off(levels.len())
}

#[test]
fn m1_check_cell_of_three_binary_digits() {
    assert_eq!(checks_of(&layout(2, 3, 1, 3), &[5, 2, 1]), [6]);
}

#[test]
fn m2_another_sound_row_two_cells_off() {
    assert!(is_codeword(&layout(2, 3, 1, 3), &[4, 3, 1, 6]));
}

#[test]
fn m3_a_row_that_is_not_sound() {
    assert!(!is_codeword(&layout(2, 3, 1, 3), &[5, 2, 0, 6]));
}

#[test]
fn m4_check_cell_of_two_ternary_digits() {
    assert_eq!(checks_of(&layout(3, 2, 1, 2), &[5, 8]), [2]);
}

#[test]
fn m5_check_cells_of_two_decimal_digits() {
    assert_eq!(checks_of(&layout(10, 2, 2, 1), &[37]), [73, 73]);
    assert_eq!(checks_of(&layout(10, 2, 3, 1), &[37]), [73, 73, 73]);
}

#[test]
fn m6_check_cells_and_weight_of_one_binary_digit() {
    let layout = layout(2, 1, 2, 2);
    assert_eq!(checks_of(&layout, &[1, 1]), [0, 1, 1]);
    assert_eq!(layout.weight(), 7);
}

/// The openings are two steps, and none of these lookups.
#[test]
fn m7_weights_and_lookups_of_fifty_columns() {
    for (errors, weight, lookups) in [(1, 51, 357), (2, 156, 1092), (3, 187, 1309)] {
        let layout = layout(2, 3, errors, 50);
        assert_eq!(layout.weight(), weight);
        assert_eq!(layout.lookups(0), lookups);
        assert_eq!(layout.steps(0), lookups + 2);
    }
}

/// The shapes of M7 with one and with two digits skipped: q / ρ^z is 4 and 2.
#[test]
fn m7_lookups_of_coarse_cycles() {
    for (errors, of_4, of_2) in [(1, 153, 51), (2, 468, 156), (3, 561, 187)] {
        let layout = layout(2, 3, errors, 50);
        assert_eq!([1, 2].map(|skip| layout.lookups(skip)), [of_4, of_2]);
    }
}

#[test]
fn m8_check_columns_at_the_edges() {
    assert_eq!(layout(2, 3, 2, 26).checks(), 5);
    assert_eq!(layout(2, 3, 2, 27).checks(), 6);
    assert_eq!(layout(2, 3, 2, 247).checks(), 8);
    assert_eq!(shape(2, 3, 2, 248).layout(), Err(Refusal::Width));
    assert_eq!(Refusal::Width.number(), 4);
}

/// Table I of the paper: errors, check columns, columns, weight, and lookups
/// for 8 and for 16 levels. By the paper its figures hold for q = ρ, b = 1 too.
#[test]
fn table_one_of_the_paper() {
    for (errors, checks, columns, weight, of_8, of_16) in [
        (1, 1, 51, 51, 357, 765),
        (2, 6, 56, 156, 1092, 2340),
        (3, 7, 57, 187, 1309, 2805),
    ] {
        for (radix, digits, lookups) in [(2, 3, of_8), (8, 1, of_8), (2, 4, of_16), (4, 2, of_16)] {
            let layout = layout(radix, digits, errors, 50);
            assert_eq!(layout.checks(), checks);
            assert_eq!(layout.columns(), columns);
            assert_eq!(layout.weight(), weight);
            assert_eq!(layout.lookups(0), lookups);
        }
    }
}

#[test]
fn the_order_holds_every_nonzero_byte_in_its_place() {
    let mut sorted: Vec<u8> = (1..=255).collect();
    sorted.sort_by_key(|byte| (byte.count_ones(), *byte));
    assert_eq!(ORDER.to_vec(), sorted);
}

#[test]
fn the_largest_widths_are_those_of_the_formulas() {
    for r in 1..=8 {
        assert_eq!(LARGEST_WIDTH[0][r - 1], if r == 1 { 254 } else { 0 });
        assert_eq!(LARGEST_WIDTH[1][r - 1], (1 << r) - r - 1);
        assert_eq!(
            LARGEST_WIDTH[2][r - 1],
            (1usize << (r - 1)).saturating_sub(r)
        );
    }
}

/// Every width of every number of errors: the matrix, J(ℓ) and W.
#[test]
fn the_matrix_is_that_of_the_definition() {
    for (errors, most) in [(1, 254), (2, 247), (3, 120)] {
        for width in 1..=most {
            let shape = shape(2, 1, errors, width);
            let layout = shape.layout().unwrap();
            let spec = questions(shape).unwrap();
            assert_eq!(layout.checks(), spec.checks);
            assert!(layout.matrix().map(usize::from).eq(spec.matrix.clone()));
            for check in 0..spec.checks {
                let support = spec.support(check);
                assert_eq!(layout.support_size(check), support.len());
                assert!(layout.support(check).eq(support));
                let before: usize = (0..check).map(|check| spec.support(check).len()).sum();
                assert_eq!(layout.weight_before(check), before);
            }
            assert_eq!(layout.weight(), spec.weight());
        }
        assert_eq!(shape(2, 1, errors, 0).layout(), Err(Refusal::Width));
        assert_eq!(shape(2, 1, errors, most + 1).layout(), Err(Refusal::Width));
    }
}

/// The encoder and the codeword test against the definitions, on random rows,
/// sound ones, and sound ones with a few cells changed.
#[test]
fn the_code_is_that_of_the_definition() {
    let mut random = settings::random(1);
    let (mut yes, mut no) = (0, 0);
    for _ in 0..3000 {
        let shape = any_good_shape(&mut random);
        let layout = shape.layout().unwrap();
        let spec = questions(shape).unwrap();
        let levels = random.levels(spec.levels, shape.width);
        let mut row = spec.encoded(&levels);
        assert_eq!(checks_of(&layout, &levels), row[shape.width..]);
        for _ in 0..random.below(4) {
            let column = random.below(spec.columns());
            row[column] = if random.one_in(4) {
                random.byte()
            } else {
                random.level(spec.levels)
            };
        }
        let sound = is_codeword(&layout, &row);
        assert_eq!(sound, spec.is_sound(&row));
        if sound {
            yes += 1;
        } else {
            no += 1;
        }
    }
    assert!(yes > 500 && no > 500);
}

/// All rows of some small shapes: each k levels have one sound row, and two
/// sound rows differ in more than τ cells.
#[test]
fn sound_rows_lie_far_apart() {
    for (radix, digits, errors, width) in [
        (2, 1, 1, 4),
        (2, 2, 1, 3),
        (3, 1, 2, 2),
        (2, 1, 2, 4),
        (2, 2, 2, 1),
        (2, 1, 3, 4),
        (3, 1, 3, 2),
        (2, 2, 3, 1),
        (4, 1, 3, 1),
        (6, 1, 3, 1),
    ] {
        let layout = layout(radix, digits, errors, width);
        let all_levels: Vec<u8> = (0..layout.levels() as u8).collect();
        let sound: Vec<Vec<u8>> = all_rows(&all_levels, layout.columns())
            .filter(|row| is_codeword(&layout, row))
            .collect();
        assert_eq!(sound.len(), layout.levels().pow(width as u32));
        for (place, row) in sound.iter().enumerate() {
            for other in &sound[..place] {
                let differing = row.iter().zip(other).filter(|(a, b)| a != b).count();
                assert!(differing > errors);
            }
        }
    }
}
