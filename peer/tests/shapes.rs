//! Questions 1 to 5.

use peer::testing::naive::spec::questions;
use peer::testing::settings;
use peer::testing::shapes::{any_shape, bad_shape};
use peer::Shape;

const GOOD: Shape = Shape::new(2, 3, 1, 3, 2);

/// The number of the refusal, or 0.
fn number(shape: Shape) -> u8 {
    shape
        .layout()
        .map_or_else(|refusal| refusal.number(), |_| 0)
}

/// What a shape gets for values of one of its numbers.
fn expect(values: &[(usize, u8)], shape: impl Fn(usize) -> Shape) {
    for &(value, wanted) in values {
        assert_eq!(number(shape(value)), wanted, "{}", shape(value));
    }
}

#[test]
fn each_question_at_its_edges() {
    let max = usize::MAX;
    let radix = |radix| Shape { radix, ..GOOD };
    expect(&[(0, 1), (1, 1), (2, 0), (6, 0), (7, 2)], radix);
    expect(&[(255, 2), (256, 1), (max, 1)], radix);
    let digits = |digits| Shape { digits, ..GOOD };
    expect(&[(0, 2), (1, 0), (8, 0), (9, 2), (64, 2)], digits);
    expect(&[(1 << 32, 2), (max, 2)], digits);
    let errors = |errors| Shape { errors, ..GOOD };
    expect(&[(0, 3), (1, 0), (2, 0), (3, 0), (4, 3), (max, 3)], errors);
    for (errors, most) in [(1, 254), (2, 247), (3, 120)] {
        let width = |width| Shape {
            errors,
            width,
            ..GOOD
        };
        expect(&[(0, 4), (1, 0), (most, 0)], width);
        expect(&[(most + 1, 4), (256, 4), (max, 4)], width);
    }
    let rows = |rows| Shape { rows, ..GOOD };
    expect(&[(0, 5), (1, 0), (4096, 0), (4097, 5), (max, 5)], rows);
}

/// Every radix with the digits around its limit.
#[test]
fn levels_up_to_256_and_no_more() {
    for radix in 2..=255 {
        for digits in 0..=9 {
            let shape = Shape {
                radix,
                digits,
                ..GOOD
            };
            let levels = usize::saturating_pow(radix, digits as u32);
            let good = digits > 0 && levels <= 256;
            assert_eq!(number(shape), if good { 0 } else { 2 });
            if good {
                assert_eq!(shape.layout().unwrap().levels(), levels);
            }
        }
        let shape = Shape {
            radix,
            digits: usize::MAX,
            ..GOOD
        };
        assert_eq!(number(shape), 2);
    }
}

/// The first no counts.
#[test]
fn the_questions_come_in_order() {
    let max = usize::MAX;
    let mut shape = Shape::new(max, max, max, max, max);
    assert_eq!(number(shape), 1);
    shape.radix = 2;
    assert_eq!(number(shape), 2);
    shape.digits = 8;
    assert_eq!(number(shape), 3);
    shape.errors = 2;
    assert_eq!(number(shape), 4);
    shape.width = 247;
    assert_eq!(number(shape), 5);
    shape.rows = 4096;
    assert_eq!(number(shape), 0);
}

#[test]
fn random_shapes_agree_with_the_definition() {
    let mut random = settings::random(2);
    let mut seen = [0; 6];
    for _ in 0..20_000 {
        let shape = any_shape(&mut random);
        match (questions(shape), shape.layout()) {
            (Ok(spec), Ok(layout)) => {
                assert_eq!(layout.shape(), shape);
                assert_eq!(layout.levels(), spec.levels);
                assert_eq!(layout.checks(), spec.checks);
                assert_eq!(layout.columns(), spec.columns());
                assert_eq!(layout.cells(), spec.cells());
                for skip in 0..shape.digits {
                    assert_eq!(layout.lookups(skip), spec.lookups(skip));
                    assert_eq!(layout.steps(skip), spec.steps(skip));
                }
                seen[0] += 1;
            }
            (Err(number), Err(refusal)) => {
                assert_eq!(number, refusal.number());
                seen[usize::from(number)] += 1;
            }
            (naive, ours) => panic!("{shape:?}: {naive:?} but {ours:?}"),
        }
    }
    assert!(seen.iter().all(|&times| times > 100), "{seen:?}");
    for _ in 0..1000 {
        assert!(bad_shape(&mut random).layout().is_err());
    }
}
