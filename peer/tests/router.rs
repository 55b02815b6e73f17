//! Belt rules: the example, the questions of the three calls, which bottles a rule
//! holds, that a rule is one programming and a belt, the belts, and the claim of
//! the card on random lists with the log kept beside the run.

use peer::testing::arrays::{any_array, Make, BOTH};
use peer::testing::draw::{self, Right};
use peer::testing::lent::wrong_lengths;
use peer::testing::lists::{list, router_list};
use peer::testing::log::{Last, Log};
use peer::testing::naive::router::{holds, inputs_of, levels_of};
use peer::testing::naive::spec::{questions, Spec};
use peer::testing::random::Random;
use peer::testing::rows::all_rows;
use peer::testing::rules::{any_bottle, any_rule, bottle_for, example, Example, WITH_BELTS};
use peer::testing::settings;
use peer::testing::shapes::{any_good_shape, asked, even, short_coarse_shape, small_shape};
use peer::testing::steps::cells;
use peer::{Answer, Array, Call, Cycle, Name, Route, Rule, Shape};

/// Three binary digits, two features and two rows.
const GOOD: Shape = Shape::new(2, 3, 1, 4, 2);

/// The same with a rule column fewer.
const ODD: Shape = Shape { width: 3, ..GOOD };

/// Rows outside of two. Cut to one byte or to four, some of them are small.
const OUTSIDE: [usize; 5] = [2, 256, 1 << 32, (1 << 32) + 1, usize::MAX];

fn written(row: usize, rule: &Rule<Vec<u8>>) -> Call<Vec<u8>> {
    Call::Rule {
        row,
        rule: rule.clone(),
    }
}

fn routed(values: &[u8]) -> Call<Vec<u8>> {
    Call::Route {
        values: values.to_vec(),
    }
}

/// Reads the rule of a row, which has to be taken and to leave the array.
fn rule_at(make: Make, array: &mut Array, row: usize) -> Rule<Vec<u8>> {
    let before = array.clone();
    let features = array.shape.width / 2;
    let mut call = Call::RuleAt {
        row,
        lows: vec![0xa5; features],
        highs: vec![0x5a; features],
    };
    let answer = make(array, &mut call);
    assert_eq!(*array, before);
    match (call, answer) {
        (Call::RuleAt { lows, highs, .. }, Answer::Belt(belt)) => Rule { lows, highs, belt },
        (call, answer) => panic!("{answer:?} for {call:?}"),
    }
}

/// Routes a bottle, which has to be taken and to leave the array.
fn route(make: Make, array: &mut Array, values: &[u8]) -> Option<Route> {
    let before = array.clone();
    let answer = make(array, &mut routed(values));
    assert_eq!(*array, before);
    match answer {
        Answer::Route(found) => found,
        answer => panic!("{answer:?} for {values:?}"),
    }
}

#[test]
fn the_example() {
    let Example {
        shape,
        calls,
        rows,
        belts,
        first,
    } = example();
    for make in BOTH {
        let mut array = Array::fresh(shape).unwrap();
        array.belts = vec![50, 51, 52];
        for (call, wanted) in calls.clone() {
            let mut call = call.map(|_| Vec::new());
            assert_eq!(make(&mut array, &mut call), wanted, "{call:?}");
        }
        assert_eq!(array.state.cells, rows.concat());
        assert_eq!(array.belts, [belts[0], belts[1], 52]);
        assert_eq!(rule_at(make, &mut array, 0), first);
        let cleared = rule_at(make, &mut array, 2);
        assert_eq!((cleared.lows, cleared.highs), (vec![7; 2], vec![0; 2]));
        assert_eq!(cleared.belt, 52);
        array.shape.width = 3;
        let answer = make(&mut array, &mut routed(&[0, 0]));
        assert_eq!(answer, Answer::Refused(18));
    }
}

// ---- the questions

/// Both shapes and such with a number out of its limits, each with the first of
/// questions 1 to 5 and 18 that it fails.
fn some_shapes() -> Vec<(u8, Shape)> {
    let odd = |(number, shape)| (if number == 0 { 18 } else { number }, shape);
    let shapes = asked(GOOD).into_iter();
    shapes.chain(asked(ODD).into_iter().map(odd)).collect()
}

/// An array of the shape with so many cells, lines and belts, in which a cycle is
/// open. No other buffer is lent to a call of the router.
fn with_lengths(shape: Shape, [cells, lines, belts]: [usize; 3]) -> Array {
    let mut array = Array::fresh(GOOD).unwrap();
    assert_eq!(array.start(1), Answer::Done);
    array.shape = shape;
    array.state.cells.resize(cells, 0);
    array.state.lines.resize(lines, 0);
    array.belts.resize(belts, 7);
    array.state.counters.clear();
    array.state.flags.clear();
    array.state.totals.clear();
    array
}

/// The first question that fails counts, and a refused call leaves everything.
fn check_number(make: Make, mut array: Array, mut call: Call<Vec<u8>>, wanted: u8) {
    let before = (array.clone(), call.clone());
    let number = make(&mut array, &mut call).number();
    assert_eq!(number, wanted, "{before:?}");
    if wanted != 0 {
        assert_eq!((array, call), before);
    }
}

/// Lows and highs, and the number that questions 8 and 19 give for them.
const RANGES: [([u8; 2], [u8; 2], u8); 12] = [
    ([2, 0], [5, 3], 0),
    ([0, 0], [7, 7], 0),
    ([3, 7], [3, 7], 0),
    ([3, 0], [2, 3], 19),
    ([0, 7], [7, 0], 19),
    ([7, 7], [0, 0], 19),
    ([2, 0], [8, 3], 8),
    ([2, 8], [5, 8], 8),
    ([8, 0], [5, 3], 8),
    ([5, 0], [3, 8], 8),
    ([3, 9], [2, 3], 8),
    ([255, 255], [255, 255], 8),
];

#[test]
fn the_questions_of_a_rule_come_in_order() {
    let check = |make, number, shape, lengths: [usize; 4], row, ranges: ([u8; 2], [u8; 2], u8)| {
        let (lows, highs, in_ranges) = ranges;
        let [cells, belts, of_lows, of_highs] = lengths;
        let [mut lows, mut highs] = [lows, highs].map(Vec::from);
        lows.resize(of_lows, 0);
        highs.resize(of_highs, 0);
        let wanted = match number {
            0 if lengths != [10, 2, 2, 2] => 6,
            0 if row >= 2 => 7,
            0 => in_ranges,
            number => number,
        };
        let array = with_lengths(shape, [cells, 0, belts]);
        let rule = Rule {
            lows,
            highs,
            belt: 9,
        };
        check_number(make, array, Call::Rule { row, rule }, wanted);
    };
    for make in BOTH {
        for (number, shape) in some_shapes() {
            for cells in [8, 9, 10, 11] {
                for lengths in all_rows(&[1, 2, 3], 3) {
                    let [belts, lows, highs] = [0, 1, 2].map(|place| lengths[place].into());
                    for row in [0, 1].into_iter().chain(OUTSIDE) {
                        for ranges in RANGES {
                            let lengths = [cells, belts, lows, highs];
                            check(make, number, shape, lengths, row, ranges);
                        }
                    }
                }
            }
        }
    }
}

#[test]
fn the_questions_of_a_route_come_in_order() {
    for make in BOTH {
        for (number, shape) in some_shapes() {
            for cells in [0, 8, 9, 10, 11] {
                for lengths in all_rows(&[0, 1, 2, 3], 3) {
                    let [lines, belts, of_values] = [0, 1, 2].map(|place| lengths[place].into());
                    for (values, in_values) in
                        [([2, 3], 0), ([7, 7], 0), ([0, 8], 8), ([255, 0], 8)]
                    {
                        let mut values = Vec::from(values);
                        values.resize(of_values, 0);
                        let wanted = match number {
                            0 if [cells, lines, belts, of_values] != [10, 2, 2, 2] => 6,
                            0 => in_values,
                            number => number,
                        };
                        let array = with_lengths(shape, [cells, lines, belts]);
                        check_number(make, array, Call::Route { values }, wanted);
                    }
                }
            }
        }
    }
}

#[test]
fn the_questions_of_a_rule_that_is_read_come_in_order() {
    for make in BOTH {
        for (number, shape) in some_shapes() {
            for cells in [0, 8, 9, 10, 11] {
                for lengths in all_rows(&[0, 1, 2, 3], 3) {
                    let [belts, lows, highs] = [0, 1, 2].map(|place| lengths[place].into());
                    for row in [0, 1].into_iter().chain(OUTSIDE) {
                        let wanted = match number {
                            0 if [cells, belts, lows, highs] != [10, 2, 2, 2] => 6,
                            0 if row >= 2 => 7,
                            number => number,
                        };
                        let call = Call::RuleAt {
                            row,
                            lows: vec![0xa5; lows],
                            highs: vec![0x5a; highs],
                        };
                        check_number(make, with_lengths(shape, [cells, 0, belts]), call, wanted);
                    }
                }
            }
        }
    }
}

// ---- which bottles a rule holds

/// Every rule of a shape.
fn all_rules(spec: &Spec) -> Vec<Rule<Vec<u8>>> {
    let highest = (spec.levels - 1) as u8;
    let ranges: Vec<(u8, u8)> = (0..=highest)
        .flat_map(|low| (low..=highest).map(move |high| (low, high)))
        .collect();
    let numbers: Vec<u8> = (0..ranges.len() as u8).collect();
    all_rows(&numbers, spec.shape.width / 2)
        .zip(1..)
        .map(|(chosen, number)| {
            let (lows, highs) = chosen
                .iter()
                .map(|&range| ranges[usize::from(range)])
                .unzip();
            let belt = (number % 256) as u8;
            Rule { lows, highs, belt }
        })
        .collect()
}

/// Every bottle of a shape.
fn all_bottles(spec: &Spec) -> Vec<Vec<u8>> {
    let levels: Vec<u8> = (0..spec.levels).map(|level| level as u8).collect();
    all_rows(&levels, spec.shape.width / 2).collect()
}

/// Two rows of some tiny shapes with every rule or none in each of them, and every
/// bottle: it goes to the first rule that holds it.
#[test]
fn every_bottle_goes_to_the_first_rule_that_holds_it() {
    let mut random = settings::random(71);
    for (radix, digits, errors, width) in [
        (2, 1, 1, 2),
        (3, 1, 2, 2),
        (2, 2, 3, 2),
        (5, 1, 1, 2),
        (2, 3, 1, 2),
        (2, 1, 2, 4),
        (3, 1, 1, 4),
        (2, 1, 3, 6),
    ] {
        let shape = Shape::new(radix, digits, errors, width, 2);
        let spec = questions(shape).unwrap();
        let bottles = all_bottles(&spec);
        let rules: Vec<Option<Rule<Vec<u8>>>> = all_rules(&spec).into_iter().map(Some).collect();
        let rules = [vec![None], rules].concat();
        for make in BOTH {
            let mut array = Array::fresh(shape).unwrap();
            array.belts = random.bytes(2);
            for first in &rules {
                for second in &rules {
                    assert_eq!(make(&mut array, &mut Call::Clear), Answer::Done);
                    let rows = [first, second];
                    for (row, rule) in rows.iter().enumerate() {
                        if let Some(rule) = rule {
                            assert_eq!(make(&mut array, &mut written(row, rule)), Answer::Done);
                        }
                    }
                    for bottle in &bottles {
                        let held = |rule: &Rule<_>| holds(rule, bottle);
                        let wanted = (0..2).find(|&row| rows[row].as_ref().is_some_and(held));
                        let belt = |row: usize| rows[row].as_ref().unwrap().belt;
                        let wanted = wanted.map(|row| Route {
                            row,
                            belt: belt(row),
                        });
                        let found = make(&mut array, &mut routed(bottle));
                        assert_eq!(found, Answer::Route(wanted), "{rows:?} {bottle:?}");
                    }
                }
            }
        }
    }
}

/// No bottle goes to a cleared row, whatever belt stands there.
#[test]
fn a_cleared_row_holds_no_bottle() {
    let mut random = settings::random(72);
    for make in BOTH.repeat(300) {
        let good = even(any_good_shape(&mut random));
        let shape = Shape {
            rows: good.rows.min(70),
            ..good
        };
        let layout = shape.layout().unwrap();
        let mut array = any_array(&mut random, shape);
        assert_eq!(make(&mut array, &mut Call::Clear), Answer::Done);
        let highest = layout.highest();
        let any = any_bottle(&mut random, &layout);
        for bottle in [vec![0; any.len()], vec![highest; any.len()], any] {
            assert_eq!(route(make, &mut array, &bottle), None, "{shape} {bottle:?}");
        }
        let row = random.below(shape.rows);
        let belt = array.belts[row];
        let cleared = rule_at(make, &mut array, row);
        let [lows, highs] = [highest, 0].map(|value| vec![value; layout.features()]);
        assert_eq!(cleared, Rule { lows, highs, belt });
    }
}

/// Every range of 2 to 256 levels, and of those every value beside its ends.
#[test]
fn every_range_holds_its_ends_and_no_value_beside() {
    for (radix, digits) in [(2, 1), (3, 1), (16, 1), (15, 2), (255, 1), (2, 8), (16, 2)] {
        let shape = Shape::new(radix, digits, 1, 2, 1);
        let highest = shape.layout().unwrap().highest();
        let mut array = Array::fresh(shape).unwrap();
        for low in 0..=highest {
            for high in low..=highest {
                let rule = Rule {
                    lows: vec![low],
                    highs: vec![high],
                    belt: low ^ high,
                };
                assert_eq!(array.make(&mut written(0, &rule)), Answer::Done);
                assert_eq!(rule_at(Array::make, &mut array, 0), rule);
                let middle = low + (high - low) / 2;
                let beside = [low.saturating_sub(1), high.saturating_add(1).min(highest)];
                for value in [0, low, middle, high, highest].into_iter().chain(beside) {
                    let wanted = (low <= value && value <= high).then_some(Route {
                        row: 0,
                        belt: low ^ high,
                    });
                    let found = array.make(&mut routed(&[value]));
                    assert_eq!(found, Answer::Route(wanted), "{low} {high} {value}");
                }
            }
        }
    }
}

/// At the widest shapes a rule in the last row, and bottles that are outside of it
/// in one feature alone.
#[test]
fn every_feature_counts() {
    let mut random = settings::random(73);
    for (radix, digits, errors, width, rows) in [
        (255, 1, 1, 254, 3),
        (2, 8, 1, 254, 70),
        (16, 2, 2, 246, 2),
        (11, 2, 3, 120, 1),
    ] {
        let shape = Shape::new(radix, digits, errors, width, rows);
        let layout = shape.layout().unwrap();
        let features = layout.features();
        for make in BOTH {
            let mut array = Array::fresh(shape).unwrap();
            let rule = Rule {
                lows: (0..features).map(|_| random.between(1, 50) as u8).collect(),
                highs: (0..features)
                    .map(|_| random.between(50, 100) as u8)
                    .collect(),
                belt: 77,
            };
            let row = rows - 1;
            assert_eq!(make(&mut array, &mut written(row, &rule)), Answer::Done);
            let held = Some(Route { row, belt: 77 });
            for feature in 0..features {
                let (low, high) = (rule.lows[feature], rule.highs[feature]);
                for (value, wanted) in
                    [(low - 1, None), (low, held), (high, held), (high + 1, None)]
                {
                    let mut values = rule.lows.clone();
                    values[feature] = value;
                    assert_eq!(
                        route(make, &mut array, &values),
                        wanted,
                        "{shape} {feature}"
                    );
                }
            }
        }
    }
}

/// An array of any levels, with any bytes between them and in the other buffers.
fn mixed_array(random: &mut Random, shape: Shape) -> Array {
    let layout = shape.layout().unwrap();
    let mut array = any_array(random, shape);
    array.state.cells = cells(random, layout.levels(), layout.cells());
    array
}

/// On any bytes: the answer is first match's row for the inputs of the bottle, and
/// the belt that stands there.
#[test]
fn a_route_is_first_match_and_a_belt_on_any_bytes() {
    let mut random = settings::random(74);
    let (mut some, mut none) = (0, 0);
    for make in BOTH.repeat(3_000) {
        let shape = even(small_shape(&mut random));
        let spec = questions(shape).unwrap();
        let layout = shape.layout().unwrap();
        let mut array = mixed_array(&mut random, shape);
        let row = random.below(shape.rows);
        let rule = rule_at(make, &mut array, row);
        let values = bottle_for(&mut random, &layout, &rule);
        let inputs = inputs_of(&spec, &values);
        let Answer::Row(first) = make(&mut array, &mut Call::FirstMatch { inputs }) else {
            panic!("no first match on {shape}");
        };
        let belt = |row: usize| array.belts[row];
        let wanted = first.map(|row| Route {
            row,
            belt: belt(row),
        });
        assert_eq!(route(make, &mut array, &values), wanted, "{shape}");
        match first {
            Some(_) => some += 1,
            None => none += 1,
        }
    }
    assert!(some > 500 && none > 500, "{some} {none}");
}

/// On any bytes: a bottle goes to a shorted row at the latest, with the belt that
/// stands there.
#[test]
fn a_bottle_goes_to_a_shorted_row_at_the_latest() {
    let mut random = settings::random(81);
    let (mut to_it, mut before_it) = (0, 0);
    for make in BOTH.repeat(3_000) {
        let shape = even(small_shape(&mut random));
        let mut array = mixed_array(&mut random, shape);
        let shorted = random.below(shape.rows);
        array.state.lines[..shorted].fill(random.pick(&[0, 1, 3]));
        array.state.lines[shorted] = 2;
        let values = any_bottle(&mut random, &shape.layout().unwrap());
        let Some(found) = route(make, &mut array, &values) else {
            panic!("no row on {shape}");
        };
        assert_eq!(found.belt, array.belts[found.row]);
        match found.row {
            row if row == shorted => to_it += 1,
            row => {
                assert!(row < shorted && array.state.lines[row] == 0, "{shape}");
                before_it += 1;
            }
        }
    }
    assert!(to_it > 200 && before_it > 200, "{to_it} {before_it}");
}

/// Every byte in the second column of a feature beside bytes in the first: the low
/// is the least value that the cell lets pass, and the high the byte itself.
#[test]
fn a_rule_is_read_from_any_cells() {
    for make in BOTH {
        for (radix, digits) in [(2, 1), (2, 3), (255, 1), (16, 2)] {
            let shape = Shape::new(radix, digits, 1, 4, 2);
            let levels = questions(shape).unwrap().levels;
            let mut array = Array::fresh(shape).unwrap();
            array.belts = vec![50, 51];
            let highs = [0, 1, 7, 8, 200, 255];
            for (cell, high) in (0..=255).flat_map(|cell| highs.map(|high| (cell, high))) {
                array.state.cells[7..9].copy_from_slice(&[high, cell]);
                let passes = |low: &usize| levels - 1 - low <= usize::from(cell);
                let low = (0..levels).find(passes).unwrap() as u8;
                let wanted = Rule {
                    lows: vec![(levels - 1) as u8, low],
                    highs: vec![0, high],
                    belt: 51,
                };
                assert_eq!(rule_at(make, &mut array, 1), wanted, "{shape}");
            }
        }
    }
}

/// On any bytes: a rule that is read holds a bottle exactly where its row matches
/// it, if its line is sound.
#[test]
fn a_rule_that_is_read_holds_what_its_row_matches() {
    let mut random = settings::random(75);
    let (mut held, mut not) = (0, 0);
    for make in BOTH.repeat(3_000) {
        let shape = Shape {
            rows: 1,
            ..even(small_shape(&mut random))
        };
        let layout = shape.layout().unwrap();
        let mut array = mixed_array(&mut random, shape);
        array.state.lines = vec![0];
        let rule = rule_at(make, &mut array, 0);
        let values = bottle_for(&mut random, &layout, &rule);
        let found = route(make, &mut array, &values);
        assert_eq!(
            found.is_some(),
            holds(&rule, &values),
            "{rule:?} {values:?}"
        );
        match found {
            Some(_) => held += 1,
            None => not += 1,
        }
    }
    assert!(held > 500 && not > 500, "{held} {not}");
}

// ---- what a rule writes

/// On any bytes and at shapes of every size: a rule leaves what programming its
/// levels leaves, and the belt of its row; and it is read as it was written.
#[test]
fn a_rule_is_the_programming_of_its_levels_and_a_belt() {
    let mut random = settings::random(76);
    for make in BOTH.repeat(1_000) {
        let good = even(any_good_shape(&mut random));
        let shape = Shape {
            rows: good.rows.min(5),
            ..good
        };
        let spec = questions(shape).unwrap();
        let row = random.below(shape.rows);
        let rule = any_rule(&mut random, &shape.layout().unwrap());
        let mut array = any_array(&mut random, shape);
        let mut programmed = array.clone();
        assert_eq!(make(&mut array, &mut written(row, &rule)), Answer::Done);
        let levels = levels_of(&spec, &rule);
        let answer = make(&mut programmed, &mut Call::Program { row, levels });
        assert_eq!(answer, Answer::Done);
        assert_eq!(rule_at(make, &mut array, row), rule, "{shape}");
        programmed.belts[row] = rule.belt;
        assert_eq!(array, programmed, "{shape}");
    }
}

/// Makes a call of the name with nothing wrong in it but perhaps the length of the
/// belts. Gives the array before it, and the answer.
fn make_right(
    random: &mut Random,
    array: &mut Array,
    name: Name,
) -> (Array, Call<Vec<u8>>, Answer) {
    let layout = &array.shape.layout().unwrap();
    array.cycle = Cycle::open(0);
    let before = array.clone();
    let call = draw::call(name, &mut Right { random, layout });
    let mut call = call.map(|own| vec![0; own.length(layout)]);
    let answer = array.make(&mut call);
    (before, call, answer)
}

/// Every call on arrays with any bytes in them.
#[test]
fn belts_are_changed_by_rules_alone() {
    let mut random = settings::random(77);
    for _ in 0..300 {
        let shape = even(small_shape(&mut random));
        for &name in Name::ALL {
            let mut array = any_array(&mut random, shape);
            let (before, call, answer) = make_right(&mut random, &mut array, name);
            assert_eq!(answer.number(), 0, "{name:?} {shape}");
            let mut wanted = before.belts;
            if let Call::Rule { row, rule } = call {
                wanted[row] = rule.belt;
            }
            assert_eq!(array.belts, wanted, "{name:?} {shape}");
        }
    }
}

/// Belts of a wrong length: where a call is lent them, it is refused and changes
/// nothing; else it is taken and leaves them.
#[test]
fn the_length_of_belts_is_asked_where_they_are_lent() {
    let mut random = settings::random(78);
    for _ in 0..100 {
        let shape = even(small_shape(&mut random));
        for &name in Name::ALL {
            for length in wrong_lengths(shape.rows) {
                let mut array = any_array(&mut random, shape);
                array.belts.resize(length, 7);
                let (before, _, answer) = make_right(&mut random, &mut array, name);
                if WITH_BELTS.contains(&name) {
                    assert_eq!(answer, Answer::Refused(6), "{name:?} {shape}");
                    assert_eq!(array, before, "{name:?} {shape}");
                } else {
                    assert_eq!(answer.number(), 0, "{name:?} {shape}");
                    assert_eq!(array.belts, before.belts, "{name:?} {shape}");
                }
            }
        }
    }
}

// ---- the claim on lists

/// How often each part of the claim was exercised.
#[derive(Debug, Default)]
struct Seen {
    /// Bottles of which something is claimed: to the first row, to a later one that
    /// comes after rules alone, to one that comes after a cleared row too, to none
    /// where there are rules, and to none where all rows are cleared.
    claimed: [usize; 5],
    /// Those of them with a row among the first ones that drifted away and back.
    and_back: usize,
    /// Bottles that went to a row before the first shorted one, and such that went
    /// there, where all rows before it are as asked.
    before_shorted: usize,
    to_shorted: usize,
    /// Bottles of which nothing is claimed, since up to their row a cell has
    /// changed, a line is dead or shorted, or a row holds no rule.
    changed: usize,
    dead: usize,
    shorted: usize,
    plain: usize,
    /// Rules that are read as they were written, and such with a dead or a shorted
    /// line.
    read: usize,
    read_dead: usize,
    read_shorted: usize,
    /// Rules that were refused.
    refused: usize,
}

/// An array with the log of its calls, and for each row whether it drifted since it
/// was written.
struct Logged {
    array: Array,
    log: Log,
    drifted: Vec<bool>,
}

impl Logged {
    /// The fresh array with any belts.
    fn fresh(random: &mut Random, shape: Shape) -> Logged {
        let mut array = Array::fresh(shape).unwrap();
        let mut log = Log::new(shape);
        array.belts = random.bytes(shape.rows);
        log.belts.clone_from(&array.belts);
        Logged {
            array,
            log,
            drifted: vec![false; shape.rows],
        }
    }

    fn make(&mut self, make: Make, call: &mut Call<Vec<u8>>) -> Answer {
        self.log.feed(call);
        let answer = make(&mut self.array, call);
        match call {
            _ if answer.number() != 0 => {}
            Call::Clear => self.drifted.fill(false),
            Call::Drift { row, .. } => self.drifted[*row] = true,
            Call::Program { row, .. } | Call::Commit { row, .. } | Call::Rule { row, .. } => {
                self.drifted[*row] = false;
            }
            _ => {}
        }
        answer
    }

    /// Whether a row stands as it was written.
    fn stands(&self, row: usize) -> bool {
        self.log.standing[row] == self.log.written[row]
    }

    /// Whether a row is as the card asks: written as a rule or cleared, unchanged
    /// since then, and with a sound line.
    fn is_as_asked(&self, row: usize) -> bool {
        self.log.last[row] != Last::Plain && self.stands(row) && self.log.lines[row] == 0
    }

    /// The first row whose rule holds the bottle, by the log, and that rule's belt.
    fn first_holding(&self, values: &[u8]) -> Option<Route> {
        (0..)
            .zip(&self.log.last)
            .find_map(|(row, last)| match last {
                Last::Rule(rule) if holds(rule, values) => Some(Route {
                    row,
                    belt: rule.belt,
                }),
                _ => None,
            })
    }

    /// The claim: where all rows up to the answer, or all of them if it is none,
    /// are as asked, the answer is the first rule that holds the bottle by the log,
    /// or none where no rule does. And so it is where all rows up to that rule are
    /// as asked.
    fn check_route(&self, values: &[u8], found: Option<Route>, seen: &mut Seen) {
        self.check_shorted(values, found, seen);
        let rows = self.array.shape.rows;
        let wanted = self.first_holding(values);
        let up_to = |route: Option<Route>| 0..route.map_or(rows, |route| route.row + 1);
        let as_asked = |route| up_to(route).all(|row| self.is_as_asked(row));
        if as_asked(found) || as_asked(wanted) {
            assert_eq!(found, wanted, "{values:?} {:?}", self.log);
            self.count_claimed(found, up_to(found).collect(), seen);
        } else {
            seen.changed += usize::from(up_to(found).any(|row| !self.stands(row)));
            seen.dead += usize::from(up_to(found).any(|row| self.log.lines[row] == 1));
            seen.shorted += usize::from(up_to(found).any(|row| self.log.lines[row] == 2));
            seen.plain += usize::from(up_to(found).any(|row| self.log.last[row] == Last::Plain));
        }
    }

    /// A shorted row takes every bottle that no row before it does, with the belt
    /// that stands there: looked at where all rows before the first one are as
    /// asked.
    fn check_shorted(&self, values: &[u8], found: Option<Route>, seen: &mut Seen) {
        let Some(row) = self.log.lines.iter().position(|&line| line == 2) else {
            return;
        };
        if (0..row).all(|row| self.is_as_asked(row)) {
            let belt = self.log.belts[row];
            let earlier = self.first_holding(values).filter(|route| route.row < row);
            let wanted = earlier.unwrap_or(Route { row, belt });
            assert_eq!(found, Some(wanted), "{values:?} {:?}", self.log);
            match earlier {
                Some(_) => seen.before_shorted += 1,
                None => seen.to_shorted += 1,
            }
        }
    }

    /// Counts a bottle of which something is claimed, by the rows up to its answer.
    fn count_claimed(&self, found: Option<Route>, up_to: Vec<usize>, seen: &mut Seen) {
        let cleared = |&row: &usize| self.log.last[row] == Last::Nothing;
        let case = match found {
            Some(Route { row: 0, .. }) => 0,
            Some(_) => 1 + usize::from(up_to.iter().any(cleared)),
            None => 3 + usize::from(up_to.iter().all(cleared)),
        };
        seen.claimed[case] += 1;
        seen.and_back += usize::from(up_to.iter().any(|&row| self.drifted[row]));
    }

    /// What holds after every call: the cells are the rows as they stand, the belts
    /// those of the log, and a rule that stands as it was written is read so.
    fn check(&mut self, make: Make, seen: &mut Seen) {
        assert_eq!(self.array.state.cells, self.log.standing.concat());
        assert_eq!(self.array.state.lines, self.log.lines);
        assert_eq!(self.array.belts, self.log.belts);
        for row in 0..self.array.shape.rows {
            if let (Last::Rule(rule), true) = (self.log.last[row].clone(), self.stands(row)) {
                assert_eq!(rule_at(make, &mut self.array, row), rule);
                let line = self.log.lines[row];
                seen.read += 1;
                seen.read_dead += usize::from(line == 1);
                seen.read_shorted += usize::from(line == 2);
            }
        }
    }

    /// Bottles for the rules of all rows are routed, and one of any values.
    fn check_bottles(&mut self, make: Make, random: &mut Random, seen: &mut Seen) {
        let layout = self.array.shape.layout().unwrap();
        let mut bottles = vec![any_bottle(random, &layout)];
        for last in &self.log.last {
            if let Last::Rule(rule) = last {
                bottles.push(bottle_for(random, &layout, rule));
            }
        }
        for values in bottles {
            let found = route(make, &mut self.array, &values);
            self.check_route(&values, found, seen);
        }
    }
}

/// Runs a list from the fresh array with any belts. Each beginning of a list is a
/// list, so the claim is checked after every call but a single step.
fn run(make: Make, random: &mut Random, shape: Shape, calls: Vec<Call<Vec<u8>>>, seen: &mut Seen) {
    let mut logged = Logged::fresh(random, shape);
    logged.check(make, seen);
    logged.check_bottles(make, random, seen);
    for mut call in calls {
        let answer = logged.make(make, &mut call);
        match (&call, answer) {
            (Call::Step { .. }, _) => continue,
            (Call::Route { values }, Answer::Route(found)) => {
                logged.check_route(values, found, seen);
            }
            (Call::Rule { .. }, Answer::Refused(_)) => seen.refused += 1,
            _ => {}
        }
        logged.check(make, seen);
        logged.check_bottles(make, random, seen);
    }
}

#[test]
fn bottles_go_to_the_first_rule_that_holds_them_on_random_lists() {
    let mut random = settings::random(79);
    let lists = settings::lists(3_000);
    let mut seen = Seen::default();
    for turn in 0..lists {
        let shape = even(short_coarse_shape(&mut random, 60));
        let make = BOTH[usize::from(turn % 4 == 0)];
        let pieces = random.below(12);
        let calls = match turn % 3 {
            0 => list(&mut random, shape, pieces),
            _ => router_list(&mut random, shape, pieces),
        };
        run(make, &mut random, shape, calls, &mut seen);
    }
    println!("{lists} lists: {seen:?}");
    assert!(seen.claimed.iter().all(|&bottles| bottles > 2_000));
    assert!(seen.and_back > 1_000 && seen.refused > 500);
    assert!(seen.before_shorted > 1_000 && seen.to_shorted > 1_000);
    assert!(seen.changed > 1_000 && seen.plain > 1_000);
    assert!(seen.dead > 1_000 && seen.shorted > 1_000);
    assert!(seen.read > 10_000 && seen.read_dead > 500 && seen.read_shorted > 500);
}

/// The same at the widest shapes and on many rows.
#[test]
fn bottles_go_to_the_first_rule_that_holds_them_at_the_limits() {
    let mut random = settings::random(80);
    let mut seen = Seen::default();
    for (radix, digits, errors, width, rows) in [
        (255, 1, 1, 254, 3),
        (2, 8, 2, 246, 2),
        (16, 2, 3, 120, 5),
        (2, 8, 1, 2, 300),
        (2, 1, 1, 2, 4096),
    ] {
        let shape = Shape::new(radix, digits, errors, width, rows);
        for _ in 0..settings::lists(4) {
            let mut calls = router_list(&mut random, shape, 6);
            calls.retain(|call| !matches!(call, Call::Step { .. } | Call::Steps { .. }));
            calls.truncate(40);
            run(Array::make, &mut random, shape, calls, &mut seen);
        }
    }
    println!("{seen:?}");
    assert!(seen.claimed.iter().sum::<usize>() > 500 && seen.read > 500);
}
