//! Our rule columns have the fewest ones: no choice of as many columns has fewer
//! beside as many check columns, and so no such choice has fewer lookups.

use peer::matrix::{rule_columns, LARGEST_WIDTH, MAX_CHECKS};
use peer::testing::counts::Counts;
use peer::testing::random::Random;
use peer::testing::settings;
use peer::testing::shapes::{any_good_shape, short_coarse_shape};
use peer::{sizes, Answer, Array, Call, Layout, Shape};

/// Columns in an order, the first k of which are said to have the fewest ones of
/// all choices of k columns.
#[derive(Clone, Debug)]
struct Claim {
    /// τ, 2 or 3.
    errors: usize,
    /// r. It need not be the least that carries the columns.
    checks: usize,
    /// The columns.
    ours: Vec<u8>,
}

/// Why columns are no choice, or how a choice refutes a claim.
#[derive(Clone, Copy, Debug, PartialEq, Eq)]
enum No {
    /// A column with too many bits, or with a count of ones that τ does not take.
    Column(u8),
    /// A column that stands there twice.
    Twice(u8),
    /// There are not so many of ours.
    Number,
    /// So many ones fewer than ours.
    Fewer(usize),
}

/// A way of drawing a choice of so many columns.
type Draw = fn(&mut Random, &Claim, usize) -> Vec<u8>;

/// Any choice, and one near ours.
const DRAWS: [Draw; 2] = [any_choice, near_choice];

/// The ones of all columns.
fn ones(columns: &[u8]) -> usize {
    columns.iter().map(|c| c.count_ones() as usize).sum()
}

impl Claim {
    /// The claim on all columns of this build.
    fn new(errors: usize, checks: usize) -> Claim {
        let width = LARGEST_WIDTH[errors - 1][checks - 1];
        Claim {
            errors,
            checks,
            ours: rule_columns(errors, checks, width).to_vec(),
        }
    }

    /// Both τ with every r.
    fn all() -> impl Iterator<Item = Claim> {
        [2, 3]
            .into_iter()
            .flat_map(|errors| (1..=MAX_CHECKS).map(move |checks| Claim::new(errors, checks)))
    }

    /// The same columns in the opposite order, so that the heaviest come first.
    fn reversed(mut self) -> Claim {
        self.ours.reverse();
        self
    }

    /// Whether a number may be a rule column, by the definition.
    fn takes(&self, column: u8) -> bool {
        let ones = column.count_ones();
        usize::from(column) < 1 << self.checks
            && match self.errors {
                2 => ones >= 2,
                _ => ones >= 3 && ones % 2 == 1,
            }
    }

    /// All numbers that may be rule columns, in increasing order.
    fn eligible(&self) -> Vec<u8> {
        (0..=255).filter(|&column| self.takes(column)).collect()
    }

    /// How many ones a choice has more than as many of ours.
    fn surplus(&self, choice: &[u8]) -> Result<usize, No> {
        for (place, &column) in choice.iter().enumerate() {
            if !self.takes(column) {
                return Err(No::Column(column));
            }
            if choice[..place].contains(&column) {
                return Err(No::Twice(column));
            }
        }
        let ours = ones(self.ours.get(..choice.len()).ok_or(No::Number)?);
        let theirs = ones(choice);
        if theirs < ours {
            return Err(No::Fewer(ours - theirs));
        }
        Ok(theirs - ours)
    }

    /// The least surplus of all choices of each number of columns.
    fn least_surpluses(&self) -> Result<Vec<usize>, No> {
        let columns = self.eligible();
        let mut least = vec![usize::MAX; columns.len() + 1];
        for choice in all_choices(&columns) {
            let surplus = self.surplus(&choice)?;
            least[choice.len()] = least[choice.len()].min(surplus);
        }
        Ok(least)
    }

    /// The surpluses of random choices, so many of each number of columns. Those
    /// above 3 are counted as 3.
    fn try_random(
        &self,
        random: &mut Random,
        rounds: usize,
        draw: Draw,
        seen: &mut Counts<usize>,
    ) -> Result<(), No> {
        for number in 0..=self.eligible().len() {
            for _ in 0..rounds {
                let choice = draw(random, self, number);
                assert_eq!(choice.len(), number);
                seen.add(self.surplus(&choice)?.min(3));
            }
        }
        Ok(())
    }
}

/// All choices of the columns, from none to all of them.
fn all_choices(columns: &[u8]) -> impl Iterator<Item = Vec<u8>> + '_ {
    (0..1usize << columns.len()).map(move |choice| {
        let places = (0..columns.len()).filter(|place| choice >> place & 1 == 1);
        places.map(|place| columns[place]).collect()
    })
}

/// Any choice, each as likely as any other.
fn any_choice(random: &mut Random, claim: &Claim, number: usize) -> Vec<u8> {
    let mut columns = claim.eligible();
    for place in 0..number {
        let other = random.between(place, columns.len() - 1);
        columns.swap(place, other);
    }
    columns.truncate(number);
    columns
}

/// Our choice with up to three columns swapped for such that it leaves out: half
/// the time any of them, else the last of ours for the first of the others.
fn near_choice(random: &mut Random, claim: &Claim, number: usize) -> Vec<u8> {
    let mut columns = claim.ours.clone();
    let others = columns.len() - number;
    if number > 0 && others > 0 {
        let bound = random.pick(&[3, columns.len()]);
        for _ in 0..random.between(1, 3) {
            let inside = number - 1 - random.below(bound.min(number));
            let outside = number + random.below(bound.min(others));
            columns.swap(inside, outside);
        }
    }
    columns.truncate(number);
    columns
}

/// The fewest ones of all choices of each number of the columns. Column by column:
/// a choice without the new one is an earlier choice, and one with it is an earlier
/// choice of one column less.
fn fewest_ones(columns: &[u8]) -> Vec<usize> {
    let mut fewest = vec![0];
    for &column in columns {
        let with: Vec<usize> = fewest.iter().map(|sum| sum + ones(&[column])).collect();
        fewest.push(usize::MAX);
        for (number, sum) in (1..).zip(with) {
            fewest[number] = fewest[number].min(sum);
        }
    }
    fewest
}

/// There are as many columns to choose from as the table of the largest k says, and
/// ours are each of them once. So where there are k to choose, there are k of ours.
#[test]
fn ours_are_all_columns_that_can_be_chosen() {
    for claim in Claim::all() {
        let Claim { errors, checks, .. } = claim;
        let columns = claim.eligible();
        assert_eq!(LARGEST_WIDTH[errors - 1][checks - 1], columns.len());
        let mut sorted = claim.ours.clone();
        sorted.sort();
        assert_eq!(sorted, columns, "{errors} {checks}");
    }
}

/// Up to 11 columns to choose from: none of their choices, 2^11 at most, has fewer
/// ones than ours, and for each k one has as many.
#[test]
fn the_least_of_all_choices_is_ours() {
    for (errors, most) in [(2, 4), (3, 5)] {
        for checks in 1..=most {
            let claim = Claim::new(errors, checks);
            let none = vec![0; claim.eligible().len() + 1];
            assert_eq!(claim.least_surpluses(), Ok(none), "{errors} {checks}");
        }
        assert_eq!(Claim::new(errors, most).eligible().len(), 11);
    }
}

/// The same for every r and k, without going through the choices one by one.
#[test]
fn the_least_found_column_by_column_is_ours() {
    for claim in Claim::all() {
        let fewest = fewest_ones(&claim.eligible());
        assert_eq!(fewest.len(), claim.ours.len() + 1);
        for (number, fewest) in fewest.into_iter().enumerate() {
            assert_eq!(ones(&claim.ours[..number]), fewest, "{claim:?} {number}");
        }
    }
}

/// Random choices of each number of columns, for both τ and every r.
fn try_all(random: &mut Random, draw: Draw) {
    let rounds = settings::lists(200);
    let mut seen = Counts::default();
    for claim in Claim::all() {
        let tried = claim.try_random(random, rounds, draw, &mut seen);
        assert_eq!(tried, Ok(()), "{claim:?}");
    }
    println!("{} choices, ones more than ours: {seen:?}", seen.all());
    seen.assert_each(4, 100);
}

#[test]
fn no_random_choice_has_fewer_ones() {
    try_all(&mut settings::random(63), any_choice);
}

#[test]
fn no_choice_near_ours_has_fewer_ones() {
    try_all(&mut settings::random(64), near_choice);
}

/// The layout of a good shape with τ 2 or 3, often with any k.
fn any_layout(random: &mut Random) -> Layout {
    loop {
        let mut shape = any_good_shape(random);
        if random.one_in(2) {
            shape.errors = random.between(2, 3);
            shape.width = random.between(1, LARGEST_WIDTH[shape.errors - 1][MAX_CHECKS - 1]);
        }
        if shape.errors >= 2 {
            return shape.layout().unwrap();
        }
    }
}

/// The claim on the columns of a layout.
fn claim_of(layout: &Layout) -> Claim {
    let claim = Claim::new(layout.shape().errors, layout.checks());
    assert_eq!(layout.rules(), &claim.ours[..layout.width()]);
    claim
}

/// W of the rule columns, by its definition: the ones of each check, those of the
/// check columns among them.
fn weight(rules: &[u8], checks: usize) -> usize {
    let mut matrix = rules.to_vec();
    matrix.extend((0..checks).map(|check| 1 << check));
    (0..checks)
        .map(|check| matrix.iter().filter(|&c| c >> check & 1 == 1).count())
        .sum()
}

/// The lookups of a cycle with W, by the formula.
fn lookups(layout: &Layout, skip: usize, weight: usize) -> usize {
    (layout.levels() / layout.radix().pow(skip as u32) - 1) * weight
}

/// W is our ones and r, and neither it nor the lookups of a cycle of any z are more
/// than with other rule columns beside the same check columns.
#[test]
fn no_choice_has_a_smaller_weight_or_fewer_lookups() {
    let mut random = settings::random(65);
    let mut seen = Counts::default();
    for _ in 0..settings::lists(4_000) {
        let layout = any_layout(&mut random);
        let claim = claim_of(&layout);
        let ours = layout.weight();
        assert_eq!(ours, weight(layout.rules(), claim.checks));
        assert_eq!(ours, ones(layout.rules()) + claim.checks);
        let draw = random.pick(&DRAWS);
        let choice = draw(&mut random, &claim, layout.width());
        let theirs = weight(&choice, claim.checks);
        let surplus = claim.surplus(&choice);
        assert_eq!(surplus.map(|surplus| ours + surplus), Ok(theirs));
        for skip in 0..layout.digits() {
            let steps = 2 + lookups(&layout, skip, ours);
            assert_eq!(layout.lookups(skip), lookups(&layout, skip, ours));
            assert_eq!(layout.steps(skip), steps);
            assert_eq!(sizes(layout.shape(), skip).unwrap().steps, steps);
            assert!(layout.lookups(skip) <= lookups(&layout, skip, theirs));
        }
        seen.add((claim.errors, theirs > ours));
    }
    println!("{} shapes: {seen:?}", seen.all());
    seen.assert_each(4, 100);
}

/// Cycles that are made count two openings and as many lookups as our ones give.
#[test]
fn cycles_make_as_many_lookups_as_our_ones_give() {
    let mut random = settings::random(66);
    let mut seen = Counts::default();
    for _ in 0..settings::lists(300) {
        let shape = short_coarse_shape(&mut random, 2_000);
        if shape.errors < 2 {
            continue;
        }
        let layout = shape.layout().unwrap();
        let claim = claim_of(&layout);
        let weight = ones(&claim.ours[..shape.width]) + claim.checks;
        for skip in 0..shape.digits {
            let mut array = Array::fresh(shape).unwrap();
            let matches = vec![0; shape.rows];
            let answer = array.make(&mut Call::Run { skip, matches });
            assert_eq!(answer, Answer::Done);
            assert_eq!(array.cycle.count, 2 + lookups(&layout, skip, weight));
            seen.add((shape.errors, skip > 0));
        }
    }
    println!("{} cycles: {seen:?}", seen.all());
    seen.assert_each(4, 50);
}

/// The claim is one of a single r: with more check columns than the least, all ones
/// together can be fewer. The paper's footnote 6 has 136 and 130.
#[test]
fn more_check_columns_can_have_fewer_ones() {
    for (width, figures) in [
        (50, &[(6, 156), (7, 136), (8, 130)][..]),
        (26, &[(5, 80), (6, 69)]),
    ] {
        let layout = Shape::new(2, 3, 2, width, 1).layout().unwrap();
        assert_eq!((layout.checks(), layout.weight()), figures[0]);
        for &(checks, weight) in figures {
            let ours = ones(rule_columns(2, checks, width));
            assert_eq!(ours + checks, weight);
        }
    }
}

/// Equal columns, columns with too many bits, and counts of ones that τ does not
/// take. Of the first pair, for r = 2, there are not even two of ours.
#[test]
fn columns_that_are_no_choice_are_refused() {
    for (errors, checks, columns, no) in [
        (2, 2, &[3, 3][..], No::Twice(3)),
        (2, 4, &[5, 3, 9, 5], No::Twice(5)),
        (3, 4, &[7, 11, 7], No::Twice(7)),
        (2, 3, &[0], No::Column(0)),
        (2, 3, &[3, 4], No::Column(4)),
        (2, 3, &[3, 9], No::Column(9)),
        (3, 4, &[7, 8], No::Column(8)),
        (3, 4, &[3, 7], No::Column(3)),
        (3, 4, &[7, 15], No::Column(15)),
        (3, 4, &[7, 19], No::Column(19)),
    ] {
        let claim = Claim::new(errors, checks);
        assert_eq!(claim.surplus(columns), Err(no), "{errors} {columns:?}");
    }
}

/// Claims on other columns than ours do not stand.
#[test]
fn wrong_claims_are_refuted() {
    let reversed = Claim::new(2, 3).reversed();
    assert_eq!(reversed.ours, [7, 6, 5, 3]);
    assert_eq!(reversed.surplus(&[3]), Err(No::Fewer(1)));
    assert_eq!(reversed.surplus(&[7]), Ok(0));
    assert_eq!(reversed.surplus(&[3, 5, 6, 7]), Ok(0));
    let mut short = Claim::new(2, 3);
    short.ours.pop();
    assert_eq!(short.least_surpluses(), Err(No::Number));
    let mut light = Claim::new(2, 3);
    light.ours[0] = 1;
    assert_eq!(light.least_surpluses(), Ok(vec![0, 1, 1, 1, 1]));
    for (errors, checks) in [(2, 4), (3, 5)] {
        let no = Claim::new(errors, checks).reversed().least_surpluses();
        assert!(matches!(no, Err(No::Fewer(_))), "{no:?}");
    }
    let mut random = settings::random(67);
    for (errors, checks) in [(2, 3), (2, 8), (3, 5), (3, 8)] {
        let claim = Claim::new(errors, checks).reversed();
        for draw in DRAWS {
            let no = claim.try_random(&mut random, 50, draw, &mut Counts::default());
            assert!(matches!(no, Err(No::Fewer(_))), "{claim:?} {no:?}");
        }
    }
}
