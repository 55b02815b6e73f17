//! Belt rules and bottles, one call for each: a rule for every row beside the
//! programming of its levels, and the route of bottles beside first match on the
//! same inputs. Some bottles are held by the first row, and some by the last one
//! alone.

use std::time::Duration;

use peer::testing::naive::router::{inputs_of, levels_of};
use peer::testing::naive::spec::{questions, Spec};
use peer::testing::random::Random;
use peer::testing::records::{cycle_of, words_of};
use peer::testing::rules::any_rule;
use peer::{Cycle, Layout, Route, Rule, Shape};

use crate::rules::Rules;
use crate::{begin_line, drifted_to_search, in_c, least, print_numbers, print_times};
use crate::{proved_calls, ratios, timed_each, Bench, Build, Times, PIECE};

/// By what its lines are chosen.
pub const TITLE: &str = "rules and routes";

/// How many bottles are routed to the last row, and how many to the first.
const BOTTLES: usize = 400;

/// The lines of all shapes.
pub fn all_lines() {
    for (errors, width) in [(2, 2), (2, 50), (3, 120), (2, 246), (1, 254)] {
        for rows in [64, 512, 4096] {
            lines(Shape::new(2, 8, errors, width, rows));
        }
    }
}

/// Times all six and prints a line for each, and after each two the part of the
/// first's time that the second takes.
fn lines(shape: Shape) {
    let [program, rule, match_last, route_last, match_first, route_first] = times(shape);
    for (calls, titles, [plain, of_router]) in [
        (
            shape.rows,
            ["program", "rule", "rule / program"],
            [program, rule],
        ),
        (
            BOTTLES,
            ["match in last row", "route to last row", "route / match"],
            [match_last, route_last],
        ),
        (
            BOTTLES,
            ["match in first row", "route to first row", "route / match"],
            [match_first, route_first],
        ),
    ] {
        print_times(titles[0], shape, calls, calls, plain);
        print_times(titles[1], shape, calls, calls, of_router);
        begin_line(titles[2], shape, calls);
        print_numbers(2, ratios(of_router, plain));
        println!();
    }
}

/// The least times of programming, rules, and first match and route of the bottles
/// for the last row and for the first.
fn times(shape: Shape) -> [Times; 6] {
    let work = Work::drawn(shape);
    let (least, _) = least(&work.begin, |build, bench| work.run(build, bench));
    let [rows, bottles] = [shape.rows, BOTTLES].map(|calls| calls.div_ceil(PIECE));
    let mut start = 0;
    [rows, rows, bottles, bottles, bottles, bottles].map(|pieces| {
        let here = start..start + pieces;
        start = here.end;
        let of_build = |all: &Vec<Duration>| Some(all.get(here.clone())?.iter().sum());
        least.each_ref().map(of_build)
    })
}

/// Bottles with the inputs that they feed, and where all of them go.
struct Bottles {
    each: Vec<(Vec<u8>, Vec<u16>)>,
    route: Route,
}

impl Bottles {
    fn drawn(spec: &Spec, route: Route, draw: impl FnMut() -> Vec<u8>) -> Bottles {
        let mut draw = draw;
        let each = (0..BOTTLES).map(|_| {
            let values = draw();
            let inputs = inputs_of(spec, &values);
            (values, inputs)
        });
        Bottles {
            each: each.collect(),
            route,
        }
    }
}

struct Work {
    shape: Shape,
    /// A rule for each row, and its levels.
    rules: Vec<Rule<Vec<u8>>>,
    levels: Rules,
    /// An array of other rows, whose cycle is open.
    begin: Bench,
    /// The same with the rules in it, whose cycle is idle.
    end: Bench,
    /// Bottles that the last row alone holds, and such that the first holds.
    last: Bottles,
    first: Bottles,
}

/// A rule for each row. In all but the last one feature has no value of the upper
/// half; the last holds every bottle.
fn rules(random: &mut Random, layout: &Layout) -> Vec<Rule<Vec<u8>>> {
    let features = layout.features();
    let half = layout.highest() / 2;
    let mut rules: Vec<Rule<Vec<u8>>> = (0..layout.rows())
        .map(|_| {
            let mut rule = any_rule(random, layout);
            let feature = random.below(features);
            rule.highs[feature] = half;
            rule.lows[feature] = rule.lows[feature].min(half);
            rule
        })
        .collect();
    if let Some(rule) = rules.last_mut() {
        rule.lows.fill(0);
        rule.highs.fill(layout.highest());
    }
    rules
}

impl Work {
    fn drawn(shape: Shape) -> Work {
        let mut random = Random::new(20);
        let spec = questions(shape).expect("a good shape");
        let layout = shape.layout().expect("a good shape");
        let rules = rules(&mut random, &layout);
        let levels = rules.iter().flat_map(|rule| levels_of(&spec, rule));
        let levels = Rules::new(shape, levels.collect());
        let mut begin = drifted_to_search(shape);
        begin.words = words_of(Cycle::open(0));
        begin.belts = random.bytes(shape.rows);
        let mut end = begin.clone();
        end.words = words_of(Cycle::IDLE);
        end.state.cells = levels
            .rows()
            .flat_map(|(_, levels)| spec.encoded(levels))
            .collect();
        end.belts = rules.iter().map(|rule| rule.belt).collect();
        let route = |row: usize| Route {
            row,
            belt: rules[row].belt,
        };
        let upper = layout.levels() / 2;
        let last = Bottles::drawn(&spec, route(shape.rows - 1), || {
            let values = random.levels(upper, layout.features());
            values.iter().map(|value| value + upper as u8).collect()
        });
        let first = Bottles::drawn(&spec, route(0), || value_of_each(&mut random, &rules[0]));
        Work {
            shape,
            rules,
            levels,
            begin,
            end,
            last,
            first,
        }
    }

    /// One run: the times of the pieces of all six. What is written is looked at
    /// outside of the time.
    fn run(&self, build: Build, bench: &mut Bench) -> Vec<Duration> {
        let mut pieces = self.levels.program(build, bench);
        assert!(bench.state == self.end.state && bench.belts == self.begin.belts);
        bench.copy_from(&self.begin);
        pieces.extend(self.write(build, bench));
        assert!(*bench == self.end, "these are not the rules");
        for bottles in [&self.last, &self.first] {
            pieces.extend(self.find(build, bench, bottles));
            pieces.extend(self.route(build, bench, bottles));
        }
        pieces
    }

    /// Writes a rule to every row.
    fn write(&self, build: Build, bench: &mut Bench) -> Vec<Duration> {
        let Bench {
            words,
            state,
            belts,
            ..
        } = bench;
        let (shape, cells) = (self.shape, &mut state.cells);
        let array = in_c::Array::new(shape);
        let rules = self.rules.iter().map(Rule::lend).enumerate();
        match build {
            Build::Proved => timed_each(rules, |(row, rule)| {
                let number = proved_calls::rule(words, shape, cells, belts, row, rule);
                assert_eq!(number, 0);
            }),
            Build::Rust => {
                let mut cycle = cycle_of(words);
                let pieces = timed_each(rules, |(row, rule)| {
                    let (next, answer) = peer::rule(shape, cells, belts, row, rule, cycle);
                    assert_eq!(answer, Ok(()));
                    cycle = next;
                });
                *words = words_of(cycle);
                pieces
            }
            Build::C => timed_each(rules, |(row, rule)| {
                in_c::rule(&array, words, cells, belts, row, rule);
            }),
        }
    }

    /// First match on the inputs of all bottles.
    fn find(&self, build: Build, bench: &Bench, bottles: &Bottles) -> Vec<Duration> {
        let (shape, cells, lines) = (self.shape, &bench.state.cells, &bench.state.lines);
        let array = in_c::Array::new(shape);
        timed_each(bottles.each.iter(), |(_, inputs)| {
            let found = match build {
                Build::Proved => {
                    let (number, found) = proved_calls::first_match(shape, cells, lines, inputs);
                    assert_eq!(number, 0);
                    found
                }
                Build::Rust => {
                    let found = peer::first_match(shape, cells, lines, inputs);
                    found.expect("a good task").unwrap_or(shape.rows)
                }
                Build::C => in_c::first_match(&array, cells, lines, inputs),
            };
            assert_eq!(found, bottles.route.row);
        })
    }

    /// The route of all bottles.
    fn route(&self, build: Build, bench: &Bench, bottles: &Bottles) -> Vec<Duration> {
        let (shape, belts) = (self.shape, &bench.belts);
        let (cells, lines) = (&bench.state.cells, &bench.state.lines);
        let array = in_c::Array::new(shape);
        timed_each(bottles.each.iter(), |(values, _)| {
            let route = match build {
                Build::Proved => {
                    let (number, told) = proved_calls::route(shape, cells, lines, belts, values);
                    assert_eq!(number, 0);
                    let (row, belt) = told;
                    Some(Route { row, belt })
                }
                Build::Rust => {
                    peer::route(shape, cells, lines, belts, values).expect("a good bottle")
                }
                Build::C => in_c::route(&array, cells, lines, belts, values),
            };
            assert_eq!(route, Some(bottles.route));
        })
    }
}

/// A value in each range of a rule.
fn value_of_each(random: &mut Random, rule: &Rule<Vec<u8>>) -> Vec<u8> {
    let ranges = rule.lows.iter().zip(&rule.highs);
    ranges
        .map(|(&low, &high)| random.between(low.into(), high.into()) as u8)
        .collect()
}
