//! Demand 3 on random lists of calls, with the log kept beside the run; and
//! beside it, what the panel is told and a full reading of the flags.
//!
//! A verdict is asked for where no byte of cells or lines has changed since the
//! cycle's start, which is less than document 01's mark asks: that one is put on
//! by a drift or a line setting to the value that stands there too.

use peer::testing::asks::Asks;
use peer::testing::lists::list;
use peer::testing::log::{Log, LoggedCycle};
use peer::testing::naive::panel::counts;
use peer::testing::naive::spec::Spec;
use peer::testing::settings;
use peer::testing::shapes::{short_coarse_shape, BLOCK_EDGES};
use peer::testing::verdict::{assert_flag, Row};
use peer::{panel, Answer, Array, Call, Name, Panel, Phase, Shape, State};

/// What verdicts said.
#[derive(Debug, Default)]
struct Verdicts {
    /// The cycles that ended with one.
    cycles: usize,
    /// Rows with a dead line: whose forms do not differ above the skipped digits,
    /// differ there in at most τ cells, and in more.
    dead: [usize; 3],
    /// The same of rows with a shorted line.
    shorted: [usize; 3],
    /// Rows with a sound line whose two forms are equal.
    clean: usize,
    /// Such whose forms differ, but not above the skipped digits.
    low: usize,
    /// Such that differ there in so many cells, at most τ.
    changed: [usize; 4],
    /// Those of them that differ in more than τ cells, some of them lower.
    more_below: usize,
    /// Such that differ there in more than τ cells, and those not flagged.
    beyond: usize,
    missed: usize,
}

/// How often each part of the claim was exercised.
#[derive(Debug, Default)]
struct Seen {
    /// The verdicts of cycles of all digits, and of coarse ones.
    fine: Verdicts,
    coarse: Verdicts,
    /// Cycles that ended with the mark on and no change, so with a verdict, and
    /// such that ended with a change.
    only_marked: usize,
    ended_changed: usize,
    /// Verdicts that still hold after a later call.
    later: usize,
    /// Verdicts after a commit that was taken, and after a belt rule, without a
    /// clear between.
    committed: usize,
    ruled: usize,
    /// Verdicts after a cycle that ended by a call of several steps, and such calls
    /// that left a cycle open which they found before its openings or between them.
    by_several: usize,
    begun_by_several: usize,
    /// What was seen of asks and commits.
    asks: Asks,
    refused: usize,
    /// Starts that were refused while a cycle was open.
    refused_starts: usize,
    idle: usize,
    open: usize,
    complete: usize,
    none_flagged: usize,
    several_flagged: usize,
    first_in_block: [usize; 3],
}

/// The totals are the counts of a full reading of the flags, and the panel is
/// told what that reading gives, by one block at most.
fn check_panel(array: &Array, seen: &mut Seen) {
    let State { flags, totals, .. } = &array.state;
    assert_eq!(*totals, counts(flags));
    let first = flags.iter().position(|&flag| flag != 0);
    let told = Panel {
        total: flags.iter().filter(|&&flag| flag != 0).count(),
        first,
        read: first.map_or(0, |first| first % 64 + 1),
    };
    assert_eq!(panel(array.shape, flags, totals), Ok(told));
    match first {
        None => seen.none_flagged += 1,
        Some(first) => seen.first_in_block[(first / 64).min(2)] += 1,
    }
    seen.several_flagged += usize::from(told.total > 1);
}

/// The claim after a list.
fn check(log: &Log, array: &Array, seen: &mut Seen) {
    assert_eq!(array.state.cells, log.standing.concat());
    assert_eq!(array.state.lines, log.lines);
    assert_eq!(array.belts, log.belts);
    let phase = match log.cycle {
        LoggedCycle::None => Phase::Idle,
        LoggedCycle::Open => Phase::Open,
        LoggedCycle::Ended => Phase::Complete,
    };
    assert_eq!(array.cycle.phase, phase);
    assert_eq!(array.cycle.count, log.count);
    assert_eq!(array.cycle.skip, log.skip);
    check_panel(array, seen);
    match phase {
        Phase::Idle => seen.idle += 1,
        Phase::Open => seen.open += 1,
        Phase::Complete => seen.complete += 1,
    }
    // where document 01's mark is off, nothing has changed
    assert!(log.mark || !log.changed);
    if has_verdict(log) {
        for (row, &flag) in log.rows().zip(&array.state.flags) {
            assert_flag(&log.spec, row, log.skip, flag);
        }
    }
}

/// Whether a cycle has ended, and nothing changed since its start.
fn has_verdict(log: &Log) -> bool {
    log.cycle == LoggedCycle::Ended && !log.changed
}

impl Seen {
    /// Counts a cycle that ended with a verdict.
    fn count_cycle(&mut self, log: &Log, array: &Array) {
        self.only_marked += usize::from(log.mark);
        let verdicts = match log.skip {
            0 => &mut self.fine,
            _ => &mut self.coarse,
        };
        verdicts.cycles += 1;
        for (row, &flag) in log.rows().zip(&array.state.flags) {
            verdicts.count(&log.spec, row, log.skip, flag);
        }
    }
}

impl Verdicts {
    /// Counts what was said of a row.
    fn count(&mut self, spec: &Spec, row: Row, skip: usize, flag: u8) {
        let errors = spec.shape.errors;
        let in_all = row.differing(spec, 0);
        let above = row.differing(spec, skip);
        let case = usize::from(above > 0) + usize::from(above > errors);
        match above {
            _ if row.line == 2 => self.shorted[case] += 1,
            _ if !row.has_sound_line() => self.dead[case] += 1,
            0 if in_all == 0 => self.clean += 1,
            0 => self.low += 1,
            above if above > errors => {
                self.beyond += 1;
                self.missed += usize::from(flag == 0);
            }
            above => {
                self.changed[above] += 1;
                self.more_below += usize::from(in_all > errors);
            }
        }
    }
}

/// Runs a list from the fresh array. Each beginning of a list is a list, so
/// the claim is checked after every call.
fn run(shape: Shape, calls: Vec<Call<Vec<u8>>>, seen: &mut Seen) {
    let mut log = Log::new(shape);
    let mut array = Array::fresh(shape).expect("a good shape");
    let (mut committed, mut ruled) = (false, false);
    seen.asks.begin_list();
    check(&log, &array, seen);
    for mut call in calls {
        let before = array.cycle;
        let was_open = log.cycle == LoggedCycle::Open;
        log.feed(&call);
        let answer = array.make(&mut call);
        seen.refused += usize::from(answer.number() != 0);
        seen.refused_starts += usize::from(was_open && answer == Answer::Refused(15));
        seen.asks.add(shape, &call, answer, before);
        check(&log, &array, seen);
        let ends = was_open && log.cycle == LoggedCycle::Ended;
        let several = call.name() == Name::Steps;
        let begun = was_open && before.count < 2 && log.count > before.count && !ends;
        seen.begun_by_several += usize::from(several && begun);
        match (ends, has_verdict(&log)) {
            (true, true) => {
                seen.count_cycle(&log, &array);
                seen.committed += usize::from(committed);
                seen.ruled += usize::from(ruled);
                seen.by_several += usize::from(several);
            }
            (true, false) => seen.ended_changed += 1,
            (false, true) => seen.later += 1,
            (false, false) => {}
        }
        match call.name() {
            Name::Clear => (committed, ruled) = (false, false),
            Name::Commit => committed |= answer == Answer::Done,
            Name::Rule => ruled |= answer == Answer::Done,
            _ => {}
        }
    }
}

#[test]
fn demand_3_holds_on_random_lists() {
    let mut random = settings::random(13);
    let lists = settings::lists(20_000);
    let mut seen = Seen::default();
    for _ in 0..lists {
        let shape = short_coarse_shape(&mut random, 120);
        let pieces = random.below(18);
        let calls = list(&mut random, shape, pieces);
        run(shape, calls, &mut seen);
    }
    println!("{lists} lists: {seen:?}");
    for verdicts in [&seen.fine, &seen.coarse] {
        assert!(verdicts.cycles > 5000);
        assert!(verdicts.clean > 5000);
        assert!(verdicts.changed[1..].iter().all(|&rows| rows > 50));
        assert!(verdicts.dead.iter().all(|&rows| rows > 50));
        assert!(verdicts.shorted.iter().all(|&rows| rows > 50));
        assert!(verdicts.beyond > 100);
        assert!(verdicts.missed > 0);
    }
    assert!(seen.coarse.low > 500 && seen.coarse.more_below > 300);
    assert!(seen.only_marked > 100 && seen.ended_changed > 100);
    assert!(seen.later > 1000 && seen.committed > 1000 && seen.ruled > 1000);
    assert!(seen.by_several > 1000 && seen.begun_by_several > 500);
    assert!(seen.refused > 1000 && seen.refused_starts > 500);
    seen.asks.assert_each(50);
    assert!(seen.idle > 1000 && seen.open > 1000 && seen.complete > 1000);
    assert!(seen.none_flagged > 1000 && seen.several_flagged > 1000);
}

#[test]
fn demand_3_holds_on_arrays_of_one_block_and_more() {
    let mut random = settings::random(21);
    let lists = settings::lists(40);
    let mut seen = Seen::default();
    for rows in BLOCK_EDGES {
        for _ in 0..lists {
            let shape = Shape {
                rows,
                ..short_coarse_shape(&mut random, 20)
            };
            let calls = list(&mut random, shape, 10);
            run(shape, calls, &mut seen);
        }
    }
    println!("{lists} lists for each of {BLOCK_EDGES:?} rows: {seen:?}");
    assert!(seen.fine.cycles > 100 && seen.coarse.cycles > 50);
    assert!(seen.refused > 100);
    assert!(seen.none_flagged > 1000 && seen.several_flagged > 100);
    assert!(seen.first_in_block.iter().all(|&told| told > 100));
}
