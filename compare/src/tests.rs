//! The comparison is able to fail: libraries with one thing wrong, each of which must be found.

use crate::face::{Face, Tembuzar};
use crate::ffi::{
    Beam, Cell as C, CellAnswer, CountAnswer, Extents, Line, LineAnswer, Map, MapAnswer, MarkAnswer, Model, OddsAnswer,
    Point, Refusal, SampleAnswer, StepAnswer, VerticalBeam,
};
use crate::round::round;
use crate::tally::Tally;
use crate::wrong::*;

/// Tembuzar but for one thing, `WRONG`.
struct Wrong;

/// The lowest bit of the fraction, turned over.
fn turn(x: &mut f64) {
    *x = f64::from_bits(x.to_bits() ^ 1);
}

fn last(odds: &mut [f64]) -> &mut f64 {
    odds.last_mut().expect("a map has cells")
}

impl<const N: usize> Face<N> for Wrong
where
    Tembuzar: Face<N>,
{
    fn new(extents: Extents<N>, model: Model, odds: &mut [f64], stamps: &mut [u32]) -> MapAnswer<N> {
        let mut answer = Tembuzar::new(extents, model, odds, stamps);
        if is(NEW_STAMP) && answer.refusal.number == 0 {
            stamps[0] = 1;
        }
        if is(NEW_MODEL) && answer.refusal.number == 3 {
            answer.refusal.number = 4;
        }
        answer
    }
    fn reset(map: Map<N>, odds: &mut [f64], stamps: &mut [u32]) -> MapAnswer<N> {
        let answer = Tembuzar::reset(map, odds, stamps);
        if is(RESET_ZERO_SIGN) && answer.refusal.number == 0 {
            *last(odds) = -0.0;
        }
        answer
    }
    fn begin_scan(map: Map<N>, stamps: &mut [u32]) -> MapAnswer<N> {
        let mut answer = Tembuzar::begin_scan(map, stamps);
        if is(OPEN_FRAME) && answer.map.frame == 1 {
            answer.map.frame = 2;
        }
        if is(OPEN_BUFFER) && answer.refusal.number == 4 {
            answer.refusal = Refusal::default();
        }
        answer
    }
    fn open_scan(map: &mut Map<N>, stamps: &mut [u32]) -> Refusal {
        let frame = map.frame;
        let answer = Tembuzar::open_scan(map, stamps);
        match WRONG.get() {
            LENT_FRAME if map.frame == 1 => map.frame = frame,
            LENT_MODEL_BIT if answer.number == 0 => turn(&mut map.model.free),
            LENT_REFUSED if answer.number != 0 => map.frame ^= 1,
            _ => (),
        }
        answer
    }
    fn update_scan(map: Map<N>, odds: &mut [f64], stamps: &mut [u32], numbers: &[f64], hits: &[u8]) -> CountAnswer {
        let skip = usize::from(is(LIST_LAST_BEAM) && hits.len() > 1 && numbers.len() == 2 * N * hits.len());
        let (numbers, hits) = (&numbers[..numbers.len() - 2 * N * skip], &hits[..hits.len() - skip]);
        let mut answer = Tembuzar::update_scan(map, odds, stamps, numbers, hits);
        let changed = answer.refusal.number == 0 && answer.count > 0;
        match WRONG.get() {
            LIST_ODDS_BIT if changed => turn(last(odds)),
            LIST_STAMP if changed => stamps[0] ^= 1,
            LIST_COUNT if changed => answer.count += 1,
            LIST_PLACE if answer.refusal.number == 7 => answer.refusal.place += 1,
            LIST_COUNT_SO_FAR if answer.refusal.number == 7 => answer.refusal.count += 1,
            _ => (),
        }
        answer
    }
    fn update_beams(map: Map<N>, odds: &mut [f64], stamps: &mut [u32], beams: &[Beam<N>]) -> CountAnswer {
        let mut beams = beams.to_vec();
        if is(STRUCTS_LAST_BEAM) {
            beams.pop();
        }
        if is(STRUCTS_HIT) && !beams.is_empty() {
            beams[0].hit ^= true;
        }
        let mut answer = Tembuzar::update_beams(map, odds, stamps, &beams);
        match WRONG.get() {
            STRUCTS_ODDS_BIT if answer.count > 0 => turn(last(odds)),
            STRUCTS_PLACE if answer.refusal.number == 7 => answer.refusal.place += 1,
            _ => (),
        }
        answer
    }
    fn update_ray(map: Map<N>, odds: &mut [f64], stamps: &mut [u32], beam: Beam<N>) -> CountAnswer {
        let mut answer = Tembuzar::update_ray(map, odds, stamps, beam);
        match WRONG.get() {
            RAY_ODDS_BIT if answer.count > 0 => turn(last(odds)),
            RAY_NUMBER if answer.refusal.number == 7 => answer.refusal.number = 6,
            _ => (),
        }
        answer
    }
    fn update_vertical(
        map: Map<N>,
        odds: &mut [f64],
        stamps: &mut [u32],
        mut beam: VerticalBeam,
    ) -> Option<CountAnswer> {
        let height = map.extents.0[N - 1];
        match WRONG.get() {
            VERTICAL_RAN_OUT if beam.top == height && beam.bottom < height => beam.top -= 1,
            VERTICAL_ONE_SHORT if beam.top > beam.bottom && beam.top < height => beam.top -= 1,
            VERTICAL_PROFILE if beam.top > height => beam.top = height,
            _ => (),
        }
        let answer = Tembuzar::update_vertical(map, odds, stamps, beam)?;
        if is(VERTICAL_ODDS_BIT) && answer.count > 0 {
            turn(last(odds));
        }
        Some(answer)
    }
    fn mark_free(map: Map<N>, odds: &mut [f64], stamps: &mut [u32], cell: C<N>) -> MarkAnswer {
        let mut answer = Tembuzar::mark_free(map, odds, stamps, cell);
        answer.changed |= is(FREE_CHANGED);
        answer
    }
    fn mark_occupied(map: Map<N>, odds: &mut [f64], stamps: &mut [u32], cell: C<N>) -> MarkAnswer {
        let mut answer = Tembuzar::mark_occupied(map, odds, stamps, cell);
        if is(OCCUPIED_VALUES) && answer.refusal.number == 5 {
            answer.refusal.values = 2;
        }
        if is(OCCUPIED_AXES) && answer.refusal.number == 5 {
            answer.refusal.axes = 1 << answer.refusal.axis;
        }
        answer
    }
    fn set_log_odds(map: Map<N>, odds: &mut [f64], cell: C<N>, value: f64) -> Refusal {
        if is(SET_ODDS) && value > map.model.ceiling {
            return Refusal::default();
        }
        Tembuzar::set_log_odds(map, odds, cell, value)
    }
    fn set_log_odds_checked(map: Map<N>, odds: &mut [f64], cell: C<N>, value: f64) -> Refusal {
        if is(SET_NAN) {
            return Tembuzar::set_log_odds(map, odds, cell, value);
        }
        Tembuzar::set_log_odds_checked(map, odds, cell, value)
    }
    fn log_odds_at(map: Map<N>, odds: &[f64], cell: C<N>) -> OddsAnswer {
        let mut answer = Tembuzar::log_odds_at(map, odds, cell);
        match WRONG.get() {
            READ_FOUND if answer.refusal.number == 0 => answer.found = true,
            READ_ODDS_BIT if answer.found => turn(&mut answer.odds),
            _ => (),
        }
        answer
    }
    fn sample_log_odds(map: Map<N>, odds: &[f64], point: Point<N>) -> SampleAnswer<N> {
        let mut answer = Tembuzar::sample_log_odds(map, odds, point);
        if is(SAMPLE_GRADIENT_BIT) && answer.found {
            turn(&mut answer.sample.gradient[N - 1]);
        }
        answer
    }
    fn sample_all_log_odds(
        map: Map<N>,
        odds: &[f64],
        points: &[f64],
        samples: &mut [f64],
        found: &mut [u8],
    ) -> Refusal {
        let refusal = Tembuzar::sample_all_log_odds(map, odds, points, samples, found);
        let nothing = found.iter().position(|&mark| mark == 0);
        match WRONG.get() {
            MANY_LAST_BIT if refusal.number == 0 && found.last() == Some(&1) => {
                turn(&mut samples[found.len() * (N + 1) - 1])
            }
            MANY_CLEARED => nothing.map_or((), |place| samples[place * (N + 1)] = 0.0),
            MANY_MARK => nothing.map_or((), |place| found[place] = 1),
            MANY_UNEQUAL if refusal.number == 14 => found.fill(0),
            _ => (),
        }
        refusal
    }
    fn cell_containing(map: Map<N>, point: Point<N>) -> CellAnswer<N> {
        let mut answer = Tembuzar::cell_containing(map, point);
        if is(CELL_INDEX) && answer.refusal.number == 5 {
            answer.refusal.index ^= 1;
        }
        if is(CELL_AXES) && answer.refusal.axes == 1 << (N - 1) {
            answer.refusal.axes = 1;
        }
        answer
    }
    fn plotter(start: Point<N>, end: Point<N>) -> LineAnswer<N> {
        let mut answer = Tembuzar::plotter(start, end);
        if is(LINE_THRESHOLD_BIT) && answer.refusal.number == 0 {
            turn(&mut answer.line.threshold);
        }
        answer
    }
    fn step(line: Line<N>) -> StepAnswer<N> {
        let mut answer = Tembuzar::step(line);
        if is(STEP_REMAINING) && answer.found && answer.line.remaining == 0 {
            answer.line.remaining = 1;
        }
        answer
    }
}

/// The words of the first difference in 100 rounds.
fn first_difference<const N: usize>(what: u32) -> Option<String>
where
    Tembuzar: Face<N>,
{
    WRONG.set(what);
    let mut tally = Tally::default();
    let run = |number| round::<Wrong, N>(5, number, None, &mut tally);
    (0..400).map(run).find_map(|answer| answer.err().map(|difference| difference.words))
}

/// For both numbers of axes: the difference is found, in a call of this kind.
fn found(what: u32, kind: &str) {
    for words in [first_difference::<2>(what), first_difference::<3>(what)] {
        let words = words.unwrap_or_else(|| panic!("wrong thing {what} was not found"));
        assert!(words.contains(kind), "wrong thing {what} was found, but in another call:\n{words}");
    }
}

/// The same of what there is on three axes alone.
fn found3(what: u32, kind: &str) {
    let words = first_difference::<3>(what).unwrap_or_else(|| panic!("wrong thing {what} was not found"));
    assert!(words.contains(kind), "wrong thing {what} was found, but in another call:\n{words}");
}

#[test]
fn nothing_wrong_nothing_found() {
    assert_eq!(first_difference::<2>(NOTHING), None);
    assert_eq!(first_difference::<3>(NOTHING), None);
}

#[test]
fn wrong_beams_are_found() {
    found(RAY_ODDS_BIT, "beams one by one");
    found(RAY_NUMBER, "beams one by one");
    found(LIST_ODDS_BIT, "list of beams");
    found(LIST_STAMP, "stamp at 0");
    found(LIST_COUNT, "list of beams");
    found(LIST_PLACE, "list of beams");
    found(LIST_COUNT_SO_FAR, "list of beams");
    found(LIST_LAST_BEAM, "list of beams");
    found(STRUCTS_ODDS_BIT, "list of structs");
    found(STRUCTS_PLACE, "list of structs");
    found(STRUCTS_LAST_BEAM, "list of structs");
    found(STRUCTS_HIT, "list of structs");
}

#[test]
fn wrong_vertical_beams_are_found() {
    found3(VERTICAL_ODDS_BIT, "vertical beams");
    found3(VERTICAL_RAN_OUT, "vertical beams");
    found3(VERTICAL_ONE_SHORT, "vertical beams");
    found3(VERTICAL_PROFILE, "vertical beams");
}

#[test]
fn wrong_cells_are_found() {
    found(FREE_CHANGED, "mark");
    found(OCCUPIED_VALUES, "mark");
    found(OCCUPIED_AXES, "mark");
    found(SET_ODDS, "set");
    found(SET_NAN, "set");
    found(READ_FOUND, "read [");
    found(READ_ODDS_BIT, "read [");
    found(SAMPLE_GRADIENT_BIT, "sample at");
    found(CELL_INDEX, "cell of");
    found(CELL_AXES, "cell of");
    found(MANY_LAST_BIT, "sample in one call");
    found(MANY_CLEARED, "sample in one call");
    found(MANY_MARK, "sample in one call");
    found(MANY_UNEQUAL, "list 0 short");
}

#[test]
fn wrong_maps_and_lines_are_found() {
    found(OPEN_FRAME, "open");
    found(OPEN_BUFFER, "begin_scan");
    found(LENT_FRAME, "open in a lent head");
    found(LENT_MODEL_BIT, "open in a lent head");
    found(LENT_REFUSED, "open_scan");
    found(RESET_ZERO_SIGN, "reset");
    found(NEW_STAMP, "new [");
    found(NEW_MODEL, "new\n");
    found(LINE_THRESHOLD_BIT, "line ");
    found(STEP_REMAINING, "after step");
}
