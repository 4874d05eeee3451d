//! Checks that need no map in work: new maps, lines, and opening or resetting at a frame that no call gives.

use oracle::generate::{self, Rng};
use oracle::rust::{RustLine, RustMap};

use crate::answers::{self, Verdict, hex, refusal_of};
use crate::check::Work;
use crate::draw;
use crate::face::Face;
use crate::ffi::{Extents, Map, Model, Point, Refusal};
use crate::pair::{Pair, first_unlike};
use crate::tally::Tally;

const MOST_CELLS: u128 = 16_777_216;

/// Opens, in both ways, and resets a small map at any frame at all.
pub fn odd_frame<L: Face<N>, const N: usize>(rng: &mut Rng, tally: &mut Tally) -> Verdict {
    let extents = generate::extents(rng, 5);
    let mut state = draw::state(rng, extents);
    state.frame = draw::any_frame(rng);
    let mut work = Work::new(rng.clone(), Pair::of(&state), tally);
    let told = |why| {
        let (odds, stamps) = (hex(&state.odds), &state.stamps);
        format!("extents {extents:?} at frame {}, odds {odds} stamps {stamps:?}\n{why}", state.frame)
    };
    work.open_by::<L>(false).and_then(|_| work.whole_map()).map_err(told)?;
    let mut work = Work::new(rng.clone(), Pair::of(&state), tally);
    work.open_by::<L>(true).and_then(|_| work.whole_map()).map_err(told)?;
    let mut work = Work::new(rng.clone(), Pair::of(&state), tally);
    work.reset::<L>().map_err(told)
}

/// A new map. Extents above the requirements' bounds, which the original does not have, are to be refused with 2.
pub fn new_map<L: Face<N>, const N: usize>(rng: &mut Rng, tally: &mut Tally) -> Verdict {
    let extents: [usize; N] = new_extents(rng);
    let model = draw::model(rng);
    let theirs = asked_new(extents, model);
    let cells = theirs.as_ref().map_or(rng.below(9), |map| map.odds().len());
    let mut odds: Vec<f64> = (0..cells).map(|_| f64::from_bits(rng.next())).collect();
    let mut stamps: Vec<u32> = (0..cells).map(|_| rng.next() as u32).collect();
    let (odds_before, stamps_before) = (odds.clone(), stamps.clone());
    let c_model = Model { occupied: model.occupied, free: model.free, ceiling: model.ceiling };
    let c_extents = Extents(extents.map(|e| e as u64));
    let ours = L::new(c_extents, c_model, &mut odds, &mut stamps);
    tally.news += 1;
    let head = |map: &RustMap<f64, N>| Map { extents: c_extents, model: c_model, frame: map.frame() };
    let floats = [model.occupied, model.free, model.ceiling];
    let told = |why| format!("new {extents:?}, model {}, {cells} numbers\n{why}", hex(&floats));
    answers::head(ours, theirs.as_ref().map(head).map_err(|why| *why)).map_err(told)?;
    let (odds_after, stamps_after) = match &theirs {
        Ok(map) => (map.odds(), map.stamps()),
        Err(_) => (&odds_before[..], &stamps_before[..]),
    };
    if first_unlike(&odds, odds_after).is_some() || stamps != stamps_after {
        return Err(told("the lists are not those of a fresh map, or of a refused call".into()));
    }
    Ok(())
}

/// Many of them on the grid's bounds or beyond.
fn new_extents<const N: usize>(rng: &mut Rng) -> [usize; N] {
    let bounded = rng.chance(2);
    std::array::from_fn(|_| match rng.below(if bounded { 6 } else { 12 }) {
        0..=5 => 2 + rng.below(12),
        6 => rng.below(2),
        7 => 4097 + rng.below(3),
        8 => rng.pick(&[256, 4096, 257]),
        9 => rng.next() as usize,
        10 => rng.pick(&[usize::MAX, 1 << 63, 1 << 32]),
        _ => 2,
    })
}

fn asked_new<const N: usize>(extents: [usize; N], model: generate::Model<f64>) -> Result<RustMap<f64, N>, Refusal> {
    let cells = extents.iter().try_fold(1u128, |all, &e| all.checked_mul(e as u128));
    let too_much = extents.iter().any(|&e| e > 4096) || cells.is_none_or(|cells| cells > MOST_CELLS);
    let too_small = extents.iter().any(|&e| e < 2);
    if too_much && !too_small {
        return Err(Refusal { number: 2, ..Refusal::default() });
    }
    if N == 3 && extents[2] == 2 && !too_small {
        return Err(Refusal { number: 15, ..Refusal::default() });
    }
    RustMap::fresh(extents, model.occupied, model.free, model.ceiling).map_err(refusal_of)
}

/// A line, and its steps, with every field of it after each.
pub fn line<L: Face<N>, const N: usize>(rng: &mut Rng, tally: &mut Tally) -> Verdict {
    let extents: [usize; N] = generate::extents(rng, 60);
    let start = draw::point(rng, &extents);
    let end = if rng.chance(2) { draw::point(rng, &extents) } else { start.map(|x| x + rng.between(-9.0, 9.0)) };
    tally.lines += 1;
    steps::<L, N>(start, end, tally).map_err(|why| format!("line {} to {}\n{why}", hex(&start), hex(&end)))
}

fn steps<L: Face<N>, const N: usize>(start: [f64; N], end: [f64; N], tally: &mut Tally) -> Verdict {
    let theirs = RustLine::plotter(start, end).map_err(refusal_of);
    let plotted = L::plotter(Point(start), Point(end));
    answers::plotted(plotted, theirs.as_ref().map(RustLine::state).map_err(|why| *why))?;
    let Ok(mut theirs) = theirs else { return Ok(()) };
    let mut ours = plotted.line;
    for step in 0..70 {
        let (cell, answer) = (theirs.step(), L::step(ours));
        tally.steps += 1;
        answers::line(&answer.line, &theirs.state()).map_err(|why| format!("after step {step}\n{why}"))?;
        match cell {
            Some(cell) if answer.found && answer.cell.0 == cell.map(|i| i as i64) => ours = answer.line,
            None if !answer.found => return Ok(()),
            _ => return Err(format!("step {step}\nours:   {answer:?}\ntheirs: {cell:?}")),
        }
    }
    Ok(())
}
