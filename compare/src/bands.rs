//! Bands of unequal pairs, which the original has not: the same beams on three of its maps, one with each band's pair,
//! leave in each cell what they leave on ours in the map of the cell's band. And cuts that are refused with 15.

use oracle::generate::{self, Rng};
use oracle::rust::{MapState, RustMap};

use crate::answers::Verdict;
use crate::draw;
use crate::ffi::{Bands, CountAnswer, Cuts, Extents, Map3, Pair, Refusal};
use crate::tally::Tally;

unsafe extern "C" {
    fn tembuzar_update_scan3(
        map: Map3,
        odds: *mut f64,
        odds_count: usize,
        stamps: *mut u32,
        stamps_count: usize,
        numbers: *const f64,
        numbers_count: usize,
        hits: *const u8,
        hits_count: usize,
    ) -> CountAnswer;
}

fn update(map: Map3, odds: &mut [f64], stamps: &mut [u32], numbers: &[f64], hits: &[u8]) -> CountAnswer {
    let (oc, sc, nc, hc) = (odds.len(), stamps.len(), numbers.len(), hits.len());
    // SAFETY: each list is handed over with its own length, and none overlaps another.
    unsafe { tembuzar_update_scan3(map, odds.as_mut_ptr(), oc, stamps.as_mut_ptr(), sc, numbers.as_ptr(), nc, hits.as_ptr(), hc) }
}

/// Cuts that fit, drawn evenly; two heights apart at least one.
fn cuts(rng: &mut Rng, heights: usize) -> Cuts {
    let first = 1 + rng.below(heights - 2);
    let second = first + 1 + rng.below(heights - 1 - first);
    Cuts { first: first as u64, second: second as u64 }
}

fn head(state: &MapState<f64, 3>, pairs: [Pair; 3], cuts: Cuts) -> Map3 {
    let [low, middle, high] = pairs;
    let bands = Bands { low, middle, high, ceiling: state.ceiling, cuts };
    Map3 { extents: Extents(state.extents.map(|e| e as u64)), bands, frame: state.frame }
}

pub fn unequal(rng: &mut Rng, tally: &mut Tally) -> Verdict {
    let mut extents: [usize; 3] = generate::extents(rng, 9);
    extents[2] = extents[2].max(3);
    let mut state: MapState<f64, 3> = draw::state(rng, extents);
    state.frame = state.frame.clamp(1, i32::MAX as u32);
    let cuts = cuts(rng, extents[2]);
    let pairs: [Pair; 3] = std::array::from_fn(|_| {
        let model = draw::model(rng);
        Pair { occupied: model.occupied, free: model.free }
    });
    let beams: Vec<_> = (0..rng.below(40)).map(|_| generate::beam(rng, &extents)).collect();
    let mut originals: Vec<RustMap<f64, 3>> = pairs.iter().map(|pair| {
        RustMap::from_state(&MapState { occupied: pair.occupied, free: pair.free, ..state.clone() })
    }).collect();
    let mut count = 0;
    let mut taken = 0;
    for beam in &beams {
        let Ok(marks) = originals[0].update_ray(beam) else { break };
        originals[1].update_ray(beam).map_err(|_| "one original refused what another took")?;
        originals[2].update_ray(beam).map_err(|_| "one original refused what another took")?;
        count += marks as u64;
        taken += 1;
    }
    let numbers: Vec<f64> = beams.iter().flat_map(|b| b.origin.into_iter().chain(b.endpoint)).collect();
    let hits: Vec<u8> = beams.iter().map(|b| u8::from(b.hit)).collect();
    let (mut odds, mut stamps) = (state.odds.clone(), state.stamps.clone());
    let map = head(&state, pairs, cuts);
    refused(map, &mut odds, &mut stamps, &state)?;
    let ours = update(map, &mut odds, &mut stamps, &numbers, &hits);
    tally.banded += taken;
    let refused = taken < beams.len() as u64;
    let counted = if refused { ours.refusal.place == taken && ours.refusal.count == count } else { ours.count == count };
    if refused != (ours.refusal.number == 7) || !counted {
        return Err(format!("bands: {extents:?}, {cuts:?}: ours {ours:?}, theirs {taken} beams and {count}"));
    }
    let layer = extents[0] * extents[1];
    for at in 0..odds.len() {
        let height = (at / layer) as u64;
        let band = usize::from(height >= cuts.first) + usize::from(height >= cuts.second);
        let (theirs, stamp) = (originals[band].odds()[at], originals[band].stamps()[at]);
        if !oracle::bits::same(odds[at], theirs) || stamps[at] != stamp {
            return Err(format!("bands: {extents:?}, {cuts:?}, {pairs:?}, cell {at}: {} and {theirs}", odds[at]));
        }
    }
    Ok(())
}

/// Cuts that do not fit are refused with 15, and nothing is written.
fn refused(map: Map3, odds: &mut [f64], stamps: &mut [u32], state: &MapState<f64, 3>) -> Verdict {
    let (Cuts { first, second }, heights) = (map.bands.cuts, map.extents.0[2]);
    for (first, second) in [(0, second), (second, first), (first, first), (first, heights), (first, u64::MAX), (heights, heights + 1)] {
        let bands = Bands { cuts: Cuts { first, second }, ..map.bands };
        let answer = update(Map3 { bands, ..map }, odds, stamps, &[], &[]);
        let kept = odds.iter().zip(&state.odds).all(|(a, b)| a.to_bits() == b.to_bits()) && stamps[..] == state.stamps[..];
        if answer.refusal != (Refusal { number: 15, ..Refusal::default() }) || !kept {
            return Err(format!("cuts {first} and {second} of {heights} heights: {answer:?}"));
        }
    }
    Ok(())
}
