//! Maps, beams and cells from a seed. `oracle::generate` has floats at every edge of an axis; here are the sizes of
//! maps and the kinds of sweeps: fans, short beams, beams along the lattice, beside the grid, and to the upper faces.

use oracle::generate::{self, Model, Rng};
use oracle::rust::{Beam, HIGHEST_FRAME, MapState};

/// The numbers of one round, which depend on the seed and the round alone.
pub fn round_numbers(seed: u64, round: u64) -> Rng {
    let mut seeds = Rng(seed);
    let mut numbers = Rng(seeds.next() ^ round.wrapping_mul(0xd6e8_feb8_6659_fd93));
    numbers.next();
    numbers
}

/// Three bands need three heights.
pub fn banded<const N: usize>(mut extents: [usize; N]) -> [usize; N] {
    if N == 3 {
        extents[2] = extents[2].max(3);
    }
    extents
}

/// Small, middling or long; `large` is drawn apart, since it costs as much as thousands of others.
pub fn extents<const N: usize>(rng: &mut Rng) -> [usize; N] {
    banded(any_extents(rng))
}

fn any_extents<const N: usize>(rng: &mut Rng) -> [usize; N] {
    let (small, middling, wide) = if N == 2 { (16, 64, 300) } else { (9, 20, 44) };
    match rng.below(64) {
        0..=39 => generate::extents(rng, small),
        40..=56 => generate::extents(rng, middling),
        57..=62 => {
            let mut extents = generate::extents(rng, 5);
            extents[rng.below(N)] = if rng.chance(4) { 4096 } else { 2 + rng.below(4095) };
            extents
        }
        _ => generate::extents(rng, wide),
    }
}

/// Up to 16,777,216 cells, with an axis of 4,096 where there are as many.
pub fn large_extents<const N: usize>(rng: &mut Rng) -> [usize; N] {
    let mut extents = [2; N];
    let mut left = 16_777_216;
    for (axis, extent) in extents.iter_mut().enumerate() {
        let least: usize = if N == 3 { 3 } else { 2 };
        let most = (left / least.pow((N - 1 - axis) as u32)).min(4096);
        *extent = if rng.chance(2) { most } else { least + rng.below(most - least + 1) };
        left /= *extent;
    }
    extents
}

/// A map of these extents. One in eight has odds and stamps of any bits; one in eight has the last frame but one.
pub fn state<const N: usize>(rng: &mut Rng, extents: [usize; N]) -> MapState<f64, N> {
    let mut state = generate::state_of(rng, extents);
    if rng.chance(8) {
        state.odds.iter_mut().for_each(|odds| *odds = f64::from_bits(rng.next()));
        state.stamps.iter_mut().for_each(|stamp| *stamp = rng.next() as u32);
    }
    if rng.chance(8) {
        state.frame = HIGHEST_FRAME - 1;
    }
    state
}

/// A large map: odds and stamps repeat those of a short list, so that it is drawn in little time.
pub fn large_state<const N: usize>(rng: &mut Rng, extents: [usize; N]) -> MapState<f64, N> {
    let mut few = [2; N];
    few[0] = 509;
    let few: MapState<f64, N> = generate::state_of(rng, few);
    let cells = extents.iter().product();
    MapState {
        extents,
        odds: few.odds.iter().copied().cycle().take(cells).collect(),
        stamps: few.stamps.iter().copied().cycle().take(cells).collect(),
        ..few
    }
}

/// Any frame, also those that no call gives.
pub fn any_frame(rng: &mut Rng) -> u32 {
    match rng.below(5) {
        0 => rng.pick(&[0, 1, HIGHEST_FRAME - 1, HIGHEST_FRAME, HIGHEST_FRAME + 1, u32::MAX]),
        1 => rng.next() as u32,
        _ => generate::frame(rng),
    }
}

pub fn model(rng: &mut Rng) -> Model<f64> {
    generate::model(rng)
}

/// How the beams of one list are drawn.
#[derive(Clone, Copy, Debug)]
pub enum Style {
    Any,
    Finite,
    Fan,
    Short,
    Lattice,
    Beside,
    UpperFaces,
    NearFaces,
}

pub fn style(rng: &mut Rng) -> Style {
    use Style::*;
    rng.pick(&[Finite, Finite, Finite, Fan, Fan, Short, Lattice, Beside, UpperFaces, NearFaces])
}

/// One beam; `eye` is where the beams of a fan start.
pub fn beam<const N: usize>(rng: &mut Rng, extents: &[usize; N], style: Style, eye: &[f64; N]) -> Beam<f64, N> {
    let (origin, endpoint) = match style {
        Style::Any => return generate::beam(rng, extents),
        Style::Finite => generate::segment(rng, extents),
        Style::Fan => (*eye, each(extents, |e| rng.between(-0.5 * e, 1.5 * e))),
        Style::Short => {
            let origin = each(extents, |e| rng.between(-1.0, e + 1.0));
            (origin, origin.map(|x| x + rng.between(-2.5, 2.5)))
        }
        Style::Lattice => (each(extents, |e| half(rng, e)), each(extents, |e| half(rng, e))),
        Style::Beside => beside(rng, extents),
        Style::UpperFaces => (each(extents, |e| rng.between(-e, 2.0 * e)), each(extents, |e| face(rng, e))),
        Style::NearFaces => (each(extents, |e| near_face(rng, e)), each(extents, |e| rng.between(-0.5, e))),
    };
    Beam { origin, endpoint, hit: !rng.chance(3) }
}

fn each<const N: usize>(extents: &[usize; N], mut draw: impl FnMut(f64) -> f64) -> [f64; N] {
    extents.map(|extent| draw(extent as f64))
}

/// A multiple of a half, from -2 to the extent + 2.
fn half(rng: &mut Rng, extent: f64) -> f64 {
    rng.below(2 * extent as usize + 9) as f64 * 0.5 - 2.0
}

/// The upper face, a float beside it, or some point below it.
fn face(rng: &mut Rng, extent: f64) -> f64 {
    match rng.below(4) {
        0 => extent,
        1 => extent.next_down(),
        2 => extent.next_up(),
        _ => rng.between(0.0, extent),
    }
}

/// A float close to some cell's face, from about 2^-17 to the next float: where a step of a whole cell rounds across
/// it.
fn near_face(rng: &mut Rng, extent: f64) -> f64 {
    let face = rng.below(extent as usize + 1) as f64;
    let little = 2f64.powi(-17 - rng.below(37) as i32);
    match rng.below(3) {
        0 => face - little,
        1 => face + little,
        _ => face.next_down(),
    }
}

/// Both ends on one side of the grid along one axis; one in five crosses it from there.
fn beside<const N: usize>(rng: &mut Rng, extents: &[usize; N]) -> ([f64; N], [f64; N]) {
    let mut origin = each(extents, |e| rng.between(-2.0 * e, 3.0 * e));
    let mut endpoint = each(extents, |e| rng.between(-2.0 * e, 3.0 * e));
    let axis = rng.below(N);
    let far = extents[axis] as f64 * (1.0 + rng.unit());
    origin[axis] = far;
    if !rng.chance(5) {
        endpoint[axis] = far + rng.between(-0.1, 3.0);
    }
    (origin, endpoint)
}

/// A beam that is refused: a coordinate that is not finite, or ends too far apart on a row of the map.
pub fn refused_beam<const N: usize>(rng: &mut Rng, extents: &[usize; N]) -> Beam<f64, N> {
    let mut origin = each(extents, |e| rng.between(0.0, e));
    let mut endpoint = origin;
    let axis = rng.below(N);
    if rng.chance(3) {
        (origin[axis], endpoint[axis]) = (-1e308, 1e308);
    } else if rng.chance(2) {
        origin[axis] = rng.pick(&[f64::NAN, f64::INFINITY, f64::NEG_INFINITY]);
    } else {
        endpoint[axis] = rng.pick(&[f64::NAN, f64::INFINITY, f64::NEG_INFINITY]);
    }
    Beam { origin, endpoint, hit: rng.chance(2) }
}

pub fn cell<const N: usize>(rng: &mut Rng, extents: &[usize; N]) -> [i64; N] {
    generate::cell(rng, extents)
}

/// A point, once in a while not finite.
pub fn point<const N: usize>(rng: &mut Rng, extents: &[usize; N]) -> [f64; N] {
    if rng.chance(2) {
        return extents.map(|extent| generate::coordinate_or_not(rng, extent));
    }
    each(extents, |e| rng.between(0.0, e - 1.0))
}

/// Odds to put into a cell: of any bits, or near the bounds.
pub fn odds(rng: &mut Rng, model: Model<f64>) -> f64 {
    if rng.chance(4) { f64::from_bits(rng.next()) } else { generate::odds(rng, model) }
}
