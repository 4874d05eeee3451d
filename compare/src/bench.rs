//! What is timed: a map held by the original and for Tembuzar, with inputs in the form that each takes. Nothing here
//! that is timed converts, allocates or copies.

use std::hint::black_box;

use oracle::bench::{PreparedBeam, PreparedPoint, RawSample};
use oracle::rust::{Beam, MapState, RustMap};

use crate::face::{Face, Tembuzar};
use crate::ffi::{Map, Point};
use crate::pair::head_of;

/// One turn of work, and its answer as a number.
pub type Work<const N: usize> = fn(&mut Bench<N>) -> u64;

/// A sample as one number that every part of it goes into.
fn all_bits<const N: usize>(value: f64, gradient: [f64; N]) -> u64 {
    gradient.iter().fold(value.to_bits(), |seen, x| seen.rotate_left(7) ^ x.to_bits())
}

/// Our side: a head and its lists.
#[derive(Clone)]
struct Lists<const N: usize> {
    head: Map<N>,
    odds: Vec<f64>,
    stamps: Vec<u32>,
}

pub struct Bench<const N: usize> {
    original: RustMap<f64, N>,
    original_start: RustMap<f64, N>,
    prepared: Vec<PreparedBeam<f64, N>>,
    prepared_points: Vec<PreparedPoint<f64, N>>,
    ours: Lists<N>,
    our_start: Lists<N>,
    numbers: Vec<f64>,
    hits: Vec<u8>,
    points: Vec<Point<N>>,
    /// The same points as flat numbers, and the slots and marks of a call for all of them.
    flat: Vec<f64>,
    slots: Vec<f64>,
    found: Vec<u8>,
}

impl<const N: usize> Bench<N> {
    pub fn new(extents: [usize; N], frame: u32, beams: &[Beam<f64, N>], points: &[[f64; N]]) -> Self {
        let cells = extents.iter().product();
        let (odds, stamps) = (vec![0.0; cells], vec![0; cells]);
        let state = MapState { extents, occupied: 0.75, free: -0.5, ceiling: 4.0, odds, stamps, frame };
        let original = RustMap::from_state(&state);
        let ours = Lists { head: head_of(&state), odds: state.odds.clone(), stamps: state.stamps.clone() };
        let numbers = beams.iter().flat_map(|beam| [beam.origin, beam.endpoint]).flatten().collect();
        Self {
            original_start: original.clone(),
            original,
            prepared: beams.iter().map(PreparedBeam::from).collect(),
            prepared_points: points.iter().map(|&point| PreparedPoint::from(point)).collect(),
            our_start: ours.clone(),
            ours,
            numbers,
            hits: beams.iter().map(|beam| u8::from(beam.hit)).collect(),
            points: points.iter().map(|&point| Point(point)).collect(),
            flat: points.iter().flatten().copied().collect(),
            slots: vec![0.0; (N + 1) * points.len()],
            found: vec![0; points.len()],
        }
    }

    /// The original as it was at the start, in its own memory.
    pub fn original_back(&mut self) {
        self.original.restore(&self.original_start);
    }

    /// Our lists as they were at the start, in their own memory.
    pub fn ours_back(&mut self) {
        self.ours.odds.copy_from_slice(&self.our_start.odds);
        self.ours.stamps.copy_from_slice(&self.our_start.stamps);
        self.ours.head = self.our_start.head;
    }

    pub fn original_sweep(&mut self) -> u64 {
        self.original.sweep_prepared(&self.prepared).map_or(u64::MAX, |count| count as u64)
    }

    pub fn original_samples(&mut self) -> u64 {
        self.prepared_points.iter().fold(0, |seen, point| {
            let at = self.original.sample_prepared(black_box(point));
            seen ^ at.map_or(1, |at| all_bits(at.value(), std::array::from_fn::<_, N, _>(|axis| at.gradient(axis))))
        })
    }

    /// A sample behind a call, as every function of a C library is; otherwise the compiler puts it into its caller.
    #[inline(never)]
    fn original_sample_called(&self, point: &PreparedPoint<f64, N>) -> Option<RawSample<f64, N>> {
        self.original.sample_prepared(point)
    }

    pub fn original_samples_called(&mut self) -> u64 {
        self.prepared_points.iter().fold(0, |seen, point| {
            let at = self.original_sample_called(black_box(point));
            seen ^ at.map_or(1, |at| all_bits(at.value(), std::array::from_fn::<_, N, _>(|axis| at.gradient(axis))))
        })
    }

    /// An opening behind a call.
    #[inline(never)]
    fn original_open_called(&mut self) -> u64 {
        self.original_open()
    }

    pub fn original_opens_called(&mut self) -> u64 {
        (0..1000).map(|_| black_box(&mut *self).original_open_called()).fold(0, u64::wrapping_add)
    }

    pub fn original_open(&mut self) -> u64 {
        self.original.begin_scan();
        u64::from(self.original.frame())
    }

    pub fn original_opens(&mut self) -> u64 {
        (0..1000).map(|_| black_box(&mut *self).original_open()).fold(0, u64::wrapping_add)
    }

    pub fn original_reset(&mut self) -> u64 {
        self.original.reset();
        u64::from(self.original.frame())
    }
}

impl<const N: usize> Bench<N>
where
    Tembuzar: Face<N>,
{
    /// Both starts after one sweep, so that the map has odds to sample.
    pub fn swept(&mut self) {
        assert_eq!(self.original_sweep(), self.our_sweep());
        self.original_start = self.original.clone();
        self.our_start = self.ours.clone();
    }

    pub fn our_sweep(&mut self) -> u64 {
        let Lists { head, odds, stamps } = &mut self.ours;
        *head = Tembuzar::begin_scan(*head, stamps).map;
        let answer = Tembuzar::update_scan(*head, odds, stamps, &self.numbers, &self.hits);
        if answer.refusal.number == 0 { answer.count } else { u64::MAX }
    }

    pub fn our_samples_in_one_call(&mut self) -> u64 {
        let ours = &self.ours;
        Tembuzar::sample_all_log_odds(ours.head, &ours.odds, black_box(&self.flat), &mut self.slots, &mut self.found);
        self.slots.chunks_exact(N + 1).zip(&self.found).fold(0, |seen, (slot, found)| {
            let gradient = slot[1..].try_into().expect("a slot has a value and a gradient");
            seen ^ if *found == 1 { all_bits::<N>(slot[0], gradient) } else { 1 }
        })
    }

    pub fn our_samples(&mut self) -> u64 {
        self.points.iter().fold(0, |seen, point| {
            let at = Tembuzar::sample_log_odds(self.ours.head, &self.ours.odds, *black_box(point));
            seen ^ if at.found { all_bits(at.sample.value, at.sample.gradient) } else { 1 }
        })
    }

    /// In a lent head, as the original's is.
    pub fn our_open(&mut self) -> u64 {
        let refusal = Tembuzar::open_scan(&mut self.ours.head, &mut self.ours.stamps);
        u64::from(self.ours.head.frame) + u64::from(refusal.number)
    }

    pub fn our_opens(&mut self) -> u64 {
        (0..1000).map(|_| black_box(&mut *self).our_open()).fold(0, u64::wrapping_add)
    }

    /// With the head handed over and back by value.
    pub fn our_open_by_value(&mut self) -> u64 {
        self.ours.head = Tembuzar::begin_scan(self.ours.head, &mut self.ours.stamps).map;
        u64::from(self.ours.head.frame)
    }

    pub fn our_opens_by_value(&mut self) -> u64 {
        (0..1000).map(|_| black_box(&mut *self).our_open_by_value()).fold(0, u64::wrapping_add)
    }

    pub fn our_reset(&mut self) -> u64 {
        self.ours.head = Tembuzar::reset(self.ours.head, &mut self.ours.odds, &mut self.ours.stamps).map;
        u64::from(self.ours.head.frame)
    }
}
