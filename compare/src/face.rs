//! The entries of the C face as safe calls over slices, for two and three axes by one trait. A slice gives what the
//! header asks of a list: its elements are there, set, aligned, and overlap no other list that may change.
//! An entry that the header gains is added in one place here, for both numbers of axes.

use crate::ffi::*;

/// Tembuzar, over N axes.
pub trait Face<const N: usize> {
    #[allow(clippy::new_ret_no_self)] // the entry's own name
    fn new(extents: Extents<N>, model: Model, odds: &mut [f64], stamps: &mut [u32]) -> MapAnswer<N>;
    fn reset(map: Map<N>, odds: &mut [f64], stamps: &mut [u32]) -> MapAnswer<N>;
    fn begin_scan(map: Map<N>, stamps: &mut [u32]) -> MapAnswer<N>;
    fn open_scan(map: &mut Map<N>, stamps: &mut [u32]) -> Refusal;
    fn update_scan(map: Map<N>, odds: &mut [f64], stamps: &mut [u32], numbers: &[f64], hits: &[u8]) -> CountAnswer;
    fn update_beams(map: Map<N>, odds: &mut [f64], stamps: &mut [u32], beams: &[Beam<N>]) -> CountAnswer;
    fn update_ray(map: Map<N>, odds: &mut [f64], stamps: &mut [u32], beam: Beam<N>) -> CountAnswer;
    /// Nothing where the header has no such function: it is for three axes alone.
    fn update_vertical(
        _map: Map<N>,
        _odds: &mut [f64],
        _stamps: &mut [u32],
        _beam: VerticalBeam,
    ) -> Option<CountAnswer> {
        None
    }
    fn mark_free(map: Map<N>, odds: &mut [f64], stamps: &mut [u32], cell: Cell<N>) -> MarkAnswer;
    fn mark_occupied(map: Map<N>, odds: &mut [f64], stamps: &mut [u32], cell: Cell<N>) -> MarkAnswer;
    fn set_log_odds(map: Map<N>, odds: &mut [f64], cell: Cell<N>, value: f64) -> Refusal;
    fn set_log_odds_checked(map: Map<N>, odds: &mut [f64], cell: Cell<N>, value: f64) -> Refusal;
    fn log_odds_at(map: Map<N>, odds: &[f64], cell: Cell<N>) -> OddsAnswer;
    fn sample_log_odds(map: Map<N>, odds: &[f64], point: Point<N>) -> SampleAnswer<N>;
    fn sample_all_log_odds(map: Map<N>, odds: &[f64], points: &[f64], samples: &mut [f64], found: &mut [u8])
    -> Refusal;
    fn cell_containing(map: Map<N>, point: Point<N>) -> CellAnswer<N>;
    fn plotter(start: Point<N>, end: Point<N>) -> LineAnswer<N>;
    fn step(line: Line<N>) -> StepAnswer<N>;
}

/// The library, linked in.
pub struct Tembuzar;

/// The declarations of one number of axes, and the safe calls over them. The names are the header's.
macro_rules! face {
    ($n:literal, $head:ty, $steps:ty, $new:ident, $reset:ident, $begin_scan:ident, $open_scan:ident, $update_scan:ident, $update_beams:ident,
     $update_ray:ident, $mark_free:ident, $mark_occupied:ident, $set_log_odds:ident, $set_log_odds_checked:ident,
     $log_odds_at:ident, $sample_log_odds:ident, $sample_all_log_odds:ident, $cell_containing:ident, $plotter:ident,
     $step:ident $(, vertical $update_vertical:ident)?) => {
        unsafe extern "C" {
            $(fn $update_vertical(
                m: $head,
                o: *mut f64,
                oc: usize,
                s: *mut u32,
                sc: usize,
                b: VerticalBeam,
            ) -> CountAnswer;)?
            fn $new(e: Extents<$n>, m: $steps, o: *mut f64, oc: usize, s: *mut u32, sc: usize) -> HeadAnswer<$head>;
            fn $reset(m: $head, o: *mut f64, oc: usize, s: *mut u32, sc: usize) -> HeadAnswer<$head>;
            fn $begin_scan(m: $head, s: *mut u32, sc: usize) -> HeadAnswer<$head>;
            fn $open_scan(m: *mut $head, s: *mut u32, sc: usize) -> Refusal;
            fn $update_scan(
                m: $head,
                o: *mut f64,
                oc: usize,
                s: *mut u32,
                sc: usize,
                n: *const f64,
                nc: usize,
                h: *const u8,
                hc: usize,
            ) -> CountAnswer;
            fn $update_beams(
                m: $head,
                o: *mut f64,
                oc: usize,
                s: *mut u32,
                sc: usize,
                b: *const Beam<$n>,
                bc: usize,
            ) -> CountAnswer;
            fn $update_ray(m: $head, o: *mut f64, oc: usize, s: *mut u32, sc: usize, b: Beam<$n>) -> CountAnswer;
            fn $mark_free(m: $head, o: *mut f64, oc: usize, s: *mut u32, sc: usize, c: Cell<$n>) -> MarkAnswer;
            fn $mark_occupied(m: $head, o: *mut f64, oc: usize, s: *mut u32, sc: usize, c: Cell<$n>) -> MarkAnswer;
            fn $set_log_odds(m: $head, o: *mut f64, oc: usize, c: Cell<$n>, v: f64) -> Refusal;
            fn $set_log_odds_checked(m: $head, o: *mut f64, oc: usize, c: Cell<$n>, v: f64) -> Refusal;
            fn $log_odds_at(m: $head, o: *const f64, oc: usize, c: Cell<$n>) -> OddsAnswer;
            fn $sample_log_odds(m: $head, o: *const f64, oc: usize, p: Point<$n>) -> SampleAnswer<$n>;
            fn $sample_all_log_odds(
                m: $head,
                o: *const f64,
                oc: usize,
                p: *const f64,
                pc: usize,
                s: *mut f64,
                sc: usize,
                f: *mut u8,
                fc: usize,
            ) -> Refusal;
            fn $cell_containing(m: $head, p: Point<$n>) -> CellAnswer<$n>;
            fn $plotter(s: Point<$n>, e: Point<$n>) -> LineAnswer<$n>;
            fn $step(l: Line<$n>) -> StepAnswer<$n>;
        }

        // Each call below lends whole slices, and a head that is there, which is all that the header asks.
        impl Face<$n> for Tembuzar {
            fn new(e: Extents<$n>, m: Model, o: &mut [f64], s: &mut [u32]) -> MapAnswer<$n> {
                let answer = unsafe { $new(e, e.steps(m), o.as_mut_ptr(), o.len(), s.as_mut_ptr(), s.len()) };
                HeadAnswer { refusal: answer.refusal, map: Map::<$n>::back(answer.map) }
            }
            fn reset(m: Map<$n>, o: &mut [f64], s: &mut [u32]) -> MapAnswer<$n> {
                let answer = unsafe { $reset(m.cross(), o.as_mut_ptr(), o.len(), s.as_mut_ptr(), s.len()) };
                HeadAnswer { refusal: answer.refusal, map: Map::<$n>::back(answer.map) }
            }
            fn begin_scan(m: Map<$n>, s: &mut [u32]) -> MapAnswer<$n> {
                let answer = unsafe { $begin_scan(m.cross(), s.as_mut_ptr(), s.len()) };
                HeadAnswer { refusal: answer.refusal, map: Map::<$n>::back(answer.map) }
            }
            fn open_scan(m: &mut Map<$n>, s: &mut [u32]) -> Refusal {
                m.lend(|head| unsafe { $open_scan(head, s.as_mut_ptr(), s.len()) })
            }
            fn update_scan(m: Map<$n>, o: &mut [f64], s: &mut [u32], n: &[f64], h: &[u8]) -> CountAnswer {
                let (oc, sc, nc, hc) = (o.len(), s.len(), n.len(), h.len());
                unsafe { $update_scan(m.cross(), o.as_mut_ptr(), oc, s.as_mut_ptr(), sc, n.as_ptr(), nc, h.as_ptr(), hc) }
            }
            fn update_beams(m: Map<$n>, o: &mut [f64], s: &mut [u32], b: &[Beam<$n>]) -> CountAnswer {
                unsafe { $update_beams(m.cross(), o.as_mut_ptr(), o.len(), s.as_mut_ptr(), s.len(), b.as_ptr(), b.len()) }
            }
            fn update_ray(m: Map<$n>, o: &mut [f64], s: &mut [u32], b: Beam<$n>) -> CountAnswer {
                unsafe { $update_ray(m.cross(), o.as_mut_ptr(), o.len(), s.as_mut_ptr(), s.len(), b) }
            }
            $(fn update_vertical(m: Map<$n>, o: &mut [f64], s: &mut [u32], b: VerticalBeam) -> Option<CountAnswer> {
                Some(unsafe { $update_vertical(m.cross(), o.as_mut_ptr(), o.len(), s.as_mut_ptr(), s.len(), b) })
            })?
            fn mark_free(m: Map<$n>, o: &mut [f64], s: &mut [u32], c: Cell<$n>) -> MarkAnswer {
                unsafe { $mark_free(m.cross(), o.as_mut_ptr(), o.len(), s.as_mut_ptr(), s.len(), c) }
            }
            fn mark_occupied(m: Map<$n>, o: &mut [f64], s: &mut [u32], c: Cell<$n>) -> MarkAnswer {
                unsafe { $mark_occupied(m.cross(), o.as_mut_ptr(), o.len(), s.as_mut_ptr(), s.len(), c) }
            }
            fn set_log_odds(m: Map<$n>, o: &mut [f64], c: Cell<$n>, v: f64) -> Refusal {
                unsafe { $set_log_odds(m.cross(), o.as_mut_ptr(), o.len(), c, v) }
            }
            fn set_log_odds_checked(m: Map<$n>, o: &mut [f64], c: Cell<$n>, v: f64) -> Refusal {
                unsafe { $set_log_odds_checked(m.cross(), o.as_mut_ptr(), o.len(), c, v) }
            }
            fn log_odds_at(m: Map<$n>, o: &[f64], c: Cell<$n>) -> OddsAnswer {
                unsafe { $log_odds_at(m.cross(), o.as_ptr(), o.len(), c) }
            }
            fn sample_log_odds(m: Map<$n>, o: &[f64], p: Point<$n>) -> SampleAnswer<$n> {
                unsafe { $sample_log_odds(m.cross(), o.as_ptr(), o.len(), p) }
            }
            fn sample_all_log_odds(m: Map<$n>, o: &[f64], p: &[f64], s: &mut [f64], f: &mut [u8]) -> Refusal {
                let (oc, pc, sc, fc) = (o.len(), p.len(), s.len(), f.len());
                unsafe {
                    $sample_all_log_odds(m.cross(), o.as_ptr(), oc, p.as_ptr(), pc, s.as_mut_ptr(), sc, f.as_mut_ptr(), fc)
                }
            }
            fn cell_containing(m: Map<$n>, p: Point<$n>) -> CellAnswer<$n> {
                unsafe { $cell_containing(m.cross(), p) }
            }
            fn plotter(s: Point<$n>, e: Point<$n>) -> LineAnswer<$n> {
                unsafe { $plotter(s, e) }
            }
            fn step(l: Line<$n>) -> StepAnswer<$n> {
                unsafe { $step(l) }
            }
        }
    };
}

face!(
    2,
    Map<2>,
    Model,
    tembuzar_new2,
    tembuzar_reset2,
    tembuzar_begin_scan2,
    tembuzar_open_scan2,
    tembuzar_update_scan2,
    tembuzar_update_beams2,
    tembuzar_update_ray2,
    tembuzar_mark_free2,
    tembuzar_mark_occupied2,
    tembuzar_set_log_odds2,
    tembuzar_set_log_odds_checked2,
    tembuzar_log_odds_at2,
    tembuzar_sample_log_odds2,
    tembuzar_sample_all_log_odds2,
    tembuzar_cell_containing2,
    tembuzar_plotter2,
    tembuzar_step2
);
face!(
    3,
    Map3,
    Bands,
    tembuzar_new3,
    tembuzar_reset3,
    tembuzar_begin_scan3,
    tembuzar_open_scan3,
    tembuzar_update_scan3,
    tembuzar_update_beams3,
    tembuzar_update_ray3,
    tembuzar_mark_free3,
    tembuzar_mark_occupied3,
    tembuzar_set_log_odds3,
    tembuzar_set_log_odds_checked3,
    tembuzar_log_odds_at3,
    tembuzar_sample_log_odds3,
    tembuzar_sample_all_log_odds3,
    tembuzar_cell_containing3,
    tembuzar_plotter3,
    tembuzar_step3,
    vertical tembuzar_update_vertical3
);
