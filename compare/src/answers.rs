//! Whether an answer of ours is the original's. A refusal is compared whole: its number, how many values it gives, and
//! every value; those that the number does not give are 0. What was asked for is compared by its bits, two NaNs equal.

use oracle::bits::{Bits, all_same, same};
use oracle::rust::{LineState, RustError, Sample};

use crate::ffi::{
    self, CellAnswer, CountAnswer, Line, LineAnswer, Map, MapAnswer, MarkAnswer, OddsAnswer, Refusal, SampleAnswer,
};

/// Nothing, or what differs, in words.
pub type Verdict = Result<(), String>;

/// The answer as the requirements number it.
pub fn refusal_of(error: RustError) -> Refusal {
    let none = Refusal::default();
    match error {
        RustError::DimensionTooSmall { axis, extent } => {
            Refusal { number: 1, values: 2, axis: axis as u64, extent: extent as u64, ..none }
        }
        RustError::CapacityOverflow => Refusal { number: 2, ..none },
        RustError::OutOfBounds { axis, index, extent } => {
            Refusal { number: 5, values: 4, axis: axis as u64, index: index as i64, extent: extent as u64, ..none }
        }
        RustError::NonFiniteCoordinate { axis } => Refusal { number: 6, values: 1, axis: axis as u64, ..none },
        RustError::Ray => Refusal { number: 7, ..none },
        RustError::Other => panic!("the original gave an answer that the requirements leave out"),
    }
}

/// The same with the set of the axes that fail, which the original does not give: a 5 has it, no other refusal does.
fn with_axes(error: RustError, axes: impl Iterator<Item = bool>) -> Refusal {
    let refusal = refusal_of(error);
    match refusal.number {
        5 => Refusal { axes: axes.enumerate().map(|(axis, fails)| u16::from(fails) << axis).sum(), ..refusal },
        _ => refusal,
    }
}

/// Of a cell: every axis that is off the grid.
pub fn refusal_of_cell<const N: usize>(error: RustError, extents: [usize; N], cell: [i64; N]) -> Refusal {
    let axes = extents.into_iter().zip(cell);
    with_axes(error, axes.map(|(extent, index)| index < 0 || index as u64 >= extent as u64))
}

/// Of a point: every axis that is out of range, up to the first that is not finite.
pub fn refusal_of_point<const N: usize>(error: RustError, extents: [usize; N], point: [f64; N]) -> Refusal {
    let finite = extents.into_iter().zip(point).take_while(|(_, x)| x.is_finite());
    with_axes(error, finite.map(|(extent, x)| !(x >= 0.0 && x < extent as f64)))
}

/// 7 in a list: the refused beam's place and the count of the beams before it.
pub fn refused_list(place: usize, count: usize) -> Refusal {
    Refusal { number: 7, values: 2, place: place as u64, count: count as u64, ..Refusal::default() }
}

/// The bits in hex, for a message.
pub fn hex(floats: &[f64]) -> String {
    floats.iter().map(|x| format!("{:016x}", x.to_bits())).collect::<Vec<_>>().join(" ")
}

pub fn bits_of(floats: &[f64]) -> Vec<u64> {
    floats.iter().map(|x| x.to_bits()).collect()
}

fn unlike<A: std::fmt::Debug, B: std::fmt::Debug>(ours: A, theirs: B) -> Verdict {
    Err(format!("ours:   {ours:x?}\ntheirs: {theirs:x?}"))
}

fn when<A: std::fmt::Debug, B: std::fmt::Debug>(alike: bool, ours: A, theirs: B) -> Verdict {
    if alike { Ok(()) } else { unlike(ours, theirs) }
}

pub fn refusal(ours: Refusal, theirs: Result<(), Refusal>) -> Verdict {
    when(ours == theirs.err().unwrap_or_default(), ours, theirs)
}

pub fn count(ours: CountAnswer, theirs: Result<usize, Refusal>) -> Verdict {
    let alike = match theirs {
        Ok(count) => ours.refusal == Refusal::default() && ours.count == count as u64,
        Err(why) => ours.refusal == why && ours.count == 0,
    };
    when(alike, ours, theirs)
}

pub fn mark(ours: MarkAnswer, theirs: Result<bool, Refusal>) -> Verdict {
    let alike = match theirs {
        Ok(changed) => ours.refusal == Refusal::default() && ours.changed == changed,
        Err(why) => ours.refusal == why && !ours.changed,
    };
    when(alike, ours, theirs)
}

pub fn odds(ours: OddsAnswer, theirs: Option<f64>) -> Verdict {
    let alike = match theirs {
        Some(odds) => ours.found && same(ours.odds, odds),
        None => !ours.found,
    };
    when(alike && ours.refusal == Refusal::default(), ours, theirs.map(Bits::hex))
}

pub fn cell<const N: usize>(ours: CellAnswer<N>, theirs: Result<[isize; N], Refusal>) -> Verdict {
    let alike = match theirs {
        Ok(cell) => ours.refusal == Refusal::default() && ours.cell.0 == cell.map(|i| i as i64),
        Err(why) => ours.refusal == why && ours.cell.0 == [0; N],
    };
    when(alike, ours, theirs)
}

pub fn sample<const N: usize>(ours: SampleAnswer<N>, theirs: Option<Sample<f64, N>>) -> Verdict {
    let alike = match &theirs {
        Some(at) => ours.found && same(ours.sample.value, at.value) && all_same(&ours.sample.gradient, &at.gradient),
        None => !ours.found,
    };
    when(alike && ours.refusal == Refusal::default(), ours, theirs)
}

/// A head: extents, model by its bits, frame.
pub fn same_head<const N: usize>(ours: &Map<N>, theirs: &Map<N>) -> bool {
    let floats = |m: &Map<N>| [m.model.occupied, m.model.free, m.model.ceiling];
    ours.extents.0 == theirs.extents.0 && all_same(&floats(ours), &floats(theirs)) && ours.frame == theirs.frame
}

/// What stands in a refused answer's head.
pub fn no_head<const N: usize>() -> Map<N> {
    let model = ffi::Model { occupied: 0.0, free: 0.0, ceiling: 0.0 };
    Map { extents: ffi::Extents([0; N]), model, frame: 0 }
}

pub fn head<const N: usize>(ours: MapAnswer<N>, theirs: Result<Map<N>, Refusal>) -> Verdict {
    let alike = match &theirs {
        Ok(head) => ours.refusal == Refusal::default() && same_head(&ours.map, head),
        Err(why) => ours.refusal == *why && same_head(&ours.map, &no_head()),
    };
    when(alike, ours, theirs)
}

/// Every field of a line.
pub fn line<const N: usize>(ours: &Line<N>, theirs: &LineState<f64, N>) -> Verdict {
    let axes_alike = ours.axes.iter().enumerate().all(|(k, axis)| {
        all_same(
            &[axis.current, axis.end, axis.increment, axis.step, axis.error],
            &[theirs.current[k], theirs.end[k], theirs.increments[k], theirs.steps[k], theirs.errors[k]],
        )
    });
    let rest_alike = ours.primary == theirs.primary_axis as u64
        && same(ours.threshold, theirs.threshold)
        && ours.remaining == theirs.remaining as u64;
    when(axes_alike && rest_alike, ours, theirs)
}

pub fn plotted<const N: usize>(ours: LineAnswer<N>, theirs: Result<LineState<f64, N>, Refusal>) -> Verdict {
    refusal(ours.refusal, theirs.as_ref().map(|_| ()).map_err(|why| *why))?;
    theirs.map_or(Ok(()), |state| line(&ours.line, &state))
}

/// A refused look: nothing is found, and what was asked for is +0.0.
pub fn not_found(ours: Refusal, found: bool, asked_for: &[f64], want: Refusal) -> Verdict {
    let zero = asked_for.iter().all(|x| x.to_bits() == 0);
    when(ours == want && !found && zero, (ours, found, asked_for), want)
}
