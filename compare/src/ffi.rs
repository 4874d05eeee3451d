//! The C face of Tembuzar, as `include/tembuzar.h` declares it. Two and three axes share each struct: an array of N
//! numbers lies in memory, and crosses in a call, as the header's fields x, y (and z) do. `face.rs` makes the calls
//! safe, and `record_calls.rs` those of map records; nothing else in this program calls C.

use std::ffi::c_double;

#[repr(C)]
#[derive(Clone, Copy, Debug, Default, PartialEq, Eq)]
pub struct Refusal {
    pub number: u32,
    pub values: u16,
    pub axes: u16,
    pub axis: u64,
    pub index: i64,
    pub extent: u64,
    pub place: u64,
    pub count: u64,
    pub needed: u64,
}

#[repr(C)]
#[derive(Clone, Copy, Debug)]
pub struct Model {
    pub occupied: c_double,
    pub free: c_double,
    pub ceiling: c_double,
}

#[repr(C)]
#[derive(Clone, Copy, Debug)]
pub struct Axis {
    pub current: c_double,
    pub end: c_double,
    pub increment: c_double,
    pub step: c_double,
    pub error: c_double,
}

#[repr(C)]
#[derive(Clone, Copy, Debug)]
pub struct Extents<const N: usize>(pub [u64; N]);

/// A head. The header's for two axes, which crosses as it stands; for three it becomes a `Map3` on its way: the
/// original has one pair of steps, so every band has it, and the cuts do not matter.
#[repr(C)]
#[derive(Clone, Copy, Debug)]
pub struct Map<const N: usize> {
    pub extents: Extents<N>,
    pub model: Model,
    pub frame: u32,
}

#[repr(C)]
#[derive(Clone, Copy, Debug, PartialEq)]
pub struct Pair {
    pub occupied: c_double,
    pub free: c_double,
}

#[repr(C)]
#[derive(Clone, Copy, Debug, PartialEq, Eq)]
pub struct Cuts {
    pub first: u64,
    pub second: u64,
}

#[repr(C)]
#[derive(Clone, Copy, Debug)]
pub struct Bands {
    pub low: Pair,
    pub middle: Pair,
    pub high: Pair,
    pub ceiling: c_double,
    pub cuts: Cuts,
}

/// The header's head of three axes.
#[repr(C)]
#[derive(Clone, Copy, Debug)]
pub struct Map3 {
    pub extents: Extents<3>,
    pub bands: Bands,
    pub frame: u32,
}

impl Extents<2> {
    pub fn steps(self, model: Model) -> Model {
        model
    }
}

impl Extents<3> {
    /// Cuts that fit where the last extent is 3 or more.
    pub fn cuts(self) -> Cuts {
        let more = self.0[2].saturating_sub(3) / 4;
        Cuts { first: 1 + more, second: 2 + 2 * more }
    }

    pub fn steps(self, model: Model) -> Bands {
        let pair = Pair { occupied: model.occupied, free: model.free };
        Bands { low: pair, middle: pair, high: pair, ceiling: model.ceiling, cuts: self.cuts() }
    }
}

impl Map<2> {
    pub fn cross(self) -> Map<2> {
        self
    }

    pub fn back(map: Map<2>) -> Map<2> {
        map
    }

    pub fn lend<R>(&mut self, call: impl FnOnce(*mut Map<2>) -> R) -> R {
        call(self)
    }
}

impl Map<3> {
    pub fn cross(self) -> Map3 {
        Map3 { extents: self.extents, bands: self.extents.steps(self.model), frame: self.frame }
    }

    /// A head that comes back has the bands that went over, or none at all.
    pub fn back(map: Map3) -> Map<3> {
        let Bands { low, middle, high, ceiling, cuts } = map.bands;
        let bits = |p: Pair| (p.occupied.to_bits(), p.free.to_bits());
        let none = Cuts { first: 0, second: 0 };
        assert!(bits(low) == bits(middle) && bits(low) == bits(high), "bands that differ came back");
        assert!(cuts == map.extents.cuts() || (cuts == none && map.extents.0 == [0; 3]), "other cuts came back");
        let model = Model { occupied: low.occupied, free: low.free, ceiling };
        Map { extents: map.extents, model, frame: map.frame }
    }

    pub fn lend<R>(&mut self, call: impl FnOnce(*mut Map3) -> R) -> R {
        let mut head = self.cross();
        let answer = call(&mut head);
        *self = Map::<3>::back(head);
        answer
    }
}

#[repr(C)]
#[derive(Clone, Copy, Debug)]
pub struct Point<const N: usize>(pub [c_double; N]);

#[repr(C)]
#[derive(Clone, Copy, Debug, PartialEq)]
pub struct Cell<const N: usize>(pub [i64; N]);

#[repr(C)]
#[derive(Clone, Copy, Debug)]
pub struct Beam<const N: usize> {
    pub origin: Point<N>,
    pub endpoint: Point<N>,
    pub hit: bool,
}

#[repr(C)]
#[derive(Clone, Copy, Debug)]
pub struct VerticalBeam {
    pub x: u64,
    pub y: u64,
    pub bottom: u64,
    pub top: u64,
    pub hit: bool,
}

#[repr(C)]
#[derive(Clone, Copy, Debug)]
pub struct Sample<const N: usize> {
    pub value: c_double,
    pub gradient: [c_double; N],
}

#[repr(C)]
#[derive(Clone, Copy, Debug)]
pub struct Line<const N: usize> {
    pub axes: [Axis; N],
    pub primary: u64,
    pub threshold: c_double,
    pub remaining: u64,
}

#[repr(C)]
#[derive(Clone, Copy, Debug)]
pub struct MarkAnswer {
    pub refusal: Refusal,
    pub changed: bool,
}

#[repr(C)]
#[derive(Clone, Copy, Debug)]
pub struct CountAnswer {
    pub refusal: Refusal,
    pub count: u64,
}

/// Of a record moved back to edition 1.
#[repr(C)]
#[derive(Clone, Copy, Debug)]
pub struct MoveAnswer {
    pub refusal: Refusal,
    pub count: u64,
    pub cuts: Cuts,
}

#[repr(C)]
#[derive(Clone, Copy, Debug)]
pub struct OddsAnswer {
    pub refusal: Refusal,
    pub found: bool,
    pub odds: c_double,
}

/// The header's answer that holds a head.
#[repr(C)]
#[derive(Clone, Copy, Debug)]
pub struct HeadAnswer<H> {
    pub refusal: Refusal,
    pub map: H,
}

pub type MapAnswer<const N: usize> = HeadAnswer<Map<N>>;

/// A head from a record of edition 2.
#[repr(C)]
#[derive(Clone, Copy, Debug)]
pub struct LoadAnswer<H> {
    pub refusal: Refusal,
    pub map: H,
    pub running: bool,
}

#[repr(C)]
#[derive(Clone, Copy, Debug)]
pub struct CellAnswer<const N: usize> {
    pub refusal: Refusal,
    pub cell: Cell<N>,
}

#[repr(C)]
#[derive(Clone, Copy, Debug)]
pub struct SampleAnswer<const N: usize> {
    pub refusal: Refusal,
    pub found: bool,
    pub sample: Sample<N>,
}

#[repr(C)]
#[derive(Clone, Copy, Debug)]
pub struct LineAnswer<const N: usize> {
    pub refusal: Refusal,
    pub line: Line<N>,
}

#[repr(C)]
#[derive(Clone, Copy, Debug)]
pub struct StepAnswer<const N: usize> {
    pub found: bool,
    pub cell: Cell<N>,
    pub line: Line<N>,
}

#[cfg(test)]
mod tests {
    use super::*;
    use std::mem::{align_of, offset_of, size_of};

    /// The sizes that a C compiler gives the header's structs on x86-64.
    #[test]
    fn structs_lie_as_in_c() {
        assert_eq!(size_of::<Refusal>(), 56);
        assert_eq!((size_of::<Map<2>>(), size_of::<Map3>()), (48, 104));
        assert_eq!((size_of::<Beam<2>>(), size_of::<Beam<3>>()), (40, 56));
        assert_eq!((size_of::<VerticalBeam>(), offset_of!(VerticalBeam, hit)), (40, 32));
        assert_eq!((size_of::<Line<2>>(), size_of::<Line<3>>()), (104, 144));
        assert_eq!((size_of::<MarkAnswer>(), size_of::<CountAnswer>(), size_of::<OddsAnswer>()), (64, 64, 72));
        assert_eq!((size_of::<MapAnswer<2>>(), size_of::<HeadAnswer<Map3>>()), (104, 160));
        assert_eq!((size_of::<LoadAnswer<Map<2>>>(), size_of::<LoadAnswer<Map3>>()), (112, 168));
        assert_eq!((offset_of!(LoadAnswer<Map<2>>, running), offset_of!(LoadAnswer<Map3>, running)), (104, 160));
        assert_eq!((size_of::<MoveAnswer>(), offset_of!(MoveAnswer, cuts)), (80, 64));
        assert_eq!((size_of::<CellAnswer<2>>(), size_of::<CellAnswer<3>>()), (72, 80));
        assert_eq!((size_of::<SampleAnswer<2>>(), size_of::<SampleAnswer<3>>()), (88, 96));
        assert_eq!((size_of::<LineAnswer<2>>(), size_of::<LineAnswer<3>>()), (160, 200));
        assert_eq!((size_of::<StepAnswer<2>>(), size_of::<StepAnswer<3>>()), (128, 176));
        assert_eq!((offset_of!(Map<2>, frame), offset_of!(Map3, frame)), (40, 96));
        assert_eq!((offset_of!(Beam<2>, hit), offset_of!(Beam<3>, hit)), (32, 48));
        assert_eq!((offset_of!(OddsAnswer, odds), offset_of!(SampleAnswer<2>, sample)), (64, 64));
        assert_eq!(align_of::<Beam<2>>(), 8);
    }
}
