//! The entries of map records as safe calls, in both editions and between them, for two and three axes by one trait.
//! Each call has to be answered, else the program stops: a refused call is not to be timed.

use crate::ffi::{CountAnswer, Cuts, HeadAnswer, LoadAnswer, Map, Map3, MoveAnswer, Refusal};

/// A head whose map is written and read. What writes a record gives the number of its bytes; on three axes the cuts are
/// the head's wherever a call takes or answers them.
pub trait Recorded: Copy {
    /// How many bytes stand before the rows, in edition 1 and in edition 2.
    const BEFORE_ROWS: [usize; 2];

    fn write(self, odds: &[f64], out: &mut [u8]) -> usize;
    fn read(self, bytes: &[u8], odds: &mut [f64], stamps: &mut [u32]);
    fn write_edition2(self, running: bool, odds: &[f64], stamps: &[u32], out: &mut [u8]) -> usize;
    fn read_edition2(self, running: bool, bytes: &[u8], odds: &mut [f64], stamps: &mut [u32]);
    fn upgrade(self, bytes: &[u8], out: &mut [u8]) -> usize;
    fn downgrade(self, bytes: &[u8], out: &mut [u8]) -> usize;
}

fn answered(refusal: Refusal) {
    assert_eq!(refusal.number, 0, "a call of a record was refused: {refusal:?}");
}

fn counted(refusal: Refusal, count: u64) -> usize {
    answered(refusal);
    count as usize
}

/// The declarations of one number of axes. The names are the header's; `cuts` stands where three axes have cuts.
macro_rules! declared {
    ($head:ty, $moved:ty, $write:ident, $read:ident, $write2:ident, $read2:ident, $upgrade:ident, $downgrade:ident
     $(, $cuts:ident)?) => {
        unsafe extern "C" {
            fn $write(m: $head, o: *const f64, oc: usize, out: *mut u8, room: usize) -> CountAnswer;
            fn $read(
                b: *const u8,
                bc: usize,
                $($cuts: Cuts,)?
                o: *mut f64,
                oc: usize,
                s: *mut u32,
                sc: usize,
            ) -> HeadAnswer<$head>;
            fn $write2(
                m: $head,
                running: bool,
                o: *const f64,
                oc: usize,
                s: *const u32,
                sc: usize,
                out: *mut u8,
                room: usize,
            ) -> CountAnswer;
            fn $read2(b: *const u8, bc: usize, o: *mut f64, oc: usize, s: *mut u32, sc: usize) -> LoadAnswer<$head>;
            fn $upgrade(b: *const u8, bc: usize, $($cuts: Cuts,)? out: *mut u8, room: usize) -> CountAnswer;
            fn $downgrade(b: *const u8, bc: usize, out: *mut u8, room: usize) -> $moved;
        }
    };
}

/// The safe calls over them.
macro_rules! recorded {
    ($n:literal, $before:expr, $write:ident, $read:ident, $write2:ident, $read2:ident, $upgrade:ident,
     $downgrade:ident $(, $cuts:ident)?) => {
        // Each call below lends whole slices, which is all that the header asks.
        impl Recorded for Map<$n> {
            const BEFORE_ROWS: [usize; 2] = $before;

            fn write(self, o: &[f64], out: &mut [u8]) -> usize {
                let head = self.cross();
                let answer = unsafe { $write(head, o.as_ptr(), o.len(), out.as_mut_ptr(), out.len()) };
                counted(answer.refusal, answer.count)
            }

            fn read(self, bytes: &[u8], o: &mut [f64], s: &mut [u32]) {
                let (b, bc, oc, sc) = (bytes.as_ptr(), bytes.len(), o.len(), s.len());
                $(let $cuts = self.extents.$cuts();)?
                answered(unsafe { $read(b, bc, $($cuts,)? o.as_mut_ptr(), oc, s.as_mut_ptr(), sc) }.refusal);
            }

            fn write_edition2(self, running: bool, o: &[f64], s: &[u32], out: &mut [u8]) -> usize {
                let (head, room) = (self.cross(), out.len());
                let answer = unsafe {
                    $write2(head, running, o.as_ptr(), o.len(), s.as_ptr(), s.len(), out.as_mut_ptr(), room)
                };
                counted(answer.refusal, answer.count)
            }

            fn read_edition2(self, running: bool, bytes: &[u8], o: &mut [f64], s: &mut [u32]) {
                let (oc, sc) = (o.len(), s.len());
                let answer = unsafe { $read2(bytes.as_ptr(), bytes.len(), o.as_mut_ptr(), oc, s.as_mut_ptr(), sc) };
                answered(answer.refusal);
                assert_eq!(answer.running, running, "open where closed was written, or the other way round");
            }

            fn upgrade(self, bytes: &[u8], out: &mut [u8]) -> usize {
                let (b, bc) = (bytes.as_ptr(), bytes.len());
                $(let $cuts = self.extents.$cuts();)?
                let answer = unsafe { $upgrade(b, bc, $($cuts,)? out.as_mut_ptr(), out.len()) };
                counted(answer.refusal, answer.count)
            }

            fn downgrade(self, bytes: &[u8], out: &mut [u8]) -> usize {
                let (b, bc) = (bytes.as_ptr(), bytes.len());
                let answer = unsafe { $downgrade(b, bc, out.as_mut_ptr(), out.len()) };
                let count = counted(answer.refusal, answer.count);
                $(assert_eq!(answer.$cuts, self.extents.$cuts(), "other cuts came back");)?
                count
            }
        }
    };
}

macro_rules! both {
    ($n:literal, $head:ty, $moved:ty, $before:expr, $($name:ident),*) => {
        declared!($head, $moved, $($name),*);
        recorded!($n, $before, $($name),*);
    };
}

both!(
    2,
    Map<2>,
    CountAnswer,
    [41, 49],
    tembuzar_write_record2,
    tembuzar_read_record2,
    tembuzar_write_edition2_record2,
    tembuzar_read_edition2_record2,
    tembuzar_upgrade_record2,
    tembuzar_downgrade_record2
);
both!(
    3,
    Map3,
    MoveAnswer,
    [43, 112],
    tembuzar_write_record3,
    tembuzar_read_record3,
    tembuzar_write_edition2_record3,
    tembuzar_read_edition2_record3,
    tembuzar_upgrade_record3,
    tembuzar_downgrade_record3,
    cuts
);
