//! Many sample points in one call, against the original asked point by point; and lists that are for unequal numbers of
//! points.

use oracle::rust::Sample;

use crate::answers::{self, Verdict, hex};
use crate::face::Face;
use crate::ffi::{self, Map, Refusal, SampleAnswer};

/// What slots and marks hold before a call.
const HELD: f64 = 7.25;
const MARK: u8 = 9;

/// `theirs` is what the original answers at each of these points. The lists of the last calls are one short.
pub fn samples<L: Face<N>, const N: usize>(
    head: Map<N>,
    odds: &[f64],
    points: &[[f64; N]],
    theirs: &[Option<Sample<f64, N>>],
) -> Verdict {
    let mut slots = vec![HELD; (N + 1) * points.len()];
    let mut found = vec![MARK; points.len()];
    let done = L::sample_all_log_odds(head, odds, points.as_flattened(), &mut slots, &mut found);
    answers::refusal(done, Ok(())).map_err(|why| format!("samples in one call\n{why}"))?;
    for (place, point) in points.iter().enumerate() {
        let slot = &slots[(N + 1) * place..][..N + 1];
        one(slot, found[place], &theirs[place])
            .map_err(|why| format!("sample in one call, place {place}, at {}\n{why}", hex(point)))?;
    }
    (0..3).try_for_each(|short| unequal::<L, N>(head, odds, points, short))
}

/// A slot and its mark, as the answer of a single call; nothing leaves the slot as it was.
fn one<const N: usize>(slot: &[f64], mark: u8, theirs: &Option<Sample<f64, N>>) -> Verdict {
    let sample = ffi::Sample { value: slot[0], gradient: std::array::from_fn(|k| slot[1 + k]) };
    let ours = SampleAnswer { refusal: Refusal::default(), found: mark == 1, sample };
    answers::sample(ours, *theirs)?;
    match mark {
        1 => Ok(()),
        0 if slot.iter().all(|x| x.to_bits() == HELD.to_bits()) => Ok(()),
        _ => Err(format!("mark {mark}, slot {}", hex(slot))),
    }
}

/// One list is shorter than the others: 14, and nothing is written.
fn unequal<L: Face<N>, const N: usize>(head: Map<N>, odds: &[f64], points: &[[f64; N]], short: usize) -> Verdict {
    let size = |list, whole| if list == short { whole - 1 } else { whole };
    let numbers = &points.as_flattened()[..size(0, N * points.len())];
    let mut slots = vec![HELD; size(1, (N + 1) * points.len())];
    let mut found = vec![MARK; size(2, points.len())];
    let ours = L::sample_all_log_odds(head, odds, numbers, &mut slots, &mut found);
    let want = Refusal { number: 14, ..Refusal::default() };
    let what = format!("samples in one call, list {short} short");
    answers::refusal(ours, Err(want)).map_err(|why| format!("{what}\n{why}"))?;
    let kept = slots.iter().all(|x| x.to_bits() == HELD.to_bits()) && found.iter().all(|&mark| mark == MARK);
    if kept { Ok(()) } else { Err(format!("{what}: a refused call wrote to a list")) }
}
