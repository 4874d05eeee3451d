//! One map, held twice: by the original, and as a head and two lists for Tembuzar. The lists stand between borders that
//! no call may write to.

use oracle::bits::same;
use oracle::rust::{MapState, RustMap};

use crate::answers::{Verdict, hex, same_head};
use crate::ffi::{Extents, Map, Model};

const BORDER: usize = 4;
const BORDER_ODDS: f64 = 1234.5;
const BORDER_STAMP: u32 = 0xB0BD_E200;

pub struct Pair<const N: usize> {
    pub original: RustMap<f64, N>,
    pub head: Map<N>,
    odds: Vec<f64>,
    stamps: Vec<u32>,
}

/// The head of a map taken apart.
pub fn head_of<const N: usize>(state: &MapState<f64, N>) -> Map<N> {
    let model = Model { occupied: state.occupied, free: state.free, ceiling: state.ceiling };
    Map { extents: Extents(state.extents.map(|e| e as u64)), model, frame: state.frame }
}

fn bordered<T: Copy>(border: T, inner: &[T]) -> Vec<T> {
    let edge = [border; BORDER];
    [&edge[..], inner, &edge[..]].concat()
}

fn inner<T>(list: &[T]) -> &[T] {
    &list[BORDER..list.len() - BORDER]
}

fn border_kept<T: PartialEq>(border: T, list: &[T]) -> bool {
    let (front, back) = (&list[..BORDER], &list[list.len() - BORDER..]);
    front.iter().chain(back).all(|x| *x == border)
}

/// The first place where two lists of floats differ.
pub fn first_unlike(ours: &[f64], theirs: &[f64]) -> Option<usize> {
    let bits = ours.iter().zip(theirs).fold(0, |seen, (a, b)| seen | (a.to_bits() ^ b.to_bits()));
    if bits == 0 {
        return None;
    }
    (0..ours.len()).find(|&at| !same(ours[at], theirs[at]))
}

impl<const N: usize> Pair<N> {
    pub fn of(state: &MapState<f64, N>) -> Self {
        Self {
            original: RustMap::from_state(state),
            head: head_of(state),
            odds: bordered(BORDER_ODDS, &state.odds),
            stamps: bordered(BORDER_STAMP, &state.stamps),
        }
    }

    pub fn extents(&self) -> [usize; N] {
        self.head.extents.0.map(|e| e as usize)
    }

    pub fn cells(&self) -> usize {
        self.odds.len() - 2 * BORDER
    }

    pub fn odds(&self) -> &[f64] {
        inner(&self.odds)
    }

    pub fn stamps(&self) -> &[u32] {
        inner(&self.stamps)
    }

    /// Both lists, to lend them out.
    pub fn lists(&mut self) -> (&mut [f64], &mut [u32]) {
        let (odds_end, stamps_end) = (self.odds.len() - BORDER, self.stamps.len() - BORDER);
        (&mut self.odds[BORDER..odds_end], &mut self.stamps[BORDER..stamps_end])
    }

    /// The original's head, in our form. Extents and model are those that it was made with.
    pub fn original_head(&self) -> Map<N> {
        Map { frame: self.original.frame(), ..self.head }
    }

    /// Every odds number by its bits, every stamp, the frame, and the borders.
    pub fn same(&self) -> Verdict {
        if !same_head(&self.head, &self.original_head()) {
            return Err(format!("frame: ours {}, theirs {}", self.head.frame, self.original.frame()));
        }
        if let Some(at) = first_unlike(self.odds(), self.original.odds()) {
            let pair = [self.odds()[at], self.original.odds()[at]];
            return Err(format!("odds of the cell at {at}: ours and theirs {}", hex(&pair)));
        }
        if self.stamps() != self.original.stamps() {
            let unlike = |at: &usize| self.stamps()[*at] != self.original.stamps()[*at];
            let at = (0..self.cells()).find(unlike).unwrap_or(0);
            return Err(format!("stamp at {at}: ours {}, theirs {}", self.stamps()[at], self.original.stamps()[at]));
        }
        if border_kept(BORDER_ODDS, &self.odds) && border_kept(BORDER_STAMP, &self.stamps) {
            return Ok(());
        }
        Err("a number beside a lent list was written".into())
    }

    /// The whole map in hex, to repeat a call on it; of a large one the head alone.
    pub fn print(&self) {
        let model = &self.head.model;
        let floats = hex(&[model.occupied, model.free, model.ceiling]);
        println!("map before the call: extents {:?}, model {floats}, frame {}", self.extents(), self.head.frame);
        if self.cells() > 4096 {
            println!("{} cells, not printed: run this round again to have them", self.cells());
            return;
        }
        println!("odds {}", hex(self.original.odds()));
        println!("stamps {:?}", self.original.stamps());
    }

    /// Writes to one of the four borders.
    #[cfg(test)]
    pub fn write_beside(&mut self, border: usize) {
        let (odds_end, stamps_end) = (self.odds.len() - BORDER, self.stamps.len() - BORDER);
        match border {
            0 => self.odds[BORDER - 1] = 0.0,
            1 => self.odds[odds_end] = 0.0,
            2 => self.stamps[BORDER - 1] = 0,
            _ => self.stamps[stamps_end] = 0,
        }
    }
}

#[cfg(test)]
mod tests {
    use super::*;

    /// Two NaNs are equal; two zeros are not.
    #[test]
    fn floats_by_their_bits() {
        let other_nan = f64::from_bits(0x7ff0_0000_0000_0001);
        assert_eq!(first_unlike(&[1.0, f64::NAN], &[1.0, other_nan]), None);
        assert_eq!(first_unlike(&[1.0, 0.0], &[1.0, -0.0]), Some(1));
        assert_eq!(first_unlike(&[1.0, f64::NAN], &[1.0, 0.0]), Some(1));
    }

    /// A write beside a lent list shows.
    #[test]
    fn borders_are_watched() {
        let mut rng = crate::draw::round_numbers(5, 5);
        let state = crate::draw::state(&mut rng, [3, 4]);
        let same = |beside: usize| -> Verdict {
            let mut pair = Pair::of(&state);
            pair.write_beside(beside);
            pair.same()
        };
        assert!(Pair::of(&state).same().is_ok());
        assert!((0..4).all(|beside| same(beside).is_err()));
    }
}
