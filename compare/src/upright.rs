//! Vertical beams, against the original's beam between the centres of the cells at their ends, or up to the upper face
//! where they ran out; and beams outside the profile, which the original does not have.

use oracle::generate::Rng;
use oracle::rust::Beam;

use crate::answers::{self, Verdict, refusal_of};
use crate::check::{COMPARED_EACH_TIME, Work};
use crate::face::Face;
use crate::ffi::{Refusal, VerticalBeam};

/// A beam on a map of these extents: most are in the profile, at its ends more often than chance would have it.
fn drawn(rng: &mut Rng, extents: [u64; 3]) -> VerticalBeam {
    let [x, y] = [0, 1].map(|axis| on_axis(rng, extents[axis]));
    let bottom = on_axis(rng, extents[2]);
    let top = match rng.below(8) {
        0 => bottom,
        1 | 2 => extents[2],
        3 => rng.pick(&[extents[2] + 1, bottom.wrapping_sub(1), u64::MAX]),
        _ => bottom + rng.below((extents[2].saturating_sub(bottom)).max(1) as usize) as u64,
    };
    VerticalBeam { x, y, bottom, top, hit: rng.chance(2) }
}

/// A cell's number; now and then one off the grid.
fn on_axis(rng: &mut Rng, extent: u64) -> u64 {
    match rng.below(24) {
        0 => rng.pick(&[extent, extent + 1, 1 << 32, u64::MAX]),
        1 | 2 => extent - 1,
        3 | 4 => 0,
        _ => rng.below(extent as usize) as u64,
    }
}

fn in_profile(beam: &VerticalBeam, extents: [u64; 3]) -> bool {
    let on_grid = beam.x < extents[0] && beam.y < extents[1] && beam.bottom < extents[2];
    on_grid && beam.bottom <= beam.top && beam.top <= extents[2]
}

/// The beam that the original is asked for. The arrays have N numbers, and N is 3 wherever this is called.
fn general<const N: usize>(beam: &VerticalBeam, extents: [u64; 3]) -> Beam<f64, N> {
    let centre = |cell: u64| cell as f64 + 0.5;
    let top = if beam.top < extents[2] { centre(beam.top) } else { extents[2] as f64 };
    let origin = [centre(beam.x), centre(beam.y), centre(beam.bottom)];
    let endpoint = [centre(beam.x), centre(beam.y), top];
    Beam { origin: std::array::from_fn(|k| origin[k]), endpoint: std::array::from_fn(|k| endpoint[k]), hit: beam.hit }
}

impl<const N: usize> Work<'_, N> {
    /// A row of vertical beams; nothing on two axes.
    pub fn verticals<L: Face<N>>(&mut self) -> Verdict {
        if N != 3 {
            return Ok(());
        }
        let sizes = self.pair.extents();
        let extents = std::array::from_fn(|k| sizes[k] as u64);
        // From numbers of its own, so that the other draws of a seed are as they were.
        let mut rng = Rng(!self.rng.0);
        let mut tried = Vec::new();
        let verdict = (0..8).try_for_each(|_| {
            let beam = drawn(&mut rng, extents);
            tried.push(beam);
            self.vertical::<L>(&beam, extents)
        });
        verdict.and_then(|_| self.whole_map()).map_err(|why| format!("vertical beams {tried:?}\n{why}"))
    }

    fn vertical<L: Face<N>>(&mut self, beam: &VerticalBeam, extents: [u64; 3]) -> Verdict {
        let theirs = match in_profile(beam, extents) {
            true => self.pair.original.update_ray(&general(beam, extents)).map_err(refusal_of),
            false => Err(Refusal { number: 18, ..Refusal::default() }),
        };
        let head = self.pair.head;
        let (odds, stamps) = self.pair.lists();
        let ours = L::update_vertical(head, odds, stamps, *beam).expect("the header has it on three axes");
        self.tally.verticals += 1;
        self.tally.verticals_refused += u64::from(theirs.is_err());
        self.tally.changed += theirs.map_or(0, |count| count as u64);
        answers::count(ours, theirs)?;
        if self.pair.cells() <= COMPARED_EACH_TIME { self.whole_map() } else { Ok(()) }
    }
}
