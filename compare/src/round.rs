//! A round: one map, and calls of every kind on it in some order, each compared.

use crate::added;
use crate::alone;
use crate::answers::Verdict;
use crate::bands;
use crate::check::Work;
use crate::draw;
use crate::face::Face;
use crate::pair::Pair;
use crate::tally::Tally;

/// One round in so many works on a large map.
const LARGE: u64 = 1000;

/// What went wrong: the call of the round, from 0, and the words.
pub struct Difference {
    pub call: usize,
    pub words: String,
}

/// Runs round `number`. Before call `print_at` the map is printed.
pub fn round<L: Face<N>, const N: usize>(
    seed: u64,
    number: u64,
    print_at: Option<usize>,
    tally: &mut Tally,
) -> Result<(), Difference> {
    let mut rng = draw::round_numbers(seed, number);
    let large = number % LARGE == LARGE - 1;
    let state = if large {
        let extents = draw::large_extents(&mut rng);
        draw::large_state(&mut rng, extents)
    } else {
        let extents = draw::extents(&mut rng);
        draw::state(&mut rng, extents)
    };
    let calls = if large { 8 } else { 4 + rng.below(40) };
    tally.rounds += 1;
    tally.large_maps += u64::from(large);
    let longest = state.extents.iter().max().map_or(0, |&e| e as u64);
    tally.longest_axis = tally.longest_axis.max(longest);
    if N == 3 {
        bands::unequal(&mut rng, tally).map_err(|words| Difference { call: 0, words })?;
    }
    let mut work = Work::new(rng, Pair::of(&state), tally);
    drop(state);
    for call in 0..calls {
        if print_at == Some(call) {
            work.pair.print();
        }
        one_call::<L, N>(&mut work).map_err(|words| Difference { call, words })?;
    }
    work.whole_map().map_err(|words| Difference { call: calls, words })
}

fn one_call<L: Face<N>, const N: usize>(work: &mut Work<N>) -> Verdict {
    match work.rng.below(64) {
        0..=31 => work.lists::<L>(),
        32..=43 => work.rays::<L>().and_then(|_| work.verticals::<L>()),
        44..=46 => work.open::<L>(),
        47..=50 => work.marks::<L>(),
        51 | 52 => work.sets::<L>(),
        53 | 54 => work.reads::<L>(),
        55 | 56 => work.cells::<L>(),
        57 | 58 => work.samples::<L>(),
        59 if work.rng.chance(3) => work.reset::<L>(),
        60 => alone::odd_frame::<L, N>(&mut work.rng, work.tally),
        61 => (0..4).try_for_each(|_| alone::new_map::<L, N>(&mut work.rng, work.tally)),
        62 => (0..8).try_for_each(|_| alone::line::<L, N>(&mut work.rng, work.tally)),
        _ => added::refusals::<L, N>(&mut work.rng, work.tally),
    }
}
