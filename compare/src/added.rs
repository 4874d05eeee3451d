//! Refusals that the requirements add and the original has not: bad heads (1, 2, 3, 9), lists of a wrong length (4),
//! flat lists that are no list of beams (8). Several faults meet in one call; the first by the document's order is to
//! be answered, what was asked for is to be 0, and no list may change.

use oracle::generate::{self, Rng};
use oracle::rust::{HIGHEST_FRAME, MapState};

use crate::answers::{self, Verdict, hex};
use crate::draw;
use crate::face::Face;
use crate::ffi::{Beam, Cell, Map, MapAnswer, Point, Refusal, VerticalBeam};
use crate::pair::head_of;
use crate::tally::Tally;

#[derive(Clone, Copy, Debug, PartialEq)]
enum Fault {
    Extents,
    Model,
    Odds,
    Stamps,
    Frame,
    List,
}
use Fault::*;

/// The input of one call of each entry, and what is wrong with it.
struct Input<const N: usize> {
    faults: Vec<Fault>,
    head: Map<N>,
    odds: Vec<f64>,
    stamps: Vec<u32>,
    numbers: Vec<f64>,
    hits: Vec<u8>,
}

pub fn refusals<L: Face<N>, const N: usize>(rng: &mut Rng, tally: &mut Tally) -> Verdict {
    let mut input = sound::<N>(rng);
    for fault in [Extents, Model, Odds, Stamps, Frame, List] {
        if rng.chance(4) {
            spoil(rng, &mut input, fault);
        }
    }
    let verdict = maps::<L, N>(&mut input, tally);
    let verdict =
        verdict.and_then(|_| sweeps::<L, N>(&mut input, tally)).and_then(|_| looks::<L, N>(&mut input, tally));
    verdict.map_err(|why| format!("{}\n{why}", text(&input)))
}

fn text<const N: usize>(input: &Input<N>) -> String {
    let Input { faults, head, odds, stamps, numbers, hits } = input;
    let (extents, frame) = (head.extents.0, head.frame);
    let model = hex(&[head.model.occupied, head.model.free, head.model.ceiling]);
    let (odds, numbers) = (hex(odds), hex(numbers));
    format!(
        "faults {faults:?}, extents {extents:?}, model {model}, frame {frame}\nodds {odds}\nstamps {stamps:?}\n\
         numbers {numbers}\nhits {hits:?}"
    )
}

fn sound<const N: usize>(rng: &mut Rng) -> Input<N> {
    let extents = draw::banded(generate::extents(rng, 4));
    let state: MapState<f64, N> = generate::state_of(rng, extents);
    let beams = rng.below(4);
    let numbers = (0..2 * N * beams).map(|_| rng.between(-1.0, 5.0)).collect();
    let hits = (0..beams).map(|_| rng.below(2) as u8).collect();
    Input { faults: Vec::new(), head: head_of(&state), odds: state.odds, stamps: state.stamps, numbers, hits }
}

fn spoil<const N: usize>(rng: &mut Rng, input: &mut Input<N>, fault: Fault) {
    input.faults.push(fault);
    match fault {
        Extents => spoil_extents(rng, &mut input.head.extents.0),
        Model => spoil_model(rng, input),
        Odds => {
            let other = other_length(rng, input.odds.len());
            input.odds.resize(other, 1.5);
        }
        Stamps => {
            let other = other_length(rng, input.stamps.len());
            input.stamps.resize(other, 7);
        }
        Frame => input.head.frame = rng.pick(&[0, HIGHEST_FRAME + 1, u32::MAX, HIGHEST_FRAME + 9]),
        List => match rng.below(3) {
            0 => input.numbers.push(0.5),
            1 => input.hits.push(1),
            _ => {
                input.hits.push(2 + rng.below(254) as u8);
                input.numbers.extend(vec![0.5; 2 * N]);
            }
        },
    }
}

fn spoil_extents<const N: usize>(rng: &mut Rng, extents: &mut [u64; N]) {
    for _ in 0..1 + rng.below(2) {
        extents[rng.below(N)] = rng.pick(&[0, 1, 4097, 1 << 32, u64::MAX]);
    }
    if N == 3 && rng.chance(4) {
        *extents = [4096; N];
    }
}

fn spoil_model<const N: usize>(rng: &mut Rng, input: &mut Input<N>) {
    let above = 1_048_576f64.next_up();
    let size = rng.pick(&[0.0, -0.0, -1.0, f64::NAN, f64::INFINITY, above]);
    match rng.below(3) {
        0 => input.head.model.occupied = size,
        1 => input.head.model.free = -size,
        _ => input.head.model.ceiling = size,
    }
}

fn other_length(rng: &mut Rng, length: usize) -> usize {
    rng.pick(&[0, length - 1, length + 1, 2 * length])
}

impl<const N: usize> Input<N> {
    /// The first refusal in the order in which an entry checks what it uses; extents are used by all.
    fn first(&self, uses: &[Fault]) -> Option<Refusal> {
        if self.faults.contains(&Extents) {
            return Some(refused_extents(&self.head.extents.0));
        }
        let fault = uses.iter().find(|fault| self.faults.contains(fault))?;
        let number = match fault {
            Extents => unreachable!("answered above"),
            Model => 3,
            Odds | Stamps => 4,
            Frame => 9,
            List => 8,
        };
        Some(Refusal { number, ..Refusal::default() })
    }
}

/// 1 on all axes before 2.
fn refused_extents<const N: usize>(extents: &[u64; N]) -> Refusal {
    match extents.iter().position(|&e| e < 2) {
        Some(axis) => Refusal { number: 1, values: 2, axis: axis as u64, extent: extents[axis], ..Refusal::default() },
        None => Refusal { number: 2, ..Refusal::default() },
    }
}

/// Calls an entry if it is to be refused, and tells the entry's name with a difference.
fn refused<const N: usize>(
    input: &mut Input<N>,
    tally: &mut Tally,
    (name, uses): (&str, &[Fault]),
    call: impl FnOnce(&mut Input<N>, Refusal) -> Verdict,
) -> Verdict {
    let Some(want) = input.first(uses) else { return Ok(()) };
    let before = (answers::bits_of(&input.odds), input.stamps.clone());
    tally.added += 1;
    call(input, want).map_err(|why| format!("{name}\n{why} (by the requirements)"))?;
    if before == (answers::bits_of(&input.odds), input.stamps.clone()) {
        return Ok(());
    }
    Err(format!("{name}: a refused call wrote to a list"))
}

fn maps<L: Face<N>, const N: usize>(input: &mut Input<N>, tally: &mut Tally) -> Verdict {
    let no_map = |answer: MapAnswer<N>, want| answers::head(answer, Err(want));
    refused(input, tally, ("new", &[Model, Odds, Stamps]), |i, want| {
        no_map(L::new(i.head.extents, i.head.model, &mut i.odds, &mut i.stamps), want)
    })?;
    refused(input, tally, ("reset", &[Odds, Stamps]), |i, want| {
        no_map(L::reset(i.head, &mut i.odds, &mut i.stamps), want)
    })?;
    refused(input, tally, ("begin_scan", &[Stamps]), |i, want| no_map(L::begin_scan(i.head, &mut i.stamps), want))?;
    refused(input, tally, ("open_scan", &[Stamps]), |i, want| {
        let before = i.head;
        answers::refusal(L::open_scan(&mut i.head, &mut i.stamps), Err(want))?;
        let kept = answers::same_head(&i.head, &before);
        if kept { Ok(()) } else { Err("a refused call wrote to the head".into()) }
    })
}

/// The cell and the beam are on no grid and not finite: 5 and 7 come last.
fn sweeps<L: Face<N>, const N: usize>(input: &mut Input<N>, tally: &mut Tally) -> Verdict {
    let marks = [Model, Odds, Stamps, Frame];
    let off = Cell([-1; N]);
    let nowhere = Point([f64::NAN; N]);
    refused(input, tally, ("mark_free", &marks), |i, want| {
        answers::mark(L::mark_free(i.head, &mut i.odds, &mut i.stamps, off), Err(want))
    })?;
    refused(input, tally, ("mark_occupied", &marks), |i, want| {
        answers::mark(L::mark_occupied(i.head, &mut i.odds, &mut i.stamps, off), Err(want))
    })?;
    refused(input, tally, ("update_ray", &marks), |i, want| {
        let beam = Beam { origin: nowhere, endpoint: nowhere, hit: true };
        answers::count(L::update_ray(i.head, &mut i.odds, &mut i.stamps, beam), Err(want))
    })?;
    refused(input, tally, ("update_scan", &[Model, Odds, Stamps, Frame, List]), |i, want| {
        answers::count(L::update_scan(i.head, &mut i.odds, &mut i.stamps, &i.numbers, &i.hits), Err(want))
    })?;
    refused(input, tally, ("update_beams", &marks), |i, want| {
        let beams = [Beam { origin: nowhere, endpoint: nowhere, hit: true }];
        answers::count(L::update_beams(i.head, &mut i.odds, &mut i.stamps, &beams), Err(want))
    })?;
    if N == 3 {
        refused(input, tally, ("update_vertical", &marks), |i, want| {
            // Outside the profile: 18 comes last.
            let beam = VerticalBeam { x: 0, y: 0, bottom: 1, top: 0, hit: true };
            let answer = L::update_vertical(i.head, &mut i.odds, &mut i.stamps, beam);
            answers::count(answer.expect("the header has it on three axes"), Err(want))
        })?;
    }
    refused(input, tally, ("set_log_odds", &[Model, Odds]), |i, want| {
        answers::refusal(L::set_log_odds(i.head, &mut i.odds, off, 1.0), Err(want))
    })?;
    refused(input, tally, ("set_log_odds_checked", &[Model, Odds]), |i, want| {
        answers::refusal(L::set_log_odds_checked(i.head, &mut i.odds, off, f64::NAN), Err(want))
    })
}

fn looks<L: Face<N>, const N: usize>(input: &mut Input<N>, tally: &mut Tally) -> Verdict {
    refused(input, tally, ("log_odds_at", &[Odds]), |i, want| {
        let answer = L::log_odds_at(i.head, &i.odds, Cell([0; N]));
        answers::not_found(answer.refusal, answer.found, &[answer.odds], want)
    })?;
    refused(input, tally, ("sample_log_odds", &[Odds]), |i, want| {
        let answer = L::sample_log_odds(i.head, &i.odds, Point([0.5; N]));
        answers::not_found(answer.refusal, answer.found, &[answer.sample.value], want)?;
        answers::not_found(answer.refusal, answer.found, &answer.sample.gradient, want)
    })?;
    refused(input, tally, ("sample_all_log_odds", &[Odds]), |i, want| {
        // The lists are for one point and for two: 14 comes last.
        let (mut samples, mut found) = (vec![7.25; N + 1], [9; 2]);
        let ours = L::sample_all_log_odds(i.head, &i.odds, &[0.5; N], &mut samples, &mut found);
        answers::refusal(ours, Err(want))?;
        let kept = samples.iter().all(|&x| x == 7.25) && found == [9; 2];
        if kept { Ok(()) } else { Err("a refused call wrote to the samples".into()) }
    })?;
    refused(input, tally, ("cell_containing", &[]), |i, want| {
        answers::cell(L::cell_containing(i.head, Point([f64::NAN; N])), Err(want))
    })
}
