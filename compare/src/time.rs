//! Times the original and Tembuzar on the same inputs, prepared beforehand, in one process. In each round both do the
//! same work once, and rounds alternate in which goes first. Each side's own lists are put back right before its turn,
//! so both start equally warm. The median of all rounds counts. Or one side does its turns of one case and nothing is
//! timed, for a tool that counts instructions.

use std::hint::black_box;
use std::time::Instant;

use oracle::generate::Rng;
use oracle::rust::Beam;

use crate::bench::{Bench, Work};
use crate::face::{Face, Tembuzar};

/// Rounds before the clock counts.
const WARMING: usize = 10;

/// The nanoseconds of one turn, and its answer.
fn turn<const N: usize>(bench: &mut Bench<N>, put_back: fn(&mut Bench<N>), work: Work<N>) -> (f64, u64) {
    put_back(bench);
    let start = Instant::now();
    let answer = black_box(work(black_box(bench)));
    (start.elapsed().as_nanos() as f64, answer)
}

fn median(times: &mut [f64]) -> f64 {
    times.sort_by(f64::total_cmp);
    times[times.len() / 2]
}

/// What is done with each case: both sides timed, or the turns of one side, or of none, run and not timed.
pub enum Run {
    Timed { rounds: usize },
    Turns { side: String, case: String, rounds: usize },
}

impl Run {
    fn case<const N: usize>(&self, name: &str, bench: &mut Bench<N>, original: Work<N>, ours: Work<N>) {
        match self {
            Run::Timed { rounds } => timed(name, *rounds, bench, original, ours),
            Run::Turns { side, case, rounds } if name.starts_with(case) => {
                for _ in 0..*rounds {
                    turns(side, bench, original, ours);
                }
            }
            Run::Turns { .. } => {}
        }
    }
}

/// One turn of a side, with both sides' lists put back first; of neither, where the side is `none`.
fn turns<const N: usize>(side: &str, bench: &mut Bench<N>, original: Work<N>, ours: Work<N>) {
    bench.original_back();
    bench.ours_back();
    match side {
        "original" => black_box(original(black_box(bench))),
        "ours" => black_box(ours(black_box(bench))),
        _ => 0,
    };
}

/// Times one case and prints its line. Both sides must give the same answer in every round.
fn timed<const N: usize>(name: &str, rounds: usize, bench: &mut Bench<N>, original: Work<N>, ours: Work<N>) {
    let (mut original_times, mut our_times) = (Vec::new(), Vec::new());
    for round in 0..WARMING + rounds {
        let (first, second) = if round % 2 == 0 {
            let first = turn(bench, Bench::original_back, original);
            (first, turn(bench, Bench::ours_back, ours))
        } else {
            let second = turn(bench, Bench::ours_back, ours);
            (turn(bench, Bench::original_back, original), second)
        };
        assert_eq!(first.1, second.1, "the answers differ: {name}");
        if round >= WARMING {
            original_times.push(first.0);
            our_times.push(second.0);
        }
    }
    let (theirs, ours) = (median(&mut original_times), median(&mut our_times));
    println!("{name:<44} {theirs:>12.0} {ours:>12.0} {:>8.3}", theirs / ours);
}

fn heading(run: &Run) {
    if let Run::Timed { rounds } = run {
        println!("nanoseconds, median of {rounds} rounds");
        println!("{:<44} {:>12} {:>12} {:>8}", "", "original", "ours", "ratio");
    }
}

pub fn all(run: &Run) {
    heading(run);
    sweeps(run);
    looks(run);
    heads(run);
}

fn sweep<const N: usize>(run: &Run, name: &str, extents: [usize; N], beams: &[Beam<f64, N>])
where
    Tembuzar: Face<N>,
{
    let mut bench = Bench::new(extents, 1, beams, &[]);
    run.case(name, &mut bench, Bench::original_sweep, Bench::our_sweep);
}

fn sweeps(run: &Run) {
    let mut rng = Rng(1);
    let wide = [256, 256];
    sweep(run, "sweep of 360 beams, 256 x 256", wide, &circle(&mut rng, 360));
    sweep(run, "10,000 beams, 128 x 128 x 64", [128, 128, 64], &dome(&mut rng, 10_000));
    sweep(run, "10,000 short beams, 256 x 256", wide, &short(&mut rng, 10_000));
    sweep(run, "10,000 beams mostly off the grid, 256 x 256", wide, &mostly_off(&mut rng, 10_000));
}

/// How the time of a sweep grows: with the cells along a beam, the cells of the map, the beams, and the axes.
pub fn growth(rounds: usize) {
    let run = Run::Timed { rounds };
    let mut rng = Rng(4);
    heading(&run);
    for side in [64, 256, 1024, 4096] {
        sweep(&run, &format!("360 beams, {side} x {side}"), [side, side], &around(&mut rng, 360, side as f64));
    }
    for many in [90, 1440, 5760] {
        sweep(&run, &format!("{many} beams, 256 x 256"), [256, 256], &around(&mut rng, many, 256.0));
    }
    for side in [64, 1024, 4096] {
        sweep(&run, &format!("360 beams as on 64 x 64, {side} x {side}"), [side, side], &around(&mut rng, 360, 64.0));
    }
    for side in [32, 64, 128, 256] {
        let name = format!("360 beams, {side} x {side} x {side}");
        sweep(
            &run,
            &name,
            [side, side, side],
            &around(&mut rng, 360, side as f64).iter().map(tilted).collect::<Vec<_>>(),
        );
    }
}

fn looks(run: &Run) {
    let mut rng = Rng(2);
    let points: Vec<[f64; 2]> = (0..1000).map(|_| [(); 2].map(|_| rng.between(0.0, 255.0))).collect();
    let mut bench = Bench::new([256, 256], 1, &circle(&mut rng, 360), &points);
    bench.swept();
    run.case("1,000 samples, 256 x 256", &mut bench, Bench::original_samples, Bench::our_samples);
    run.case(
        "1,000 samples, the original behind a call",
        &mut bench,
        Bench::original_samples_called,
        Bench::our_samples,
    );
    run.case(
        "1,000 samples, ours in one call, 256 x 256",
        &mut bench,
        Bench::original_samples,
        Bench::our_samples_in_one_call,
    );
    let points: Vec<[f64; 3]> = (0..1000).map(|_| [(); 3].map(|_| rng.between(0.0, 63.0))).collect();
    let mut bench = Bench::new([128, 128, 64], 1, &dome(&mut rng, 10_000), &points);
    bench.swept();
    run.case("1,000 samples, 128 x 128 x 64", &mut bench, Bench::original_samples, Bench::our_samples);
    run.case(
        "1,000 samples, ours in one call, 128 x 128 x 64",
        &mut bench,
        Bench::original_samples,
        Bench::our_samples_in_one_call,
    );
}

fn heads(run: &Run) {
    let highest = oracle::rust::HIGHEST_FRAME;
    let mut low = Bench::new([256, 256], 1, &[], &[]);
    run.case("opening 1,000 sweeps, 256 x 256", &mut low, Bench::original_opens, Bench::our_opens);
    run.case(
        "opening 1,000 sweeps, the original behind a call",
        &mut low,
        Bench::original_opens_called,
        Bench::our_opens,
    );
    run.case("opening 1,000 sweeps, head by value", &mut low, Bench::original_opens, Bench::our_opens_by_value);
    run.case("reset, 256 x 256", &mut low, Bench::original_reset, Bench::our_reset);
    let mut last = Bench::new([256, 256], highest, &[], &[]);
    run.case("opening the sweep after the last frame", &mut last, Bench::original_open, Bench::our_open);
    let mut deep = Bench::new([128, 128, 64], 1, &[], &[]);
    run.case("reset, 128 x 128 x 64", &mut deep, Bench::original_reset, Bench::our_reset);
}

/// A full turn from the middle of 256 by 256, each beam to its own range.
fn circle(rng: &mut Rng, many: usize) -> Vec<Beam<f64, 2>> {
    let beam = |degree: usize| {
        let angle = (degree as f64).to_radians();
        let range = rng.between(30.0, 140.0);
        let endpoint = [128.5 + range * angle.cos(), 128.5 + range * angle.sin()];
        Beam { origin: [128.5, 128.5], endpoint, hit: range < 130.0 }
    };
    (0..many).map(beam).collect()
}

/// A full turn from the middle of a square, each beam to a range between an eighth and half of its side.
fn around(rng: &mut Rng, many: usize, side: f64) -> Vec<Beam<f64, 2>> {
    let middle = side / 2.0 + 0.5;
    let beam = |place: usize| {
        let angle = place as f64 * std::f64::consts::TAU / many as f64;
        let range = rng.between(side / 8.0, side / 2.0);
        let endpoint = [middle + range * angle.cos(), middle + range * angle.sin()];
        Beam { origin: [middle, middle], endpoint, hit: true }
    };
    (0..many).map(beam).collect()
}

/// The same beam on three axes, climbing along the third as it goes along the first.
fn tilted(beam: &Beam<f64, 2>) -> Beam<f64, 3> {
    let ([x, y], [far_x, far_y]) = (beam.origin, beam.endpoint);
    Beam { origin: [x, y, 0.5], endpoint: [far_x, far_y, 0.5 + (far_x - x).abs() / 2.0], hit: beam.hit }
}

/// From the ground in the middle of 128 by 128 by 64, upwards.
fn dome(rng: &mut Rng, many: usize) -> Vec<Beam<f64, 3>> {
    let beam = |_| {
        let endpoint = [rng.between(-10.0, 138.0), rng.between(-10.0, 138.0), rng.between(8.0, 80.0)];
        Beam { origin: [64.5, 64.5, 0.5], endpoint, hit: true }
    };
    (0..many).map(beam).collect()
}

/// At most some three cells each, anywhere on 256 by 256.
fn short(rng: &mut Rng, many: usize) -> Vec<Beam<f64, 2>> {
    let beam = |_| {
        let origin = [rng.between(3.0, 253.0), rng.between(3.0, 253.0)];
        let endpoint = origin.map(|x| x + rng.between(-2.0, 2.0));
        Beam { origin, endpoint, hit: true }
    };
    (0..many).map(beam).collect()
}

/// Nine in ten pass beside 256 by 256, the others cross a corner of it.
fn mostly_off(rng: &mut Rng, many: usize) -> Vec<Beam<f64, 2>> {
    let beam = |place: usize| {
        let origin = [rng.between(300.0, 900.0), rng.between(-500.0, 800.0)];
        let far = [rng.between(257.0, 900.0), rng.between(-500.0, 800.0)];
        let near = [rng.between(200.0, 256.0), rng.between(200.0, 256.0)];
        let endpoint = match place % 10 {
            0 => near,
            _ => far,
        };
        Beam { origin, endpoint, hit: true }
    };
    (0..many).map(beam).collect()
}
