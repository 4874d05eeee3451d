//! How far the order of marks moves a cell's odds in the original, at both widths: random models, odds and orders of
//! clear and cloud marks in one sweep, beside a lone cloud mark. What was seen is printed beside E, the bound that is
//! proved (docs/PROMISES.md). Our library takes no part in it.

use oracle::generate::Rng;
use oracle::rust::{MapState, RustMap};

/// The steps' sizes, the ceiling, and the odds of a cell before the sweep.
#[derive(Clone, Copy, Debug)]
struct Case {
    occupied: f64,
    free: f64,
    ceiling: f64,
    odds: f64,
}

/// What was seen of many cases: how many there were and moved, the largest distance, and the largest part of its E that one reached.
#[derive(Default)]
struct Seen {
    models: u64,
    moved: u64,
    farthest: f64,
    share: f64,
}

impl Seen {
    fn add(&mut self, case: &Case, distance: f64, bound: f64) {
        assert!(distance <= bound, "{distance:e} is above {bound:e}: {case:?}");
        self.models += 1;
        self.moved += u64::from(distance > 0.0);
        self.farthest = self.farthest.max(distance);
        self.share = self.share.max(distance / bound);
    }
}

/// The gap between neighbouring floats of so many digits just below a size.
fn gap(digits: i32, size: f64) -> f64 {
    let mut power = 2f64.powi(size.log2() as i32 - 1);
    while power < size {
        power *= 2.0;
    }
    power * 2f64.powi(-digits)
}

/// E. A sum of steps that rounds down to a power of two makes it smaller than it is, never larger.
fn bound(digits: i32, case: &Case) -> f64 {
    let sum = case.occupied + case.free;
    (3.0 * gap(digits, case.ceiling) + gap(digits, sum.min(case.ceiling))) / 2.0
}

/// A positive size of at most `most`, of any magnitude down to 2^-12 of it, now and then a power of two or beside one.
fn size(rng: &mut Rng, most: f64) -> f64 {
    let power = most * 2f64.powi(-(rng.below(13) as i32));
    match rng.below(8) {
        0 => power,
        1 => power * (1.0 - 2f64.powi(-10 - rng.below(13) as i32)),
        _ => power * rng.between(0.5, 1.0),
    }
}

/// The distance of two floats, exactly: where the difference is rounded, what it lost is added upward.
fn distance(a: f64, b: f64) -> f64 {
    let difference = a - b;
    let back = difference - a;
    let lost = (a - (difference - back)) - (b + back);
    if lost == 0.0 { difference.abs() } else { difference.abs().next_up() }
}

macro_rules! width {
    ($name:ident, $t:ident) => {
        /// Many cases of one width, with sizes of at most `most`.
        fn $name(rng: &mut Rng, models: u64, most: f64) -> Seen {
            let mut seen = Seen::default();
            while seen.models < models {
                let near = |x: f64| f64::from(x as $t);
                let (occupied, free) = (near(size(rng, most)), near(size(rng, most)));
                let ceiling = near(size(rng, most));
                let digits = $t::MANTISSA_DIGITS as i32;
                let mut case = Case { occupied, free, ceiling, odds: -ceiling };
                let least = free - ceiling + bound(digits, &case);
                if least < ceiling && !rng.chance(16) {
                    case.odds = near(rng.between(least, ceiling));
                    if case.odds <= least {
                        continue;
                    }
                }
                let state = MapState::<$t, 2> {
                    extents: [2, 2],
                    occupied: occupied as $t,
                    free: -free as $t,
                    ceiling: ceiling as $t,
                    odds: vec![case.odds as $t; 4],
                    stamps: vec![0; 4],
                    frame: 0,
                };
                let mut map = RustMap::from_state(&state);
                map.begin_scan();
                map.mark_occupied([1, 1]).expect("a cell of the map");
                // clear and cloud marks as they come, and one cloud mark at the end
                for _ in 0..rng.below(5) {
                    let mark = if rng.chance(3) { RustMap::mark_occupied } else { RustMap::mark_free };
                    mark(&mut map, [0, 0]).expect("a cell of the map");
                }
                map.mark_occupied([0, 0]).expect("a cell of the map");
                let (left, lone) = (f64::from(map.odds()[0]), f64::from(map.odds()[3]));
                seen.add(&case, distance(left, lone), bound(digits, &case));
            }
            seen
        }
    };
}
width!(double, f64);
width!(single, f32);

/// Prints what was seen, at both widths and with sizes up to document 01's largest, and below 8.
pub fn all(seed: u64, models: u64) {
    println!("{models} models each, seed {seed}: largest distance, and the largest part of E");
    for (name, run) in [("binary64", double as fn(&mut Rng, u64, f64) -> Seen), ("binary32", single)] {
        for most in [1_048_576.0, 8.0] {
            let seen = run(&mut Rng(seed), models, most);
            let power = seen.farthest.log2();
            println!("{name}, sizes to {most}: 2^{power:.3}, {:.3} of E; {} moved", seen.share, seen.moved);
        }
    }
}
