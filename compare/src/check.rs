//! One function for each kind of call: it draws the input, asks both, and compares. `L` is the library under test:
//! Tembuzar, or in the tests a library with one thing wrong.

use oracle::generate::{Model, Rng};
use oracle::rust::{Beam, RustMap};

use crate::answers::{self, Verdict, hex, refusal_of, refusal_of_cell, refusal_of_point, refused_list};
use crate::draw;
use crate::face::Face;
use crate::ffi::{self, Cell, MapAnswer, Point, Refusal};
use crate::many;
use crate::pair::Pair;
use crate::tally::Tally;

/// A map in work: both copies, the numbers it is drawn from, and what was compared so far.
pub struct Work<'a, const N: usize> {
    pub rng: Rng,
    pub pair: Pair<N>,
    pub tally: &'a mut Tally,
    /// The original before a list, to be asked beam by beam where the list is refused.
    spare: RustMap<f64, N>,
    beams: Vec<Beam<f64, N>>,
    numbers: Vec<f64>,
    hits: Vec<u8>,
    structs: Vec<ffi::Beam<N>>,
    /// Lists go by turns as flat numbers and as structs, and sweeps are opened by turns by value and in a lent head.
    lists_made: u64,
    opens_made: u64,
}

/// Up to this many cells, the whole map is compared after each ray; above, after a row of rays.
pub const COMPARED_EACH_TIME: usize = 300;

fn c_beam<const N: usize>(beam: &Beam<f64, N>) -> ffi::Beam<N> {
    ffi::Beam { origin: Point(beam.origin), endpoint: Point(beam.endpoint), hit: beam.hit }
}

fn beam_text<const N: usize>(beam: &Beam<f64, N>) -> String {
    format!("origin {} endpoint {} hit {}", hex(&beam.origin), hex(&beam.endpoint), beam.hit)
}

impl<'a, const N: usize> Work<'a, N> {
    pub fn new(rng: Rng, pair: Pair<N>, tally: &'a mut Tally) -> Self {
        let spare = pair.original.clone();
        let (beams, numbers, hits, structs) = (Vec::new(), Vec::new(), Vec::new(), Vec::new());
        Self { rng, pair, tally, spare, beams, numbers, hits, structs, lists_made: 0, opens_made: 0 }
    }

    /// The whole map on both sides.
    pub fn whole_map(&mut self) -> Verdict {
        self.tally.cells_compared += self.pair.cells() as u64;
        self.pair.same()
    }

    fn model(&self) -> Model<f64> {
        let model = self.pair.head.model;
        Model { occupied: model.occupied, free: model.free, ceiling: model.ceiling }
    }

    fn eye(&mut self) -> [f64; N] {
        let rng = &mut self.rng;
        self.pair.extents().map(|extent| rng.between(-1.0, extent as f64 + 1.0))
    }

    /// Beams one by one.
    pub fn rays<L: Face<N>>(&mut self) -> Verdict {
        let style = if self.rng.chance(3) { draw::Style::Any } else { draw::style(&mut self.rng) };
        let eye = self.eye();
        let many = 1 + self.rng.below(48);
        self.beams.clear();
        let verdict = (0..many).try_for_each(|_| {
            let beam = draw::beam(&mut self.rng, &self.pair.extents(), style, &eye);
            self.beams.push(beam);
            self.ray::<L>(&beam)
        });
        verdict.and_then(|_| self.whole_map()).map_err(|why| self.with_beams("beams one by one", &why))
    }

    fn with_beams(&self, what: &str, why: &str) -> String {
        let beams: Vec<String> = self.beams.iter().map(beam_text).collect();
        format!("{what}: {}\n{}\n{why}", beams.len(), beams.join("\n"))
    }

    fn ray<L: Face<N>>(&mut self, beam: &Beam<f64, N>) -> Verdict {
        let theirs = self.pair.original.update_ray(beam).map_err(refusal_of);
        let head = self.pair.head;
        let (odds, stamps) = self.pair.lists();
        let ours = L::update_ray(head, odds, stamps, c_beam(beam));
        self.tally.rays += 1;
        self.tally.rays_refused += u64::from(theirs.is_err());
        self.tally.changed += theirs.map_or(0, |count| count as u64);
        answers::count(ours, theirs)?;
        if self.pair.cells() <= COMPARED_EACH_TIME { self.whole_map() } else { Ok(()) }
    }

    /// A list of beams, as flat numbers or as structs.
    pub fn lists<L: Face<N>>(&mut self) -> Verdict {
        let opened = !self.rng.chance(4);
        if opened {
            self.open::<L>()?;
        }
        self.draw_list();
        self.lists_made += 1;
        let structs = self.lists_made % 2 == 0;
        let what = if structs { "list of structs" } else { "list of beams" };
        let before = if opened { ", a sweep opened before it" } else { "" };
        self.list::<L>(structs).map_err(|why| self.with_beams(&format!("{what}{before}"), &why))
    }

    fn draw_list(&mut self) {
        let extents = self.pair.extents();
        let many = match self.rng.below(8) {
            0 => self.rng.below(4),
            1 => 400,
            2 if self.rng.chance(40) => 4000,
            _ => 1 + self.rng.below(200),
        };
        let (style, eye) = (draw::style(&mut self.rng), self.eye());
        let rng = &mut self.rng;
        self.beams.clear();
        self.beams.extend((0..many).map(|_| draw::beam(rng, &extents, style, &eye)));
        if many > 0 && rng.chance(6) {
            self.beams[rng.below(many)] = draw::refused_beam(rng, &extents);
        }
        self.numbers.clear();
        self.hits.clear();
        self.structs.clear();
        for beam in &self.beams {
            self.structs.push(c_beam(beam));
            self.numbers.extend_from_slice(&beam.origin);
            self.numbers.extend_from_slice(&beam.endpoint);
            self.hits.push(u8::from(beam.hit));
        }
    }

    fn list<L: Face<N>>(&mut self, structs: bool) -> Verdict {
        self.spare.restore(&self.pair.original);
        let theirs = self.pair.original.update_scan(&self.beams).map_err(|_| self.beam_by_beam());
        let head = self.pair.head;
        let (odds, stamps) = self.pair.lists();
        let ours = match structs {
            true => L::update_beams(head, odds, stamps, &self.structs),
            false => L::update_scan(head, odds, stamps, &self.numbers, &self.hits),
        };
        let beams = theirs.map_or_else(|why| why.place + 1, |_| self.beams.len() as u64);
        self.tally.lists += 1;
        self.tally.list_beams += beams;
        self.tally.struct_lists += u64::from(structs);
        self.tally.struct_beams += u64::from(structs) * beams;
        self.tally.lists_refused += u64::from(theirs.is_err());
        self.tally.changed += theirs.map_or_else(|why| why.count, |count| count as u64);
        answers::count(ours, theirs)?;
        self.whole_map()
    }

    /// Place and count of a refused list.
    fn beam_by_beam(&mut self) -> Refusal {
        let mut count = 0;
        for (place, beam) in self.beams.iter().enumerate() {
            match self.spare.update_ray(beam) {
                Ok(more) => count += more,
                Err(_) => return refused_list(place, count),
            }
        }
        panic!("the original refused a list, and no beam of it");
    }

    /// Marks of single cells.
    pub fn marks<L: Face<N>>(&mut self) -> Verdict {
        let mut tried = Vec::new();
        let verdict = (0..8).try_for_each(|_| {
            let cell = draw::cell(&mut self.rng, &self.pair.extents());
            let occupied = self.rng.chance(2);
            tried.push((cell, occupied));
            self.mark::<L>(cell, occupied)
        });
        verdict.and_then(|_| self.whole_map()).map_err(|why| format!("marks (cell, occupied) {tried:?}\n{why}"))
    }

    fn mark<L: Face<N>>(&mut self, cell: [i64; N], occupied: bool) -> Verdict {
        let head = self.pair.head;
        let theirs = match occupied {
            true => self.pair.original.mark_occupied(cell.map(|i| i as isize)),
            false => self.pair.original.mark_free(cell.map(|i| i as isize)),
        };
        let (odds, stamps) = self.pair.lists();
        let ours = match occupied {
            true => L::mark_occupied(head, odds, stamps, Cell(cell)),
            false => L::mark_free(head, odds, stamps, Cell(cell)),
        };
        self.tally.marks += 1;
        answers::mark(ours, theirs.map_err(|why| refusal_of_cell(why, self.pair.extents(), cell)))
    }

    /// Odds put into single cells, by turns with and without the check for NaN, which the original does not have: on
    /// the grid NaN is then refused with 13, and everything else is the original's set.
    pub fn sets<L: Face<N>>(&mut self) -> Verdict {
        let mut tried = Vec::new();
        let verdict = (0..4).try_for_each(|_| {
            let cell = draw::cell(&mut self.rng, &self.pair.extents());
            let model = self.model();
            let value = draw::odds(&mut self.rng, model);
            tried.push((cell, hex(&[value])));
            let checked = self.rng.chance(2);
            let at = cell.map(|i| i as isize);
            let theirs = match checked && value.is_nan() && self.pair.original.log_odds_at(at).is_some() {
                true => Err(Refusal { number: 13, ..Refusal::default() }),
                false => {
                    let set = self.pair.original.set_log_odds(at, value);
                    set.map_err(|why| refusal_of_cell(why, self.pair.extents(), cell))
                }
            };
            let head = self.pair.head;
            let ours = match checked {
                true => L::set_log_odds_checked(head, self.pair.lists().0, Cell(cell), value),
                false => L::set_log_odds(head, self.pair.lists().0, Cell(cell), value),
            };
            self.tally.sets += 1;
            answers::refusal(ours, theirs)
        });
        verdict.and_then(|_| self.whole_map()).map_err(|why| format!("sets (cell, odds) {tried:?}\n{why}"))
    }

    /// Odds of single cells.
    pub fn reads<L: Face<N>>(&mut self) -> Verdict {
        for _ in 0..8 {
            let cell = draw::cell(&mut self.rng, &self.pair.extents());
            let theirs = self.pair.original.log_odds_at(cell.map(|i| i as isize));
            let ours = L::log_odds_at(self.pair.head, self.pair.odds(), Cell(cell));
            self.tally.reads += 1;
            answers::odds(ours, theirs).map_err(|why| format!("read {cell:?}\n{why}"))?;
        }
        Ok(())
    }

    /// The cells of points.
    pub fn cells<L: Face<N>>(&mut self) -> Verdict {
        for _ in 0..8 {
            let point = draw::point(&mut self.rng, &self.pair.extents());
            let theirs = self.pair.original.cell_containing(point);
            let theirs = theirs.map_err(|why| refusal_of_point(why, self.pair.extents(), point));
            let ours = L::cell_containing(self.pair.head, Point(point));
            self.tally.cells += 1;
            answers::cell(ours, theirs).map_err(|why| format!("cell of {}\n{why}", hex(&point)))?;
        }
        Ok(())
    }

    /// Odds between cells: at points one by one, and at all of them in one call.
    pub fn samples<L: Face<N>>(&mut self) -> Verdict {
        let (mut points, mut answered) = (Vec::new(), Vec::new());
        for _ in 0..16 {
            let point = draw::point(&mut self.rng, &self.pair.extents());
            let theirs = self.pair.original.sample_log_odds(point);
            let ours = L::sample_log_odds(self.pair.head, self.pair.odds(), Point(point));
            self.tally.samples += 1;
            answers::sample(ours, theirs).map_err(|why| format!("sample at {}\n{why}", hex(&point)))?;
            points.push(point);
            answered.push(theirs);
        }
        self.tally.listed_samples += points.len() as u64;
        many::samples::<L, N>(self.pair.head, self.pair.odds(), &points, &answered)
    }

    /// The next sweep of this map.
    pub fn open<L: Face<N>>(&mut self) -> Verdict {
        self.opens_made += 1;
        self.open_by::<L>(self.opens_made % 2 == 0)
    }

    /// The next sweep, in a head by value or in a lent one.
    pub fn open_by<L: Face<N>>(&mut self, lent: bool) -> Verdict {
        self.pair.original.begin_scan();
        let mut head = self.pair.head;
        let stamps = self.pair.lists().1;
        let ours = match lent {
            true => MapAnswer { refusal: L::open_scan(&mut head, stamps), map: head },
            false => L::begin_scan(head, stamps),
        };
        self.tally.opens += 1;
        self.tally.lent_opens += u64::from(lent);
        let what = if lent { "open in a lent head" } else { "open" };
        answers::head(ours, Ok(self.pair.original_head())).map_err(|why| format!("{what}\n{why}"))?;
        self.pair.head = ours.map;
        Ok(())
    }

    /// Back to unknown.
    pub fn reset<L: Face<N>>(&mut self) -> Verdict {
        self.pair.original.reset();
        let head = self.pair.head;
        let (odds, stamps) = self.pair.lists();
        let ours = L::reset(head, odds, stamps);
        self.tally.resets += 1;
        answers::head(ours, Ok(self.pair.original_head())).map_err(|why| format!("reset\n{why}"))?;
        self.pair.head = ours.map;
        self.whole_map().map_err(|why| format!("reset\n{why}"))
    }
}
