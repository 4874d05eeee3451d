//! Times writing and reading a map record in both editions, and the moves between them, each beside copying as many
//! bytes. The original has no records, so there is nothing to compare with but memory.

use std::hint::black_box;
use std::time::Instant;

use oracle::generate::Rng;

use crate::ffi::{Extents, Map, Model};
use crate::record_calls::Recorded;

const FRAME: u32 = 7;

/// A call takes so many turns in a row that about this many bytes pass: what fits a cache is timed while it is in one.
const BYTES_IN_A_ROW: usize = 4_000_000;

#[derive(Clone, Copy)]
enum Call {
    Write,
    Read,
    WriteClosed,
    ReadClosed,
    WriteOpen,
    ReadOpen,
    Upgrade,
    Downgrade,
}

const CALLS: [(Call, &str); 8] = [
    (Call::Write, "edition 1, written"),
    (Call::Read, "edition 1, read"),
    (Call::WriteClosed, "edition 2, closed, written"),
    (Call::ReadClosed, "edition 2, closed, read"),
    (Call::WriteOpen, "edition 2, open, written"),
    (Call::ReadOpen, "edition 2, open, read"),
    (Call::Upgrade, "moved from edition 1 to 2"),
    (Call::Downgrade, "moved from edition 2 to 1"),
];

/// Where a map's records stand in its list of them: edition 1, and edition 2 closed and open.
const FIRST: usize = 0;
const CLOSED: usize = 1;
const OPEN: usize = 2;

impl Call {
    /// The record that the call writes or reads.
    fn record(self) -> usize {
        match self {
            Call::Write | Call::Read | Call::Downgrade => FIRST,
            Call::WriteClosed | Call::ReadClosed | Call::Upgrade => CLOSED,
            Call::WriteOpen | Call::ReadOpen => OPEN,
        }
    }
}

/// The sizes of a map's records: what stands before its rows, the rows, with their stamps where it is open, the end.
fn sizes<M: Recorded>(width: usize, rows: usize) -> [usize; 3] {
    let [first, second] = M::BEFORE_ROWS;
    let (odds, stamps) = (rows * (3 + 8 * width), rows * (3 + 4 * width));
    [first + odds + 3, second + odds + 3, second + odds + stamps + 3]
}

/// A map, its records, and the lists that calls write into.
struct Lists<M> {
    map: M,
    odds: Vec<f64>,
    stamps: Vec<u32>,
    records: [Vec<u8>; 3],
    out: Vec<u8>,
    odds_back: Vec<f64>,
    stamps_back: Vec<u32>,
    copy: Vec<u8>,
}

impl<M: Recorded> Lists<M> {
    fn new(map: M, width: usize, rows: usize) -> Lists<M> {
        let (cells, mut rng) = (width * rows, Rng(3));
        let odds: Vec<f64> = (0..cells).map(|_| rng.between(-4.0, 4.0)).collect();
        let stamps: Vec<u32> = (0..cells).map(|_| rng.below(2 * FRAME as usize + 2) as u32).collect();
        let mut out = vec![0u8; 16 * cells + 1000];
        let size = map.write(&odds, &mut out);
        let first = out[..size].to_vec();
        let size = map.write_edition2(false, &odds, &stamps, &mut out);
        let closed = out[..size].to_vec();
        let size = map.write_edition2(true, &odds, &stamps, &mut out);
        let records = [first, closed, out[..size].to_vec()];
        assert_eq!(records.each_ref().map(Vec::len), sizes::<M>(width, rows), "other sizes than the layout's");
        let (odds_back, stamps_back, copy) = (vec![0.0; cells], vec![1; cells], vec![0; size]);
        Lists { map, odds, stamps, records, out, odds_back, stamps_back, copy }
    }

    fn called(&mut self, call: Call) {
        let Lists { map, odds, stamps, records, out, odds_back, stamps_back, .. } = black_box(self);
        let written = match call {
            Call::Write => map.write(odds, out),
            Call::WriteClosed => map.write_edition2(false, odds, stamps, out),
            Call::WriteOpen => map.write_edition2(true, odds, stamps, out),
            Call::Upgrade => map.upgrade(&records[FIRST], out),
            Call::Downgrade => map.downgrade(&records[CLOSED], out),
            Call::Read => return map.read(&records[FIRST], odds_back, stamps_back),
            Call::ReadClosed => return map.read_edition2(false, &records[CLOSED], odds_back, stamps_back),
            Call::ReadOpen => return map.read_edition2(true, &records[OPEN], odds_back, stamps_back),
        };
        assert_eq!(written, records[call.record()].len(), "another number of bytes was written");
    }

    fn copied(&mut self, call: Call) {
        let Lists { records, copy, .. } = black_box(self);
        let record = &records[call.record()];
        copy[..record.len()].copy_from_slice(record);
    }

    /// Each call leaves what it has to: the record that another call wrote, or the odds and stamps that it was of.
    fn tried(&mut self) {
        for (call, name) in CALLS {
            self.out.fill(9);
            self.odds_back.fill(9.0);
            self.stamps_back.fill(9);
            self.called(call);
            let same = self.odds.iter().zip(&self.odds_back).all(|(a, b)| a.to_bits() == b.to_bits());
            let left = match call {
                Call::Read | Call::ReadClosed => same && self.stamps_back.iter().all(|stamp| *stamp == 0),
                Call::ReadOpen => same && self.stamps_back == self.stamps,
                _ => self.out.starts_with(&self.records[call.record()]),
            };
            assert!(left, "{name}: not what was to be left");
        }
    }
}

/// The nanoseconds of a turn, by so many in a row.
fn clocked(turns: usize, mut turn: impl FnMut()) -> f64 {
    let start = Instant::now();
    (0..turns).for_each(|_| turn());
    start.elapsed().as_nanos() as f64 / turns as f64
}

fn median(times: &mut [f64]) -> f64 {
    times.sort_by(f64::total_cmp);
    times[times.len() / 2]
}

/// The nanoseconds of a call and of copying as many bytes; rounds alternate in which goes first.
fn both<M: Recorded>(lists: &mut Lists<M>, call: Call, round: usize) -> [f64; 2] {
    let turns = (BYTES_IN_A_ROW / lists.records[call.record()].len()).max(1);
    if round.is_multiple_of(2) {
        let calling = clocked(turns, || lists.called(call));
        return [calling, clocked(turns, || lists.copied(call))];
    }
    let copying = clocked(turns, || lists.copied(call));
    [clocked(turns, || lists.called(call)), copying]
}

/// In each round every call has its turn, so that all see the same machine; the first round is not counted.
fn timed<M: Recorded>(name: &str, map: M, width: usize, rows: usize) {
    let mut lists = Lists::new(map, width, rows);
    lists.tried();
    let rounds = (400_000_000 / lists.records[OPEN].len()).clamp(11, 51);
    let mut times = vec![[Vec::new(), Vec::new()]; CALLS.len()];
    for round in 0..=rounds {
        for ((call, _), [calling, copying]) in CALLS.iter().zip(&mut times) {
            let [call_time, copy_time] = both(&mut lists, *call, round);
            if round > 0 {
                calling.push(call_time);
                copying.push(copy_time);
            }
        }
    }
    println!("{name}, {rounds} rounds");
    for ((call, words), [calling, copying]) in CALLS.iter().zip(&mut times) {
        let (bytes, calling, copying) = (lists.records[call.record()].len(), median(calling), median(copying));
        let rate = |nanoseconds: f64| bytes as f64 / nanoseconds;
        let share = copying / calling;
        println!("  {words:<28} {bytes:>12} {:>8.2} {:>8.2} {share:>8.2}", rate(calling), rate(copying));
    }
}

pub fn all() {
    println!("gigabytes (1,000,000,000 bytes) a second, median; the share is that of memcpy's");
    println!("  {:<28} {:>12} {:>8} {:>8} {:>8}", "", "bytes", "call", "memcpy", "share");
    let model = Model { occupied: 0.75, free: -0.5, ceiling: 4.0 };
    for side in [64, 256, 1024, 4096] {
        let map = Map { extents: Extents([side as u64; 2]), model, frame: FRAME };
        timed(&format!("{side} x {side}"), map, side, side);
    }
    let map = Map { extents: Extents([128, 128, 64]), model, frame: FRAME };
    timed("128 x 128 x 64", map, 128, 128 * 64);
}
