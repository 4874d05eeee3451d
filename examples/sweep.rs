// A map of 10 by 8 cells from Rust: one sweep of four beams, the odds as a picture, and calls that are refused.
//
// Build and run, from the repository's root on x86-64 Linux (the first line proves the library and writes it):
//
//     tools/archives tembuzar
//     rustc -O examples/sweep.rs -L target/staticlib -l static=tembuzar -o target/sweep_rs && target/sweep_rs
//
// The structs are those of include/tembuzar.h. A slice is handed over as its pointer and its length, so a safe function
// around each call is all that Rust needs: the borrow checker sees to it that lists do not overlap.

#[repr(C)]
#[derive(Clone, Copy, Debug)]
struct Refusal {
    number: u32,
    values: u16,
    axes: u16,
    axis: u64,
    index: i64,
    extent: u64,
    place: u64,
    count: u64,
    needed: u64,
}

#[repr(C)]
#[derive(Clone, Copy, Debug)]
struct Extents2 {
    x: u64,
    y: u64,
}

#[repr(C)]
#[derive(Clone, Copy, Debug)]
struct Model {
    occupied: f64,
    free: f64,
    ceiling: f64,
}

#[repr(C)]
#[derive(Clone, Copy, Debug)]
struct Map2 {
    extents: Extents2,
    model: Model,
    frame: u32,
}

#[repr(C)]
#[derive(Clone, Copy, Debug)]
struct Point2 {
    x: f64,
    y: f64,
}

#[repr(C)]
#[derive(Clone, Copy, Debug)]
struct Cell2 {
    x: i64,
    y: i64,
}

#[repr(C)]
struct MapAnswer2 {
    refusal: Refusal,
    map: Map2,
}

#[repr(C)]
struct CellAnswer2 {
    refusal: Refusal,
    cell: Cell2,
}

#[repr(C)]
struct CountAnswer {
    refusal: Refusal,
    count: u64,
}

extern "C" {
    fn tembuzar_new2(
        extents: Extents2,
        model: Model,
        odds: *mut f64,
        odds_count: usize,
        stamps: *mut u32,
        stamps_count: usize,
    ) -> MapAnswer2;
    fn tembuzar_begin_scan2(map: Map2, stamps: *mut u32, stamps_count: usize) -> MapAnswer2;
    fn tembuzar_update_scan2(
        map: Map2,
        odds: *mut f64,
        odds_count: usize,
        stamps: *mut u32,
        stamps_count: usize,
        numbers: *const f64,
        numbers_count: usize,
        hits: *const u8,
        hits_count: usize,
    ) -> CountAnswer;
    fn tembuzar_cell_containing2(map: Map2, point: Point2) -> CellAnswer2;
}

// An answer, or why there is none.
fn answered<T>(refusal: Refusal, answer: T) -> Result<T, Refusal> {
    if refusal.number == 0 {
        Ok(answer)
    } else {
        Err(refusal)
    }
}

fn new(extents: Extents2, model: Model, odds: &mut [f64], stamps: &mut [u32]) -> Result<Map2, Refusal> {
    let a = unsafe { tembuzar_new2(extents, model, odds.as_mut_ptr(), odds.len(), stamps.as_mut_ptr(), stamps.len()) };
    answered(a.refusal, a.map)
}

fn begin_scan(map: Map2, stamps: &mut [u32]) -> Result<Map2, Refusal> {
    let a = unsafe { tembuzar_begin_scan2(map, stamps.as_mut_ptr(), stamps.len()) };
    answered(a.refusal, a.map)
}

fn update_scan(map: Map2, odds: &mut [f64], stamps: &mut [u32], numbers: &[f64], hits: &[u8]) -> Result<u64, Refusal> {
    let a = unsafe {
        tembuzar_update_scan2(
            map,
            odds.as_mut_ptr(),
            odds.len(),
            stamps.as_mut_ptr(),
            stamps.len(),
            numbers.as_ptr(),
            numbers.len(),
            hits.as_ptr(),
            hits.len(),
        )
    };
    answered(a.refusal, a.count)
}

fn cell_containing(map: Map2, point: Point2) -> Result<Cell2, Refusal> {
    let a = unsafe { tembuzar_cell_containing2(map, point) };
    answered(a.refusal, a.cell)
}

fn main() -> Result<(), Refusal> {
    let (wide, high) = (10, 8);
    let mut odds = vec![0.0; wide * high];
    let mut stamps = vec![0; wide * high];
    let extents = Extents2 { x: wide as u64, y: high as u64 };
    let model = Model { occupied: 0.75, free: -0.5, ceiling: 4.0 };
    let map = begin_scan(new(extents, model, &mut odds, &mut stamps)?, &mut stamps)?;
    println!("frame {}", map.frame);
    let beams = [
        0.5, 0.5, 4.5, 0.5, // along the bottom, a return in cell (4, 0)
        0.5, 0.5, 14.5, 1.5, // past the edge: a return off the grid marks nothing occupied
        0.5, 0.5, 6.5, 6.5, // the diagonal, a return in cell (6, 6)
        0.5, 0.5, 0.5, 5.5, // straight up, ran out: all clear
    ];
    let count = update_scan(map, &mut odds, &mut stamps, &beams, &[1, 1, 1, 0])?;
    println!("marks that changed a cell: {count}");
    for y in (0..high).rev() {
        let row: Vec<String> = (0..wide).map(|x| format!("{:5.2}", odds[x + wide * y])).collect();
        println!("  y {y}  {}", row.join(" "));
    }
    println!("cell that contains (3.9, 7.25): {:?}", cell_containing(map, Point2 { x: 3.9, y: 7.25 }));
    println!("cell that contains (10, 4): {:?}", cell_containing(map, Point2 { x: 10.0, y: 4.0 }));
    println!("an empty list: {:?}", update_scan(map, &mut odds, &mut stamps, &[], &[]));
    println!("a byte that is neither 0 nor 1: {:?}", update_scan(map, &mut odds, &mut stamps, &beams, &[1, 1, 1, 2]));
    Ok(())
}
