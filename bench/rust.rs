//! Measures the Rust reader: reading a grid from bytes in memory, and visiting its active items.
//!
//!     read FILE REPETITIONS    the first repetition is not timed and prints counts and sums

use std::hint::black_box;
use std::io::Cursor;
use std::time::Instant;
use vdb::data_structure::{Grid, VdbLevel};
use vdb::reader::VdbReader;

fn read(bytes: &[u8]) -> Grid<f32> {
    let mut reader = VdbReader::new(Cursor::new(bytes)).expect("the file");
    reader.read_grid::<f32>("density").expect("the grid")
}

/// One step of the sum that each reader takes while the clock runs.
fn plain(x: i64, y: i64, z: i64, level: u32, value: u32) -> u64 {
    (x + y + z) as u64 + u64::from(level) + u64::from(value)
}

/// One step of the sum that is taken once, as in record.h.
fn mixed(x: i64, y: i64, z: i64, level: u32, value: u32) -> u64 {
    let times = |a: u64, b: u64| a.wrapping_mul(b);
    let mut h = times(x as u64, 0x9e3779b97f4a7c15);
    h = (h ^ h >> 29).wrapping_add(times(y as u64, 0xc2b2ae3d27d4eb4f));
    h = (h ^ h >> 31).wrapping_add(times(z as u64, 0x165667b19e3779f9));
    let rest = u64::from(level) << 32 | u64::from(value);
    h = (h ^ h >> 30).wrapping_add(times(rest, 0xd6e8feb86659fd93));
    times(h ^ h >> 32, 0xbf58476d1ce4e5b9)
}

/// Sums a step over the active items. Their coordinates are whole numbers in floats.
fn sum(grid: &Grid<f32>, step: impl Fn(i64, i64, i64, u32, u32) -> u64) -> u64 {
    let mut total = 0u64;
    for (at, value, level) in grid.iter() {
        let level = match level {
            VdbLevel::Voxel => 0,
            VdbLevel::Node3 => 1,
            VdbLevel::Node4 => 2,
        };
        let (x, y, z) = (at.x as i32, at.y as i32, at.z as i32);
        let n = step(x.into(), y.into(), z.into(), level, value.to_bits());
        total = total.wrapping_add(n);
    }
    total
}

/// All 512 values of each leaf: how many leaves, and the sum.
fn leaf_values(grid: &Grid<f32>) -> (u64, u64) {
    let (mut leaves, mut total) = (0, 0);
    for node in grid.tree.root_nodes.iter().flat_map(|r| r.nodes.values()) {
        for leaf in node.nodes.values() {
            leaves += 1;
            total += leaf
                .buffer
                .iter()
                .map(|v| u64::from(v.to_bits()))
                .sum::<u64>();
        }
    }
    (leaves, total)
}

/// The clock on the wall and the process's own processor time.
struct Moment {
    processor: f64,
    wall: Instant,
}

#[repr(C)]
struct Timespec {
    seconds: i64,
    nanoseconds: i64,
}

extern "C" {
    fn clock_gettime(clock: i32, time: *mut Timespec) -> i32;
}

fn processor_ms() -> f64 {
    const CLOCK_PROCESS_CPUTIME_ID: i32 = 2;
    let mut t = Timespec {
        seconds: 0,
        nanoseconds: 0,
    };
    unsafe { clock_gettime(CLOCK_PROCESS_CPUTIME_ID, &mut t) };
    t.seconds as f64 * 1e3 + t.nanoseconds as f64 / 1e6
}

fn start() -> Moment {
    let processor = processor_ms();
    Moment {
        processor,
        wall: Instant::now(),
    }
}

fn print_time(name: &str, from: Moment) {
    let (wall, processor) = (from.wall.elapsed(), processor_ms() - from.processor);
    println!("time {name} {:.6} {processor:.6}", wall.as_secs_f64() * 1e3);
}

fn main() {
    let words: Vec<String> = std::env::args().collect();
    let bytes = std::fs::read(&words[1]).expect("the file");
    let repetitions: u32 = words[2].parse().expect("a number of repetitions");

    let grid = read(&bytes);
    println!("number records {}", grid.iter().count());
    println!("number leaves {}", leaf_values(&grid).0);
    println!("number mixed {}", sum(&grid, mixed));
    drop(grid);

    for _ in 0..repetitions {
        let from = start();
        let grid = black_box(read(black_box(&bytes)));
        print_time("rust_read", from);
        let from = start();
        println!("number sum {}", sum(&grid, plain));
        print_time("rust_iterate", from);
        let from = start();
        println!("number rust_leaf_sum {}", leaf_values(&grid).1);
        print_time("rust_leaf_values", from);
    }
}
