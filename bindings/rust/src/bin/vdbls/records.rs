//! The active list of a grid.

use crate::call::Form;
use crate::progress::Progress;
use crate::{json, show, Failure};
use std::ffi::OsStr;
use std::io::Write;
use wuraiko::Grid;

/// A record of the active list.
pub struct Record {
    pub corner: [i32; 3],
    pub level: u32,
    pub value: u32,
}

/// How many records are taken at a time.
const SLOTS: usize = 4096;

/// Calls `each` for every record of the grid's active list.
pub fn for_each(grid: &Grid, mut each: impl FnMut(Record) -> Result<(), Failure>) -> Result<(), Failure> {
    let (mut x, mut y, mut z) = ([0; SLOTS], [0; SLOTS], [0; SLOTS]);
    let (mut level, mut value) = ([0; SLOTS], [0; SLOTS]);
    let mut progress = Progress::new(grid.active_count());
    let mut place = grid.place();
    loop {
        let walked = grid.walk(&mut place, &mut x, &mut y, &mut z, &mut level, &mut value).map_err(Failure::Walk)?;
        for i in 0..walked.filled {
            each(Record { corner: [x[i], y[i], z[i]], level: level[i], value: value[i] })?;
        }
        progress.add(walked.filled);
        if walked.left == 0 {
            return Ok(());
        }
    }
}

/// Writes the list, by `--hex` as the listing program does, or as JSON.
pub fn write(path: &OsStr, grid: &Grid, form: Form, out: &mut impl Write) -> Result<(), Failure> {
    if !form.json {
        writeln!(out, "records {}", grid.active_count())?;
        return for_each(grid, |Record { corner: [x, y, z], level, value }| {
            let value = show::float(f32::from_bits(value), form.hex);
            Ok(writeln!(out, "{x} {y} {z} {level} {value}")?)
        });
    }
    let (path, name) = (json::text(path.as_encoded_bytes()), json::text(grid.descriptor.name));
    write!(out, "{{\"file\": {path}, \"grid\": {name}, \"records\": {}, \"list\": [", grid.active_count())?;
    let mut before = "\n";
    for_each(grid, |Record { corner: [x, y, z], level, value }| {
        write!(out, "{before}[{x}, {y}, {z}, {level}, {}]", json::float(f32::from_bits(value), form.hex))?;
        before = ",\n";
        Ok(())
    })?;
    Ok(writeln!(out, "\n]}}")?)
}
