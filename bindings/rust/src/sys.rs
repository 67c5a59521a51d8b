//! The calls into libvdb.a, and all that is unsafe in this crate.
//!
//! `include/vdb.h` of the reader asks of a caller that each pointer with a length points to that many elements, is aligned and not null, and that
//! what is lent for writing overlaps nothing else. A slice or an array that Rust lends has all of this, an empty slice too: its pointer is aligned and
//! not null, and a `&mut` is alone. The library keeps no pointer, and takes any content. The arrays have the lengths of this crate's layout; a library
//! with another one is lent nothing (`same_layout`). So each call below is sound for all arguments.
#![allow(unsafe_code)]

use crate::ParseError;

/// The layout that this crate is written for. The build script compares it with the library's, and each call before anything is lent.
pub const LAYOUT: u32 = 1;
pub const FILE_WORDS: usize = 8;
pub const GRID_WORDS: usize = 16;
pub const ENTRY_WORDS: usize = 5;
pub const OPENED_WORDS: usize = 32;
/// How many of an opened grid's words are for doubles.
pub const DOUBLES: usize = OPENED_WORDS - 6;
pub const PLACE_WORDS: usize = 40;
pub const WALK_COUNTS: usize = 2;

mod c {
    extern "C" {
        pub fn vdb_layout() -> u32;
        pub fn vdb_open_file(file: *const u8, len: usize, out: *mut u64) -> u32;
        pub fn vdb_grid_named(file: *const u8, len: usize, name: *const u8, name_len: usize, out: *mut u64) -> u32;
        pub fn vdb_grid_numbered(file: *const u8, len: usize, n: u32, out: *mut u64) -> u32;
        pub fn vdb_file_entry(file: *const u8, len: usize, name: *const u8, name_len: usize, out: *mut u64) -> u32;
        pub fn vdb_grid_entry_named(
            file: *const u8,
            len: usize,
            grid: *const u8,
            grid_len: usize,
            name: *const u8,
            name_len: usize,
            out: *mut u64,
        ) -> u32;
        pub fn vdb_open_grid_named(file: *const u8, len: usize, name: *const u8, name_len: usize, out: *mut u64, place: *mut u64) -> u32;
        pub fn vdb_open_grid_numbered(file: *const u8, len: usize, n: u32, out: *mut u64, place: *mut u64) -> u32;
        pub fn vdb_walk(
            file: *const u8,
            len: usize,
            place: *mut u64,
            x: *mut i32,
            x_len: usize,
            y: *mut i32,
            y_len: usize,
            z: *mut i32,
            z_len: usize,
            level: *mut u32,
            level_len: usize,
            value: *mut u32,
            value_len: usize,
            counts: *mut u64,
        ) -> u32;
        pub fn vdb_fill_leaf_named(
            file: *const u8,
            len: usize,
            name: *const u8,
            name_len: usize,
            leaf: u64,
            slots: *mut u32,
            slots_len: usize,
        ) -> u32;
        pub fn vdb_fill_leaves_named(
            file: *const u8,
            len: usize,
            name: *const u8,
            name_len: usize,
            first: u64,
            slots: *mut u32,
            slots_len: usize,
        ) -> u32;
        pub fn vdb_leaf_origins_named(
            file: *const u8,
            len: usize,
            name: *const u8,
            name_len: usize,
            first: u64,
            x: *mut i32,
            x_len: usize,
            y: *mut i32,
            y_len: usize,
            z: *mut i32,
            z_len: usize,
        ) -> u32;
    }
}

/// The grid that is asked for.
#[derive(Clone, Copy)]
pub enum Asked<'a> {
    Named(&'a [u8]),
    Numbered(u32),
}

/// Whether the linked library has this crate's layout. One with another may write more words than an array here has, so each call asks this first; it
/// costs a nanosecond, and nothing has to be kept between calls.
fn same_layout() -> Result<(), ParseError> {
    // SAFETY: nothing is lent.
    match unsafe { c::vdb_layout() } {
        LAYOUT => Ok(()),
        _ => Err(ParseError::OtherLayout),
    }
}

pub fn open_file(file: &[u8]) -> Result<[u64; FILE_WORDS], ParseError> {
    same_layout()?;
    let mut out = [0; FILE_WORDS];
    // SAFETY: the slice has its length, and `out` the 8 words that are written.
    ParseError::check(unsafe { c::vdb_open_file(file.as_ptr(), file.len(), out.as_mut_ptr()) })?;
    Ok(out)
}

pub fn grid(file: &[u8], grid: Asked) -> Result<[u64; GRID_WORDS], ParseError> {
    same_layout()?;
    let mut out = [0; GRID_WORDS];
    let (f, len, o) = (file.as_ptr(), file.len(), out.as_mut_ptr());
    // SAFETY: each slice has its length, and `out` the 16 words that are written.
    ParseError::check(unsafe {
        match grid {
            Asked::Named(name) => c::vdb_grid_named(f, len, name.as_ptr(), name.len(), o),
            Asked::Numbered(n) => c::vdb_grid_numbered(f, len, n, o),
        }
    })?;
    Ok(out)
}

/// An entry of the file's metadata, or of a grid's.
pub fn entry(file: &[u8], grid: Option<&[u8]>, name: &[u8]) -> Result<[u64; ENTRY_WORDS], ParseError> {
    same_layout()?;
    let mut out = [0; ENTRY_WORDS];
    let (f, len, o) = (file.as_ptr(), file.len(), out.as_mut_ptr());
    // SAFETY: each slice has its length, and `out` the 5 words that are written.
    ParseError::check(unsafe {
        match grid {
            None => c::vdb_file_entry(f, len, name.as_ptr(), name.len(), o),
            Some(grid) => c::vdb_grid_entry_named(f, len, grid.as_ptr(), grid.len(), name.as_ptr(), name.len(), o),
        }
    })?;
    Ok(out)
}

/// Opens a grid; the second row of words is the walk's fresh place.
pub fn open_grid(file: &[u8], grid: Asked) -> Result<([u64; OPENED_WORDS], [u64; PLACE_WORDS]), ParseError> {
    same_layout()?;
    let (mut out, mut place) = ([0; OPENED_WORDS], [0; PLACE_WORDS]);
    let (f, len, o, p) = (file.as_ptr(), file.len(), out.as_mut_ptr(), place.as_mut_ptr());
    // SAFETY: each slice has its length, `out` and `place` have the 32 and 40 words that are written.
    ParseError::check(unsafe {
        match grid {
            Asked::Named(name) => c::vdb_open_grid_named(f, len, name.as_ptr(), name.len(), o, p),
            Asked::Numbered(n) => c::vdb_open_grid_numbered(f, len, n, o, p),
        }
    })?;
    Ok((out, place))
}

pub fn walk(
    file: &[u8],
    place: &mut [u64; PLACE_WORDS],
    [x, y, z]: [&mut [i32]; 3],
    [level, value]: [&mut [u32]; 2],
) -> Result<[u64; WALK_COUNTS], ParseError> {
    same_layout()?;
    let mut counts = [0; WALK_COUNTS];
    // SAFETY: each slice has its length, `place` has 40 words and `counts` the 2 that are written; no two `&mut` overlap.
    ParseError::check(unsafe {
        c::vdb_walk(
            file.as_ptr(),
            file.len(),
            place.as_mut_ptr(),
            x.as_mut_ptr(),
            x.len(),
            y.as_mut_ptr(),
            y.len(),
            z.as_mut_ptr(),
            z.len(),
            level.as_mut_ptr(),
            level.len(),
            value.as_mut_ptr(),
            value.len(),
            counts.as_mut_ptr(),
        )
    })?;
    Ok(counts)
}

pub fn fill_leaf(file: &[u8], grid: &[u8], leaf: u64, slots: &mut [u32]) -> Result<(), ParseError> {
    same_layout()?;
    // SAFETY: each slice has its length.
    ParseError::check(unsafe {
        c::vdb_fill_leaf_named(file.as_ptr(), file.len(), grid.as_ptr(), grid.len(), leaf, slots.as_mut_ptr(), slots.len())
    })
}

pub fn fill_leaves(file: &[u8], grid: &[u8], first: u64, slots: &mut [u32]) -> Result<(), ParseError> {
    same_layout()?;
    // SAFETY: each slice has its length.
    ParseError::check(unsafe {
        c::vdb_fill_leaves_named(file.as_ptr(), file.len(), grid.as_ptr(), grid.len(), first, slots.as_mut_ptr(), slots.len())
    })
}

pub fn leaf_origins(file: &[u8], grid: &[u8], first: u64, [x, y, z]: [&mut [i32]; 3]) -> Result<(), ParseError> {
    same_layout()?;
    // SAFETY: each slice has its length; no two `&mut` overlap.
    ParseError::check(unsafe {
        c::vdb_leaf_origins_named(
            file.as_ptr(),
            file.len(),
            grid.as_ptr(),
            grid.len(),
            first,
            x.as_mut_ptr(),
            x.len(),
            y.as_mut_ptr(),
            y.len(),
            z.as_mut_ptr(),
            z.len(),
        )
    })
}
