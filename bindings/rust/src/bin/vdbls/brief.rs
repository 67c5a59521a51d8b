//! A file on one line. No active list is walked.

use crate::show::{grouped, quoted};
use crate::{json, progress, words, Failure};
use std::ffi::OsStr;
use std::io::Write;
use wuraiko::{Grid, ParseError, VdbReader};

/// Writes the line, with all grids, also behind one that is refused.
pub fn line(path: &OsStr, shown: &str, bytes: &[u8], reader: &VdbReader, as_json: bool, out: &mut impl Write) -> Result<(), Failure> {
    let (mut grids, mut refusals) = (Vec::new(), Vec::new());
    for (n, descriptor) in (0..).zip(reader.grid_descriptors()) {
        progress::opening(bytes);
        let opened = reader.read_grid_numbered(n);
        progress::clear();
        grids.push(if as_json { json_grid(descriptor.name, &opened) } else { text_grid(descriptor.name, &opened) });
        refusals.extend(opened.err());
    }
    let version = reader.header.file_version;
    if as_json {
        write!(out, "{{\"file\": {}, \"bytes\": {}", json::text(path.as_encoded_bytes()), bytes.len())?;
        writeln!(out, ", \"version\": {version}, \"grids\": [{}]}}", grids.join(", "))?;
    } else {
        let grids = if grids.is_empty() { "no grids".into() } else { grids.join("; ") };
        writeln!(out, "{shown}: {} bytes, version {version}: {grids}", grouped(bytes.len() as u64))?;
    }
    // A line is there as soon as it is known.
    out.flush()?;
    Failure::of_grids(refusals)
}

fn text_grid(name: &[u8], opened: &Result<Grid, ParseError>) -> String {
    let name = quoted(name);
    match opened {
        Err(e) => format!("{name} refused {}: {}", e.number(), words(*e)),
        Ok(grid) => {
            let tiles = match grid.root_tile_count() {
                0 => String::new(),
                n => format!(", root tiles {}", grouped(n.into())),
            };
            format!("{name} records {}, leaves {}{tiles}", grouped(grid.active_count()), grouped(grid.leaf_count()))
        }
    }
}

fn json_grid(name: &[u8], opened: &Result<Grid, ParseError>) -> String {
    let name = json::text(name);
    match opened {
        Err(e) => format!("{{\"name\": {name}, {}}}", json::refusal(*e)),
        Ok(grid) => {
            let (records, leaves, tiles) = (grid.active_count(), grid.leaf_count(), grid.root_tile_count());
            format!("{{\"name\": {name}, \"records\": {records}, \"leaves\": {leaves}, \"root_tiles\": {tiles}}}")
        }
    }
}
