//! Prints what the Rust reader gives for a file. compare/README.md has the form of the lines.
//!
//!     dump [options] FILE
//!     --values   each leaf's 512 values behind its line
//!     --file     reads from the file itself; otherwise from its bytes in memory
//!     --at N     hands the reader over at position N
//!     --f16      asks for grids of halves in place of floats
//!     --skip N   leaves out the first N grids
//!     --calls    prints also what the reader's other calls give
//!     dump --halves
//!                each half and what the half crate widens it to: by its function, then by its
//!                constant one, which never uses the processor's instruction

use half::f16;
use std::any::Any;
use std::collections::BTreeSet;
use std::error::Error;
use std::fmt::{Debug, Display};
use std::fs::File;
use std::io::{stdout, BufWriter, Cursor, Read, Seek, SeekFrom, Stdout, Write};
use std::panic::{catch_unwind, set_hook, AssertUnwindSafe};
use vdb::coordinates::LocalCoord;
use vdb::data_structure::{
    Grid, GridDescriptor, Metadata, MetadataValue, Node, Node3, Node4, VdbLevel,
};
use vdb::reader::VdbReader;
use vdb::transform::Map;

type Out = BufWriter<Stdout>;
type Done = std::io::Result<()>;

#[derive(Default)]
struct Options {
    values: bool,
    file: bool,
    at: u64,
    f16: bool,
    skip: usize,
    calls: bool,
    path: String,
}

/// A value that a grid may hold, printed as its pattern.
trait Value: bytemuck::Pod {
    fn pattern(self) -> String;
}

impl Value for f32 {
    fn pattern(self) -> String {
        format!("{:08x}", self.to_bits())
    }
}

impl Value for f16 {
    fn pattern(self) -> String {
        format!("{:04x}", self.to_bits())
    }
}

/// The answer, or the line that stands in its place.
fn caught<T, E: Error>(call: impl FnOnce() -> Result<T, E>) -> Result<T, String> {
    match catch_unwind(AssertUnwindSafe(call)) {
        Ok(Ok(answer)) => Ok(answer),
        Ok(Err(error)) => Err(match error.source() {
            Some(source) => format!("error: {error}: {source}"),
            None => format!("error: {error}"),
        }),
        Err(payload) => Err(format!("panic: {}", message(&*payload))),
    }
}

fn message(payload: &(dyn Any + Send)) -> String {
    let text = match (
        payload.downcast_ref::<&str>(),
        payload.downcast_ref::<String>(),
    ) {
        (Some(text), _) => text.to_string(),
        (_, Some(text)) => text.clone(),
        _ => String::new(),
    };
    text.lines().next().unwrap_or("").to_string()
}

/// The bytes of a text of the file: the reader makes each byte a character.
fn quoted(text: &str) -> String {
    let mut result = String::from("\"");
    for c in text.chars() {
        match c {
            '"' | '\\' => result.extend(['\\', c]),
            ' '..='~' => result.push(c),
            _ => result += &format!("\\x{:02x}", c as u32),
        }
    }
    result + "\""
}

fn print_metadata(out: &mut Out, metadata: &Metadata) -> Done {
    writeln!(out, "entries {}", metadata.0.len())?;
    let mut names: Vec<_> = metadata.0.keys().collect();
    names.sort();
    for name in names {
        let (kind, value) = match &metadata.0[name] {
            MetadataValue::String(v) => ("string", quoted(v)),
            MetadataValue::Bool(v) => ("bool", v.to_string()),
            MetadataValue::I32(v) => ("int32", v.to_string()),
            MetadataValue::I64(v) => ("int64", v.to_string()),
            MetadataValue::Float(v) => ("float", v.pattern()),
            MetadataValue::Vec3i(v) => ("vec3i", format!("{} {} {}", v.x, v.y, v.z)),
            MetadataValue::Unknown { name, data } => (
                name.as_str(),
                data.iter().map(|byte| format!("{byte:02x}")).collect(),
            ),
        };
        let line = format!("entry {} {} {value}", quoted(name), quoted(kind));
        writeln!(out, "{}", line.trim_end())?;
    }
    Ok(())
}

fn print_descriptor(out: &mut Out, gd: &GridDescriptor) -> Done {
    writeln!(out, "grid {}", quoted(&gd.name))?;
    writeln!(out, "type {}", quoted(&gd.grid_type))?;
    writeln!(out, "parent {}", quoted(&gd.instance_parent))?;
    writeln!(
        out,
        "positions {} {} {}",
        gd.grid_pos, gd.block_pos, gd.end_pos
    )?;
    writeln!(out, "flags {}", gd.compression.bits())?;
    print_metadata(out, &gd.meta_data)
}

fn print_map(out: &mut Out, map: &Map) -> Done {
    let (name, vectors) = match map {
        Map::UniformScaleMap {
            scale_values,
            voxel_size,
            scale_values_inverse,
            inv_scale_sqr,
            inv_twice_scale,
        } => (
            "UniformScaleMap",
            vec![
                scale_values,
                voxel_size,
                scale_values_inverse,
                inv_scale_sqr,
                inv_twice_scale,
            ],
        ),
        Map::ScaleTranslateMap {
            translation,
            scale_values,
            voxel_size,
            scale_values_inverse,
            inv_scale_sqr,
            inv_twice_scale,
        } => (
            "ScaleTranslateMap",
            vec![
                translation,
                scale_values,
                voxel_size,
                scale_values_inverse,
                inv_scale_sqr,
                inv_twice_scale,
            ],
        ),
    };
    writeln!(out, "map {name}")?;
    for v in vectors {
        let [x, y, z] = [v.x, v.y, v.z].map(f64::to_bits);
        writeln!(out, "vector {x:016x} {y:016x} {z:016x}")?;
    }
    Ok(())
}

/// FNV-1a, 64 bits, over the values' bytes, low byte first.
fn digest<T: Value>(values: &[T]) -> u64 {
    let mut hash = 0xcbf29ce484222325;
    for byte in bytemuck::cast_slice::<T, u8>(values) {
        hash = (hash ^ u64::from(*byte)).wrapping_mul(0x100000001b3);
    }
    hash
}

fn print_leaf<T: Value>(out: &mut Out, number: usize, leaf: &Node3<T>, values: bool) -> Done {
    let (origin, buffer) = (leaf.origin, &leaf.buffer);
    let [x, y, z] = [origin.x, origin.y, origin.z];
    writeln!(
        out,
        "leaf {number} {x} {y} {z} {} {:016x}",
        buffer.len(),
        digest(buffer)
    )?;
    if values {
        for row in buffer.chunks(8) {
            let row: Vec<_> = row.iter().map(|v| v.pattern()).collect();
            writeln!(out, "values {}", row.join(" "))?;
        }
    }
    Ok(())
}

fn print_leaves<T: Value>(out: &mut Out, grid: &Grid<T>, values: bool) -> Done {
    let mut leaves = vec![];
    for root in &grid.tree.root_nodes {
        for place in root.child_mask.iter_ones() {
            let node = &root.nodes[&(place as u32)];
            let places = node.child_mask.iter_ones();
            leaves.extend(places.map(|place| &node.nodes[&(place as u32)]));
        }
    }
    writeln!(out, "leaves {}", leaves.len())?;
    for (number, leaf) in leaves.iter().enumerate() {
        print_leaf(out, number, leaf, values)?;
    }
    Ok(())
}

/// All that the iterator gives, and what stopped it early, if anything did.
fn print_records<T: Value>(out: &mut Out, grid: &Grid<T>) -> Done {
    let mut lines = vec![];
    let walked = caught(|| {
        for (at, value, level) in grid.iter() {
            let level = match level {
                VdbLevel::Voxel => 0,
                VdbLevel::Node3 => 1,
                VdbLevel::Node4 => 2,
            };
            let [x, y, z] = [at.x, at.y, at.z];
            let bits = format!(
                "{:08x} {:08x} {:08x}",
                x.to_bits(),
                y.to_bits(),
                z.to_bits()
            );
            let (x, y, z) = (x as i64, y as i64, z as i64);
            lines.push(format!(
                "record {x} {y} {z} {bits} {level} {}",
                value.pattern()
            ));
        }
        Ok::<(), std::fmt::Error>(())
    });
    writeln!(out, "records {}", lines.len())?;
    for line in lines {
        writeln!(out, "{line}")?;
    }
    match walked {
        Ok(()) => Ok(()),
        Err(line) => writeln!(out, "{line}"),
    }
}

fn print_answer<T: Debug, E: Error>(
    out: &mut Out,
    name: impl Display,
    call: impl FnOnce() -> Result<T, E>,
) -> Done {
    match caught(call) {
        Ok(answer) => writeln!(out, "{name}: {answer:?}"),
        Err(line) => writeln!(out, "{name}: {line}"),
    }
}

fn print_descriptor_calls(out: &mut Out, gd: &GridDescriptor) -> Done {
    print_answer(out, "aabb_min", || gd.aabb_min())?;
    print_answer(out, "aabb_max", || gd.aabb_max())?;
    print_answer(out, "mem_bytes", || gd.mem_bytes())?;
    print_answer(out, "voxel_count", || gd.voxel_count())
}

/// The places that a node's `local_coord_to_offset` gives over all its places' lowest corners.
fn places<N: Node>(node: &N) -> BTreeSet<u32> {
    let corner = |n: u32| n << N::TOTAL;
    let mut found = BTreeSet::new();
    for (x, y, z) in (0..N::DIM * N::DIM * N::DIM)
        .map(|p| (p / N::DIM / N::DIM, p / N::DIM % N::DIM, p % N::DIM))
    {
        let at = LocalCoord(glam::UVec3::new(corner(x), corner(y), corner(z)));
        found.insert(node.local_coord_to_offset(at).0);
    }
    found
}

fn print_node_calls<T: Value>(out: &mut Out, grid: &Grid<T>) -> Done {
    for root in &grid.tree.root_nodes {
        writeln!(out, "local_coord_to_offset, 5-node: {:?}", places(root))?;
        let mut nodes: Vec<(&u32, &Node4<T>)> = root.nodes.iter().collect();
        nodes.sort_by_key(|(place, _)| **place);
        for (_, node) in nodes {
            writeln!(out, "local_coord_to_offset, 4-node: {:?}", places(node))?;
        }
    }
    Ok(())
}

fn print_grid<T: Value>(out: &mut Out, grid: &Grid<T>, options: &Options) -> Done {
    print_map(out, &grid.transform)?;
    print_leaves(out, grid, options.values)?;
    print_records(out, grid)?;
    if options.calls {
        print_node_calls(out, grid)?;
    }
    Ok(())
}

fn print_file<R: Read + Seek>(out: &mut Out, source: R, options: &Options) -> Done {
    let mut reader = match caught(|| VdbReader::new(source)) {
        Ok(reader) => reader,
        Err(line) => return writeln!(out, "{line}"),
    };
    let header = &reader.header;
    writeln!(out, "version {}", header.file_version)?;
    writeln!(
        out,
        "library {} {}",
        header.library_version_major, header.library_version_minor
    )?;
    writeln!(out, "identity {}", quoted(&header.guid))?;
    print_metadata(out, &header.meta_data)?;
    writeln!(out, "grids {}", header.grid_count)?;
    if options.calls {
        writeln!(out, "header compression: {}", header.compression.bits())?;
        writeln!(out, "available_grids: {:?}", reader.available_grids())?;
    }
    let mut names: Vec<_> = reader.grid_descriptors.keys().cloned().collect();
    names.sort();
    if options.calls {
        // Longer than every name that is there.
        let absent: String = names.iter().map(String::as_str).chain(["x"]).collect();
        print_answer(out, "absent", || {
            reader.read_grid::<f32>(&absent).map(|_| ())
        })?;
    }
    for name in names.into_iter().skip(options.skip) {
        let gd = &reader.grid_descriptors[&name];
        print_descriptor(out, gd)?;
        if options.calls {
            print_descriptor_calls(out, gd)?;
        }
        // What was found stays printed should the next call end the program.
        out.flush()?;
        let line = if options.f16 {
            let grid = caught(|| reader.read_grid::<f16>(&name));
            grid.map(|grid| print_grid(out, &grid, options))
        } else {
            let grid = caught(|| reader.read_grid::<f32>(&name));
            grid.map(|grid| print_grid(out, &grid, options))
        };
        match line {
            Ok(done) => done?,
            Err(line) => writeln!(out, "{line}")?,
        }
    }
    Ok(())
}

fn print_halves(out: &mut Out) -> Done {
    for half in (0..=0xffff).map(f16::from_bits) {
        let (one, other) = (half.to_f32().to_bits(), half.to_f32_const().to_bits());
        writeln!(out, "{:04x} {one:08x} {other:08x}", half.to_bits())?;
    }
    Ok(())
}

fn main() -> Done {
    let mut options = Options::default();
    let mut words = std::env::args().skip(1);
    let mut halves = false;
    while let Some(word) = words.next() {
        match word.as_str() {
            "--values" => options.values = true,
            "--file" => options.file = true,
            "--at" => options.at = words.next().and_then(|n| n.parse().ok()).unwrap_or(0),
            "--f16" => options.f16 = true,
            "--skip" => options.skip = words.next().and_then(|n| n.parse().ok()).unwrap_or(0),
            "--calls" => options.calls = true,
            "--halves" => halves = true,
            _ => options.path = word,
        }
    }
    set_hook(Box::new(|_| ()));
    let mut out = BufWriter::new(stdout());
    if halves {
        print_halves(&mut out)?;
    } else {
        let mut file = File::open(&options.path)?;
        writeln!(out, "file {}", file.metadata()?.len())?;
        out.flush()?;
        if options.file {
            file.seek(SeekFrom::Start(options.at))?;
            print_file(&mut out, file, &options)?;
        } else {
            let mut bytes = vec![];
            file.read_to_end(&mut bytes)?;
            let mut cursor = Cursor::new(bytes);
            cursor.set_position(options.at);
            print_file(&mut out, cursor, &options)?;
        }
    }
    out.flush()
}
