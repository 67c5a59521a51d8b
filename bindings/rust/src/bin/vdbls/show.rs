//! A whole file: its header, its metadata, its grids.

use crate::call::Form;
use crate::survey::Survey;
use crate::{json, name, progress, words, Failure};
use std::collections::HashSet;
use std::ffi::OsStr;
use std::io::{self, Write};
use wuraiko::{Compression, Grid, GridDescriptor, Map, Metadata, MetadataValue, ParseError, VdbReader};

/// Bytes in quotes; what a terminal should not get is escaped.
pub fn quoted(bytes: &[u8]) -> String {
    let mut text = String::from('"');
    for chunk in bytes.utf8_chunks() {
        for c in chunk.valid().chars() {
            match c {
                '\'' => text.push(c),
                c => text.extend(c.escape_debug()),
            }
        }
        text.extend(chunk.invalid().iter().map(|byte| format!("\\x{byte:02x}")));
    }
    text + "\""
}

/// A number with a comma before each three digits.
pub fn grouped(n: u64) -> String {
    let digits = n.to_string();
    let mut text = String::new();
    for (i, digit) in digits.chars().enumerate() {
        if i > 0 && (digits.len() - i) % 3 == 0 {
            text.push(',');
        }
        text.push(digit);
    }
    text
}

/// A float as the shortest decimal that reads back as the same float, or by its bits.
pub fn float(value: f32, hex: bool) -> String {
    if hex {
        format!("{:08x}", value.to_bits())
    } else {
        format!("{value:?}")
    }
}

/// How many entries are shown: each one is asked for by its name, which takes a look at all of them.
const MOST: usize = 1000;

/// Each name once, at its first place in the file, and how many more there are than are shown.
fn names<'f>(metadata: &Metadata<'f>) -> (Vec<&'f [u8]>, usize) {
    let mut seen = HashSet::new();
    let mut names: Vec<_> = metadata.names().filter(|name| seen.insert(*name)).collect();
    let more = names.len().saturating_sub(MOST);
    names.truncate(MOST);
    (names, more)
}

/// What was found in a grid.
struct Found<'f> {
    grid: Grid<'f>,
    survey: Survey,
}

fn find<'f>(reader: &VdbReader<'f>, n: u32) -> Result<Result<Found<'f>, ParseError>, Failure> {
    let opened = reader.read_grid_numbered(n);
    progress::clear();
    match opened {
        Err(e) => Ok(Err(e)),
        Ok(grid) => Ok(Ok(Found { grid, survey: Survey::new(&grid)? })),
    }
}

/// Shows the file, all of its grids, also behind one that is refused.
pub fn file(path: &OsStr, bytes: &[u8], reader: &VdbReader, form: Form, out: &mut impl Write) -> Result<(), Failure> {
    let mut refusals = Vec::new();
    if form.json {
        json_head(path, bytes, reader, form, out)?;
    } else {
        text_head(path, bytes, reader, form, out)?;
    }
    for (n, descriptor) in (0..).zip(reader.grid_descriptors()) {
        // What is known is shown while the grid is read.
        out.flush()?;
        progress::opening(bytes);
        let found = find(reader, n)?;
        if form.json {
            out.write_all(if n == 0 { b"\n" } else { b",\n" })?;
            json_grid(&descriptor, &found, form, out)?;
        } else {
            text_grid(n, &descriptor, &found, form, out)?;
        }
        refusals.extend(found.err());
    }
    if form.json {
        out.write_all(b"\n]}\n")?;
    }
    Failure::of_grids(refusals)
}

fn text_head(path: &OsStr, bytes: &[u8], reader: &VdbReader, form: Form, out: &mut impl Write) -> io::Result<()> {
    let h = &reader.header;
    writeln!(out, "{}: {} bytes", name(path), grouped(bytes.len() as u64))?;
    writeln!(out, "  version     {}, library {}.{}", h.file_version, h.library_version_major, h.library_version_minor)?;
    writeln!(out, "  identity    {}", quoted(h.guid))?;
    if h.packed {
        writeln!(out, "  packed      yes")?;
    }
    writeln!(out, "  grids       {}", h.grid_count)?;
    text_metadata(&h.meta_data, form, out)
}

fn text_metadata(metadata: &Metadata, form: Form, out: &mut impl Write) -> io::Result<()> {
    let (names, more) = names(metadata);
    if names.is_empty() {
        return writeln!(out, "  metadata    none");
    }
    writeln!(out, "  metadata")?;
    let width = names.iter().map(|name| quoted(name).chars().count()).max().unwrap_or(0).min(32);
    for name in names {
        let value = metadata.get(name).map_or_else(|e| e.text().into(), |value| text_value(value, form.hex));
        writeln!(out, "    {:width$}  {value}", quoted(name))?;
    }
    if more > 0 {
        writeln!(out, "    and {} more", grouped(more as u64))?;
    }
    Ok(())
}

/// The kind and the value; of long raw values the first bytes.
fn text_value(value: MetadataValue, hex: bool) -> String {
    match value {
        MetadataValue::String(text) => format!("string  {}", quoted(text)),
        MetadataValue::Bool(value) => format!("bool    {value}"),
        MetadataValue::I32(n) => format!("int32   {n}"),
        MetadataValue::I64(n) => format!("int64   {n}"),
        MetadataValue::Float(value) => format!("float   {}", float(value, hex)),
        MetadataValue::Vec3i([x, y, z]) => format!("vec3i   {x} {y} {z}"),
        MetadataValue::Unknown { name, data } if data.len() > 16 => {
            format!("{}  {} bytes: {}..", quoted(name), data.len(), json::hex(&data[..16]))
        }
        MetadataValue::Unknown { name, data } => format!("{}  {} bytes: {}", quoted(name), data.len(), json::hex(data)),
        _ => "of a kind that this program does not know".into(),
    }
}

/// How values are stored, in words. A grid that opens has no packed value, whatever its flags say; of a refused one only the flags are known.
fn stored(descriptor: &GridDescriptor, opens: bool) -> String {
    let flags = descriptor.compression;
    let values = if flags.contains(Compression::ACTIVE_MASK) { "active values" } else { "all values" };
    let width = if descriptor.value_width == 2 { " as halves" } else { "" };
    let with = match (flags.contains(Compression::ZIP), flags.contains(Compression::BLOSC)) {
        (false, false) => None,
        (true, false) => Some("ZIP"),
        (false, true) => Some("Blosc"),
        (true, true) => Some("ZIP and Blosc"),
    };
    let packed = match with {
        None => "unpacked".into(),
        Some(with) if opens => format!("unpacked, though flagged for {with}"),
        Some(with) => format!("flagged for {with}"),
    };
    format!("{values}{width}, {packed} (flags {})", flags.bits())
}

fn text_vector([x, y, z]: [f64; 3]) -> String {
    format!("{x:?} {y:?} {z:?}")
}

fn text_map(map: &Map) -> String {
    match map {
        Map::UniformScaleMap { scale_values, .. } => format!("scale {}", text_vector(*scale_values)),
        Map::ScaleTranslateMap { translation, scale_values, .. } => {
            format!("scale {}, translation {}", text_vector(*scale_values), text_vector(*translation))
        }
        _ => "a map that this program does not know".into(),
    }
}

/// How many voxels are active, what is not among them, and what the file says where that is another number.
fn text_voxels(grid: &Grid, survey: &Survey) -> String {
    let mut text = format!("{} active", grouped(survey.voxels()));
    if grid.root_tile_count() > 0 {
        text += &format!(", without root tiles ({})", grouped(grid.root_tile_count().into()));
    }
    match grid.descriptor.voxel_count().map(|said| u64::try_from(said).map_err(|_| said)) {
        Some(Ok(said)) if said != survey.voxels() => text += &format!("; file_voxel_count is {}", grouped(said)),
        Some(Err(negative)) => text += &format!("; file_voxel_count is {negative}"),
        _ => (),
    }
    text
}

fn text_grid(n: u32, descriptor: &GridDescriptor, found: &Result<Found, ParseError>, form: Form, out: &mut impl Write) -> io::Result<()> {
    writeln!(out, "\ngrid {n}: {}", quoted(descriptor.name))?;
    writeln!(out, "  type        {}", quoted(descriptor.grid_type).trim_matches('"'))?;
    if !descriptor.instance_parent.is_empty() {
        writeln!(out, "  parent      {}", quoted(descriptor.instance_parent))?;
    }
    writeln!(out, "  stored      {}", stored(descriptor, found.is_ok()))?;
    match found {
        Err(e) => writeln!(out, "  refused     {}: {}", e.number(), words(*e))?,
        Ok(Found { grid, survey }) => {
            let [voxels, eights, big] = survey.levels.map(grouped);
            writeln!(out, "  transform   {}", text_map(&grid.transform))?;
            writeln!(out, "  background  {}", float(grid.background(), form.hex))?;
            writeln!(out, "  records     {}: {voxels} of side 1, {eights} of side 8, {big} of side 128", grouped(grid.active_count()))?;
            writeln!(out, "  voxels      {}", text_voxels(grid, survey))?;
            if let Some((least, most)) = survey.values {
                writeln!(out, "  values      {} to {}", float(least, form.hex), float(most, form.hex))?;
            }
            writeln!(out, "  leaves      {}", grouped(grid.leaf_count()))?;
            match survey.corners {
                None => writeln!(out, "  box         empty")?,
                Some(([a, b, c], [d, e, f])) => writeln!(out, "  box         {a} {b} {c} to {d} {e} {f}")?,
            }
        }
    }
    text_metadata(&descriptor.meta_data, form, out)
}

fn json_head(path: &OsStr, bytes: &[u8], reader: &VdbReader, form: Form, out: &mut impl Write) -> io::Result<()> {
    let h = &reader.header;
    writeln!(out, "{{\"file\": {}, \"bytes\": {},", json::text(path.as_encoded_bytes()), bytes.len())?;
    writeln!(out, " \"version\": {}, \"library\": [{}, {}],", h.file_version, h.library_version_major, h.library_version_minor)?;
    writeln!(out, " \"identity\": {}, \"packed\": {},", json::text(h.guid), h.packed)?;
    writeln!(out, " \"metadata\": {},", json_metadata(&h.meta_data, form))?;
    write!(out, " \"grids\": [")
}

/// A list of objects: names that are no UTF-8 cannot be keys.
fn json_metadata(metadata: &Metadata, form: Form) -> String {
    let entry = |name: &[u8]| {
        let (kind, value) = metadata.get(name).map_or_else(|_| json_unknown(), |value| json_value(value, form.hex));
        format!("{{\"name\": {}, \"kind\": {kind}, \"value\": {value}}}", json::text(name))
    };
    let (names, more) = names(metadata);
    let mut entries: Vec<_> = names.into_iter().map(entry).collect();
    if more > 0 {
        entries.push(format!("{{\"more\": {more}}}"));
    }
    format!("[{}]", entries.join(", "))
}

fn json_value(value: MetadataValue, hex: bool) -> (String, String) {
    let kind = |name: &str| json::text(name.as_bytes());
    match value {
        MetadataValue::String(text) => (kind("string"), json::text(text)),
        MetadataValue::Bool(value) => (kind("bool"), value.to_string()),
        MetadataValue::I32(n) => (kind("int32"), n.to_string()),
        MetadataValue::I64(n) => (kind("int64"), n.to_string()),
        MetadataValue::Float(value) => (kind("float"), json::float(value, hex)),
        MetadataValue::Vec3i(vector) => (kind("vec3i"), json::corner(vector)),
        MetadataValue::Unknown { name, data } => (json::text(name), format!("{{\"hex\": \"{}\"}}", json::hex(data))),
        _ => json_unknown(),
    }
}

/// An entry of a kind that this program does not know.
fn json_unknown() -> (String, String) {
    ("null".into(), "null".into())
}

fn json_map(map: &Map) -> String {
    match map {
        Map::UniformScaleMap { scale_values, .. } => format!("{{\"scale\": {}}}", json::vector(*scale_values)),
        Map::ScaleTranslateMap { translation, scale_values, .. } => {
            format!("{{\"scale\": {}, \"translation\": {}}}", json::vector(*scale_values), json::vector(*translation))
        }
        _ => "null".into(),
    }
}

fn json_grid(descriptor: &GridDescriptor, found: &Result<Found, ParseError>, form: Form, out: &mut impl Write) -> io::Result<()> {
    write!(out, "  {{\"name\": {}, \"type\": {}", json::text(descriptor.name), json::text(descriptor.grid_type))?;
    write!(out, ", \"parent\": {}, \"flags\": {}", json::text(descriptor.instance_parent), descriptor.compression.bits())?;
    writeln!(out, ", \"half\": {},", descriptor.value_width == 2)?;
    match found {
        Err(e) => writeln!(out, "   {},", json::refusal(*e))?,
        Ok(found) => json_found(found, form.hex, out)?,
    }
    write!(out, "   \"metadata\": {}}}", json_metadata(&descriptor.meta_data, form))
}

fn json_found(Found { grid, survey }: &Found, hex: bool, out: &mut impl Write) -> io::Result<()> {
    let null = || String::from("null");
    writeln!(out, "   \"transform\": {}, \"background\": {},", json_map(&grid.transform), json::float(grid.background(), hex))?;
    writeln!(out, "   \"records\": {}, \"levels\": {:?},", grid.active_count(), survey.levels)?;
    let said = grid.descriptor.voxel_count().map_or_else(null, |said| said.to_string());
    write!(out, "   \"voxels\": {}, \"root_tiles\": {}, \"file_voxel_count\": {said},", survey.voxels(), grid.root_tile_count())?;
    let range = |(least, most)| format!("[{}, {}]", json::float(least, hex), json::float(most, hex));
    let corners = |(low, high)| format!("[{}, {}]", json::corner(low), json::corner(high));
    let (values, corners) = (survey.values.map_or_else(null, range), survey.corners.map_or_else(null, corners));
    writeln!(out, " \"values\": {values},\n   \"leaves\": {}, \"box\": {corners},", grid.leaf_count())
}
