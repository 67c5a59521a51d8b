//! The questions of crates/questions about the files that OpenVDB wrote, asked through this crate. The answers are those of its `stdout`, which come from
//! OpenVDB; left out are what the crate does not hand out: where metadata and what follows them start, and the number of roots.

mod common;

use std::fmt::Write;
use wuraiko::{Map, Metadata, MetadataValue, ParseError, VdbReader};

/// A question: its word, its numbers, and its names.
struct Question<'a> {
    word: &'a str,
    numbers: Vec<u64>,
    names: Vec<Vec<u8>>,
}

/// Bytes in quotes or as hexadecimal digits; a comma comes between two names.
fn names(text: &str) -> Vec<Vec<u8>> {
    let (mut names, mut quoted, mut digits) = (vec![Vec::new()], false, String::new());
    for c in text.chars() {
        let name = names.last_mut().unwrap();
        match c {
            '"' => quoted = !quoted,
            _ if quoted => name.push(c as u8),
            ',' => names.push(Vec::new()),
            ' ' => (),
            _ => digits.push(c),
        }
        if digits.len() == 2 {
            names.last_mut().unwrap().push(u8::from_str_radix(&digits, 16).unwrap());
            digits.clear();
        }
    }
    names
}

fn parse(asked: &str) -> Question<'_> {
    let (head, names) = match asked.split_once(':') {
        Some((head, text)) => (head, names(text)),
        None => (asked, Vec::new()),
    };
    let mut words = head.split(' ');
    let word = words.next().unwrap();
    Question { word, numbers: words.map(|n| n.parse().unwrap()).collect(), names }
}

/// Where the bytes stand in the file, how many they are, and what they are.
fn span(file: &[u8], bytes: &[u8]) -> String {
    let start = bytes.as_ptr() as usize - file.as_ptr() as usize;
    let mut text = format!(" {start} {} \"", bytes.len());
    for byte in bytes {
        match byte {
            b' '..=b'~' => text.push(*byte as char),
            _ => write!(text, "\\{byte:02x}").unwrap(),
        }
    }
    text + "\""
}

fn header(file: &[u8]) -> Result<String, ParseError> {
    let h = VdbReader::new(file)?.header;
    let (major, minor) = (h.library_version_major, h.library_version_minor);
    let guid = span(file, h.guid);
    Ok(format!(" {} {major} {minor} {} {}{guid}", h.file_version, u8::from(h.packed), h.grid_count))
}

fn descriptor(file: &[u8], q: &Question) -> Result<String, ParseError> {
    let reader = VdbReader::new(file)?;
    let d = match q.numbers[..] {
        [n] => reader.grid_descriptor_numbered(n as u32)?,
        _ => reader.grid_descriptor(&q.names[0])?,
    };
    let texts = [d.name, d.grid_type, d.instance_parent].map(|text| span(file, text)).concat();
    Ok(format!("{texts} {} {} {} {} {}", d.grid_pos, d.block_pos, d.end_pos, d.compression.bits(), d.value_width))
}

fn entry(file: &[u8], metadata: Metadata, name: &[u8]) -> Result<String, ParseError> {
    let answer = metadata.get(name)?;
    assert!(metadata.names().any(|listed| listed == name));
    Ok(match answer {
        MetadataValue::String(text) => format!(" s{}", span(file, text)),
        MetadataValue::Bool(value) => format!(" b {}", u8::from(value)),
        MetadataValue::I32(n) => format!(" i {n}"),
        MetadataValue::I64(n) => format!(" l {n}"),
        MetadataValue::Float(value) => format!(" f {:08x}", value.to_bits()),
        MetadataValue::Vec3i([x, y, z]) => format!(" v {x} {y} {z}"),
        MetadataValue::Unknown { name, data } => format!(" o{}{}", span(file, name), span(file, data)),
        value => panic!("{value:?}"),
    })
}

fn grid_entry(file: &[u8], q: &Question) -> Result<String, ParseError> {
    let reader = VdbReader::new(file)?;
    let (grid, name) = match q.numbers[..] {
        [n] => (reader.grid_descriptor_numbered(n as u32)?, &q.names[0]),
        _ => (reader.grid_descriptor(&q.names[0])?, &q.names[1]),
    };
    entry(file, grid.meta_data, name)
}

fn opened(file: &[u8], q: &Question) -> Result<String, ParseError> {
    let reader = VdbReader::new(file)?;
    let grid = match q.numbers[..] {
        [n] => reader.read_grid_numbered(n as u32)?,
        _ => reader.read_grid(&q.names[0])?,
    };
    let (kind, vectors) = match grid.transform {
        Map::UniformScaleMap { scale_values, voxel_size, scale_values_inverse, inv_scale_sqr, inv_twice_scale } => {
            ("s", vec![scale_values, voxel_size, scale_values_inverse, inv_scale_sqr, inv_twice_scale])
        }
        Map::ScaleTranslateMap { translation, scale_values, voxel_size, scale_values_inverse, inv_scale_sqr, inv_twice_scale } => {
            ("t", vec![translation, scale_values, voxel_size, scale_values_inverse, inv_scale_sqr, inv_twice_scale])
        }
        map => panic!("{map:?}"),
    };
    let doubles: String = vectors.concat().iter().map(|double| format!(" {:016x}", double.to_bits())).collect();
    Ok(format!(" {kind}{doubles} {:08x} {} {}", grid.background().to_bits(), grid.leaf_count(), grid.active_count()))
}

/// All of the 1,600 slots are summed up, which hold 7 before the call, also those that are not lent.
fn fill(file: &[u8], q: &Question) -> Result<String, ParseError> {
    let mut slots = [7; 1600];
    let answer = VdbReader::new(file).and_then(|reader| {
        let grid = match q.numbers[..] {
            [_, _, n] => reader.read_grid_numbered(n as u32)?,
            _ => reader.read_grid(&q.names[0])?,
        };
        let (first, lent) = (q.numbers[0], &mut slots[..q.numbers[1] as usize]);
        if q.word == "joined" {
            grid.fill_leaves(first, lent)
        } else {
            grid.fill_leaf(first, lent)
        }
    });
    let mut text = match answer {
        Ok(()) => " f".to_string(),
        Err(e) => format!(" refused {}", e.number()),
    };
    if q.word == "values" {
        for i in (0..slots.len()).filter(|&i| i == 0 || slots[i] != slots[i - 1]) {
            write!(text, " {i} {:08x}", slots[i]).unwrap();
        }
    }
    let sum = slots.iter().fold(0, |sum, slot| (sum * 65599 + u64::from(*slot)) % 4294967291);
    Ok(format!("{text} = {sum:08x}"))
}

/// The slots hold 71, 72 and 73 before they are lent; those that are not filled must still do.
fn origins(file: &[u8], q: &Question) -> String {
    let (mut x, mut y, mut z) = ([71; 32], [72; 32], [73; 32]);
    let lengths = [q.numbers[1], q.numbers[2], q.numbers[3]].map(|length| length as usize);
    let answer = VdbReader::new(file).and_then(|reader| {
        let grid = match q.numbers[..] {
            [_, _, _, _, n] => reader.read_grid_numbered(n as u32)?,
            _ => reader.read_grid(&q.names[0])?,
        };
        grid.leaf_origins(q.numbers[0], &mut x[..lengths[0]], &mut y[..lengths[1]], &mut z[..lengths[2]])
    });
    let (mut text, filled) = match answer {
        Ok(()) => (" f".to_string(), lengths[0]),
        Err(e) => (format!(" refused {}", e.number()), 0),
    };
    for i in 0..filled {
        write!(text, " | {} {} {}", x[i], y[i], z[i]).unwrap();
    }
    let kept = (filled..32).all(|i| (x[i], y[i], z[i]) == (71, 72, 73));
    format!("{text} {}", u8::from(kept))
}

/// The expected answer without what the crate does not hand out.
fn without(word: &str, answer: &str) -> String {
    let mut words: Vec<_> = answer.split(' ').collect();
    match word {
        _ if answer.starts_with(" refused") => (),
        "header" => drop(words.remove(5)),
        "descriptor" => words.truncate(words.len() - 2),
        "open" => drop(words.remove(words.len() - 3)),
        _ => (),
    }
    words.join(" ")
}

#[test]
fn answers_are_those_of_openvdb() {
    let lines = std::fs::read_to_string(common::repository().join("crates/questions/stdout")).unwrap();
    let (mut file, mut asked) = (Vec::new(), 0);
    for line in lines.lines().skip_while(|line| !line.starts_with("load:")).take_while(|line| !line.starts_with("new")) {
        if let Some(name) = line.strip_prefix("load: ") {
            file = common::read(name.trim_matches('"'));
        }
        let Some((question, expected)) = line.split_once('?').filter(|_| !line.starts_with('#')) else { continue };
        let q = parse(question);
        let answer = match q.word {
            "header" => header(&file),
            "descriptor" => descriptor(&file, &q),
            "entry" => VdbReader::new(&file).and_then(|reader| entry(&file, reader.header.meta_data, &q.names[0])),
            "metadata" => grid_entry(&file, &q),
            "open" => opened(&file, &q),
            "fill" | "values" | "joined" => fill(&file, &q),
            word => panic!("{word}"),
        };
        let answer = answer.unwrap_or_else(|e| format!(" refused {}", e.number()));
        assert_eq!(answer, without(q.word, expected), "{question}");
        asked += 1;
    }
    assert!(asked > 1000, "{asked} questions");
}

#[test]
fn origins_are_those_of_openvdb() {
    let lines = std::fs::read_to_string(common::repository().join("crates/questions/stdout")).unwrap();
    let (mut file, mut asked) = (Vec::new(), 0);
    for line in lines.lines().skip_while(|line| !line.starts_with("# == origins")) {
        if let Some(name) = line.strip_prefix("load: ") {
            file = common::read(name.trim_matches('"'));
        }
        let Some((question, expected)) = line.split_once('?').filter(|_| line.starts_with("Origins")) else { continue };
        assert_eq!(origins(&file, &parse(question)), expected, "{question}");
        asked += 1;
    }
    assert!(asked > 100, "{asked} questions");
}
