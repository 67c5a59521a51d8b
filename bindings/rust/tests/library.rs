//! The crate over the files of the repository. What is expected comes from document 01 and from OpenVDB.

mod common;

use common::{a_numbered, a_with, case_a, digest, half_entries, many_tiles, openvdb, read, refused_files};
use std::collections::BTreeSet;
use std::fmt::Write;
use wuraiko::{walk, Compression, Grid, Map, MetadataValue, ParseError, Place, VdbLevel, VdbReader, Walked};

type Record = (i32, i32, i32, u32, u32);

/// The records that a walk hands out in portions of so many slots.
fn walked(file: &[u8], grid: &Grid, slots: usize) -> Vec<Record> {
    let (mut x, mut y, mut z) = (vec![0; slots], vec![0; slots], vec![0; slots]);
    let (mut level, mut value) = (vec![0; slots], vec![0; slots]);
    let (mut place, mut records) = (grid.place(), Vec::new());
    loop {
        let w = walk(file, &mut place, &mut x, &mut y, &mut z, &mut level, &mut value).unwrap();
        records.extend((0..w.filled).map(|i| (x[i], y[i], z[i], level[i], value[i])));
        assert_eq!(records.len() as u64 + w.left, grid.active_count());
        if w.left == 0 {
            return records;
        }
    }
}

fn number(level: VdbLevel) -> u32 {
    match level {
        VdbLevel::Voxel => 0,
        VdbLevel::Node3 => 1,
        VdbLevel::Node4 => 2,
        level => panic!("{level:?}"),
    }
}

fn iterated(grid: &Grid) -> Vec<Record> {
    grid.iter().map(|([x, y, z], value, level)| (x, y, z, number(level), value.to_bits())).collect()
}

fn listing(records: &[Record]) -> String {
    let mut text = format!("records {}\n", records.len());
    for (x, y, z, level, value) in records {
        writeln!(text, "{x} {y} {z} {level} {value:08x}").unwrap();
    }
    text
}

/// Origin and values of each leaf.
fn leaves(grid: &Grid) -> Vec<([i32; 3], Vec<u32>)> {
    let count = grid.leaf_count() as usize;
    let (mut x, mut y, mut z, mut values) = (vec![0; count], vec![0; count], vec![0; count], vec![0; 512 * count]);
    grid.leaf_origins(0, &mut x, &mut y, &mut z).unwrap();
    grid.fill_leaves(0, &mut values).unwrap();
    values.chunks(512).enumerate().map(|(i, values)| ([x[i], y[i], z[i]], values.to_vec())).collect()
}

/// The leaves as `describe` of tools/openvdb prints them.
fn values(grid: &Grid) -> String {
    let mut text = String::new();
    for (number, ([x, y, z], values)) in leaves(grid).iter().enumerate() {
        writeln!(text, "leaf {number} {x} {y} {z}").unwrap();
        for row in values.chunks(8) {
            let row: Vec<_> = row.iter().map(|value| format!("{value:08x}")).collect();
            writeln!(text, "{}", row.join(" ")).unwrap();
        }
    }
    text
}

/// The grid's line of openvdb.txt, without the box.
fn described(grid: &Grid) -> String {
    let (records, values) = (digest(&listing(&iterated(grid))), digest(&values(grid)));
    format!("leaves {} records {} {records:016x} {values:016x}", grid.leaf_count(), grid.active_count())
}

#[test]
fn records_and_leaves_are_those_of_openvdb() {
    let mut accepted = 0;
    for (name, number, expected) in openvdb() {
        let file = read(&name);
        let answer = VdbReader::new(&file).and_then(|reader| reader.read_grid_numbered(number.unwrap_or(0)));
        let grid = match answer {
            Err(e) if number.is_none() && expected == "grids 0" => {
                assert_eq!(e, ParseError::NotFound);
                continue;
            }
            Err(e) => {
                assert_eq!(format!("refused {}", e.number()), expected, "{name} {number:?}");
                continue;
            }
            Ok(grid) => grid,
        };
        let answer = described(&grid);
        assert_eq!(answer, expected[..answer.len()], "{name} {number:?}");
        for slots in [1, 7, 127, 5000] {
            assert_eq!(walked(&file, &grid, slots), iterated(&grid), "{name} {number:?}, {slots} slots");
        }
        accepted += 1;
    }
    assert_eq!(accepted, 47);
}

#[test]
fn case_a_is_listed_as_in_document_01() {
    let file = case_a();
    let grid = VdbReader::new(&file).unwrap().read_grid("d").unwrap();
    let expected = "records 1\n-3847 249 4346 0 3f800000\n";
    assert_eq!(listing(&walked(&file, &grid, 3)), expected);
    assert_eq!(listing(&iterated(&grid)), expected);
    let mut leaf = [7; 512];
    grid.fill_leaf(0, &mut leaf).unwrap();
    assert!(leaf.iter().enumerate().all(|(p, value)| *value == if p == 74 { 0x3f800000 } else { 0 }));
}

#[test]
fn inactive_places_of_case_a_hold_the_background() {
    // The background stands at 262, the leaf's node byte at 9632.
    for (background, byte, expected) in [
        (0x40000000u32, 0, 0x40000000),
        (0x40000000, 1, 0xc0000000),
        (0x80000000, 0, 0x80000000),
        (0x80000000, 1, 0),
        (0xffa00001, 0, 0xffa00001),
        (0xffa00001, 1, 0x7fa00001),
    ] {
        let mut file = a_with(262, &background.to_le_bytes());
        file[9632] = byte;
        let grid = VdbReader::new(&file).unwrap().read_grid("d").unwrap();
        assert_eq!(grid.background().to_bits(), background);
        let mut leaf = [7; 512];
        grid.fill_leaf(0, &mut leaf).unwrap();
        assert!(leaf.iter().enumerate().all(|(p, value)| *value == if p == 74 { 0x3f800000 } else { expected }));
    }
}

#[test]
fn a_level_set_is_three_outside_and_minus_three_inside() {
    // tools/openvdb/make_clouds.cc has OpenVDB make a sphere around this voxel: its band of active voxels lies between the two.
    let (file, centre) = (read("levelset_active.vdb"), [-63, 66, -20]);
    let grid = VdbReader::new(&file).unwrap().read_grid("surface").unwrap();
    let active: BTreeSet<_> = iterated(&grid).into_iter().map(|(x, y, z, ..)| [x, y, z]).collect();
    assert_eq!(grid.background(), 3.0);
    let (mut inside, mut outside) = (0, 0);
    for (origin, values) in leaves(&grid) {
        for (p, value) in values.into_iter().map(f32::from_bits).enumerate() {
            let place = [origin[0] + p as i32 / 64, origin[1] + p as i32 / 8 % 8, origin[2] + p as i32 % 8];
            let square: i32 = (0..3).map(|axis| (place[axis] - centre[axis]).pow(2)).sum();
            if active.contains(&place) {
                assert!(value.abs() < 3.0);
            } else if square <= 9 {
                assert_eq!(value, -3.0);
                inside += 1;
            } else {
                assert_eq!(value, 3.0);
                outside += 1;
            }
        }
    }
    assert_eq!((inside, outside), (123, 8807));
}

#[test]
fn each_example_of_the_checks_is_refused_with_its_number() {
    for (number, file) in refused_files() {
        let grid = VdbReader::new(&file).and_then(|reader| reader.read_grid("d"));
        assert_eq!(grid.err().map(ParseError::number), Some(number));
        // These two calls differ in what opens: 6, 12 to 20 and 25 are checks of a grid.
        assert_eq!(VdbReader::new(&file).is_ok(), number == 6 || number >= 12, "check {number}");
    }
    // The zeros of a long file are never touched.
    assert_eq!(VdbReader::new(&vec![0; 2_147_483_648]).err(), Some(ParseError::FileTooLong));
    assert_eq!(VdbReader::new(&vec![0; 2_147_483_647]).err(), Some(ParseError::MagicMismatch));
    let file = case_a();
    let reader = VdbReader::new(&file).unwrap();
    assert_eq!(reader.read_grid("e").err(), Some(ParseError::NotFound));
    assert_eq!(reader.read_grid_numbered(1).err(), Some(ParseError::NotFound));
    assert_eq!(reader.grid_descriptor("e").err(), Some(ParseError::NotFound));
    assert_eq!(reader.header.meta_data.get("e"), Err(ParseError::NotFound));
    assert_eq!(VdbReader::new(&[]).err(), Some(ParseError::PastEnd));
}

#[test]
fn a_grid_flagged_for_packing_is_read_where_its_values_are_raw() {
    let a = case_a();
    let expected = VdbReader::new(&a).unwrap().read_grid("d").unwrap();
    for flags in [3, 6, 7] {
        let file = a_numbered(flags, [0, 0, -4]);
        let reader = VdbReader::new(&file).unwrap();
        let grid = reader.read_grid("d").unwrap();
        assert_eq!(grid.descriptor.compression.bits(), flags);
        assert_eq!(described(&grid), described(&expected));
        assert_eq!(walked(&file, &grid, 3), iterated(&expected));
        let (mut leaf, mut other) = ([7; 512], [7; 512]);
        grid.fill_leaf(0, &mut leaf).unwrap();
        expected.fill_leaf(0, &mut other).unwrap();
        assert_eq!(leaf, other);
    }
    for (numbers, error) in [
        ([1, 0, -4], ParseError::PackedGrid),
        ([0, i64::MAX, -4], ParseError::PackedGrid),
        ([0, 0, 4], ParseError::PackedGrid),
        ([-1, 0, -4], ParseError::InvalidRunSize),
        ([0, i64::MIN, -4], ParseError::InvalidRunSize),
        ([0, 0, 0], ParseError::InvalidRunSize),
        ([0, 0, -5], ParseError::InvalidRunSize),
        // The first that fails counts.
        ([1, -1, 0], ParseError::PackedGrid),
        ([-1, 1, 1], ParseError::InvalidRunSize),
    ] {
        let file = a_numbered(3, numbers);
        let reader = VdbReader::new(&file).unwrap();
        assert_eq!(reader.read_grid("d").err(), Some(error), "{numbers:?}");
    }
}

#[test]
fn errors_have_numbers_and_texts() {
    let mut texts = BTreeSet::new();
    for number in (1..=22).chain([25]) {
        let error = ParseError::from_number(number);
        assert_ne!(error, ParseError::Other(number));
        assert_eq!(error.number(), number);
        assert!(error.to_string().ends_with(&format!("(check {number})")));
        texts.insert(error.text());
    }
    assert_eq!(texts.len(), 23);
    assert_eq!(ParseError::from_number(23), ParseError::Other(23));
    assert_eq!((ParseError::UnknownAnswer.number(), ParseError::from_number(0)), (0, ParseError::UnknownAnswer));
    assert!(!ParseError::UnknownAnswer.to_string().contains("(check "));
}

#[test]
fn root_tiles_are_counted() {
    // tools/openvdb/make_clouds.cc puts two into "slab", one of them active, and one into the second "zeta".
    let file = read("several.vdb");
    let reader = VdbReader::new(&file).unwrap();
    let counts = [0, 1, 2, 3, 4, 5].map(|n| reader.read_grid_numbered(n).unwrap().root_tile_count());
    assert_eq!(counts, [0, 0, 0, 2, 1, 0]);
}

#[test]
fn leaves_are_refused_without_a_change() {
    let file = case_a();
    let grid = VdbReader::new(&file).unwrap().read_grid("d").unwrap();
    for (leaf, slots) in [(1, 512), (u64::MAX, 512), (0, 511), (0, 513), (0, 0)] {
        let mut values = vec![7; slots];
        assert_eq!(grid.fill_leaf(leaf, &mut values), Err(ParseError::NoSuchLeaf));
        assert!(values.iter().all(|value| *value == 7));
    }
    let mut values = [7; 1024];
    assert_eq!(grid.fill_leaves(0, &mut values), Err(ParseError::NoSuchLeaf));
    assert_eq!(values, [7; 1024]);
    assert_eq!(grid.fill_leaves(1, &mut []), Ok(()));
}

#[test]
fn a_run_of_leaves_has_each_leaf() {
    let file = read("fog_active.vdb");
    let grid = VdbReader::new(&file).unwrap().read_grid("density").unwrap();
    let mut run = vec![0; 5 * 512];
    grid.fill_leaves(1, &mut run).unwrap();
    for (leaf, values) in run.chunks(512).enumerate() {
        let mut one = [0; 512];
        grid.fill_leaf(1 + leaf as u64, &mut one).unwrap();
        assert_eq!(values, one);
    }
}

/// A walk of the first record with one slot in each slice.
fn one_step(file: &[u8], place: &mut Place) -> Result<(Walked, Record), ParseError> {
    let (mut x, mut y, mut z, mut level, mut value) = ([9], [9], [9], [9], [9]);
    let answer = walk(file, place, &mut x, &mut y, &mut z, &mut level, &mut value);
    if answer.is_err() {
        assert_eq!((x, y, z, level, value), ([9], [9], [9], [9], [9]));
    }
    answer.map(|walked| (walked, (x[0], y[0], z[0], level[0], value[0])))
}

#[test]
fn a_kept_place_goes_on() {
    let file = read("fog_active.vdb");
    let grid = VdbReader::new(&file).unwrap().read_grid("density").unwrap();
    let expected = iterated(&grid);
    let mut kept = grid.place().to_bytes();
    for (i, record) in expected.iter().enumerate() {
        // The place goes through its words and its bytes between any two records.
        let words = Place::from_bytes(&kept).to_words();
        let mut place = Place::from_words(words);
        let (walked, found) = one_step(&file, &mut place).unwrap();
        assert_eq!((found, walked.left), (*record, (expected.len() - i - 1) as u64));
        kept = place.to_bytes();
    }
    let path = std::env::temp_dir().join(format!("wuraiko-place-{}", std::process::id()));
    std::fs::write(&path, kept).unwrap();
    let back = std::fs::read(&path).unwrap();
    std::fs::remove_file(&path).unwrap();
    let mut place = Place::from_bytes(back.as_slice().try_into().unwrap());
    let mut none = [0; 3];
    let (mut y, mut z) = (none, none);
    let answer = walk(&file, &mut place, &mut none, &mut y, &mut z, &mut [5; 3], &mut [5; 3]);
    assert_eq!(answer, Ok(Walked { filled: 0, left: 0 }));
}

#[test]
fn zero_slots_change_nothing() {
    let file = case_a();
    let grid = VdbReader::new(&file).unwrap().read_grid("d").unwrap();
    let mut place = grid.place();
    let (mut x, mut y, mut z, mut level) = ([9; 4], [9; 4], [9; 4], [9; 4]);
    let answer = grid.walk(&mut place, &mut x, &mut y, &mut z, &mut level, &mut []);
    assert_eq!(answer, Ok(Walked { filled: 0, left: 1 }));
    assert_eq!((x, y, z, level, place), ([9; 4], [9; 4], [9; 4], [9; 4], grid.place()));
    // The shortest of the slices counts; slots past the filled ones stay.
    let answer = grid.walk(&mut place, &mut x, &mut y, &mut z[..2], &mut level, &mut [0; 3]);
    assert_eq!(answer, Ok(Walked { filled: 1, left: 0 }));
    assert_eq!((x, y, z), ([-3847, 9, 9, 9], [249, 9, 9, 9], [4346, 9, 9, 9]));
}

#[test]
fn a_foreign_place_is_22() {
    let file = case_a();
    let fresh = VdbReader::new(&file).unwrap().read_grid("d").unwrap().place();
    let mut place = fresh;
    assert_eq!(one_step(&[], &mut place), Err(ParseError::ForeignPlace));
    assert_eq!(place, fresh);
    // Any words are safe: some records of these bytes, or 22.
    for word in 0..Place::WORDS {
        for content in [0, 1, 77, u64::from(u32::MAX), u64::MAX] {
            let mut words = fresh.to_words();
            words[word] = content;
            let answer = one_step(&file, &mut Place::from_words(words));
            assert!(matches!(answer, Ok((Walked { filled: 0 | 1, .. }, _)) | Err(ParseError::ForeignPlace)));
        }
    }
}

#[test]
fn names_of_entries_are_those_that_openvdb_has() {
    let file = read("several.vdb");
    let reader = VdbReader::new(&file).unwrap();
    let names: BTreeSet<_> = reader.header.meta_data.names().collect();
    let asked = common::repository().join("crates/questions/stdout");
    let lines = std::fs::read_to_string(asked).unwrap();
    let about = lines.split("load: ").find(|part| part.starts_with("\"several.vdb\"")).unwrap();
    // Each entry that is there was asked for, and one that is not, and the empty name.
    let expected: BTreeSet<_> = about
        .lines()
        .filter_map(|line| line.strip_prefix("entry: \"")?.split_once("\"?"))
        .filter(|(_, answer)| *answer != " refused 11")
        .map(|(name, _)| name.as_bytes())
        .collect();
    assert!(expected.len() > 5);
    assert_eq!(names, expected);
    for name in names {
        reader.header.meta_data.get(name).unwrap();
    }
}

#[test]
fn grids_come_in_the_order_of_the_file() {
    let file = read("several.vdb");
    let reader = VdbReader::new(&file).unwrap();
    let names: Vec<_> = reader.available_grids().collect();
    assert_eq!(names.len(), 6);
    for (n, name) in names.iter().enumerate() {
        assert_eq!(reader.grid_descriptor_numbered(n as u32).unwrap().name, *name);
        let (named, numbered) = (reader.read_grid(name).unwrap(), reader.read_grid_numbered(n as u32).unwrap());
        assert_eq!(named.place(), numbered.place());
    }
}

#[test]
fn the_names_of_vdb_rs_give_what_openvdb_wrote() {
    // tools/openvdb: version 224, flags 2, background 0, UniformScaleMap 0.5, and these entries.
    let file = read("fog_active.vdb");
    let reader = VdbReader::new(&file).unwrap();
    assert_eq!((reader.header.file_version, reader.header.grid_count), (224, 1));
    assert_eq!(reader.header.guid, b"c10ad000-0000-4000-8000-000000000001");
    let grid = reader.read_grid("density").unwrap();
    assert_eq!(grid.descriptor.grid_type, b"Tree_float_5_4_3");
    let flags = grid.descriptor.compression;
    assert!(flags.bits() == 2 && flags.contains(Compression::ACTIVE_MASK) && flags.contains(Compression::NONE));
    assert!(!flags.contains(Compression::ZIP) && !flags.contains(Compression::BLOSC));
    assert_eq!(grid.descriptor.mem_bytes(), Some(994232));
    assert_eq!(grid.descriptor.voxel_count(), Some(6294026));
    assert_eq!(grid.metadata("class"), Ok(MetadataValue::String(b"fog volume")));
    assert!(!grid.descriptor.meta_data.is_half_float());
    assert!(matches!(grid.transform, Map::UniformScaleMap { voxel_size: [0.5, 0.5, 0.5], inv_scale_sqr: [4.0, 4.0, 4.0], .. }));
    assert_eq!((grid.background(), grid.active_count(), grid.leaf_count()), (0.0, 529, 6));
    // The sphere that OpenVDB made.
    let sphere = read("levelset_active.vdb");
    let sphere = VdbReader::new(&sphere).unwrap().grid_descriptor_numbered(0).unwrap();
    assert_eq!((sphere.aabb_min(), sphere.aabb_max()), (Some([-71, 58, -28]), Some([-55, 74, -12])));
    let half = read("half_active.vdb");
    assert!(VdbReader::new(&half).unwrap().grid_descriptor_numbered(0).unwrap().meta_data.is_half_float());
    // A has no such entries.
    let a = case_a();
    assert_eq!(VdbReader::new(&a).unwrap().grid_descriptor("d").unwrap().voxel_count(), None);
}

#[test]
fn the_width_is_that_of_the_entry_or_else_of_the_type() {
    let expected = openvdb().into_iter().find(|(name, ..)| name == "half_active.vdb").unwrap().2;
    for (what, file, width) in half_entries() {
        let reader = VdbReader::new(&file).unwrap();
        let descriptor = reader.grid_descriptor_numbered(0).unwrap();
        assert_eq!((descriptor.grid_type, descriptor.value_width), (b"Tree_float_5_4_3_HalfFloat".as_slice(), width), "{what}");
        assert_eq!(descriptor.meta_data.is_half_float(), what == "the entry");
        if width == 2 {
            let answer = described(&reader.read_grid_numbered(0).unwrap());
            assert_eq!(answer, expected[..answer.len()], "{what}");
        }
    }
    let a = case_a();
    assert_eq!(VdbReader::new(&a).unwrap().grid_descriptor("d").unwrap().value_width, 4);
}

#[test]
fn an_iterator_knows_how_many_are_left() {
    let file = read("fog_active.vdb");
    let grid = VdbReader::new(&file).unwrap().read_grid("density").unwrap();
    let mut iter = grid.iter();
    for left in (0..529).rev() {
        iter.next().unwrap();
        assert_eq!(iter.size_hint(), (left, Some(left)));
    }
    assert_eq!((iter.next(), iter.next()), (None, None));
}

#[test]
fn what_is_shown_for_debugging_is_no_file() {
    let file = read("fog_active.vdb");
    let reader = VdbReader::new(&file).unwrap();
    let grid = reader.read_grid("density").unwrap();
    let (reader, grid, descriptor) = (format!("{reader:?}"), format!("{grid:?}"), format!("{:?}", grid.descriptor));
    assert!(reader.contains("file_version: 224") && reader.len() < 1000);
    assert!(grid.contains("name: \"density\"") && grid.contains("active_count: 529") && grid.len() < 1000);
    assert!(descriptor.contains("\"file_voxel_count\": Ok(I64(6294026))"));
}

#[test]
fn a_long_list_comes_in_portions() {
    let (file, expected) = many_tiles();
    let grid = VdbReader::new(&file).unwrap().read_grid("d").unwrap();
    assert_eq!(listing(&iterated(&grid)), expected);
    assert_eq!(listing(&walked(&file, &grid, 1000)), expected);
}

#[test]
fn names_behind_a_wrong_length_are_found() {
    // Of these kinds the length field is ignored.
    let kinds = [("bool", 1), ("int32", 4), ("float", 4), ("int64", 8), ("vec3i", 12)];
    let mut file = case_a()[..57].to_vec();
    file.extend(5u32.to_le_bytes());
    for (kind, size) in kinds {
        let len = kind.len() as u32;
        file.extend(
            [&len.to_le_bytes()[..], kind.as_bytes(), &len.to_le_bytes(), kind.as_bytes(), &[77, 0, 0, 0], &vec![1; size]].concat(),
        );
    }
    file.extend(0u32.to_le_bytes());
    let metadata = VdbReader::new(&file).unwrap().header.meta_data;
    assert_eq!(metadata.names().collect::<Vec<_>>(), kinds.map(|(kind, _)| kind.as_bytes()));
    assert_eq!(metadata.get("vec3i"), Ok(MetadataValue::Vec3i([0x01010101; 3])));
}
