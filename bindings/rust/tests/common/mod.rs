//! The files of the tests.
#![allow(dead_code)]

pub mod json;

use std::fs;
use std::path::{Path, PathBuf};

pub fn repository() -> PathBuf {
    Path::new(env!("CARGO_MANIFEST_DIR")).join("../..")
}

pub fn cloud(name: &str) -> PathBuf {
    repository().join("crates/questions/data").join(name)
}

pub fn read(name: &str) -> Vec<u8> {
    fs::read(cloud(name)).unwrap()
}

/// Case A of document 01, section 9.
pub fn case_a() -> Vec<u8> {
    fs::read(repository().join("crates/listing/stdin")).unwrap()
}

/// A line of openvdb.txt: the file, the grid's number if it has one, and what OpenVDB says.
pub fn openvdb() -> Vec<(String, Option<u32>, String)> {
    let lines = fs::read_to_string(Path::new(env!("CARGO_MANIFEST_DIR")).join("tests/openvdb.txt")).unwrap();
    let parse = |line: &str| {
        let (file, rest) = line.split_once(' ').unwrap();
        let (first, behind) = rest.split_once(' ').unwrap();
        match first.parse() {
            Ok(number) => (file.to_string(), Some(number), behind.to_string()),
            Err(_) => (file.to_string(), None, rest.to_string()),
        }
    };
    lines.lines().map(parse).collect()
}

/// FNV-1a of 64 bits, as openvdb.py has it.
pub fn digest(text: &str) -> u64 {
    text.bytes().fold(0xcbf29ce484222325, |d, byte| (d ^ u64::from(byte)).wrapping_mul(0x100000001b3))
}

/// A file with bytes put in place of those at a position.
fn put(mut file: Vec<u8>, at: usize, bytes: &[u8]) -> Vec<u8> {
    file[at..at + bytes.len()].copy_from_slice(bytes);
    file
}

/// Case A so changed.
pub fn a_with(at: usize, bytes: &[u8]) -> Vec<u8> {
    put(case_a(), at, bytes)
}

/// Case A with these flags, and numbers before its runs: the empty ones of its 5-node and its 4-node, and its value. Stored raw are the runs of A with
/// 0, 0 and -4 (document 02, N3).
pub fn a_numbered(flags: u32, numbers: [i64; 3]) -> Vec<u8> {
    let mut file = a_with(118, &flags.to_le_bytes());
    for (at, number) in [8479, 9504, 9633].into_iter().zip(numbers).rev() {
        file.splice(at..at, number.to_le_bytes());
    }
    for (at, position) in [(102, 9584), (110, 9661u64)] {
        file[at..at + 8].copy_from_slice(&position.to_le_bytes());
    }
    file
}

/// `half_active.vdb`, whose type ends in `_HalfFloat` and whose half entry is true, and the same with another entry in its place; with each how wide
/// values are then.
pub fn half_entries() -> Vec<(&'static str, Vec<u8>, u32)> {
    let file = read("half_active.vdb");
    let name = b"is_saved_as_half_float";
    let at = file.windows(22).position(|bytes| bytes == name).unwrap();
    vec![
        ("another name", put(file.clone(), at + 21, b"T"), 2),
        ("another kind", put(file.clone(), at + 26, b"boot"), 2),
        ("false", put(file.clone(), at + 34, b"\0"), 4),
        ("the entry", file, 2),
    ]
}

/// The examples of document 01's table in section 8 that are files, by the number of their check; 1, 11, 21 and 22 are no files of A's size. 25 is that
/// of document 02, N3.
pub fn refused_files() -> Vec<(u32, Vec<u8>)> {
    let word = |at, n: u32| a_with(at, &n.to_le_bytes());
    // Twice "d": a second descriptor at the end of the first.
    let mut twice = word(61, 2);
    let mut second = twice[65..118].to_vec();
    second[45..53].copy_from_slice(&9690u64.to_le_bytes());
    twice.extend_from_slice(&second);
    // The parent "q": one byte more before the positions, all three of which move.
    let mut parent = word(90, 1);
    for (at, position) in [(94, 119), (102, 9569), (110, 9638u64)] {
        parent[at..at + 8].copy_from_slice(&position.to_le_bytes());
    }
    parent.insert(94, b'q');
    // AffineMap: one byte more behind the positions; the last two move.
    let mut affine = word(126, 9);
    for (at, position) in [(102, 9569), (110, 9638u64)] {
        affine[at..at + 8].copy_from_slice(&position.to_le_bytes());
    }
    affine.splice(130..138, *b"AffineMap");
    let both = case_a()[4382 + 132] | 2;
    vec![
        (2, case_a()[..64].to_vec()),
        (3, a_with(0, &[0x21])),
        (4, word(8, 219)),
        (5, a_with(20, &[0])),
        (6, word(118, 3)),
        (7, word(118, 8)),
        (8, word(61, 65)),
        (9, a_with(110, &9638u64.to_le_bytes())),
        (10, twice),
        (12, a_with(74, b"Tree_int32_5_4_3")),
        (13, parent),
        (14, affine),
        (15, word(258, 2)),
        (16, word(270, 257)),
        (17, a_with(274, &[1, 0, 0, 0, 0, 0, 0, 0, 0, 0, 0, 0])),
        (18, a_with(4382 + 132, &[both])),
        (19, a_with(8478, &[7])),
        (20, a_with(9568, &[0; 64])),
        (25, word(118, 1)),
    ]
}

/// Case A with an active tile at each place of its 5-node but 1057, where the child is, and its listing by document 01, sections 4, 5 and 7: with flags 2
/// and node byte 0 the values of the tiles follow the byte, lowest place first; here the value of place p is the pattern p.
pub fn many_tiles() -> (Vec<u8>, String) {
    let places = (0..32768).filter(|p| *p != 1057);
    let mut file = case_a();
    for p in places.clone() {
        file[4382 + p / 8] |= 1 << (p % 8);
    }
    let values: Vec<u8> = places.clone().flat_map(|p| (p as u32).to_le_bytes()).collect();
    file.splice(8479..8479, values.iter().copied());
    for (at, position) in [(102, 9568), (110, 9637)] {
        file[at..at + 8].copy_from_slice(&(position + values.len() as u64).to_le_bytes());
    }
    let mut listing = "records 32768\n-3847 249 4346 0 3f800000\n".to_string();
    for p in places {
        let [x, y, z] = [p / 1024, p / 32 % 32, p % 32].map(|n| 128 * n as i32);
        listing += &format!("{} {y} {} 2 {p:08x}\n", x - 4096, z + 4096);
    }
    (file, listing)
}
