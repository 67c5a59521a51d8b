//! What `src/sys.rs` declares must be what `include/vdb.h` declares: the calls are sound only then.

mod common;

use std::collections::BTreeMap;
use std::fs;

/// C without comments.
fn header() -> String {
    let mut text = fs::read_to_string(common::repository().join("include/vdb.h")).unwrap();
    while let Some(start) = text.find("/*") {
        let end = start + text[start..].find("*/").unwrap() + 2;
        text.replace_range(start..end, "");
    }
    text
}

fn sys() -> String {
    fs::read_to_string(concat!(env!("CARGO_MANIFEST_DIR"), "/src/sys.rs")).unwrap()
}

/// The constants of the enums, by name; a value is a number, or a name and a number.
fn constants(header: &str) -> BTreeMap<String, usize> {
    let mut found = BTreeMap::new();
    for part in header.split("enum {").skip(1) {
        let mut next = 0;
        for item in part.split('}').next().unwrap().split(',').map(str::trim).filter(|item| !item.is_empty()) {
            let (name, value) = item.split_once('=').map_or((item, None), |(name, value)| (name.trim(), Some(value)));
            if let Some(value) = value {
                next = value.split('+').map(|word| word.trim().parse().unwrap_or_else(|_| found[word.trim()])).sum();
            }
            found.insert(name.to_string(), next);
            next += 1;
        }
    }
    found
}

/// The Rust type of a C parameter.
fn rust_type(parameter: &str) -> String {
    let pointer = parameter.contains('*') || parameter.contains('[');
    let constant = parameter.contains("const ");
    let base = match parameter.replace("const ", "").split([' ', '*']).next().unwrap() {
        "size_t" => "usize",
        "uint8_t" => "u8",
        "uint32_t" => "u32",
        "uint64_t" => "u64",
        "int32_t" => "i32",
        other => panic!("{other}"),
    };
    match (pointer, constant) {
        (false, _) => base.to_string(),
        (true, true) => format!("*const {base}"),
        (true, false) => format!("*mut {base}"),
    }
}

/// The functions with the types of their parameters.
fn declared(header: &str) -> BTreeMap<String, Vec<String>> {
    let declarations = header.split("uint32_t vdb_").skip(1).map(|part| part.split_once(')').unwrap().0);
    declarations
        .map(|part| {
            let (name, parameters) = part.split_once('(').unwrap();
            let parameters = parameters.split(',').map(str::trim).filter(|&parameter| parameter != "void");
            (format!("vdb_{name}"), parameters.map(rust_type).collect())
        })
        .collect()
}

#[test]
fn the_functions_are_those_of_the_header() {
    let declared = declared(&header());
    let sys = sys();
    let mut compared = 0;
    for part in sys.split("pub fn vdb_").skip(1) {
        let (name, rest) = part.split_once('(').unwrap();
        let (parameters, behind) = rest.split_once(')').unwrap();
        let types: Vec<_> = parameters.split(',').filter_map(|parameter| Some(parameter.split_once(':')?.1.trim().to_string())).collect();
        assert_eq!(types, declared[&format!("vdb_{name}")], "vdb_{name}");
        assert!(behind.starts_with(" -> u32;"), "vdb_{name}");
        compared += 1;
    }
    assert_eq!(compared, sys.matches("c::vdb_").count());
}

#[test]
fn the_words_are_those_of_the_header() {
    let constants = constants(&header());
    let sys = sys();
    for name in ["FILE_WORDS", "GRID_WORDS", "ENTRY_WORDS", "OPENED_WORDS", "PLACE_WORDS", "WALK_COUNTS"] {
        let line = format!("pub const {name}: usize = {};", constants[&format!("VDB_{name}")]);
        assert!(sys.contains(&line), "{line}");
    }
    assert!(sys.contains(&format!("pub const LAYOUT: u32 = {};", constants["VDB_LAYOUT"])));
    assert!(sys.contains("pub const DOUBLES: usize = OPENED_WORDS - 6;") && constants["VDB_OPENED_DOUBLES"] == 6);
    assert_eq!((constants["VDB_SCALE"], constants["VDB_SCALE_TRANSLATE"]), (15, 18));
    // The crate takes the words apart by their order, and the kinds by their numbers.
    let opened = ["BACKGROUND", "ACTIVE_COUNT", "LEAF_COUNT", "ROOT_TILES", "MAP", "DOUBLES_AT", "DOUBLES"];
    assert_eq!(opened.map(|name| constants[&format!("VDB_OPENED_{name}")]), [0, 1, 2, 3, 4, 5, 6]);
    let kinds = ["STRING", "BOOL", "INT32", "INT64", "FLOAT", "VEC3I", "OTHER"];
    assert_eq!(kinds.map(|name| constants[&format!("VDB_{name}")]), [0, 1, 2, 3, 4, 5, 6]);
}
