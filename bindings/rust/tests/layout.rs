//! A library with another layout is noticed when it is linked, and lent nothing by a program that was linked with it all the same.

/// The build script itself, whose `main` only cargo runs.
#[allow(dead_code)]
#[path = "../build.rs"]
mod build;

use std::env;
use std::fs;
use std::path::{Path, PathBuf};
use std::process::Command;

/// The functions of the header: `vdb_layout` says another number, and each other one ends the program.
fn stand_in() -> String {
    let header = fs::read_to_string(concat!(env!("CARGO_MANIFEST_DIR"), "/../../include/vdb.h")).unwrap();
    let names = header.split("\nuint32_t vdb_").skip(1).map(|part| part.split_once('(').unwrap().0);
    let others = names.filter(|&name| name != "layout");
    let functions: String = others.map(|name| format!("unsigned vdb_{name}() {{ abort(); }}\n")).collect();
    assert!(functions.contains("vdb_open_file") && functions.contains("vdb_walk"));
    format!("void abort(void);\nunsigned vdb_layout(void) {{ return {}; }}\n{functions}", build::expected().parse::<u32>().unwrap() + 1)
}

/// Calls everything that leads into the library, and ends well if each is refused for the layout.
const PROGRAM: &str = "
use wuraiko::{walk, ParseError, Place, VdbReader};

fn main() {
    assert_eq!(VdbReader::new(&[0; 64]).err(), Some(ParseError::OtherLayout));
    let mut place = Place::from_words([0; Place::WORDS]);
    let walked = walk(&[0; 64], &mut place, &mut [0], &mut [0], &mut [0], &mut [0], &mut [0]);
    assert_eq!(walked, Err(ParseError::OtherLayout));
    assert_eq!(place, Place::from_words([0; Place::WORDS]));
}
";

fn run(command: &mut Command) -> String {
    let done = command.output().unwrap();
    let text = String::from_utf8_lossy(&done.stderr).into_owned();
    assert!(done.status.success(), "{command:?}\n{text}");
    text
}

fn compiler() -> Command {
    Command::new(env::var_os("RUSTC").unwrap_or_else(|| "rustc".into()))
}

/// A folder with the stand-in as libvdb.a.
fn folder() -> PathBuf {
    let folder = Path::new(env!("CARGO_TARGET_TMPDIR")).join("layout");
    fs::create_dir_all(&folder).unwrap();
    fs::write(folder.join("standin.c"), stand_in()).unwrap();
    run(Command::new("cc").current_dir(&folder).args(["-w", "-c", "standin.c"]));
    run(Command::new("ar").current_dir(&folder).args(["rcs", "libvdb.a", "standin.o"]));
    folder
}

#[test]
fn a_library_of_another_layout_is_lent_nothing() {
    let folder = folder();
    // The build script: told apart before anything is built.
    let found = build::layout(&folder, &folder).unwrap();
    assert_ne!(found, build::expected());
    let mut cargo = Command::new(env!("CARGO"));
    cargo.current_dir(env!("CARGO_MANIFEST_DIR")).args(["build", "--offline", "--target-dir"]).arg(folder.join("target"));
    let built = cargo.env("WURAIKO_LIB_DIR", &folder).output().unwrap();
    let text = String::from_utf8_lossy(&built.stderr);
    assert!(!built.status.success() && text.contains(&format!("has the layout {found}, and this crate is written for")), "{text}");
    // The crate linked without the build script.
    let lib = concat!(env!("CARGO_MANIFEST_DIR"), "/src/lib.rs");
    run(compiler().current_dir(&folder).args(["--edition=2021", "--crate-name=wuraiko", "--crate-type=rlib", lib]));
    fs::write(folder.join("program.rs"), PROGRAM).unwrap();
    let linked = ["--edition=2021", "program.rs", "--extern", "wuraiko=libwuraiko.rlib", "-L", ".", "-lstatic=vdb"];
    run(compiler().current_dir(&folder).args(linked));
    run(&mut Command::new(folder.join("program")));
}

#[test]
fn the_library_that_is_linked_has_the_layout() {
    let folder = env::var_os("WURAIKO_LIB_DIR").map_or_else(|| Path::new("../../target/staticlib").to_path_buf(), PathBuf::from);
    let work = Path::new(env!("CARGO_TARGET_TMPDIR")).join("linked");
    fs::create_dir_all(&work).unwrap();
    assert_eq!(build::layout(&folder, &work).as_deref(), Some(build::expected()));
}
