//! Finds the reader's static library, libvdb.a, and tests that it is for the target and has the layout of this crate.

use std::env;
use std::fs;
use std::path::{Path, PathBuf};
use std::process::{exit, Command};

/// Why the library is not for a target of this architecture, system and pointer width, as cargo names them; none if it is.
pub fn unfit(architecture: &str, system: &str, width: &str) -> Option<String> {
    // The third is not 64 where x86-64 is used with short pointers.
    if (architecture, system, width) == ("x86_64", "linux", "64") {
        return None;
    }
    Some(format!(
        "libvdb.a is for x86-64 Linux alone, and the target is {architecture} {system} with pointers of {width} bits.\n\
         Build with `--target x86_64-unknown-linux-gnu`; a machine with another processor runs such programs under an emulator only."
    ))
}

/// The layout that the crate is written for, by its own text.
pub fn expected() -> &'static str {
    let text = include_str!("src/sys.rs");
    let number = text.split_once("pub const LAYOUT: u32 = ").and_then(|(_, rest)| rest.split_once(';'));
    number.expect("src/sys.rs has the layout").0
}

/// The layout of the library in a folder, by a program that is linked with it and asks. None where such a program cannot be built or run, as when the
/// target is not this machine; each call asks again.
pub fn layout(folder: &Path, work: &Path) -> Option<String> {
    let (source, program) = (work.join("layout.rs"), work.join("layout"));
    let text = "extern \"C\" { fn vdb_layout() -> u32; }\nfn main() { println!(\"{}\", unsafe { vdb_layout() }); }\n";
    fs::write(&source, text).ok()?;
    let compiler = env::var_os("RUSTC").unwrap_or_else(|| "rustc".into());
    let mut build = Command::new(compiler);
    build.arg("--edition=2021").arg("-L").arg(folder).arg("-lstatic=vdb").arg("-o").arg(&program).arg(&source);
    build.output().ok().filter(|built| built.status.success())?;
    let said = Command::new(&program).output().ok().filter(|said| said.status.success())?;
    Some(String::from_utf8_lossy(&said.stdout).trim().to_string())
}

fn main() {
    println!("cargo:rerun-if-env-changed=WURAIKO_LIB_DIR");
    let [architecture, system, width] =
        ["ARCH", "OS", "POINTER_WIDTH"].map(|what| env::var(format!("CARGO_CFG_TARGET_{what}")).expect("cargo sets it"));
    // Without this test the linker would pass the library over, or say something about its format.
    if let Some(why) = unfit(&architecture, &system, &width) {
        eprintln!("{why}");
        exit(1);
    }
    let here = PathBuf::from(env::var_os("CARGO_MANIFEST_DIR").expect("cargo sets CARGO_MANIFEST_DIR"));
    let default = || here.join("../../target/staticlib");
    let folder = env::var_os("WURAIKO_LIB_DIR").map_or_else(default, PathBuf::from);
    let archive = folder.join("libvdb.a");
    println!("cargo:rerun-if-changed={}", archive.display());
    // A folder that is given from the directory of the call would be searched by the linker from another one.
    let Ok(folder) = folder.canonicalize().and_then(|f| f.join("libvdb.a").metadata().map(|_| f)) else {
        eprintln!("there is no {}", archive.display());
        eprintln!("Build it with packaging/library in the repository of the reader, which writes target/staticlib/libvdb.a,");
        eprintln!("or set WURAIKO_LIB_DIR to the folder that holds libvdb.a.");
        exit(1);
    };
    let work = PathBuf::from(env::var_os("OUT_DIR").expect("cargo sets OUT_DIR"));
    if let Some(found) = layout(&folder, &work).filter(|found| found != expected()) {
        eprintln!("{} has the layout {found}, and this crate is written for {}.", archive.display(), expected());
        eprintln!("Build both from one state of the reader's repository.");
        exit(1);
    }
    println!("cargo:rustc-link-search=native={}", folder.display());
    println!("cargo:rustc-link-lib=static=vdb");
}
