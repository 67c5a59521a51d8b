//! The targets that the build takes.

/// The build script itself, whose `main` only cargo runs.
#[allow(dead_code)]
#[path = "../build.rs"]
mod build;

#[test]
fn the_library_is_for_x86_64_linux_alone() {
    assert_eq!(build::unfit("x86_64", "linux", "64"), None);
    for (architecture, system, width) in [
        ("aarch64", "linux", "64"),
        ("arm", "linux", "32"),
        ("x86", "linux", "32"),
        ("x86_64", "linux", "32"),
        ("x86_64", "windows", "64"),
        ("x86_64", "macos", "64"),
        ("wasm32", "unknown", "32"),
    ] {
        let why = build::unfit(architecture, system, width).unwrap();
        assert!(why.contains("x86-64 Linux") && why.contains(architecture) && why.contains(system), "{why}");
    }
}
