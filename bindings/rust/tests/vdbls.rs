//! The program, from its command line.

mod common;

use common::json::{self, Schema, Value};
use common::{a_numbered, a_with, case_a, cloud, digest, half_entries, many_tiles, openvdb, read, refused_files, repository};
use std::ffi::OsStr;
use std::fs;
use std::io::Write;
use std::path::PathBuf;
use std::process::{Command, Output, Stdio};

fn program() -> Command {
    Command::new(env!("CARGO_BIN_EXE_vdbls"))
}

fn run<A: AsRef<OsStr>>(arguments: &[A]) -> Output {
    program().args(arguments).output().unwrap()
}

fn out(output: &Output) -> String {
    String::from_utf8(output.stdout.clone()).unwrap()
}

fn err(output: &Output) -> String {
    String::from_utf8(output.stderr.clone()).unwrap()
}

/// A file for a test, which goes when the test ends.
struct Kept(PathBuf);

impl Kept {
    fn new(name: &str, bytes: &[u8]) -> Self {
        let path = std::env::temp_dir().join(format!("vdbls-{}-{name}.vdb", std::process::id()));
        fs::write(&path, bytes).unwrap();
        Self(path)
    }
}

impl Drop for Kept {
    fn drop(&mut self) {
        let _ = fs::remove_file(&self.0);
    }
}

/// The output for these arguments, and a cloud.
fn of(arguments: &[&str], name: &str) -> Output {
    program().args(arguments).arg(cloud(name)).output().unwrap()
}

/// What is written with this on standard input.
fn fed(arguments: &[&str], bytes: &[u8]) -> Output {
    let mut command = program();
    command.args(arguments).stdin(Stdio::piped()).stdout(Stdio::piped()).stderr(Stdio::piped());
    let mut child = command.spawn().unwrap();
    child.stdin.take().unwrap().write_all(bytes).unwrap();
    child.wait_with_output().unwrap()
}

fn schema() -> Schema {
    Schema::new(&out(&run(&["--help"])))
}

#[test]
fn records_of_case_a_are_those_of_the_listing() {
    let path = repository().join("crates/listing/stdin");
    let output = run(&["--hex", "--records", "d", path.to_str().unwrap()]);
    assert_eq!(output.stdout, fs::read(repository().join("crates/listing/stdout")).unwrap());
    assert_eq!((output.status.code(), err(&output).as_str()), (Some(0), ""));
    // 3f800000 is 1.
    assert_eq!(out(&run(&["--records", "d", path.to_str().unwrap()])), "records 1\n-3847 249 4346 0 1.0\n");
}

#[test]
fn decimals_are_the_floats_of_the_bits() {
    for name in ["levelset_active.vdb", "half_active.vdb", "edge.vdb"] {
        let (decimals, bits) = (out(&of(&["--records", "0"], name)), out(&of(&["--records", "0", "--hex"], name)));
        assert_eq!(decimals.lines().count(), bits.lines().count());
        for (decimal, bits) in decimals.lines().zip(bits.lines()).skip(1) {
            let ((place, value), (expected, pattern)) = (decimal.rsplit_once(' ').unwrap(), bits.rsplit_once(' ').unwrap());
            assert_eq!(place, expected);
            let expected = f32::from_bits(u32::from_str_radix(pattern, 16).unwrap());
            // Of a NaN only the bits tell which one it is.
            if expected.is_nan() {
                assert_eq!(value, "NaN");
            } else {
                assert_eq!(value.parse::<f32>().unwrap().to_bits(), expected.to_bits(), "{name}");
            }
        }
    }
    // Case A with a background of 2.5, and what is no number.
    for (pattern, text, in_json) in [(0x40200000u32, "2.5", "2.5"), (0x7f800000, "inf", "\"inf\""), (0x7fc00001, "NaN", "\"NaN\"")] {
        let file = Kept::new(&format!("background-{pattern:x}"), &a_with(262, &pattern.to_le_bytes()));
        assert_eq!(field(&out(&run(&[&file.0])), "background"), text);
        assert_eq!(field(&out(&program().arg("--hex").arg(&file.0).output().unwrap()), "background"), format!("{pattern:08x}"));
        assert!(out(&program().arg("--json").arg(&file.0).output().unwrap()).contains(&format!("\"background\": {in_json},")));
    }
}

#[test]
fn halves_are_said_by_the_entry_or_else_by_the_type() {
    for (what, bytes, width) in half_entries() {
        let file = Kept::new(&what.replace(' ', "-"), &bytes);
        let stored = if width == 2 { "active values as halves, unpacked (flags 2)" } else { "active values, unpacked (flags 2)" };
        assert_eq!(field(&out(&run(&[&file.0])), "stored"), stored, "{what}");
        let as_json = out(&program().arg("--json").arg(&file.0).output().unwrap());
        assert!(as_json.contains(&format!("\"half\": {},", width == 2)), "{what}");
    }
}

#[test]
fn records_are_those_of_openvdb() {
    for (name, number, expected) in openvdb() {
        let (path, number) = (cloud(&name), number.unwrap_or(0).to_string());
        let output = run(&[OsStr::new("--hex"), OsStr::new("--records"), OsStr::new(&number), path.as_os_str()]);
        if let Some(refused) = expected.strip_prefix("refused ") {
            assert_eq!((output.status.code(), out(&output).as_str()), (Some(1), ""), "{name} {number}");
            assert!(err(&output).contains(&format!(": refused {refused}: ")), "{name} {number}");
        } else if expected == "grids 0" {
            assert_eq!(output.status.code(), Some(1));
            assert!(err(&output).contains(": refused 11: "));
        } else {
            let text = out(&output);
            let words: Vec<_> = expected.split(' ').collect();
            assert_eq!(text.lines().next(), Some(format!("records {}", words[3]).as_str()));
            assert_eq!(format!("{:016x}", digest(&text)), words[4], "{name} {number}");
            assert_eq!(output.status.code(), Some(0));
        }
    }
}

#[test]
fn records_as_json_are_the_same() {
    let text = out(&of(&["--hex", "--records", "0"], "levelset_active.vdb"));
    let as_json = out(&of(&["--json", "--hex", "--records", "0"], "levelset_active.vdb"));
    assert_eq!(json::one(&as_json).get("grid"), &Value::Text("surface".into()));
    let rows = as_json.lines().filter_map(|line| line.strip_prefix('[')?.split_once(']'));
    let plain: Vec<_> = rows.map(|(row, _)| row.replace([',', '"'], "")).collect();
    assert_eq!(plain, text.lines().skip(1).collect::<Vec<_>>());
}

/// The part of a text about each grid.
fn grids(text: &str) -> Vec<&str> {
    text.split("\ngrid ").skip(1).collect()
}

/// The words behind a label at a line's start.
fn field<'a>(part: &'a str, label: &str) -> &'a str {
    let prefix = format!("  {label} ");
    part.lines().find_map(|line| line.strip_prefix(prefix.as_str())).unwrap().trim()
}

#[test]
fn what_is_shown_of_a_grid_is_what_openvdb_says() {
    for (name, number, expected) in openvdb() {
        let output = run(&[cloud(&name)]);
        let as_json = run(&[OsStr::new("--json"), cloud(&name).as_os_str()]);
        assert_eq!(output.status.code(), as_json.status.code());
        let Some(number) = number else { continue };
        let (text, as_json) = (out(&output), out(&as_json));
        let grid = json::one(&as_json).get("grids").items()[number as usize].clone();
        let part = grids(&text)[number as usize];
        if let Some(refused) = expected.strip_prefix("refused ") {
            assert!(field(part, "refused").starts_with(&format!("{refused}: ")));
            assert_eq!(grid.get("refused").word(), refused);
            continue;
        }
        let words: Vec<_> = expected.split(' ').collect();
        assert_eq!(field(part, "leaves").replace(',', ""), words[1]);
        assert_eq!(field(part, "records").split(':').next().unwrap().replace(',', ""), words[3]);
        assert_eq!((grid.get("records").word(), grid.get("leaves").word()), (words[3], words[1]));
        let corners = words[6..].join(" ");
        assert_eq!(field(part, "box").replace("to ", ""), corners, "{name} {number}");
        let numbers = match grid.get("box") {
            Value::Word(null) => null.replace("null", "empty"),
            corners => corners.items().iter().flat_map(Value::items).map(Value::word).collect::<Vec<_>>().join(" "),
        };
        assert_eq!(numbers, corners, "{name} {number}");
    }
}

#[test]
fn metadata_are_listed_with_kind_and_value() {
    // What tools/openvdb/make_clouds.cc writes into this file.
    let text = out(&run(&[cloud("several.vdb")]));
    for line in [
        "    \"a string\"         string  \"haze été\"",
        "    \"bool yes\"         bool    true",
        "    \"curve\"            \"curve\"  5 bytes: deadbeef00",
        "    \"float\"            float   2.1",
        "    \"int32 least\"      int32   -2147483648",
        "    \"int64 most\"       int64   9223372036854775807",
        "    \"vec3i\"            vec3i   -1 2 2147483647",
    ] {
        assert!(text.lines().any(|found| found == line), "{line}");
    }
    assert!(out(&of(&["--hex"], "several.vdb")).contains("\n    \"float\"            float   40066666\n"));
    // A byte 1e in a name reaches no terminal.
    assert!(text.contains("grid 0: \"zeta\\u{1e}0\"\n") && !text.contains('\u{1e}'));
    let as_json = out(&run(&[OsStr::new("--json"), cloud("several.vdb").as_os_str()]));
    assert!(as_json.contains("{\"name\": \"a string\", \"kind\": \"string\", \"value\": \"haze \\u00e9t\\u00e9\"}"));
}

#[test]
fn each_refusal_has_its_number_and_status_1() {
    for (number, bytes) in refused_files() {
        let file = Kept::new(&format!("refused-{number}"), &bytes);
        let output = run(&[&file.0]);
        assert_eq!(output.status.code(), Some(1), "check {number}");
        // 6, 12 to 20 and 25 are checks of a grid, which are told in its place; the others are told of the file.
        if number == 6 || number >= 12 {
            assert!(field(&out(&output), "refused").starts_with(&format!("{number}: ")), "check {number}");
            assert!(!err(&output).contains(": refused "), "check {number}");
        } else {
            assert!(err(&output).contains(&format!(": refused {number}: ")) && out(&output).is_empty(), "check {number}");
        }
        for options in [&["--json"][..], &["--json", "--brief"], &["--json", "--records", "d"]] {
            let as_json = program().args(options).arg(&file.0).output().unwrap();
            assert_eq!((as_json.status.code(), err(&as_json).as_str()), (Some(1), ""), "check {number}");
            assert_eq!(out(&as_json).matches(&format!("\"refused\": {number}, \"why\": ")).count(), 1, "check {number}");
        }
    }
    let file = Kept::new("empty", b"");
    assert!(err(&run(&[&file.0])).contains(": refused 2: ") && err(&run(&[&file.0])).contains("cut short"));
}

#[test]
fn a_file_that_is_too_long_is_1() {
    let file = Kept::new("long", &case_a());
    // A hole: no disk is taken.
    fs::OpenOptions::new().write(true).open(&file.0).unwrap().set_len(2_147_483_648).unwrap();
    let output = run(&[&file.0]);
    assert_eq!(output.status.code(), Some(1));
    assert!(err(&output).contains(": refused 1: "));
}

#[test]
fn a_packed_file_comes_with_a_way_to_convert_it() {
    let output = run(&[cloud("refused.vdb")]);
    assert_eq!(output.status.code(), Some(1));
    let said = err(&output);
    assert_eq!(said.matches("vdb_tool -read '").count(), 1);
    assert!(said.contains("-write codec=active "));
    assert_eq!(grids(&out(&output)).len(), 10);
}

#[test]
fn a_grid_flagged_for_packing_is_listed_where_its_values_are_raw() {
    let a = out(&fed(&["-"], &case_a()));
    for (flags, with) in [(3, "ZIP"), (6, "Blosc"), (7, "ZIP and Blosc")] {
        let bytes = a_numbered(flags, [0, 0, -4]);
        let output = fed(&["-"], &bytes);
        assert_eq!((output.status.code(), err(&output).as_str()), (Some(0), ""));
        let stored = format!("active values, unpacked, though flagged for {with} (flags {flags})");
        assert_eq!(field(&out(&output), "stored"), stored);
        // Apart from that, and from the file's length, it is listed as A is.
        let expected = a.replacen("9,637 bytes", "9,661 bytes", 1).replacen("active values, unpacked (flags 2)", &stored, 1);
        assert_eq!(out(&output), expected);
        assert_eq!(out(&fed(&["--records", "d", "-"], &bytes)), "records 1\n-3847 249 4346 0 1.0\n");
        let grid = json::one(&out(&fed(&["--json", "-"], &bytes))).get("grids").items()[0].clone();
        assert_eq!(["flags", "records"].map(|key| grid.get(key).word().to_string()), [flags.to_string(), "1".into()]);
        assert!(out(&fed(&["--brief", "-"], &bytes)).ends_with(": \"d\" records 1, leaves 1\n"));
    }
    // A packed run, and one that is not as long as its number says. Only the first comes with a way to convert the file.
    for (numbers, refused, told) in [
        ([0, 0, 4], "6: a run of the grid's values is packed (ZIP or Blosc)", true),
        ([0, 0, -5], "25: the number before a run of values is not that of its bytes", false),
    ] {
        let output = fed(&["-"], &a_numbered(3, numbers));
        assert_eq!(output.status.code(), Some(1));
        assert_eq!(field(&out(&output), "refused"), refused);
        assert_eq!(field(&out(&output), "stored"), "active values, flagged for ZIP (flags 3)");
        assert_eq!(err(&output).contains("vdb_tool -read '"), told, "{refused}");
    }
}

#[test]
fn a_name_goes_before_a_number() {
    // Case A with the grid's name "7".
    let file = Kept::new("seven", &a_with(69, b"7"));
    let path = file.0.as_os_str();
    let named = run(&[OsStr::new("--records"), OsStr::new("7"), path]);
    let numbered = run(&[OsStr::new("--records"), OsStr::new("0"), path]);
    assert_eq!(out(&named), "records 1\n-3847 249 4346 0 1.0\n");
    assert_eq!(out(&named), out(&numbered));
    let absent = run(&[OsStr::new("--records"), OsStr::new("1"), path]);
    assert_eq!(absent.status.code(), Some(1));
    assert!(err(&absent).contains(": refused 11: "));
    let as_json = out(&run(&[OsStr::new("--json"), OsStr::new("--records"), OsStr::new("1"), path]));
    assert!(as_json.contains("\"grid\": \"1\", \"refused\": 11, "));
}

#[test]
fn the_range_of_the_values_is_that_of_the_records() {
    let text = out(&run(&[repository().join("crates/listing/stdin")]));
    assert_eq!(field(&text, "values"), "1.0 to 1.0");
    // The narrow band of OpenVDB's sphere, by its list, which another test compares with OpenVDB's.
    let path = cloud("levelset_active.vdb");
    let list = out(&of(&["--hex", "--records", "0"], "levelset_active.vdb"));
    let values = list.lines().skip(1).map(|line| f32::from_bits(u32::from_str_radix(line.rsplit(' ').next().unwrap(), 16).unwrap()));
    let mut sorted: Vec<_> = values.collect();
    sorted.sort_by(f32::total_cmp);
    assert_eq!(field(&out(&run(&[&path])), "values"), format!("{:?} to {:?}", sorted[0], sorted[sorted.len() - 1]));
}

#[test]
fn a_path_reaches_no_terminal_as_it_is() {
    let said = err(&run(&["/no/such\u{1b}[31mfile"]));
    assert!(said.contains("\\u{1b}[31mfile") && !said.contains('\u{1b}'), "{said}");
}

#[test]
fn wrong_calls_have_status_2() {
    let a = repository().join("crates/listing/stdin");
    let a = a.to_str().unwrap();
    for arguments in [
        &[][..],
        &["--no-such-option", a],
        &["--brief"],
        &["--records"],
        &["--records", "d"],
        &["--records", "d", a, a],
        &["--brief", "--records", "d", a],
        &["-", "-"],
    ] {
        let output = run(arguments);
        assert_eq!(output.status.code(), Some(2), "{arguments:?}");
        assert!(output.stdout.is_empty() && err(&output).starts_with("vdbls: "), "{arguments:?}");
    }
    let help = run(&["--help"]);
    assert_eq!(help.status.code(), Some(0));
    assert!(out(&help).contains("usage: vdbls"));
    let version = run(&["--version"]);
    assert_eq!((version.status.code(), out(&version)), (Some(0), format!("vdbls {}\n", env!("CARGO_PKG_VERSION"))));
}

#[test]
fn a_file_that_cannot_be_read_has_status_1() {
    for path in ["/no/such/file", "/"] {
        let output = run(&[path]);
        assert_eq!((output.status.code(), out(&output).as_str()), (Some(1), ""), "{path}");
        assert!(err(&output).starts_with(&format!("vdbls: {path}: ")), "{path}");
        let brief = run(&["--brief", path]);
        assert_eq!((brief.status.code(), err(&brief).as_str()), (Some(1), ""), "{path}");
        assert!(out(&brief).starts_with(&format!("{path}: ")) && out(&brief).lines().count() == 1, "{path}");
        let as_json = run(&["--json", path]);
        assert_eq!((as_json.status.code(), err(&as_json).as_str()), (Some(1), ""), "{path}");
        assert!(matches!(json::one(&out(&as_json)).get("error"), Value::Text(_)), "{path}");
    }
}

#[test]
fn what_is_no_regular_file_is_read() {
    assert_eq!(out(&fed(&["--records", "d", "/dev/stdin"], &case_a())), "records 1\n-3847 249 4346 0 1.0\n");
}

#[test]
fn standard_input_is_a_file() {
    assert_eq!(out(&fed(&["--records", "d", "-"], &case_a())), "records 1\n-3847 249 4346 0 1.0\n");
    let path = cloud("several.vdb");
    let named = out(&run(&[&path])).replacen(path.to_str().unwrap(), "standard input", 1);
    assert_eq!(out(&fed(&["-"], &read("several.vdb"))), named);
    assert_eq!(json::one(&out(&fed(&["--json", "-"], &case_a()))).get("file"), &Value::Text("-".into()));
    let refused = fed(&["--", "-"], b"");
    assert_eq!(refused.status.code(), Some(1));
    assert!(err(&refused).starts_with("vdbls: standard input: refused 2: "));
}

#[test]
fn a_broken_pipe_ends_it_silently() {
    let mut command = program();
    command.args([OsStr::new("--records"), OsStr::new("0"), cloud("levelset_active.vdb").as_os_str()]);
    let mut child = command.stdout(Stdio::piped()).stderr(Stdio::piped()).spawn().unwrap();
    drop(child.stdout.take());
    let output = child.wait_with_output().unwrap();
    assert_eq!((output.status.code(), err(&output).as_str()), (Some(0), ""));
}

#[test]
fn many_entries_are_counted_and_a_repeated_one_is_shown_once() {
    // The header of case A with 1,502 entries of kind int32, the last of which has the first one's name; no grid.
    let mut file = case_a()[..57].to_vec();
    file.extend(1502u32.to_le_bytes());
    for i in 0..1502u32 {
        file.extend(
            [&[5, 0, 0, 0], format!("n{:04}", i % 1501).as_bytes(), &[5, 0, 0, 0], b"int32", &[4, 0, 0, 0], &i.to_le_bytes()].concat(),
        );
    }
    file.extend(0u32.to_le_bytes());
    let file = Kept::new("entries", &file);
    let text = out(&run(&[&file.0]));
    let entries: Vec<_> = text.lines().filter(|line| line.starts_with("    ")).collect();
    assert_eq!(entries.len(), 1001);
    assert_eq!((entries[0], entries[1]), ("    \"n0000\"  int32   1501", "    \"n0001\"  int32   1"));
    assert_eq!(entries[1000], "    and 501 more");
    let as_json = out(&run(&[OsStr::new("--json"), file.0.as_os_str()]));
    assert!(as_json.contains("{\"more\": 501}]") && schema().fits(&json::one(&as_json), "file", false));
}

#[test]
fn a_long_list_is_written_in_portions() {
    let (bytes, expected) = many_tiles();
    let file = Kept::new("tiles", &bytes);
    let path = file.0.as_os_str();
    assert!(out(&run(&[OsStr::new("--hex"), OsStr::new("--records"), OsStr::new("d"), path])) == expected);
    let text = out(&run(&[path]));
    assert_eq!(field(&text, "records"), "32,768: 1 of side 1, 0 of side 8, 32,767 of side 128");
    // One voxel, and 32,767 cubes of 128 a side.
    assert_eq!(field(&text, "voxels"), "68,717,379,585 active");
    assert_eq!(field(&text, "box"), "-4096 0 4096 to -1 4095 8191");
}

#[test]
fn any_name_is_shown_and_is_json() {
    for (name, text, as_json) in [
        (b"\"", "grid 0: \"\\\"\"", "{\"name\": \"\\\"\","),
        (b"\\", "grid 0: \"\\\\\"", "{\"name\": \"\\\\\","),
        (b"\x1b", "grid 0: \"\\u{1b}\"", "{\"name\": \"\\u001b\","),
        (b"\xe9", "grid 0: \"\\xe9\"", "{\"name\": {\"hex\": \"e9\"},"),
    ] {
        let file = Kept::new(&format!("name-{}", name[0]), &a_with(69, name));
        assert!(out(&run(&[&file.0])).contains(&format!("\n{text}\n")), "{text}");
        let found = out(&run(&[OsStr::new("--json"), file.0.as_os_str()]));
        assert!(found.contains(as_json) && schema().fits(&json::one(&found), "file", false), "{found}");
    }
}

#[test]
fn the_json_has_the_keys_of_the_help() {
    let schema = schema();
    let check = |output: &Output, kind: &str, hex: bool| {
        let text = out(output);
        assert!(schema.fits(&json::one(&text), kind, hex), "{kind}: {text}");
    };
    let mut names: Vec<_> = openvdb().into_iter().map(|(name, ..)| name).collect();
    names.dedup();
    for name in names {
        check(&of(&["--json"], &name), if name == "stream.vdb" { "refused-file" } else { "file" }, false);
        check(&of(&["--json", "--hex"], &name), if name == "stream.vdb" { "refused-file" } else { "file" }, true);
        let brief = of(&["--json", "--brief"], &name);
        check(&brief, if name == "stream.vdb" { "refused-file" } else { "brief" }, false);
        assert_eq!(out(&brief).lines().count(), 1, "{name}");
        check(&of(&["--json", "--records", "0"], &name), "list or refused-file", false);
        check(&of(&["--json", "--hex", "--records", "0"], &name), "list or refused-file", true);
    }
    for (number, bytes) in refused_files() {
        let file = Kept::new(&format!("keys-{number}"), &bytes);
        for options in [&["--json"][..], &["--json", "--brief"], &["--json", "--records", "d"]] {
            check(&program().args(options).arg(&file.0).output().unwrap(), "file or brief or refused-file", false);
        }
    }
    check(&run(&["--json", "/no/such/file"]), "unreadable-file", false);
}

#[test]
fn the_checker_of_the_keys_refuses() {
    let schema = schema();
    let fits = |text: &str, kind: &str| schema.fits(&json::one(&format!("{text}\n")), kind, false);
    let good = r#"{"file": "a", "grid": "d", "records": 1, "list": [[-1, 2, 3, 0, 1.5]]}"#;
    assert!(fits(good, "list") && !fits(good, "file"));
    for (from, to) in [
        ("\"grid\": \"d\", ", ""),
        ("\"records\": 1", "\"records\": 1.5"),
        ("\"records\": 1", "\"records\": \"1\""),
        ("\"records\": 1", "\"records\": 1, \"other\": 2"),
        ("\"records\": 1", "\"records\": 1, \"records\": 1"),
        (", 0, 1.5]", ", 1.5]"),
        ("1.5", "\"1.5\""),
        ("\"a\"", "{\"hex\": \"4\"}"),
    ] {
        let bad = good.replacen(from, to, 1);
        assert!(bad != good && !fits(&bad, "list"), "{bad}");
    }
    assert!(fits(r#"{"file": "a", "refused": 3, "why": "b"}"#, "refused-file"));
    assert!(fits(r#"{"file": {"hex": "e9"}, "grid": "g", "refused": 3, "why": "b"}"#, "refused-file"));
    assert_eq!(json::values("{\"a\": 1,}\n"), None);
    assert_eq!(json::values("[1] [2]\n"), None);
}

/// The files of a sequence: two that are listed, one that is refused, and one that is not there.
fn sequence() -> [PathBuf; 4] {
    [cloud("fog_active.vdb"), cloud("stream.vdb"), PathBuf::from("/no/such/file"), cloud("smoke.vdb")]
}

#[test]
fn several_files_are_listed_one_after_the_other() {
    let [fog, stream, absent, smoke] = sequence();
    let both = run(&[&fog, &cloud("edge.vdb")]);
    assert_eq!((both.status.code(), err(&both).as_str()), (Some(0), ""));
    assert_eq!(out(&both), format!("{}\n{}", out(&run(&[&fog])), out(&run(&[&cloud("edge.vdb")]))));
    // Those behind one that is not listed are listed too.
    let all = run(&[&fog, &stream, &absent, &smoke]);
    assert_eq!(all.status.code(), Some(1));
    assert_eq!(out(&all), format!("{}\n{}", out(&run(&[&fog])), out(&run(&[&smoke]))));
    let said = err(&all);
    assert!(said.starts_with(&format!("vdbls: {}: refused 5: ", stream.display())), "{said}");
    assert!(said.contains("\nvdbls: /no/such/file: "), "{said}");
    let as_json = program().arg("--json").args(sequence()).output().unwrap();
    assert_eq!((as_json.status.code(), err(&as_json).as_str()), (Some(1), ""));
    let values = json::values(&out(&as_json)).unwrap();
    let files: Vec<_> = values.iter().map(|value| value.get("file").clone()).collect();
    assert_eq!(files, sequence().map(|path| Value::Text(path.to_str().unwrap().into())));
}

#[test]
fn by_brief_each_file_has_a_line() {
    let output = program().arg("--brief").args(sequence()).output().unwrap();
    assert_eq!(output.status.code(), Some(1));
    let text = out(&output);
    let lines: Vec<_> = text.lines().collect();
    assert_eq!(lines.len(), 4);
    for (line, path) in lines.iter().zip(sequence()) {
        assert!(line.starts_with(&format!("{}: ", path.display())), "{line}");
    }
    // The numbers are those of openvdb.txt, which another test compares file by file.
    assert!(lines[0].ends_with(": 33,766 bytes, version 224: \"density\" records 529, leaves 6"), "{}", lines[0]);
    assert!(lines[1].contains(": refused 5: ") && !err(&output).contains(": refused "));
    assert!(lines[3].contains(": \"velocity\" refused 12: ") && lines[3].contains("; \"density\" records 500, leaves 8; "), "{}", lines[3]);
    assert!(out(&of(&["--brief"], "no_grids.vdb")).ends_with(": 65 bytes, version 224: no grids\n"));
    // One of the root tiles that tools/openvdb/make_clouds.cc makes is not active.
    assert!(out(&of(&["--brief"], "several.vdb")).contains("\"slab\" records 2, leaves 1, root tiles 2; "));
    let listed = program().arg("--brief").args([cloud("edge.vdb"), cloud("fog_active.vdb")]).output().unwrap();
    assert_eq!((listed.status.code(), out(&listed).lines().count(), err(&listed).as_str()), (Some(0), 2, ""));
}

#[test]
fn brief_numbers_are_those_of_openvdb() {
    for (name, number, expected) in openvdb() {
        let Some(number) = number else { continue };
        let grid = json::one(&out(&of(&["--json", "--brief"], &name))).get("grids").items()[number as usize].clone();
        let found = match &grid {
            Value::Object(keys) if keys.iter().any(|(key, _)| key == "refused") => format!("refused {}", grid.get("refused").word()),
            grid => format!("leaves {} records {}", grid.get("leaves").word(), grid.get("records").word()),
        };
        assert!(format!("{expected} ").starts_with(&format!("{found} ")), "{name} {number}: {found}");
    }
}

#[test]
fn a_refusal_is_told_once() {
    // By openvdb.txt: which grids of this file are refused, and by which checks.
    let expected: Vec<_> = openvdb()
        .into_iter()
        .filter(|(name, ..)| name == "refused.vdb")
        .filter_map(|(.., said)| said.strip_prefix("refused ").map(String::from))
        .collect();
    let output = of(&[], "refused.vdb");
    let text = out(&output);
    let found: Vec<_> =
        text.lines().filter_map(|line| Some(line.strip_prefix("  refused ")?.trim().split(':').next()?.to_string())).collect();
    assert_eq!(found, expected);
    assert!(!err(&output).contains(": refused "));
    let output = of(&[], "stream.vdb");
    assert_eq!((out(&output).as_str(), err(&output).matches(": refused ").count()), ("", 1));
    // A sequence of packed frames has the advice once.
    let frames = program().arg("--brief").args([cloud("refused.vdb"), cloud("refused.vdb")]).output().unwrap();
    assert_eq!(err(&frames).matches("vdb_tool -read '").count(), 1);
}

#[test]
fn voxels_without_root_tiles_say_so() {
    // tools/openvdb/make_clouds.cc: one voxel, a cube of 128, two root tiles, one of them active; OpenVDB wrote file_voxel_count.
    let text = out(&of(&[], "several.vdb"));
    let voxels: Vec<_> = grids(&text).into_iter().map(|part| field(part, "voxels")).collect();
    assert_eq!(voxels[1], "2,097,153 active");
    assert_eq!(voxels[3], "2,097,153 active, without root tiles (2); file_voxel_count is 68,721,573,889");
    assert_eq!(voxels[4], "0 active, without root tiles (1); file_voxel_count is 68,719,476,736");
    let grid = json::one(&out(&of(&["--json"], "several.vdb"))).get("grids").items()[3].clone();
    assert_eq!(["voxels", "root_tiles", "file_voxel_count"].map(|key| grid.get(key).word()), ["2097153", "2", "68721573889"]);
    // The same cube and voxel with another number in the entry, and a file without the entry.
    let mut file = read("fog_active.vdb");
    let at = file.windows(8).position(|bytes| bytes == 6294026i64.to_le_bytes()).unwrap();
    for (said, shown) in [(7i64, "7"), (-1, "-1"), (6294027, "6,294,027")] {
        file[at..at + 8].copy_from_slice(&said.to_le_bytes());
        let file = Kept::new(&format!("voxels-{said}"), &file);
        assert_eq!(field(&out(&run(&[&file.0])), "voxels"), format!("6,294,026 active; file_voxel_count is {shown}"));
    }
    let a = out(&fed(&["--json", "-"], &case_a()));
    assert_eq!(json::one(&a).get("grids").items()[0].get("file_voxel_count").word(), "null");
}

#[test]
fn voxels_are_those_that_openvdb_counted() {
    // Where there is no root tile, the entry that OpenVDB wrote is the number of voxels that the list covers.
    let mut compared = 0;
    for (name, number, expected) in openvdb() {
        let Some(number) = number.filter(|_| !expected.starts_with("refused")) else { continue };
        let grid = json::one(&out(&of(&["--json"], &name))).get("grids").items()[number as usize].clone();
        if grid.get("root_tiles").word() == "0" {
            assert_eq!(grid.get("voxels"), grid.get("file_voxel_count"), "{name} {number}");
            compared += 1;
        }
    }
    assert_eq!(compared, 45);
}
