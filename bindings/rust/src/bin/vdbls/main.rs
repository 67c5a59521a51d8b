//! vdbls: what is in OpenVDB files, as the proved reader sees it.
#![deny(unsafe_code)]

mod brief;
mod bytes;
mod call;
mod json;
mod progress;
mod records;
mod show;
mod survey;

use call::{is_input, Asked, Call};
use std::collections::BTreeMap;
use std::ffi::OsStr;
use std::io::{self, BufWriter, ErrorKind, Write};
use std::process::ExitCode;
use wuraiko::{Grid, ParseError, VdbReader};

/// It has the keys of the JSON too, and the tests compare these with the output.
const HELP: &str = include_str!("help.txt");

/// Why a file was not listed.
pub enum Failure {
    Unreadable(io::Error),
    Refused(ParseError),
    /// The grid that was asked for.
    RefusedGrid(ParseError),
    /// Grids of a file that is listed; the listing tells which.
    InListing(Vec<ParseError>),
    /// A walk from an opened grid's place is never refused, unless another program changes the file or the library is newer than this program.
    Walk(ParseError),
    Output(io::Error),
}

impl Failure {
    pub fn of_grids(refusals: Vec<ParseError>) -> Result<(), Self> {
        if refusals.is_empty() {
            Ok(())
        } else {
            Err(Self::InListing(refusals))
        }
    }

    fn refusals(&self) -> &[ParseError] {
        match self {
            Self::Refused(e) | Self::RefusedGrid(e) => std::slice::from_ref(e),
            Self::InListing(refusals) => refusals,
            Self::Unreadable(_) | Self::Walk(_) | Self::Output(_) => &[],
        }
    }
}

impl From<io::Error> for Failure {
    fn from(e: io::Error) -> Self {
        Self::Output(e)
    }
}

/// The grid of this name, else the one with this number.
fn find<'f>(reader: &VdbReader<'f>, asked: &[u8]) -> Result<Grid<'f>, ParseError> {
    let number = std::str::from_utf8(asked).ok().and_then(|text| text.parse().ok());
    match (reader.grid_descriptor(asked), number) {
        (Err(ParseError::NotFound), Some(n)) => reader.read_grid_numbered(n),
        _ => reader.read_grid(asked),
    }
}

/// How a file is called in a text.
fn name(path: &OsStr) -> String {
    if is_input(path) {
        "standard input".into()
    } else {
        call::shown(path)
    }
}

/// Lists one file; `first` says that it is the first one.
fn list(call: &Call, path: &OsStr, first: bool, out: &mut impl Write) -> Result<(), Failure> {
    let bytes = if is_input(path) { bytes::of_input() } else { bytes::of_file(path.as_ref()) }.map_err(Failure::Unreadable)?;
    let reader = VdbReader::new(&bytes).map_err(Failure::Refused)?;
    if call.brief {
        return brief::line(path, &name(path), &bytes, &reader, call.form.json, out);
    }
    let Some(asked) = &call.records else {
        if !first && !call.form.json {
            writeln!(out)?;
        }
        return show::file(path, &bytes, &reader, call.form, out);
    };
    progress::opening(&bytes);
    let grid = find(&reader, asked.as_encoded_bytes());
    progress::clear();
    records::write(path, &grid.map_err(Failure::RefusedGrid)?, call.form, out)
}

/// Says why a file was not listed, once: with --json or --brief each file has its value or line in the output, else it goes to standard error.
fn tell(call: &Call, path: &OsStr, failure: &Failure, out: &mut impl Write) -> io::Result<()> {
    let asked = call.records.as_deref().unwrap_or_default().as_encoded_bytes();
    let refused = |e: &ParseError| format!("refused {}: {}", e.number(), words(*e));
    let (text, in_json) = match failure {
        Failure::Unreadable(e) => (e.to_string(), format!("\"error\": {}", json::text(e.to_string().as_bytes()))),
        Failure::Refused(e) => (refused(e), json::refusal(*e)),
        Failure::RefusedGrid(e) => {
            (format!("grid {}: {}", show::quoted(asked), refused(e)), format!("\"grid\": {}, {}", json::text(asked), json::refusal(*e)))
        }
        Failure::Walk(e) => return complain(&format!("vdbls: {}: the walk was {}\n", name(path), refused(e)), out),
        Failure::InListing(_) | Failure::Output(_) => return Ok(()),
    };
    match (call.form.json, call.brief) {
        (true, _) => writeln!(out, "{{\"file\": {}, {in_json}}}", json::text(path.as_encoded_bytes())),
        (false, true) => writeln!(out, "{}: {text}", name(path)),
        (false, false) => complain(&format!("vdbls: {}: {text}\n", name(path)), out),
    }
}

/// Writes to standard error, behind what was found before.
fn complain(what: &str, out: &mut impl Write) -> io::Result<()> {
    out.flush()?;
    progress::clear();
    // Where standard error is closed, the exit status still tells.
    let _ = io::stderr().write_all(what.as_bytes());
    Ok(())
}

/// A refusal in words. This program asks for grids, and for no entry that it has not seen.
pub fn words(e: ParseError) -> &'static str {
    match e {
        ParseError::NotFound => "there is no such grid",
        e => e.text(),
    }
}

/// What can be done about a refusal.
fn advice(e: ParseError, path: &str) -> Option<String> {
    let path = path.replace('\'', r"'\''");
    let convert = format!(
        "vdb_tool of OpenVDB (on Debian in the package libopenvdb-tools) writes the file anew:
    vdb_tool -read '{path}' -write codec=active unpacked.vdb
It keeps the grids' values, transforms and metadata, sorts them by falling name and leaves out the file's own metadata."
    );
    match e {
        ParseError::PackedGrid => Some(format!("OpenVDB packs values with Blosc unless it is told otherwise. {convert}")),
        ParseError::NoGridOffsets => Some(convert),
        ParseError::NotFound => Some(format!("`vdbls '{path}'` lists the grids.")),
        ParseError::PastEnd | ParseError::PositionPastEnd => Some("The file may have been cut short, or is no OpenVDB file.".into()),
        _ => None,
    }
}

/// Lists the files, also behind one that is not listed; gives whether all were listed.
fn files(call: &Call, out: &mut impl Write) -> io::Result<bool> {
    progress::allow(call.form.json || call.records.is_some());
    // Each advice once, with the first file that it is for: a sequence of frames has the same trouble in each.
    let (mut all, mut advised) = (true, BTreeMap::new());
    for (n, path) in call.files.iter().enumerate() {
        let Err(failure) = list(call, path, n == 0, out) else { continue };
        progress::clear();
        all = false;
        for e in failure.refusals() {
            let file = if is_input(path) { "FILE".into() } else { call::shown(path) };
            if let (Some(key), Some(advice)) = (advice(*e, ""), advice(*e, &file)) {
                advised.entry(key).or_insert(advice);
            }
        }
        match failure {
            Failure::Output(e) => return Err(e),
            failure => tell(call, path, &failure, out)?,
        }
    }
    // JSON goes to programs.
    if !call.form.json && !advised.is_empty() {
        let said: String = advised.values().map(|advice| format!("{advice}\n")).collect();
        complain(&said, out)?;
    }
    Ok(all)
}

fn main() -> ExitCode {
    let mut out = BufWriter::with_capacity(1 << 16, io::stdout().lock());
    let done = match call::parse(std::env::args_os().skip(1)) {
        Err(what) => {
            let _ = complain(&format!("vdbls: {what}; `vdbls --help` tells more\n"), &mut out);
            return ExitCode::from(2);
        }
        Ok(Asked::Help) => out.write_all(HELP.as_bytes()).map(|()| true),
        Ok(Asked::Version) => out.write_all(concat!("vdbls ", env!("CARGO_PKG_VERSION"), "\n").as_bytes()).map(|()| true),
        Ok(Asked::Files(call)) => files(&call, &mut out),
    };
    match done.and_then(|all| out.flush().map(|()| all)) {
        Ok(all) => ExitCode::from(u8::from(!all)),
        // The reader of the output has seen enough.
        Err(e) if e.kind() == ErrorKind::BrokenPipe => ExitCode::SUCCESS,
        Err(e) => {
            let _ = io::stderr().write_all(format!("vdbls: cannot write: {e}\n").as_bytes());
            ExitCode::FAILURE
        }
    }
}
