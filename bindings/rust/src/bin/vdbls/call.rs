//! The command line.

use std::ffi::{OsStr, OsString};

/// How values are written.
#[derive(Clone, Copy, Default)]
pub struct Form {
    pub json: bool,
    /// Floats by their bits.
    pub hex: bool,
}

/// The files that are asked for, and what of them.
#[derive(Default)]
pub struct Call {
    pub form: Form,
    pub brief: bool,
    /// The grid whose list is asked for.
    pub records: Option<OsString>,
    pub files: Vec<OsString>,
}

pub enum Asked {
    Help,
    Version,
    Files(Call),
}

/// Whether the path stands for standard input.
pub fn is_input(path: &OsStr) -> bool {
    path == "-"
}

/// A word of the command line without the characters that a terminal would obey.
pub fn shown(word: &OsStr) -> String {
    let escape = |c: char| if c.is_control() { c.escape_default().collect() } else { String::from(c) };
    word.to_string_lossy().chars().map(escape).collect()
}

pub fn parse(mut arguments: impl Iterator<Item = OsString>) -> Result<Asked, String> {
    let (mut call, mut options) = (Call::default(), true);
    while let Some(argument) = arguments.next() {
        match argument.to_str() {
            Some("--help" | "-h") if options => return Ok(Asked::Help),
            Some("--version") if options => return Ok(Asked::Version),
            Some("--json") if options => call.form.json = true,
            Some("--hex") if options => call.form.hex = true,
            Some("--brief") if options => call.brief = true,
            Some("--records") if options => call.records = Some(arguments.next().ok_or("--records needs a grid")?),
            Some("--") if options => options = false,
            Some(word) if options && word.starts_with('-') && word != "-" => {
                return Err(format!("there is no option {}", shown(&argument)));
            }
            _ => call.files.push(argument),
        }
    }
    match wrong(&call) {
        Some(what) => Err(what.into()),
        None => Ok(Asked::Files(call)),
    }
}

/// What does not fit together.
fn wrong(call: &Call) -> Option<&'static str> {
    match call {
        Call { files, .. } if files.is_empty() => Some("no file is named"),
        Call { files, .. } if files.iter().filter(|path| is_input(path)).count() > 1 => Some("standard input can be read only once"),
        Call { records: Some(_), brief: true, .. } => Some("--brief and --records do not go together"),
        // The lists of several files would follow each other without a sign.
        Call { records: Some(_), files, .. } if files.len() > 1 => Some("--records takes one file"),
        _ => None,
    }
}
