//! Values as JSON.

use crate::words;
use std::fmt::Write;
use wuraiko::ParseError;

/// A string of JSON; bytes that are no UTF-8 become an object with their hexadecimal digits.
pub fn text(bytes: &[u8]) -> String {
    let Ok(text) = std::str::from_utf8(bytes) else {
        return format!("{{\"hex\": \"{}\"}}", hex(bytes));
    };
    let mut json = String::from('"');
    for c in text.chars() {
        match c {
            '"' | '\\' => json.extend(['\\', c]),
            ' '..='~' => json.push(c),
            // What is not ASCII is written as UTF-16, so that any terminal and any reader takes it.
            c => c.encode_utf16(&mut [0; 2]).iter().for_each(|unit| write!(json, "\\u{unit:04x}").expect("a string takes all")),
        }
    }
    json.push('"');
    json
}

pub fn hex(bytes: &[u8]) -> String {
    bytes.iter().map(|byte| format!("{byte:02x}")).collect()
}

/// A number, which reads back as the same double; what is none in JSON becomes a string.
pub fn double(value: f64) -> String {
    if value.is_finite() {
        format!("{value:?}")
    } else {
        format!("\"{value}\"")
    }
}

/// A float as the shortest number that reads back as the same float, or by its bits.
pub fn float(value: f32, hex: bool) -> String {
    if hex {
        format!("\"{:08x}\"", value.to_bits())
    } else if value.is_finite() {
        format!("{value:?}")
    } else {
        format!("\"{value}\"")
    }
}

pub fn vector(values: [f64; 3]) -> String {
    format!("[{}]", values.map(double).join(", "))
}

pub fn corner([x, y, z]: [i32; 3]) -> String {
    format!("[{x}, {y}, {z}]")
}

/// The keys of a refusal.
pub fn refusal(e: ParseError) -> String {
    format!("\"refused\": {}, \"why\": {}", e.number(), text(words(e).as_bytes()))
}
