//! Metadata of a file and of a grid.

use crate::{span, sys, ParseError};
use core::fmt;

/// The metadata of a file or of a grid.
#[derive(Clone, Copy)]
pub struct Metadata<'f> {
    pub(crate) file: &'f [u8],
    /// The grid's name; none for the file's own metadata.
    pub(crate) grid: Option<&'f [u8]>,
    /// Where the number of entries stands.
    pub(crate) start: u64,
}

/// The value of a metadata entry. Texts and raw values are bytes of the file.
///
/// A program that matches on it has an arm for kinds that a later version of this crate may know.
#[derive(Clone, Copy, Debug, PartialEq)]
#[non_exhaustive]
pub enum MetadataValue<'f> {
    /// Kind `string`. Any bytes, most often UTF-8.
    String(&'f [u8]),
    /// Kind `vec3i`.
    Vec3i([i32; 3]),
    /// Kind `int32`.
    I32(i32),
    /// Kind `int64`.
    I64(i64),
    /// Kind `float`.
    Float(f32),
    /// Kind `bool`.
    Bool(bool),
    /// A kind of the file that is none of these: its name, and its bytes as they are.
    Unknown {
        /// The kind's name.
        name: &'f [u8],
        /// The value.
        data: &'f [u8],
    },
}

impl<'f> MetadataValue<'f> {
    /// From the words of the library. A number that no kind here has is [`ParseError::UnknownAnswer`]: its other words may mean anything.
    fn new(file: &'f [u8], [kind, value, len, kind_start, kind_len]: [u64; sys::ENTRY_WORDS]) -> Result<Self, ParseError> {
        Ok(match kind {
            0 => Self::String(span(file, value, len)),
            1 => Self::Bool(value != 0),
            2 => Self::I32(value as i32),
            3 => Self::I64(value as i64),
            4 => Self::Float(f32::from_bits(value as u32)),
            // The words behind the kind are x, y and z.
            5 => Self::Vec3i([value as i32, len as i32, kind_start as i32]),
            6 => Self::Unknown { name: span(file, kind_start, kind_len), data: span(file, value, len) },
            _ => return Err(ParseError::UnknownAnswer),
        })
    }
}

impl<'f> Metadata<'f> {
    /// The entry of this name, the last one if there are several; [`ParseError::NotFound`] if there is none, [`ParseError::UnknownAnswer`] if the
    /// library has a number for its kind that this crate does not know, which only a newer library gives.
    ///
    /// Each question reads the file's header and descriptors anew.
    pub fn get(&self, name: impl AsRef<[u8]>) -> Result<MetadataValue<'f>, ParseError> {
        MetadataValue::new(self.file, sys::entry(self.file, self.grid, name.as_ref())?)
    }

    /// Whether the entry `is_saved_as_half_float` is there, of kind bool, and true. A grid may be stored as halves without it, by the
    /// ending of its type: [`GridDescriptor::value_width`](crate::GridDescriptor::value_width) tells.
    pub fn is_half_float(&self) -> bool {
        self.get("is_saved_as_half_float") == Ok(MetadataValue::Bool(true))
    }

    /// The entries' names in the file's order. A name that the file repeats comes again; [`get`](Self::get) gives its last entry.
    pub fn names(&self) -> Names<'f> {
        let mut rest = Rest(usize::try_from(self.start).ok().and_then(|start| self.file.get(start..)).unwrap_or(&[]));
        let left = rest.number().unwrap_or(0);
        Names { rest, left }
    }
}

impl fmt::Debug for Metadata<'_> {
    fn fmt(&self, f: &mut fmt::Formatter<'_>) -> fmt::Result {
        f.debug_map().entries(self.names().map(|name| (Text(name), self.get(name)))).finish()
    }
}

/// Bytes that are shown as text.
pub(crate) struct Text<'f>(pub &'f [u8]);

impl fmt::Debug for Text<'_> {
    fn fmt(&self, f: &mut fmt::Formatter<'_>) -> fmt::Result {
        write!(f, "\"{}\"", self.0.escape_ascii())
    }
}

/// The names of [`Metadata::names`].
///
/// The library answers for a name; which names there are is read here, by the layout of docs/FORMAT.md, 2.
#[derive(Clone)]
pub struct Names<'f> {
    rest: Rest<'f>,
    left: u32,
}

impl<'f> Iterator for Names<'f> {
    type Item = &'f [u8];

    fn next(&mut self) -> Option<&'f [u8]> {
        self.left = self.left.checked_sub(1)?;
        let name = self.rest.string()?;
        let kind = self.rest.string()?;
        let len = self.rest.number()? as usize;
        // The fixed kinds have their own size, whatever the length field says.
        self.rest.bytes(match kind {
            b"bool" => 1,
            b"int32" | b"float" => 4,
            b"int64" => 8,
            b"vec3i" => 12,
            _ => len,
        })?;
        Some(name)
    }
}

/// Bytes that are yet to be read.
#[derive(Clone)]
struct Rest<'f>(&'f [u8]);

impl<'f> Rest<'f> {
    fn bytes(&mut self, len: usize) -> Option<&'f [u8]> {
        let (taken, rest) = self.0.split_at_checked(len)?;
        self.0 = rest;
        Some(taken)
    }

    fn number(&mut self) -> Option<u32> {
        Some(u32::from_le_bytes(self.bytes(4)?.try_into().ok()?))
    }

    fn string(&mut self) -> Option<&'f [u8]> {
        let len = self.number()?;
        self.bytes(len as usize)
    }
}

#[cfg(test)]
mod tests {
    use super::*;

    #[test]
    fn an_entry_of_another_kind_has_no_name() {
        // include/vdb.h: 6 is the last kind, and its words are the value's start and length, and the name's.
        let words = |kind| [kind, 0, 2, 2, 3];
        assert_eq!(MetadataValue::new(b"abcde", words(6)), Ok(MetadataValue::Unknown { name: b"cde", data: b"ab" }));
        for kind in (7..=40).chain([u64::MAX]) {
            assert_eq!(MetadataValue::new(b"abcde", words(kind)), Err(ParseError::UnknownAnswer));
        }
    }
}
