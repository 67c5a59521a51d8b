//! The refusals: the checks of docs/FORMAT.md, 8.

use core::fmt;

/// Declares the error with its numbers and texts from one table.
macro_rules! checks {
    ($($number:literal $name:ident $text:literal)*) => {
        /// Why the reader refused: the first check that failed, with its number (docs/FORMAT.md of the repository, 8).
        #[derive(Clone, Copy, Debug, PartialEq, Eq, Hash)]
        #[non_exhaustive]
        pub enum ParseError {
            $(#[doc = concat!("Check ", $number, ": ", $text, ".")] $name,)*
            /// A check that this crate does not know by name: the linked library is newer.
            Other(u32),
            /// The library did answer, with a map or a kind of entry that this crate does not know: the linked library is newer. No check failed.
            UnknownAnswer,
            /// The linked library has another layout than this crate: nothing was lent to it. Build both from one state of the repository.
            OtherLayout,
        }

        impl ParseError {
            /// The number of the check; 0 for [`UnknownAnswer`](Self::UnknownAnswer) and [`OtherLayout`](Self::OtherLayout), where none failed.
            pub fn number(self) -> u32 {
                match self {
                    $(Self::$name => $number,)*
                    Self::Other(number) => number,
                    Self::UnknownAnswer | Self::OtherLayout => 0,
                }
            }

            /// The error with this number: that of a check, or 0.
            pub fn from_number(number: u32) -> Self {
                match number {
                    0 => Self::UnknownAnswer,
                    $($number => Self::$name,)*
                    _ => Self::Other(number),
                }
            }

            /// What failed, in words.
            pub fn text(self) -> &'static str {
                match self {
                    $(Self::$name => $text,)*
                    Self::Other(_) => "a check that this program does not know",
                    Self::UnknownAnswer => "an answer of the library that this program does not know",
                    Self::OtherLayout => "the linked library has another layout than this program",
                }
            }
        }
    };
}

checks! {
    1 FileTooLong "the file is longer than 2,147,483,647 bytes"
    2 PastEnd "a field runs past the end of the file"
    3 MagicMismatch "the file does not begin with OpenVDB's magic bytes"
    4 UnsupportedVersion "the file version is not one of 220 to 224"
    5 NoGridOffsets "the file has no grid offsets: it was written as a stream"
    6 PackedGrid "a run of the grid's values is packed (ZIP or Blosc)"
    7 InvalidCompression "the grid's flags are above 7"
    8 TooManyGrids "the file has more than 64 grids"
    9 PositionPastEnd "a grid's position lies past the end of the file"
    10 RepeatedGridName "two grids have one name"
    11 NotFound "there is no such grid or metadata entry"
    12 UnsupportedGridType "the grid's type is neither Tree_float_5_4_3 nor Tree_float_5_4_3_HalfFloat"
    13 InstanceParent "the grid has a parent, whose tree it shares"
    14 UnsupportedMap "the transform is no scale map and no scale-translate map"
    15 InvalidBufferCount "the tree's buffer count is not 1"
    16 TooManyRoots "the tree has more than 256 roots"
    17 InvalidRootOrigin "a root's origin is no multiple of 4096, or is repeated"
    18 ChildAndValue "a place of a node has both a child and a value"
    19 InvalidNodeMetadata "a node byte is above 6"
    20 InvalidLeafBlock "a leaf's block does not fit the tree"
    21 NoSuchLeaf "there is no such leaf, or the slots are not 512 a leaf"
    22 ForeignPlace "the place of the walk does not belong to this file"
    25 InvalidRunSize "the number before a run of values is not that of its bytes"
}

impl ParseError {
    /// What the library answered: 0, or the number of the check.
    pub(crate) fn check(number: u32) -> Result<(), Self> {
        match number {
            0 => Ok(()),
            number => Err(Self::from_number(number)),
        }
    }
}

impl fmt::Display for ParseError {
    fn fmt(&self, f: &mut fmt::Formatter<'_>) -> fmt::Result {
        match self {
            Self::UnknownAnswer | Self::OtherLayout => f.write_str(self.text()),
            check => write!(f, "{} (check {})", check.text(), check.number()),
        }
    }
}

impl core::error::Error for ParseError {}
