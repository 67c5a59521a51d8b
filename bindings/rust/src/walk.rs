//! The walk over a grid's active list.

use crate::{sys, ParseError};

/// The size of an item of the active list, named after the child that stands for the same cube.
///
/// A program that matches on it has an arm for sizes that a later version of this crate may know; [`side`](Self::side) tells the size without one.
#[derive(Clone, Copy, Debug, PartialEq, Eq, Hash)]
#[non_exhaustive]
pub enum VdbLevel {
    /// Level 2: a cube of 128 voxels a side.
    Node4,
    /// Level 1: a cube of 8 voxels a side.
    Node3,
    /// Level 0: one voxel.
    Voxel,
}

impl VdbLevel {
    /// The level with this number, 0 to 2.
    pub fn from_number(number: u32) -> Option<Self> {
        match number {
            0 => Some(Self::Voxel),
            1 => Some(Self::Node3),
            2 => Some(Self::Node4),
            _ => None,
        }
    }

    /// The cube's side in voxels.
    pub fn side(self) -> u32 {
        match self {
            Self::Node4 => 128,
            Self::Node3 => 8,
            Self::Voxel => 1,
        }
    }

    /// The cube's side in voxels, as a float.
    pub fn scale(self) -> f32 {
        self.side() as f32
    }
}

/// Where a walk stands. It holds all that the walk needs, and goes with the bytes that its grid was opened from.
///
/// It may be copied, kept as words or bytes, and used again, by another program too.
#[derive(Clone, Copy, Debug, PartialEq, Eq)]
pub struct Place(pub(crate) [u64; sys::PLACE_WORDS]);

impl Place {
    /// How many words a place has.
    pub const WORDS: usize = sys::PLACE_WORDS;
    /// How many bytes a place has.
    pub const BYTES: usize = 8 * Self::WORDS;

    /// The place as words. They mean nothing but to [`from_words`](Self::from_words).
    pub fn to_words(&self) -> [u64; Self::WORDS] {
        self.0
    }

    /// The place from its words. Any words are safe: those that are no place of a file give some of its records, or [`ParseError::ForeignPlace`].
    pub fn from_words(words: [u64; Self::WORDS]) -> Self {
        Self(words)
    }

    /// The place as bytes, to be kept on disk: its words, each little-endian.
    pub fn to_bytes(&self) -> [u8; Self::BYTES] {
        let mut bytes = [0; Self::BYTES];
        for (to, word) in bytes.chunks_exact_mut(8).zip(self.0) {
            to.copy_from_slice(&word.to_le_bytes());
        }
        bytes
    }

    /// The place from its bytes.
    pub fn from_bytes(bytes: &[u8; Self::BYTES]) -> Self {
        let mut words = [0; Self::WORDS];
        for (word, from) in words.iter_mut().zip(bytes.chunks_exact(8)) {
            *word = from.iter().rev().fold(0, |word, byte| word << 8 | u64::from(*byte));
        }
        Self(words)
    }
}

/// What a call of [`walk`] did.
#[derive(Clone, Copy, Debug, PartialEq, Eq)]
pub struct Walked {
    /// How many slots were filled, from the first on.
    pub filled: usize,
    /// How many records are left behind them.
    pub left: u64,
}

/// Hands out the records that follow a place, in the order of the active list, and moves the place behind them.
///
/// As many as the shortest of the five slices has slots, and no more than are left. Slot i gets a cube: its lowest corner in `x[i]`, `y[i]`, `z[i]`, its
/// level 0, 1 or 2 (see [`VdbLevel::from_number`]), and its value as a float's pattern (see [`f32::from_bits`]). Slots past the filled ones keep their
/// content. Nothing is opened: the cost follows the records handed out and the nodes passed.
///
/// From the place of an opened grid on, over the same bytes, no call is refused, and together they hand out the whole list without gap or repeat. Any
/// other place gives some records of these bytes, or [`ParseError::ForeignPlace`]; a refused call changes no slot, and not the place.
pub fn walk(
    file: &[u8],
    place: &mut Place,
    x: &mut [i32],
    y: &mut [i32],
    z: &mut [i32],
    level: &mut [u32],
    value: &mut [u32],
) -> Result<Walked, ParseError> {
    let [filled, left] = sys::walk(file, &mut place.0, [x, y, z], [level, value])?;
    Ok(Walked { filled: filled as usize, left })
}

/// How many records an [`Iter`] holds ready.
const READY: usize = 128;

/// The active list of a grid, item after item; from [`Grid::iter`](crate::Grid::iter).
///
/// It takes the records in portions of 128 into a buffer of its own, some 2.5 KB, and allocates nothing.
#[derive(Clone)]
pub struct Iter<'f> {
    file: &'f [u8],
    place: Place,
    /// How many records are left behind the place.
    behind: u64,
    x: [i32; READY],
    y: [i32; READY],
    z: [i32; READY],
    level: [u32; READY],
    value: [u32; READY],
    /// The slots from `next` to `filled` are yet to be handed out.
    next: usize,
    filled: usize,
}

impl<'f> Iter<'f> {
    pub(crate) fn new(file: &'f [u8], place: Place, count: u64) -> Self {
        let (numbers, words) = ([0; READY], [0; READY]);
        Iter { file, place, behind: count, x: numbers, y: numbers, z: numbers, level: words, value: words, next: 0, filled: 0 }
    }

    fn refill(&mut self) {
        let walked = walk(self.file, &mut self.place, &mut self.x, &mut self.y, &mut self.z, &mut self.level, &mut self.value)
            .expect("proved: a walk from an opened grid's place is not refused");
        (self.next, self.filled, self.behind) = (0, walked.filled, walked.left);
    }
}

impl Iterator for Iter<'_> {
    type Item = ([i32; 3], f32, VdbLevel);

    fn next(&mut self) -> Option<Self::Item> {
        if self.next == self.filled {
            if self.behind == 0 {
                return None;
            }
            self.refill();
        }
        let i = self.next;
        self.next += 1;
        let level = VdbLevel::from_number(self.level[i]).expect("proved: a level is 0, 1 or 2");
        Some(([self.x[i], self.y[i], self.z[i]], f32::from_bits(self.value[i]), level))
    }

    fn size_hint(&self) -> (usize, Option<usize>) {
        let left = usize::try_from(self.behind).ok().and_then(|behind| behind.checked_add(self.filled - self.next));
        (left.unwrap_or(usize::MAX), left)
    }
}

impl core::iter::FusedIterator for Iter<'_> {}
