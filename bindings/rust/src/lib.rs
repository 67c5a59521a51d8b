//! A proved reader of OpenVDB float grids, in safe Rust.
//!
//! The reader itself is the static library `libvdb.a`, written in Rattle and proved: for any bytes it answers with what the file says, or with the number
//! of the first check that fails. This crate lends it slices, with the names that a user of vdb-rs knows. It allocates nothing and needs no `std`.
//!
//! Read are float grids of file versions 220 to 224, trees 5-4-3 of 32-bit floats or halves, values stored unpacked, also where a flag says that they
//! may be packed.
//!
//! ```
//! # fn main() -> Result<(), Box<dyn std::error::Error>> {
//! use wuraiko::{VdbLevel, VdbReader};
//!
//! let file = std::fs::read("../../crates/listing/stdin")?;
//! let reader = VdbReader::new(&file)?;
//! for name in reader.available_grids() {
//!     println!("{}", String::from_utf8_lossy(name));
//! }
//! let grid = reader.read_grid("d")?;
//! assert_eq!((grid.active_count(), grid.leaf_count()), (1, 1));
//! for (corner, value, level) in grid.iter() {
//!     assert_eq!((corner, value, level), ([-3847, 249, 4346], 1.0, VdbLevel::Voxel));
//! }
//! # Ok(())
//! # }
//! ```
//!
//! A walk in portions, into buffers of the caller, which may stop at any place and go on later:
//!
//! ```
//! # fn main() -> Result<(), Box<dyn std::error::Error>> {
//! use wuraiko::{Place, VdbReader};
//!
//! let file = std::fs::read("../../crates/questions/data/edge.vdb")?;
//! let grid = VdbReader::new(&file)?.read_grid_numbered(0)?;
//! let (mut x, mut y, mut z) = ([0; 4], [0; 4], [0; 4]);
//! let (mut level, mut value) = ([0; 4], [0; 4]);
//!
//! let mut place = grid.place();
//! let walked = grid.walk(&mut place, &mut x, &mut y, &mut z, &mut level, &mut value)?;
//! assert_eq!((walked.filled, walked.left), (4, 2));
//!
//! let kept: [u8; Place::BYTES] = place.to_bytes(); // to a file, and back
//! let mut place = Place::from_bytes(&kept);
//! let walked = grid.walk(&mut place, &mut x, &mut y, &mut z, &mut level, &mut value)?;
//! assert_eq!((walked.filled, walked.left), (2, 0));
//! # Ok(())
//! # }
//! ```
#![no_std]
#![deny(unsafe_code, missing_docs)]

/// The examples of the page for those who come from vdb-rs are run with the tests.
#[cfg(doctest)]
#[doc = include_str!("../../../docs/MOVING.md")]
struct Moving;

mod error;
mod metadata;
mod sys;
mod walk;

pub use error::ParseError;
pub use metadata::{Metadata, MetadataValue, Names};
pub use walk::{walk, Iter, Place, VdbLevel, Walked};

use core::fmt;
use metadata::Text;
use sys::Asked;

/// The bytes of the file at a start and a length from the library, which promises that they lie in the file.
fn span(file: &[u8], start: u64, len: u64) -> &[u8] {
    &file[start as usize..][..len as usize]
}

/// What a file's header says.
#[derive(Clone, Copy, Debug)]
pub struct ArchiveHeader<'f> {
    /// The file's version, 220 to 224.
    pub file_version: u32,
    /// The version of the library that wrote it.
    pub library_version_major: u32,
    /// Its second number.
    pub library_version_minor: u32,
    /// Whether versions 220 and 221 say that values may be packed.
    pub packed: bool,
    /// The identity: 36 bytes, as OpenVDB writes them the text of a UUID.
    pub guid: &'f [u8],
    /// The file's metadata.
    pub meta_data: Metadata<'f>,
    /// The number of grids. They are numbered from 0.
    pub grid_count: u32,
}

/// How a grid's values are stored: the flags of its descriptor.
#[derive(Clone, Copy, Debug, Default, PartialEq, Eq, Hash)]
pub struct Compression(u32);

impl Compression {
    /// All values, as they are.
    pub const NONE: Self = Self(0);
    /// Values may be packed with ZIP. A grid that opens has none that is.
    pub const ZIP: Self = Self(1);
    /// Only values of active places are stored.
    pub const ACTIVE_MASK: Self = Self(2);
    /// Values may be packed with Blosc. A grid that opens has none that is.
    pub const BLOSC: Self = Self(4);

    /// The flags as a number.
    pub fn bits(self) -> u32 {
        self.0
    }

    /// Whether all flags of the other are set here.
    pub fn contains(self, other: Self) -> bool {
        self.0 & other.0 == other.0
    }
}

/// What the file says of a grid before it is opened.
#[derive(Clone, Copy, Debug)]
pub struct GridDescriptor<'f> {
    /// The grid's name. Names are bytes, most often UTF-8.
    pub name: &'f [u8],
    /// The version of the file.
    pub file_version: u32,
    /// The name of the grid whose tree this grid shares; empty where it has its own.
    pub instance_parent: &'f [u8],
    /// The type, such as `Tree_float_5_4_3`.
    pub grid_type: &'f [u8],
    /// Where the grid starts, in bytes from the file's start.
    pub grid_pos: u64,
    /// Where its leaf blocks start.
    pub block_pos: u64,
    /// Where the next descriptor stands.
    pub end_pos: u64,
    /// How its values are stored.
    pub compression: Compression,
    /// How many bytes a stored value takes: 2 for halves, 4 for floats. The entry `is_saved_as_half_float` says it if it is a bool, else the
    /// ending `_HalfFloat` of the type.
    pub value_width: u32,
    /// Its metadata.
    pub meta_data: Metadata<'f>,
}

impl<'f> GridDescriptor<'f> {
    fn find(file: &'f [u8], file_version: u32, grid: Asked) -> Result<Self, ParseError> {
        let [name, name_len, kind, kind_len, parent, parent_len, grid_pos, block_pos, end_pos, flags, _, metadata, _, width, ..] =
            sys::grid(file, grid)?;
        let name = span(file, name, name_len);
        Ok(Self {
            name,
            file_version,
            instance_parent: span(file, parent, parent_len),
            grid_type: span(file, kind, kind_len),
            grid_pos,
            block_pos,
            end_pos,
            compression: Compression(flags as u32),
            value_width: width as u32,
            meta_data: Metadata { file, grid: Some(name), start: metadata },
        })
    }

    /// The entry `file_bbox_min`, where it is there and of kind vec3i. The file says so; nothing compares it with the tree.
    pub fn aabb_min(&self) -> Option<[i32; 3]> {
        self.corner("file_bbox_min")
    }

    /// The entry `file_bbox_max`, where it is there and of kind vec3i.
    pub fn aabb_max(&self) -> Option<[i32; 3]> {
        self.corner("file_bbox_max")
    }

    /// The entry `file_mem_bytes`, where it is there and of kind int64.
    pub fn mem_bytes(&self) -> Option<i64> {
        self.number("file_mem_bytes")
    }

    /// The entry `file_voxel_count`, where it is there and of kind int64. The list's true length is [`Grid::active_count`].
    pub fn voxel_count(&self) -> Option<i64> {
        self.number("file_voxel_count")
    }

    fn corner(&self, name: &str) -> Option<[i32; 3]> {
        match self.meta_data.get(name) {
            Ok(MetadataValue::Vec3i(corner)) => Some(corner),
            _ => None,
        }
    }

    fn number(&self, name: &str) -> Option<i64> {
        match self.meta_data.get(name) {
            Ok(MetadataValue::I64(number)) => Some(number),
            _ => None,
        }
    }
}

/// A grid's transform. Vectors are x, y and z, each double bit for bit as in the file.
///
/// A program that matches on it has an arm for maps that a later version of this crate may know.
#[derive(Clone, Copy, Debug, PartialEq)]
#[non_exhaustive]
pub enum Map {
    /// `UniformScaleMap` or `ScaleMap` in the file.
    UniformScaleMap {
        /// The scale.
        scale_values: [f64; 3],
        /// The size of a voxel.
        voxel_size: [f64; 3],
        /// The inverse of the scale.
        scale_values_inverse: [f64; 3],
        /// The inverse of its square.
        inv_scale_sqr: [f64; 3],
        /// The inverse of twice the scale.
        inv_twice_scale: [f64; 3],
    },
    /// `UniformScaleTranslateMap` or `ScaleTranslateMap` in the file.
    ScaleTranslateMap {
        /// The translation, which follows the scale.
        translation: [f64; 3],
        /// The scale.
        scale_values: [f64; 3],
        /// The size of a voxel.
        voxel_size: [f64; 3],
        /// The inverse of the scale.
        scale_values_inverse: [f64; 3],
        /// The inverse of its square.
        inv_scale_sqr: [f64; 3],
        /// The inverse of twice the scale.
        inv_twice_scale: [f64; 3],
    },
}

impl Map {
    /// From the number of doubles, which tells the map, and their patterns. A number that no map here has is [`ParseError::UnknownAnswer`].
    fn new(doubles: u64, patterns: &[u64; sys::DOUBLES]) -> Result<Self, ParseError> {
        let vector = |i: usize| [3 * i, 3 * i + 1, 3 * i + 2].map(|i| f64::from_bits(patterns[i]));
        Ok(match doubles {
            15 => Self::UniformScaleMap {
                scale_values: vector(0),
                voxel_size: vector(1),
                scale_values_inverse: vector(2),
                inv_scale_sqr: vector(3),
                inv_twice_scale: vector(4),
            },
            18 => Self::ScaleTranslateMap {
                translation: vector(0),
                scale_values: vector(1),
                voxel_size: vector(2),
                scale_values_inverse: vector(3),
                inv_scale_sqr: vector(4),
                inv_twice_scale: vector(5),
            },
            _ => return Err(ParseError::UnknownAnswer),
        })
    }
}

/// An opened file.
#[derive(Clone, Copy)]
pub struct VdbReader<'f> {
    file: &'f [u8],
    /// What its header says.
    pub header: ArchiveHeader<'f>,
}

impl<'f> VdbReader<'f> {
    /// Opens the file whose bytes are lent: its header and all descriptors are checked.
    pub fn new(file: &'f [u8]) -> Result<Self, ParseError> {
        let [version, major, minor, packed, guid, guid_len, metadata, grids] = sys::open_file(file)?;
        let header = ArchiveHeader {
            file_version: version as u32,
            library_version_major: major as u32,
            library_version_minor: minor as u32,
            packed: packed != 0,
            guid: span(file, guid, guid_len),
            meta_data: Metadata { file, grid: None, start: metadata },
            grid_count: grids as u32,
        };
        Ok(Self { file, header })
    }

    /// The names of the grids, in the file's order.
    pub fn available_grids(&self) -> impl Iterator<Item = &'f [u8]> {
        self.grid_descriptors().map(|descriptor| descriptor.name)
    }

    /// The descriptors of the grids, in the file's order.
    pub fn grid_descriptors(&self) -> impl Iterator<Item = GridDescriptor<'f>> {
        let reader = *self;
        (0..self.header.grid_count).map_while(move |n| reader.grid_descriptor_numbered(n).ok())
    }

    /// The descriptor of the grid of this name.
    pub fn grid_descriptor(&self, name: impl AsRef<[u8]>) -> Result<GridDescriptor<'f>, ParseError> {
        GridDescriptor::find(self.file, self.header.file_version, Asked::Named(name.as_ref()))
    }

    /// The descriptor of the grid with this number from 0.
    pub fn grid_descriptor_numbered(&self, n: u32) -> Result<GridDescriptor<'f>, ParseError> {
        GridDescriptor::find(self.file, self.header.file_version, Asked::Numbered(n))
    }

    /// Opens the grid of this name: all of it is checked. [`ParseError::UnknownAnswer`] if its transform is a map that this crate does not know, which
    /// only a newer library gives.
    pub fn read_grid(&self, name: impl AsRef<[u8]>) -> Result<Grid<'f>, ParseError> {
        self.open(Asked::Named(name.as_ref()))
    }

    /// Opens the grid with this number from 0, as [`read_grid`](Self::read_grid) does by name.
    pub fn read_grid_numbered(&self, n: u32) -> Result<Grid<'f>, ParseError> {
        self.open(Asked::Numbered(n))
    }

    fn open(&self, grid: Asked) -> Result<Grid<'f>, ParseError> {
        let (opened, place) = sys::open_grid(self.file, grid)?;
        let [background, active_count, leaf_count, root_tile_count, doubles, _, patterns @ ..] = opened;
        Ok(Grid {
            file: self.file,
            descriptor: GridDescriptor::find(self.file, self.header.file_version, grid)?,
            transform: Map::new(doubles, &patterns)?,
            background: background as u32,
            active_count,
            leaf_count,
            root_tile_count: root_tile_count as u32,
            place: Place(place),
        })
    }
}

// The file's bytes are not shown.
impl fmt::Debug for VdbReader<'_> {
    fn fmt(&self, f: &mut fmt::Formatter<'_>) -> fmt::Result {
        f.debug_struct("VdbReader").field("header", &self.header).finish_non_exhaustive()
    }
}

/// An opened grid. It lives no longer than the bytes that it was opened from:
///
/// ```compile_fail,E0597
/// let grid = {
///     let file = std::fs::read("../../crates/listing/stdin").unwrap();
///     wuraiko::VdbReader::new(&file).unwrap().read_grid("d").unwrap()
/// };
/// grid.active_count();
/// ```
#[derive(Clone, Copy)]
pub struct Grid<'f> {
    file: &'f [u8],
    /// What the file says of it.
    pub descriptor: GridDescriptor<'f>,
    /// From its voxels to the world.
    pub transform: Map,
    background: u32,
    active_count: u64,
    leaf_count: u64,
    root_tile_count: u32,
    place: Place,
}

impl<'f> Grid<'f> {
    /// The value outside the tree. Inactive places of leaves hold it too, or minus it, where the file has no value for them.
    pub fn background(&self) -> f32 {
        f32::from_bits(self.background)
    }

    /// How many records the active list has. Active tiles of the root, cubes of 4096 a side, are none of them: see
    /// [`root_tile_count`](Self::root_tile_count).
    pub fn active_count(&self) -> u64 {
        self.active_count
    }

    /// How many leaves the tree has. They are numbered from 0.
    pub fn leaf_count(&self) -> u64 {
        self.leaf_count
    }

    /// How many tiles the root has, active or not. They are in no list and no count, so where there are any, the active voxels may be more than the
    /// active list covers.
    pub fn root_tile_count(&self) -> u32 {
        self.root_tile_count
    }

    /// The entry of this name in the grid's metadata.
    pub fn metadata(&self, name: impl AsRef<[u8]>) -> Result<MetadataValue<'f>, ParseError> {
        self.descriptor.meta_data.get(name)
    }

    /// The active list: lowest corner, value, level.
    pub fn iter(&self) -> Iter<'f> {
        Iter::new(self.file, self.place, self.active_count)
    }

    /// The place before the first record of the active list.
    pub fn place(&self) -> Place {
        self.place
    }

    /// [`walk`] over the bytes of this grid's file. The place tells the grid: one of another grid of the file hands out that grid's records.
    pub fn walk(
        &self,
        place: &mut Place,
        x: &mut [i32],
        y: &mut [i32],
        z: &mut [i32],
        level: &mut [u32],
        value: &mut [u32],
    ) -> Result<Walked, ParseError> {
        walk(self.file, place, x, y, z, level, value)
    }

    /// Fills 512 slots with the values of a leaf, as float patterns: place p of the leaf is x = p / 64, y = p / 8 % 8, z = p % 8. Inactive places hold
    /// what OpenVDB has there: the value that the file gives, or where it gives none the background or minus the background.
    ///
    /// [`ParseError::NoSuchLeaf`] if there is no leaf of this number, or not 512 slots; the slots are then as they were. The call opens the grid anew.
    pub fn fill_leaf(&self, leaf: u64, slots: &mut [u32]) -> Result<(), ParseError> {
        sys::fill_leaf(self.file, self.descriptor.name, leaf, slots)
    }

    /// The same for the leaves from number `first` on, 512 slots each, with one opening of the grid.
    pub fn fill_leaves(&self, first: u64, slots: &mut [u32]) -> Result<(), ParseError> {
        sys::fill_leaves(self.file, self.descriptor.name, first, slots)
    }

    /// The origins, lowest voxels, of the leaves from number `first` on, as many as the three slices are long: where the leaves lie that
    /// [`fill_leaves`](Self::fill_leaves) gives the values of. Place p of a leaf is the voxel x = p / 64, y = p / 8 % 8, z = p % 8 from its origin on.
    ///
    /// [`ParseError::NoSuchLeaf`] if one of these leaves is not there, or the slices have different lengths; they are then as they were. The call opens
    /// the grid anew, once for all of them.
    pub fn leaf_origins(&self, first: u64, x: &mut [i32], y: &mut [i32], z: &mut [i32]) -> Result<(), ParseError> {
        sys::leaf_origins(self.file, self.descriptor.name, first, [x, y, z])
    }
}

impl fmt::Debug for Grid<'_> {
    fn fmt(&self, f: &mut fmt::Formatter<'_>) -> fmt::Result {
        f.debug_struct("Grid")
            .field("name", &Text(self.descriptor.name))
            .field("transform", &self.transform)
            .field("background", &self.background())
            .field("active_count", &self.active_count)
            .field("leaf_count", &self.leaf_count)
            .finish_non_exhaustive()
    }
}

impl<'f> IntoIterator for &Grid<'f> {
    type Item = ([i32; 3], f32, VdbLevel);
    type IntoIter = Iter<'f>;

    fn into_iter(self) -> Iter<'f> {
        self.iter()
    }
}

#[cfg(test)]
mod tests {
    use super::*;

    #[test]
    fn a_map_of_another_number_of_doubles_has_no_name() {
        let patterns = core::array::from_fn(|i| (i as f64).to_bits());
        for doubles in (0..=40).chain([u64::MAX]) {
            let map = Map::new(doubles, &patterns);
            match doubles {
                // include/vdb.h: the scale comes first, or behind the translation.
                15 => assert!(matches!(map, Ok(Map::UniformScaleMap { scale_values: [0.0, 1.0, 2.0], .. }))),
                18 => assert!(matches!(map, Ok(Map::ScaleTranslateMap { scale_values: [3.0, 4.0, 5.0], .. }))),
                _ => assert_eq!(map, Err(ParseError::UnknownAnswer)),
            }
        }
    }
}
