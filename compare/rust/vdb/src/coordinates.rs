//! Stands in for the crate's own module, which is not supplied: what the three files use of it.

/// A place number in a node.
pub struct Index(pub u32);

/// A place in a node.
pub struct LocalCoord(pub glam::UVec3);

/// A voxel.
pub struct GlobalCoord(pub glam::IVec3);
