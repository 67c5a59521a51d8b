//! Stands in for the crate's own root, which is not supplied: the modules, and the one name that the
//! files look for here.
pub mod coordinates;
pub mod data_structure;
pub mod reader;
pub mod transform;

pub use reader::OPENVDB_FILE_VERSION_NODE_MASK_COMPRESSION;
