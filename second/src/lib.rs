//! An independent second reader of Quake DEM recordings.
//!
//! Written from document 01 and the source documents alone, so that it can be
//! wrong in other places than the definitions it is run beside.

pub mod bench;
pub mod cases;
pub mod compare;
pub mod fast;
pub mod gen;
pub mod given;
pub mod message;
pub mod mix;
pub mod read;
pub mod scene;
pub mod text;
pub mod write;
