//! What stands in for the parts of the library that the unchanged files import.

pub mod camera_motion;
pub mod desk;
pub mod detection;
pub mod distances;
pub mod error;
pub mod filters;
pub mod numpy;
