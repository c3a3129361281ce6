//! Stands in for the library's errors: the two cases that the unchanged files build.

#[derive(Debug)]
pub enum Error {
    InvalidConfig(String),
    DistanceError(String),
}

pub type Result<T> = std::result::Result<T, Error>;
