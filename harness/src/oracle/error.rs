//! In place of src/error.rs.
#[derive(Debug)]
pub enum Error {
    IllegalArgument(String),
    Corrupt(String),
}

pub type Result<T> = std::result::Result<T, Error>;

pub fn corrupt(message: impl Into<String>) -> Error {
    Error::Corrupt(message.into())
}
