//! Stands in for the generator's errors; it makes only this one.

pub enum Error {
    CodegenError { message: String },
}

pub type Result<T> = std::result::Result<T, Error>;
