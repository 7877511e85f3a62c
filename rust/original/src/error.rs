//! Stands in for the original's errors: what is compiled here makes only this one.

#[derive(Debug)]
pub enum CodecError {
    InvalidFormat(String),
}
