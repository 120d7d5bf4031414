//! What the two programs share: made-up inputs, and the plain Rust behind the same functions as the proved code.

#![forbid(unsafe_code)]

pub mod inputs;
pub mod plain;
