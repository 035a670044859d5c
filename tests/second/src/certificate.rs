//! Document 01, "The certificate": its records, the writer, the checker and
//! the readers of a certificate that passed.

pub mod checker;
pub mod packing;
pub mod records;
pub mod view;
pub mod writer;
