//! The independent second program of document 01, "Listings to compare":
//! the same answers as the library, worked out from the document alone.

pub mod certificate;
pub mod circuit;
pub mod count;
pub mod damage;
pub mod game;
pub mod listing;
pub mod moves;
pub mod print;
pub mod reader;
pub mod refusal;
pub mod step;
