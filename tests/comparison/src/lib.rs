//! The report player and the second engine side by side: the same documents, sessions and calls
//! are handed to both, and all that they give back is compared byte for byte.

pub mod compare;
pub mod flat;
pub mod player;
pub mod printed;
pub mod reports;
pub mod runs;
