//! The calibrator of document 01 with scan bias and shelf temperatures, word by word. It keeps the plain roll
//! and nothing worked out of it: every product is computed from all accepted records, from scratch. What a
//! state says stands before the roll.
//!
//! Nothing here imports from the rest of the crate, outside unit tests.

// In the order of the data.
pub mod rounding;

pub mod bytes;

pub mod thermometer;

pub mod wide;

pub mod equation;

pub mod table;

pub mod record;

pub mod bias;

pub mod acceptance;

pub mod window;

pub mod shelf;

pub mod scene;

pub mod constants;

pub mod product;

pub mod calibrator;

pub mod lookup;

pub mod state;

pub mod listing;

pub mod station;
