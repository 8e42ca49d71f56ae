//! The operations as one would write them by hand in plain Rust with i64, to measure speed against.
//!
//! Nothing here is shared with the second implementation; the tests compare the answers with it.

mod bytes;

mod thermometer;

mod shelf;

mod table;

mod bias;

mod acceptance;

mod window;

mod scene;

mod product;

mod calibrator;

pub use acceptance::accepted_scan;
pub use bias::{open_bias, Bias};
pub use calibrator::Calibrator;
pub use product::write_product;
pub use scene::Constants;
pub use table::{open, Table};
pub use thermometer::thermometer;
