//! A second, independent implementation of the sounder calibrator of document 01,
//! with the makers of inputs and the checks that compare with it.

// The implementation.
pub mod second;

// Inputs, checks of this implementation, and comparison of another one with it.
pub mod generator;

pub mod check;

pub mod against;

pub mod baseline;

#[cfg(feature = "proved")]
pub mod proved;
