//! Checks of this implementation on generated inputs. Each can fail, and counts what it met.

pub mod counters;

pub mod numbers;

pub mod tables;

pub mod biases;

pub mod thermometers;

pub mod equations;

pub mod shelves;

pub mod rules;

pub mod roundings;

pub mod halves;

pub mod samples;

pub mod products;

pub mod outcomes;

pub mod lists;

pub mod twins;

pub mod one_shelf;

pub mod zeros;

pub mod calls;

pub mod listings;

pub mod kept_channels;

pub mod states;

pub mod six_numbers;

pub mod lookups;

pub mod run;
