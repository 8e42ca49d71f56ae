//! Makers of inputs that aim at edges. Every maker takes a seed and gives the same for the same.
//!
//! The encoders share no code with the parsers. Where an edge depends on the rules, such as a
//! count at which a scene turns outside, the rules of `second` are asked where it lies; what is
//! made are inputs only, so a wrong rule would at most miss its aim.

pub mod random;

pub mod layouts;

pub mod numbers;

pub mod neighbour;

pub mod tables;

pub mod shelves;

pub mod table_neighbours;

pub mod random_tables;

pub mod biases;

pub mod bias_neighbours;

pub mod random_biases;

pub mod records;

pub mod ratios;

pub mod thermometers;

pub mod counts;

pub mod scenes;

pub mod lists;

pub mod twins;

pub mod one_shelf;

pub mod streams;

pub mod listings;

pub mod laid_out;

pub mod kept_channels;

pub mod states;

pub mod weighted_sides;

pub mod aimed_windows;

pub mod six_numbers;

pub mod halves;

pub mod lookups;

pub mod equations;
