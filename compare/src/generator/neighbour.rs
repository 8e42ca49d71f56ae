//! What a neighbour of an input is.

/// An input close to another one, and the answer planned for it: 0 for accepted, or the number
/// of the refusal.
#[derive(Clone, Debug)]
pub struct Neighbour {
    pub description: String,
    pub bytes: Vec<u8>,
    pub answer: u8,
}
