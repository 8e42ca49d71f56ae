//! Bias files: values with an encoder.

#[derive(Clone, Copy, Debug, Default, PartialEq, Eq)]
pub struct PairValues {
    pub c0: i16,
    pub e: i16,
}

/// The values of a bias file, in range or not.
#[derive(Clone, Debug)]
pub struct BiasValues {
    /// By channel and position.
    pub pairs: [[PairValues; 96]; 22],
}

impl BiasValues {
    /// The bias file of the bench scan, which changes no temperature.
    pub fn zeros() -> BiasValues {
        BiasValues {
            pairs: [[PairValues::default(); 96]; 22],
        }
    }

    pub fn encode(&self) -> Vec<u8> {
        let mut bytes = vec![0x13, 0x21, 0x00];
        for pair in self.pairs.iter().flatten() {
            bytes.extend(pair.c0.to_be_bytes());
            bytes.extend(pair.e.to_be_bytes());
        }
        bytes
    }
}
