//! Tables: values with an encoder.

#[derive(Clone, Copy, Debug)]
pub struct ThermometerValues {
    pub weight: u8,
    pub resistance: u32,
    pub alpha: u32,
    pub delta: u32,
    pub beta: u32,
}

/// A shelf temperature and the TNL at it.
#[derive(Clone, Copy, Debug, PartialEq, Eq)]
pub struct ShelfPairValues {
    pub temperature: i32,
    pub nonlinearity: i16,
}

#[derive(Clone, Copy, Debug)]
pub struct ChannelValues {
    pub warm_low: u16,
    pub warm_upp: u16,
    pub warm_difference: u16,
    pub cold_low: u16,
    pub cold_upp: u16,
    pub cold_difference: u16,
    pub warm_bias: i16,
    pub rayleigh_jeans: u16,
    pub side_lobe: u16,
    /// The TNL of field 0x12, which has to be 0.
    pub zero_nonlinearity: i16,
    pub shelf_pairs: [ShelfPairValues; 5],
}

/// The values of a table, in range or not.
#[derive(Clone, Debug)]
pub struct TableValues {
    pub count_weights: [u8; 8],
    pub thermometer_weights: [u8; 8],
    pub thermometer_percentage: u8,
    pub warm_percentage: u8,
    pub cold_percentage: u8,
    pub least_good_kav: u8,
    pub least_good_wg: u8,
    pub pam_resistance: u32,
    pub lowest_t: i32,
    pub highest_t: i32,
    pub temperature_difference: u32,
    pub thermometers: [ThermometerValues; 15],
    pub channels: [ChannelValues; 22],
}

impl TableValues {
    /// The table of the bench scan.
    pub fn bench() -> TableValues {
        let thermometer = ThermometerValues {
            weight: 1,
            resistance: 2_000_000,
            alpha: 3_850_000,
            delta: 1_500_000,
            beta: 0,
        };
        let shelf_pairs =
            [-245_760, -122_880, 0, 122_880, 245_760].map(|temperature| ShelfPairValues {
                temperature,
                nonlinearity: 400,
            });
        let channel = ChannelValues {
            warm_low: 0,
            warm_upp: 65_535,
            warm_difference: 50,
            cold_low: 0,
            cold_upp: 65_535,
            cold_difference: 50,
            warm_bias: 0,
            rayleigh_jeans: 0,
            side_lobe: 0,
            zero_nonlinearity: 0,
            shelf_pairs,
        };
        TableValues {
            count_weights: [1, 0, 0, 0, 0, 0, 0, 0],
            thermometer_weights: [1, 0, 0, 0, 0, 0, 0, 0],
            thermometer_percentage: 100,
            warm_percentage: 100,
            cold_percentage: 100,
            least_good_kav: 5,
            least_good_wg: 4,
            pam_resistance: 2_000_000,
            lowest_t: -245_760,
            highest_t: 245_760,
            temperature_difference: 100,
            thermometers: [thermometer; 15],
            channels: [channel; 22],
        }
    }

    pub fn encode(&self) -> Vec<u8> {
        let mut bytes = vec![0x10, 0, 37];
        bytes.extend(self.count_weights);
        bytes.extend(self.thermometer_weights);
        bytes.push(self.thermometer_percentage);
        bytes.push(self.warm_percentage);
        bytes.push(self.cold_percentage);
        bytes.push(self.least_good_kav);
        bytes.push(self.least_good_wg);
        bytes.extend(self.pam_resistance.to_be_bytes());
        bytes.extend(self.lowest_t.to_be_bytes());
        bytes.extend(self.highest_t.to_be_bytes());
        bytes.extend(self.temperature_difference.to_be_bytes());
        bytes.extend([0x11, 0, 255]);
        for thermometer in &self.thermometers {
            bytes.push(thermometer.weight);
            bytes.extend(thermometer.resistance.to_be_bytes());
            bytes.extend(thermometer.alpha.to_be_bytes());
            bytes.extend(thermometer.delta.to_be_bytes());
            bytes.extend(thermometer.beta.to_be_bytes());
        }
        bytes.extend([0x12, 1, 184]);
        for channel in &self.channels {
            bytes.extend(channel.warm_low.to_be_bytes());
            bytes.extend(channel.warm_upp.to_be_bytes());
            bytes.extend(channel.warm_difference.to_be_bytes());
            bytes.extend(channel.cold_low.to_be_bytes());
            bytes.extend(channel.cold_upp.to_be_bytes());
            bytes.extend(channel.cold_difference.to_be_bytes());
            bytes.extend(channel.warm_bias.to_be_bytes());
            bytes.extend(channel.rayleigh_jeans.to_be_bytes());
            bytes.extend(channel.side_lobe.to_be_bytes());
            bytes.extend(channel.zero_nonlinearity.to_be_bytes());
        }
        bytes.extend([0x14, 2, 148]);
        for pair in self.channels.iter().flat_map(|one| one.shelf_pairs) {
            bytes.extend(pair.temperature.to_be_bytes());
            bytes.extend(pair.nonlinearity.to_be_bytes());
        }
        bytes
    }

    /// The weights p of KAV (false) or WG (true).
    pub fn set_target_weights(&mut self, wg: bool, weights: &[u8]) {
        let first = if wg { 8 } else { 0 };
        for (index, weight) in weights.iter().enumerate() {
            self.thermometers[first + index].weight = *weight;
        }
    }
}
