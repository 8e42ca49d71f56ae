//! The product.

use super::bias::{Bias, Pair, POSITIONS};
use super::bytes::u16_at;
use super::scene::{scene, Constants, Scene};
use super::table::CHANNELS;

pub const LENGTH: usize = 8_706;

/// Bytes of the scenes, the earth counts and the summary of a channel.
const SCENE_BYTES: usize = 4 * POSITIONS;
const EARTH_BYTES: usize = 2 * POSITIONS;
const SUMMARY_BYTES: usize = 10;

/// The f32 of a flagged channel's scenes, and of both temperatures where none is delivered.
const NONE: f32 = -1.0;

#[derive(Clone, Copy, Debug)]
struct Summary {
    delivered: u16,
    lowest: f32,
    highest: f32,
}

impl Summary {
    const EMPTY: Summary = Summary {
        delivered: 0,
        lowest: f32::INFINITY,
        highest: f32::NEG_INFINITY,
    };

    #[inline(always)]
    fn add(&mut self, kelvin: f32) {
        self.delivered += 1;
        if kelvin < self.lowest {
            self.lowest = kelvin;
        }
        if kelvin > self.highest {
            self.highest = kelvin;
        }
    }

    fn write(&self, bytes: &mut [u8]) {
        let (lowest, highest) = match self.delivered {
            0 => (NONE, NONE),
            _ => (self.lowest, self.highest),
        };
        bytes[..2].copy_from_slice(&self.delivered.to_be_bytes());
        bytes[2..6].copy_from_slice(&lowest.to_be_bytes());
        bytes[6..].copy_from_slice(&highest.to_be_bytes());
    }
}

/// Writes the scenes of a channel with flag 0.
fn write_scenes(bytes: &mut [u8], k: &Constants, pairs: &[Pair], earth: &[u8]) -> Summary {
    let mut summary = Summary::EMPTY;
    let scenes = bytes.chunks_exact_mut(4).zip(earth.chunks_exact(2));
    for ((bytes, count), pair) in scenes.zip(pairs) {
        let scene = scene(k, *pair, u16_at(count, 0));
        if let Scene::Kelvin(kelvin) = scene {
            summary.add(kelvin);
        }
        bytes.copy_from_slice(&scene.bits().to_be_bytes());
    }
    summary
}

fn write_flagged(bytes: &mut [u8]) {
    for bytes in bytes.chunks_exact_mut(4) {
        bytes.copy_from_slice(&NONE.to_be_bytes());
    }
}

/// Writes the product to the front of a buffer that it fits into and gives the count of delivered
/// scenes. `earth` is the value of field 0x05.
pub fn write_product(
    buffer: &mut [u8],
    number: u32,
    flags: &[u8; CHANNELS],
    constants: &[Constants; CHANNELS],
    bias: &Bias,
    earth: &[u8],
) -> u32 {
    let (front, rest) = buffer[..LENGTH].split_at_mut(35);
    front[..3].copy_from_slice(&[0x20, 0, 4]);
    front[3..7].copy_from_slice(&number.to_be_bytes());
    front[7..10].copy_from_slice(&[0x21, 0, 22]);
    front[10..32].copy_from_slice(flags);
    front[32..].copy_from_slice(&[0x22, 0x21, 0]);
    let (scenes, rest) = rest.split_at_mut(CHANNELS * SCENE_BYTES);
    let (head, summaries) = rest.split_at_mut(3);
    head.copy_from_slice(&[0x23, 0, 220]);

    let mut delivered = 0;
    let earth = earth.chunks_exact(EARTH_BYTES);
    let scenes = scenes.chunks_exact_mut(SCENE_BYTES);
    let summaries = summaries.chunks_exact_mut(SUMMARY_BYTES);
    let parts = earth.zip(scenes).zip(summaries).zip(bias.channels());
    for (channel, (((earth, scenes), bytes), pairs)) in parts.enumerate() {
        let summary = if flags[channel] == 0 {
            write_scenes(scenes, &constants[channel], pairs, earth)
        } else {
            write_flagged(scenes);
            Summary::EMPTY
        };
        summary.write(bytes);
        delivered += u32::from(summary.delivered);
    }
    delivered
}
