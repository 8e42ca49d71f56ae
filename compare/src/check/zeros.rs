//! Checks of lists under their own bias file and under the file of zeros: what a bias file must not change,
//! and that zeros give the products by the rules without scan bias.

use super::counters::Counters;
use super::outcomes::{outcomes, Outcome};
use super::rules::{is_biased, pair};
use crate::generator::lists::{feed_list, FeedList};
use crate::second::calibrator::Calibrator;
use crate::second::product::{product_without_bias, scene_of, summary_of, LENGTH};
use crate::second::record::SCENES;
use crate::second::table::CHANNELS;

/// Whether a product is the one without scan bias but for its temperatures, and these are those without it
/// with their scan bias.
fn same_but_for_bias(
    product: &[u8],
    without: &[u8],
    bias: &[u8],
    counters: &mut Counters,
) -> Result<(), String> {
    if product[..35] != without[..35] {
        return Err("the bias file changes number or flags".to_string());
    }
    let (mut marks, mut moved) = (0, 0);
    for channel in 0..CHANNELS {
        let about = |what: &str| format!("channel {}: {what}", channel + 1);
        let delivered = |product: &[u8]| summary_of(product, channel).delivered;
        if delivered(product) != delivered(without) {
            return Err(about("the bias file changes the delivered count"));
        }
        for position in 0..SCENES {
            let scenes = [product, without].map(|one| scene_of(one, channel, position));
            let [b, t] = scenes.map(|value| (value as f64 * 4096.0) as i128);
            let [is_mark, was_mark] = scenes.map(|value| value < 0.0);
            if is_mark != was_mark || (was_mark && scenes[0].to_bits() != scenes[1].to_bits()) {
                return Err(about(&format!("position {}: another mark", position + 1)));
            }
            if was_mark {
                marks += 1;
                continue;
            }
            if !is_biased(b, t, pair(bias, channel, position)) {
                let what = format!("position {}: {b} of T {t}", position + 1);
                return Err(about(&what));
            }
            moved += u64::from(b != t);
        }
    }
    counters.met_times("under zeros", "marks compared", marks);
    counters.met_times("under zeros", "temperatures moved", moved);
    Ok(())
}

/// Feeds a list under the file of zeros and compares it with what the list left under its own.
pub fn checked_zeros(
    list: &FeedList,
    own: &[Outcome],
    counters: &mut Counters,
) -> Result<Vec<Outcome>, String> {
    let list_under_zeros = list.under_zeros();
    let opened = Calibrator::of_files(&list_under_zeros.table, &list_under_zeros.bias);
    let mut calibrator = opened.expect("a list has an accepted table");
    let mut all = Vec::new();
    for (index, feed) in list_under_zeros.feeds.iter().enumerate() {
        let about = |what: String| format!("feed {} under zeros: {what}", index + 1);
        let mut buffer = feed.buffer.clone();
        let fed = calibrator.feed(&feed.record, &mut buffer);
        calibrator = fed.calibrator;
        let answer = fed.answer.err().unwrap_or(0);
        if answer != own[index].answer {
            return Err(about(format!("{answer}, not {}", own[index].answer)));
        }
        if answer != 0 {
            counters.met("under zeros", "refused feeds");
        } else {
            let record = calibrator.roll().last().expect("a record was accepted");
            let without = product_without_bias(calibrator.table(), record, &calibrator.window());
            if buffer[..LENGTH] != without {
                return Err(about("not the product without scan bias".to_string()));
            }
            counters.met("under zeros", "products compared");
            let product = &own[index].buffer[..LENGTH];
            same_but_for_bias(product, &without, &list.bias, counters).map_err(about)?;
        }
        all.push(Outcome { answer, buffer });
    }
    Ok(all)
}

pub fn check_zeros(seed: u64, counters: &mut Counters) -> Result<(), String> {
    let list = feed_list(seed);
    checked_zeros(&list, &outcomes(&list), counters).map(drop)
}

#[cfg(test)]
mod tests {
    use super::*;
    use crate::generator::biases::{BiasValues, PairValues};
    use crate::generator::records::RecordValues;
    use crate::generator::tables::TableValues;

    /// The product of a bench scan with one scene outside, under a bias file with one pair that is not 0.
    fn products() -> (Vec<u8>, Vec<u8>, Vec<u8>) {
        let mut bias = BiasValues::zeros();
        bias.pairs[0][1] = PairValues { c0: 5, e: 16_384 };
        bias.pairs[0][0] = PairValues { c0: 9, e: 9 };
        let mut record = RecordValues::bench();
        record.earth[0][0] = 0;
        let product_under = |bias: &BiasValues| {
            let opened = Calibrator::of_files(&TableValues::bench().encode(), &bias.encode());
            let mut buffer = vec![0; LENGTH];
            let fed = opened.unwrap().feed(&record.encode(), &mut buffer);
            assert_eq!(fed.answer, Ok(()));
            buffer
        };
        let without = product_under(&BiasValues::zeros());
        (product_under(&bias), without, bias.encode())
    }

    #[test]
    fn every_part_is_compared() {
        let (product, without, bias) = products();
        let checked = |change: &dyn Fn(&mut [u8])| {
            let mut product = product.clone();
            change(&mut product);
            same_but_for_bias(&product, &without, &bias, &mut Counters::new())
        };
        assert_eq!(checked(&|_| {}), Ok(()));
        let put = |at: usize, value: f32| {
            move |product: &mut [u8]| {
                product[at..at + 4].copy_from_slice(&value.to_bits().to_be_bytes())
            }
        };
        // 5/4 × 565,394 = 706,742.5, of which the even neighbour is 706,742; and 5.
        let right = 706_747.0 / 4096.0;
        assert_eq!(checked(&put(39, right)), Ok(()));
        let unit = 1.0 / 4096.0;
        assert!(checked(&put(39, right - unit))
            .unwrap_err()
            .contains("of T"));
        assert!(checked(&put(39, right + unit))
            .unwrap_err()
            .contains("of T"));
        assert!(checked(&put(39, -2.0)).unwrap_err().contains("mark"));
        assert!(checked(&put(35, -1.0)).unwrap_err().contains("mark"));
        assert!(checked(&put(35, right)).unwrap_err().contains("mark"));
        let byte = |at: usize| checked(&|product: &mut [u8]| product[at] ^= 1).unwrap_err();
        assert!(byte(6).contains("number"));
        assert!(byte(31).contains("flags"));
        assert!(byte(8_487).contains("count"));
    }
}
