//! Halves that r meets in feeds, and the mistakes in a rounding that a product tells.

use super::counters::Counters;
use super::lists::checked_outcomes;
use super::outcomes::Outcome;
use super::roundings::{
    ChannelParts, Place, Rounded, RoundingMistake, ScenePart, ROUNDING_MISTAKES,
};
use super::states::checked_state_feed;
use crate::generator::halves::halves_list;
use crate::generator::lists::FeedList;
use crate::generator::states::StateFeed;
use crate::second::calibrator::Calibrator;
use crate::second::state;

/// Which half this is. Only the bend and TNL can be below 0: no T, weight, N of a delivered scene, Tw - Tc or
/// 65,536 + e is.
fn half_class(
    rounded: &Rounded,
    channel: usize,
    parts: &ChannelParts,
    scene: Option<&ScenePart>,
) -> Result<String, String> {
    let is_above = rounded.a > 0;
    let side = if is_above { "above 0" } else { "below 0" };
    let way = rounded.way();
    let is_past = scene.is_some_and(|scene| scene.n > parts.d);
    let x = if is_past { "x above 1" } else { "x below 1" };
    let is_raised = scene.is_some_and(|scene| scene.pair.e > 0);
    let e = if is_raised { "e above 0" } else { "e below 0" };
    let target = if channel < 15 { "KAV" } else { "WG" };
    let name = rounded.place.name();
    match rounded.place {
        Place::Bend => Ok(format!("{name} {side}, {x}, {way}")),
        Place::Tnl => Ok(format!("{name} {side}, {way}")),
        _ if !is_above => Err(format!("{name}: a half below 0")),
        Place::WarmMean => Ok(format!("{name} of {target}, {way}")),
        Place::X | Place::LinearPart => Ok(format!("{name}, {way}")),
        Place::ScanBias => Ok(format!("{name}, {e}, {way}")),
    }
}

/// The mistakes that give a delivered scene of a channel another B, as far as they were looked for.
struct Told {
    found: [bool; ROUNDING_MISTAKES.len()],
}

impl Told {
    /// Looks for mistakes in a scene in which these places have halves.
    fn look(&mut self, parts: &ChannelParts, scene: &ScenePart, halves: &[Place]) {
        let may_show = |mistake: RoundingMistake| match mistake.place() {
            None => true,
            Some(place) => halves.contains(&place),
        };
        for (found, (_, mistake)) in self.found.iter_mut().zip(ROUNDING_MISTAKES) {
            if !*found && may_show(mistake) {
                *found = parts.biased(scene, Some(mistake)) != scene.b;
            }
        }
    }
}

/// Counts the halves among what r makes of a channel, from index 0, or of one of its scenes: their places.
fn count_places(
    channel: usize,
    parts: &ChannelParts,
    scene: Option<&ScenePart>,
    all: &[Rounded],
    counters: &mut Counters,
) -> Result<Vec<Place>, String> {
    let mut places = Vec::new();
    for rounded in all.iter().filter(|rounded| rounded.is_half()) {
        counters.met("halves", &half_class(rounded, channel, parts, scene)?);
        if rounded.b > 1 << 32 {
            let class = format!("{}, D above 2^32", rounded.place.name());
            counters.met("halves", &class);
        }
        places.push(rounded.place);
    }
    Ok(places)
}

/// Counts the halves of a channel with flag 0, from index 0, in an accepted feed, and the mistakes by which one of
/// its delivered scenes would have another B.
pub fn count_halves(
    channel: usize,
    parts: &ChannelParts,
    scenes: &[ScenePart],
    counters: &mut Counters,
) -> Result<(), String> {
    let all = parts.rounded_of_channel();
    let of_channel = count_places(channel, parts, None, &all, counters)?;
    let means = [parts.tw(None), parts.tnl(None)];
    let mut told = Told {
        found: [false; ROUNDING_MISTAKES.len()],
    };
    for scene in scenes {
        let all = parts.rounded_of_scene(means, scene);
        let mut halves = count_places(channel, parts, Some(scene), &all, counters)?;
        halves.extend(&of_channel);
        if halves.is_empty() {
            continue;
        }
        if parts.biased(scene, None) != scene.b {
            return Err(format!("{scene:?} has another B without a mistake"));
        }
        told.look(parts, scene, &halves);
    }
    for (found, (class, _)) in told.found.into_iter().zip(ROUNDING_MISTAKES) {
        if found {
            counters.met("another product by", class);
        }
    }
    Ok(())
}

/// A list in whose last feed r meets halves.
pub struct HalvesCase {
    pub list: FeedList,
    /// What it leaves.
    pub outcomes: Vec<Outcome>,
    /// Its last feed, to the state before it.
    pub last: StateFeed,
}

/// The list of a seed, checked, and what it leaves.
pub fn checked_halves(seed: u64, counters: &mut Counters) -> Result<HalvesCase, String> {
    let list = halves_list(seed);
    let outcomes = checked_outcomes(&list, counters)?;
    let opened = Calibrator::of_files(&list.table, &list.bias);
    let mut calibrator = opened.expect("a list has an accepted table and bias file");
    let (last, before) = list.feeds.split_last().expect("a list with feeds");
    for feed in before {
        calibrator = calibrator
            .feed(&feed.record, &mut feed.buffer.clone())
            .calibrator;
    }
    let last = StateFeed {
        state: state::write(&calibrator),
        record: last.record.clone(),
        buffer: last.buffer.clone(),
    };
    Ok(HalvesCase {
        list,
        outcomes,
        last,
    })
}

/// Checks the list of a seed, and its last feed to the state before it.
pub fn check_halves(seed: u64, counters: &mut Counters) -> Result<(), String> {
    let case = checked_halves(seed, counters)?;
    checked_state_feed(&case.last, counters).map(drop)
}

#[cfg(test)]
mod tests {
    use super::*;
    use crate::check::rules::Pair;
    use crate::check::shelves::Line;

    /// A warm mean of 1,000,000.5 and TNL of -2.5; D is 8.
    const PARTS: ChannelParts = ChannelParts {
        q: 2_000_001,
        p: 2,
        b: 1,
        tc: 20_000,
        line: Line {
            ends: [-2, -3],
            parts: -5,
            unit: 2,
        },
        d: 8,
    };

    /// A scene at N with its own T and B.
    fn scene(parts: &ChannelParts, n: i128, pair: Pair) -> ScenePart {
        let mut scene = ScenePart {
            n,
            pair,
            t: parts.temperature(n, None),
            b: 0,
        };
        scene.b = parts.biased(&scene, None);
        scene
    }

    /// The classes that some scenes of a channel meet.
    fn met(
        channel: usize,
        parts: &ChannelParts,
        scenes: &[ScenePart],
        group: &'static str,
    ) -> Vec<&'static str> {
        let mut counters = Counters::new();
        count_halves(channel, parts, scenes, &mut counters).unwrap();
        let all = super::super::counters::CLASSES.iter();
        let (_, classes) = all.clone().find(|(name, _)| *name == group).unwrap();
        let is_met = |class: &&'static str| counters.count(group, class) > 0;
        classes.iter().copied().filter(is_met).collect()
    }

    #[test]
    fn halves_are_counted_by_place_side_and_way() {
        let none = Pair { c0: 0, e: 0 };
        let at_0 = scene(&PARTS, 0, none);
        let of_channel = ["warm mean of KAV, down", "TNL below 0, up"];
        assert_eq!(met(14, &PARTS, &[at_0], "halves"), of_channel);
        let of_channel = ["warm mean of WG, down", "TNL below 0, up"];
        assert_eq!(met(15, &PARTS, &[at_0], "halves"), of_channel);
        // At x = 1/4 the bend is 3/4 of -2, and at 5/4 it is -5/4 of it: -1.5 and 2.5.
        let two = [2, 10].map(|n| scene(&PARTS, n, none));
        let bends = [
            "bend above 0, x above 1, down",
            "bend below 0, x below 1, down",
        ];
        let all = met(14, &PARTS, &two, "halves");
        assert!(bends.iter().all(|class| all.contains(class)), "{all:?}");
        // Half of Tc is no half; of 20,001 it is one.
        let odd = ChannelParts {
            tc: 20_001,
            ..PARTS
        };
        let least = Pair { c0: 0, e: -32_768 };
        let halved = [scene(&PARTS, 0, least), scene(&odd, 0, least)];
        let class = "scan bias, e below 0, down";
        assert!(!met(14, &PARTS, &halved[..1], "halves").contains(&class));
        assert!(met(14, &odd, &halved[1..], "halves").contains(&class));
    }

    #[test]
    fn a_half_below_0_is_an_error_where_no_feed_reaches_it() {
        let parts = ChannelParts {
            q: -2_000_001,
            ..PARTS
        };
        let counted = count_halves(0, &parts, &[], &mut Counters::new());
        assert_eq!(counted, Err("warm mean: a half below 0".to_string()));
    }

    #[test]
    fn mistakes_are_counted_where_b_would_be_another() {
        let none = Pair { c0: 0, e: 0 };
        // At x = 1 Tw shows and the bend is 0; at x = 0 nothing shows.
        let at = |n: i128| [scene(&PARTS, n, none)];
        let group = "another product by";
        assert_eq!(met(0, &PARTS, &at(0), group), [""; 0]);
        assert_eq!(
            met(0, &PARTS, &at(8), group),
            [
                "halves to odd",
                "halves up",
                "halves away from 0",
                "halves to odd in the warm mean",
                "halves up in the warm mean",
                "b in the warm mean",
            ]
        );
        // A B that no rule gives.
        let mut wrong = at(8);
        wrong[0].b += 1;
        let counted = count_halves(0, &PARTS, &wrong, &mut Counters::new());
        assert!(counted.unwrap_err().contains("without a mistake"));
    }
}
