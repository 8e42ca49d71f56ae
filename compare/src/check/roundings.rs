//! The way from the sums of a channel to B once more, as it is and with a mistake in a rounding.

use std::cmp::Ordering;

use super::numbers::is_half;
use super::rules::Pair;
use super::shelves::Line;

/// Which of two whole numbers equally near is taken.
#[derive(Clone, Copy, Debug, PartialEq, Eq)]
pub enum Half {
    Even,
    Odd,
    Up,
    Down,
    AwayFromZero,
    TowardsZero,
}

/// Those that r does not take.
pub const WRONG_HALVES: [Half; 5] = [
    Half::Odd,
    Half::Up,
    Half::Down,
    Half::AwayFromZero,
    Half::TowardsZero,
];

/// The whole number nearest to a / b, b above 0.
pub fn nearest(a: i128, b: i128, half: Half) -> i128 {
    let below = a.div_euclid(b);
    let goes_up = match (2 * (a - below * b)).cmp(&b) {
        Ordering::Less => false,
        Ordering::Greater => true,
        Ordering::Equal => match half {
            Half::Even => below % 2 != 0,
            Half::Odd => below % 2 == 0,
            Half::Up => true,
            Half::Down => false,
            Half::AwayFromZero => a > 0,
            Half::TowardsZero => a < 0,
        },
    };
    below + i128::from(goes_up)
}

/// The places where r serves.
#[derive(Clone, Copy, Debug, PartialEq, Eq)]
pub enum Place {
    WarmMean,
    X,
    LinearPart,
    Bend,
    Tnl,
    ScanBias,
}

impl Place {
    pub fn name(self) -> &'static str {
        match self {
            Place::WarmMean => "warm mean",
            Place::X => "X",
            Place::LinearPart => "linear part",
            Place::Bend => "bend",
            Place::Tnl => "TNL",
            Place::ScanBias => "scan bias",
        }
    }
}

#[derive(Clone, Copy, Debug, PartialEq, Eq)]
pub enum RoundingMistake {
    /// Halves go another way in every place.
    Everywhere(Half),
    /// Halves go another way in one place.
    In(Place, Half),
    /// b is added to the mean before it is rounded.
    BInWarmMean,
    /// Tc is added to the linear part before it is rounded.
    TcInLinearPart,
    /// The linear part is counted back from Tw.
    LinearPartFromTw,
    /// c0 is added to the product before it is rounded.
    C0InScanBias,
    /// e × T alone is rounded, and T added to it.
    PartOfT,
    /// TNL of the pair before the shelf, and a rounded increment.
    IncrementFromBefore,
    /// The same from the pair behind it.
    IncrementFromBehind,
}

/// All mistakes, by the class that counts them. Where no number below 0 is rounded, away from 0 is up and towards 0
/// down.
pub const ROUNDING_MISTAKES: [(&str, RoundingMistake); 34] = [
    ("halves to odd", RoundingMistake::Everywhere(Half::Odd)),
    ("halves up", RoundingMistake::Everywhere(Half::Up)),
    ("halves down", RoundingMistake::Everywhere(Half::Down)),
    (
        "halves away from 0",
        RoundingMistake::Everywhere(Half::AwayFromZero),
    ),
    (
        "halves towards 0",
        RoundingMistake::Everywhere(Half::TowardsZero),
    ),
    (
        "halves to odd in the warm mean",
        RoundingMistake::In(Place::WarmMean, Half::Odd),
    ),
    (
        "halves up in the warm mean",
        RoundingMistake::In(Place::WarmMean, Half::Up),
    ),
    (
        "halves down in the warm mean",
        RoundingMistake::In(Place::WarmMean, Half::Down),
    ),
    (
        "halves to odd in X",
        RoundingMistake::In(Place::X, Half::Odd),
    ),
    ("halves up in X", RoundingMistake::In(Place::X, Half::Up)),
    (
        "halves down in X",
        RoundingMistake::In(Place::X, Half::Down),
    ),
    (
        "halves to odd in the linear part",
        RoundingMistake::In(Place::LinearPart, Half::Odd),
    ),
    (
        "halves up in the linear part",
        RoundingMistake::In(Place::LinearPart, Half::Up),
    ),
    (
        "halves down in the linear part",
        RoundingMistake::In(Place::LinearPart, Half::Down),
    ),
    (
        "halves to odd in the bend",
        RoundingMistake::In(Place::Bend, Half::Odd),
    ),
    (
        "halves up in the bend",
        RoundingMistake::In(Place::Bend, Half::Up),
    ),
    (
        "halves down in the bend",
        RoundingMistake::In(Place::Bend, Half::Down),
    ),
    (
        "halves away from 0 in the bend",
        RoundingMistake::In(Place::Bend, Half::AwayFromZero),
    ),
    (
        "halves towards 0 in the bend",
        RoundingMistake::In(Place::Bend, Half::TowardsZero),
    ),
    (
        "halves to odd in TNL",
        RoundingMistake::In(Place::Tnl, Half::Odd),
    ),
    (
        "halves up in TNL",
        RoundingMistake::In(Place::Tnl, Half::Up),
    ),
    (
        "halves down in TNL",
        RoundingMistake::In(Place::Tnl, Half::Down),
    ),
    (
        "halves away from 0 in TNL",
        RoundingMistake::In(Place::Tnl, Half::AwayFromZero),
    ),
    (
        "halves towards 0 in TNL",
        RoundingMistake::In(Place::Tnl, Half::TowardsZero),
    ),
    (
        "halves to odd in scan bias",
        RoundingMistake::In(Place::ScanBias, Half::Odd),
    ),
    (
        "halves up in scan bias",
        RoundingMistake::In(Place::ScanBias, Half::Up),
    ),
    (
        "halves down in scan bias",
        RoundingMistake::In(Place::ScanBias, Half::Down),
    ),
    ("b in the warm mean", RoundingMistake::BInWarmMean),
    ("Tc in the linear part", RoundingMistake::TcInLinearPart),
    (
        "linear part back from Tw",
        RoundingMistake::LinearPartFromTw,
    ),
    ("c0 in scan bias", RoundingMistake::C0InScanBias),
    ("T and a rounded part of it", RoundingMistake::PartOfT),
    (
        "TNL before and an increment",
        RoundingMistake::IncrementFromBefore,
    ),
    (
        "TNL behind and an increment",
        RoundingMistake::IncrementFromBehind,
    ),
];

impl RoundingMistake {
    /// The place without whose halves it makes no difference, or none where each will do.
    pub fn place(self) -> Option<Place> {
        match self {
            RoundingMistake::Everywhere(_) => None,
            RoundingMistake::In(place, _) => Some(place),
            RoundingMistake::BInWarmMean => Some(Place::WarmMean),
            RoundingMistake::TcInLinearPart | RoundingMistake::LinearPartFromTw => {
                Some(Place::LinearPart)
            }
            RoundingMistake::C0InScanBias | RoundingMistake::PartOfT => Some(Place::ScanBias),
            RoundingMistake::IncrementFromBefore | RoundingMistake::IncrementFromBehind => {
                Some(Place::Tnl)
            }
        }
    }

    /// Which of two equally near it takes in a place.
    fn half(self, place: Place) -> Half {
        match self {
            RoundingMistake::Everywhere(half) => half,
            RoundingMistake::In(own, half) if own == place => half,
            _ => Half::Even,
        }
    }
}

/// What the scenes of a channel with flag 0 are made of.
#[derive(Clone, Copy, Debug)]
pub struct ChannelParts {
    /// The sum of v p T, and of v p, which is above 0.
    pub q: i128,
    pub p: i128,
    pub b: i128,
    pub tc: i128,
    pub line: Line,
    /// D.
    pub d: i128,
}

/// A delivered scene: its N, its pair, its T and its B.
#[derive(Clone, Copy, Debug)]
pub struct ScenePart {
    pub n: i128,
    pub pair: Pair,
    pub t: i128,
    pub b: i128,
}

/// Two whole numbers of which r makes one.
#[derive(Clone, Copy, Debug)]
pub struct Rounded {
    pub place: Place,
    pub a: i128,
    pub b: i128,
}

impl Rounded {
    pub fn is_half(&self) -> bool {
        is_half(self.a, self.b)
    }

    /// Where a half goes: down where its lower neighbour is even, else up.
    pub fn way(&self) -> &'static str {
        let below = self.a.div_euclid(self.b);
        if below % 2 == 0 {
            "down"
        } else {
            "up"
        }
    }
}

impl ChannelParts {
    /// Of a channel of which Tc, Tw - Tc, TNL and D are kept.
    pub fn of_numbers(tc: i128, rise: i128, tnl: i128, d: i128) -> ChannelParts {
        ChannelParts {
            q: tc + rise,
            p: 1,
            b: 0,
            tc,
            line: Line {
                ends: [tnl; 2],
                parts: tnl,
                unit: 1,
            },
            d,
        }
    }

    /// Tw.
    pub fn tw(&self, mistake: Option<RoundingMistake>) -> i128 {
        let half = half_in(mistake, Place::WarmMean);
        match mistake {
            Some(RoundingMistake::BInWarmMean) => nearest(self.q + self.b * self.p, self.p, half),
            _ => nearest(self.q, self.p, half) + self.b,
        }
    }

    /// TNL.
    pub fn tnl(&self, mistake: Option<RoundingMistake>) -> i128 {
        let half = half_in(mistake, Place::Tnl);
        let Line { ends, parts, unit } = self.line;
        let increment = |end: i128| end + nearest(parts - end * unit, unit, half);
        match mistake {
            Some(RoundingMistake::IncrementFromBefore) => increment(ends[0]),
            Some(RoundingMistake::IncrementFromBehind) => increment(ends[1]),
            _ => nearest(parts, unit, half),
        }
    }

    /// The linear part at N.
    fn linear_part(&self, n: i128, tw: i128, mistake: Option<RoundingMistake>) -> i128 {
        let half = half_in(mistake, Place::LinearPart);
        let (d, tc) = (self.d, self.tc);
        match mistake {
            Some(RoundingMistake::TcInLinearPart) => nearest(n * (tw - tc) + tc * d, d, half) - tc,
            Some(RoundingMistake::LinearPartFromTw) => {
                tw - tc + nearest((n - d) * (tw - tc), d, half)
            }
            _ => nearest(n * (tw - tc), d, half),
        }
    }

    /// T at N, for a scene that is not outside.
    pub fn temperature(&self, n: i128, mistake: Option<RoundingMistake>) -> i128 {
        let (tw, tnl) = (self.tw(mistake), self.tnl(mistake));
        let x = nearest(65_536 * n, self.d, half_in(mistake, Place::X));
        let bend = 4 * x * (65_536 - x) * tnl;
        self.tc
            + self.linear_part(n, tw, mistake)
            + nearest(bend, 1 << 32, half_in(mistake, Place::Bend))
    }

    /// B at the N and with the pair of a scene.
    pub fn biased(&self, scene: &ScenePart, mistake: Option<RoundingMistake>) -> i128 {
        let t = self.temperature(scene.n, mistake);
        let half = half_in(mistake, Place::ScanBias);
        let Pair { c0, e } = scene.pair;
        match mistake {
            Some(RoundingMistake::C0InScanBias) => {
                nearest((65_536 + e) * t + 65_536 * c0, 65_536, half)
            }
            Some(RoundingMistake::PartOfT) => c0 + t + nearest(e * t, 65_536, half),
            _ => c0 + nearest((65_536 + e) * t, 65_536, half),
        }
    }

    /// What r makes Tw and TNL of.
    pub fn rounded_of_channel(&self) -> [Rounded; 2] {
        let of = |place: Place, a: i128, b: i128| Rounded { place, a, b };
        [
            of(Place::WarmMean, self.q, self.p),
            of(Place::Tnl, self.line.parts, self.line.unit),
        ]
    }

    /// What r makes X, the terms and B of a scene of; Tw, TNL and its T are known.
    pub fn rounded_of_scene(&self, [tw, tnl]: [i128; 2], scene: &ScenePart) -> [Rounded; 4] {
        let [x, linear_part, bend] = rounded_of_terms(scene.n, self.d, tw - self.tc, tnl);
        let scan_bias = Rounded {
            place: Place::ScanBias,
            a: (65_536 + scene.pair.e) * scene.t,
            b: 65_536,
        };
        [x, linear_part, bend, scan_bias]
    }
}

/// What r makes X, the linear part and the bend of at N, with D, Tw - Tc and TNL.
pub fn rounded_of_terms(n: i128, d: i128, rise: i128, tnl: i128) -> [Rounded; 3] {
    let of = |place: Place, a: i128, b: i128| Rounded { place, a, b };
    let x = nearest(65_536 * n, d, Half::Even);
    [
        of(Place::X, 65_536 * n, d),
        of(Place::LinearPart, n * rise, d),
        of(Place::Bend, 4 * x * (65_536 - x) * tnl, 1 << 32),
    ]
}

fn half_in(mistake: Option<RoundingMistake>, place: Place) -> Half {
    mistake.map_or(Half::Even, |mistake| mistake.half(place))
}

#[cfg(test)]
mod tests {
    use super::*;

    #[test]
    fn halves_go_the_way_that_is_said() {
        // 5/2, 7/2, -5/2 and -7/2.
        for (half, expected) in [
            (Half::Even, [2, 4, -2, -4]),
            (Half::Odd, [3, 3, -3, -3]),
            (Half::Up, [3, 4, -2, -3]),
            (Half::Down, [2, 3, -3, -4]),
            (Half::AwayFromZero, [3, 4, -3, -4]),
            (Half::TowardsZero, [2, 3, -2, -3]),
        ] {
            let rounded = [5, 7, -5, -7].map(|a| nearest(a, 2, half));
            assert_eq!(rounded, expected, "{half:?}");
            // Beside a half the nearest is taken.
            let beside = [9, 11, -9, -11].map(|a| nearest(a, 4, half));
            assert_eq!(beside, [2, 3, -2, -3], "{half:?}");
        }
    }

    /// A channel without halves: Tw is 1,000,000, TNL 8 and D 8.
    const PARTS: ChannelParts = ChannelParts {
        q: 1_000_000,
        p: 1,
        b: 0,
        tc: 20_000,
        line: Line {
            ends: [8, 8],
            parts: 8,
            unit: 1,
        },
        d: 8,
    };

    /// A scene without scan bias.
    fn scene(n: i128) -> ScenePart {
        ScenePart {
            n,
            pair: Pair { c0: 0, e: 0 },
            t: 0,
            b: 0,
        }
    }

    /// B without a mistake and with each of some.
    fn biased(parts: &ChannelParts, scene: &ScenePart, mistakes: &[RoundingMistake]) -> Vec<i128> {
        let with = mistakes.iter().copied().map(Some);
        let all = [None].into_iter().chain(with);
        all.map(|mistake| parts.biased(scene, mistake)).collect()
    }

    #[test]
    fn without_halves_no_mistake_shows() {
        for n in [0, 4, 8] {
            let right = PARTS.biased(&scene(n), None);
            for (class, mistake) in ROUNDING_MISTAKES {
                assert_eq!(PARTS.biased(&scene(n), Some(mistake)), right, "{class}");
            }
        }
    }

    #[test]
    fn a_half_of_the_warm_mean_shows_at_x_1() {
        // The mean is 1,000,000.5; with b it lies between the same neighbours, of which the other one is even.
        let parts = ChannelParts {
            q: 2_000_001,
            p: 2,
            b: 1,
            ..PARTS
        };
        let up = RoundingMistake::In(Place::WarmMean, Half::Up);
        let all = biased(&parts, &scene(8), &[up, RoundingMistake::BInWarmMean]);
        assert_eq!(all, [1_000_001, 1_000_002, 1_000_002]);
    }

    #[test]
    fn a_half_of_the_linear_part_shows_by_an_odd_tc_or_rise() {
        // Half of 980,001 is 490,000.5. Tc and Tw - Tc are odd; at x = 1/2 the bend is 8.
        let parts = ChannelParts {
            q: 1_000_002,
            tc: 20_001,
            ..PARTS
        };
        let all = biased(
            &parts,
            &scene(4),
            &[
                RoundingMistake::In(Place::LinearPart, Half::Odd),
                RoundingMistake::TcInLinearPart,
                RoundingMistake::LinearPartFromTw,
            ],
        );
        assert_eq!(all, [510_009, 510_010, 510_010, 510_010]);
    }

    #[test]
    fn a_half_of_tnl_shows_by_odd_ends() {
        // From 5 to 8 in 2 units: 6.5 midway. At x = 1/2 the bend is TNL.
        let parts = ChannelParts {
            line: Line {
                ends: [5, 8],
                parts: 13,
                unit: 2,
            },
            ..PARTS
        };
        let all = biased(
            &parts,
            &scene(4),
            &[
                RoundingMistake::In(Place::Tnl, Half::AwayFromZero),
                RoundingMistake::IncrementFromBefore,
                RoundingMistake::IncrementFromBehind,
            ],
        );
        assert_eq!(all, [510_006, 510_007, 510_007, 510_006]);
    }

    #[test]
    fn a_half_of_the_bend_shows_at_both_signs() {
        // At x = 1/4 the bend is 3/4 of TNL: 4.5 of 6.
        let line = |tnl: i128| Line {
            ends: [tnl; 2],
            parts: tnl,
            unit: 1,
        };
        let of = |half: Half| RoundingMistake::In(Place::Bend, half);
        let all = WRONG_HALVES.map(of);
        for (tnl, expected) in [
            (6, [4, 5, 5, 4, 5, 4]),
            (-6, [-4, -5, -4, -5, -5, -4]),
            (10, [8, 7, 8, 7, 8, 7]),
        ] {
            let parts = ChannelParts {
                line: line(tnl),
                ..PARTS
            };
            let bends = biased(&parts, &scene(2), &all);
            let bends: Vec<i128> = bends.into_iter().map(|b| b - 265_000).collect();
            assert_eq!(bends, expected, "TNL {tnl}");
        }
    }

    #[test]
    fn a_half_of_scan_bias_shows_by_an_odd_c0_or_t() {
        // At x = 1/2 T is 510,009 with this Tw; half of it is 255,004.5.
        let parts = ChannelParts {
            q: 1_000_002,
            ..PARTS
        };
        let with = |c0: i128, e: i128| ScenePart {
            pair: Pair { c0, e },
            ..scene(4)
        };
        let mistakes = [
            RoundingMistake::In(Place::ScanBias, Half::Up),
            RoundingMistake::C0InScanBias,
            RoundingMistake::PartOfT,
        ];
        let all = biased(&parts, &with(1, -32_768), &mistakes);
        assert_eq!(all, [255_005, 255_006, 255_006, 255_006]);
        let all = biased(&parts, &with(2, -32_768), &mistakes);
        assert_eq!(all, [255_006, 255_007, 255_006, 255_007]);
    }

    #[test]
    fn halves_of_x_are_those_of_its_numbers() {
        let parts = ChannelParts {
            d: 131_072,
            ..PARTS
        };
        let scene = scene(5);
        let [x, linear, bend, bias] = parts.rounded_of_scene([1_000_000, 8], &scene);
        // 2.5, 37.38.., 0.0012.. and 0.
        let halves = [x, linear, bend, bias].map(|one| one.is_half());
        assert_eq!(halves, [true, false, false, false]);
        assert_eq!((x.place, x.way()), (Place::X, "down"));
        let [mean, line] = parts.rounded_of_channel();
        assert!(!mean.is_half() && !line.is_half());
        let [x, _, _] = rounded_of_terms(3, 131_072, 980_000, 8);
        assert_eq!(x.way(), "up");
    }
}
