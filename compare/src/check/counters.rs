//! Counters of what a run has met. A class that a whole run never met is a failure.

use std::collections::BTreeMap;

const CHANNEL_NUMBERS: &[&str] = &[
    "1", "2", "3", "4", "5", "6", "7", "8", "9", "10", "11", "12", "13", "14", "15", "16", "17",
    "18", "19", "20", "21", "22",
];

/// What pairs of a channel may have.
const PAIR_CLASSES: &[&str] = &[
    "one unit apart",
    "four times one unit apart",
    "491517 apart",
    "first at -245760",
    "last at 245760",
    "TNL -8192",
    "TNL 8192",
];

/// Where a bracketed t and its measured ratio stand.
const BRACKET_CLASSES: &[&str] = &[
    "t -245760",
    "t -245760, beta 0",
    "t -245760, beta 500000",
    "t -2",
    "t -1",
    "t 0",
    "t 1",
    "t 245759",
    "t 245760",
    "ratio at t equal to the measured ratio",
    "ratio at t above the measured ratio",
    "ratio at t + 1 not above the measured ratio",
    "below 0, beta 0",
    "below 0, beta 500000",
    "at or above 0, beta 0",
    "at or above 0, beta 500000",
    "delta 0",
    "delta 2000000",
    "alpha 3000000",
    "alpha 5000000",
    "R_PAM 1000",
    "R_PAM 4000000",
    "R0 1000",
    "R0 4000000",
    "offset above 0",
];

/// Why bytes are no state: the reason that holds alone, or more than one.
const NO_STATE_REASONS: &[&str] = &[
    "fewer bytes",
    "head",
    "head of 0x36",
    "magic number",
    "version",
    "table 2",
    "table 3",
    "bias 2",
    "bias 3",
    "first byte",
    "number but no scan",
    "warm value",
    "cold value",
    "thermometer value",
    "value but no scan",
    "value at an age above the number",
    "head of 0x37",
    "first number of 0x37",
    "channel but nothing kept",
    "kept but no scan",
    "kept flag",
    "number beside a flag",
    "Tc",
    "Tw - Tc",
    "TNL",
    "D",
    "12 Wc Ww",
    "Ac Ww",
    "more than one",
];

/// All classes, by group. Every one must be met in a run of the default size.
pub const CLASSES: &[(&str, &[&str])] = &[
    ("division", &["exact", "not exact", "negative"]),
    (
        "half of a division",
        &[
            "above 0, down",
            "above 0, up",
            "below 0, down",
            "below 0, up",
            "1/2",
            "-1/2",
            "b 2",
            "b 2^63 - 2",
            "a -2^63 + 1",
            "a 2^63 - 1",
        ],
    ),
    (
        "beside a half of a division",
        &[
            "even b, below",
            "even b, above",
            "odd b, below",
            "odd b, above",
        ],
    ),
    (
        "b of a division",
        &["1", "2", "odd", "even", "2^63 - 2", "2^63 - 1"],
    ),
    ("table answer", &["accepted", "1", "2", "3"]),
    ("table length", &["0", "741", "1403", "1405"]),
    ("pairs of an accepted table", PAIR_CLASSES),
    (
        "one wrong value of TNL",
        &[
            "equal temperatures",
            "temperatures falling by 1",
            "temperatures falling",
            "temperature -245761",
            "temperature 245761",
            "temperature farther outside",
            "TNL -8193",
            "TNL 8193",
            "TNL farther outside",
            "TNL of 0x12 -1",
            "TNL of 0x12 1",
            "TNL of 0x12 other",
        ],
    ),
    ("channel of a wrong value of TNL", CHANNEL_NUMBERS),
    ("bias answer", &["accepted", "1", "2", "3"]),
    (
        "two refusals of a bias file",
        &["1 and 2", "1 and 3", "2 and 3"],
    ),
    ("bias file length", &["0", "8450", "8452"]),
    ("c0 of a bias file", &["-4097", "-4096", "4096", "4097"]),
    ("e of a bias file", &["-32768", "32767"]),
    (
        "one c0 outside",
        &["first pair", "last pair", "another pair"],
    ),
    ("thermometer answer", &["t", "8", "9", "10"]),
    (
        "thermometer edge",
        &[
            "M at F(t)",
            "M one below F(t + 1)",
            "M at lower end",
            "M below lower end",
            "M at upper end",
            "M above upper end",
            "M at lower end, beta at its end",
            "M below lower end, beta at its end",
            "M at upper end, beta at its end",
            "M above upper end, beta at its end",
            "count at offset",
            "count below offset",
            "PAM at offset",
            "PAM below offset",
            "8 and 9",
            "9 and 10",
        ],
    ),
    (
        "M near F(0)",
        &[
            "at F(-1)",
            "between F(-1) and F(0)",
            "one below F(0)",
            "at F(0)",
            "between F(0) and F(1)",
            "one below F(1)",
            "at F(1)",
        ],
    ),
    (
        "t near 0",
        &[
            "-1, beta 0",
            "-1, beta between",
            "-1, beta at its end",
            "0, beta 0",
            "0, beta between",
            "0, beta at its end",
            "1, beta 0",
            "1, beta between",
            "1, beta at its end",
        ],
    ),
    (
        "another answer by",
        &[
            "cut of s1",
            "cut of F",
            "fourth-degree term above 0",
            "fourth-degree term above 0, at 100",
            "fourth-degree term above 0, below 1 °C",
            "fourth-degree term above 0, t for 10",
            "no fourth-degree term",
            "no fourth-degree term, at -5060",
            "no fourth-degree term, above -2 °C",
            "no fourth-degree term, 10 for t",
        ],
    ),
    ("thermometer against the equation", BRACKET_CLASSES),
    (
        "bracket broken by",
        &[
            "beta above 0 too",
            "no beta below 0",
            "beta with the other sign",
            "delta with the other sign",
            "T/100 + 1",
            "T/100 squared",
            "alpha 20 more",
            "alpha 20 less",
            "PAM and count exchanged",
            "R_PAM and R0 exchanged",
            "offset left in",
        ],
    ),
    (
        "F against the equation",
        &[
            "t -245760",
            "t -2",
            "t -1",
            "t 0",
            "t 1",
            "t 2",
            "t 245760",
            "below it",
            "at it",
            "above it",
            "below it by more than 9/10",
            "above it by more than 1/10",
        ],
    ),
    (
        "F at a corner of the coefficients",
        &[
            "alpha 3000000, delta 0, beta 0",
            "alpha 3000000, delta 0, beta 500000",
            "alpha 3000000, delta 2000000, beta 0",
            "alpha 3000000, delta 2000000, beta 500000",
            "alpha 5000000, delta 0, beta 0",
            "alpha 5000000, delta 0, beta 500000",
            "alpha 5000000, delta 2000000, beta 0",
            "alpha 5000000, delta 2000000, beta 500000",
        ],
    ),
    (
        "F beyond 2 by",
        &[
            "beta above 0 too",
            "no beta below 0",
            "beta with the other sign",
            "delta with the other sign",
            "T/100 + 1",
            "T/100 squared",
            "alpha 1 more",
            "alpha 1 less",
        ],
    ),
    ("feed answer", &["accepted", "4", "5", "6", "7"]),
    (
        "two refusals",
        &["4 and 7", "5 and 6", "5 and 7", "6 and 7"],
    ),
    ("record length", &["0", "1", "4629", "4647", "4649"]),
    ("first number", &["0", "4294967295", "other"]),
    (
        "number ahead",
        &["1", "2", "3", "4", "5", "6", "7", "8", "9", "more"],
    ),
    ("number behind", &["equal", "lower"]),
    ("buffer", &["0", "8705", "8706", "8707", "longer"]),
    (
        "target readings",
        &[
            "rule refuses",
            "at T_low",
            "below T_low by one",
            "at T_upp",
            "above T_upp by one",
            "difference dT",
            "difference dT + 1",
            "one rival differs",
            "dropped by two rivals",
            "dropped by more",
            "least number met exactly",
            "least number missed by one",
            "accepted without weight",
        ],
    ),
    (
        "accepted thermometers",
        &[
            "target below 0",
            "target at or above 0",
            "target on both sides of 0",
            "KAV and WG below 0",
            "KAV and WG at or above 0",
            "KAV below 0, WG at or above",
            "WG below 0, KAV at or above",
            "t -1",
            "t 0",
            "t 1",
            "below 0, beta 0",
            "below 0, beta at its end",
            "at or above 0, beta 0",
            "at or above 0, beta at its end",
            "another T by fourth-degree term above 0",
            "another T by no fourth-degree term",
        ],
    ),
    ("accepted thermometer against the equation", BRACKET_CLASSES),
    ("good warm counts", &["0", "1", "2", "3", "4"]),
    ("good cold counts", &["0", "1", "2", "3", "4"]),
    (
        "counts",
        &[
            "at low",
            "one below low",
            "at upp",
            "one above upp",
            "at difference",
            "one beyond difference",
        ],
    ),
    (
        "warm and cold",
        &[
            "overlap by more",
            "overlap by 1",
            "equal",
            "1 apart",
            "farther apart",
        ],
    ),
    ("bad side", &["warm only", "cold only", "both"]),
    ("window age", &["0", "1", "2", "3", "4", "5", "6", "7"]),
    (
        "records in window",
        &["1", "2", "3", "4", "5", "6", "7", "8"],
    ),
    ("scan value of", &["3 counts", "4 counts"]),
    ("flag", &["0", "1", "2", "3", "4"]),
    (
        "thermometer percentage",
        &["met exactly", "missed by one weight"],
    ),
    ("warm percentage", &["met exactly", "missed by one weight"]),
    ("cold percentage", &["met exactly", "missed by one weight"]),
    ("D with weights", &["negative", "0", "1", "above 1"]),
    ("scene", &["delivered", "-1", "-2"]),
    (
        "x",
        &[
            "one count below 0",
            "at 0",
            "at 1",
            "at 1.25",
            "one count beyond 1.25",
        ],
    ),
    ("rounding of a scene", &["within 1 of E", "beyond 1 of E"]),
    (
        "halves",
        &[
            "warm mean of KAV, down",
            "warm mean of KAV, up",
            "warm mean of WG, down",
            "warm mean of WG, up",
            "X, down",
            "X, up",
            "X, D above 2^32",
            "linear part, down",
            "linear part, up",
            "linear part, D above 2^32",
            "bend above 0, x below 1, down",
            "bend above 0, x below 1, up",
            "bend above 0, x above 1, down",
            "bend above 0, x above 1, up",
            "bend below 0, x below 1, down",
            "bend below 0, x below 1, up",
            "bend below 0, x above 1, down",
            "bend below 0, x above 1, up",
            "TNL above 0, down",
            "TNL above 0, up",
            "TNL below 0, down",
            "TNL below 0, up",
            "scan bias, e above 0, down",
            "scan bias, e above 0, up",
            "scan bias, e below 0, down",
            "scan bias, e below 0, up",
        ],
    ),
    (
        "another product by",
        &[
            "halves to odd",
            "halves up",
            "halves down",
            "halves away from 0",
            "halves towards 0",
            "halves to odd in the warm mean",
            "halves up in the warm mean",
            "halves down in the warm mean",
            "halves to odd in X",
            "halves up in X",
            "halves down in X",
            "halves to odd in the linear part",
            "halves up in the linear part",
            "halves down in the linear part",
            "halves to odd in the bend",
            "halves up in the bend",
            "halves down in the bend",
            "halves away from 0 in the bend",
            "halves towards 0 in the bend",
            "halves to odd in TNL",
            "halves up in TNL",
            "halves down in TNL",
            "halves away from 0 in TNL",
            "halves towards 0 in TNL",
            "halves to odd in scan bias",
            "halves up in scan bias",
            "halves down in scan bias",
            "b in the warm mean",
            "Tc in the linear part",
            "linear part back from Tw",
            "c0 in scan bias",
            "T and a rounded part of it",
            "TNL before and an increment",
            "TNL behind and an increment",
        ],
    ),
    (
        "scan bias",
        &[
            "none",
            "c0 at -4096",
            "c0 at 4096",
            "e at -32768",
            "e at 32767",
            "half, e above 0",
            "half, e below 0",
            "half, odd e above 0",
            "half, odd e below 0",
            "within 2 of equation 30",
            "beyond 2 of equation 30",
            "another scene is lowest",
            "another scene is highest",
        ],
    ),
    (
        "thermometers behind delivered scenes",
        &["below 0", "at or above 0", "on both sides of 0"],
    ),
    (
        "shelf of delivered scenes",
        &[
            "one below pair 1",
            "at pair 1",
            "one above pair 1",
            "one below pair 2",
            "at pair 2",
            "one above pair 2",
            "one below pair 3",
            "at pair 3",
            "one above pair 3",
            "one below pair 4",
            "at pair 4",
            "one above pair 4",
            "one below pair 5",
            "at pair 5",
            "one above pair 5",
            "between two pairs",
            "below all pairs",
            "above all pairs",
            "at the lower end of i32",
            "at the upper end of i32",
        ],
    ),
    ("pairs of delivered scenes", PAIR_CLASSES),
    (
        "line between two pairs",
        &[
            "level",
            "rising",
            "falling",
            "from -8192 to 8192",
            "from 8192 to -8192",
            "through 0",
            "over 491517 units",
        ],
    ),
    (
        "rounding of TNL",
        &[
            "exact, at or above 0",
            "exact, below 0",
            "down, at or above 0",
            "down, below 0",
            "half, at or above 0",
            "half, below 0",
            "up, at or above 0",
            "up, below 0",
            "-1/2 to 0",
            "1/2 to 0",
        ],
    ),
    (
        "one shelf apart",
        &[
            "lists compared",
            "feeds after it",
            "other channels",
            "own channels, same TNL",
            "own channels, other TNL",
            "KKA alone",
            "V alone",
            "W alone",
            "G alone",
        ],
    ),
    ("channel moved by its shelf", CHANNEL_NUMBERS),
    ("summary", &["0 delivered", "1 to 95", "96"]),
    (
        "restart",
        &["products compared", "fewer records than before"],
    ),
    (
        "twins",
        &[
            "lists compared",
            "products compared",
            "samples changed",
            "refused feeds",
            "lookups compared",
            "counts behind compared",
            "samples changed before a lookup",
        ],
    ),
    (
        "under zeros",
        &[
            "products compared",
            "marks compared",
            "temperatures moved",
            "refused feeds",
        ],
    ),
    (
        "one call",
        &[
            "fed",
            "table refused",
            "bias refused",
            "both refused",
            "not fed to its end",
        ],
    ),
    (
        "program input",
        &[
            "table missing",
            "table a folder",
            "table refused",
            "bias missing",
            "bias a folder",
            "bias of 8450 bytes",
            "bias of 8452 bytes",
            "bias with a c0 outside",
            "bias refused",
            "bias refused with another number",
            "empty input",
            "short last record",
            "12 or more records",
            "gap between numbers",
            "full window",
            "gap after a full window",
        ],
    ),
    ("listing", &["scan line", "refused line"]),
    (
        "fresh answer",
        &[
            "0", "table 1", "table 2", "table 3", "bias 1", "bias 2", "bias 3", "254",
        ],
    ),
    (
        "two answers of a fresh state",
        &[
            "table 1 and bias",
            "table 2 and bias",
            "table 3 and bias",
            "table 1 and 254",
            "table 2 and 254",
            "table 3 and 254",
            "bias 1 and 254",
            "bias 2 and 254",
            "bias 3 and 254",
        ],
    ),
    ("state answer", &["0", "254", "4", "5", "6", "7"]),
    (
        "two answers of a state",
        &["254 and 4", "254 and 5", "254 and 7"],
    ),
    ("no state", NO_STATE_REASONS),
    (
        "state length",
        &[
            "0", "3323", "11114", "11777", "12575", "12576", "12577", "longer",
        ],
    ),
    (
        "version of a state",
        &["0", "1", "2", "3", "4", "5", "6", "7"],
    ),
    ("c0 of a state", &["-4097", "-4096", "4096", "4097"]),
    ("e of a state", &["-32768", "32767"]),
    ("first byte of 0x32", &["0", "1", "2", "255"]),
    ("side of a state", &["1", "786421", "786422"]),
    ("T of a state", &["873061", "873062", "1364582", "1364583"]),
    ("age of a value", &["at the number", "one above the number"]),
    ("first number of 0x37", &["0", "1", "2"]),
    ("kept flag", &["0", "1", "2", "3", "4", "5"]),
    (
        "kept number",
        &[
            "Tc 11165",
            "Tc 11166",
            "Tc 43934",
            "Tc 43935",
            "Tw - Tc 825031",
            "Tw - Tc 825032",
            "Tw - Tc 1357512",
            "Tw - Tc 1357513",
            "TNL -8193",
            "TNL -8192",
            "TNL 8192",
            "TNL 8193",
            "D 0",
            "D 1",
            "D at its upper end",
            "D one above its upper end",
            "12 Wc Ww 0",
            "12 Wc Ww 1",
            "12 Wc Ww 780300",
            "12 Wc Ww 780301",
            "Ac Ww 0",
            "Ac Ww 51136960500",
            "Ac Ww 51136960501",
        ],
    ),
    (
        "ahead of a state",
        &["first", "1", "2", "3", "4", "5", "6", "7", "8", "more"],
    ),
    ("side that a record gives", &["0", "1", "786421"]),
    ("T that a record gives", &["0", "873062", "1364582"]),
    (
        "state between feeds",
        &[
            "stays",
            "copied",
            "moved",
            "built from its values",
            "built from records",
        ],
    ),
    ("feeds through states", &["compared"]),
    (
        "channels with the same six numbers",
        &[
            "one feed",
            "two lists",
            "channels of one target",
            "KAV and WG",
            "other Ww and Wc",
            "other scan values",
            "other rejected counts",
            "other rejected thermometers",
            "other rj and sl",
            "other b and thermometers",
            "other count weights",
            "other thermometer weights",
            "other percentages",
            "other limits",
            "other shelf temperature",
            "other pairs",
            "other unrounded TNL",
            "other scan number",
            "other missing numbers",
            "other number of records",
            "every count compared",
        ],
    ),
    (
        "six numbers",
        &[
            "TNL below 0",
            "TNL 0",
            "TNL above 0",
            "D below one count",
            "D of some counts",
            "D above 2^32",
        ],
    ),
    (
        "counts under the same six numbers",
        &[
            "0",
            "65535",
            "outside below",
            "one below the first delivered",
            "first delivered",
            "delivered",
            "last delivered",
            "one above the last delivered",
            "outside above",
        ],
    ),
    (
        "one number apart",
        &["Tc", "Tw - Tc", "TNL", "D", "12 Wc Ww", "Ac Ww"],
    ),
    ("lookup answer", &["0", "11", "12", "253", "254"]),
    ("count left as it was", &["11", "12", "253", "254"]),
    (
        "two answers of a lookup",
        &["254 and 11", "254 and 12", "11 and 12"],
    ),
    (
        "channel of a lookup",
        &["0", "1", "2 to 21", "22", "23", "4294967295", "other"],
    ),
    ("lookup at no state", NO_STATE_REASONS),
    (
        "answer 12",
        &[
            "no scan",
            "a scan, but nothing kept",
            "flag 1",
            "flag 2",
            "flag 3",
            "flag 4",
        ],
    ),
    (
        "wanted T",
        &[
            "0",
            "1",
            "16777215",
            "16777216",
            "4294967295",
            "delivered",
            "one below a delivered T",
            "one above a delivered T",
            "below the first",
            "above the last",
            "skipped between two counts",
            "in a channel that delivers none",
        ],
    ),
    (
        "count behind",
        &[
            "0",
            "65535",
            "first delivered",
            "last delivered",
            "between first and last",
        ],
    ),
    ("channel of a count behind", CHANNEL_NUMBERS),
    (
        "half behind a wanted T",
        &[
            "X, down",
            "X, up",
            "linear part, down",
            "linear part, up",
            "bend, down",
            "bend, up",
        ],
    ),
    (
        "lookup after feeds",
        &[
            "no scan yet",
            "flag 0",
            "flag 1",
            "flag 2",
            "flag 3",
            "flag 4",
        ],
    ),
    (
        "lookup after a refused feed",
        &[
            "no scan yet",
            "4",
            "5",
            "6",
            "7",
            "other numbers if it were accepted",
        ],
    ),
    ("scene of an asked channel", &["delivered", "outside"]),
    (
        "number of an asked channel",
        &[
            "Tc 11166",
            "Tc 43934",
            "Tw - Tc 825032",
            "Tw - Tc 1357512",
            "TNL -8192",
            "TNL 8192",
            "D 1",
            "D at its upper end",
            "12 Wc Ww 1",
            "12 Wc Ww 780300",
            "Ac Ww 0",
            "Ac Ww 51136960500",
        ],
    ),
    (
        "counts delivered of an asked channel",
        &["none", "one", "some", "all"],
    ),
    (
        "least rise of T from count to count",
        &["11 or less", "12 to 100", "more"],
    ),
    (
        "every count tried, by a state",
        &["0", "11", "12", "253", "254"],
    ),
    ("every count tried, by the roll", &["0", "11", "12", "253"]),
];

#[derive(Clone, Debug, Default)]
pub struct Counters {
    counts: BTreeMap<(&'static str, &'static str), u64>,
}

impl Counters {
    pub fn new() -> Counters {
        Counters::default()
    }

    /// Counts a class once more.
    pub fn met(&mut self, group: &str, class: &str) {
        self.met_times(group, class, 1);
    }

    /// Counts a class some times more. A class that is not listed is an error in the check.
    pub fn met_times(&mut self, group: &str, class: &str, times: u64) {
        let listed = CLASSES.iter().find(|(name, _)| *name == group);
        let (group, classes) = listed.unwrap_or_else(|| panic!("no group {group}"));
        let class = classes
            .iter()
            .find(|name| **name == class)
            .unwrap_or_else(|| panic!("no class {class} in {group}"));
        *self.counts.entry((group, class)).or_insert(0) += times;
    }

    /// Counts all that another has met.
    pub fn add(&mut self, other: &Counters) {
        for (class, times) in &other.counts {
            *self.counts.entry(*class).or_insert(0) += times;
        }
    }

    pub fn count(&self, group: &'static str, class: &'static str) -> u64 {
        self.counts.get(&(group, class)).copied().unwrap_or(0)
    }

    /// One line a group.
    pub fn lines(&self) -> Vec<String> {
        let line = |(group, classes): &(&'static str, &[&'static str])| {
            let parts: Vec<String> = classes
                .iter()
                .map(|class| format!("{class}: {}", self.count(group, class)))
                .collect();
            format!("{group}: {}", parts.join(", "))
        };
        CLASSES.iter().map(line).collect()
    }

    /// The classes that were never met.
    pub fn missing(&self) -> Vec<String> {
        let mut missing = Vec::new();
        for (group, classes) in CLASSES {
            for class in *classes {
                if self.count(group, class) == 0 {
                    missing.push(format!("{group}: {class}"));
                }
            }
        }
        missing
    }
}

#[cfg(test)]
mod tests {
    use super::*;

    #[test]
    fn what_was_never_met_is_missing() {
        let mut counters = Counters::new();
        let all: usize = CLASSES.iter().map(|(_, classes)| classes.len()).sum();
        assert_eq!(counters.missing().len(), all);
        counters.met("flag", "3");
        assert_eq!(counters.count("flag", "3"), 1);
        assert_eq!(counters.missing().len(), all - 1);
        assert!(!counters.missing().contains(&"flag: 3".to_string()));
        assert_eq!(counters.lines().len(), CLASSES.len());
    }

    #[test]
    fn what_another_met_is_added() {
        let mut counters = Counters::new();
        counters.met("flag", "3");
        let mut other = Counters::new();
        other.met_times("flag", "3", 2);
        other.met("flag", "4");
        counters.add(&other);
        assert_eq!(counters.count("flag", "3"), 3);
        assert_eq!(counters.count("flag", "4"), 1);
    }
}
