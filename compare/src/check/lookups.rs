//! Checks of request W5, the count behind a temperature: which answer a lookup has, that of two delivered counts
//! the higher has the higher T, and that a count is found exactly where one of the 65,536 fits.

use std::collections::BTreeMap;

use super::counters::Counters;
use super::kept_channels::{first_number, KeptChannel};
use super::numbers::rounded;
use super::roundings::{rounded_of_terms, ChannelParts, Half, Place, Rounded, RoundingMistake};
use super::rules::{is_biased, pair};
use super::states::reasons;
use crate::generator::lists::{Feed, FeedList};
use crate::generator::lookups::{
    aimed_wanted, asked_list, asked_state, delivering_state, AskedList, Question, NO_CHANNELS,
};
use crate::generator::random::{case_seed, Random};
use crate::generator::states::{changed_bytes, state_neighbours};
use crate::second::calibrator::Calibrator;
use crate::second::lookup::{all_temperatures, count_behind};
use crate::second::product::scene_of;
use crate::second::record::SCENES;
use crate::second::state;

/// Delivered counts, each with its T, in order.
pub type Delivered = Vec<(u16, u32)>;

/// What a lookup left: the answer, and what stands in the place of the count after it.
#[derive(Clone, Copy, Debug, PartialEq, Eq)]
pub struct LookedUp {
    pub answer: u8,
    pub count: u16,
}

impl LookedUp {
    /// Whether every count has to be tried for it.
    fn is_dear(&self) -> bool {
        matches!(self.answer, 0 | 253)
    }
}

/// Asks a function that takes state, channel, wanted T and the place of the count.
pub fn looked_up(
    state: &[u8],
    question: &Question,
    lookup: impl Fn(&[u8], u32, u32, &mut u16) -> u8,
) -> LookedUp {
    let mut count = question.before;
    let answer = lookup(state, question.channel, question.wanted, &mut count);
    LookedUp { answer, count }
}

/// T of a count by the numbers of 0x37, or none where its scene is not delivered.
fn plain_temperature(own: &KeptChannel, count: u16) -> Option<i128> {
    let n = own.slope * count as i128 - own.base;
    if n < 0 || 4 * n > 5 * own.d {
        return None;
    }
    let x = rounded(65_536 * n, own.d);
    let curve = rounded(4 * x * (65_536 - x) * own.tnl, 1 << 32);
    let t = own.tc + rounded(n * own.rise, own.d) + curve;
    (1..=16_777_215).contains(&t).then_some(t)
}

/// The delivered counts of a channel with flag 0, from 1, of the last accepted scan: all counts in one pass.
pub fn delivered_counts(calibrator: &Calibrator, channel: u32) -> Result<Delivered, String> {
    let all = all_temperatures(calibrator, channel)
        .map_err(|number| format!("channel {channel} has flag 0, and answers {number}"))?;
    let counts = all.into_iter().enumerate();
    let delivered = counts.filter_map(|(count, t)| Some((count as u16, t.ok()? as u32)));
    Ok(delivered.collect())
}

/// Whether of two delivered counts the higher has the higher T, so that no second count fits.
fn check_rising(delivered: &Delivered) -> Result<(), String> {
    for two in delivered.windows(2) {
        let [(one, t), (other, other_t)] = [two[0], two[1]];
        if one >= other || t >= other_t {
            return Err(format!("count {one} has T {t}, count {other} T {other_t}"));
        }
    }
    Ok(())
}

/// The count with just this T.
fn count_with(delivered: &Delivered, wanted: u32) -> Option<u16> {
    let place = delivered.binary_search_by_key(&wanted, |(_, t)| *t);
    place.ok().map(|place| delivered[place].0)
}

/// A state that is asked.
pub struct Asked<'a> {
    state: &'a [u8],
    /// The calibrator with the whole roll, where feeds reached the state.
    calibrator: Option<&'a Calibrator>,
    reasons: Vec<&'static str>,
    /// Of the channels with flag 0 that were formed.
    delivered: BTreeMap<u32, Delivered>,
}

impl<'a> Asked<'a> {
    pub fn new(state: &'a [u8], calibrator: Option<&'a Calibrator>) -> Asked<'a> {
        Asked {
            state,
            calibrator,
            reasons: reasons(state),
            delivered: BTreeMap::new(),
        }
    }

    /// What 0x37 has of a channel from 1 to 22, if the bytes have a 0x37 that keeps channels.
    fn kept(&self, channel: u32) -> Option<KeptChannel> {
        let is_kept = self.state.len() >= 12_576 && first_number(self.state) == 1;
        is_kept.then(|| KeptChannel::of(self.state, channel as usize - 1))
    }

    /// The channels from 1 to 22 with this flag.
    fn channels_with(&self, has_flag: impl Fn(u32) -> bool) -> Vec<u32> {
        let has_flag = |channel: &u32| self.kept(*channel).is_some_and(|own| has_flag(own.flag));
        (1..=22).filter(has_flag).collect()
    }

    /// Forms T of all counts of a channel with flag 0: from the numbers of 0x37 as the check states it, the same
    /// from the roll, and rising.
    fn form(&mut self, channel: u32, counters: &mut Counters) -> Result<(), String> {
        let about = |what: String| format!("channel {channel}: {what}");
        let own = self.kept(channel).expect("a channel with flag 0 is formed");
        let read = state::read(self.state).ok_or_else(|| about("no state".to_string()))?;
        let delivered = delivered_counts(&read, channel)?;
        let plain = (0..=u16::MAX).filter_map(|count| {
            let t = plain_temperature(&own, count)?;
            Some((count, t as u32))
        });
        if !plain.eq(delivered.iter().copied()) {
            return Err(about("another T than 0x37 gives".to_string()));
        }
        if let Some(calibrator) = self.calibrator {
            if delivered_counts(calibrator, channel)? != delivered {
                return Err(about("another T from the roll".to_string()));
            }
        }
        check_rising(&delivered).map_err(about)?;
        count_channel(&own, &delivered, counters);
        self.delivered.insert(channel, delivered);
        Ok(())
    }

    /// Which of 254, 11, 12 and 253 apply to a question, in order.
    fn refusals(&self, question: &Question) -> Vec<u8> {
        let mut all = Vec::new();
        if !self.reasons.is_empty() {
            all.push(254);
        }
        if !(1..=22).contains(&question.channel) {
            all.push(11);
            if self.state.len() >= 12_576 && first_number(self.state) == 0 {
                all.push(12);
            }
            return all;
        }
        match self.kept(question.channel) {
            Some(own) if own.flag == 0 => {}
            _ => all.push(12),
        }
        if all.is_empty() && self.count(question).is_none() {
            all.push(253);
        }
        all
    }

    /// The count behind the wanted T in a channel that was formed.
    fn count(&self, question: &Question) -> Option<u16> {
        let delivered = self.delivered.get(&question.channel);
        count_with(delivered.expect("the channel was formed"), question.wanted)
    }

    /// What a lookup has to leave.
    fn expected(&self, question: &Question, counters: &mut Counters) -> LookedUp {
        let all = self.refusals(question);
        count_answers(&all, question, counters);
        match all.first() {
            Some(12) => counters.met("answer 12", &self.about_12(question.channel)),
            Some(254) => counters.met("lookup at no state", self.about_254()),
            _ => {}
        }
        if self.calibrator.is_some() && (1..=22).contains(&question.channel) {
            let class = match self.kept(question.channel) {
                None => "no scan yet".to_string(),
                Some(own) => format!("flag {}", own.flag),
            };
            counters.met("lookup after feeds", &class);
        }
        if let Some(delivered) = self.delivered.get(&question.channel) {
            count_wanted(delivered, question.wanted, counters);
        }
        if let Some(answer) = all.first() {
            return LookedUp {
                answer: *answer,
                count: question.before,
            };
        }
        let count = self.count(question).expect("a count fits");
        let delivered = &self.delivered[&question.channel];
        count_found(delivered, question.channel, count, counters);
        LookedUp { answer: 0, count }
    }

    /// Why the answer is 254. Where one reason alone holds, it decides.
    fn about_254(&self) -> &'static str {
        match self.reasons[..] {
            [reason] => reason,
            _ => "more than one",
        }
    }

    /// Why the answer is 12.
    fn about_12(&self, channel: u32) -> String {
        match self.kept(channel) {
            Some(own) => format!("flag {}", own.flag),
            None if self.state[1_421] == 1 => "a scan, but nothing kept".to_string(),
            None => "no scan".to_string(),
        }
    }

    /// Asks this implementation, which tries every count, by the numbers of the state.
    fn confirm_by_state(
        &self,
        question: &Question,
        expected: LookedUp,
        counters: &mut Counters,
    ) -> Result<(), String> {
        let own = looked_up(self.state, question, state::count_behind);
        if own != expected {
            return Err(format!("{question:?}: {own:?}, expected {expected:?}"));
        }
        let answer = expected.answer.to_string();
        counters.met("every count tried, by a state", &answer);
        Ok(())
    }

    /// The same by the roll.
    fn confirm_by_roll(
        &self,
        question: &Question,
        expected: LookedUp,
        counters: &mut Counters,
    ) -> Result<(), String> {
        let Some(calibrator) = self.calibrator else {
            return Ok(());
        };
        let own = match count_behind(calibrator, question.channel, question.wanted) {
            Err(number) => (number, question.before),
            Ok(None) => (253, question.before),
            Ok(Some(count)) => (0, count),
        };
        if own != (expected.answer, expected.count) {
            let about = format!("{question:?} by the roll");
            return Err(format!("{about}: {own:?}, expected {expected:?}"));
        }
        let answer = expected.answer.to_string();
        counters.met("every count tried, by the roll", &answer);
        Ok(())
    }

    /// The answers to some questions. Those in which every count has to be tried are confirmed so once in
    /// `share`, the others always.
    pub fn answers(
        &self,
        questions: &[Question],
        share: usize,
        counters: &mut Counters,
    ) -> Result<Answered, String> {
        let mut answered = Vec::new();
        let mut tried = 0;
        for question in questions {
            let expected = self.expected(question, counters);
            if !expected.is_dear() || tried % share == 0 {
                self.confirm_by_state(question, expected, counters)?;
                self.confirm_by_roll(question, expected, counters)?;
            }
            tried += usize::from(expected.is_dear());
            answered.push((*question, expected));
        }
        Ok(answered)
    }
}

/// Questions with what a lookup has to leave.
pub type Answered = Vec<(Question, LookedUp)>;

/// Counts the answer, and where another order would give another one.
fn count_answers(all: &[u8], question: &Question, counters: &mut Counters) {
    let answer = all.first().copied().unwrap_or(0);
    counters.met("lookup answer", &answer.to_string());
    if answer != 0 {
        counters.met("count left as it was", &answer.to_string());
    }
    if let [first, second, ..] = all {
        let class = format!("{first} and {second}");
        counters.met("two answers of a lookup", &class);
    }
    let class = match question.channel {
        2..=21 => "2 to 21".to_string(),
        channel @ (0 | 1 | 22 | 23 | u32::MAX) => channel.to_string(),
        _ => "other".to_string(),
    };
    counters.met("channel of a lookup", &class);
}

/// Counts where a wanted T stands among those delivered.
fn count_wanted(delivered: &Delivered, wanted: u32, counters: &mut Counters) {
    let mut met = |class: &str| counters.met("wanted T", class);
    if let 0 | 1 | 16_777_215 | 16_777_216 | u32::MAX = wanted {
        met(&wanted.to_string());
    }
    let is_delivered = |t: Option<u32>| t.is_some_and(|t| count_with(delivered, t).is_some());
    if is_delivered(wanted.checked_add(1)) {
        met("one below a delivered T");
    }
    if is_delivered(wanted.checked_sub(1)) {
        met("one above a delivered T");
    }
    let (Some((_, first)), Some((_, last))) = (delivered.first(), delivered.last()) else {
        met("in a channel that delivers none");
        return;
    };
    met(match wanted {
        wanted if is_delivered(Some(wanted)) => "delivered",
        wanted if wanted < *first => "below the first",
        wanted if wanted > *last => "above the last",
        _ => "skipped between two counts",
    });
}

/// Counts which count is behind a wanted T.
fn count_found(delivered: &Delivered, channel: u32, count: u16, counters: &mut Counters) {
    let (first, last) = (delivered[0].0, delivered[delivered.len() - 1].0);
    let classes = [
        ("0", count == 0),
        ("65535", count == u16::MAX),
        ("first delivered", count == first),
        ("last delivered", count == last),
        ("between first and last", first < count && count < last),
    ];
    for (class, _) in classes.into_iter().filter(|(_, holds)| *holds) {
        counters.met("count behind", class);
    }
    counters.met("channel of a count behind", &channel.to_string());
}

/// Counts the numbers of a channel whose counts were formed, how many it delivers, and how T rises.
fn count_channel(own: &KeptChannel, delivered: &Delivered, counters: &mut Counters) {
    for end in own.ends() {
        counters.met("number of an asked channel", &end);
    }
    let class = match delivered.len() {
        0 => "none",
        1 => "one",
        65_536 => "all",
        _ => "some",
    };
    counters.met("counts delivered of an asked channel", class);
    let rises = delivered.windows(2).map(|two| two[1].1 - two[0].1);
    if let Some(least) = rises.min() {
        let class = match least {
            0..=11 => "11 or less",
            12..=100 => "12 to 100",
            _ => "more",
        };
        counters.met("least rise of T from count to count", class);
    }
}

/// Checks the scenes of a channel, from 1, in the product of the scan that is asked: each is delivered exactly
/// where its count is among those delivered, with their T and its scan bias.
fn check_scenes(
    delivered: &Delivered,
    channel: u32,
    feed: &Feed,
    bias: &[u8],
    product: &[u8],
    counters: &mut Counters,
) -> Result<(), String> {
    let index = channel as usize - 1;
    for position in 0..SCENES {
        let at = 405 + 192 * index + 2 * position;
        let count = u16::from_be_bytes([feed.record[at], feed.record[at + 1]]);
        let value = scene_of(product, index, position);
        let place = delivered.binary_search_by_key(&count, |(count, _)| *count);
        let (is_right, class) = match place {
            Ok(place) => {
                let b = (value as f64 * 4096.0) as i128;
                let t = delivered[place].1 as i128;
                (is_biased(b, t, pair(bias, index, position)), "delivered")
            }
            Err(_) => (value == -2.0, "outside"),
        };
        if !is_right {
            return Err(format!("channel {channel}, count {count}: scene {value}"));
        }
        counters.met("scene of an asked channel", class);
    }
    Ok(())
}

/// Questions that are refused: to channels that the instrument does not have and to those with a flag, or to any
/// channel where nothing is kept or the bytes are no state.
fn refused_questions(random: &mut Random, asked: &Asked) -> Vec<Question> {
    let mut channels = vec![random.pick(&NO_CHANNELS), random.pick(&NO_CHANNELS)];
    if asked.reasons.is_empty() && asked.kept(1).is_some() {
        channels.extend(asked.channels_with(|flag| flag != 0));
    } else {
        channels.extend([1, 22, random.between(2, 21) as u32]);
    }
    let question = |channel: u32| {
        let wanted = random.between(11_166, 1_200_000) as u32;
        Question::new(random, channel, wanted)
    };
    channels.into_iter().map(question).collect()
}

/// Up to two channels with flag 0, formed, and questions to them.
fn aimed_questions(
    random: &mut Random,
    asked: &mut Asked,
    counters: &mut Counters,
) -> Result<Vec<Question>, String> {
    let usable = asked.channels_with(|flag| flag == 0);
    let mut questions = Vec::new();
    if usable.is_empty() || !asked.reasons.is_empty() {
        return Ok(questions);
    }
    for _ in 0..2 {
        // The first and the last that has flag 0, more often than others.
        let any = random.pick(&usable);
        let channel = random.pick(&[usable[0], usable[usable.len() - 1], any, any, any]);
        if !asked.delivered.contains_key(&channel) {
            questions.extend(channel_questions(random, asked, channel, counters)?);
        }
    }
    random.shuffle(&mut questions);
    Ok(questions)
}

/// Forms a channel with flag 0, and questions to it.
fn channel_questions(
    random: &mut Random,
    asked: &mut Asked,
    channel: u32,
    counters: &mut Counters,
) -> Result<Vec<Question>, String> {
    asked.form(channel, counters)?;
    let all = aimed_wanted(random, &asked.delivered[&channel]).into_iter();
    Ok(all
        .map(|wanted| Question::new(random, channel, wanted))
        .collect())
}

/// The halves of X, the linear part and the bend of a count that would be another T if they went the other way.
fn showing_halves(own: &KeptChannel, count: u16) -> Vec<Rounded> {
    let parts = ChannelParts::of_numbers(own.tc, own.rise, own.tnl, own.d);
    let n = own.slope * count as i128 - own.base;
    let t = |mistake: Option<RoundingMistake>| parts.temperature(n, mistake);
    let shows = |half: &Rounded| {
        let other = RoundingMistake::In(half.place, Half::Odd);
        half.is_half() && t(Some(other)) != t(None)
    };
    let terms = rounded_of_terms(n, own.d, own.rise, own.tnl);
    terms.into_iter().filter(shows).collect()
}

/// Questions at and beside T of some earth counts of a feed with such halves, in the channels that were formed.
fn half_questions(
    random: &mut Random,
    asked: &Asked,
    feed: &Feed,
    counters: &mut Counters,
) -> Vec<Question> {
    let mut questions = Vec::new();
    for (channel, delivered) in &asked.delivered {
        let own = asked.kept(*channel).expect("a formed channel is kept");
        let first = 405 + 192 * (*channel as usize - 1);
        let counts = feed.record[first..first + 192].chunks(2);
        let mut halves = Vec::new();
        for count in counts.map(|two| u16::from_be_bytes([two[0], two[1]])) {
            if let Ok(place) = delivered.binary_search_by_key(&count, |(count, _)| *count) {
                let showing = showing_halves(&own, count).into_iter();
                halves.extend(showing.map(|half| (half, delivered[place].1)));
            }
        }
        random.shuffle(&mut halves);
        for place in [Place::X, Place::LinearPart, Place::Bend] {
            let own = halves.iter().filter(|(half, _)| half.place == place);
            for (half, t) in own.take(3) {
                let class = format!("{}, {}", place.name(), half.way());
                counters.met("half behind a wanted T", &class);
                let wanted = [t - 1, *t, t + 1];
                questions.extend(wanted.map(|wanted| Question::new(random, *channel, wanted)));
            }
        }
    }
    questions
}

/// One step of a run: a feed, or none for the fresh state; what it answers and the state after it; and what
/// lookups leave there.
#[derive(Clone, Debug)]
pub struct Step {
    pub feed: Option<Feed>,
    pub answer: u8,
    pub state: Vec<u8>,
    pub answered: Answered,
}

/// Feeds through a state with lookups between them.
#[derive(Clone, Debug)]
pub struct LookupRun {
    pub table: Vec<u8>,
    pub bias: Vec<u8>,
    pub steps: Vec<Step>,
}

/// A run as it is made.
struct Running {
    calibrator: Calibrator,
    /// The buffer of the last feed.
    buffer: Vec<u8>,
    run: LookupRun,
}

impl Running {
    /// Of a list: the fresh state, not yet asked.
    fn of(list: &FeedList) -> Running {
        let opened = Calibrator::of_files(&list.table, &list.bias);
        let calibrator = opened.expect("a list has an accepted table and bias file");
        let fresh = Step {
            feed: None,
            answer: 0,
            state: state::write(&calibrator),
            answered: Vec::new(),
        };
        Running {
            calibrator,
            buffer: Vec::new(),
            run: LookupRun {
                table: list.table.clone(),
                bias: list.bias.clone(),
                steps: vec![fresh],
            },
        }
    }

    /// Feeds the state, and the calibrator with the whole roll.
    fn feed(&mut self, feed: &Feed) -> Result<u8, String> {
        let mut state = self.state().to_vec();
        self.buffer = feed.buffer.clone();
        let answer = state::feed(&mut state, &feed.record, &mut self.buffer);
        let mut buffer = feed.buffer.clone();
        let fed = self.calibrator.clone().feed(&feed.record, &mut buffer);
        if answer != fed.answer.err().unwrap_or(0) || buffer != self.buffer {
            return Err(format!("{answer} through the state, another from the roll"));
        }
        self.calibrator = fed.calibrator;
        self.run.steps.push(Step {
            feed: Some(feed.clone()),
            answer,
            state,
            answered: Vec::new(),
        });
        Ok(answer)
    }

    fn state(&self) -> &[u8] {
        &self.run.steps[self.run.steps.len() - 1].state
    }

    fn asked(&self) -> Asked<'_> {
        Asked::new(self.state(), Some(&self.calibrator))
    }

    fn answer(&mut self, answered: Answered) {
        let last = self.run.steps.len() - 1;
        self.run.steps[last].answered.extend(answered);
    }

    /// Asks channels that are refused.
    fn ask_refused(&mut self, random: &mut Random, counters: &mut Counters) -> Result<(), String> {
        let asked = self.asked();
        let questions = refused_questions(random, &asked);
        let answered = asked.answers(&questions, 1, counters)?;
        self.answer(answered);
        Ok(())
    }
}

/// Feeds a list up to the one after which it is asked, and asks after each feed the channels that are refused.
fn run_to_asked(
    plan: &AskedList,
    random: &mut Random,
    counters: &mut Counters,
) -> Result<Running, String> {
    let mut running = Running::of(&plan.list);
    running.ask_refused(random, counters)?;
    if running.feed(&plan.refused_first)? == 0 {
        return Err("a first feed is not refused".to_string());
    }
    counters.met("lookup after a refused feed", "no scan yet");
    running.ask_refused(random, counters)?;
    for feed in &plan.list.feeds[..=plan.asked()] {
        running.feed(feed)?;
        running.ask_refused(random, counters)?;
    }
    Ok(running)
}

/// Asks after each of four refused feeds what was asked before them.
fn ask_after_refusals(
    plan: &AskedList,
    running: &mut Running,
    answered: &Answered,
    counters: &mut Counters,
) -> Result<(), String> {
    let before = running.state().to_vec();
    let found: Answered = answered
        .iter()
        .copied()
        .filter(|(_, left)| left.answer == 0)
        .collect();
    for (index, (feed, number)) in plan.refused.iter().zip(4..).enumerate() {
        let answer = running.feed(feed)?;
        if answer != number || running.state() != before {
            return Err(format!(
                "{answer}, expected {number} and the state as it was"
            ));
        }
        if !found.is_empty() {
            let (question, expected) = &found[index % found.len()];
            let about = |what: String| format!("after a feed refused with {number}: {what}");
            let asked = running.asked();
            asked
                .confirm_by_roll(question, *expected, counters)
                .map_err(about)?;
            let class = number.to_string();
            counters.met("lookup after a refused feed", &class);
        }
        running.answer(answered.clone());
    }
    Ok(())
}

/// A list through a state, asked before its first scan, after each feed, at length after one of them, and after
/// feeds that are refused there.
pub fn checked_lookup_run(seed: u64, counters: &mut Counters) -> Result<LookupRun, String> {
    let plan = asked_list(seed);
    let mut random = Random::new(case_seed(seed, 1));
    let mut running = run_to_asked(&plan, &mut random, counters)?;
    let feed = &plan.list.feeds[plan.asked()];
    let mut asked = running.asked();
    let mut questions = aimed_questions(&mut random, &mut asked, counters)?;
    questions.extend(half_questions(&mut random, &asked, feed, counters));
    for (channel, delivered) in &asked.delivered {
        let (bias, product) = (&plan.list.bias, &running.buffer);
        check_scenes(delivered, *channel, feed, bias, product, counters)?;
    }
    let channels: Vec<u32> = asked.delivered.keys().copied().collect();
    let answered = asked.answers(&questions, 8, counters)?;
    running.answer(answered.clone());
    ask_after_refusals(&plan, &mut running, &answered, counters)?;
    // What they were made of, undamaged.
    let before = running.state().to_vec();
    running.feed(&plan.list.feeds[plan.asked() + 1])?;
    running.ask_refused(&mut random, counters)?;
    let own = |state: &[u8], channel: u32| KeptChannel::of(state, channel as usize - 1);
    if channels
        .iter()
        .any(|one| own(&before, *one) != own(running.state(), *one))
    {
        let class = "other numbers if it were accepted";
        counters.met("lookup after a refused feed", class);
    }
    Ok(running.run)
}

pub fn check_lookup_run(seed: u64, counters: &mut Counters) -> Result<(), String> {
    checked_lookup_run(seed, counters).map(drop)
}

/// Two alike lists up to the feed after which they are asked: every count has the same T in both, and lookups
/// leave the same.
pub fn checked_alike_runs(
    lists: [&FeedList; 2],
    seed: u64,
    counters: &mut Counters,
) -> Result<[LookupRun; 2], String> {
    let mut random = Random::new(seed);
    let mut both = lists.map(Running::of);
    for (running, list) in both.iter_mut().zip(lists) {
        for feed in &list.feeds {
            running.feed(feed)?;
        }
    }
    let [running, twin] = &mut both;
    if running.state()[11_780..] != twin.state()[11_780..] {
        return Err("alike lists, other channels kept".to_string());
    }
    let mut asked = running.asked();
    let mut questions = aimed_questions(&mut random, &mut asked, counters)?;
    questions.extend(refused_questions(&mut random, &asked));
    let answered = asked.answers(&questions, 32, counters)?;
    for (channel, delivered) in &asked.delivered {
        if delivered_counts(&twin.calibrator, *channel)? != *delivered {
            return Err(format!("channel {channel}: another T in an alike list"));
        }
    }
    let asked_twin = twin.asked();
    for (index, (question, left)) in answered.iter().enumerate() {
        if !left.is_dear() || index % 16 == 0 {
            asked_twin.confirm_by_state(question, *left, counters)?;
            asked_twin.confirm_by_roll(question, *left, counters)?;
        }
        counters.met("twins", "lookups compared");
        if left.answer == 0 {
            counters.met("twins", "counts behind compared");
        }
    }
    for one in [running, twin] {
        one.answer(answered.clone());
    }
    Ok(both.map(|running| running.run))
}

/// A made-up state with its answers.
pub fn checked_lookups(seed: u64, counters: &mut Counters) -> Result<(Vec<u8>, Answered), String> {
    let state = asked_state(seed);
    let mut random = Random::new(case_seed(seed, 1));
    let mut asked = Asked::new(&state, None);
    let mut questions = aimed_questions(&mut random, &mut asked, counters)?;
    questions.extend(refused_questions(&mut random, &asked));
    let answered = asked.answers(&questions, 8, counters)?;
    Ok((state, answered))
}

pub fn check_lookups(seed: u64, counters: &mut Counters) -> Result<(), String> {
    checked_lookups(seed, counters).map(drop)
}

/// A made-up state in which every channel delivers some count, with the answers of all 22.
pub fn checked_channels(seed: u64, counters: &mut Counters) -> Result<(Vec<u8>, Answered), String> {
    let state = delivering_state(seed);
    let mut random = Random::new(case_seed(seed, 1));
    let mut asked = Asked::new(&state, None);
    let mut questions = Vec::new();
    for channel in 1..=22 {
        questions.extend(channel_questions(
            &mut random,
            &mut asked,
            channel,
            counters,
        )?);
    }
    random.shuffle(&mut questions);
    let answered = asked.answers(&questions, 16, counters)?;
    Ok((state, answered))
}

pub fn check_channels(seed: u64, counters: &mut Counters) -> Result<(), String> {
    checked_channels(seed, counters).map(drop)
}

/// Asks bytes to find out whether they are a state: no state a channel as it may be, a state mostly one that it
/// refuses; one in 128 at length.
pub fn checked_probe(
    state: &[u8],
    index: usize,
    counters: &mut Counters,
) -> Result<Answered, String> {
    let mut random = Random::new(index as u64);
    let mut asked = Asked::new(state, None);
    let channel = 1 + (index % 22) as u32;
    let numbers = asked.kept(channel).filter(|own| own.flag == 0);
    // At Tc a count would fit, if the mean cold count is whole.
    let wanted = numbers.map_or(11_166, |own| own.tc as u32);
    let mut question = Question::new(&mut random, channel, wanted);
    let is_dear = asked.reasons.is_empty() && numbers.is_some();
    if is_dear && index % 128 == 5 {
        asked.form(channel, counters)?;
    } else if is_dear || index % 4 == 0 {
        question.channel = random.pick(&NO_CHANNELS);
    }
    asked.answers(&[question], 1, counters)
}

/// Neighbours of a state are asked, and answer 254 exactly where that is planned: of the values of its table and
/// bias file, of which there are thousands, one in eight, and all others.
pub fn check_lookup_neighbours(seed: u64, counters: &mut Counters) -> Result<(), String> {
    let is_value = |about: &str| about.starts_with("its ") && !about.contains("wrong");
    for (index, neighbour) in state_neighbours(seed).iter().enumerate() {
        if is_value(&neighbour.description) && index % 8 != 0 {
            continue;
        }
        let about = |what: String| format!("{}: {what}", neighbour.description);
        for (_, left) in checked_probe(&neighbour.bytes, index, counters).map_err(about)? {
            if (left.answer == 254) != (neighbour.answer == 254) {
                let planned = neighbour.answer;
                return Err(about(format!("{left:?}, planned {planned}")));
            }
        }
    }
    Ok(())
}

/// Bytes of a state changed, one at a time, and asked: one in four, and every one of 0x37.
pub fn check_lookup_bytes(seed: u64, counters: &mut Counters) -> Result<(), String> {
    for (index, state) in changed_bytes(seed).enumerate() {
        if index < 11_777 && index as u64 % 4 != seed % 4 {
            continue;
        }
        checked_probe(&state, index, counters)?;
    }
    Ok(())
}

#[cfg(test)]
mod tests {
    use super::*;
    use crate::generator::biases::BiasValues;
    use crate::generator::records::RecordValues;
    use crate::generator::tables::TableValues;

    /// A list of the bench scan with a flag in channel 2.
    fn list() -> FeedList {
        let mut record = RecordValues::bench();
        record.cold[1] = [0, 0, 900, 900];
        record.earth[0][..4].copy_from_slice(&[9_999, 10_000, 22_500, 22_501]);
        FeedList {
            table: TableValues::bench().encode(),
            bias: BiasValues::zeros().encode(),
            feeds: vec![Feed {
                record: record.encode(),
                buffer: vec![0; 8_706],
            }],
        }
    }

    /// The run of the list after its feed.
    fn fed() -> Running {
        let mut running = Running::of(&list());
        assert_eq!(running.feed(&list().feeds[0]), Ok(0));
        running
    }

    fn question(channel: u32, wanted: u32) -> Question {
        Question {
            channel,
            wanted,
            before: 40_961,
        }
    }

    #[test]
    fn the_rows_of_the_bench_scan_are_stated_a_second_time() {
        let running = fed();
        let own = KeptChannel::of(running.state(), 0);
        for (count, expected) in [
            (15_000, Some(565_394)),
            (10_000, Some(11_166)),
            (9_999, None),
            (22_500, Some(1_395_236)),
            (22_501, None),
            (10_001, Some(11_277)),
        ] {
            assert_eq!(plain_temperature(&own, count), expected, "{count}");
        }
        // T beyond the guard, which no state reaches.
        for (tc, is_delivered) in [
            (0, false),
            (1, true),
            (16_777_215, true),
            (16_777_216, false),
        ] {
            let mut other = own;
            other.tc = tc;
            let t = plain_temperature(&other, 10_000);
            assert_eq!(t, is_delivered.then_some(tc));
        }
    }

    #[test]
    fn equal_and_falling_temperatures_are_found() {
        assert_eq!(check_rising(&vec![]), Ok(()));
        assert_eq!(check_rising(&vec![(0, 5), (1, 6), (65_535, 7)]), Ok(()));
        assert!(check_rising(&vec![(0, 5), (1, 5)]).is_err());
        assert!(check_rising(&vec![(0, 5), (1, 9), (2, 8)]).is_err());
    }

    #[test]
    fn each_answer_has_its_place() {
        let running = fed();
        let mut counters = Counters::new();
        let mut asked = running.asked();
        asked.form(1, &mut counters).unwrap();
        for (channel, wanted, all) in [
            (1, 11_166, &[][..]),
            (1, 11_167, &[253]),
            (0, 11_166, &[11]),
            (23, 11_166, &[11]),
            (2, 11_166, &[12]),
        ] {
            assert_eq!(asked.refusals(&question(channel, wanted)), all);
        }
        let fresh = Running::of(&list());
        let asked = fresh.asked();
        assert_eq!(asked.refusals(&question(1, 11_166)), [12]);
        assert_eq!(asked.refusals(&question(0, 11_166)), [11, 12]);
        let asked = Asked::new(&fresh.state()[1..], None);
        assert_eq!(asked.refusals(&question(1, 11_166)), [254, 12]);
        assert_eq!(asked.refusals(&question(0, 11_166)), [254, 11]);
    }

    #[test]
    fn a_state_with_other_numbers_than_the_roll_is_found() {
        let running = fed();
        let mut state = running.state().to_vec();
        let form = |state: &[u8]| {
            let mut asked = Asked::new(state, Some(&running.calibrator));
            asked.form(1, &mut Counters::new())
        };
        assert_eq!(form(&state), Ok(()));
        // TNL is 401.
        state[11_799] += 1;
        assert!(form(&state).unwrap_err().contains("from the roll"));
    }

    #[test]
    fn another_answer_is_found_by_state_and_by_roll() {
        let running = fed();
        let asked = running.asked();
        let right = LookedUp {
            answer: 0,
            count: 10_001,
        };
        let wrongs = [
            LookedUp {
                answer: 0,
                count: 10_000,
            },
            LookedUp {
                answer: 253,
                count: 40_961,
            },
        ];
        let mut counters = Counters::new();
        let mut confirm = |left: LookedUp| {
            let question = question(1, 11_277);
            [
                asked
                    .confirm_by_state(&question, left, &mut counters)
                    .is_ok(),
                asked
                    .confirm_by_roll(&question, left, &mut counters)
                    .is_ok(),
            ]
        };
        assert_eq!(confirm(right), [true; 2]);
        for wrong in wrongs {
            assert_eq!(confirm(wrong), [false; 2]);
        }
    }

    #[test]
    fn scenes_of_the_product_are_those_of_the_counts() {
        let running = fed();
        let mut asked = running.asked();
        asked.form(1, &mut Counters::new()).unwrap();
        let list = list();
        let check = |product: &[u8]| {
            let mut counters = Counters::new();
            let delivered = &asked.delivered[&1];
            check_scenes(
                delivered,
                1,
                &list.feeds[0],
                &list.bias,
                product,
                &mut counters,
            )
        };
        assert_eq!(check(&running.buffer), Ok(()));
        for position in 0..4 {
            let mut wrong = running.buffer.clone();
            wrong[35 + 4 * position + 1] ^= 1;
            assert!(check(&wrong).is_err(), "position {position}");
        }
    }
}
