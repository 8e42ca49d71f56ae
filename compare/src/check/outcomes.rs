//! What the feeds of a list leave.

use crate::generator::lists::FeedList;
use crate::second::calibrator::Calibrator;

/// What one feed left: the answer, 0 or the number of the refusal, and the buffer.
#[derive(Clone, Debug, PartialEq, Eq)]
pub struct Outcome {
    pub answer: u8,
    pub buffer: Vec<u8>,
}

/// Feeds a list to a fresh calibrator.
pub fn outcomes(list: &FeedList) -> Vec<Outcome> {
    let opened = Calibrator::of_files(&list.table, &list.bias);
    let mut calibrator = opened.expect("a list has an accepted table and bias file");
    let mut outcomes = Vec::new();
    for feed in &list.feeds {
        let mut buffer = feed.buffer.clone();
        let fed = calibrator.feed(&feed.record, &mut buffer);
        calibrator = fed.calibrator;
        outcomes.push(Outcome {
            answer: fed.answer.err().unwrap_or(0),
            buffer,
        });
    }
    outcomes
}
