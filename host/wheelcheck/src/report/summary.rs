//! How many files came to what.

use crate::message::answer_name;
use crate::station::{Report, Verdict};
use std::collections::BTreeMap;

/// Counts over all files.
#[derive(Clone, Debug, Default, PartialEq, Eq)]
pub struct Summary {
    accepted: usize,
    unchecked: usize,
    refused: BTreeMap<u32, usize>,
}

impl Summary {
    /// Counts a file.
    pub fn count(&mut self, report: &Report) {
        match &report.verdict {
            Verdict::Accepted => self.accepted += 1,
            Verdict::Unchecked(_) => self.unchecked += 1,
            Verdict::Refused(_) => {
                let number = report.answer.map_or(0, |answer| answer.number);
                *self.refused.entry(number).or_default() += 1;
            }
        }
    }

    /// The command's exit status.
    pub fn status(&self) -> u8 {
        match (self.unchecked, self.refused.len()) {
            (0, 0) => 0,
            (0, _) => 1,
            _ => 2,
        }
    }

    /// One line with counts by answer.
    pub fn line(&self) -> String {
        let refused: usize = self.refused.values().sum();
        let files = self.accepted + self.unchecked + refused;
        let noun = if files == 1 { "file" } else { "files" };
        let by_answer: Vec<String> = self
            .refused
            .iter()
            .map(|(&number, count)| format!("{} {count}", answer_name(number)))
            .collect();
        let reasons = match by_answer.is_empty() {
            true => String::new(),
            false => format!(" ({})", by_answer.join(", ")),
        };
        format!(
            "{files} {noun}: {} accepted, {refused} refused{reasons}, {} not checked",
            self.accepted, self.unchecked
        )
    }
}
