//! How often each call gave each reply, and how many pairs of events had equal hash texts.

use independent::case::Case;
use independent::script::{Outcome, Reply};
use std::collections::BTreeMap;
use std::fmt;

/// By number, from 1; below them how many refusals of the last three are for the chosen limits.
const ROWS: [&str; 13] = [
    "check table",
    "check event",
    "combine",
    "open",
    "value",
    "hash text",
    "hash",
    "batch",
    "report",
    "combine within limits",
    "open within limits",
    "batch within limits",
    "for the chosen limits",
];
const FOR_CHOSEN: usize = ROWS.len() - 1;

const REPLIES: [&str; 16] = [
    "done", "merged", "conflict", "overfull", "value", "none", "1", "2", "3", "4", "5", "6", "7",
    "8", "9", "18",
];

#[derive(Default)]
pub struct Summary {
    /// By row and reply, as places in the lists above.
    counts: BTreeMap<(usize, usize), usize>,
    calls: usize,
    /// Pairs of events with other hash texts, and with equal ones.
    pairs: [usize; 2],
}

impl Summary {
    pub fn count(&mut self, case: &Case, outcome: &Outcome, is_for_chosen: bool) {
        let column = match case {
            Case::Report { .. } => line_column(outcome.written()),
            _ => column(&outcome.reply),
        };
        let call = case.number() as usize - 1;
        let more = is_for_chosen.then_some(FOR_CHOSEN);
        for row in [call].into_iter().chain(more) {
            *self.counts.entry((row, column)).or_default() += 1;
        }
        self.calls += 1;
    }

    pub fn count_pair(&mut self, is_one: bool) {
        self.pairs[usize::from(is_one)] += 1;
    }

    pub fn calls(&self) -> usize {
        self.calls
    }
}

fn column(reply: &Reply) -> usize {
    match reply {
        Reply::Done(_) => 0,
        Reply::Merged(_) => 1,
        Reply::Conflict { .. } => 2,
        Reply::Overfull { .. } => 3,
        Reply::Value(Some(_)) => 4,
        Reply::Value(None) => 5,
        Reply::Refused { number, .. } => named_column(number.to_string().as_bytes()),
    }
}

/// A report counts as the reply that its first line names.
fn line_column(lines: &[u8]) -> usize {
    let mut words = lines.split(|byte| b" \n".contains(byte));
    named_column(words.find(|word| *word != b"refused").unwrap_or_default())
}

fn named_column(name: &[u8]) -> usize {
    let mut replies = REPLIES.iter();
    let found = replies.position(|reply| reply.as_bytes() == name);
    found.expect("a reply that the profile has")
}

impl fmt::Display for Summary {
    fn fmt(&self, text: &mut fmt::Formatter) -> fmt::Result {
        write!(text, "{:21}", "")?;
        for reply in REPLIES {
            write!(text, " {reply:>8}")?;
        }
        for (row, name) in ROWS.iter().enumerate() {
            write!(text, "\n{name:21}")?;
            for reply in 0..REPLIES.len() {
                match self.counts.get(&(row, reply)) {
                    Some(count) => write!(text, " {count:8}")?,
                    None => write!(text, " {:>8}", ".")?,
                }
            }
        }
        let [other, equal] = self.pairs;
        if other + equal > 0 {
            write!(
                text,
                "\npairs of events: {equal} with equal hash texts, {other} with others"
            )?;
        }
        Ok(())
    }
}
