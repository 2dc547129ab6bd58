//! Puts a case to both implementations and compares all that a caller can see.

use crate::proved::Proved;
use crate::random::Random;
use crate::summary::Summary;
use independent::case::Case;
use independent::limits::Limits;
use independent::script::{hex, line, Independent, Outcome, Reply};
use std::fmt;
use std::panic::catch_unwind;

/// More than any output buffer with its margins.
const NOISE: usize = 1 << 17;

/// Compares, counts, and holds what output buffers have in them before a call.
pub struct Comparison {
    pub summary: Summary,
    noise: Vec<u8>,
}

/// Calls whose answers differ where they have to be the same.
#[derive(Debug)]
pub struct Difference {
    /// The failing case, or the calls of two ways over the same events, or those on two events.
    script: Vec<Case>,
    what: &'static str,
}

impl Comparison {
    pub fn new(random: &mut Random) -> Self {
        Comparison {
            summary: Summary::default(),
            noise: random.bytes(NOISE),
        }
    }

    /// What both sides answer, where they answer the same.
    pub fn run(&mut self, case: &Case) -> Result<Outcome, Difference> {
        let before = case.clone();
        let old = self.old(case);
        let expected = catch_unwind(|| Outcome::of(&Independent, case, old));
        // The binding panics on a reply that the interface does not have.
        let found = catch_unwind(|| Outcome::of(&Proved, case, old));
        let what = match (expected, found) {
            (Err(_), _) => "the independent implementation panics",
            (_, Err(_)) => "the archive's reply makes no sense, or it wrote beside its scratch",
            _ if *case != before => "an input was written to",
            (Ok(expected), Ok(found)) if found.reply != expected.reply => "the replies differ",
            (Ok(expected), Ok(found)) if found != expected => {
                "bytes in or around the output differ"
            }
            (Ok(expected), _) => {
                let is_for_chosen = is_for_chosen(case, &expected, old);
                self.summary.count(case, &expected, is_for_chosen);
                return Ok(expected);
            }
        };
        let script = vec![before];
        Err(Difference { script, what })
    }

    /// An output buffer with its margins before the call: noise that depends on the case alone, so
    /// that a replay finds the same.
    fn old(&self, case: &Case) -> &[u8] {
        let length = Outcome::length(case);
        let sum: usize = case.write().into_iter().map(usize::from).sum();
        let start = sum % (NOISE - length);
        &self.noise[start..start + length]
    }
}

/// Is the case refused for the limits chosen in it: would the profile's give another reply?
fn is_for_chosen(case: &Case, outcome: &Outcome, old: &[u8]) -> bool {
    let is_refused = matches!(outcome.reply, Reply::Refused { .. });
    if !is_refused || case.limits() == Limits::PROFILE {
        return false;
    }
    let by_profile = Outcome::of(&Independent, &case.clone().within(None), old);
    by_profile.reply != outcome.reply
}

impl Difference {
    /// The last two calls, which end two ways over the same events, gave different answers.
    pub fn between_ways(script: Vec<Case>) -> Self {
        let what = "a tree of calls and the batch of its events, the last two calls, differ";
        Difference { script, what }
    }

    /// The last call combines the dossiers of two events, and question 7 does not say what their
    /// hash texts say.
    pub fn in_identity(script: Vec<Case>) -> Self {
        let what = "whether combining two events is refused with 7 does not go by their hash texts";
        Difference { script, what }
    }

    /// The script that repeats the calls.
    pub fn write(&self) -> Vec<u8> {
        self.script.iter().flat_map(Case::write).collect()
    }
}

impl fmt::Display for Difference {
    fn fmt(&self, text: &mut fmt::Formatter) -> fmt::Result {
        write!(text, "{}", self.what)?;
        for case in self.script.iter().rev().take(2).rev() {
            let independent = catch_unwind(|| line(&Independent, case));
            let proved = catch_unwind(|| line(&Proved, case));
            write!(text, "\nindependent: {}", independent.unwrap_or_default())?;
            write!(text, "\nproved:      {}", proved.unwrap_or_default())?;
            write!(text, "\ncase:        {}", hex(&case.write()))?;
        }
        Ok(())
    }
}
