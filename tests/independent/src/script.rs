//! Scripts, as the vectors have them: a run of cases.
//!
//! A case can be put to any implementation of the calls (`Merger`), and its outcome is compared
//! with the outcome of another one or printed as a line of the vectors.

use crate::calls::{self, Opening};
use crate::case::Case;
use crate::packed::Reader;
use crate::question::Refusal;
use std::fmt::Write;
use std::ops::Range;

/// What a call answers.
#[derive(Clone, Debug, PartialEq, Eq)]
pub enum Reply {
    Done(usize),
    Merged(usize),
    Conflict {
        version: u64,
        place: usize,
    },
    Overfull {
        place: usize,
    },
    Refused {
        number: u8,
        position: usize,
    },
    /// Where the value stands in the caller's event.
    Value(Option<Range<usize>>),
}

/// An implementation of the calls.
pub trait Merger {
    /// Runs a case with `out`, of the case's room, as the caller's output buffer.
    fn call(&self, case: &Case, out: &mut [u8]) -> Reply;
}

/// The implementation of this package.
pub struct Independent;

impl Merger for Independent {
    fn call(&self, case: &Case, out: &mut [u8]) -> Reply {
        use Case::*;
        let limits = case.limits();
        match case {
            CheckTable { table } => done(calls::check_table(table).map(|()| 0)),
            CheckEvent { table, event, .. } => done(calls::check_event(table, event, out)),
            Combine {
                table, left, right, ..
            } => done(calls::combine(limits, table, left, right, out)),
            Open { table, dossier, .. } => opening(calls::open(limits, table, dossier, out)),
            Value {
                table,
                event,
                place,
                index,
            } => {
                let value = calls::value(table, event, *place as usize, *index as usize);
                Reply::Value(value.map(|value| range_in(event, value)))
            }
            HashText { table, event, .. } => done(calls::hash_text(table, event, out)),
            Hash { table, event, .. } => done(calls::hash(table, event, out)),
            Batch {
                scratch,
                table,
                batch,
                ..
            } => {
                let mut buffers = scratch.map(|room| vec![0; room]);
                let scratch = buffers.each_mut().map(Vec::as_mut_slice);
                done(calls::batch(limits, table, batch, out, scratch))
            }
            Report { input } => done(calls::report(input, out)),
        }
    }
}

fn done(answer: Result<usize, Refusal>) -> Reply {
    answer.map_or_else(refused, Reply::Done)
}

fn opening(answer: Result<Opening, Refusal>) -> Reply {
    match answer {
        Ok(Opening::Merged(length)) => Reply::Merged(length),
        Ok(Opening::Conflict { version, place }) => Reply::Conflict { version, place },
        Ok(Opening::Overfull { place }) => Reply::Overfull { place },
        Err(refusal) => refused(refusal),
    }
}

fn refused(refusal: Refusal) -> Reply {
    Reply::Refused {
        number: refusal.question.number(),
        position: refusal.position,
    }
}

/// Where `part`, a part of `whole`, stands in it.
pub fn range_in(whole: &[u8], part: &[u8]) -> Range<usize> {
    let start = part.as_ptr() as usize - whole.as_ptr() as usize;
    start..start + part.len()
}

/// Bytes of the caller on either side of the output buffer, which no call may touch.
const MARGIN: usize = 64;

/// A call's reply, and the bytes in and around its output buffer after it.
#[derive(Clone, Debug, PartialEq, Eq)]
pub struct Outcome {
    pub reply: Reply,
    bytes: Vec<u8>,
}

impl Outcome {
    /// The length of the output buffer with its margins.
    pub fn length(case: &Case) -> usize {
        MARGIN + case.room() + MARGIN
    }

    /// Puts a case to `merger`. In and around the output buffer stands `old` before.
    pub fn of(merger: &impl Merger, case: &Case, old: &[u8]) -> Outcome {
        let mut bytes = old.to_vec();
        let reply = merger.call(case, &mut bytes[MARGIN..old.len() - MARGIN]);
        Outcome { reply, bytes }
    }

    /// The bytes that the call wrote.
    pub fn written(&self) -> &[u8] {
        match self.reply {
            Reply::Done(length) | Reply::Merged(length) => &self.bytes[MARGIN..][..length],
            _ => &[],
        }
    }

    /// Did a byte that had to stay as in `old` change?
    fn is_dirty(&self, old: &[u8]) -> bool {
        let end = MARGIN + self.written().len();
        self.bytes[..MARGIN] != old[..MARGIN] || self.bytes[end..] != old[end..]
    }

    /// The outcome as the vectors print it.
    fn line(&self, case: &Case) -> String {
        match (&self.reply, case) {
            (Reply::Done(_), Case::CheckTable { .. }) => "ok".into(),
            (Reply::Done(_), Case::Report { .. }) => format!("report {}", hex(self.written())),
            (Reply::Done(_), _) => format!("ok {}", hex(self.written())),
            (Reply::Merged(_), _) => format!("merged {}", hex(self.written())),
            (Reply::Conflict { version, place }, _) => format!("conflict {version} {place}"),
            (Reply::Overfull { place }, _) => format!("overfull {place}"),
            (Reply::Refused { number, position }, Case::Batch { .. }) => {
                format!("refused {number} {position}")
            }
            (Reply::Refused { number, .. }, _) => format!("refused {number}"),
            (Reply::Value(Some(range)), Case::Value { event, .. }) => {
                format!("value {}", hex(&event[range.clone()]))
            }
            (Reply::Value(_), _) => "value ".into(),
        }
    }
}

/// The line of a case, run on an output that is filled with EE.
pub fn line(merger: &impl Merger, case: &Case) -> String {
    let old = vec![0xEE; Outcome::length(case)];
    let outcome = Outcome::of(merger, case, &old);
    let dirty = if outcome.is_dirty(&old) { " dirty" } else { "" };
    outcome.line(case) + dirty
}

/// The lines of a script, or `None` where it does not read to its end.
pub fn replay(merger: &impl Merger, script: &[u8]) -> Option<String> {
    let mut reader = Reader::new(script);
    let mut lines = String::new();
    while !reader.is_at_end() {
        let case = Case::read(&mut reader)?;
        lines += &line(merger, &case);
        lines.push('\n');
    }
    Some(lines)
}

pub fn hex(bytes: &[u8]) -> String {
    let mut digits = String::with_capacity(2 * bytes.len());
    for byte in bytes {
        write!(digits, "{byte:02x}").expect("a String takes every character");
    }
    digits
}
