//! The proved archive, as an implementation that cases can be put to.

use crate::random::Random;
use independent::case::Case;
use independent::script::{range_in, Merger, Reply};
use merger::{Limits, Opened, Refusal};

pub struct Proved;

impl Merger for Proved {
    fn call(&self, case: &Case, out: &mut [u8]) -> Reply {
        use Case::*;
        let limits = limits_of(case);
        match case {
            CheckTable { table } => done(merger::check_table(table).map(|()| &[][..])),
            CheckEvent { table, event, .. } => done(merger::check_event(table, event, out)),
            Combine {
                table, left, right, ..
            } => done(merger::combine(limits, table, left, right, out)),
            Open { table, dossier, .. } => opened(merger::open(limits, table, dossier, out)),
            Value {
                table,
                event,
                place,
                index,
            } => {
                let value = merger::value(table, event, *place as usize, *index as usize);
                Reply::Value(value.map(|value| range_in(event, value)))
            }
            HashText { table, event, .. } => done(merger::hash_text(table, event, out)),
            Hash { table, event, .. } => done(merger::hash(table, event, out)),
            Batch {
                scratch,
                table,
                batch,
                ..
            } => {
                let mut buffers = scratch.map(Scratch::new);
                let scratch = buffers.each_mut().map(Scratch::lend);
                let reply = done(merger::batch(limits, table, batch, out, scratch));
                buffers.iter().for_each(Scratch::check);
                reply
            }
            Report { input } => done(merger::report(input, out)),
        }
    }
}

/// Bytes on either side of a scratch buffer, which no call may touch.
const MARGIN: usize = 64;

/// A scratch buffer between margins. It may hold anything before a call: noise.
struct Scratch {
    noise: Vec<u8>,
    bytes: Vec<u8>,
}

impl Scratch {
    fn new(room: usize) -> Self {
        let noise = Random::new(room as u64).bytes(MARGIN + room + MARGIN);
        let bytes = noise.clone();
        Scratch { noise, bytes }
    }

    fn lend(&mut self) -> &mut [u8] {
        let end = self.bytes.len() - MARGIN;
        &mut self.bytes[MARGIN..end]
    }

    fn check(&self) {
        let end = self.bytes.len() - MARGIN;
        let margins = |bytes: &[u8]| [&bytes[..MARGIN], &bytes[end..]].concat();
        assert_eq!(margins(&self.bytes), margins(&self.noise), "beside scratch");
    }
}

fn limits_of(case: &Case) -> Limits {
    let limits = case.limits();
    Limits {
        versions: limits.versions,
        parents: limits.parents,
        objects: limits.objects,
    }
}

fn done(answer: Result<&[u8], Refusal>) -> Reply {
    answer.map_or_else(refused, |written| Reply::Done(written.len()))
}

fn opened(answer: Result<Opened, Refusal>) -> Reply {
    match answer {
        Ok(Opened::Merged(event)) => Reply::Merged(event.len()),
        Ok(Opened::Conflict { version, place }) => Reply::Conflict { version, place },
        Ok(Opened::Overfull { place }) => Reply::Overfull { place },
        Err(refusal) => refused(refusal),
    }
}

fn refused(refusal: Refusal) -> Reply {
    Reply::Refused {
        number: refusal.question.number(),
        position: refusal.position,
    }
}
