//! The public calls: each asks its questions in the profile's order, and writes only when all
//! are answered yes.

use crate::dossier::Dossier;
use crate::event::{Counts, Event};
use crate::limits::Limits;
use crate::opening::{self, Opened};
use crate::packed::Reader;
use crate::question::{Question, Refusal};
use crate::report;
use crate::rule;
use crate::sha1::sha1;
use crate::table::{EventType, Table};

/// The least room for a dossier or a merged event, and in each scratch buffer.
pub const DOSSIER_ROOM: usize = 32_768;
pub const HASH_TEXT_ROOM: usize = 8_192;
pub const HASH_ROOM: usize = 20;
pub const REPORT_ROOM: usize = 65_536;

/// What opening answers: a merged event's length, or what stands in its way.
#[derive(Clone, Copy, Debug, PartialEq, Eq)]
pub enum Opening {
    Merged(usize),
    Conflict { version: u64, place: usize },
    Overfull { place: usize },
}

pub fn check_table(table: &[u8]) -> Result<(), Refusal> {
    read_table(table)?;
    Ok(())
}

/// Writes the dossier of one event.
pub fn check_event(table: &[u8], event: &[u8], out: &mut [u8]) -> Result<usize, Refusal> {
    ask_room(out, DOSSIER_ROOM)?;
    let table = read_table(table)?;
    let (event_type, event) = Event::accept(&table, event, Counts::EVENT)?;
    Ok(put(out, &rule::rule(event_type, &[event]).write()))
}

/// Writes the dossier of the events of two dossiers.
pub fn combine(
    limits: Limits,
    table: &[u8],
    left: &[u8],
    right: &[u8],
    out: &mut [u8],
) -> Result<usize, Refusal> {
    ask_parameters(limits)?;
    ask_room(out, DOSSIER_ROOM)?;
    let table = read_table(table)?;
    let (event_type, left) = Dossier::accept(limits, &table, left)?;
    let (_, right) = Dossier::accept(limits, &table, right)?;
    Question::Collision.ask(left.collides(event_type, &right))?;
    let both = rule::combine(event_type, left, right);
    Question::Limits.ask(rule::is_within(limits, event_type, &both))?;
    Ok(put(out, &both.write()))
}

/// Writes the merged event of a dossier that has no conflict and is not overfull.
pub fn open(
    limits: Limits,
    table: &[u8],
    dossier: &[u8],
    out: &mut [u8],
) -> Result<Opening, Refusal> {
    ask_parameters(limits)?;
    ask_room(out, DOSSIER_ROOM)?;
    let table = read_table(table)?;
    let (event_type, dossier) = Dossier::accept(limits, &table, dossier)?;
    Ok(match opening::open(event_type, dossier) {
        Opened::Merged(event) => Opening::Merged(put(out, &event.write())),
        Opened::Conflict { version, place } => Opening::Conflict { version, place },
        Opened::Overfull { place } => Opening::Overfull { place },
    })
}

/// The value at a place and an index, where it stands in the caller's event.
pub fn value<'a>(table: &[u8], event: &'a [u8], place: usize, index: usize) -> Option<&'a [u8]> {
    let table = Table::read(table)?;
    let (_, event) = Event::accept(&table, event, Counts::MERGED).ok()?;
    event.sets.get(&place)?.iter().nth(index).copied()
}

pub fn hash_text(table: &[u8], event: &[u8], out: &mut [u8]) -> Result<usize, Refusal> {
    ask_room(out, HASH_TEXT_ROOM)?;
    let table = read_table(table)?;
    let (event_type, event) = Event::accept(&table, event, Counts::MERGED)?;
    Ok(put(out, &event.hash_text(event_type)))
}

/// Writes the sticky hash.
pub fn hash(table: &[u8], event: &[u8], out: &mut [u8]) -> Result<usize, Refusal> {
    ask_room(out, HASH_ROOM)?;
    let table = read_table(table)?;
    let (event_type, event) = Event::accept(&table, event, Counts::MERGED)?;
    Ok(put(out, &sha1(&event.hash_text(event_type))))
}

/// Writes the dossier of a batch of events. The scratch buffers are only asked for their room.
pub fn batch(
    limits: Limits,
    table: &[u8],
    batch: &[u8],
    out: &mut [u8],
    scratch: [&mut [u8]; 3],
) -> Result<usize, Refusal> {
    ask_parameters(limits)?;
    ask_room(out, DOSSIER_ROOM)?;
    for buffer in scratch {
        ask_room(buffer, DOSSIER_ROOM)?;
    }
    let table = read_table(table)?;
    let (_, dossier) = merge(limits, &table, batch)?;
    Ok(put(out, &dossier.write()))
}

/// Writes what the merge program prints for a standard input.
pub fn report(input: &[u8], out: &mut [u8]) -> Result<usize, Refusal> {
    ask_room(out, REPORT_ROOM)?;
    Ok(put(out, &report::report(input)))
}

/// The dossier of all events of a batch: the rule itself, however a caller would combine them.
pub fn merge<'t, 'a>(
    limits: Limits,
    table: &'t Table<'t>,
    batch: &'a [u8],
) -> Result<(&'t EventType<'t>, Dossier<'a>), Refusal> {
    let frames = read_frames(batch).ok_or(Question::Frame)?;
    let mut accepted = Vec::new();
    for (position, frame) in frames.into_iter().enumerate() {
        let event = Event::accept(table, frame, Counts::EVENT);
        accepted.push(event.map_err(|question| question.at(position))?);
    }
    let event_type = accepted[0].0;
    let events: Vec<_> = accepted.into_iter().map(|(_, event)| event).collect();
    for (position, event) in events.iter().enumerate() {
        let collides = events[0].collides(event_type, event);
        let asked = Question::Collision.ask(collides);
        asked.map_err(|question| question.at(position))?;
    }
    let dossier = rule::rule(event_type, &events);
    Question::Limits.ask(rule::is_within(limits, event_type, &dossier))?;
    Ok((event_type, dossier))
}

fn read_frames(batch: &[u8]) -> Option<Vec<&[u8]>> {
    let mut reader = Reader::new(batch);
    let count = reader.count(1..=16)?;
    let frames = (0..count).map(|_| reader.text()).collect::<Option<_>>()?;
    reader.end(frames)
}

fn read_table(table: &[u8]) -> Result<Table<'_>, Question> {
    Table::read(table).ok_or(Question::Table)
}

fn ask_parameters(limits: Limits) -> Result<(), Question> {
    Question::Parameters.ask(limits.is_permitted())
}

fn ask_room(buffer: &[u8], least: usize) -> Result<(), Question> {
    Question::Room.ask(buffer.len() >= least)
}

/// Lays `bytes` into the front of `out`; what stands behind keeps its old bytes.
fn put(out: &mut [u8], bytes: &[u8]) -> usize {
    out[..bytes.len()].copy_from_slice(bytes);
    bytes.len()
}
