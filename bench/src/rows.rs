//! The rows of the table: the same call on both sides, with buffers that are not cleared between.

use crate::workload::{host, host_dossier, port_dossier, table};
use independent::calls::{self, Opening, DOSSIER_ROOM, HASH_ROOM, HASH_TEXT_ROOM};
use independent::limits::Limits;
use independent::packed::put_batch;
use independent::question;
use merger::Opened;

/// A call that gives the length of what it wrote to the buffer.
type Call = Box<dyn FnMut(&mut [u8]) -> usize>;

pub struct Row {
    pub name: &'static str,
    pub room: usize,
    pub archive: Call,
    pub independent: Call,
    /// The inputs, where the row is set beside a copy of what is read and written.
    pub copied: Option<Vec<u8>>,
}

pub fn rows() -> Vec<Row> {
    let fours = [host_dossier([1, 3, 5, 7]), host_dossier([2, 4, 6, 8])];
    let seven_and_one = [host_dossier(1..=7), host_dossier([8])];
    let eights = [host_dossier(1..=8), host_dossier(1..=8)];
    let halves = [port_dossier(0), port_dossier(1)];
    vec![
        of_event(
            "check event, 14 objects",
            DOSSIER_ROOM,
            merger::check_event,
            calls::check_event,
        ),
        combine("combine, 4 and 4 snapshots", fours.clone()),
        combine(
            "combine, 7 snapshots and a newer one",
            seven_and_one.clone(),
        ),
        combine("combine, 8 and 8 snapshots of the same versions", eights),
        combine("combine, 128 and 128 objects, unversioned", halves.clone()),
        open("open, of 4 and 4 snapshots", fours),
        open("open, of 7 snapshots and a newer one", seven_and_one),
        open("open, of 128 and 128 objects, unversioned", halves),
        of_event(
            "hash text, 14 objects",
            HASH_TEXT_ROOM,
            merger::hash_text,
            calls::hash_text,
        ),
        of_event("hash, 14 objects", HASH_ROOM, merger::hash, calls::hash),
        batch_of_16(),
    ]
}

type ArchiveCall = for<'o> fn(&[u8], &[u8], &'o mut [u8]) -> Result<&'o [u8], merger::Refusal>;
type IndependentCall = fn(&[u8], &[u8], &mut [u8]) -> Result<usize, question::Refusal>;

/// A call that takes one event: a host's.
fn of_event(
    name: &'static str,
    room: usize,
    archive: ArchiveCall,
    independent: IndependentCall,
) -> Row {
    let (table, event) = (table(), host(1));
    let inputs = (table.clone(), event.clone());
    Row {
        name,
        room,
        archive: Box::new(move |out| archive(&table, &event, out).unwrap().len()),
        independent: Box::new(move |out| independent(&inputs.0, &inputs.1, out).unwrap()),
        copied: None,
    }
}

fn combine(name: &'static str, [left, right]: [Vec<u8>; 2]) -> Row {
    let table = table();
    let copied = [&table[..], &left, &right].concat();
    let inputs = (table.clone(), left.clone(), right.clone());
    Row {
        name,
        room: DOSSIER_ROOM,
        archive: Box::new(move |out| {
            let limits = merger::Limits::default();
            let dossier = merger::combine(limits, &table, &left, &right, out);
            dossier.unwrap().len()
        }),
        independent: Box::new(move |out| {
            let (table, left, right) = &inputs;
            calls::combine(Limits::PROFILE, table, left, right, out).unwrap()
        }),
        copied: Some(copied),
    }
}

/// Opens what the two dossiers combine to.
fn open(name: &'static str, [left, right]: [Vec<u8>; 2]) -> Row {
    let table = table();
    let mut dossier = vec![0; DOSSIER_ROOM];
    let length = calls::combine(Limits::PROFILE, &table, &left, &right, &mut dossier);
    dossier.truncate(length.unwrap());
    let copied = [&table[..], &dossier].concat();
    let inputs = (table.clone(), dossier.clone());
    Row {
        name,
        room: DOSSIER_ROOM,
        archive: Box::new(move |out| {
            let limits = merger::Limits::default();
            match merger::open(limits, &table, &dossier, out) {
                Ok(Opened::Merged(event)) => event.len(),
                other => panic!("{other:?}"),
            }
        }),
        independent: Box::new(move |out| {
            let (table, dossier) = &inputs;
            match calls::open(Limits::PROFILE, table, dossier, out) {
                Ok(Opening::Merged(length)) => length,
                other => panic!("{other:?}"),
            }
        }),
        copied: Some(copied),
    }
}

/// Events of eight versions, each twice.
fn batch_of_16() -> Row {
    let table = table();
    let events: Vec<_> = (1..=8).chain(1..=8).map(host).collect();
    let mut frames = Vec::new();
    put_batch(&mut frames, &events);
    let inputs = (table.clone(), frames.clone());
    let scratch = || [(); 3].map(|()| vec![0; DOSSIER_ROOM]);
    let (mut own, mut other) = (scratch(), scratch());
    Row {
        name: "batch of 16",
        room: DOSSIER_ROOM,
        archive: Box::new(move |out| {
            let scratch = own.each_mut().map(Vec::as_mut_slice);
            let limits = merger::Limits::default();
            let dossier = merger::batch(limits, &table, &frames, out, scratch);
            dossier.unwrap().len()
        }),
        independent: Box::new(move |out| {
            let scratch = other.each_mut().map(Vec::as_mut_slice);
            let (table, frames) = &inputs;
            calls::batch(Limits::PROFILE, table, frames, out, scratch).unwrap()
        }),
        copied: None,
    }
}
