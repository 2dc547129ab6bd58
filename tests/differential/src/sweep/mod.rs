//! Cases at the limits of the profile, which random choice would hardly meet: all of them, in
//! order, before the made-up calls.

mod content;
mod counts;
mod limits;
mod tables;
mod values;

use crate::draft::{PropertyDraft, TableDraft, TypeDraft, MAX, SEQUENCE};
use independent::calls::{DOSSIER_ROOM, HASH_ROOM, HASH_TEXT_ROOM};
use independent::case::Case;

const TYPE: &str = "t";
const SOURCE: &str = "/";

pub fn cases() -> Vec<Case> {
    let tables = tables::all().map(|table| Case::CheckTable {
        table: table.pack(),
    });
    let inputs = values::cases()
        .chain(counts::cases())
        .chain(limits::cases());
    tables.chain(inputs).collect()
}

fn table_of(event_type: TypeDraft) -> TableDraft {
    TableDraft {
        types: vec![event_type],
    }
}

fn unversioned(properties: Vec<PropertyDraft>) -> TypeDraft {
    TypeDraft {
        name: TYPE.into(),
        definition_version: 1,
        mark: 0,
        properties,
    }
}

/// The same type, with a property behind the others that holds the event version.
fn versioned(properties: Vec<PropertyDraft>) -> TypeDraft {
    let mut event_type = unversioned(properties);
    let version = property("version", &[SEQUENCE], [0, 0, MAX]);
    event_type.properties.push(version);
    event_type.mark = event_type.properties.len() as u64;
    event_type
}

/// A property that is optional and multivalued or not, with a strategy.
fn property(
    name: &str,
    kind: &[u64],
    [optional, multivalued, strategy]: [u64; 3],
) -> PropertyDraft {
    PropertyDraft {
        name: name.into(),
        kind: kind.to_vec(),
        optional,
        multivalued,
        strategy,
    }
}

/// The calls that take one event.
fn event_cases(table: &[u8], event: &[u8]) -> [Case; 4] {
    let (table, event) = (table.to_vec(), event.to_vec());
    [
        Case::CheckEvent {
            room: DOSSIER_ROOM,
            table: table.clone(),
            event: event.clone(),
        },
        Case::HashText {
            room: HASH_TEXT_ROOM,
            table: table.clone(),
            event: event.clone(),
        },
        Case::Hash {
            room: HASH_ROOM,
            table: table.clone(),
            event: event.clone(),
        },
        Case::Value {
            table,
            event,
            place: 0,
            index: 0,
        },
    ]
}

fn open(table: &[u8], dossier: &[u8]) -> Case {
    Case::Open {
        chosen: None,
        room: DOSSIER_ROOM,
        table: table.to_vec(),
        dossier: dossier.to_vec(),
    }
}

fn combine(table: &[u8], left: &[u8], right: &[u8]) -> Case {
    Case::Combine {
        chosen: None,
        room: DOSSIER_ROOM,
        table: table.to_vec(),
        left: left.to_vec(),
        right: right.to_vec(),
    }
}

fn batch(table: &[u8], batch: &[u8]) -> Case {
    Case::Batch {
        chosen: None,
        room: DOSSIER_ROOM,
        scratch: [DOSSIER_ROOM; 3],
        table: table.to_vec(),
        batch: batch.to_vec(),
    }
}
