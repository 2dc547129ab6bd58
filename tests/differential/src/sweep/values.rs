//! Each kind's edge values, alone and in pairs.

use super::{batch, combine, event_cases, open, property, table_of, unversioned, SOURCE, TYPE};
use crate::draft::{ADD, MATCH, MAX, MIN};
use crate::edge::{Edges, KINDS};
use crate::value::is_ordered;
use independent::case::Case;
use independent::dossier::{Dossier, Snapshot};
use independent::event::{Event, Head, Sets};
use independent::packed::{put_batch, Set};
use std::collections::BTreeMap;

pub fn cases() -> impl Iterator<Item = Case> {
    KINDS.iter().flat_map(|kind| {
        let edges = Edges::of(kind);
        let pairs = match is_ordered(kind) {
            true => [MIN, MAX]
                .map(|choice| pairs(&table(kind, choice), &edges))
                .concat(),
            false => vec![],
        };
        let alone = [ADD, MATCH].map(|strategy| alone(&table(kind, strategy), &edges));
        alone.concat().into_iter().chain(pairs)
    })
}

/// A table with one property.
fn table(kind: &[u64], strategy: u64) -> Vec<u8> {
    table_of(unversioned(vec![property("a", kind, [0, 0, strategy])])).pack()
}

/// Each value in an event and in a dossier that are good otherwise.
fn alone(table: &[u8], edges: &Edges) -> Vec<Case> {
    let values = edges.inside.iter().chain(&edges.outside);
    let cases = values.flat_map(|value| {
        let opened = open(table, &dossier(value));
        event_cases(table, &event(value).write())
            .into_iter()
            .chain([opened])
    });
    cases.collect()
}

/// Which of two values is chosen, for all pairs of good ones.
fn pairs(table: &[u8], edges: &Edges) -> Vec<Case> {
    let good = &edges.inside;
    let pairs = good
        .iter()
        .flat_map(|left| good.iter().map(move |right| [left, right]));
    let cases = pairs.flat_map(|[left, right]| {
        let mut events = Vec::new();
        put_batch(
            &mut events,
            &[left, right].map(|value| event(value).write()),
        );
        [
            batch(table, &events),
            combine(table, &dossier(left), &dossier(right)),
        ]
    });
    cases.collect()
}

fn event(value: &[u8]) -> Event<'_> {
    Event {
        head: head(),
        sets: sets(value),
    }
}

fn dossier(value: &[u8]) -> Vec<u8> {
    let only = Snapshot {
        sets: sets(value),
        ..Snapshot::default()
    };
    let snapshots = BTreeMap::from([(0, only)]);
    let head = head();
    Dossier { head, snapshots }.write()
}

fn head() -> Head<'static> {
    Head {
        type_name: TYPE.as_bytes(),
        source: SOURCE.as_bytes(),
        parents: Set::new(),
    }
}

fn sets(value: &[u8]) -> Sets<'_> {
    Sets::from([(0, Set::from([value]))])
}
