//! The rule over a set of events, combining and the limits.

use crate::dossier::{Dossier, Snapshot};
use crate::event::{objects, Event, Sets};
use crate::limits::Limits;
use crate::packed::Set;
use crate::table::{EventType, Property, Strategy};
use std::collections::btree_map::Entry;
use std::collections::BTreeMap;

/// The dossier of accepted events of one type that all collide.
pub fn rule<'a>(event_type: &EventType, events: &[Event<'a>]) -> Dossier<'a> {
    let parents = events.iter().flat_map(|event| &event.head.parents);
    let mut head = events[0].head.clone();
    head.parents = parents.copied().collect();
    let sets = events.iter().map(|event| &event.sets);
    let snapshots = match event_type.mark {
        Some(mark) => by_version(mark, events),
        None => BTreeMap::from([(0, unversioned(event_type, sets.collect()))]),
    };
    Dossier { head, snapshots }
}

fn by_version<'a>(mark: usize, events: &[Event<'a>]) -> BTreeMap<u64, Snapshot<'a>> {
    let mut versions: BTreeMap<u64, Vec<&Sets<'a>>> = BTreeMap::new();
    for event in events {
        let of_version = versions.entry(event.version(mark)).or_default();
        of_version.push(&event.sets);
    }
    let snapshots = versions
        .into_iter()
        .map(|(version, of_version)| (version, agreement(&of_version)));
    snapshots.collect()
}

/// The sets that all events of one version share, and the places in which they differ.
fn agreement<'a>(events: &[&Sets<'a>]) -> Snapshot<'a> {
    let first = events[0];
    let places = events.iter().flat_map(|sets| sets.keys());
    let differ = places
        .filter(|place| {
            events
                .iter()
                .any(|sets| sets.get(place) != first.get(place))
        })
        .copied()
        .collect();
    let mut agreed = Snapshot {
        sets: first.clone(),
        differ,
    };
    agreed.forget_marked();
    agreed
}

fn unversioned<'a>(event_type: &EventType, all: Vec<&Sets<'a>>) -> Snapshot<'a> {
    Snapshot {
        sets: pool(event_type, &all),
        ..Snapshot::default()
    }
}

/// The sets of several events or snapshots, lowest version first, under the merge strategies.
pub fn pool<'a>(event_type: &EventType, all: &[&Sets<'a>]) -> Sets<'a> {
    let sets = event_type
        .properties
        .iter()
        .enumerate()
        .map(|(place, property)| (place, pool_property(property, place, all)));
    sets.filter(|(_, set)| !set.is_empty()).collect()
}

fn pool_property<'a>(property: &Property, place: usize, all: &[&Sets<'a>]) -> Set<'a> {
    let sets = all.iter().filter_map(|sets| sets.get(&place));
    let values = sets.flatten().copied();
    let rank = |value: &&[u8]| property.kind.rank(value);
    match property.strategy {
        Strategy::Min => values.min_by_key(rank).into_iter().collect(),
        Strategy::Max => values.max_by_key(rank).into_iter().collect(),
        Strategy::Replace => {
            let highest = all.last().and_then(|sets| sets.get(&place));
            highest.cloned().unwrap_or_default()
        }
        _ => values.collect(),
    }
}

/// The rule over the events of both sides together, which collide.
pub fn combine<'a>(
    event_type: &EventType,
    mut left: Dossier<'a>,
    right: Dossier<'a>,
) -> Dossier<'a> {
    left.head.parents.extend(right.head.parents);
    for (version, snapshot) in right.snapshots {
        match left.snapshots.entry(version) {
            Entry::Vacant(place) => {
                place.insert(snapshot);
            }
            Entry::Occupied(mut shared) if event_type.mark.is_none() => {
                let both = vec![&shared.get().sets, &snapshot.sets];
                let pooled = unversioned(event_type, both);
                shared.insert(pooled);
            }
            Entry::Occupied(mut shared) => shared.get_mut().meet(snapshot),
        }
    }
    left
}

impl Snapshot<'_> {
    /// Keeps what both snapshots of one event version say, and marks the rest.
    fn meet(&mut self, other: Self) {
        let places = self.sets.keys().chain(other.sets.keys());
        let unequal = places.filter(|place| self.sets.get(place) != other.sets.get(place));
        self.differ.extend(unequal);
        self.differ.extend(other.differ);
        self.forget_marked();
    }

    /// A place is present or marked, not both.
    fn forget_marked(&mut self) {
        self.sets.retain(|place, _| !self.differ.contains(place));
    }
}

/// Do the events of this dossier pass none of the limits?
pub fn is_within(limits: Limits, event_type: &EventType, dossier: &Dossier) -> bool {
    let mut snapshots = dossier.snapshots.values();
    dossier.snapshots.len() <= limits.versions
        && dossier.head.parents.len() <= limits.parents
        && (event_type.mark.is_some()
            || snapshots.all(|each| objects(&each.sets) <= limits.objects))
}
