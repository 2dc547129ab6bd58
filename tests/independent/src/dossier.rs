//! Dossiers: what is kept of colliding events.

use crate::event::{objects, put_sets, read_sets, Head, Sets};
use crate::limits::Limits;
use crate::packed::{put_count, put_number, put_places, Reader};
use crate::question::Question;
use crate::table::{EventType, Strategy, Table};
use std::collections::{BTreeMap, BTreeSet};

#[derive(Clone, Debug, PartialEq, Eq)]
pub struct Dossier<'a> {
    pub head: Head<'a>,
    /// By event version; an unversioned type has one, of version 0.
    pub snapshots: BTreeMap<u64, Snapshot<'a>>,
}

/// What the events of one version say, and in which places they differ.
#[derive(Clone, Debug, Default, PartialEq, Eq)]
pub struct Snapshot<'a> {
    pub sets: Sets<'a>,
    pub differ: BTreeSet<usize>,
}

impl<'a> Dossier<'a> {
    pub fn read(limits: Limits, bytes: &'a [u8]) -> Option<Self> {
        let mut reader = Reader::new(bytes);
        let head = Head::read(&mut reader, limits.parents)?;
        let count = reader.count(1..=limits.versions)?;
        let mut snapshots = BTreeMap::new();
        for _ in 0..count {
            let version = reader.number()?;
            let highest = snapshots.last_key_value();
            if highest.is_some_and(|(highest, _)| *highest >= version) {
                return None;
            }
            snapshots.insert(version, Snapshot::read(&mut reader)?);
        }
        reader.end(Dossier { head, snapshots })
    }

    /// Questions 3 to 6.
    pub fn accept<'t>(
        limits: Limits,
        table: &'t Table<'t>,
        bytes: &'a [u8],
    ) -> Result<(&'t EventType<'t>, Self), Question> {
        let dossier = Dossier::read(limits, bytes).ok_or(Question::Layout)?;
        let event_type = table.find(dossier.head.type_name).ok_or(Question::Type)?;
        Question::Shape.ask(dossier.has_shape(limits, event_type))?;
        let mut snapshots = dossier.snapshots.values();
        Question::Values.ask(snapshots.all(|each| event_type.has_values(&each.sets)))?;
        Ok((event_type, dossier))
    }

    fn has_shape(&self, limits: Limits, event_type: &EventType) -> bool {
        let mut snapshots = self.snapshots.values();
        snapshots.all(|each| event_type.has_properties(&each.places()))
            && match event_type.mark {
                Some(mark) => self.is_versioned(event_type, mark),
                None => self.is_unversioned(limits, event_type),
            }
            && self.has_match_sets(event_type)
    }

    fn is_versioned(&self, event_type: &EventType, mark: usize) -> bool {
        self.snapshots.iter().all(|(version, snapshot)| {
            let digits = version.to_string();
            objects(&snapshot.sets) <= 32
                && event_type.has_single(&snapshot.sets, |property| !property.multivalued)
                && snapshot.sets.get(&mark) == Some(&BTreeSet::from([digits.as_bytes()]))
        })
    }

    /// Single-valued properties may have more objects here: opening calls those overfull.
    fn is_unversioned(&self, limits: Limits, event_type: &EventType) -> bool {
        self.snapshots.len() == 1
            && self.snapshots.get(&0).is_some_and(|snapshot| {
                snapshot.differ.is_empty()
                    && objects(&snapshot.sets) <= limits.objects
                    && event_type.has_single(&snapshot.sets, |property| {
                        matches!(property.strategy, Strategy::Min | Strategy::Max)
                    })
            })
    }

    /// All events of a dossier collide, so all snapshots have the match sets of one event.
    fn has_match_sets(&self, event_type: &EventType) -> bool {
        let first = self.any_sets();
        let match_sets = event_type.match_sets(first);
        event_type.has_few_match_objects(first)
            && event_type.has_single(first, |property| {
                property.strategy == Strategy::Match && !property.multivalued
            })
            && self.snapshots.values().all(|snapshot| {
                let mut places = event_type.match_places();
                event_type.match_sets(&snapshot.sets) == match_sets
                    && places.all(|(place, _)| !snapshot.differ.contains(&place))
            })
    }

    /// The sets of one snapshot: as good as any for the match properties.
    fn any_sets(&self) -> &Sets<'a> {
        let (_, snapshot) = self.snapshots.first_key_value().expect("a snapshot");
        &snapshot.sets
    }

    /// Does this dossier, of `event_type`, describe the same logical event as `other`?
    pub fn collides(&self, event_type: &EventType, other: &Self) -> bool {
        let match_sets = event_type.match_sets(self.any_sets());
        self.head.agrees(&other.head) && match_sets == event_type.match_sets(other.any_sets())
    }

    pub fn write(&self) -> Vec<u8> {
        let mut out = Vec::new();
        self.head.write(&mut out);
        put_count(&mut out, self.snapshots.len());
        for (version, snapshot) in &self.snapshots {
            put_number(&mut out, *version);
            put_places(&mut out, snapshot.sets.keys());
            put_places(&mut out, &snapshot.differ);
            put_sets(&mut out, &snapshot.sets);
        }
        out
    }
}

impl<'a> Snapshot<'a> {
    fn read(reader: &mut Reader<'a>) -> Option<Self> {
        let presence = reader.places()?;
        let differ = reader.places()?;
        let sets = read_sets(reader, &presence, 256)?;
        let is_apart = presence.is_disjoint(&differ);
        is_apart.then_some(Snapshot { sets, differ })
    }

    /// The places that are present or marked.
    fn places(&self) -> BTreeSet<usize> {
        self.sets.keys().chain(&self.differ).copied().collect()
    }
}
