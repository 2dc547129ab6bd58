//! Events, dossiers and batches by how much they have.

use super::{property, table_of, unversioned, versioned, SOURCE, TYPE};
use crate::draft::{ADD, MATCH};
use independent::dossier::{Dossier, Snapshot};
use independent::event::{Event, Head, Sets};
use independent::packed::put_batch;
use std::ops::Range;

/// Two properties that add, and two that match.
const STRATEGIES: [(&str, u64); 4] = [("a", ADD), ("b", ADD), ("m", MATCH), ("n", MATCH)];
/// The place of the property behind these.
pub const MARK: usize = STRATEGIES.len();

/// The events of a batch, and as much as each may have of the first property and of the parents.
const EVENTS: usize = 16;
const EVENT_OBJECTS: usize = 16;
const EVENT_PARENTS: usize = 8;

/// What stands in an event or a dossier: parents, versions and objects by number.
#[derive(Clone)]
pub struct Content {
    pub parents: Range<usize>,
    pub versions: Range<usize>,
    pub objects: [Range<usize>; MARK],
}

pub const SMALL: Content = Content {
    parents: 0..0,
    versions: 0..1,
    objects: [0..1, 0..0, 0..1, 0..0],
};

/// The type of all contents, unversioned and versioned: its table, and whether it is versioned.
pub fn tables() -> [(Vec<u8>, bool); 2] {
    [unversioned, versioned].map(|of| {
        let properties =
            STRATEGIES.map(|(name, strategy)| property(name, &[8, 4], [1, 1, strategy]));
        let event_type = of(properties.to_vec());
        let is_versioned = event_type.mark > 0;
        (table_of(event_type).pack(), is_versioned)
    })
}

impl Content {
    /// All of it in one event, of version 0.
    pub fn event(&self, is_versioned: bool) -> Vec<u8> {
        self.event_of(0, is_versioned)
    }

    fn event_of(&self, version: usize, is_versioned: bool) -> Vec<u8> {
        let names = Names::new();
        let event = Event {
            head: self.head(&names),
            sets: self.sets(&names, is_versioned.then_some(version)),
        };
        event.write()
    }

    pub fn dossier(&self, is_versioned: bool) -> Vec<u8> {
        let names = Names::new();
        let snapshots = self.versions.clone().map(|version| {
            let snapshot = Snapshot {
                sets: self.sets(&names, is_versioned.then_some(version)),
                ..Snapshot::default()
            };
            (version as u64, snapshot)
        });
        let head = self.head(&names);
        let snapshots = snapshots.collect();
        Dossier { head, snapshots }.write()
    }

    /// Events that have it together: each a part of the parents and of the first property.
    pub fn batch(&self, is_versioned: bool) -> Vec<u8> {
        let versions = self.versions.clone().cycle();
        let events = versions.take(EVENTS).enumerate().map(|(event, version)| {
            let mut part = self.clone();
            part.parents = part_of(&self.parents, event, EVENT_PARENTS);
            part.objects[0] = part_of(&self.objects[0], event, EVENT_OBJECTS);
            part.event_of(version, is_versioned)
        });
        let mut batch = Vec::new();
        put_batch(&mut batch, &events.collect::<Vec<_>>());
        batch
    }

    /// Two that have it together: each a part of the parents, the versions and the first property.
    pub fn halves(&self) -> [Content; 2] {
        let [parents, versions, first] =
            [&self.parents, &self.versions, &self.objects[0]].map(halve);
        [0, 1].map(|half| {
            let mut content = self.clone();
            content.parents = parents[half].clone();
            content.versions = versions[half].clone();
            content.objects[0] = first[half].clone();
            content
        })
    }

    fn head<'n>(&self, names: &'n Names) -> Head<'n> {
        let parents = names.parents[self.parents.clone()].iter();
        Head {
            type_name: TYPE.as_bytes(),
            source: SOURCE.as_bytes(),
            parents: parents.map(Vec::as_slice).collect(),
        }
    }

    fn sets<'n>(&self, names: &'n Names, version: Option<usize>) -> Sets<'n> {
        let drawn = self.objects.iter().enumerate().map(|(place, numbers)| {
            let values = names.values[numbers.clone()].iter();
            (place, values.map(String::as_bytes).collect())
        });
        let mut sets: Sets = drawn.collect();
        sets.retain(|_, set| !set.is_empty());
        if let Some(version) = version {
            sets.insert(MARK, [names.versions[version].as_bytes()].into());
        }
        sets
    }
}

/// The part of `whole` that the event at a position has, where each has `size` numbers.
fn part_of(whole: &Range<usize>, event: usize, size: usize) -> Range<usize> {
    let start = (whole.start + event * size).min(whole.end);
    start..whole.end.min(start + size)
}

/// Two parts of `whole`. Where it has one number, both have it.
fn halve(whole: &Range<usize>) -> [Range<usize>; 2] {
    let middle = (whole.start + whole.end).div_ceil(2);
    let late = middle.min(whole.end.saturating_sub(1));
    [whole.start..middle, late..whole.end]
}

/// The bytes behind the numbers of a content.
struct Names {
    parents: Vec<Vec<u8>>,
    values: Vec<String>,
    versions: Vec<String>,
}

impl Names {
    fn new() -> Self {
        Names {
            parents: (0..33).map(|number| vec![number; 20]).collect(),
            values: (0..257).map(|number| format!("{number:03}")).collect(),
            versions: (0..9).map(|number| number.to_string()).collect(),
        }
    }
}
