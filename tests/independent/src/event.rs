//! Packed events.

use crate::packed::{put_count, put_places, put_text, Reader, Set};
use crate::question::Question;
use crate::table::{EventType, Table};
use std::collections::{BTreeMap, BTreeSet};

/// The objects of each property that has some, by place.
pub type Sets<'a> = BTreeMap<usize, Set<'a>>;

#[derive(Clone, Debug, PartialEq, Eq)]
pub struct Event<'a> {
    pub head: Head<'a>,
    pub sets: Sets<'a>,
}

/// What events and dossiers both begin with.
#[derive(Clone, Debug, PartialEq, Eq)]
pub struct Head<'a> {
    pub type_name: &'a [u8],
    pub source: &'a [u8],
    pub parents: Set<'a>,
}

/// How many parents and objects an event may have.
#[derive(Clone, Copy)]
pub struct Counts {
    parents: usize,
    objects: usize,
}

impl Counts {
    /// Of an event that is checked.
    pub const EVENT: Counts = Counts {
        parents: 8,
        objects: 32,
    };
    /// Of an event that is read or hashed: a merged one too.
    pub const MERGED: Counts = Counts {
        parents: 32,
        objects: 256,
    };
}

impl<'a> Event<'a> {
    pub fn read(bytes: &'a [u8], most: Counts) -> Option<Self> {
        let mut reader = Reader::new(bytes);
        let head = Head::read(&mut reader, most.parents)?;
        let presence = reader.places()?;
        let sets = read_sets(&mut reader, &presence, most.objects)?;
        let has_few_objects = objects(&sets) <= most.objects;
        reader.end(Event { head, sets }).filter(|_| has_few_objects)
    }

    /// Questions 3 to 6.
    pub fn accept<'t>(
        table: &'t Table<'t>,
        bytes: &'a [u8],
        most: Counts,
    ) -> Result<(&'t EventType<'t>, Self), Question> {
        let event = Event::read(bytes, most).ok_or(Question::Layout)?;
        let event_type = table.find(event.head.type_name).ok_or(Question::Type)?;
        Question::Shape.ask(event.has_shape(event_type))?;
        Question::Values.ask(event_type.has_values(&event.sets))?;
        Ok((event_type, event))
    }

    fn has_shape(&self, event_type: &EventType) -> bool {
        event_type.has_properties(&self.sets.keys().copied().collect())
            && event_type.has_single(&self.sets, |property| !property.multivalued)
            && event_type.has_few_match_objects(&self.sets)
    }

    pub fn write(&self) -> Vec<u8> {
        let mut out = Vec::new();
        self.head.write(&mut out);
        put_places(&mut out, self.sets.keys());
        put_sets(&mut out, &self.sets);
        out
    }

    /// Does this event, of `event_type`, describe the same logical event as `other`?
    pub fn collides(&self, event_type: &EventType, other: &Self) -> bool {
        self.head.agrees(&other.head)
            && event_type.match_sets(&self.sets) == event_type.match_sets(&other.sets)
    }

    /// The number in the marked property of an accepted event.
    pub fn version(&self, mark: usize) -> u64 {
        let digits = self.sets[&mark].iter().copied().flatten();
        digits.fold(0, |number, digit| number * 10 + u64::from(digit - b'0'))
    }

    /// Source, type and the sorted match objects, as the sticky hash takes them.
    pub fn hash_text(&self, event_type: &EventType) -> Vec<u8> {
        let matched = event_type.match_places();
        let objects: BTreeSet<Vec<u8>> = matched
            .flat_map(|(place, property)| {
                let values = self.sets.get(&place).into_iter().flatten();
                values.map(|value| [property.name, b":", value].concat())
            })
            .collect();
        let objects: Vec<_> = objects.into_iter().collect();
        [
            self.head.source,
            b"\n",
            self.head.type_name,
            b"\n",
            &objects.join(&[0xFF; 4][..]),
        ]
        .concat()
    }
}

impl<'a> Head<'a> {
    pub fn read(reader: &mut Reader<'a>, most_parents: usize) -> Option<Self> {
        let type_name = reader.text()?;
        let source = reader.text().filter(|source| is_source(source))?;
        let count = reader.count(0..=most_parents)?;
        let parents = reader.rising(count, |reader| reader.bytes(20))?;
        Some(Head {
            type_name,
            source,
            parents,
        })
    }

    pub fn write(&self, out: &mut Vec<u8>) {
        put_text(out, self.type_name);
        put_text(out, self.source);
        put_count(out, self.parents.len());
        out.extend(self.parents.iter().copied().flatten());
    }

    /// Parents don't count: colliding events may have different ones.
    pub fn agrees(&self, other: &Self) -> bool {
        self.type_name == other.type_name && self.source == other.source
    }
}

fn is_source(source: &[u8]) -> bool {
    (1..=120).contains(&source.len()) && source.iter().all(u8::is_ascii_graphic)
}

/// A set of at least one and at most `most` objects for each place of `presence`.
pub fn read_sets<'a>(
    reader: &mut Reader<'a>,
    presence: &BTreeSet<usize>,
    most: usize,
) -> Option<Sets<'a>> {
    let sets = presence.iter().map(|place| {
        let count = reader.count(1..=most)?;
        Some((*place, reader.rising(count, Reader::text)?))
    });
    sets.collect()
}

pub fn put_sets(out: &mut Vec<u8>, sets: &Sets) {
    for set in sets.values() {
        put_count(out, set.len());
        set.iter().for_each(|value| put_text(out, value));
    }
}

pub fn objects(sets: &Sets) -> usize {
    sets.values().map(Set::len).sum()
}
