//! The ontology table.

use crate::event::Sets;
use crate::packed::{Reader, Set};
use crate::values::Kind;
use std::collections::BTreeSet;
use std::ops::RangeInclusive;

pub struct Table<'a> {
    types: Vec<EventType<'a>>,
}

pub struct EventType<'a> {
    pub name: &'a [u8],
    /// The place of the property that holds the event version, in a versioned type.
    pub mark: Option<usize>,
    /// By place.
    pub properties: Vec<Property<'a>>,
}

pub struct Property<'a> {
    pub name: &'a [u8],
    pub kind: Kind,
    pub optional: bool,
    pub multivalued: bool,
    pub strategy: Strategy,
}

/// How the objects of colliding events merge.
#[derive(Clone, Copy, Debug, PartialEq, Eq)]
pub enum Strategy {
    Min,
    Max,
    Add,
    Replace,
    Match,
    Set,
    Any,
}

impl<'a> Table<'a> {
    /// The table, where it meets every rule.
    pub fn read(bytes: &'a [u8]) -> Option<Self> {
        let mut reader = Reader::new(bytes);
        let count = reader.count(1..=16)?;
        let types = (0..count)
            .map(|_| EventType::read(&mut reader))
            .collect::<Option<Vec<_>>>()?;
        let is_rising = types.is_sorted_by(|earlier, later| earlier.name < later.name);
        reader.end(Table { types }).filter(|_| is_rising)
    }

    pub fn find(&self, name: &[u8]) -> Option<&EventType<'a>> {
        self.types.iter().find(|found| found.name == name)
    }
}

impl<'a> EventType<'a> {
    fn read(reader: &mut Reader<'a>) -> Option<Self> {
        let name = read_name(reader, 1..=64)?;
        // The definition version only has to be there: no call compares it.
        reader.number().filter(|version| *version >= 1)?;
        let mark = reader.count(0..=32)?.checked_sub(1);
        let count = reader.count(1..=32)?;
        let properties = (0..count)
            .map(|_| Property::read(reader))
            .collect::<Option<Vec<_>>>()?;
        let read = EventType {
            name,
            mark,
            properties,
        };
        read.is_sound().then_some(read)
    }

    fn is_sound(&self) -> bool {
        let is_versioned = self.mark.is_some();
        let properties = &self.properties;
        properties.is_sorted_by(|earlier, later| earlier.name < later.name)
            && properties.iter().all(|each| each.is_sound(is_versioned))
            && self.mark.is_none_or(|mark| {
                properties
                    .get(mark)
                    .is_some_and(Property::can_hold_event_version)
            })
    }

    /// The match properties, by which events collide.
    pub fn match_places(&self) -> impl Iterator<Item = (usize, &Property<'a>)> {
        let places = self.properties.iter().enumerate();
        places.filter(|(_, property)| property.strategy == Strategy::Match)
    }

    pub fn match_sets<'s, 'v>(&self, sets: &'s Sets<'v>) -> Vec<Option<&'s Set<'v>>> {
        self.match_places()
            .map(|(place, _)| sets.get(&place))
            .collect()
    }

    /// Are the objects of the match properties no more than an event may have?
    pub fn has_few_match_objects(&self, sets: &Sets) -> bool {
        let counts = self.match_sets(sets).into_iter().flatten().map(Set::len);
        counts.sum::<usize>() <= 32
    }

    /// Do `places` name properties, all the mandatory ones among them?
    pub fn has_properties(&self, places: &BTreeSet<usize>) -> bool {
        let mut properties = self.properties.iter().enumerate();
        places
            .last()
            .is_none_or(|last| *last < self.properties.len())
            && properties.all(|(place, property)| property.optional || places.contains(&place))
    }

    /// Has each property for which `is_single` holds at most one object?
    pub fn has_single(&self, sets: &Sets, is_single: impl Fn(&Property) -> bool) -> bool {
        sets.iter()
            .all(|(place, set)| set.len() <= 1 || !is_single(&self.properties[*place]))
    }

    /// Is every object in its property's value space?
    pub fn has_values(&self, sets: &Sets) -> bool {
        sets.iter().all(|(place, set)| {
            let kind = &self.properties[*place].kind;
            set.iter().all(|value| kind.has(value))
        })
    }
}

impl<'a> Property<'a> {
    fn read(reader: &mut Reader<'a>) -> Option<Self> {
        Some(Property {
            name: read_name(reader, 1..=32)?,
            kind: Kind::read(reader)?,
            optional: reader.flag()?,
            multivalued: reader.flag()?,
            strategy: Strategy::read(reader)?,
        })
    }

    /// Does the strategy suit the property and its type?
    fn is_sound(&self, is_versioned: bool) -> bool {
        match self.strategy {
            Strategy::Min | Strategy::Max => {
                !self.optional && !self.multivalued && self.kind.is_ordered()
            }
            Strategy::Replace => self.optional && !self.multivalued && is_versioned,
            _ => true,
        }
    }

    /// A sound max property is mandatory and single-valued already.
    fn can_hold_event_version(&self) -> bool {
        self.kind == Kind::Sequence && self.strategy == Strategy::Max
    }
}

impl Strategy {
    fn read(reader: &mut Reader) -> Option<Self> {
        use Strategy::*;
        let all = [Min, Max, Add, Replace, Match, Set, Any];
        Some(all[reader.count(1..=all.len())? - 1])
    }
}

fn read_name<'a>(reader: &mut Reader<'a>, length: RangeInclusive<usize>) -> Option<&'a [u8]> {
    let name = reader.text()?;
    let begins = name.first()?.is_ascii_lowercase();
    let is_name = |byte: &u8| matches!(byte, b'a'..=b'z' | b'0'..=b'9' | b'.' | b'-');
    (begins && length.contains(&name.len()) && name.iter().all(is_name)).then_some(name)
}
