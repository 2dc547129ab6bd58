//! Opening a dossier.

use crate::dossier::Dossier;
use crate::event::Event;
use crate::rule::pool;
use crate::table::EventType;

#[derive(Clone, Debug, PartialEq, Eq)]
pub enum Opened<'a> {
    Merged(Event<'a>),
    /// Events of this version differ in the property at this place.
    Conflict {
        version: u64,
        place: usize,
    },
    /// The single-valued property at this place would get more than one object.
    Overfull {
        place: usize,
    },
}

pub fn open<'a>(event_type: &EventType, dossier: Dossier<'a>) -> Opened<'a> {
    let mut marks = dossier.snapshots.iter().filter_map(|(version, snapshot)| {
        let place = *snapshot.differ.first()?;
        Some((*version, place))
    });
    if let Some((version, place)) = marks.next() {
        return Opened::Conflict { version, place };
    }
    let snapshots: Vec<_> = dossier.snapshots.values().map(|each| &each.sets).collect();
    let sets = pool(event_type, &snapshots);
    let is_overfull =
        |place: &usize| sets[place].len() > 1 && !event_type.properties[*place].multivalued;
    if let Some(place) = sets.keys().copied().find(is_overfull) {
        return Opened::Overfull { place };
    }
    let head = dossier.head;
    Opened::Merged(Event { head, sets })
}
