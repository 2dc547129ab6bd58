//! Families of colliding events: one table, type, source and match values.

use crate::draft::{PropertyDraft, TableDraft, TypeDraft};
use crate::edge::Edges;
use crate::random::Random;
use crate::value::random_value;
use independent::event::{Event, Head, Sets};
use independent::packed::Set;

/// The objects that an event may have.
const MOST_OBJECTS: usize = 32;
/// So few that they never pass the limit of parents.
const FEW_PARENTS: usize = 3;

pub struct Family {
    pub draft: TableDraft,
    pub table: Vec<u8>,
    event_type: TypeDraft,
    source: Vec<u8>,
    /// The values that events of this family have, by place.
    pools: Vec<Vec<Vec<u8>>>,
    /// The values next to the edges of each place's space.
    pub edges: Vec<Edges>,
    parents: Vec<Vec<u8>>,
    /// A large family passes the limits; a small one opens as a merged event more often.
    is_large: bool,
    /// What the match sets, and the sets of each event version, are drawn with.
    seed: u64,
}

impl Family {
    pub fn random(random: &mut Random) -> Self {
        let draft = TableDraft::random(random);
        Family::under(draft, random)
    }

    /// Another family under the same table: mostly of another type or source.
    pub fn stranger(&self, random: &mut Random) -> Self {
        Family::under(self.draft.clone(), random)
    }

    fn under(draft: TableDraft, random: &mut Random) -> Self {
        let event_type = random.pick(&draft.types).clone();
        let is_large = random.one_in(4);
        let kinds = event_type.properties.iter().map(|each| &each.kind);
        let edges: Vec<_> = kinds.map(|kind| Edges::of(kind)).collect();
        let pools = random_pools(random, &event_type, &edges, is_large);
        let parents = *random.pick(&[FEW_PARENTS, FEW_PARENTS, FEW_PARENTS, 34, 48]);
        let source_length = *random.pick(&[1, 5, 120]);
        Family {
            table: draft.pack(),
            source: (0..source_length).map(|_| *random.pick(b"/!~a")).collect(),
            parents: (0..parents).map(|_| random.bytes(20)).collect(),
            seed: random.number(),
            draft,
            event_type,
            pools,
            edges,
            is_large,
        }
    }

    pub fn places(&self) -> usize {
        self.event_type.properties.len()
    }

    /// An event of the family. Events of one version mostly have the same sets.
    pub fn event(&self, random: &mut Random) -> Event<'_> {
        let mark = self.event_type.mark.checked_sub(1);
        let Some(mark) = mark.map(|mark| mark as usize) else {
            return self.event_with(self.sets(random), random);
        };
        let version = random.below(self.pools[mark].len());
        let mut of_version = Random::new(self.seed ^ version as u64);
        let is_odd = random.one_in(if self.is_large { 40 } else { 8 });
        let mut sets = self.sets(if is_odd { random } else { &mut of_version });
        sets.insert(mark, Set::from([self.pools[mark][version].as_slice()]));
        self.event_with(sets, random)
    }

    /// An event of the family's type and source whose match values are drawn anew.
    pub fn event_apart(&self, random: &mut Random) -> Event<'_> {
        let properties = &self.event_type.properties;
        let mut event = self.event(random);
        event.sets.retain(|place, _| !properties[*place].is_match());
        let objects: usize = event.sets.values().map(Set::len).sum();
        let drawn = properties.iter().filter(|each| each.is_match());
        let mandatory = drawn.filter(|each| each.optional == 0).count();
        let mut spare = MOST_OBJECTS - objects - mandatory;
        let sets = self.draw(random, PropertyDraft::is_match, &mut spare);
        event.sets.extend(sets);
        event
    }

    fn event_with<'s>(&'s self, sets: Sets<'s>, random: &mut Random) -> Event<'s> {
        let has_few = self.parents.len() == FEW_PARENTS;
        let count = random.between(0, if has_few { 1 } else { 8 });
        let parents = (0..count).map(|_| random.pick(&self.parents).as_slice());
        let head = Head {
            type_name: &self.event_type.name,
            source: &self.source,
            parents: parents.collect(),
        };
        Event { head, sets }
    }

    /// Sets for every place, with the family's match sets.
    fn sets(&self, random: &mut Random) -> Sets<'_> {
        let properties = &self.event_type.properties;
        let mandatory = properties.iter().filter(|each| each.optional == 0).count();
        let mut spare = MOST_OBJECTS - mandatory;
        let mut same = Random::new(self.seed);
        let mut sets = self.draw(&mut same, PropertyDraft::is_match, &mut spare);
        sets.extend(self.draw(random, |property| !property.is_match(), &mut spare));
        sets
    }

    /// Sets for the properties for which `is_drawn` holds. Each mandatory one has an object; all
    /// others are taken from what is to `spare`.
    fn draw(
        &self,
        random: &mut Random,
        is_drawn: impl Fn(&PropertyDraft) -> bool,
        spare: &mut usize,
    ) -> Sets<'_> {
        let mut sets = Sets::new();
        for (place, property) in self.event_type.properties.iter().enumerate() {
            if !is_drawn(property) {
                continue;
            }
            let most = if self.is_large { MOST_OBJECTS } else { 2 };
            let more = match (property.optional, property.multivalued) {
                (_, 1) => random.below(most + 1),
                (optional, _) => random.below(optional as usize + 1),
            };
            let more = more.min(*spare);
            *spare -= more;
            let count = usize::from(property.optional == 0) + more;
            let values = (0..count).map(|_| random.pick(&self.pools[place]).as_slice());
            let set: Set = values.collect();
            if !set.is_empty() {
                sets.insert(place, set);
            }
        }
        sets
    }
}

/// The values of each property: now and then next to an edge.
fn random_pools(
    random: &mut Random,
    event_type: &TypeDraft,
    edges: &[Edges],
    is_large: bool,
) -> Vec<Vec<Vec<u8>>> {
    let mut pools = Vec::new();
    for ((mark, property), edges) in (1..).zip(&event_type.properties).zip(edges) {
        let size = if mark == event_type.mark {
            random.between(1, if is_large { 12 } else { 3 })
        } else {
            pool_size(random, property, is_large)
        };
        let values = (0..size).map(|_| match random.below(4) {
            0 => random.pick(&edges.inside).clone(),
            _ => random_value(random, &property.kind),
        });
        pools.push(values.collect());
    }
    pools
}

/// Most single-valued properties keep one value, so that not every dossier is overfull.
fn pool_size(random: &mut Random, property: &PropertyDraft, is_large: bool) -> usize {
    match property.multivalued {
        1 if is_large => 400,
        0 if !random.one_in(6) => 1,
        _ => random.between(1, 3),
    }
}
