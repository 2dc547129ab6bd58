//! Damaged copies: of bytes, and of events and dossiers field by field.

use crate::edge::Edges;
use crate::random::Random;
use crate::value::spoil;
use independent::dossier::Dossier;
use independent::event::{Counts, Event, Head, Sets};
use independent::limits::Limits;
use std::collections::BTreeSet;

/// A copy with a byte flipped, cut, inserted or the like.
pub fn damage_bytes(random: &mut Random, bytes: &[u8]) -> Vec<u8> {
    let mut damaged = bytes.to_vec();
    let place = random.below(bytes.len().max(1));
    let length = random.below(4).min(bytes.len() - place.min(bytes.len()));
    match random.below(8) {
        0 => damaged.truncate(place),
        1 => damaged.insert(place, random.byte()),
        2 => damaged.push(random.byte()),
        3 => drop(damaged.drain(place..place + length)),
        4 => damaged.extend_from_within(place..place + length),
        _ if bytes.is_empty() => damaged.push(random.byte()),
        5 => damaged[place] ^= 1 << random.below(8),
        6 => damaged[place] = damaged[place].wrapping_add(1),
        _ => damaged[place] = random.byte(),
    }
    damaged
}

/// A copy of a packed event with a field changed, or damaged as bytes. `edges` are by place.
pub fn damage_event(random: &mut Random, bytes: &[u8], edges: &[Edges]) -> Vec<u8> {
    let read = Event::read(bytes, Counts::MERGED).filter(|_| !random.one_in(3));
    let Some(event) = read else {
        return damage_bytes(random, bytes);
    };
    let odd = Odd::random(random, &event.sets, edges);
    let mut damaged = event;
    match random.below(4) {
        0 => odd.change_head(random, &mut damaged.head),
        _ => odd.change_sets(random, &mut damaged.sets),
    }
    damaged.write()
}

/// A copy of a packed dossier with a field changed, or damaged as bytes. `edges` are by place.
pub fn damage_dossier(random: &mut Random, bytes: &[u8], edges: &[Edges]) -> Vec<u8> {
    let read = Dossier::read(Limits::PROFILE, bytes).filter(|_| !random.one_in(3));
    let Some(dossier) = read else {
        return damage_bytes(random, bytes);
    };
    let versions: Vec<u64> = dossier.snapshots.keys().copied().collect();
    let version = *random.pick(&versions);
    let odd = Odd::random(random, &dossier.snapshots[&version].sets, edges);
    let mut damaged = dossier;
    match random.below(6) {
        0 => odd.change_head(random, &mut damaged.head),
        1 | 2 => change_snapshots(random, &mut damaged, version),
        _ => {
            let chosen = damaged.snapshots.get_mut(&version).expect("a version");
            odd.change_sets(random, &mut chosen.sets);
        }
    }
    damaged.write()
}

fn change_snapshots(random: &mut Random, dossier: &mut Dossier, version: u64) {
    let place = random.below(34);
    let other = random.number_of_bits(64);
    let snapshot = dossier.snapshots.get_mut(&version).expect("a version");
    match random.below(6) {
        0 => {
            snapshot.differ.insert(place);
            snapshot.sets.remove(&place);
        }
        1 => {
            snapshot.differ.insert(place);
        }
        2 => {
            snapshot.differ.pop_last();
        }
        3 => {
            let copy = snapshot.clone();
            dossier.snapshots.insert(other, copy);
        }
        4 => {
            let copy = snapshot.clone();
            dossier
                .snapshots
                .extend((0..9).map(|more| (more, copy.clone())));
        }
        _ => {
            let moved = dossier.snapshots.remove(&version);
            dossier.snapshots.extend(moved.map(|moved| (other, moved)));
        }
    }
}

/// What damage puts into an event or a dossier.
struct Odd {
    /// The place of the set that is changed.
    place: usize,
    /// Values next to the edges of the space at this place, and spoilt ones.
    values: Vec<Vec<u8>>,
    sources: Vec<Vec<u8>>,
    names: Vec<Vec<u8>>,
    parents: Vec<Vec<u8>>,
}

impl Odd {
    fn random(random: &mut Random, sets: &Sets, edges: &[Edges]) -> Self {
        let places: Vec<usize> = sets.keys().copied().collect();
        let place = match places.len() {
            0 => 0,
            _ => *random.pick(&places),
        };
        let old = sets.get(&place).and_then(BTreeSet::first);
        let old = old.copied().unwrap_or_default();
        let parents = random.between(1, 33);
        Odd {
            place,
            values: (0..40)
                .map(|_| match edges.get(place) {
                    Some(edges) if random.one_in(2) => edges.pick(random).clone(),
                    _ => spoil(random, old),
                })
                .collect(),
            sources: vec![
                vec![],
                b"/other/".to_vec(),
                b"/a b/".to_vec(),
                vec![b'/'; 120],
                vec![b'/'; 121],
            ],
            names: vec![vec![], b"other".to_vec(), vec![b'a'; 65]],
            parents: (0..parents).map(|_| random.bytes(20)).collect(),
        }
    }

    fn change_head<'s>(&'s self, random: &mut Random, head: &mut Head<'s>) {
        match random.below(3) {
            0 => head.source = random.pick(&self.sources).as_slice(),
            1 => head.type_name = random.pick(&self.names).as_slice(),
            _ => head.parents.extend(self.parents.iter().map(Vec::as_slice)),
        }
    }

    fn change_sets<'s>(&'s self, random: &mut Random, sets: &mut Sets<'s>) {
        let chosen = self.place;
        let other = random.below(34);
        let odd = random.pick(&self.values).as_slice();
        match random.below(7) {
            0 => drop(sets.remove(&chosen)),
            1 => {
                let moved = sets.remove(&chosen);
                sets.extend(moved.map(|moved| (other, moved)));
            }
            2 => drop(sets.insert(other, BTreeSet::from([odd]))),
            3 => drop(sets.insert(chosen, BTreeSet::from([odd]))),
            4 => drop(sets.insert(chosen, BTreeSet::new())),
            5 => {
                let all = self.values.iter().map(Vec::as_slice);
                sets.entry(chosen).or_default().extend(all);
            }
            _ => drop(sets.entry(chosen).or_default().insert(odd)),
        }
    }
}
