//! Drafts of ontology tables: every field can be set to what no table may have.

use crate::random::Random;
use crate::value::{is_ordered, random_kind};
use independent::packed::{put_count, put_number, put_text};
use std::collections::BTreeSet;

/// Strategies by number, as a table has them.
pub const MIN: u64 = 1;
pub const MAX: u64 = 2;
pub const ADD: u64 = 3;
const REPLACE: u64 = 4;
pub const MATCH: u64 = 5;

/// The kind of an event version.
pub const SEQUENCE: u64 = 5;

#[derive(Clone)]
pub struct TableDraft {
    pub types: Vec<TypeDraft>,
}

#[derive(Clone)]
pub struct TypeDraft {
    pub name: Vec<u8>,
    pub definition_version: u64,
    /// 0, or the place of the version property plus 1.
    pub mark: u64,
    pub properties: Vec<PropertyDraft>,
}

#[derive(Clone)]
pub struct PropertyDraft {
    pub name: Vec<u8>,
    pub kind: Vec<u64>,
    pub optional: u64,
    pub multivalued: u64,
    pub strategy: u64,
}

impl TableDraft {
    /// A table that meets every rule.
    pub fn random(random: &mut Random) -> Self {
        let count = *random.pick(&[1, 1, 2, 3, 16]);
        let names = random_names(random, count, 64);
        let types = names
            .into_iter()
            .map(|name| TypeDraft::random(random, name));
        TableDraft {
            types: types.collect(),
        }
    }

    pub fn pack(&self) -> Vec<u8> {
        let mut out = Vec::new();
        put_count(&mut out, self.types.len());
        for each in &self.types {
            each.pack(&mut out);
        }
        out
    }

    /// A copy that likely breaks one rule.
    pub fn broken(&self, random: &mut Random) -> Self {
        let mut broken = self.clone();
        let place = random.below(broken.types.len());
        match random.below(7) {
            0 => broken.types.clear(),
            1 => broken.types.push(self.types[place].clone()),
            2 => broken.types.reverse(),
            _ => broken.types[place].break_one(random),
        }
        broken
    }
}

impl TypeDraft {
    fn random(random: &mut Random, name: Vec<u8>) -> Self {
        let count = *random.pick(&[1, 2, 3, 3, 4, 5, 6, 8, 32]);
        let is_versioned = random.one_in(2);
        let mut properties: Vec<_> = random_names(random, count, 32)
            .into_iter()
            .map(|name| PropertyDraft::random(random, name, is_versioned))
            .collect();
        let mark = random.between(1, properties.len());
        if is_versioned {
            properties[mark - 1].hold_event_version();
        }
        TypeDraft {
            name,
            definition_version: 1 + random.number_of_bits(63),
            mark: if is_versioned { mark as u64 } else { 0 },
            properties,
        }
    }

    fn pack(&self, out: &mut Vec<u8>) {
        put_text(out, &self.name);
        put_number(out, self.definition_version);
        put_number(out, self.mark);
        put_count(out, self.properties.len());
        for property in &self.properties {
            property.pack(out);
        }
    }

    fn break_one(&mut self, random: &mut Random) {
        let place = random.below(self.properties.len());
        match random.below(10) {
            0 => self.name = random_odd_name(random, 64),
            1 => self.definition_version = 0,
            2 => self.mark = random.below(34) as u64,
            3 => self.properties.clear(),
            4 => self.properties.push(self.properties[place].clone()),
            5 => self.properties.swap(0, place),
            _ => self.properties[place].break_one(random),
        }
    }
}

impl PropertyDraft {
    fn random(random: &mut Random, name: Vec<u8>, is_versioned: bool) -> Self {
        let kind = random_kind(random);
        let strategies: &[u64] = match (is_ordered(&kind), is_versioned) {
            (true, true) => &[1, 2, 3, 4, 5, 6, 7],
            (true, false) => &[1, 2, 3, 5, 6, 7],
            (false, true) => &[3, 4, 5, 6, 7],
            (false, false) => &[3, 5, 6, 7],
        };
        let strategy = *random.pick(strategies);
        let (optional, multivalued) = match strategy {
            MIN | MAX => (0, 0),
            REPLACE => (1, 0),
            _ => (random.below(2) as u64, random.below(2) as u64),
        };
        PropertyDraft {
            name,
            kind,
            optional,
            multivalued,
            strategy,
        }
    }

    fn hold_event_version(&mut self) {
        self.kind = vec![SEQUENCE];
        (self.optional, self.multivalued, self.strategy) = (0, 0, MAX);
    }

    fn pack(&self, out: &mut Vec<u8>) {
        put_text(out, &self.name);
        for number in &self.kind {
            put_number(out, *number);
        }
        put_number(out, self.optional);
        put_number(out, self.multivalued);
        put_number(out, self.strategy);
    }

    fn break_one(&mut self, random: &mut Random) {
        match random.below(7) {
            0 => self.name = random_odd_name(random, 32),
            1 => self.kind = random_kind(random),
            2 => {
                let field = random.below(self.kind.len());
                self.kind[field] = random.below(128) as u64;
            }
            3 => self.kind[0] = random.below(13) as u64,
            4 => self.optional = random.below(3) as u64,
            5 => self.multivalued = random.below(3) as u64,
            _ => self.strategy = random.below(9) as u64,
        }
    }

    pub fn is_match(&self) -> bool {
        self.strategy == MATCH
    }
}

/// Distinct names, rising, of which some begin others.
fn random_names(random: &mut Random, count: usize, longest: usize) -> BTreeSet<Vec<u8>> {
    let mut names = BTreeSet::new();
    while names.len() < count {
        let length = *random.pick(&[1, 2, 3, 4, 8, longest]);
        names.insert(random_name(random, length));
    }
    names
}

fn random_name(random: &mut Random, length: usize) -> Vec<u8> {
    let mut name = vec![*random.pick(b"az")];
    name.extend((1..length).map(|_| *random.pick(b"az09.-")));
    name
}

/// Too short, too long or with a character that no name has; some are names all the same.
fn random_odd_name(random: &mut Random, longest: usize) -> Vec<u8> {
    let length = *random.pick(&[1, longest, longest + 1]);
    let mut name = random_name(random, length);
    match random.below(4) {
        0 => name.clear(),
        1 => name[random.below(length)] = *random.pick(b"A_:/`{-.0 "),
        _ => {}
    }
    name
}
