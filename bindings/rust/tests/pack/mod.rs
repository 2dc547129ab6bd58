//! Packs small tables, events and batches, in which every number is below 128: one byte.

pub const MIN: u8 = 1;
pub const MAX: u8 = 2;
pub const ADD: u8 = 3;
pub const REPLACE: u8 = 4;
pub const MATCH: u8 = 5;
pub const ANY: u8 = 7;

/// A kind's number and its parameters.
pub const SEQUENCE: &[u8] = &[5];
pub const DATETIME: &[u8] = &[6];

pub const STRING_20: &[u8] = &[8, 20];
pub const STRING_40: &[u8] = &[8, 40];

pub struct Property<'a> {
    pub name: &'a str,
    pub kind: &'a [u8],
    pub optional: bool,
    pub multivalued: bool,
    pub strategy: u8,
}

/// A mandatory single-valued property.
pub fn single<'a>(name: &'a str, kind: &'a [u8], strategy: u8) -> Property<'a> {
    Property {
        name,
        kind,
        optional: false,
        multivalued: false,
        strategy,
    }
}

/// A table of one type. `mark` is 0, or the place of the version property plus 1.
pub fn table(name: &str, mark: u8, properties: &[Property]) -> Vec<u8> {
    let definition_version = 1;
    let mut table = vec![1];
    table.extend(text(name.as_bytes()));
    table.extend([definition_version, mark, byte(properties.len())]);
    for property in properties {
        table.extend(text(property.name.as_bytes()));
        table.extend(property.kind);
        table.extend([property.optional, property.multivalued].map(u8::from));
        table.push(property.strategy);
    }
    table
}

/// An event without parents, of source /lab/. `sets` has the objects of each place.
pub fn event(name: &str, sets: &[&[&str]]) -> Vec<u8> {
    let is_present = |place: &usize| !sets[*place].is_empty();
    let presence: u8 = (0..sets.len())
        .filter(is_present)
        .map(|place| 1 << place)
        .sum();
    let parents = 0;
    let mut event = text(name.as_bytes());
    event.extend(text(b"/lab/"));
    event.extend([parents, presence]);
    for set in sets.iter().filter(|set| !set.is_empty()) {
        event.push(byte(set.len()));
        event.extend(set.iter().flat_map(|value| text(value.as_bytes())));
    }
    event
}

pub fn batch(events: &[&Vec<u8>]) -> Vec<u8> {
    let mut batch = vec![byte(events.len())];
    batch.extend(events.iter().flat_map(|event| text(event)));
    batch
}

/// The merge program's standard input.
pub fn input(table: &[u8], events: &[&Vec<u8>]) -> Vec<u8> {
    [text(table), batch(events)].concat()
}

pub fn text(bytes: &[u8]) -> Vec<u8> {
    [&[byte(bytes.len())], bytes].concat()
}

fn byte(number: usize) -> u8 {
    assert!(number < 128, "{number} takes more than one byte");
    number as u8
}
