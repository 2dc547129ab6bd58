//! What is timed: hosts, which are versioned, and ports, which are not.

use independent::calls::{self, DOSSIER_ROOM};
use independent::limits::Limits;
use independent::packed::{put_batch, put_count, put_text};

/// Objects of a set, as text.
type Objects = Vec<String>;

const DATETIME: &[u8] = &[6];
const SEQUENCE: &[u8] = &[5];
const STRING_40: &[u8] = &[8, 40];
const MANDATORY: u8 = 0;
const OPTIONAL: u8 = 1;
const SINGLE: u8 = 0;
const MULTIVALUED: u8 = 1;

/// Strategies by number, as a table has them.
const MIN: u8 = 1;
const MAX: u8 = 2;
const ADD: u8 = 3;
const REPLACE: u8 = 4;
const MATCH: u8 = 5;
const ANY: u8 = 7;

/// A property's name, kind, optional, multivalued and strategy.
type Property = (&'static str, &'static [u8], u8, u8, u8);

const HOST: &[Property] = &[
    ("addr", STRING_40, MANDATORY, MULTIVALUED, MATCH),
    ("model", STRING_40, MANDATORY, SINGLE, ANY),
    ("rev", SEQUENCE, MANDATORY, SINGLE, MAX),
    ("seen", DATETIME, MANDATORY, SINGLE, MAX),
    ("state", STRING_40, OPTIONAL, SINGLE, REPLACE),
    ("tags", STRING_40, OPTIONAL, MULTIVALUED, ADD),
];
const HOST_MARK: u8 = 3;

const PORT: &[Property] = &[
    ("addr", STRING_40, MANDATORY, MULTIVALUED, MATCH),
    ("first", DATETIME, MANDATORY, SINGLE, MIN),
    ("last", DATETIME, MANDATORY, SINGLE, MAX),
    ("notes", STRING_40, OPTIONAL, MULTIVALUED, ADD),
];
const NO_MARK: u8 = 0;

/// A table of both types.
pub fn table() -> Vec<u8> {
    let mut table = vec![2];
    put_type(&mut table, "net.host", HOST_MARK, HOST);
    put_type(&mut table, "net.port", NO_MARK, PORT);
    table
}

fn put_type(out: &mut Vec<u8>, name: &str, mark: u8, properties: &[Property]) {
    let definition_version = 1;
    put_text(out, name.as_bytes());
    out.extend([definition_version, mark]);
    put_count(out, properties.len());
    for (name, kind, optional, multivalued, strategy) in properties {
        put_text(out, name.as_bytes());
        out.extend(*kind);
        out.extend([optional, multivalued, strategy]);
    }
}

/// A host's event of 14 objects, with one parent.
pub fn host(version: usize) -> Vec<u8> {
    let tags = (version..version + 8).map(|tag| format!("rack-{tag:04}"));
    let sets = [
        vec!["2001:db8::17".into(), "host-17.branch.example".into()],
        vec!["edge-router-200".into()],
        vec![version.to_string()],
        vec![format!("2024-03-01T10:00:{version:02}.500000Z")],
        vec!["up".into()],
        tags.collect(),
    ];
    event("net.host", version, &sets)
}

/// A port's event with the given notes.
fn port(notes: Objects) -> Vec<u8> {
    let first = format!("2024-03-01T10:00:{:02}Z", notes.len());
    let last = format!("2024-03-02T10:00:{:02}Z", notes.len());
    let sets = [vec!["2001:db8::17".into()], vec![first], vec![last], notes];
    event("net.port", 1, &sets)
}

fn event(name: &str, parent: usize, sets: &[Objects]) -> Vec<u8> {
    let mut event = Vec::new();
    put_text(&mut event, name.as_bytes());
    put_text(&mut event, b"/branch/17/");
    put_count(&mut event, 1);
    event.extend([parent as u8; 20]);
    put_count(&mut event, (1 << sets.len()) - 1);
    for set in sets {
        put_count(&mut event, set.len());
        for value in set {
            put_text(&mut event, value.as_bytes());
        }
    }
    event
}

/// The dossier of hosts of these versions, one snapshot each.
pub fn host_dossier(versions: impl IntoIterator<Item = usize>) -> Vec<u8> {
    dossier(versions.into_iter().map(host).collect())
}

/// The dossier of ports with 128 objects: an address, two times and 125 notes, of which each is
/// two after the one before.
pub fn port_dossier(first_note: usize) -> Vec<u8> {
    let notes: Objects = (first_note..)
        .step_by(2)
        .take(125)
        .map(|note| format!("note {note:04} of the day"))
        .collect();
    dossier(notes.chunks(25).map(|notes| port(notes.to_vec())).collect())
}

fn dossier(events: Vec<Vec<u8>>) -> Vec<u8> {
    let mut out = vec![0; DOSSIER_ROOM];
    let mut scratch = [(); 3].map(|()| vec![0; DOSSIER_ROOM]);
    let scratch = scratch.each_mut().map(Vec::as_mut_slice);
    let mut batch = Vec::new();
    put_batch(&mut batch, &events);
    let length = calls::batch(Limits::PROFILE, &table(), &batch, &mut out, scratch);
    out.truncate(length.expect("a dossier"));
    out
}
