//! Events and dossiers with as many objects, parents and snapshots as they may have, and one more.

use super::content::{tables, Content, MARK, SMALL};
use super::{combine, event_cases, open};
use independent::case::Case;

/// How many objects each property has.
const OBJECTS: [[usize; MARK]; 19] = [
    [31, 0, 0, 0],
    [32, 0, 0, 0],
    [33, 0, 0, 0],
    [16, 15, 0, 0],
    [16, 16, 0, 0],
    [16, 17, 0, 0],
    [255, 0, 0, 0],
    [256, 0, 0, 0],
    [257, 0, 0, 0],
    [128, 128, 0, 0],
    [128, 129, 0, 0],
    [0, 0, 32, 0],
    [0, 0, 33, 0],
    [0, 0, 16, 16],
    [0, 0, 16, 17],
    [0, 0, 17, 16],
    [224, 0, 32, 0],
    [225, 0, 16, 16],
    [224, 0, 33, 0],
];

pub fn cases() -> impl Iterator<Item = Case> {
    let cases = tables().map(|(table, is_versioned)| {
        let alone = contents().flat_map(|content| content_cases(&content, &table, is_versioned));
        let pairs = halves().flat_map(|halves| {
            let [left, right] = halves.map(|half| half.dossier(is_versioned));
            [
                combine(&table, &left, &right),
                combine(&table, &right, &left),
            ]
        });
        alone.chain(pairs).collect::<Vec<_>>()
    });
    cases.into_iter().flatten()
}

fn content_cases(content: &Content, table: &[u8], is_versioned: bool) -> Vec<Case> {
    let dossier = content.dossier(is_versioned);
    let alone = [open(table, &dossier), combine(table, &dossier, &dossier)];
    event_cases(table, &content.event(is_versioned))
        .into_iter()
        .chain(alone)
        .collect()
}

fn contents() -> impl Iterator<Item = Content> {
    let objects = OBJECTS.map(|counts| Content {
        objects: counts.map(|count| 0..count),
        ..SMALL
    });
    let parents = [7, 8, 9, 31, 32, 33].map(|count| Content {
        parents: 0..count,
        ..SMALL
    });
    let versions = [0, 1, 7, 8, 9].map(|count| Content {
        versions: 0..count,
        ..SMALL
    });
    objects.into_iter().chain(parents).chain(versions)
}

/// Dossiers that reach or pass a limit only together.
fn halves() -> impl Iterator<Item = [Content; 2]> {
    let most = [256, 257].map(|end| {
        [0..128, 128..end].map(|numbers| Content {
            objects: [numbers, 0..0, 0..1, 0..0],
            ..SMALL
        })
    });
    let two_sets = [128, 129].map(|end| {
        [[0..128, 0..0], [0..0, 0..end]].map(|[a, b]| Content {
            objects: [a, b, 0..0, 0..0],
            ..SMALL
        })
    });
    let parents = [32, 33].map(|end| [0..16, 16..end].map(|parents| Content { parents, ..SMALL }));
    let versions = [8, 9].map(|end| [0..4, 4..end].map(|versions| Content { versions, ..SMALL }));
    most.into_iter()
        .chain(two_sets)
        .chain(parents)
        .chain(versions)
}
