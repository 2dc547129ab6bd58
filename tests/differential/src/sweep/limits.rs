//! Limits that an installation may choose: contents with one less than they allow, as much, and one
//! more. Then limits next to their ranges.

use super::content::{tables, Content, SMALL};
use super::{batch, combine, open};
use independent::case::Case;
use independent::limits::Limits;
use std::ops::RangeInclusive;

pub fn cases() -> impl Iterator<Item = Case> {
    let cases = tables().map(|(table, is_versioned)| {
        let inside = inside().flat_map(|(limits, content)| {
            let cases = content_cases(&content, &table, is_versioned);
            cases.map(|case| case.within(Some(limits)))
        });
        let outside = outside().flat_map(|limits| {
            let cases = content_cases(&SMALL, &table, is_versioned);
            let cases = cases.into_iter().chain(refused_cases());
            cases.map(move |case| case.within(Some(limits)))
        });
        inside.chain(outside).collect::<Vec<_>>()
    });
    cases.into_iter().flatten()
}

fn content_cases(content: &Content, table: &[u8], is_versioned: bool) -> [Case; 6] {
    let small = SMALL.dossier(is_versioned);
    let whole = content.dossier(is_versioned);
    let [left, right] = content.halves().map(|half| half.dossier(is_versioned));
    [
        open(table, &whole),
        combine(table, &whole, &whole),
        combine(table, &whole, &small),
        combine(table, &small, &whole),
        combine(table, &left, &right),
        batch(table, &content.batch(is_versioned)),
    ]
}

/// Calls that are refused for their room, unless a question is asked before that.
fn refused_cases() -> [Case; 3] {
    [
        Case::Combine {
            chosen: None,
            room: 0,
            table: vec![],
            left: vec![],
            right: vec![],
        },
        Case::Open {
            chosen: None,
            room: 0,
            table: vec![],
            dossier: vec![],
        },
        Case::Batch {
            chosen: None,
            room: 0,
            scratch: [0; 3],
            table: vec![],
            batch: vec![],
        },
    ]
}

/// Limits of which one has contents next to it; the others are the profile's.
fn inside() -> impl Iterator<Item = (Limits, Content)> {
    let versions = Limits::VERSIONS.flat_map(|versions| {
        let limits = Limits {
            versions,
            ..Limits::PROFILE
        };
        around(versions).map(|count| (limits, with_versions(count)))
    });
    let parents = Limits::PARENTS.flat_map(|parents| {
        let limits = Limits {
            parents,
            ..Limits::PROFILE
        };
        around(parents).map(|count| (limits, with_parents(count)))
    });
    let objects = [32, 33, 128, 255, 256].into_iter().flat_map(|objects| {
        let limits = Limits {
            objects,
            ..Limits::PROFILE
        };
        around(objects).map(|count| (limits, with_objects(count)))
    });
    versions
        .chain(parents)
        .chain(objects)
        .chain([many_objects()])
}

fn around(limit: usize) -> [usize; 3] {
    [limit - 1, limit, limit + 1]
}

fn with_versions(count: usize) -> Content {
    Content {
        versions: 0..count,
        ..SMALL
    }
}

fn with_parents(count: usize) -> Content {
    Content {
        parents: 0..count,
        ..SMALL
    }
}

/// As many objects, of three properties.
fn with_objects(count: usize) -> Content {
    Content {
        objects: [0..count - 9, 0..8, 0..1, 0..0],
        ..SMALL
    }
}

/// Of a versioned type all snapshots together may have more objects than the limit.
fn many_objects() -> (Limits, Content) {
    let limits = Limits {
        objects: *Limits::OBJECTS.start(),
        ..Limits::PROFILE
    };
    let content = Content {
        versions: 0..8,
        ..with_objects(16)
    };
    (limits, content)
}

/// Limits of which one is outside its range; the others are the profile's.
fn outside() -> impl Iterator<Item = Limits> {
    let profile = Limits::PROFILE;
    let versions = beside(Limits::VERSIONS).map(|versions| Limits {
        versions,
        ..profile
    });
    let parents = beside(Limits::PARENTS).map(|parents| Limits { parents, ..profile });
    let objects = beside(Limits::OBJECTS).map(|objects| Limits { objects, ..profile });
    [versions, parents, objects].into_iter().flatten()
}

/// Outside the range; the third would be inside if it were taken for a number of 32 bits.
fn beside(range: RangeInclusive<usize>) -> [usize; 4] {
    let (least, most) = range.into_inner();
    [least - 1, most + 1, most + (1 << 32), usize::MAX]
}
