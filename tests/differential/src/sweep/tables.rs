//! Tables on either side of each rule.

use super::{property, table_of, unversioned, versioned};
use crate::draft::{PropertyDraft, TableDraft, TypeDraft, ADD, MAX};
use crate::edge::KINDS;
use crate::value::is_ordered;

pub fn all() -> impl Iterator<Item = TableDraft> {
    let types = properties()
        .flat_map(|each| [unversioned(vec![each.clone()]), versioned(vec![each])])
        .chain(crowds())
        .chain(names())
        .chain(marks());
    types.map(table_of).chain([0, 1, 16, 17].map(rising_types))
}

/// As many types, with rising names.
fn rising_types(count: usize) -> TableDraft {
    let types = rising(count).map(|property| {
        let mut event_type = unversioned(vec![property.clone()]);
        event_type.name = property.name;
        event_type
    });
    TableDraft {
        types: types.collect(),
    }
}

/// As many properties, with rising names.
fn rising(count: usize) -> impl Iterator<Item = PropertyDraft> {
    (0..count).map(|number| property(&format!("a{number:02}"), &[7], [0, 0, ADD]))
}

fn crowds() -> impl Iterator<Item = TypeDraft> {
    [0, 1, 31, 32, 33]
        .into_iter()
        .flat_map(|count| [unversioned, versioned].map(|of| of(rising(count).collect())))
}

/// Every kind with every strategy, optional or not, multivalued or not; and each kind's parameters.
fn properties() -> impl Iterator<Item = PropertyDraft> {
    let flags = (0..9).map(|number| [number / 3, number % 3]);
    let uses = flags.flat_map(|[optional, multivalued]| {
        (0..=8).map(move |strategy| [optional, multivalued, strategy])
    });
    let used = uses.flat_map(|each| KINDS.iter().map(move |kind| property("a", kind, each)));
    used.chain(kinds().map(|kind| property("a", &kind, [0, 0, ADD])))
}

/// Kinds with parameters up to the limits and one past them.
fn kinds() -> impl Iterator<Item = Vec<u64>> {
    let widths = (0..=9).flat_map(|width| [vec![1, width], vec![2, width]]);
    let totals = [0, 1, 2, 3, 37, 38, 39].into_iter();
    let digits = totals.flat_map(|total: u64| {
        let afters = [0, 1, 2, total.saturating_sub(1), total, total + 1];
        afters.map(|after| [total, after])
    });
    let decimals =
        digits.flat_map(|[total, after]| [0, 1, 2].map(|sign| vec![3, total, after, sign]));
    let lengths = [0, 1, 119, 120, 121, 128].map(|most| vec![8, most]);
    let bytes = [0, 1, 59, 60, 61, 128].map(|bytes| vec![9, bytes]);
    let numbers = [0, 4, 5, 6, 7, 10, 128].map(|kind| vec![kind]);
    widths
        .chain(decimals)
        .chain(lengths)
        .chain(bytes)
        .chain(numbers)
}

fn names() -> impl Iterator<Item = TypeDraft> {
    let lengths = [0, 1, 31, 32, 33, 63, 64, 65].map(|length| "a".repeat(length));
    let firsts = ["z", "`", "{", "A", "0", "-", "."].map(String::from);
    let laters = ["a.", "a-", "a0", "a9", "a/", "a:", "aA", "a`", "a{", "a_"].map(String::from);
    let all = lengths.into_iter().chain(firsts).chain(laters);
    all.flat_map(|name| {
        let of_property = unversioned(vec![property(&name, &[7], [0, 0, ADD])]);
        let mut of_type = unversioned(rising(1).collect());
        of_type.name = name.into();
        [of_property, of_type]
    })
}

/// Every property of a type as the one that holds the event version, and places past them.
fn marks() -> impl Iterator<Item = TypeDraft> {
    let properties = KINDS.iter().zip(10..);
    let properties =
        properties.map(|(kind, number)| property(&format!("a{number}"), kind, [0, 0, MAX]));
    let ordered: Vec<_> = properties.filter(|each| is_ordered(&each.kind)).collect();
    let marked = (0..=33).map(move |mark| {
        let mut event_type = versioned(ordered.clone());
        event_type.mark = mark;
        event_type
    });
    let definitions = [0, 1, u64::MAX].map(|definition_version| TypeDraft {
        definition_version,
        ..unversioned(rising(1).collect())
    });
    marked.chain(definitions)
}
