//! Limits, inside their ranges and outside.

use crate::random::Random;
use independent::dossier::Dossier;
use independent::event::objects;
use independent::limits::Limits;
use std::ops::RangeInclusive;

/// Limits in their ranges: often the least, so that small dossiers pass them.
pub fn random_limits(random: &mut Random) -> Limits {
    Limits {
        versions: inside(random, Limits::VERSIONS),
        parents: inside(random, Limits::PARENTS),
        objects: inside(random, Limits::OBJECTS),
    }
}

fn inside(random: &mut Random, range: RangeInclusive<usize>) -> usize {
    let (least, most) = range.into_inner();
    match random.below(6) {
        0..=2 => least,
        3 => most,
        _ => random.between(least, most),
    }
}

/// Limits of which one is outside its range.
pub fn broken_limits(random: &mut Random) -> Limits {
    let mut limits = random_limits(random);
    match random.below(3) {
        0 => limits.versions = outside(random, Limits::VERSIONS),
        1 => limits.parents = outside(random, Limits::PARENTS),
        _ => limits.objects = outside(random, Limits::OBJECTS),
    }
    limits
}

fn outside(random: &mut Random, range: RangeInclusive<usize>) -> usize {
    let (least, most) = range.into_inner();
    match random.below(4) {
        0 => least - 1,
        1 => most + 1,
        // In range, were it taken for a number of 32 bits.
        2 => most + (1 << 32),
        _ => usize::MAX,
    }
}

/// Limits that allow as much as the dossier has and no more, as far as their ranges reach; half the
/// time one of them is one less.
pub fn limits_around(random: &mut Random, dossier: &[u8]) -> Option<Limits> {
    let dossier = Dossier::read(Limits::PROFILE, dossier)?;
    let snapshots = dossier.snapshots.values();
    let most_objects = snapshots.map(|each| objects(&each.sets)).max()?;
    let short = random.below(6);
    let near = |range: RangeInclusive<usize>, count: usize, place: usize| {
        let count = count.saturating_sub(usize::from(place == short));
        count.clamp(*range.start(), *range.end())
    };
    Some(Limits {
        versions: near(Limits::VERSIONS, dossier.snapshots.len(), 0),
        parents: near(Limits::PARENTS, dossier.head.parents.len(), 1),
        objects: near(Limits::OBJECTS, most_objects, 2),
    })
}
