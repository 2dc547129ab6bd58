//! The limits that an installation chooses.

use std::ops::RangeInclusive;

/// How many event versions, parents, and objects of an unversioned type a dossier may have.
#[derive(Clone, Copy, Debug, PartialEq, Eq)]
pub struct Limits {
    pub versions: usize,
    pub parents: usize,
    pub objects: usize,
}

impl Limits {
    pub const VERSIONS: RangeInclusive<usize> = 1..=8;
    pub const PARENTS: RangeInclusive<usize> = 8..=32;
    pub const OBJECTS: RangeInclusive<usize> = 32..=256;

    /// The profile's own, where no installation chooses.
    pub const PROFILE: Limits = Limits {
        versions: 8,
        parents: 32,
        objects: 256,
    };

    /// Is each limit in its range?
    pub fn is_permitted(self) -> bool {
        Limits::VERSIONS.contains(&self.versions)
            && Limits::PARENTS.contains(&self.parents)
            && Limits::OBJECTS.contains(&self.objects)
    }
}
