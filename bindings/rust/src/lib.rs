//! Safe calls into the proved merger of EDXML events.
//!
//! Events that describe one logical event are kept in a *dossier*; a dossier opens as one merged
//! event or as a named conflict. Tables, events and dossiers are packed bytes, and results stand in
//! buffers that the caller lends. A call that is refused leaves its output buffer unchanged; one
//! that is not leaves the bytes behind its result unchanged.
//!
//! ```no_run
//! # let (table, first, second) = ([0u8; 0], [0u8; 0], [0u8; 0]);
//! use merger::{check_event, combine, open, Limits, Opened, DOSSIER_ROOM};
//!
//! let limits = Limits::default();
//! let [mut left, mut right] = [[0; DOSSIER_ROOM]; 2];
//! let [mut both, mut event] = [[0; DOSSIER_ROOM]; 2];
//! let left = check_event(&table, &first, &mut left)?;
//! let right = check_event(&table, &second, &mut right)?;
//! let both = combine(limits, &table, left, right, &mut both)?;
//! match open(limits, &table, both, &mut event)? {
//!     Opened::Merged(event) => println!("{} bytes", event.len()),
//!     Opened::Conflict { version, place } => println!("conflict {version} {place}"),
//!     Opened::Overfull { place } => println!("overfull {place}"),
//! }
//! # Ok::<(), merger::Refusal>(())
//! ```

#![deny(unsafe_code)]

#[allow(unsafe_code)]
mod ffi;
mod refusal;

use ffi::Reply;
pub use refusal::{Question, Refusal};

/// The least room for a dossier or a merged event, and in each scratch buffer of a batch.
pub const DOSSIER_ROOM: usize = 32_768;
/// The least room for a hash text.
pub const HASH_TEXT_ROOM: usize = 8_192;
/// The least room for a sticky hash.
pub const HASH_ROOM: usize = 20;
/// The least room for a report.
pub const REPORT_ROOM: usize = 65_536;

/// How much a dossier may have. Each installation chooses; the default is the profile's, which is
/// the most that can be chosen.
#[derive(Clone, Copy, Debug, PartialEq, Eq)]
pub struct Limits {
    /// Event versions, 1 to 8.
    pub versions: usize,
    /// Parents, 8 to 32.
    pub parents: usize,
    /// Objects of an unversioned type, 32 to 256.
    pub objects: usize,
}

impl Default for Limits {
    fn default() -> Self {
        Limits {
            versions: 8,
            parents: 32,
            objects: 256,
        }
    }
}

/// What a dossier opens as. Places count the properties of the type from 0.
#[derive(Clone, Copy, Debug, PartialEq, Eq)]
pub enum Opened<'o> {
    /// The merged event, in the output buffer.
    Merged(&'o [u8]),
    /// Events of this version, the lowest such, differ in this property, the first such.
    Conflict { version: u64, place: usize },
    /// This single-valued property, the first such, would get more than one object.
    Overfull { place: usize },
}

/// Asks whether a table meets every rule.
///
/// # Errors
/// `Question::Table`.
pub fn check_table(table: &[u8]) -> Result<(), Refusal> {
    ffi::check_table(table).length().map(|_| ())
}

/// Asks whether an event is accepted, and gives the dossier of this one event.
///
/// # Errors
/// The first of questions 1 to 6 whose answer is no.
pub fn check_event<'o>(table: &[u8], event: &[u8], out: &'o mut [u8]) -> Result<&'o [u8], Refusal> {
    let length = ffi::check_event(table, event, out).length()?;
    Ok(&out[..length])
}

/// Gives the dossier of the events of two dossiers together.
///
/// # Errors
/// The first of questions 18 and 1 to 8 whose answer is no; the left dossier is asked first.
pub fn combine<'o>(
    limits: Limits,
    table: &[u8],
    left: &[u8],
    right: &[u8],
    out: &'o mut [u8],
) -> Result<&'o [u8], Refusal> {
    let length = ffi::combine(limits, table, left, right, out).length()?;
    Ok(&out[..length])
}

/// Opens a dossier. Only a merged event is written.
///
/// # Errors
/// The first of questions 18 and 1 to 6 whose answer is no.
pub fn open<'o>(
    limits: Limits,
    table: &[u8],
    dossier: &[u8],
    out: &'o mut [u8],
) -> Result<Opened<'o>, Refusal> {
    let (reply, version) = ffi::open(limits, table, dossier, out);
    match reply {
        Reply::Merged { length } => Ok(Opened::Merged(&out[..length])),
        Reply::Conflict { place } => Ok(Opened::Conflict { version, place }),
        Reply::Overfull { place } => Ok(Opened::Overfull { place }),
        Reply::Refused(refusal) => Err(refusal),
        Reply::Done { .. } => ffi::not_the_merger("opening is done"),
    }
}

/// The value at a place and an index, both from 0, of an event or merged event: the event's own
/// bytes, not a copy. `None` where there is none, or where the table or the event is refused;
/// `hash_text` tells which.
pub fn value<'e>(table: &[u8], event: &'e [u8], place: usize, index: usize) -> Option<&'e [u8]> {
    let part = ffi::value(table, event, place, index);
    (!part.is_empty()).then(|| &event[part])
}

/// Gives the text of which the sticky hash of an event or merged event is taken. Under one table
/// two events have equal texts exactly when their type, source URI and match values are equal.
///
/// # Errors
/// The first of questions 1 to 6 whose answer is no.
pub fn hash_text<'o>(table: &[u8], event: &[u8], out: &'o mut [u8]) -> Result<&'o [u8], Refusal> {
    let length = ffi::hash_text(table, event, out).length()?;
    Ok(&out[..length])
}

/// Gives the sticky hash of an event or merged event, 20 bytes.
///
/// # Errors
/// The first of questions 1 to 6 whose answer is no.
pub fn hash<'o>(table: &[u8], event: &[u8], out: &'o mut [u8]) -> Result<&'o [u8], Refusal> {
    let length = ffi::hash(table, event, out).length()?;
    Ok(&out[..length])
}

/// Gives the dossier of all events of a batch together.
///
/// # Errors
/// The first question whose answer is no, with the position of the event that it was asked of;
/// question 18 comes before all others.
pub fn batch<'o>(
    limits: Limits,
    table: &[u8],
    batch: &[u8],
    out: &'o mut [u8],
    scratch: [&mut [u8]; 3],
) -> Result<&'o [u8], Refusal> {
    let length = ffi::batch(limits, table, batch, out, scratch).length()?;
    Ok(&out[..length])
}

/// Gives what the merge program prints for a standard input: a table as a text, then a batch.
///
/// # Errors
/// `Question::Room` only: what is wrong with the input stands in the report.
pub fn report<'o>(input: &[u8], out: &'o mut [u8]) -> Result<&'o [u8], Refusal> {
    let length = ffi::report(input, out).length()?;
    Ok(&out[..length])
}
