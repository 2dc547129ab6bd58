//! The C interface (include/merger.h) and its packed replies. No other module calls it.
//!
//! Each call is safe for the same reason: pointers and lengths are those of slices, so they are
//! valid and not null; what a call writes to is lent to it alone, so it overlaps nothing.

use crate::{Limits, Question, Refusal};
use std::ops::Range;

extern "C" {
    fn merger_check_table(table: *const u8, table_len: usize) -> u64;
    fn merger_check_event(
        table: *const u8,
        table_len: usize,
        event: *const u8,
        event_len: usize,
        out: *mut u8,
        out_len: usize,
    ) -> u64;
    fn merger_combine(
        versions: usize,
        parents: usize,
        objects: usize,
        table: *const u8,
        table_len: usize,
        left: *const u8,
        left_len: usize,
        right: *const u8,
        right_len: usize,
        out: *mut u8,
        out_len: usize,
    ) -> u64;
    fn merger_open(
        versions: usize,
        parents: usize,
        objects: usize,
        table: *const u8,
        table_len: usize,
        dossier: *const u8,
        dossier_len: usize,
        out: *mut u8,
        out_len: usize,
        version: *mut u64,
    ) -> u64;
    fn merger_value(
        table: *const u8,
        table_len: usize,
        event: *const u8,
        event_len: usize,
        place: usize,
        index: usize,
    ) -> u64;
    fn merger_hash_text(
        table: *const u8,
        table_len: usize,
        event: *const u8,
        event_len: usize,
        out: *mut u8,
        out_len: usize,
    ) -> u64;
    fn merger_hash(
        table: *const u8,
        table_len: usize,
        event: *const u8,
        event_len: usize,
        out: *mut u8,
        out_len: usize,
    ) -> u64;
    fn merger_batch(
        versions: usize,
        parents: usize,
        objects: usize,
        table: *const u8,
        table_len: usize,
        batch: *const u8,
        batch_len: usize,
        out: *mut u8,
        out_len: usize,
        a: *mut u8,
        a_len: usize,
        b: *mut u8,
        b_len: usize,
        c: *mut u8,
        c_len: usize,
    ) -> u64;
    fn merger_report(input: *const u8, input_len: usize, out: *mut u8, out_len: usize) -> u64;
}

/// A call with a table, one input and an output.
type OneInput = unsafe extern "C" fn(*const u8, usize, *const u8, usize, *mut u8, usize) -> u64;

fn on_one_input(call: OneInput, table: &[u8], input: &[u8], out: &mut [u8]) -> Reply {
    // SAFETY: as the module says.
    Reply::unpack(unsafe {
        call(
            table.as_ptr(),
            table.len(),
            input.as_ptr(),
            input.len(),
            out.as_mut_ptr(),
            out.len(),
        )
    })
}

pub fn check_table(table: &[u8]) -> Reply {
    // SAFETY: as the module says.
    Reply::unpack(unsafe { merger_check_table(table.as_ptr(), table.len()) })
}

pub fn check_event(table: &[u8], event: &[u8], out: &mut [u8]) -> Reply {
    on_one_input(merger_check_event, table, event, out)
}

pub fn hash_text(table: &[u8], event: &[u8], out: &mut [u8]) -> Reply {
    on_one_input(merger_hash_text, table, event, out)
}

pub fn hash(table: &[u8], event: &[u8], out: &mut [u8]) -> Reply {
    on_one_input(merger_hash, table, event, out)
}

pub fn combine(limits: Limits, table: &[u8], left: &[u8], right: &[u8], out: &mut [u8]) -> Reply {
    // SAFETY: as the module says.
    Reply::unpack(unsafe {
        merger_combine(
            limits.versions,
            limits.parents,
            limits.objects,
            table.as_ptr(),
            table.len(),
            left.as_ptr(),
            left.len(),
            right.as_ptr(),
            right.len(),
            out.as_mut_ptr(),
            out.len(),
        )
    })
}

/// The reply, and the event version where that is a conflict.
pub fn open(limits: Limits, table: &[u8], dossier: &[u8], out: &mut [u8]) -> (Reply, u64) {
    let mut version = 0;
    // SAFETY: as the module says.
    let reply = unsafe {
        merger_open(
            limits.versions,
            limits.parents,
            limits.objects,
            table.as_ptr(),
            table.len(),
            dossier.as_ptr(),
            dossier.len(),
            out.as_mut_ptr(),
            out.len(),
            &mut version,
        )
    };
    (Reply::unpack(reply), version)
}

/// The value's part of the event, which is empty where there is none.
pub fn value(table: &[u8], event: &[u8], place: usize, index: usize) -> Range<usize> {
    // SAFETY: as the module says.
    let reply = unsafe {
        merger_value(
            table.as_ptr(),
            table.len(),
            event.as_ptr(),
            event.len(),
            place,
            index,
        )
    };
    let start = bits(reply, 28, 28);
    start..start + bits(reply, 0, 28)
}

pub fn batch(
    limits: Limits,
    table: &[u8],
    batch: &[u8],
    out: &mut [u8],
    scratch: [&mut [u8]; 3],
) -> Reply {
    let [a, b, c] = scratch;
    // SAFETY: as the module says.
    Reply::unpack(unsafe {
        merger_batch(
            limits.versions,
            limits.parents,
            limits.objects,
            table.as_ptr(),
            table.len(),
            batch.as_ptr(),
            batch.len(),
            out.as_mut_ptr(),
            out.len(),
            a.as_mut_ptr(),
            a.len(),
            b.as_mut_ptr(),
            b.len(),
            c.as_mut_ptr(),
            c.len(),
        )
    })
}

pub fn report(input: &[u8], out: &mut [u8]) -> Reply {
    // SAFETY: as the module says.
    Reply::unpack(unsafe {
        merger_report(input.as_ptr(), input.len(), out.as_mut_ptr(), out.len())
    })
}

/// A reply, taken apart.
pub enum Reply {
    Done { length: usize },
    Merged { length: usize },
    Conflict { place: usize },
    Overfull { place: usize },
    Refused(Refusal),
}

impl Reply {
    fn unpack(packed: u64) -> Reply {
        let low = bits(packed, 0, 32);
        match bits(packed, 56, 8) {
            0 => Reply::Done { length: low },
            1 => Reply::Merged { length: low },
            2 => Reply::Conflict { place: low },
            3 => Reply::Overfull { place: low },
            4 => Reply::Refused(Refusal {
                question: question(bits(packed, 0, 8)),
                position: bits(packed, 8, 24),
            }),
            kind => not_the_merger(&format!("the kind {kind}")),
        }
    }

    /// The length of what a call wrote that does not open.
    pub fn length(self) -> Result<usize, Refusal> {
        match self {
            Reply::Done { length } => Ok(length),
            Reply::Refused(refusal) => Err(refusal),
            _ => not_the_merger("an opened dossier"),
        }
    }
}

fn question(number: usize) -> Question {
    let mut all = Question::ALL.into_iter();
    let found = all.find(|question| usize::from(question.number()) == number);
    found.unwrap_or_else(|| not_the_merger(&format!("the refusal {number}")))
}

/// Ends the program on a reply that the interface does not have for the call.
pub fn not_the_merger(reply: &str) -> ! {
    panic!("the linked archive is not this interface's merger: it replied {reply}")
}

/// `count` bits of `packed` from bit `from`.
fn bits(packed: u64, from: u32, count: u32) -> usize {
    (packed >> from & ((1 << count) - 1)) as usize
}
