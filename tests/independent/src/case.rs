//! Cases: calls with their inputs, as scripts have them.

use crate::calls::REPORT_ROOM;
use crate::limits::Limits;
use crate::packed::{put_count, put_number, put_text, Reader};

/// The largest buffer that a script may ask for.
pub const MOST_ROOM: usize = 40_960;

/// A call with its inputs and the sizes of its buffers. The limits of a call that takes some are
/// chosen in the script, or they are the profile's.
#[derive(Clone, Debug, PartialEq, Eq)]
pub enum Case {
    CheckTable {
        table: Vec<u8>,
    },
    CheckEvent {
        room: usize,
        table: Vec<u8>,
        event: Vec<u8>,
    },
    Combine {
        chosen: Option<Limits>,
        room: usize,
        table: Vec<u8>,
        left: Vec<u8>,
        right: Vec<u8>,
    },
    Open {
        chosen: Option<Limits>,
        room: usize,
        table: Vec<u8>,
        dossier: Vec<u8>,
    },
    Value {
        table: Vec<u8>,
        event: Vec<u8>,
        place: u64,
        index: u64,
    },
    HashText {
        room: usize,
        table: Vec<u8>,
        event: Vec<u8>,
    },
    Hash {
        room: usize,
        table: Vec<u8>,
        event: Vec<u8>,
    },
    Batch {
        chosen: Option<Limits>,
        room: usize,
        scratch: [usize; 3],
        table: Vec<u8>,
        batch: Vec<u8>,
    },
    Report {
        input: Vec<u8>,
    },
}

impl Case {
    pub fn read(reader: &mut Reader) -> Option<Case> {
        let call = reader.number()?;
        let chosen = match call {
            10..=12 => Some(limits(reader)?),
            _ => None,
        };
        Some(match call {
            1 => Case::CheckTable {
                table: bytes(reader)?,
            },
            2 => Case::CheckEvent {
                room: room(reader)?,
                table: bytes(reader)?,
                event: bytes(reader)?,
            },
            3 | 10 => Case::Combine {
                chosen,
                room: room(reader)?,
                table: bytes(reader)?,
                left: bytes(reader)?,
                right: bytes(reader)?,
            },
            4 | 11 => Case::Open {
                chosen,
                room: room(reader)?,
                table: bytes(reader)?,
                dossier: bytes(reader)?,
            },
            call => return Case::read_later(call, chosen, reader),
        })
    }

    fn read_later(call: u64, chosen: Option<Limits>, reader: &mut Reader) -> Option<Case> {
        Some(match call {
            5 => Case::Value {
                table: bytes(reader)?,
                event: bytes(reader)?,
                place: reader.number()?,
                index: reader.number()?,
            },
            6 => Case::HashText {
                room: room(reader)?,
                table: bytes(reader)?,
                event: bytes(reader)?,
            },
            7 => Case::Hash {
                room: room(reader)?,
                table: bytes(reader)?,
                event: bytes(reader)?,
            },
            8 | 12 => Case::Batch {
                chosen,
                room: room(reader)?,
                scratch: [room(reader)?, room(reader)?, room(reader)?],
                table: bytes(reader)?,
                batch: bytes(reader)?,
            },
            9 => Case::Report {
                input: bytes(reader)?,
            },
            _ => return None,
        })
    }

    /// The case as a script has it.
    pub fn write(&self) -> Vec<u8> {
        let mut out = Vec::new();
        put_number(&mut out, self.number());
        if let Some(limits) = self.chosen() {
            put_count(&mut out, limits.versions);
            put_count(&mut out, limits.parents);
            put_count(&mut out, limits.objects);
        }
        for size in self.sizes() {
            put_count(&mut out, size);
        }
        for input in self.inputs() {
            put_text(&mut out, input);
        }
        if let Case::Value { place, index, .. } = self {
            put_number(&mut out, *place);
            put_number(&mut out, *index);
        }
        out
    }

    /// The call's number in a script.
    pub fn number(&self) -> u64 {
        match self {
            Case::CheckTable { .. } => 1,
            Case::CheckEvent { .. } => 2,
            Case::Combine { chosen: None, .. } => 3,
            Case::Open { chosen: None, .. } => 4,
            Case::Value { .. } => 5,
            Case::HashText { .. } => 6,
            Case::Hash { .. } => 7,
            Case::Batch { chosen: None, .. } => 8,
            Case::Report { .. } => 9,
            Case::Combine { .. } => 10,
            Case::Open { .. } => 11,
            Case::Batch { .. } => 12,
        }
    }

    /// The same case with these limits, where its call takes limits.
    pub fn within(mut self, limits: Option<Limits>) -> Case {
        if let Case::Combine { chosen, .. }
        | Case::Open { chosen, .. }
        | Case::Batch { chosen, .. } = &mut self
        {
            *chosen = limits;
        }
        self
    }

    fn chosen(&self) -> Option<Limits> {
        match self {
            Case::Combine { chosen, .. }
            | Case::Open { chosen, .. }
            | Case::Batch { chosen, .. } => *chosen,
            _ => None,
        }
    }

    /// The limits that the call is given.
    pub fn limits(&self) -> Limits {
        self.chosen().unwrap_or(Limits::PROFILE)
    }

    /// The buffer sizes that the case has as fields.
    fn sizes(&self) -> Vec<usize> {
        match self {
            Case::CheckTable { .. } | Case::Value { .. } | Case::Report { .. } => vec![],
            Case::CheckEvent { room, .. }
            | Case::Combine { room, .. }
            | Case::Open { room, .. }
            | Case::HashText { room, .. }
            | Case::Hash { room, .. } => vec![*room],
            Case::Batch {
                room,
                scratch: [a, b, c],
                ..
            } => vec![*room, *a, *b, *c],
        }
    }

    /// The bytes that the case hands over.
    fn inputs(&self) -> Vec<&[u8]> {
        match self {
            Case::CheckTable { table } => vec![table],
            Case::CheckEvent { table, event, .. }
            | Case::Value { table, event, .. }
            | Case::HashText { table, event, .. }
            | Case::Hash { table, event, .. } => vec![table, event],
            Case::Combine {
                table, left, right, ..
            } => vec![table, left, right],
            Case::Open { table, dossier, .. } => vec![table, dossier],
            Case::Batch { table, batch, .. } => vec![table, batch],
            Case::Report { input } => vec![input],
        }
    }

    /// The size of the output buffer.
    pub fn room(&self) -> usize {
        match self {
            Case::Report { .. } => REPORT_ROOM,
            Case::CheckTable { .. } | Case::Value { .. } => 0,
            _ => self.sizes()[0],
        }
    }
}

fn limits(reader: &mut Reader) -> Option<Limits> {
    Some(Limits {
        versions: limit(reader)?,
        parents: limit(reader)?,
        objects: limit(reader)?,
    })
}

/// Any number: whether it is in its range is the call's question.
fn limit(reader: &mut Reader) -> Option<usize> {
    reader.count(0..=usize::MAX)
}

fn bytes(reader: &mut Reader) -> Option<Vec<u8>> {
    reader.text().map(<[u8]>::to_vec)
}

fn room(reader: &mut Reader) -> Option<usize> {
    reader.count(0..=MOST_ROOM)
}
