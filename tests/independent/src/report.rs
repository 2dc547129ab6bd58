//! What the merge program prints.

use crate::calls::merge;
use crate::event::{objects, Event};
use crate::limits::Limits;
use crate::opening::{open, Opened};
use crate::packed::Reader;
use crate::question::{Question, Refusal};
use crate::sha1::sha1;
use crate::table::{EventType, Table};
use std::io::Write;

/// The longest standard input that is taken.
const MOST_INPUT: usize = 65_536;

pub fn report(input: &[u8]) -> Vec<u8> {
    let mut lines = Vec::new();
    let printed = match print(input, &mut lines) {
        Ok(printed) => printed,
        Err(Refusal { question, position }) => {
            writeln!(lines, "refused {} {position}", question.number())
        }
    };
    printed.expect("a Vec takes every byte");
    lines
}

/// Prints what the batch opens as.
fn print(input: &[u8], lines: &mut Vec<u8>) -> Result<std::io::Result<()>, Refusal> {
    let (table, batch) = split(input).ok_or(Question::Frame)?;
    let table = Table::read(table).ok_or(Question::Table)?;
    let (event_type, dossier) = merge(Limits::PROFILE, &table, batch)?;
    let name = |place: usize| String::from_utf8_lossy(event_type.properties[place].name);
    Ok(match open(event_type, dossier) {
        Opened::Merged(event) => print_merged(event_type, &event, lines),
        Opened::Conflict { version, place } => {
            writeln!(lines, "conflict {version} {}", name(place))
        }
        Opened::Overfull { place } => writeln!(lines, "overfull {}", name(place)),
    })
}

/// The table and the batch behind it.
fn split(input: &[u8]) -> Option<(&[u8], &[u8])> {
    let mut reader = Reader::new(input);
    let table = reader.text()?;
    (input.len() <= MOST_INPUT).then(|| (table, reader.rest()))
}

fn print_merged(event_type: &EventType, event: &Event, lines: &mut Vec<u8>) -> std::io::Result<()> {
    writeln!(lines, "merged {}", objects(&event.sets))?;
    for (place, set) in &event.sets {
        for value in set {
            let name = event_type.properties[*place].name;
            lines.extend([name, b":", value, b"\n"].concat());
        }
    }
    write!(lines, "hash ")?;
    for byte in sha1(&event.hash_text(event_type)) {
        write!(lines, "{byte:02x}")?;
    }
    writeln!(lines)
}
