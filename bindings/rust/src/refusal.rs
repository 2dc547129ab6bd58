//! Why a call was refused.

use std::error::Error;
use std::fmt;

/// The question whose answer was no. Each has its number in the profile.
#[derive(Clone, Copy, Debug, PartialEq, Eq, PartialOrd, Ord, Hash)]
pub enum Question {
    Room = 1,
    Table,
    Layout,
    Type,
    Shape,
    Values,
    Collision,
    Limits,
    Frame,
    Parameters = 18,
}

impl Question {
    /// By rising number.
    pub const ALL: [Question; 10] = [
        Question::Room,
        Question::Table,
        Question::Layout,
        Question::Type,
        Question::Shape,
        Question::Values,
        Question::Collision,
        Question::Limits,
        Question::Frame,
        Question::Parameters,
    ];

    pub fn number(self) -> u8 {
        self as u8
    }
}

impl fmt::Display for Question {
    fn fmt(&self, text: &mut fmt::Formatter) -> fmt::Result {
        text.write_str(match self {
            Question::Room => "has each output and scratch buffer enough room?",
            Question::Table => "does the table meet every rule?",
            Question::Layout => "does the input read by its layout to its exact end?",
            Question::Type => "has the table the input's type?",
            Question::Shape => "do the presence bits, counts and marks fit the type?",
            Question::Values => "is every value in its space?",
            Question::Collision => "do the inputs agree in type, source URI and match sets?",
            Question::Limits => "are the events together inside the limits?",
            Question::Frame => "does the batch frame read to its exact end?",
            Question::Parameters => {
                "are the limits in their ranges, 1 to 8 event versions, 8 to 32 parents and \
                 32 to 256 objects?"
            }
        })
    }
}

/// A refused call: the first question whose answer was no, and in a batch the position, from 0, of
/// the event that it was asked of.
#[derive(Clone, Copy, Debug, PartialEq, Eq, Hash)]
pub struct Refusal {
    pub question: Question,
    pub position: usize,
}

/// A position of 0 is left out: the calls that take no batch have it too.
impl fmt::Display for Refusal {
    fn fmt(&self, text: &mut fmt::Formatter) -> fmt::Result {
        let number = self.question.number();
        write!(text, "refused, no to question {number}: {}", self.question)?;
        match self.position {
            0 => Ok(()),
            position => write!(text, " (position {position}, from 0)"),
        }
    }
}

impl Error for Refusal {}
