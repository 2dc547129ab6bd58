//! The questions that a call asks, each with its number.

/// The question that was answered no.
#[derive(Clone, Copy, Debug, PartialEq, Eq, PartialOrd, Ord)]
pub enum Question {
    Room = 1,
    Table = 2,
    Layout = 3,
    Type = 4,
    Shape = 5,
    Values = 6,
    Collision = 7,
    Limits = 8,
    Frame = 9,
    Parameters = 18,
}

/// Why a call was refused, and in a batch at which event.
#[derive(Clone, Copy, Debug, PartialEq, Eq)]
pub struct Refusal {
    pub question: Question,
    pub position: usize,
}

impl Question {
    pub fn number(self) -> u8 {
        self as u8
    }

    /// Refuses where `answer` is no.
    pub fn ask(self, answer: bool) -> Result<(), Question> {
        if answer {
            Ok(())
        } else {
            Err(self)
        }
    }

    /// This refusal, of the event at `position` of a batch.
    pub fn at(self, position: usize) -> Refusal {
        Refusal {
            question: self,
            position,
        }
    }
}

impl From<Question> for Refusal {
    fn from(question: Question) -> Self {
        question.at(0)
    }
}
