//! A round of calls over one family: what earlier calls gave is handed to later ones.

use crate::compare::{Comparison, Difference};
use crate::damage::{damage_bytes, damage_dossier, damage_event};
use crate::family::Family;
use crate::limits::{broken_limits, limits_around, random_limits};
use crate::random::Random;
use independent::calls::{DOSSIER_ROOM, HASH_ROOM, HASH_TEXT_ROOM};
use independent::case::{Case, MOST_ROOM};
use independent::limits::Limits;
use independent::packed::{put_batch, put_text};
use independent::script::{Outcome, Reply};

/// Pairs of events whose hash texts are compared, beside the trees.
const PAIRS: usize = 4;
/// Calls with free choice of inputs, beside the trees and pairs.
const FREE_CALLS: usize = 150;
/// As many events and dossiers are kept for later calls.
const MOST_KEPT: usize = 40;

pub struct Round<'r> {
    family: Family,
    /// What each tree and the batch of its events keep to; the profile's where none are chosen.
    limits: Option<Limits>,
    random: &'r mut Random,
    comparison: &'r mut Comparison,
    /// Packed events: of the family, damaged and merged ones.
    events: Vec<Vec<u8>>,
    dossiers: Vec<Vec<u8>>,
}

impl<'r> Round<'r> {
    pub fn new(random: &'r mut Random, comparison: &'r mut Comparison) -> Self {
        let family = Family::random(random);
        let events = (0..16).map(|_| family.event(random).write()).collect();
        let limits = match random.below(4) {
            0 => None,
            _ => Some(random_limits(random)),
        };
        Round {
            family,
            limits,
            random,
            comparison,
            events,
            dossiers: Vec::new(),
        }
    }

    pub fn run(&mut self) -> Result<(), Difference> {
        for _ in 0..2 {
            self.tree()?;
        }
        for _ in 0..PAIRS {
            self.pair()?;
        }
        for _ in 0..FREE_CALLS {
            let case = self.free_case();
            let limits = self.free_limits(&case);
            let case = case.within(limits);
            let outcome = self.comparison.run(&case)?;
            self.keep(&case, &outcome);
        }
        Ok(())
    }

    /// Checks events and combines their dossiers in a random tree. A batch of the same events has
    /// to give the same bytes, or the same refusal.
    fn tree(&mut self) -> Result<(), Difference> {
        let count = self.random.between(1, 16);
        let events: Vec<_> = (0..count)
            .map(|_| self.family.event(self.random).write())
            .collect();
        let mut calls = Vec::new();
        let way = self.way(&events, &mut calls)?;
        let mut batch = Vec::new();
        put_batch(&mut batch, &events);
        let batch = Case::Batch {
            chosen: self.limits,
            room: DOSSIER_ROOM,
            scratch: [DOSSIER_ROOM; 3],
            table: self.family.table.clone(),
            batch,
        };
        let outcome = self.comparison.run(&batch)?;
        if outcome.reply == way.reply && outcome.written() == way.written() {
            Ok(())
        } else {
            calls.push(batch);
            Err(Difference::between_ways(calls))
        }
    }

    /// The last call of a random tree over good events, or the first combination that is refused.
    /// All `calls` up to it are kept.
    fn way(&mut self, events: &[Vec<u8>], calls: &mut Vec<Case>) -> Result<Outcome, Difference> {
        let mut outcomes = Vec::new();
        for event in events {
            let case = Case::CheckEvent {
                room: DOSSIER_ROOM,
                table: self.family.table.clone(),
                event: event.clone(),
            };
            outcomes.push(self.comparison.run(&case)?);
            calls.push(case);
        }
        while outcomes.len() > 1 {
            let left = self.random.draw(&mut outcomes);
            let right = self.random.draw(&mut outcomes);
            let case = Case::Combine {
                chosen: self.limits,
                room: DOSSIER_ROOM,
                table: self.family.table.clone(),
                left: left.written().to_vec(),
                right: right.written().to_vec(),
            };
            let both = self.comparison.run(&case)?;
            self.keep(&case, &both);
            calls.push(case);
            if let Reply::Refused { .. } = both.reply {
                return Ok(both);
            }
            outcomes.push(both);
        }
        Ok(outcomes.remove(0))
    }

    /// Two good events have equal hash texts exactly when combining their dossiers is not refused
    /// with 7.
    fn pair(&mut self) -> Result<(), Difference> {
        let first = self.family.event(self.random).write();
        let second = self.second_event();
        let is_one = self.hash_text(&first)? == self.hash_text(&second)?;
        let mut calls = Vec::new();
        let both = self.way(&[first, second], &mut calls)?;
        let is_apart = matches!(both.reply, Reply::Refused { number: 7, .. });
        self.comparison.summary.count_pair(is_one);
        if is_one != is_apart {
            Ok(())
        } else {
            Err(Difference::in_identity(calls))
        }
    }

    fn hash_text(&mut self, event: &[u8]) -> Result<Vec<u8>, Difference> {
        let case = Case::HashText {
            room: HASH_TEXT_ROOM,
            table: self.family.table.clone(),
            event: event.to_vec(),
        };
        Ok(self.comparison.run(&case)?.written().to_vec())
    }

    /// Of the family, or with other match values, or of another family under the same table.
    fn second_event(&mut self) -> Vec<u8> {
        match self.random.below(4) {
            0 => {
                let stranger = self.family.stranger(self.random);
                stranger.event(self.random).write()
            }
            1 => self.family.event(self.random).write(),
            _ => self.family.event_apart(self.random).write(),
        }
    }

    /// Keeps what later calls can be handed.
    fn keep(&mut self, case: &Case, outcome: &Outcome) {
        let kept = match case {
            Case::CheckEvent { .. } | Case::Combine { .. } | Case::Batch { .. } => {
                &mut self.dossiers
            }
            Case::Open { .. } => &mut self.events,
            _ => return,
        };
        let written = outcome.written();
        if written.is_empty() {
            return;
        }
        if kept.len() >= MOST_KEPT {
            self.random.draw(kept);
        }
        kept.push(written.to_vec());
    }

    fn free_case(&mut self) -> Case {
        match self.random.below(16) {
            0 => Case::CheckTable {
                table: self.broken_table(),
            },
            1..=2 => Case::CheckEvent {
                room: self.room(DOSSIER_ROOM),
                table: self.table(),
                event: self.event(),
            },
            3..=6 => Case::Combine {
                chosen: None,
                room: self.room(DOSSIER_ROOM),
                table: self.table(),
                left: self.dossier(),
                right: self.dossier(),
            },
            7..=9 => Case::Open {
                chosen: None,
                room: self.room(DOSSIER_ROOM),
                table: self.table(),
                dossier: self.dossier(),
            },
            call => self.free_reading(call),
        }
    }

    fn free_reading(&mut self, call: usize) -> Case {
        match call {
            10..=11 => Case::Value {
                table: self.table(),
                event: self.event(),
                place: self.below_or_far(self.family.places()),
                index: self.below_or_far(2),
            },
            12 => Case::HashText {
                room: self.room(HASH_TEXT_ROOM),
                table: self.table(),
                event: self.event(),
            },
            13 => Case::Hash {
                room: self.room(HASH_ROOM),
                table: self.table(),
                event: self.event(),
            },
            14 => Case::Batch {
                chosen: None,
                room: self.room(DOSSIER_ROOM),
                scratch: [DOSSIER_ROOM; 3].map(|least| self.room(least)),
                table: self.table(),
                batch: self.batch(),
            },
            _ => Case::Report {
                input: self.input(),
            },
        }
    }

    /// Not always those of the trees: a dossier made within larger limits passes smaller ones.
    fn free_limits(&mut self, case: &Case) -> Option<Limits> {
        let dossier = match case {
            Case::Open { dossier, .. } => Some(dossier),
            Case::Combine { left, right, .. } => Some(*self.random.pick(&[left, right])),
            _ => None,
        };
        match self.random.below(16) {
            0 => Some(broken_limits(self.random)),
            1..=4 => Some(random_limits(self.random)),
            5..=8 => limits_around(self.random, dossier?),
            9..=11 => None,
            _ => self.limits,
        }
    }

    /// Mostly below `bound`, else anywhere.
    fn below_or_far(&mut self, bound: usize) -> u64 {
        match self.random.below(16) {
            0 => self.random.number_of_bits(64),
            _ => self.random.below(bound) as u64,
        }
    }

    /// Mostly the least room that suffices.
    fn room(&mut self, least: usize) -> usize {
        match self.random.below(40) {
            0 => least - 1,
            1 => self.random.below(least),
            2 => least + self.random.below(MOST_ROOM - least),
            _ => least,
        }
    }

    fn table(&mut self) -> Vec<u8> {
        if self.random.one_in(40) {
            self.broken_table()
        } else {
            self.family.table.clone()
        }
    }

    fn broken_table(&mut self) -> Vec<u8> {
        let table = if self.random.one_in(2) {
            self.family.draft.broken(self.random).pack()
        } else {
            self.family.table.clone()
        };
        if self.random.one_in(3) {
            damage_bytes(self.random, &table)
        } else {
            table
        }
    }

    /// An event of the family, or one that came about; now and then a damaged copy.
    fn event(&mut self) -> Vec<u8> {
        let event = if self.random.one_in(2) {
            self.family.event(self.random).write()
        } else {
            self.random.pick(&self.events).clone()
        };
        if self.random.one_in(5) {
            damage_event(self.random, &event, &self.family.edges)
        } else {
            event
        }
    }

    fn dossier(&mut self) -> Vec<u8> {
        if self.dossiers.is_empty() {
            return self.event();
        }
        let dossier = self.random.pick(&self.dossiers).clone();
        if self.random.one_in(6) {
            damage_dossier(self.random, &dossier, &self.family.edges)
        } else {
            dossier
        }
    }

    fn batch(&mut self) -> Vec<u8> {
        let count = match self.random.below(20) {
            0 => self.random.below(20),
            _ => self.random.between(1, 16),
        };
        // At most one event is damaged: were it one in five, hardly a batch would be whole.
        let mut events: Vec<_> = (0..count)
            .map(|_| self.family.event(self.random).write())
            .collect();
        if count > 0 && self.random.one_in(2) {
            let place = self.random.below(count);
            events[place] = self.event();
        }
        let mut batch = Vec::new();
        put_batch(&mut batch, &events);
        if self.random.one_in(12) {
            damage_bytes(self.random, &batch)
        } else {
            batch
        }
    }

    fn input(&mut self) -> Vec<u8> {
        let mut input = Vec::new();
        put_text(&mut input, &self.table());
        input.extend(self.batch());
        match self.random.below(30) {
            0 => damage_bytes(self.random, &input),
            1 => {
                input.resize(65_537, 0);
                input
            }
            _ => input,
        }
    }
}
