//! Outcomes that are wrong on purpose: in every run the comparison of every call has to notice them all.
//!
//! The first right outcomes of a call are shown to its comparison again with one thing wrong: the number, a value, an element of
//! the memory. Answers and refusals each have their own, so that a touch on a refusal is among them.

use std::fmt;

use crate::case::{words, Expected, Left, Seen};

/// What is wrong with an outcome.
#[derive(Clone, Copy)]
enum Wrong {
    Number,
    Value(usize),
    /// An element at a spot of the first or second part of the memory lent.
    Element(usize, Spot),
}

/// Where an element is wrong: in front of the memory lent, in the answer, in what is lent beside it, or behind all.
#[derive(Clone, Copy, Debug)]
pub enum Spot {
    Before,
    Answer,
    Rest,
    Behind,
}

impl fmt::Display for Wrong {
    fn fmt(&self, f: &mut fmt::Formatter<'_>) -> fmt::Result {
        match self {
            Wrong::Number => write!(f, "another number"),
            Wrong::Value(place) => write!(f, "another value {place}"),
            Wrong::Element(part, spot) => write!(f, "another element, memory {part}, {spot:?}"),
        }
    }
}

/// How often each is shown to a call's comparison.
const TIMES: u32 = 3;

/// The controls of one call.
pub struct Controls {
    /// What is still to be shown, after an answer or a refusal, and how often.
    wanted: Vec<(Wrong, bool, u32)>,
    caught: u64,
    missed: Vec<String>,
}

impl Controls {
    pub fn new() -> Self {
        let spots = [Spot::Before, Spot::Answer, Spot::Rest, Spot::Behind];
        let elements = (0..2).flat_map(|part| spots.map(|spot| Wrong::Element(part, spot)));
        let values = (0..8).map(Wrong::Value);
        let wanted = [Wrong::Number].into_iter().chain(values).chain(elements);
        Controls {
            wanted: wanted
                .flat_map(|wrong| [(wrong, true, TIMES), (wrong, false, TIMES)])
                .collect(),
            caught: 0,
            missed: vec![],
        }
    }

    /// Shows the outcome of a case that met what is expected, with one thing wrong at a time.
    pub fn show(&mut self, expected: &Expected, memory: &[&dyn Left]) {
        let is_answer = expected.is_answer();
        let (caught, missed) = (&mut self.caught, &mut self.missed);
        self.wanted.retain_mut(|(wrong, of_answers, times)| {
            if *of_answers != is_answer {
                return true;
            }
            match wrong.noticed(expected, memory) {
                None => return true,
                Some(true) => *caught += 1,
                Some(false) => missed.push(format!("{wrong}, for {}", words(&expected.said))),
            }
            *times -= 1;
            *times > 0
        });
    }

    pub fn caught(&self) -> u64 {
        self.caught
    }

    pub fn missed(&self) -> &[String] {
        &self.missed
    }
}

impl Wrong {
    /// Whether the comparison notices it; nothing where the outcome has no such place.
    fn noticed(self, expected: &Expected, right: &[&dyn Left]) -> Option<bool> {
        let spoilt;
        let mut said = expected.said;
        let mut memory = right.to_vec();
        match self {
            Wrong::Number => said.number ^= 1,
            Wrong::Value(place) => said.values[place] ^= 1,
            Wrong::Element(part, spot) => {
                spoilt = right.get(part)?.spoilt(spot)?;
                memory[part] = &*spoilt;
            }
        }
        Some(!Seen::new(said, &memory).is(expected))
    }
}
