//! What every part uses: books of cases and disagreements, lent memory with guards, the crate's words in ours.

use std::borrow::Cow;
use std::collections::BTreeMap;
use std::fmt;
use std::ops::Not;
use std::panic::{catch_unwind, set_hook, take_hook, AssertUnwindSafe};

use ours::{Expect, Random, Said};
use rtcp_types::RtcpParseError;

use crate::control::{Controls, Spot};
use crate::record::{Case, Chapter, Sample};

/// How much a run does, from which seed, and whether it keeps a sample of its cases.
pub struct Effort {
    pub cases: u64,
    pub seed: u64,
    pub records: bool,
}

impl Effort {
    /// The count of random cases: the one asked for, and at least the part's own.
    pub fn at_least(&self, own: u64) -> u64 {
        self.cases.max(own)
    }

    pub fn random(&self) -> Random {
        Random::new(self.seed)
    }

    /// The book of a call, which is named as in include/bogslipper.h.
    pub fn book(&self, call: &'static str) -> Book {
        Book {
            sample: self.records.then(|| Sample::new(self.seed)),
            ..Book::new(call)
        }
    }
}

/// What our call has to say, and the listed difference that parts it from the Rust, if one does.
#[derive(Clone, Copy)]
pub struct Expected {
    pub said: Said,
    pub difference: Option<&'static str>,
}

impl Expected {
    /// The document decides, and the Rust says something else.
    pub fn differing(name: &'static str, said: Said) -> Self {
        Expected {
            said,
            difference: Some(name),
        }
    }

    /// Whether an answer is expected; otherwise every lent byte has to stay.
    pub fn is_answer(&self) -> bool {
        self.said.number == 0
    }
}

impl From<Said> for Expected {
    fn from(said: Said) -> Self {
        Expected {
            said,
            difference: None,
        }
    }
}

/// What one call of ours did: its words, and the first wrong place of the lent memory.
pub struct Seen {
    said: Said,
    wrong_place: Option<isize>,
}

impl Seen {
    pub fn new(said: Said, memory: &[&dyn Left]) -> Self {
        let wrong_place = memory.iter().find_map(|part| part.wrong_place());
        Seen { said, wrong_place }
    }

    /// Whether it is all that is expected.
    pub fn is(&self, expected: &Expected) -> bool {
        self.said == expected.said && self.wrong_place.is_none()
    }
}

/// The book of one call, or of a comparison of several.
pub struct Book {
    call: &'static str,
    cases: u64,
    disagreements: u64,
    differences: BTreeMap<&'static str, u64>,
    smallest: Vec<(usize, String)>,
    controls: Controls,
    sample: Option<Sample>,
}

/// How many disagreements a book keeps to show: those with the smallest inputs.
const SHOWN: usize = 4;

/// How much of a disagreement's input is shown.
const SHOWN_LENGTH: usize = 400;

impl Book {
    /// A book of which no sample is kept.
    pub fn new(call: &'static str) -> Self {
        Book {
            call,
            cases: 0,
            disagreements: 0,
            differences: BTreeMap::new(),
            smallest: Vec::new(),
            controls: Controls::new(),
            sample: None,
        }
    }

    /// Enters one case: what our call said, and each part of memory that it was lent.
    pub fn enter(
        &mut self,
        expected: impl Into<Expected>,
        said: Said,
        memory: &[&dyn Left],
        case: Case,
    ) {
        let expected = expected.into();
        assert_eq!(
            memory.len(),
            case.parts(),
            "{}: memory that nobody looks at",
            self.call
        );
        self.cases += 1;
        if let Some(name) = expected.difference {
            *self.differences.entry(name).or_default() += 1;
        }
        if let Some(sample) = &mut self.sample {
            sample.offer(self.call, &expected, &case);
        }
        let seen = Seen::new(said, memory);
        if seen.is(&expected) {
            self.controls.show(&expected, memory);
            return;
        }
        self.disagreements += 1;
        let size = case.weight();
        if self.smallest.len() == SHOWN && self.smallest[SHOWN - 1].0 <= size {
            return;
        }
        let memory = match seen.wrong_place {
            Some(place) => format!("; lent memory is wrong from place {place}"),
            None => String::new(),
        };
        let text = format!(
            "{}\n      ours     {}{memory}\n      expected {}",
            shortened(case.given(self.call)),
            words(&seen.said),
            words(&expected.said)
        );
        let place = self.smallest.partition_point(|(other, _)| *other <= size);
        self.smallest.insert(place, (size, text));
        self.smallest.truncate(SHOWN);
    }

    pub fn cases(&self) -> u64 {
        self.cases
    }

    pub fn disagreements(&self) -> u64 {
        self.disagreements
    }

    /// How many wrong outcomes were shown on purpose and noticed.
    pub fn caught(&self) -> u64 {
        self.controls.caught()
    }

    /// The wrong outcomes that were not noticed.
    pub fn missed(&self) -> Vec<String> {
        let missed = self.controls.missed().iter();
        missed
            .map(|what| format!("{}: {what}", self.call))
            .collect()
    }

    /// Enters cases of a table, all of which a recording keeps.
    pub fn table(&mut self, enter: impl FnOnce(&mut Book)) {
        self.keep_all(true);
        enter(self);
        self.keep_all(false);
    }

    /// Whether a recording keeps every case from now on.
    pub fn keep_all(&mut self, all: bool) {
        if let Some(sample) = &mut self.sample {
            sample.keep_all(all);
        }
    }

    /// What a recording with about so many cases of each call holds of this one.
    pub fn chapter(&self, most: usize) -> Option<Chapter<'_>> {
        let sample = self.sample.as_ref()?;
        Some(sample.chapter(self.call, most))
    }
}

impl fmt::Display for Book {
    fn fmt(&self, f: &mut fmt::Formatter<'_>) -> fmt::Result {
        write!(
            f,
            "{:<16} {:>10} {:>13}",
            self.call, self.cases, self.disagreements
        )?;
        let mut lead = "  ";
        for (name, times) in &self.differences {
            write!(f, "{lead}{name}: {times}")?;
            lead = "; ";
        }
        for (_, text) in &self.smallest {
            write!(f, "\n    {text}")?;
        }
        Ok(())
    }
}

/// What was said, for a reader.
pub fn words(said: &Said) -> String {
    let kind = match said.number {
        0 => "answer".to_string(),
        number => format!("refusal {number}"),
    };
    format!("{kind} {:?}", said.values)
}

/// A text for a reader, cut short where it is very long.
fn shortened(mut text: String) -> String {
    let length = text.len();
    if length > SHOWN_LENGTH {
        text.truncate(SHOWN_LENGTH);
        text += &format!(".. ({length} characters)");
    }
    text
}

/// An element of lent memory that can be filled with anything.
pub trait Element: Copy + PartialEq + Not<Output = Self> {
    fn any(random: &mut Random) -> Self;
}

impl Element for u8 {
    fn any(random: &mut Random) -> Self {
        random.number() as u8
    }
}

impl Element for u16 {
    fn any(random: &mut Random) -> Self {
        random.number() as u16
    }
}

impl Element for i32 {
    fn any(random: &mut Random) -> Self {
        random.number() as i32
    }
}

/// Memory to lend: a part in the middle, with guards of random contents on both sides.
#[derive(Clone)]
pub struct Lent<T> {
    front: usize,
    length: usize,
    before: Vec<T>,
    after: Vec<T>,
}

impl<T: Element> Lent<T> {
    /// A part without guards.
    pub fn bare(contents: &[T]) -> Self {
        Lent {
            front: 0,
            length: contents.len(),
            before: contents.to_vec(),
            after: contents.to_vec(),
        }
    }

    /// A part that holds the contents given.
    pub fn holding(random: &mut Random, contents: &[T]) -> Self {
        let front = 16 + random.below(8) as usize;
        let back = 16;
        let mut before = Vec::with_capacity(front + contents.len() + back);
        before.extend((0..front).map(|_| T::any(random)));
        before.extend_from_slice(contents);
        before.extend((0..back).map(|_| T::any(random)));
        Lent {
            front,
            length: contents.len(),
            after: before.clone(),
            before,
        }
    }

    /// A part of that length with random contents.
    pub fn anything(random: &mut Random, length: usize) -> Self {
        let contents: Vec<T> = (0..length).map(|_| T::any(random)).collect();
        Lent::holding(random, &contents)
    }

    pub fn part(&self) -> &[T] {
        &self.after[self.front..self.front + self.length]
    }

    /// What the part held before the call.
    pub fn was(&self) -> &[T] {
        &self.before[self.front..self.front + self.length]
    }

    pub fn part_mut(&mut self) -> &mut [T] {
        &mut self.after[self.front..self.front + self.length]
    }

    /// The first place, counted from the part's start, that holds neither `answer` nor what it held before.
    pub fn wrong_place(&self, answer: &[T]) -> Option<isize> {
        let end = self.front + answer.len();
        let kept = self.after[..self.front] == self.before[..self.front]
            && self.after[self.front..end] == *answer
            && self.after[end..] == self.before[end..];
        if kept {
            return None;
        }
        let wanted = self.before[..self.front]
            .iter()
            .chain(answer)
            .chain(&self.before[end..]);
        let place = self
            .after
            .iter()
            .zip(wanted)
            .position(|(is, was)| is != was);
        place.map(|place| place as isize - self.front as isize)
    }

    /// After an answer that had to be written to its front.
    pub fn after<'a>(&'a self, answer: &'a [T]) -> After<'a, T> {
        let lent = Cow::Borrowed(self);
        After { lent, answer }
    }

    /// After a call that had to leave it alone.
    pub fn kept(&self) -> After<'_, T> {
        self.after(&[])
    }
}

/// Memory after a call, beside what it has to hold.
pub trait Left {
    /// The first wrong place, counted from the part's start.
    fn wrong_place(&self) -> Option<isize>;

    /// The same with another element at a spot, where it has that spot.
    fn spoilt(&self, spot: Spot) -> Option<Box<dyn Left + '_>>;
}

/// Lent memory that has to hold an answer and behind it what it held before.
pub struct After<'a, T: Element> {
    lent: Cow<'a, Lent<T>>,
    answer: &'a [T],
}

impl<T: Element> Left for After<'_, T> {
    fn wrong_place(&self) -> Option<isize> {
        self.lent.wrong_place(self.answer)
    }

    fn spoilt(&self, spot: Spot) -> Option<Box<dyn Left + '_>> {
        let Lent { front, length, .. } = *self.lent;
        let answered = front + self.answer.len();
        let end = front + length;
        let (from, to) = match spot {
            Spot::Before => (0, front),
            Spot::Answer => (front, answered),
            Spot::Rest => (answered, end),
            Spot::Behind => (end, self.lent.after.len()),
        };
        let place = to.checked_sub(1).filter(|place| from <= *place)?;
        let mut lent = self.lent.clone().into_owned();
        lent.after[place] = !lent.after[place];
        let lent = Cow::Owned(lent);
        Some(Box::new(After { lent, ..*self }))
    }
}

/// Any bytes; more than a few thousand are one byte again and again, so that a recording can hold them.
pub fn any_bytes(random: &mut Random, length: usize) -> Vec<u8> {
    match length {
        0..=4_096 => random.bytes(length),
        _ => vec![random.byte(); length],
    }
}

/// A call of ours that only reads: what it says, and its input after it.
pub fn read_only(
    random: &mut Random,
    data: &[u8],
    call: impl FnOnce(&[u8]) -> Said,
) -> (Said, Lent<u8>) {
    let lent = Lent::holding(random, data);
    (call(lent.part()), lent)
}

/// The Rust's result, or nothing where it panics; its panic is an outcome to look at, not a text to print.
pub fn unless_it_panics<T>(call: impl FnOnce() -> T) -> Option<T> {
    let loud = take_hook();
    set_hook(Box::new(|_| ()));
    let result = catch_unwind(AssertUnwindSafe(call)).ok();
    set_hook(loud);
    result
}

/// A refusal to read, in the numbers of docs/RULES.md.
pub fn refused_reading(error: RtcpParseError) -> Said {
    let wide = |number: usize| number as u64;
    match error {
        RtcpParseError::Truncated { expected, actual } => {
            Said::refusal(1, &[wide(expected), wide(actual)])
        }
        RtcpParseError::UnsupportedVersion(version) => Said::refusal(2, &[version.into()]),
        RtcpParseError::PacketTypeMismatch { actual, requested } => {
            Said::refusal(3, &[actual.into(), requested.into()])
        }
        RtcpParseError::TooLarge { expected, actual } => {
            Said::refusal(4, &[wide(expected), wide(actual)])
        }
        RtcpParseError::InvalidPadding => Said::refusal(5, &[]),
        other => unreachable!("no call compared here says {other:?}"),
    }
}
