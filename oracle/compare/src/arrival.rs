//! Arrivals: the crate has none, so the rule of docs/RULES.md is told again in plain sums, and milliseconds are Rust's own `f64`.

use ours::{Expect, Random, Said};

use crate::case::{Book, Effort};
use crate::record::Case;
use crate::traffic;

const NOT_RECEIVED: i32 = 32_768;

/// The ticks whose quarter a 64-bit float holds exactly lie within this distance of 0.
const EXACT: i128 = 1 << 53;

/// The words at which a word begins to mean something else, and some that mean nothing.
const EDGES: [i32; 16] = [
    i32::MIN,
    -32_769,
    -32_768,
    -256,
    -1,
    0,
    1,
    255,
    256,
    32_767,
    32_768,
    32_769,
    32_770,
    32_771,
    65_536,
    i32::MAX,
];

pub fn compare(effort: &Effort) -> Vec<Book> {
    let mut cursors = Cursors {
        random: effort.random(),
        first: effort.book("arrivals"),
        next: effort.book("arrivals_next"),
        whole: Book::new("arrivals, whole"),
    };
    cursors.begin(effort);
    cursors.step_over_every_word();
    cursors.step_around_powers_of_two();
    cursors.step_from_anywhere(effort);
    cursors.walk_short_lists();
    cursors.walk_random_lists(effort);
    cursors.walk_longest_lists();
    cursors.walk_traffic();
    vec![cursors.first, cursors.next, cursors.whole]
}

/// One entry's arrival.
#[derive(Clone, Copy)]
enum Arrival {
    Missing,
    Unreadable,
    Unplaced,
    At(i128),
}

fn is_delta(word: i32) -> bool {
    (-32_768..=32_767).contains(&word)
}

/// The arrival of the last of a block's words, by the sum of all deltas up to and including its own.
fn last_arrival(time: u32, words: &[i32]) -> Arrival {
    let (last, before) = words.split_last().expect("a word");
    let readable = |word: &i32| is_delta(*word) || *word == NOT_RECEIVED;
    let deltas = words.iter().filter(|word| is_delta(**word));
    match *last {
        NOT_RECEIVED => Arrival::Missing,
        word if !is_delta(word) => Arrival::Unreadable,
        _ if !before.iter().all(readable) => Arrival::Unplaced,
        _ => Arrival::At(
            i128::from(time) * 256 + deltas.map(|delta| i128::from(*delta)).sum::<i128>(),
        ),
    }
}

/// A cursor as the interface has it.
#[derive(Clone, Copy)]
struct State {
    placed: bool,
    ticks: i64,
}

const LOST: State = State {
    placed: false,
    ticks: 0,
};

/// What a step says of an arrival that left the cursor there.
fn said(arrival: Arrival, next: State) -> Said {
    let (case, bits) = match arrival {
        Arrival::Missing => (0, 0),
        Arrival::Unreadable => (1, 0),
        Arrival::Unplaced => (2, 0),
        Arrival::At(ticks) => (3, (ticks as f64 / 4.0).to_bits()),
    };
    Said::answer(&[case, bits, next.placed.into(), next.ticks as u64])
}

/// What one step has to say, whatever the cursor.
fn expected_step(from: State, word: i32) -> Said {
    if word == NOT_RECEIVED {
        let kept = if from.placed { from } else { LOST };
        return said(Arrival::Missing, kept);
    }
    if !is_delta(word) {
        return said(Arrival::Unreadable, LOST);
    }
    let ticks = i128::from(from.ticks) + i128::from(word);
    if !from.placed || ticks.abs() >= EXACT {
        return said(Arrival::Unplaced, LOST);
    }
    let next = State {
        placed: true,
        ticks: ticks as i64,
    };
    said(Arrival::At(ticks), next)
}

/// The calls, each with its book.
struct Cursors {
    random: Random,
    first: Book,
    next: Book,
    whole: Book,
}

impl Cursors {
    fn of(&mut self, time: u32) {
        let expected = if time > 16_777_215 {
            Said::refusal(10, &[time.into()])
        } else {
            Said::answer(&[1, u64::from(time) * 256])
        };
        let said = ours::arrivals(time);
        let numbers = [time.into()];
        self.first
            .enter(expected, said, &[], Case::default().numbers(&numbers));
    }

    fn step(&mut self, from: State, word: i32) {
        step(&mut self.next, expected_step(from, word), from, word);
    }

    /// A block's words from the first to the last, each against the sum of what stands before it. Answers the arrivals.
    fn walk(&mut self, time: u32, words: &[i32]) -> Vec<Arrival> {
        let mut from = State {
            placed: true,
            ticks: i64::from(time) * 256,
        };
        let mut arrivals = vec![];
        for count in 1..=words.len() {
            let words = &words[..count];
            let arrival = last_arrival(time, words);
            let next = match arrival {
                Arrival::Missing => from,
                Arrival::Unreadable | Arrival::Unplaced => LOST,
                Arrival::At(ticks) => State {
                    placed: true,
                    ticks: ticks as i64,
                },
            };
            step(&mut self.whole, said(arrival, next), from, words[count - 1]);
            arrivals.push(arrival);
            from = next;
        }
        arrivals
    }

    fn begin(&mut self, effort: &Effort) {
        self.first.keep_all(true);
        for time in [
            0, 1, 2, 255, 256, 8_388_607, 8_388_608, 16_777_214, 16_777_215,
        ] {
            self.of(time);
        }
        for time in [16_777_216, 16_777_217, 1 << 25, 1 << 31, u32::MAX] {
            self.of(time);
        }
        self.first.keep_all(false);
        for _ in 0..effort.at_least(100_000) {
            let time = (self.random.number() >> self.random.from_to(32, 48)) as u32;
            self.of(time);
        }
    }

    /// Every word from below the lowest delta to above the last that means something, behind a tick, behind none, and before 0.
    fn step_over_every_word(&mut self) {
        let states = [
            State {
                placed: true,
                ticks: 260,
            },
            State {
                placed: true,
                ticks: -1,
            },
            LOST,
        ];
        self.next.keep_all(true);
        for from in states {
            for word in EDGES {
                self.step(from, word);
            }
        }
        self.next.keep_all(false);
        for from in states {
            for word in -33_000..=33_000 {
                self.step(from, word);
            }
        }
    }

    /// The ticks around every power of two, before 0 too: their milliseconds, and where they are no longer exact.
    fn step_around_powers_of_two(&mut self) {
        for power in 0..=63 {
            for ticks in (1i128 << power) - 70..=(1i128 << power) + 70 {
                for ticks in [ticks, -ticks] {
                    let Ok(ticks) = i64::try_from(ticks) else {
                        continue;
                    };
                    for word in EDGES {
                        for placed in [true, false] {
                            self.step(State { placed, ticks }, word);
                        }
                    }
                }
            }
        }
    }

    fn step_from_anywhere(&mut self, effort: &Effort) {
        for _ in 0..effort.at_least(300_000) {
            let ticks = self.random.number() as i64 >> self.random.below(64);
            let placed = !self.random.once_in(8);
            let word = self.word();
            self.step(State { placed, ticks }, word);
        }
    }

    /// Any word, most often a delta.
    fn word(&mut self) -> i32 {
        match self.random.below(12) {
            0 => self.random.pick(&EDGES),
            1 => self.random.number() as i32,
            2 | 3 => NOT_RECEIVED,
            4..=6 => self.random.byte().into(),
            _ => self.random.number() as i16 as i32,
        }
    }

    /// Every list of at most four words of these.
    fn walk_short_lists(&mut self) {
        const WORDS: [i32; 8] = [0, 4, -1, -32_768, 32_767, 32_768, 32_769, 32_770];
        for length in 1..=4 {
            for number in 0..8usize.pow(length) {
                let words: Vec<i32> = (0..length)
                    .map(|place| WORDS[number >> (3 * place) & 7])
                    .collect();
                for time in [0, 1, 16_777_215] {
                    self.walk(time, &words);
                }
            }
        }
    }

    fn walk_random_lists(&mut self, effort: &Effort) {
        for _ in 0..effort.at_least(3_000) {
            let time = self.random.pick(&[0, 1, 255, 8_388_608, 16_777_215]);
            let length = self.random.from_to(1, 120);
            let words: Vec<i32> = (0..length).map(|_| self.word()).collect();
            self.walk(time, &words);
            let readable = |word: &i32| is_delta(*word) || *word == NOT_RECEIVED;
            let words: Vec<i32> = words.into_iter().filter(readable).collect();
            self.walk(time, &words);
        }
    }

    /// As many words as a block can count, all of one delta: the sum is a product.
    fn walk_longest_lists(&mut self) {
        for (time, delta) in [(0, -32_768), (16_777_215, 32_767), (1, 0), (7, 250)] {
            let mut from = State {
                placed: true,
                ticks: i64::from(time) * 256,
            };
            for count in 1..=65_535 {
                let ticks = i64::from(time) * 256 + count * i64::from(delta);
                let next = State {
                    placed: true,
                    ticks,
                };
                step(
                    &mut self.whole,
                    said(Arrival::At(ticks.into()), next),
                    from,
                    delta,
                );
                from = next;
            }
        }
    }

    /// The blocks of real senders: no arrival lies farther from the one before it than its delta says.
    fn walk_traffic(&mut self) {
        for block in traffic::blocks(15) {
            let mut list = vec![0; 65_535];
            let header = ours::twcc_read(&block, &mut list);
            assert_eq!(header.number, 0, "a block of real traffic is read");
            let time = header.values[2] as u32;
            let words = &list[..header.values[4] as usize];
            let mut before = i128::from(time) * 256;
            for (arrival, word) in self.walk(time, words).into_iter().zip(words) {
                if let Arrival::At(ticks) = arrival {
                    assert_eq!(ticks - before, i128::from(*word), "a step is its delta");
                    before = ticks;
                }
            }
        }
    }
}

fn step(book: &mut Book, expected: Said, from: State, word: i32) {
    let said = ours::arrivals_next(from.placed, from.ticks, word);
    let numbers = [from.placed.into(), from.ticks.into(), word.into()];
    let kind = ["missing", "unreadable", "unplaced", "arrived"][expected.values[0] as usize];
    let case = Case::default().numbers(&numbers).kind(kind);
    book.enter(expected, said, &[], case);
}
