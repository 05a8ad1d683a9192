//! Contests: the same work by several hands, sampled in turns.
//!
//! A sample is as many rounds as take about 40 microseconds. In a pass every hand gives a sample in turn, and who
//! begins changes each time; what counts is the median, of times and of the ratios of samples that stand side by side.

use std::hint::black_box;
use std::time::{Duration, Instant};

/// Who does the work.
#[derive(Clone, Copy, Debug, PartialEq, Eq)]
pub enum Who {
    Ours,
    Rust,
    Linux,
    Memcpy,
    /// Ours, but only the check that every call begins with.
    Check,
}

/// Nanoseconds, or a ratio: the median, and between which values the middle half lies.
#[derive(Clone, Copy, Debug)]
pub struct Spread {
    pub low: f64,
    pub mid: f64,
    pub high: f64,
}

impl Spread {
    fn of(samples: &[f64]) -> Self {
        let mut sorted = samples.to_vec();
        sorted.sort_by(f64::total_cmp);
        let at = |part: f64| sorted[((sorted.len() - 1) as f64 * part) as usize];
        Self { low: at(0.25), mid: at(0.5), high: at(0.75) }
    }
}

struct Hand {
    who: Who,
    run: Box<dyn FnMut(u32)>,
    rounds: u32,
    /// Nanoseconds a round.
    samples: Vec<f64>,
}

impl Hand {
    fn sample(&mut self) -> f64 {
        let start = Instant::now();
        (self.run)(self.rounds);
        start.elapsed().as_nanos() as f64 / f64::from(self.rounds)
    }

    /// Rounds for a sample of some 40 microseconds.
    fn set_rounds(&mut self) {
        let enough = Duration::from_micros(40);
        self.rounds = 1;
        (self.run)(1);
        loop {
            let start = Instant::now();
            (self.run)(self.rounds);
            if start.elapsed() >= enough || self.rounds >= 1 << 16 {
                return;
            }
            self.rounds *= 2;
        }
    }
}

/// The same work by several hands.
#[derive(Default)]
pub struct Contest {
    hands: Vec<Hand>,
}

impl Contest {
    pub fn new() -> Self {
        Self::default()
    }

    /// One more hand; `f` is one round of the work.
    pub fn with(mut self, who: Who, mut f: impl FnMut() + 'static) -> Self {
        let run = Box::new(move |rounds| {
            for _ in 0..rounds {
                f();
            }
        });
        self.hands.push(Hand { who, run, rounds: 0, samples: Vec::new() });
        self
    }

    /// Samples of all hands in turn, after some that warm caches and clocks up.
    fn pass(&mut self, turns: usize) {
        for hand in &mut self.hands {
            if hand.rounds == 0 {
                hand.set_rounds();
            }
        }
        let first: Vec<f64> = self.hands.iter_mut().map(Hand::sample).collect();
        if first.iter().any(|&time| time > 1_000_000.0) {
            // Of what takes milliseconds, one sample a pass.
            self.hands.iter_mut().zip(first).for_each(|(hand, sample)| hand.samples.push(sample));
            return;
        }
        let (warm, count) = (2, self.hands.len());
        for turn in 0..warm + turns {
            for place in 0..count {
                let hand = &mut self.hands[(turn + place) % count];
                let sample = hand.sample();
                if turn >= warm {
                    hand.samples.push(sample);
                }
            }
        }
    }

    fn of(&self, who: Who) -> Option<&Hand> {
        self.hands.iter().find(|hand| hand.who == who && !hand.samples.is_empty())
    }

    /// Nanoseconds a round.
    pub fn time(&self, who: Who) -> Option<Spread> {
        self.of(who).map(|hand| Spread::of(&hand.samples))
    }

    /// Ours, which every contest has.
    pub fn ours(&self) -> f64 {
        self.time(Who::Ours).map_or(f64::NAN, |spread| spread.mid)
    }

    /// Ours against another's, sample by sample.
    pub fn ratio(&self, other: Who) -> Option<Spread> {
        self.between(Who::Ours, other)
    }

    /// One hand's samples against another's, taken side by side.
    pub fn between(&self, one: Who, other: Who) -> Option<Spread> {
        let (one, other) = (self.of(one)?, self.of(other)?);
        let ratios: Vec<f64> = one.samples.iter().zip(&other.samples).map(|(a, b)| a / b).collect();
        Some(Spread::of(&ratios))
    }
}

/// How often is sampled.
#[derive(Clone, Copy)]
pub struct Pace {
    pub passes: usize,
    pub turns: usize,
    pub pause: Duration,
}

impl Pace {
    pub const FULL: Self = Self { passes: 20, turns: 51, pause: Duration::from_millis(100) };
    pub const QUICK: Self = Self { passes: 3, turns: 7, pause: Duration::ZERO };

    /// All contests, in passes with pauses between, so that a neighbour's burst does not decide.
    pub fn run<'a>(self, contests: impl IntoIterator<Item = &'a mut Contest>) {
        let mut contests: Vec<_> = contests.into_iter().collect();
        for _ in 0..self.passes {
            for contest in &mut contests {
                contest.pass(self.turns);
            }
            std::thread::sleep(self.pause);
        }
    }

    pub fn samples(self) -> usize {
        self.passes * self.turns
    }
}

/// The C library's memcpy, which the compiler may not leave out.
#[inline(never)]
pub fn memcpy(from: &[u8], to: &mut [u8]) {
    to.copy_from_slice(black_box(from));
    black_box(to);
}
