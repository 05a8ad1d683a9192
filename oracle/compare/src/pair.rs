//! The original and the library side by side: every answer, count, byte, item, release, wake, and the
//! readiness of every socket after each call. And demand 3 as a property: who was told EAGAIN and
//! sleeps is notified by the call after which it would be answered otherwise.

use std::collections::HashMap;

use crate::call::{Answer, Call, NAMES, Seen, written};
use crate::library::Table;
use crate::mutants::Change;
use crate::original::{Driver, driver};
use crate::random::Sequence;
use crate::rng::Rng;

/// How the two sides are made.
pub type Make<'a> = &'a dyn Fn(usize, usize) -> Box<dyn Driver>;

pub fn real(n: usize, c: usize) -> Box<dyn Driver> {
    driver(n, c).expect("a build of the original of that capacity")
}

pub struct Pair {
    pub original: Box<dyn Driver>,
    pub library: Table,
    change: Option<Change>,
    pub open: Vec<u64>,
    sleepers: Vec<Call>,
    /// How many calls slept, how many of them were woken, and how often one was asked again.
    pub slept: [u64; 3],
}

/// Both sides of the call at which they part.
pub struct Difference {
    pub original: String,
    pub library: String,
}

impl Pair {
    pub fn new(make: Make, n: usize, c: usize, change: Option<Change>) -> Self {
        Self {
            original: make(n, c),
            library: Table::new(n, c),
            change,
            open: Vec::new(),
            sleepers: Vec::new(),
            slept: [0; 3],
        }
    }

    /// A call that was compared before.
    pub fn bring(&mut self, call: &Call) -> Result<(), String> {
        self.library.call(call)?;
        let answer = self.original.call(call);
        self.opened(call, &answer);
        Ok(())
    }

    fn opened(&mut self, call: &Call, answer: &Answer) {
        match (call, answer.refusal) {
            (Call::Socket { .. } | Call::Accept { .. }, 0) => self.open.push(answer.value),
            (Call::Close { h }, 0) => self.open.retain(|o| o != h),
            _ => {}
        }
    }

    /// Nobody sleeps.
    pub fn awake(&mut self) {
        self.sleepers.clear();
    }

    fn ours(&mut self, call: &Call) -> Result<Answer, String> {
        let mut answer = self.library.call(call)?;
        if let Some(change) = self.change {
            change(call, &mut answer);
        }
        Ok(answer)
    }

    fn ours_seen(&mut self, answer: Answer) -> Result<Seen, String> {
        let mut ready = Vec::with_capacity(self.open.len());
        for i in 0..self.open.len() {
            let h = self.open[i];
            let a = self.ours(&Call::Readiness { h })?;
            if a.refusal != 0 {
                return Err(format!("readiness of an open socket is refused with {}", a.refusal));
            }
            ready.push((h, a.value));
        }
        Ok(Seen { answer, ready })
    }

    pub fn step(&mut self, call: &Call) -> Result<Seen, Difference> {
        let answer = self.original.call(call);
        self.opened(call, &answer);
        let ready = self.open.iter().map(|&h| (h, self.original.ready(h))).collect();
        let seen = Seen { answer, ready };
        let ours = self.ours(call);
        let said = match ours {
            Err(said) => said,
            Ok(answer) if answer != seen.answer => written(call, &Seen { answer, ready: Vec::new() }),
            Ok(answer) => match self.ours_seen(answer) {
                Ok(ours) if ours == seen => match self.sleep(call, &seen.answer) {
                    Ok(()) => return Ok(seen),
                    Err(said) => said,
                },
                Ok(ours) => written(call, &ours),
                Err(said) => said,
            },
        };
        Err(Difference { original: written(call, &seen), library: said })
    }

    /// Demand 3. A call that answers EAGAIN changes nothing, so a sleeper's call is simply made again.
    fn sleep(&mut self, call: &Call, answer: &Answer) -> Result<(), String> {
        let key = |s: &Call| if matches!(s, Call::Connect { .. }) { 0 } else { s.handle() };
        if answer.refusal == 0 {
            let slept = &mut self.slept;
            self.sleepers.retain(|s| {
                let same = s.handle() == call.handle();
                let left = match call {
                    Call::Close { .. } => same,
                    Call::Bind { .. } | Call::Connect { .. } => same && matches!(s, Call::Connect { .. }),
                    _ => false,
                };
                let woken = !left && answer.wakes.contains(&key(s));
                slept[1] += u64::from(woken);
                !left && !woken
            });
            for i in 0..self.sleepers.len() {
                self.slept[2] += 1;
                let again = self.library.call(&self.sleepers[i])?;
                if again.refusal != 8 {
                    return Err(format!("{} was told 8 and sleeps, and nobody wakes it", self.sleepers[i]));
                }
            }
        } else if answer.refusal == 8 && self.sleepers.len() < 8 && !self.sleepers.contains(call) {
            self.slept[0] += 1;
            self.sleepers.push(call.clone());
        }
        Ok(())
    }
}

/// A call of a sequence that is being shortened: its handle is the one that another call answered.
#[derive(Clone)]
struct Step {
    id: usize,
    call: Call,
    about: Option<usize>,
}

/// Which call of the sequence gave each handle.
fn steps(make: Make, n: usize, c: usize, calls: &[Call]) -> Vec<Step> {
    let mut original = make(n, c);
    let mut given: HashMap<u64, usize> = HashMap::new();
    let step = |(id, call): (usize, &Call)| {
        let about = given.get(&call.handle()).copied();
        let answer = original.call(call);
        if answer.refusal == 0 && matches!(call, Call::Socket { .. } | Call::Accept { .. }) {
            given.insert(answer.value, id);
        }
        Step { id, call: call.clone(), about }
    };
    calls.iter().enumerate().map(step).collect()
}

/// The calls as they were made with what was seen, and the call at which the two sides part.
type Run = (Vec<(Call, Seen)>, Option<(Call, Difference)>);

/// Runs steps on fresh sides.
fn parts(make: Make, n: usize, c: usize, change: Option<Change>, steps: &[Step]) -> Run {
    let mut pair = Pair::new(make, n, c, change);
    pair.library.look = 1;
    let mut given: HashMap<usize, u64> = HashMap::new();
    let mut made = Vec::new();
    for step in steps {
        let call = match step.about.and_then(|id| given.get(&id)) {
            Some(&h) => step.call.on(h),
            None => step.call.clone(),
        };
        match pair.step(&call) {
            Err(d) => return (made, Some((call, d))),
            Ok(seen) => {
                if seen.answer.refusal == 0 && matches!(call, Call::Socket { .. } | Call::Accept { .. }) {
                    given.insert(step.id, seen.answer.value);
                }
                made.push((call, seen));
            }
        }
    }
    (made, None)
}

/// The shortest sequence found that still parts, as a recording.
pub fn shrunk(make: Make, n: usize, c: usize, change: Option<Change>, calls: &[Call]) -> String {
    let mut best = steps(make, n, c, calls);
    let (made, parted) = parts(make, n, c, change, &best);
    if parted.is_none() {
        return "the difference does not come back when it is run again\n".into();
    }
    best.truncate(made.len() + 1);
    let mut chunk = best.len() / 2;
    while chunk > 0 {
        let (mut at, mut fewer_now) = (0, false);
        while at < best.len() {
            let mut fewer = best.clone();
            fewer.drain(at..(at + chunk).min(best.len()));
            match parts(make, n, c, change, &fewer) {
                (made, Some(_)) => {
                    fewer.truncate(made.len() + 1);
                    best = fewer;
                    fewer_now = true;
                }
                (_, None) => at += chunk,
            }
        }
        if chunk > 1 || !fewer_now {
            chunk /= 2;
        }
    }
    let (made, parted) = parts(make, n, c, change, &best);
    let mut text = format!("table {n} {c}\n");
    for (call, seen) in &made {
        text += &format!("{call} = {}\n", written(call, seen));
    }
    if let Some((call, d)) = parted {
        text += &format!("{call} = {}\n# the library: {}\n", d.original, d.library);
    }
    text
}

/// How often each call answered each number.
#[derive(Default)]
pub struct Counts {
    pub calls: u64,
    pub sequences: u64,
    pub of: [[u64; 20]; 12],
    /// Full inboxes met, 256 items met, groups cut, releases, several wakes.
    pub deep: [u64; 5],
    pub slept: [u64; 3],
}

impl Counts {
    fn count(&mut self, call: &Call, a: &Answer) {
        self.calls += 1;
        self.of[call.number()][a.refusal as usize] += 1;
        let sends = matches!(call, Call::Write { .. } | Call::Sendmsg { .. });
        self.deep[0] += u64::from(sends && a.refusal == 8);
        self.deep[1] += u64::from(a.refusal == 11);
        if let Call::Recvmsg { capacity, .. } = call {
            self.deep[2] += u64::from(a.items.len() == *capacity && a.flags == 8);
        }
        self.deep[3] += u64::from(a.releases.len() > 1);
        self.deep[4] += u64::from(a.wakes.len() > 2);
    }

    /// What was met; the whole of it with how often each call answered each number.
    pub fn print(&self, whole: bool) {
        for (name, of) in NAMES.iter().zip(&self.of).filter(|_| whole) {
            let seen: Vec<String> =
                of.iter().enumerate().filter(|(_, k)| **k > 0).map(|(no, k)| format!("{no}: {k}")).collect();
            println!("  {name:<9} {}", seen.join(", "));
        }
        let [full, items, cut, releases, wakes] = self.deep;
        println!(
            "  sends into a full inbox {full}, above 256 items {items}, groups cut by a short list {cut}, \
             calls with several releases {releases}, with three or more wakes {wakes}"
        );
        let [slept, woken, again] = self.slept;
        println!("  no lost wake: {slept} callers told 8 slept, {woken} were woken, {again} times one still got 8");
    }

    /// The numbers that a rule names and the original can answer, seen fewer than `least` times.
    pub fn rare(&self, least: u64) -> Vec<String> {
        const NAMED: [&[usize]; 12] = [
            &[0, 12, 14, 15, 16],
            &[0, 1, 2, 3, 17],
            &[0, 1, 2, 4],
            &[0, 1, 2, 8],
            &[0, 1, 2, 5, 6, 7, 8, 16, 17],
            &[0, 1, 8, 9],
            &[0, 1, 2, 8, 9],
            &[0, 1, 8, 9, 10],
            &[0, 1, 2, 8, 9, 10, 11],
            &[0, 1, 2, 9],
            &[0, 1],
            &[0, 1],
        ];
        let mut rare = Vec::new();
        for (call, named) in NAMED.iter().enumerate() {
            for &no in *named {
                if self.of[call][no] < least {
                    rare.push(format!("{} {no}: {}", NAMES[call], self.of[call][no]));
                }
            }
        }
        rare
    }
}

/// One random sequence; a recording of the shortest difference.
pub fn sequence(
    rng: &mut Rng,
    make: Make,
    capacities: &[usize],
    change: Option<Change>,
    counts: &mut Counts,
) -> Result<(), (usize, usize, Vec<Call>)> {
    let mut sequence = Sequence::new(rng, capacities);
    let mut pair = Pair::new(make, sequence.n, sequence.c, change);
    let mut calls = Vec::with_capacity(sequence.length);
    counts.sequences += 1;
    for _ in 0..sequence.length {
        let call = sequence.next(rng);
        let seen = pair.step(&call);
        calls.push(call);
        let call = &calls[calls.len() - 1];
        match seen {
            Err(_) => return Err((sequence.n, sequence.c, calls)),
            Ok(seen) => {
                sequence.told(call, &seen.answer);
                counts.count(call, &seen.answer);
            }
        }
    }
    for (sum, k) in counts.slept.iter_mut().zip(pair.slept) {
        *sum += k;
    }
    Ok(())
}
