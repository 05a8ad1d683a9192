//! Random sequences of calls that reach deep states. A sequence has a mood (what it does much of), and
//! the generator remembers what the answers told it, so that most calls are about something.

use crate::call::{Answer, Call, Data, Items};
use crate::rng::Rng;

#[derive(Clone, Copy, PartialEq)]
enum Kind {
    Unbound,
    Bound,
    Listening,
    Connected,
}

/// What a sequence does much of.
#[derive(Clone, Copy)]
enum Mood {
    Even,
    /// Bytes and items, few closes.
    Moving,
    /// Hundreds of items at once.
    Items,
    /// Names, backlogs, connects and accepts.
    Calling,
    /// Closes and slots used again.
    Ending,
}

#[derive(Clone)]
struct Open {
    h: u64,
    kind: Kind,
    name: Vec<u8>,
    /// Connects that were accepted and are not yet taken up.
    pending: usize,
}

pub struct Sequence {
    pub n: usize,
    pub c: usize,
    pub length: usize,
    mood: Mood,
    names: usize,
    /// How many connected sockets it works towards.
    target: usize,
    open: Vec<Open>,
    /// Handles once seen: closed ones, and servers that only a wake told of.
    stale: Vec<u64>,
    next_item: u32,
    next_byte: u8,
}

/// How often each call is chosen, in the order of `NAMES`.
const WEIGHTS: [[usize; 12]; 5] = [
    [10, 6, 8, 10, 12, 12, 12, 10, 14, 5, 6, 1],
    [4, 2, 2, 4, 6, 20, 22, 14, 26, 2, 1, 1],
    [3, 2, 2, 4, 5, 8, 14, 4, 40, 2, 1, 1],
    [16, 14, 18, 14, 24, 3, 3, 3, 4, 2, 8, 1],
    [18, 6, 8, 10, 20, 5, 5, 5, 12, 6, 22, 1],
];

impl Sequence {
    pub fn new(rng: &mut Rng, capacities: &[usize]) -> Self {
        let c = rng.pick(capacities);
        let mood = rng.pick(&[Mood::Even, Mood::Moving, Mood::Moving, Mood::Items, Mood::Calling, Mood::Ending]);
        let n = if rng.chance(1, 40) { 40 } else { rng.pick(&[1, 2, 3, 3, 4, 4, 5, 6, 6, 8, 12]) };
        let length = if c > 1_000 { 40 + rng.below(60) } else { 40 + rng.below(200) };
        Self {
            n,
            c,
            length,
            mood,
            names: 1 + rng.below(3),
            target: if rng.chance(1, 8) { 0 } else { (2 + 2 * rng.below(3 + n / 8)).min((n - 1) / 2 * 2) },
            open: Vec::new(),
            stale: Vec::new(),
            next_item: rng.pick(&[0, 1, 1000, u32::MAX - 300]),
            next_byte: rng.next() as u8,
        }
    }

    fn name(&mut self, rng: &mut Rng) -> Vec<u8> {
        let all: [Vec<u8>; 4] = [b"/a".to_vec(), b"/b".to_vec(), vec![0, 0xFF, b'/'], vec![b'x'; 255]];
        match rng.below(60) {
            0 => Vec::new(),
            1 => vec![b'x'; 256 + rng.below(3)],
            2 => vec![b'x'; 254],
            3 => b"/".to_vec(),
            _ => {
                let rare = usize::from(rng.chance(1, 20));
                all[rng.below(self.names + rare)].clone()
            }
        }
    }

    fn size(&mut self, rng: &mut Rng) -> usize {
        let c = self.c;
        match rng.below(12) {
            0 => 0,
            1 | 2 => 1,
            3 => 2,
            4 => 3,
            5 => c - 1,
            6 => c,
            7 => c + 1,
            8 => c / 2 + 1,
            _ => rng.below(c + 2),
        }
    }

    fn item_count(&mut self, rng: &mut Rng) -> usize {
        let many = matches!(self.mood, Mood::Items);
        match rng.below(if many { 12 } else { 40 }) {
            0 => rng.pick(&[254, 255, 256, 257, 300]),
            1 => 100 + rng.below(60),
            2 => 60 + rng.below(70),
            3 => 16,
            4 => 6 + rng.below(2),
            k if k < 8 => 2 + rng.below(4),
            k if k < 20 => 1,
            _ => 0,
        }
    }

    fn handle(&mut self, rng: &mut Rng, wanted: &[Kind]) -> u64 {
        if rng.chance(1, 25) || self.open.is_empty() {
            let one = if self.stale.is_empty() { 0 } else { self.stale[rng.below(self.stale.len())] };
            return match rng.below(8) {
                0 => rng.next(),
                1 => one + (1 << 48),
                2 => one + 65_536,
                3 => 65_536 + self.n as u64,
                4 => rng.below(self.n) as u64,
                _ => one,
            };
        }
        if rng.chance(7, 8) {
            let fit: Vec<u64> = self.open.iter().filter(|o| wanted.contains(&o.kind)).map(|o| o.h).collect();
            if !fit.is_empty() {
                return fit[rng.below(fit.len())];
            }
        }
        self.open[rng.below(self.open.len())].h
    }

    fn data(&mut self, len: usize) -> Data {
        let data = Data { seed: self.next_byte % 251, len };
        self.next_byte = self.next_byte.wrapping_add(len as u8).wrapping_add(1);
        data
    }

    fn items(&mut self, count: usize) -> Items {
        let items = Items { first: self.next_item, count };
        self.next_item = self.next_item.wrapping_add(count as u32);
        items
    }

    fn first(&self, kind: Kind) -> Option<&Open> {
        self.open.iter().find(|o| o.kind == kind)
    }

    /// A step towards one more connection.
    fn towards(&mut self, rng: &mut Rng) -> Call {
        let socket = Call::Socket { domain: 1, ty: 1, protocol: 0 };
        // Long queues where it is about calling.
        let patient = if matches!(self.mood, Mood::Calling) { 6 } else { 2 };
        if let Some(o) = self.open.iter().find(|o| o.pending > 0)
            && rng.chance(1, patient)
        {
            return Call::Accept { h: o.h };
        }
        if let Some(to) = self.first(Kind::Listening) {
            if rng.chance(1, 8) {
                let more = if patient > 2 { 8 } else { 3 };
                return Call::Listen { h: to.h, backlog: 1 + rng.below(more) as u32 };
            }
            return match self.first(Kind::Unbound) {
                Some(o) => Call::Connect { h: o.h, name: to.name.clone() },
                None => socket,
            };
        }
        if let Some(o) = self.first(Kind::Bound) {
            return Call::Listen { h: o.h, backlog: rng.below(4) as u32 };
        }
        match self.first(Kind::Unbound) {
            Some(o) => Call::Bind { h: o.h, name: b"/a".to_vec() },
            None => socket,
        }
    }

    pub fn next(&mut self, rng: &mut Rng) -> Call {
        let connected = self.open.iter().filter(|o| o.kind == Kind::Connected).count();
        if connected < self.target && rng.chance(1, 2) {
            return self.towards(rng);
        }
        let weights = &WEIGHTS[self.mood as usize];
        let mut kind = 0;
        // Moving bytes where nothing is connected is tried, but seldom.
        for _ in 0..4 {
            let mut at = rng.below(weights.iter().sum());
            kind = 0;
            while at >= weights[kind] {
                at -= weights[kind];
                kind += 1;
            }
            if connected > 0 || !(5..10).contains(&kind) {
                break;
            }
        }
        if self.open.len() < 2 && rng.chance(1, 2) {
            kind = 0;
        }
        use Kind::{Bound, Connected, Listening, Unbound};
        match kind {
            0 => {
                let domain = if rng.chance(1, 30) { rng.pick(&[0, 2, -1, 65_537]) } else { 1 };
                let ty = if rng.chance(1, 30) { rng.pick(&[0, 2, 5, 65_537]) } else { 1 };
                let protocol = if rng.chance(1, 30) { rng.pick(&[1, -1, i32::MIN]) } else { 0 };
                Call::Socket { domain, ty, protocol }
            }
            1 => Call::Bind { h: self.handle(rng, &[Unbound]), name: self.name(rng) },
            2 => {
                let backlog = if rng.chance(1, 20) { rng.pick(&[128, u32::MAX]) } else { rng.below(4) as u32 };
                Call::Listen { h: self.handle(rng, &[Bound, Listening]), backlog }
            }
            3 => Call::Accept { h: self.handle(rng, &[Listening]) },
            4 => Call::Connect { h: self.handle(rng, &[Unbound]), name: self.name(rng) },
            5 => Call::Read { h: self.handle(rng, &[Connected]), len: self.size(rng) },
            6 => {
                let capacity = rng.pick(&[0, 0, 1, 2, 5, 16, 256, 300]);
                Call::Recvmsg { h: self.handle(rng, &[Connected]), len: self.size(rng), capacity }
            }
            7 => {
                let len = self.size(rng);
                Call::Write { h: self.handle(rng, &[Connected]), data: self.data(len) }
            }
            8 => {
                let count = self.item_count(rng);
                // Many items want bytes that stay: short sends.
                let len = if count > 50 && rng.chance(5, 6) { 1 } else { self.size(rng) };
                Call::Sendmsg { h: self.handle(rng, &[Connected]), data: self.data(len), items: self.items(count) }
            }
            9 => {
                let how = if rng.chance(1, 15) { rng.pick(&[3, -1, i32::MAX]) } else { rng.below(3) as i32 };
                Call::Shutdown { h: self.handle(rng, &[Connected]), how }
            }
            10 => match self.open.iter().find(|o| o.pending > 1) {
                Some(o) if rng.chance(1, 2) => Call::Close { h: o.h },
                _ => Call::Close { h: self.handle(rng, &[Unbound, Bound, Listening, Connected]) },
            },
            _ => Call::Readiness { h: self.handle(rng, &[Listening, Connected]) },
        }
    }

    /// Remembers what the answer told.
    pub fn told(&mut self, call: &Call, answer: &Answer) {
        for &w in &answer.wakes {
            if w != 0 && !self.open.iter().any(|o| o.h == w) {
                self.stale.push(w);
            }
        }
        if self.stale.len() > 12 {
            self.stale.remove(0);
        }
        if answer.refusal != 0 {
            return;
        }
        let h = call.handle();
        let fresh = |h, kind| Open { h, kind, name: Vec::new(), pending: 0 };
        match call {
            Call::Socket { .. } => self.open.push(fresh(answer.value, Kind::Unbound)),
            Call::Accept { .. } => {
                self.open.push(fresh(answer.value, Kind::Connected));
                if let Some(o) = self.open.iter_mut().find(|o| o.h == h) {
                    o.pending = o.pending.saturating_sub(1);
                }
            }
            Call::Close { .. } => {
                self.open.retain(|o| o.h != h);
                self.stale.push(h);
            }
            Call::Bind { name, .. } => {
                if let Some(o) = self.open.iter_mut().find(|o| o.h == h) {
                    (o.kind, o.name) = (Kind::Bound, name.clone());
                }
            }
            Call::Listen { .. } => {
                if let Some(o) = self.open.iter_mut().find(|o| o.h == h) {
                    o.kind = Kind::Listening;
                }
            }
            Call::Connect { name, .. } => {
                for o in &mut self.open {
                    if o.h == h {
                        o.kind = Kind::Connected;
                    } else if o.kind == Kind::Listening && o.name == *name {
                        o.pending += 1;
                    }
                }
            }
            _ => {}
        }
    }
}
