//! A call on the table, what is answered, and how both are written in a recording.
//!
//! A recording is lines of words. `table N C` makes a table; every other line is a call, ` = `, and
//! its answer. A handle is written generation.slot, the registry `registry`. The data of a send is
//! SEED and LENGTH, byte k being (seed + k) mod 251; its items are FIRST and COUNT, going up by one.
//! In an answer: the refusal; `value`; `data`, the bytes delivered (long ones as length and a hash);
//! `items`; `flags`; `wakes`; `releases`; `ready`, the readiness of every socket that the caller has,
//! r readable, w writable, h hung up. What is empty or 0 is left out.

use std::fmt::{self, Display, Formatter, Write as _};

#[derive(Clone, Debug, PartialEq, Eq)]
pub enum Call {
    Socket { domain: i32, ty: i32, protocol: i32 },
    Bind { h: u64, name: Vec<u8> },
    Listen { h: u64, backlog: u32 },
    Accept { h: u64 },
    Connect { h: u64, name: Vec<u8> },
    Read { h: u64, len: usize },
    Recvmsg { h: u64, len: usize, capacity: usize },
    Write { h: u64, data: Data },
    Sendmsg { h: u64, data: Data, items: Items },
    Shutdown { h: u64, how: i32 },
    Close { h: u64 },
    Readiness { h: u64 },
}

pub const NAMES: [&str; 12] = [
    "socket",
    "bind",
    "listen",
    "accept",
    "connect",
    "read",
    "recvmsg",
    "write",
    "sendmsg",
    "shutdown",
    "close",
    "readiness",
];

#[derive(Clone, Copy, Debug, PartialEq, Eq)]
pub struct Data {
    pub seed: u8,
    pub len: usize,
}

impl Data {
    pub fn bytes(self) -> Vec<u8> {
        (0..self.len).map(|k| ((self.seed as usize + k) % 251) as u8).collect()
    }
}

#[derive(Clone, Copy, Debug, PartialEq, Eq)]
pub struct Items {
    pub first: u32,
    pub count: usize,
}

impl Items {
    pub fn list(self) -> Vec<u32> {
        (0..self.count).map(|k| self.first.wrapping_add(k as u32)).collect()
    }
}

impl Call {
    /// 0 to 11, in the order of `NAMES`.
    pub fn number(&self) -> usize {
        match self {
            Call::Socket { .. } => 0,
            Call::Bind { .. } => 1,
            Call::Listen { .. } => 2,
            Call::Accept { .. } => 3,
            Call::Connect { .. } => 4,
            Call::Read { .. } => 5,
            Call::Recvmsg { .. } => 6,
            Call::Write { .. } => 7,
            Call::Sendmsg { .. } => 8,
            Call::Shutdown { .. } => 9,
            Call::Close { .. } => 10,
            Call::Readiness { .. } => 11,
        }
    }

    /// The handle that is asked; 0 for socket.
    pub fn handle(&self) -> u64 {
        match *self {
            Call::Socket { .. } => 0,
            Call::Bind { h, .. }
            | Call::Listen { h, .. }
            | Call::Accept { h }
            | Call::Connect { h, .. }
            | Call::Read { h, .. }
            | Call::Recvmsg { h, .. }
            | Call::Write { h, .. }
            | Call::Sendmsg { h, .. }
            | Call::Shutdown { h, .. }
            | Call::Close { h }
            | Call::Readiness { h } => h,
        }
    }
}

impl Call {
    /// The same call on another handle.
    pub fn on(&self, other: u64) -> Call {
        let mut call = self.clone();
        match &mut call {
            Call::Socket { .. } => {}
            Call::Bind { h, .. }
            | Call::Listen { h, .. }
            | Call::Accept { h }
            | Call::Connect { h, .. }
            | Call::Read { h, .. }
            | Call::Recvmsg { h, .. }
            | Call::Write { h, .. }
            | Call::Sendmsg { h, .. }
            | Call::Shutdown { h, .. }
            | Call::Close { h }
            | Call::Readiness { h } => *h = other,
        }
        call
    }
}

/// What a table call answers, with everything that it handed over.
#[derive(Clone, Debug, Default, PartialEq, Eq)]
pub struct Answer {
    pub refusal: u32,
    pub flags: u32,
    pub value: u64,
    pub data: Vec<u8>,
    pub items: Vec<u32>,
    pub wakes: Vec<u64>,
    pub releases: Vec<u32>,
}

impl Answer {
    pub fn refused(refusal: u32) -> Self {
        Self { refusal, ..Self::default() }
    }
}

/// An answer and the readiness of each socket after it.
#[derive(Clone, Debug, Default, PartialEq, Eq)]
pub struct Seen {
    pub answer: Answer,
    pub ready: Vec<(u64, u64)>,
}

pub struct Handle(pub u64);

impl Display for Handle {
    fn fmt(&self, f: &mut Formatter<'_>) -> fmt::Result {
        write!(f, "{}.{}", self.0 >> 16, self.0 & 0xFFFF)
    }
}

pub fn hex(bytes: &[u8]) -> String {
    if bytes.is_empty() {
        return "-".into();
    }
    bytes.iter().fold(String::new(), |mut s, b| {
        write!(s, "{b:02x}").unwrap();
        s
    })
}

pub fn unhex(text: &str) -> Option<Vec<u8>> {
    if text == "-" {
        return Some(Vec::new());
    }
    if !text.is_ascii() || !text.len().is_multiple_of(2) {
        return None;
    }
    (0..text.len() / 2).map(|i| u8::from_str_radix(&text[2 * i..2 * i + 2], 16).ok()).collect()
}

/// Bytes as hex, or from 49 bytes on their length and FNV-1a.
fn delivered(bytes: &[u8]) -> String {
    if bytes.len() <= 48 {
        return hex(bytes);
    }
    let hash = bytes.iter().fold(0xCBF2_9CE4_8422_2325u64, |h, &b| (h ^ u64::from(b)).wrapping_mul(0x100_0000_01B3));
    format!("{}:{hash:016x}", bytes.len())
}

/// Numbers by commas, runs that go up by one as first-last.
fn runs(list: &[u32]) -> String {
    let mut text = String::new();
    let mut i = 0;
    while i < list.len() {
        let mut j = i;
        while j + 1 < list.len() && list[j + 1] == list[j].wrapping_add(1) && list[j] != u32::MAX {
            j += 1;
        }
        if !text.is_empty() {
            text.push(',');
        }
        if j > i {
            write!(text, "{}-{}", list[i], list[j]).unwrap();
        } else {
            write!(text, "{}", list[i]).unwrap();
        }
        i = j + 1;
    }
    text
}

impl Display for Call {
    fn fmt(&self, f: &mut Formatter<'_>) -> fmt::Result {
        f.write_str(NAMES[self.number()])?;
        if !matches!(self, Call::Socket { .. }) {
            write!(f, " {}", Handle(self.handle()))?;
        }
        match self {
            Call::Socket { domain, ty, protocol } => write!(f, " {domain} {ty} {protocol}"),
            Call::Bind { name, .. } | Call::Connect { name, .. } => write!(f, " {}", hex(name)),
            Call::Listen { backlog, .. } => write!(f, " {backlog}"),
            Call::Read { len, .. } => write!(f, " {len}"),
            Call::Recvmsg { len, capacity, .. } => write!(f, " {len} {capacity}"),
            Call::Write { data, .. } => write!(f, " {} {}", data.seed, data.len),
            Call::Sendmsg { data, items, .. } => {
                write!(f, " {} {} {} {}", data.seed, data.len, items.first, items.count)
            }
            Call::Shutdown { how, .. } => write!(f, " {how}"),
            Call::Accept { .. } | Call::Close { .. } | Call::Readiness { .. } => Ok(()),
        }
    }
}

/// How the answer to `call` is written.
pub fn written(call: &Call, seen: &Seen) -> String {
    let a = &seen.answer;
    let mut text = a.refusal.to_string();
    if a.value != 0 {
        match call {
            Call::Socket { .. } | Call::Accept { .. } => write!(text, " value {}", Handle(a.value)).unwrap(),
            _ => write!(text, " value {}", a.value).unwrap(),
        }
    }
    if !a.data.is_empty() {
        write!(text, " data {}", delivered(&a.data)).unwrap();
    }
    if !a.items.is_empty() {
        write!(text, " items {}", runs(&a.items)).unwrap();
    }
    if a.flags != 0 {
        write!(text, " flags {}", a.flags).unwrap();
    }
    if !a.wakes.is_empty() {
        let wakes: Vec<String> =
            a.wakes.iter().map(|&w| if w == 0 { "registry".into() } else { Handle(w).to_string() }).collect();
        write!(text, " wakes {}", wakes.join(",")).unwrap();
    }
    if !a.releases.is_empty() {
        write!(text, " releases {}", runs(&a.releases)).unwrap();
    }
    if !seen.ready.is_empty() {
        text.push_str(" ready");
        for &(h, r) in &seen.ready {
            let mut letters = String::new();
            for (bit, letter) in [(1, 'r'), (2, 'w'), (4, 'h')] {
                if r & bit != 0 {
                    letters.push(letter);
                }
            }
            if r > 7 {
                write!(letters, "?{r}").unwrap();
            }
            write!(text, " {}:{}", Handle(h), if letters.is_empty() { "-" } else { &letters }).unwrap();
        }
    }
    text
}

fn handle(text: &str) -> Option<u64> {
    let (generation, slot) = text.split_once('.')?;
    let slot: u64 = slot.parse().ok()?;
    let generation: u64 = generation.parse().ok()?;
    (slot < 65_536 && generation < 1 << 48).then_some(generation << 16 | slot)
}

/// Reads a call as it is written.
pub fn parse(text: &str) -> Option<Call> {
    let words: Vec<&str> = text.split_whitespace().collect();
    let (&name, rest) = words.split_first()?;
    if name == "socket" {
        let [domain, ty, protocol] = rest else { return None };
        return Some(Call::Socket {
            domain: domain.parse().ok()?,
            ty: ty.parse().ok()?,
            protocol: protocol.parse().ok()?,
        });
    }
    let (&first, rest) = rest.split_first()?;
    let h = handle(first)?;
    Some(match (name, rest) {
        ("bind", [name]) => Call::Bind { h, name: unhex(name)? },
        ("connect", [name]) => Call::Connect { h, name: unhex(name)? },
        ("listen", [backlog]) => Call::Listen { h, backlog: backlog.parse().ok()? },
        ("accept", []) => Call::Accept { h },
        ("read", [len]) => Call::Read { h, len: len.parse().ok()? },
        ("recvmsg", [len, capacity]) => Call::Recvmsg { h, len: len.parse().ok()?, capacity: capacity.parse().ok()? },
        ("write", [seed, len]) => Call::Write { h, data: Data { seed: seed.parse().ok()?, len: len.parse().ok()? } },
        ("sendmsg", [seed, len, first, count]) => Call::Sendmsg {
            h,
            data: Data { seed: seed.parse().ok()?, len: len.parse().ok()? },
            items: Items { first: first.parse().ok()?, count: count.parse().ok()? },
        },
        ("shutdown", [how]) => Call::Shutdown { h, how: how.parse().ok()? },
        ("close", []) => Call::Close { h },
        ("readiness", []) => Call::Readiness { h },
        _ => return None,
    })
}
