//! Every reachable state of a small table, and every call at each of them. States are told apart by
//! books kept from the answers, up to renaming of generations, items and byte values.

use std::collections::HashMap;
use std::time::Instant;

use crate::call::{Answer, Call, Data, Items};
use crate::pair::{Pair, real, shrunk};

#[derive(Clone, PartialEq, Eq, Hash)]
enum State {
    Closed,
    Unbound,
    Bound(u8),
    Listening {
        name: u8,
        backlog: u32,
        queue: Vec<usize>,
    },
    Connected {
        peer: Option<usize>,
        pending: bool,
        queued: usize,
        groups: Vec<(usize, usize)>,
        inbox_closed: bool,
        outbox_closed: bool,
    },
}

/// The books: what each slot holds.
#[derive(Clone, PartialEq, Eq, Hash)]
struct Books(Vec<State>);

/// Generations stand beside the books: they do not tell states apart.
#[derive(Clone)]
struct Node {
    books: Books,
    generations: Vec<u64>,
    parent: usize,
    call: Option<Call>,
}

fn slot(h: u64) -> usize {
    (h & 0xFFFF) as usize
}

impl Node {
    fn handle(&self, slot: usize) -> u64 {
        self.generations[slot] << 16 | slot as u64
    }

    fn free(&self) -> usize {
        self.books.0.iter().position(|s| *s == State::Closed).expect("a free slot, as the call was accepted")
    }

    fn connected(peer: usize, pending: bool) -> State {
        let groups = Vec::new();
        State::Connected { peer: Some(peer), pending, queued: 0, groups, inbox_closed: false, outbox_closed: false }
    }

    fn close(&mut self, at: usize) {
        match std::mem::replace(&mut self.books.0[at], State::Closed) {
            State::Listening { queue, .. } => queue.into_iter().for_each(|s| self.close(s)),
            State::Connected { peer: Some(p), .. } => {
                if let State::Connected { peer, .. } = &mut self.books.0[p] {
                    *peer = None;
                }
            }
            _ => {}
        }
    }

    /// What an accepted call did.
    fn after(&self, call: &Call, a: &Answer) -> Node {
        let mut next = self.clone();
        let at = slot(call.handle());
        match call {
            Call::Socket { .. } => {
                next.generations[slot(a.value)] += 1;
                next.books.0[slot(a.value)] = State::Unbound;
            }
            Call::Bind { name, .. } => next.books.0[at] = State::Bound(name[1]),
            Call::Listen { backlog, .. } => match &mut next.books.0[at] {
                State::Bound(name) => {
                    next.books.0[at] = State::Listening { name: *name, backlog: *backlog, queue: Vec::new() }
                }
                State::Listening { backlog: held, .. } => *held = *backlog,
                _ => panic!("listen against the books"),
            },
            Call::Accept { .. } => {
                let State::Listening { queue, .. } = &mut next.books.0[at] else { panic!("accept against the books") };
                let server = queue.remove(0);
                let State::Connected { pending, .. } = &mut next.books.0[server] else { panic!("no server") };
                *pending = false;
            }
            Call::Connect { name, .. } => {
                let server = self.free();
                next.generations[server] += 1;
                next.books.0[server] = Node::connected(at, true);
                next.books.0[at] = Node::connected(server, false);
                for state in &mut next.books.0 {
                    if let State::Listening { name: held, queue, .. } = state
                        && *held == name[1]
                    {
                        queue.push(server);
                    }
                }
            }
            Call::Read { .. } | Call::Recvmsg { .. } => {
                if let State::Connected { queued, groups, .. } = &mut next.books.0[at] {
                    let moved = a.value as usize;
                    *queued -= moved;
                    groups.retain(|g| g.0 != 0);
                    groups.iter_mut().for_each(|g| g.0 -= moved);
                }
            }
            Call::Write { .. } | Call::Sendmsg { .. } => {
                let State::Connected { peer: Some(p), .. } = next.books.0[at] else { panic!("send against the books") };
                let count = if let Call::Sendmsg { items, .. } = call { items.count } else { 0 };
                let State::Connected { queued, groups, .. } = &mut next.books.0[p] else { panic!("no peer") };
                if count > 0 {
                    groups.push((*queued, count));
                }
                *queued += a.value as usize;
            }
            Call::Shutdown { how, .. } => {
                let State::Connected { peer, queued, groups, inbox_closed, outbox_closed, .. } = &mut next.books.0[at]
                else {
                    panic!("shutdown against the books")
                };
                let (read, write) = (*how != 1, *how != 0);
                if read {
                    *queued = 0;
                    groups.clear();
                }
                *inbox_closed |= read;
                *outbox_closed |= write;
                if let Some(p) = *peer
                    && let State::Connected { inbox_closed, outbox_closed, .. } = &mut next.books.0[p]
                {
                    *inbox_closed |= write;
                    *outbox_closed |= read;
                }
            }
            Call::Close { .. } => next.close(at),
            Call::Readiness { .. } => {}
        }
        next
    }

    /// Every call that is made at this state; refused handles too.
    fn calls(&self, c: usize, most_items: usize) -> Vec<Call> {
        let mut calls =
            vec![Call::Socket { domain: 1, ty: 1, protocol: 0 }, Call::Socket { domain: 2, ty: 1, protocol: 0 }];
        let names = [b"/a".to_vec(), b"/b".to_vec()];
        for s in 0..self.books.0.len() {
            let h = self.handle(s);
            let given = match self.books.0[s] {
                State::Closed => false,
                State::Connected { pending, .. } => !pending,
                _ => true,
            };
            if !given {
                calls.extend([
                    Call::Read { h, len: 1 },
                    Call::Close { h },
                    Call::Connect { h, name: names[0].clone() },
                    Call::Write { h, data: Data { seed: 1, len: 1 } },
                    Call::Readiness { h },
                ]);
                continue;
            }
            for name in &names {
                calls.push(Call::Bind { h, name: name.clone() });
                calls.push(Call::Connect { h, name: name.clone() });
            }
            calls.extend((0..3).map(|backlog| Call::Listen { h, backlog }));
            calls.push(Call::Accept { h });
            for len in 0..=c + 1 {
                calls.push(Call::Read { h, len });
                calls.push(Call::Write { h, data: Data { seed: 7, len } });
                for capacity in 0..=most_items {
                    calls.push(Call::Recvmsg { h, len, capacity });
                }
                for count in 1..=most_items {
                    let items = Items { first: 50 + count as u32, count };
                    calls.push(Call::Sendmsg { h, data: Data { seed: 9, len }, items });
                }
            }
            calls.extend((0..4).map(|how| Call::Shutdown { h, how }));
            calls.push(Call::Close { h });
            calls.push(Call::Readiness { h });
        }
        calls
    }
}

fn path(nodes: &[Node], mut at: usize) -> Vec<Call> {
    let mut calls = Vec::new();
    while let Some(call) = &nodes[at].call {
        calls.push(call.clone());
        at = nodes[at].parent;
    }
    calls.reverse();
    calls
}

/// The original at the state, by the calls that lead there.
fn brought(n: usize, c: usize, calls: &[Call]) -> Box<dyn crate::original::Driver> {
    let mut original = real(n, c);
    for call in calls {
        original.call(call);
    }
    original
}

/// Walks all states; how many states and calls there were, or a recording of a difference.
pub fn all(n: usize, c: usize, most_items: usize, limit: usize) -> Result<(usize, u64), String> {
    let root = Node { books: Books(vec![State::Closed; n]), generations: vec![0; n], parent: 0, call: None };
    let mut seen: HashMap<Books, ()> = HashMap::from([(root.books.clone(), ())]);
    let mut nodes = vec![root];
    let (mut at, mut compared) = (0, 0u64);
    let mut told = Instant::now();
    while at < nodes.len() {
        if told.elapsed().as_secs() >= 5 {
            eprintln!("  {at} of {} states, {compared} calls", nodes.len());
            told = Instant::now();
        }
        let way = path(&nodes, at);
        // The way here was compared when it was found.
        let mut pair = Pair::new(&real, n, c, None);
        for call in &way {
            pair.bring(call)?;
        }
        pair.library.look = 2;
        let (kept, open) = (pair.library.keep(), pair.open.clone());
        for call in nodes[at].calls(c, most_items) {
            compared += 1;
            let done = pair.step(&call);
            let Ok(done) = done else {
                let mut calls = way.clone();
                calls.push(call);
                return Err(shrunk(&real, n, c, None, &calls));
            };
            let quiet = done.answer.refusal != 0 || matches!(call, Call::Readiness { .. });
            if quiet {
                continue;
            }
            let next = nodes[at].after(&call, &done.answer);
            // An accepted call may have moved the original: it is brought here afresh.
            pair.library.back(&kept);
            pair.open.clone_from(&open);
            pair.awake();
            pair.original = brought(n, c, &way);
            if !seen.contains_key(&next.books) {
                if nodes.len() >= limit {
                    return Err(format!("more than {limit} states"));
                }
                seen.insert(next.books.clone(), ());
                nodes.push(Node { parent: at, call: Some(call), ..next });
            }
        }
        at += 1;
    }
    Ok((nodes.len(), compared))
}
