//! The stored answers of the original, crates/replay/stdin: written by `store`, and checked against the
//! library by `replay`, which needs no original.

use crate::call;
use crate::library;
use crate::plain;

/// The library against a recording: how many lines agree, or the first that does not.
pub fn replay(text: &str) -> Result<[usize; 3], String> {
    let mut counts = [0; 3];
    #[cfg(table_calls)]
    let mut table: Option<(library::Table, Vec<u64>)> = None;
    for (i, line) in text.lines().enumerate() {
        let line = line.trim();
        if line.is_empty() || line.starts_with('#') {
            continue;
        }
        let unread = || format!("line {}: cannot be read: {line}", i + 1);
        if let Some(sizes) = line.strip_prefix("table ") {
            let (n, c) = sizes.split_once(' ').ok_or_else(unread)?;
            let (n, c): (usize, usize) = (n.parse().map_err(|_| unread())?, c.parse().map_err(|_| unread())?);
            if !(1..=1_024).contains(&n) || !(1..=65_536).contains(&c) {
                return Err(unread());
            }
            #[cfg(table_calls)]
            {
                table = Some((library::Table::new(n, c), Vec::new()));
            }
            counts[2] += 1;
            continue;
        }
        let (asked, answered) = line.split_once(" = ").ok_or_else(unread)?;
        let ours = if let Some(ask) = plain::parse(asked) {
            counts[1] += 1;
            plain::library(&ask).to_string()
        } else {
            let call = call::parse(asked).ok_or_else(unread)?;
            #[cfg(not(table_calls))]
            {
                let _ = (call, library::is_utf8);
                continue;
            }
            #[cfg(table_calls)]
            {
                let (table, open) = table.as_mut().ok_or_else(unread)?;
                counts[0] += 1;
                ours(table, open, &call).unwrap_or_else(|said| said)
            }
        };
        if ours != answered {
            return Err(format!("line {}: {asked}\n  the original: {answered}\n  the library:  {ours}", i + 1));
        }
    }
    Ok(counts)
}

#[cfg(table_calls)]
fn ours(table: &mut library::Table, open: &mut Vec<u64>, call: &call::Call) -> Result<String, String> {
    table.look = 1;
    let answer = table.call(call)?;
    match (call, answer.refusal) {
        (call::Call::Socket { .. } | call::Call::Accept { .. }, 0) => open.push(answer.value),
        (call::Call::Close { h }, 0) => open.retain(|o| o != h),
        _ => {}
    }
    let mut ready = Vec::new();
    for &h in open.iter() {
        ready.push((h, table.ready(h)?));
    }
    Ok(call::written(call, &call::Seen { answer, ready }))
}

#[cfg(all(original, table_calls))]
pub use store::store;

#[cfg(all(original, table_calls))]
mod store {
    use std::collections::BTreeMap;
    use std::fmt::Write as _;

    use crate::asks;
    use crate::call::{Call, Data, Items, Seen, written};
    use crate::original::{CAPACITIES, Driver, driver};
    use crate::plain::{self, Ask, quiet};
    use crate::random::Sequence;
    use crate::rng::Rng;

    /// The original, its open handles, and the text so far.
    struct Writer {
        original: Box<dyn Driver>,
        open: Vec<u64>,
    }

    impl Writer {
        fn line(&mut self, text: &mut String, call: &Call) -> Seen {
            let answer = self.original.call(call);
            match (call, answer.refusal) {
                (Call::Socket { .. } | Call::Accept { .. }, 0) => self.open.push(answer.value),
                (Call::Close { h }, 0) => self.open.retain(|o| o != h),
                _ => {}
            }
            let ready = self.open.iter().map(|&h| (h, self.original.ready(h))).collect();
            let seen = Seen { answer, ready };
            writeln!(text, "{call} = {}", written(call, &seen)).unwrap();
            seen
        }
    }

    fn table(text: &mut String, n: usize, c: usize) -> Writer {
        writeln!(text, "table {n} {c}").unwrap();
        Writer { original: driver(n, c).unwrap(), open: Vec::new() }
    }

    /// The lines of document 01 that are about the table, at C = 8.
    fn lines(text: &mut String) {
        const SERVER: u64 = 1 << 16 | 2;
        const LISTENER: u64 = 1 << 16;
        const CLIENT: u64 = 1 << 16 | 1;
        let connected: [Call; 6] = [
            Call::Socket { domain: 1, ty: 1, protocol: 0 },
            Call::Bind { h: LISTENER, name: b"/a".to_vec() },
            Call::Listen { h: LISTENER, backlog: 1 },
            Call::Socket { domain: 1, ty: 1, protocol: 0 },
            Call::Connect { h: CLIENT, name: b"/a".to_vec() },
            Call::Accept { h: LISTENER },
        ];
        let write = |len| Call::Write { h: CLIENT, data: Data { seed: 97, len } };
        let send = |seed, len, first, count| Call::Sendmsg {
            h: CLIENT,
            data: Data { seed, len },
            items: Items { first, count },
        };
        let recv = |len| Call::Recvmsg { h: SERVER, len, capacity: 16 };
        let read = |len| Call::Read { h: SERVER, len };
        let cases: [(&str, Vec<Call>); 7] = [
            ("8 queued, a write of nothing", vec![write(8), write(0)]),
            ("7 queued, a write of 3", vec![write(7), write(3)]),
            ("5 queued, no bytes, one item", vec![write(5), send(0, 0, 1, 1)]),
            ("250 items queued, 7 more, then 6", vec![send(1, 1, 0, 250), send(2, 1, 300, 7), send(2, 1, 300, 6)]),
            ("\"ab\" with item 5, \"cd\" with 6", vec![send(97, 2, 5, 1), send(99, 2, 6, 1), recv(10), recv(10)]),
            ("a read of 1 releases the item", vec![send(97, 2, 5, 1), read(1), recv(10)]),
            ("a read of 0 releases it too, and wakes", vec![send(97, 2, 5, 1), read(0), recv(10)]),
        ];
        for (says, calls) in cases {
            writeln!(text, "# {says}").unwrap();
            let mut writer = table(text, 3, 8);
            for call in connected.iter().chain(&calls) {
                writer.line(text, call);
            }
        }
        writeln!(text, "# backlog 0, and an empty buffer before anything about the state").unwrap();
        let mut writer = table(text, 3, 8);
        let calls = [
            Call::Socket { domain: 1, ty: 1, protocol: 0 },
            Call::Bind { h: LISTENER, name: b"/a".to_vec() },
            Call::Listen { h: LISTENER, backlog: 0 },
            Call::Socket { domain: 1, ty: 1, protocol: 0 },
            Call::Connect { h: CLIENT, name: b"/a".to_vec() },
            Call::Recvmsg { h: CLIENT, len: 0, capacity: 16 },
        ];
        for call in &calls {
            writer.line(text, call);
        }
    }

    /// The whole file: `lines` of calls and `asks` questions, from the seed.
    pub fn store(seed: u64, calls: usize, questions: usize) -> String {
        let mut rng = Rng::new(seed);
        let mut text = format!(
            "# Answers of muffin-os/muffin at 5eba3c5ba3, in document 01's numbers; made by `compare store {seed} {calls} {questions}`.\n\
             # oracle/README.md says how the lines are read.\n"
        );
        lines(&mut text);
        writeln!(text, "# random sequences").unwrap();
        let mut done = 0;
        while done < calls {
            let mut sequence = Sequence::new(&mut rng, &CAPACITIES);
            let mut writer = table(&mut text, sequence.n, sequence.c);
            for _ in 0..sequence.length.min(120) {
                let call = sequence.next(&mut rng);
                let seen = writer.line(&mut text, &call);
                sequence.told(&call, &seen.answer);
                done += 1;
            }
        }
        writeln!(text, "# addresses, UTF-8, control bytes, message headers").unwrap();
        let mut asks: Vec<Ask> =
            [vec![1, 0, 0x2F, 0x61, 0, 0x62], vec![1, 0], vec![2, 0, 0x61], vec![1, 0, 0xC0, 0x80], vec![1], vec![]]
                .map(Ask::PathOf)
                .to_vec();
        for (k, path) in [106, 107, 108].map(|n| vec![b'p'; n]).into_iter().enumerate() {
            asks.push(Ask::NewAddress { path, room: 109 + k });
        }
        for room in [19, 20, 24, 32] {
            asks.push(Ask::Encode { fds: vec![3], room });
        }
        // As many of each kind, and of these as many of each refusal.
        let mut pool = asks::sizes();
        pool.extend(asks::headers());
        pool.extend(asks::controls(64));
        pool.extend((0..questions * 10).map(|_| asks::random(&mut rng)));
        let mut kinds: BTreeMap<String, BTreeMap<u64, Vec<Ask>>> = BTreeMap::new();
        quiet(|| {
            for ask in pool {
                let kind = ask.to_string().split(' ').next().unwrap().to_string();
                let refusal = plain::original(&ask).0.refusal;
                kinds.entry(kind).or_default().entry(refusal).or_default().push(ask);
            }
        });
        for refusals in kinds.values() {
            for pool in refusals.values() {
                let each = questions / kinds.len() / refusals.len();
                asks.extend((0..each).map(|_| pool[rng.below(pool.len())].clone()));
            }
        }
        quiet(|| {
            for ask in asks {
                writeln!(text, "{ask} = {}", plain::original(&ask).0).unwrap();
            }
        });
        text
    }
}
