//! Compares the library with the original by running both. `compare` without a word prints what it
//! can do. The exit status is 1 on a difference.
#![cfg_attr(not(all(original, table_calls)), allow(dead_code, unused_imports))]

mod asks;
mod call;
#[cfg(table_calls)]
mod damage;
mod library;
mod mutants;
#[cfg(original)]
mod original;
#[cfg(all(original, table_calls))]
mod pair;
mod plain;
mod random;
mod rng;
#[cfg(all(original, table_calls))]
mod states;
mod stored;

use std::process::exit;
use std::time::Instant;

use rng::Rng;

const USAGE: &str = "usage: compare COMMAND
  quick             a little of everything, about 20 seconds
  run SEED COUNT    COUNT random sequences of calls
  states            every reachable state of tables with 3 slots, capacity 1 and 2
  plain             addresses, UTF-8, control bytes, headers: exhaustive lists and random ones
  damage SEED COUNT COUNT tables with overwritten storage or too little lent
  mutants           each of a list of wrong answers must be seen
  mistakes          each one-token mistake in a copy of the original must be seen (feature `mistakes`)
  store SEED CALLS QUESTIONS   writes the stored answers, crates/replay/stdin
  replay [FILE]     the library against stored answers, without the original";

/// Says where the run stands and how long a part took.
fn part<T>(says: &str, f: impl FnOnce() -> Result<T, String>, done: impl FnOnce(T) -> String) {
    let start = Instant::now();
    match f() {
        Ok(t) => println!("{says}: {} ({:.1} s)", done(t), start.elapsed().as_secs_f64()),
        Err(said) => {
            println!("{says}: DIFFERS\n{said}");
            exit(1);
        }
    }
}

fn number(args: &[String], at: usize) -> u64 {
    args.get(at).and_then(|a| a.parse().ok()).unwrap_or_else(|| usage())
}

fn usage() -> ! {
    println!("{USAGE}");
    exit(2)
}

fn main() {
    let args: Vec<String> = std::env::args().skip(1).collect();
    let Some(command) = args.first() else { usage() };
    println!("library {}", env!("EIDROVANG_ARCHIVE"));
    if cfg!(not(table_calls)) {
        println!("the archive has no table calls: only the plain functions are compared");
    }
    #[cfg(not(original))]
    println!(
        "the original is not here: no {} in {} (the files are muffin-os/muffin's, commit 5eba3c5ba3; EIDROVANG_RUST names the folder)",
        option_env!("EIDROVANG_RUST_MISSING").unwrap_or("file"),
        env!("EIDROVANG_RUST_FOLDER"),
    );
    match command.as_str() {
        "quick" => {
            replay(None);
            exhaustive(false);
            plain_lists(200_000, 1);
            plain_mutants();
            harmed(1, 2_000);
            tables_quick();
            println!("oracle: no difference");
        }
        "run" => run(number(&args, 1), number(&args, 2)),
        "states" => all_states(),
        "plain" => {
            exhaustive(true);
            plain_lists(3_000_000, 1);
        }
        "damage" => harmed(number(&args, 1), number(&args, 2)),
        "mutants" => {
            plain_mutants();
            table_mutants();
        }
        "mistakes" => mistakes(),
        "store" => store(number(&args, 1), number(&args, 2), number(&args, 3)),
        "replay" => replay(args.get(1).map(String::as_str)),
        _ => usage(),
    }
}

fn replay(file: Option<&str>) {
    let file = file.unwrap_or(env!("EIDROVANG_ANSWERS"));
    part(
        "stored answers",
        || stored::replay(&std::fs::read_to_string(file).map_err(|e| format!("{file}: {e}"))?),
        |[calls, asks, tables]| format!("{calls} calls on {tables} tables and {asks} questions agree"),
    );
}

/// UTF-8 against core::str::from_utf8, and short addresses against the original.
fn exhaustive(four: bool) {
    fn utf8(bytes: &[u8]) -> Result<(), String> {
        if library::is_utf8(bytes) == core::str::from_utf8(bytes).is_ok() {
            return Ok(());
        }
        Err(format!("utf8 {}: the library says {}", call::hex(bytes), library::is_utf8(bytes)))
    }
    part(
        "UTF-8, all strings of up to 3 bytes",
        || {
            utf8(&[])?;
            for n in 0..1u32 << 24 {
                let bytes = n.to_be_bytes();
                if n < 1 << 8 {
                    utf8(&bytes[3..])?;
                }
                if n < 1 << 16 {
                    utf8(&bytes[2..])?;
                }
                utf8(&bytes[1..])?;
            }
            Ok(1 + (1 << 8) + (1 << 16) + (1 << 24))
        },
        |n: u32| format!("{n} agree"),
    );
    if four {
        part(
            "UTF-8, all strings of 4 bytes from F0 on",
            || {
                for n in 0xF000_0000..=u32::MAX {
                    utf8(&n.to_be_bytes())?;
                }
                Ok(1u64 << 28)
            },
            |n| format!("{n} agree"),
        );
    }
    #[cfg(original)]
    part(
        "addresses of 0 to 3 bytes",
        || {
            let check = |addr: &[u8]| {
                let ours = library::address_path(addr);
                let (refusal, start, length) = match kernel_abi::SockAddrUn::path_of(addr) {
                    Err(e) => (original::number(e), 0, 0),
                    Ok(path) => (0, path.as_ptr() as usize - addr.as_ptr() as usize, path.len()),
                };
                if (ours.refusal, ours.start, ours.length) == (refusal, start, length) {
                    return Ok(());
                }
                Err(format!("path_of {} = {refusal} {start} {length}\n# the library: {ours:?}", call::hex(addr)))
            };
            check(&[])?;
            for n in 0..1u32 << 24 {
                let bytes = n.to_be_bytes();
                if n < 1 << 8 {
                    check(&bytes[3..])?;
                }
                if n < 1 << 16 {
                    check(&bytes[2..])?;
                }
                check(&bytes[1..])?;
            }
            Ok(1 + (1 << 8) + (1 << 16) + (1 << 24))
        },
        |n: u32| format!("{n} agree"),
    );
}

#[cfg(not(original))]
fn plain_lists(_count: usize, _seed: u64) {
    let _ = (asks::sizes, asks::headers, asks::controls, asks::random, plain::INTENDED);
}

/// The questions of `asks`, `count` of them random.
#[cfg(original)]
fn questions(count: usize, seed: u64) -> impl Iterator<Item = plain::Ask> {
    let mut asks = asks::sizes();
    asks.extend(asks::headers());
    asks.extend(asks::controls(64));
    // The smallest bad strings.
    for bytes in [vec![0xED, 0xA0, 0x80], vec![0xC1, 0x80], vec![0xF4, 0x90, 0x80, 0x80], vec![]] {
        asks.push(plain::Ask::Utf8(bytes));
    }
    asks.extend([vec![1, 0], vec![1, 0, 0], vec![1], vec![]].map(plain::Ask::PathOf));
    let mut rng = Rng::new(seed);
    asks.into_iter().chain((0..count).map(move |_| asks::random(&mut rng)))
}

/// How many questions agree, and how often each intended difference was met.
#[cfg(original)]
fn plain_run(count: usize, seed: u64) -> Result<(usize, [usize; 6]), String> {
    let (mut total, mut met) = (0, [0; 6]);
    plain::quiet(|| {
        for ask in questions(count, seed) {
            let (theirs, intended) = plain::original(&ask);
            let ours = plain::library(&ask);
            if let Some(intended) = intended {
                met[plain::INTENDED.iter().position(|(i, _)| *i == intended).unwrap()] += 1;
            }
            if ours != theirs {
                return Err(format!("{ask} = {theirs}\n# the library: {ours}"));
            }
            total += 1;
        }
        Ok((total, met))
    })
}

#[cfg(original)]
fn plain_lists(count: usize, seed: u64) {
    part(
        "sizes, headers, control bytes, addresses",
        || plain_run(count, seed),
        |(total, met)| {
            let list: Vec<String> = plain::INTENDED
                .iter()
                .zip(met)
                .map(|((_, says), k)| format!("\n  intended, {k} times: {says}"))
                .collect();
            format!("{total} questions agree{}", list.concat())
        },
    );
}

#[cfg(not(original))]
fn plain_mutants() {}

#[cfg(original)]
fn plain_mutants() {
    part(
        "wrong answers of plain functions put between",
        || {
            let answered: Vec<_> = plain::quiet(|| {
                questions(20_000, 1).map(|ask| (plain::original(&ask).0, plain::library(&ask), ask)).collect()
            });
            let seen = |change: mutants::PlainChange| {
                answered.iter().any(|(theirs, ours, ask)| {
                    let mut ours = ours.clone();
                    change(ask, &mut ours);
                    ours != *theirs
                })
            };
            let unseen: Vec<String> = mutants::PLAIN_MUTANTS
                .iter()
                .filter(|(_, change)| !seen(*change))
                .map(|(says, _)| format!("not seen: {says}"))
                .collect();
            if unseen.is_empty() { Ok(mutants::PLAIN_MUTANTS.len()) } else { Err(unseen.join("\n")) }
        },
        |count| format!("each of {count} is seen"),
    );
}

#[cfg(not(table_calls))]
fn harmed(_: u64, _: u64) {}

#[cfg(table_calls)]
fn harmed(seed: u64, count: u64) {
    part(
        "damaged or short storage",
        || damage::run(&mut Rng::new(seed), count as usize),
        |[calls, damaged, short]| {
            format!("{calls} calls end and change nothing on a refusal; 19 in {damaged}, 18 in {short}")
        },
    );
}

#[cfg(not(all(original, table_calls)))]
mod tables {
    fn not_here() {
        println!("the table's calls are not compared: the original or the archive's table calls are missing");
    }

    pub fn tables_quick() {
        not_here();
    }
    pub fn run(_: u64, _: u64) {
        not_here();
    }
    pub fn all_states() {
        not_here();
    }
    pub fn table_mutants() {
        not_here();
    }
    pub fn mistakes() {
        not_here();
    }
    pub fn store(_: u64, _: u64, _: u64) {
        not_here();
    }
}

#[cfg(all(original, table_calls))]
mod tables {
    use super::part;
    use crate::mutants::{Change, MUTANTS};
    use crate::original::CAPACITIES;
    use crate::pair::{Counts, Make, real, sequence, shrunk};
    use crate::rng::Rng;
    use crate::{states, stored};

    /// Sequences with their own seeds, so that one can be run again by itself.
    fn sequences(
        seed: u64,
        count: u64,
        make: Make,
        capacities: &[usize],
        change: Option<Change>,
    ) -> Result<Counts, String> {
        let mut counts = Counts::default();
        let mut told = std::time::Instant::now();
        for i in 0..count {
            let mut rng = Rng::new(seed.wrapping_mul(0x9E37_79B9).wrapping_add(i));
            if let Err((n, c, calls)) = sequence(&mut rng, make, capacities, change, &mut counts) {
                return Err(shrunk(make, n, c, change, &calls));
            }
            if told.elapsed().as_secs() >= 5 {
                eprintln!("  {} of {count} sequences, {} calls", i + 1, counts.calls);
                told = std::time::Instant::now();
            }
        }
        Ok(counts)
    }

    fn counted(seed: u64, count: u64, capacities: &[usize], whole: bool) {
        let mut all = None;
        part(
            &format!("random sequences, seed {seed}, capacities {capacities:?}"),
            || sequences(seed, count, &real, capacities, None),
            |counts| {
                let said = format!("{} sequences, {} calls agree", counts.sequences, counts.calls);
                all = Some(counts);
                said
            },
        );
        let counts = all.unwrap();
        counts.print(whole);
        if counts.calls > 1_000_000 {
            let rare = counts.rare(1_000);
            if !rare.is_empty() {
                println!("  seen fewer than 1,000 times: {}", rare.join(", "));
            }
        }
    }

    pub fn run(seed: u64, count: u64) {
        let small = count - count / 20;
        counted(seed, small, &CAPACITIES[..3], true);
        counted(seed, count - small, &CAPACITIES[3..], true);
    }

    pub fn tables_quick() {
        counted(1, 4_000, &CAPACITIES[..3], false);
        counted(1, 150, &CAPACITIES[3..], false);
        few_states();
        table_mutants();
    }

    fn few_states() {
        part("every state of 3 slots, capacity 1, one item", || states::all(3, 1, 1, 100_000), said);
    }

    fn said((states, calls): (usize, u64)) -> String {
        format!("{states} states, {calls} calls agree")
    }

    pub fn all_states() {
        part("every state of 3 slots, capacity 1", || states::all(3, 1, 2, 10_000_000), said);
        part("every state of 3 slots, capacity 2", || states::all(3, 2, 2, 10_000_000), said);
    }

    pub fn table_mutants() {
        part(
            "wrong answers of table calls put between",
            || {
                let mut unseen = String::new();
                for (says, change) in MUTANTS {
                    if sequences(1, 3_000, &real, &CAPACITIES[..3], Some(*change)).is_ok() {
                        unseen += &format!("not seen: {says}\n");
                    }
                }
                if unseen.is_empty() { Ok(MUTANTS.len()) } else { Err(unseen) }
            },
            |count| format!("each of {count} is seen"),
        );
    }

    #[cfg(not(feature = "mistakes"))]
    pub fn mistakes() {
        println!("built without the feature `mistakes`");
        std::process::exit(2);
    }

    #[cfg(feature = "mistakes")]
    pub fn mistakes() {
        part(
            "one-token mistakes in the original",
            || {
                let mut unseen = String::new();
                for (says, make) in crate::original::MISTAKEN {
                    let make = |n: usize, _: usize| make(n);
                    let run = || sequences(1, 3_000, &make, &[8], None);
                    match crate::plain::quiet(|| std::panic::catch_unwind(run)) {
                        Ok(Ok(_)) => unseen += &format!("not seen: {says}\n"),
                        Ok(Err(recording)) => println!("  {says}: {} calls show it", recording.lines().count() - 2),
                        Err(_) => println!("  {says}: against the driver's books"),
                    }
                }
                if unseen.is_empty() { Ok(crate::original::MISTAKEN.len()) } else { Err(unseen) }
            },
            |count| format!("each of {count} is seen"),
        );
    }

    pub fn store(seed: u64, calls: u64, questions: u64) {
        let file = env!("EIDROVANG_ANSWERS");
        std::fs::write(file, stored::store(seed, calls as usize, questions as usize)).expect("the answers are written");
        println!("{file} is written");
    }
}

use tables::{all_states, mistakes, run, store, table_mutants, tables_quick};
