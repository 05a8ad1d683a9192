//! Tables that are none: overwritten cells, too little lent, another N or C. Nothing in the original answers
//! to these; 01 says what is answered. Each call ends, a refusal changes nothing, and an answer is a number
//! of 01, the one that 01 names where it does not depend on the cells.

use crate::library::Table;
use crate::random::Sequence;
use crate::rng::Rng;

/// Harms a table; the number that every call must answer then.
fn harm(rng: &mut Rng, table: &mut Table) -> Option<u32> {
    let (n, c) = (table.n, table.c);
    match rng.below(24) {
        0 | 1 => {
            let (words, bytes) = (table.least[0], table.least[1]);
            table.storage.words[..words].fill_with(|| rng.next());
            table.storage.bytes[..bytes].fill_with(|| rng.next() as u8);
            Some(19)
        }
        2 => {
            table.storage.words.truncate(table.least[0] - 1);
            Some(18)
        }
        3 => {
            table.storage.bytes.truncate(table.least[1] - 1);
            Some(18)
        }
        4 => {
            table.storage.tokens.truncate(table.least[2] - 1);
            Some(18)
        }
        5 => {
            table.wakes.truncate(n);
            Some(18)
        }
        6 => {
            table.releases.truncate(256 * n - 1);
            Some(18)
        }
        7 if n > 1 => {
            table.n -= 1;
            Some(19)
        }
        8 if c > 1 => {
            table.c -= 1;
            Some(19)
        }
        9 => {
            table.n = rng.pick(&[0, 1_025, usize::MAX]);
            Some(2)
        }
        10 => {
            table.c = rng.pick(&[0, 65_537, usize::MAX]);
            Some(2)
        }
        _ => {
            for _ in 0..1 + rng.below(3) {
                let i = rng.below(table.least[0]);
                let old = table.storage.words[i];
                table.storage.words[i] = match rng.below(6) {
                    0 => rng.next(),
                    1 => old.wrapping_add(1),
                    2 => old.wrapping_sub(1),
                    3 => 1 << rng.below(64),
                    4 => u64::MAX,
                    _ => 0,
                };
            }
            None
        }
    }
}

/// `count` tables, each used for a while and then harmed. How many calls there were, how many of them were
/// refused with 19, and how many with 18.
pub fn run(rng: &mut Rng, count: usize) -> Result<[u64; 3], String> {
    let mut seen = [0; 3];
    for _ in 0..count {
        let mut sequence = Sequence::new(rng, &[1, 2, 8, 64]);
        let mut table = Table::new(sequence.n, sequence.c);
        table.look = 1;
        for _ in 0..rng.below(60) {
            let call = sequence.next(rng);
            let answer = table.call(&call)?;
            sequence.told(&call, &answer);
        }
        let must = harm(rng, &mut table);
        if let Some(no @ (2 | 18)) = must {
            // Making lends no lists.
            let lists = table.wakes.len() <= table.n || table.releases.len() < 256 * table.n;
            let before = table.storage.clone();
            let made = if no == 18 && lists { no } else { table.storage.make(table.n, table.c) };
            if made != no || table.storage != before {
                return Err(format!("making answers {made} where it must be {no}, or changes something"));
            }
        }
        for _ in 0..4 {
            let call = sequence.next(rng);
            let before = table.storage.clone();
            let refusal = table.refusal(&call);
            if refusal > 19 {
                return Err(format!("{call}: {refusal} is no number of 01"));
            }
            if must.is_some_and(|no| no != refusal) {
                return Err(format!("{call}: {refusal} where it must be {must:?}"));
            }
            if refusal != 0 && table.storage != before {
                return Err(format!("{call}: refused with {refusal}, and the storage changed"));
            }
            seen[0] += 1;
            seen[1] += u64::from(refusal == 19);
            seen[2] += u64::from(refusal == 18);
        }
    }
    Ok(seen)
}
