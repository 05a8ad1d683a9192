//! The host with many threads that close and shut down at random. It ends, the account adds up, and no
//! thread sleeps beside work: a watchdog fails the test and prints the table.

use std::time::Duration;

use eidrovang::appliance::{Plan, run};

fn plan(lines: u32, seed: u64) -> Plan {
    Plan {
        diallers: 16,
        lines,
        seed,
        capacity: 50,
        ring: Duration::ZERO,
        wild: true,
        cast: false,
        progress: false,
        patience: Duration::from_secs(30),
    }
}

#[test]
fn short() {
    let account = run(&plan(40_000, 1)).unwrap_or_else(|wrong| panic!("{wrong}"));
    assert!(account.adds_up(), "{account:?}");
    println!("{account:?}");
}

/// `cargo test --release --test stress -- --ignored --nocapture`
#[test]
#[ignore = "some tens of seconds"]
fn long() {
    for seed in 1..=3 {
        let account = run(&plan(200_000, seed)).unwrap_or_else(|wrong| panic!("{wrong}"));
        assert!(account.adds_up(), "{account:?}");
        println!("seed {seed}: {account:?}");
    }
}
