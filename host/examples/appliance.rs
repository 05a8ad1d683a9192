//! The appliance in small. `cargo run --example appliance -- [SEED [LINES [DIALLERS]]]`

use std::time::{Duration, Instant};

use eidrovang::appliance::{Plan, run};

fn main() {
    let mut args = std::env::args().skip(1).map(|a| a.parse::<u64>().expect("a number"));
    let seed = args.next().unwrap_or(1);
    let lines = args.next().unwrap_or(40_000).clamp(1, 10_000_000) as u32;
    let diallers = args.next().unwrap_or(6).clamp(3, 200) as usize;
    let plan = Plan {
        diallers,
        lines,
        seed,
        capacity: 50,
        ring: Duration::from_micros(100),
        wild: false,
        cast: true,
        progress: true,
        patience: Duration::from_secs(10),
    };
    println!(
        "a sampler with {lines} lines, {diallers} diallers, seed {seed}: dialler 0 is slow, 1 leaves after 20 numbers, 2 is killed half-way"
    );
    let start = Instant::now();
    match run(&plan) {
        Ok(a) => {
            println!("done in {:.2} s, {} connections", start.elapsed().as_secs_f64(), a.connections);
            println!("lines issued       {:>8}", a.issued);
            println!("      rung         {:>8}", a.rung);
            println!("      released     {:>8}", a.released);
            println!("      still queued {:>8}", a.queued);
            println!("{} + {} + {} = {}: none twice, none lost", a.rung, a.released, a.queued, a.issued);
            println!("{} sends met a dialler who had gone, and kept their line", a.kept);
        }
        Err(wrong) => {
            eprintln!("{wrong}");
            std::process::exit(1);
        }
    }
}
