//! The library beside the Rust original, beside Linux's own sockets and beside memcpy, in one run; it prints
//! tables and writes docs/BENCH.md and docs/bench.svg.

mod archives;
mod inbox;
mod linux;
mod machine;
mod measure;
#[cfg_attr(not(original), path = "absent.rs")]
mod original;
mod picture;
mod report;
mod storage;
mod table;
mod timing;

use std::fs;
use std::path::Path;
use std::process::ExitCode;
use std::time::Instant;

use machine::Machine;
use report::Run;
use timing::Pace;

/// Runs one part, and says so.
fn part<T>(start: Instant, title: &str, run: impl FnOnce() -> T, table: impl FnOnce(&T) -> String) -> T {
    println!("{:6.1} s  {title} ..", start.elapsed().as_secs_f64());
    let done = run();
    println!("\n{}", table(&done));
    done
}

fn measured(quick: bool) -> Run {
    let start = Instant::now();
    let machine = Machine::here();
    let pace = if quick { Pace::QUICK } else { Pace::FULL };
    println!("{}, {} cores, {}, load {}", machine.processor, machine.cores, machine.kernel, machine.load);
    if !original::THERE {
        println!("the Rust original is not there (EIDROVANG_RUST names its folder): nothing is compared with it");
    }
    linux::raise_limit();
    let calls = part(start, "the calls, N = 8", || measure::calls(pace), |t| report::calls_table(t));
    let sizes = part(start, "sizes and items", || measure::sizes(pace), |t| report::sizes_table(t));
    let copies = part(start, "64 KiB beside memcpy", || measure::copies(pace), |_| String::new());
    let growth = part(start, "slots", || measure::growth(pace), |t| report::growth_table(t));
    let checks = part(start, "the check", || measure::checks(pace), |t| report::checks_table(t));
    let names = part(start, "names, and the worst call", || measure::names(pace), |t| report::names_table(t));
    let inbox = part(start, "one inbox by itself", || measure::inbox(pace), |t| report::inbox_table(t));
    println!("{:6.1} s  done\n", start.elapsed().as_secs_f64());
    Run { machine, pace, quick, calls, sizes, copies, growth, checks, names, inbox }
}

fn main() -> ExitCode {
    let args: Vec<String> = std::env::args().skip(1).collect();
    if let Some(other) = args.iter().find(|arg| !["--quick", "--dry"].contains(&arg.as_str())) {
        eprintln!("usage: bench [--quick] [--dry]; not {other}");
        return ExitCode::from(2);
    }
    if let Some(why) = machine::emulated() {
        eprintln!("bench: emulated runs are never timed: {why}");
        return ExitCode::FAILURE;
    }
    let asked = |flag: &str| args.iter().any(|arg| arg == flag);
    let repository = Path::new(env!("CARGO_MANIFEST_DIR")).join("..");
    if let Some(why) = archives::stale(&repository) {
        eprintln!("bench: {why}: make archive first");
        if !asked("--quick") {
            return ExitCode::FAILURE;
        }
    }
    let run = measured(asked("--quick"));
    println!("{}", run.summary());
    if asked("--dry") {
        return ExitCode::SUCCESS;
    }
    for (name, text) in [("BENCH.md", run.page()), ("bench.svg", run.picture())] {
        if let Err(wrong) = fs::write(repository.join("docs").join(name), text) {
            eprintln!("bench: docs/{name}: {wrong}");
            return ExitCode::FAILURE;
        }
        println!("wrote docs/{name}");
    }
    ExitCode::SUCCESS
}
