//! The machine that the times are of.

use std::env::consts::ARCH;
use std::fs::read_to_string;
use std::thread::available_parallelism;

pub struct Machine {
    pub processor: String,
    pub cores: usize,
    pub kernel: String,
    /// Load of the last minute, as the run began.
    pub load: String,
}

fn field<'a>(cpuinfo: &'a str, name: &str) -> Option<&'a str> {
    let line = cpuinfo.lines().find(|line| line.split(':').next().is_some_and(|key| key.trim() == name))?;
    line.split_once(':').map(|(_, value)| value.trim())
}

fn word(path: &str, index: usize) -> String {
    let text = read_to_string(path).unwrap_or_default();
    text.split_whitespace().nth(index).unwrap_or("unknown").into()
}

impl Machine {
    pub fn here() -> Self {
        let cpuinfo = read_to_string("/proc/cpuinfo").unwrap_or_default();
        let name = ["model name", "Model", "CPU part"].iter().find_map(|name| field(&cpuinfo, name));
        Self {
            processor: format!("{} ({ARCH})", name.unwrap_or("unknown")),
            cores: available_parallelism().map_or(1, usize::from),
            kernel: format!("Linux {}", word("/proc/sys/kernel/osrelease", 0)),
            load: word("/proc/loadavg", 0),
        }
    }
}

/// Why this processor is not one that runs the code itself, where that can be seen.
pub fn emulated() -> Option<String> {
    let cpuinfo = read_to_string("/proc/cpuinfo").unwrap_or_default();
    if let Some(sign) = ["TCG", "VirtualApple", "Bochs"].iter().find(|sign| cpuinfo.contains(**sign)) {
        return Some(format!("/proc/cpuinfo has the word {sign}"));
    }
    let other = match ARCH {
        "x86_64" => field(&cpuinfo, "CPU implementer"),
        "aarch64" => field(&cpuinfo, "vendor_id"),
        _ => None,
    };
    other.map(|_| format!("/proc/cpuinfo is of another processor than this {ARCH} program"))
}
