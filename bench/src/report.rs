//! docs/BENCH.md and docs/bench.svg, written from what was measured: no number in them is typed by hand.

use std::fmt::Write as _;

use crate::machine::Machine;
use crate::measure::{Alone, Calls, Check, Growth, ITEMS, Named, SIZES, Size};
use crate::picture::{Line, Panel, svg};
use crate::timing::{Contest, Pace, Who};

/// All that one run measured.
pub struct Run {
    pub machine: Machine,
    pub pace: Pace,
    pub quick: bool,
    pub calls: Vec<(Calls, Contest)>,
    pub sizes: Vec<Size>,
    pub copies: Contest,
    pub growth: Vec<Growth>,
    pub checks: Vec<Check>,
    pub names: Vec<Named>,
    pub inbox: Vec<Alone>,
}

/// Three digits of what is small, whole thousands apart of what is not.
pub fn number(value: f64) -> String {
    if value < 9.95 && value.fract() != 0.0 {
        return format!("{value:.2}");
    }
    let digits = format!("{value:.0}");
    let mut text = String::new();
    for (i, digit) in digits.chars().enumerate() {
        if i > 0 && (digits.len() - i).is_multiple_of(3) {
            text.push(',');
        }
        text.push(digit);
    }
    text
}

fn time(contest: &Contest, who: Who) -> String {
    contest.time(who).map_or("-".into(), |spread| number(spread.mid))
}

fn ratio(contest: &Contest, other: Who) -> String {
    contest.ratio(other).map_or("-".into(), |spread| format!("{:.2}", spread.mid))
}

fn ratio_and_spread(contest: &Contest, other: Who) -> String {
    contest.ratio(other).map_or("-".into(), |s| format!("{:.2} ({:.2} to {:.2})", s.mid, s.low, s.high))
}

/// A table whose columns stand under each other, as text and as markdown.
fn grid(rows: &[Vec<String>]) -> String {
    let width = |column: usize| rows.iter().map(|row| row[column].chars().count()).max().unwrap_or(0);
    let widths: Vec<usize> = (0..rows[0].len()).map(width).collect();
    let mut text = String::new();
    for (i, row) in rows.iter().enumerate() {
        for (column, cell) in row.iter().enumerate() {
            let pad = " ".repeat(widths[column] - cell.chars().count());
            let cell = if column == 0 { format!("{cell}{pad}") } else { format!("{pad}{cell}") };
            write!(text, "| {cell} ").unwrap();
        }
        text.push_str("|\n");
        if i == 0 {
            for (column, width) in widths.iter().enumerate() {
                let dashes = "-".repeat(*width);
                text.push_str(&if column == 0 { format!("|-{dashes}-") } else { format!("|-{dashes}:") });
            }
            text.push_str("|\n");
        }
    }
    text
}

fn row<const K: usize>(cells: [&str; K]) -> Vec<String> {
    cells.map(String::from).to_vec()
}

pub fn calls_table(calls: &[(Calls, Contest)]) -> String {
    let mut rows = vec![row(["calls", "ours, ns", "the Rust", "Linux", "ours / Rust (middle half)", "ours / Linux"])];
    for (calls, c) in calls {
        rows.push(vec![
            calls.title().into(),
            time(c, Who::Ours),
            time(c, Who::Rust),
            time(c, Who::Linux),
            ratio_and_spread(c, Who::Rust),
            ratio(c, Who::Linux),
        ]);
    }
    grid(&rows)
}

pub fn sizes_table(sizes: &[Size]) -> String {
    let mut rows =
        vec![row(["bytes, items", "ours, ns", "the Rust", "Linux", "memcpy", "/ Rust", "/ Linux", "/ memcpy"])];
    for size in sizes {
        let c = &size.contest;
        let mut cells = vec![format!("{}, {}", number(size.bytes as f64), size.items)];
        cells.extend([Who::Ours, Who::Rust, Who::Linux, Who::Memcpy].map(|who| time(c, who)));
        cells.extend([Who::Rust, Who::Linux, Who::Memcpy].map(|who| ratio(c, who)));
        rows.push(cells);
    }
    grid(&rows)
}

pub fn growth_table(growth: &[Growth]) -> String {
    let mut rows = vec![row(["N"])];
    rows[0].extend(Calls::FIVE.map(|calls| calls.title().to_string()));
    for g in growth {
        let mut cells = vec![number(g.n as f64)];
        for (_, c) in &g.contests {
            cells.push([Who::Ours, Who::Rust, Who::Linux].map(|who| time(c, who)).join(" / "));
        }
        rows.push(cells);
    }
    grid(&rows)
}

pub fn checks_table(checks: &[Check]) -> String {
    let mut rows = vec![row([
        "N",
        "all closed, ns",
        "for each slot",
        "all connected, ns",
        "for each slot",
        "256 items in each, ns",
        "for each item",
    ])];
    for check in checks {
        let n = check.n as f64;
        let mut cells = vec![number(n)];
        for (contest, parts) in [(&check.closed, n), (&check.connected, n), (&check.items, 256.0 * n)] {
            cells.push(number(contest.ours()));
            cells.push(format!("{:.2}", contest.ours() / parts));
        }
        rows.push(cells);
    }
    grid(&rows)
}

pub fn names_table(names: &[Named]) -> String {
    let mut rows = vec![row(["N = 1,024", "microseconds"])];
    rows.extend(names.iter().map(|n| vec![n.title.into(), number(n.contest.ours() / 1e3)]));
    grid(&rows)
}

pub fn inbox_table(inbox: &[Alone]) -> String {
    let mut rows = vec![row(["in and out", "ours, ns", "memcpy twice", "the Rust", "ratio (middle half)"])];
    for alone in inbox {
        let c = &alone.contest;
        let mut cells = vec![alone.title.to_string()];
        cells.extend([Who::Ours, Who::Memcpy, Who::Rust].map(|who| time(c, who)));
        cells.push(ratio_and_spread(c, alone.other));
        rows.push(cells);
    }
    grid(&rows)
}

/// One target: what was measured, the most that it may be, and why it is more where it is.
struct Target {
    /// Targets of a group are missed for one reason.
    group: String,
    what: String,
    measured: Option<f64>,
    most: f64,
    unit: &'static str,
    why: String,
    /// What is to be said of this one beside.
    detail: Option<String>,
}

impl Target {
    fn missed(&self) -> bool {
        self.measured.is_some_and(|measured| measured > self.most)
    }

    fn cells(&self) -> Vec<String> {
        let Self { what, measured, most, unit, .. } = self;
        let verdict = if self.missed() { "**missed**" } else { "met" };
        match measured {
            Some(measured) => {
                vec![what.clone(), format!("{measured:.2}{unit}"), format!("{most}{unit}"), verdict.into()]
            }
            None => vec![what.clone(), "-".into(), format!("{most}{unit}"), "passed over".into()],
        }
    }
}

impl Run {
    fn size(&self, bytes: usize, items: usize) -> &Contest {
        &self.sizes.iter().find(|s| s.bytes == bytes && s.items == items).expect("a measured size").contest
    }

    fn targets(&self) -> Vec<Target> {
        let mut all = self.copy_targets();
        all.extend(self.calls.iter().filter(|c| Calls::FIVE.contains(&c.0)).map(|(calls, c)| self.small(*calls, c)));
        all.extend(self.growth_targets());
        all.extend(self.check_targets());
        all.extend(self.inbox.iter().map(|alone| Target {
            group: format!("One inbox alone, {}", alone.title),
            what: format!("one inbox alone, {}: of {}", alone.title, name_of(alone.other)),
            measured: alone.contest.ratio(alone.other).map(|s| s.mid),
            most: alone.target,
            unit: "",
            why: copying(alone.other),
            detail: None,
        }));
        all
    }

    fn copy_targets(&self) -> Vec<Target> {
        let target = |other, contest: &Contest, most| Target {
            group: format!("64 KiB, beside {}", name_of(other)),
            what: format!("64 KiB through write and read: of {}", name_of(other)),
            measured: contest.ratio(other).map(|s| s.mid),
            most,
            unit: "",
            why: copying(other),
            detail: None,
        };
        vec![target(Who::Rust, self.size(65_536, 0), 0.12), target(Who::Memcpy, &self.copies, 1.15)]
    }

    /// How much of a contest is the checks that its calls begin with: from 0 to 1.
    fn checked(calls: Calls, contest: &Contest) -> f64 {
        contest.between(Who::Check, Who::Ours).map_or(f64::NAN, |part| calls.count() as f64 * part.mid)
    }

    fn small(&self, calls: Calls, contest: &Contest) -> Target {
        let ratio = contest.ratio(Who::Rust).map(|s| s.mid);
        let part = Self::checked(calls, contest);
        let mut detail = format!(
            "{}: the check is {:.0} % of the {} ns",
            calls.title(),
            100.0 * part.min(1.0),
            number(contest.ours())
        );
        match ratio {
            Some(ratio) if part < 0.9 => write!(detail, ", the rest {:.2} of the Rust", ratio * (1.0 - part)).unwrap(),
            _ => {}
        }
        Target {
            group: "N = 8, beside the Rust".into(),
            what: format!("N = 8, {}: of the Rust", calls.title()),
            measured: ratio,
            most: 0.7,
            unit: "",
            why: "Every call first checks what it is lent and the whole table; the Rust has neither, and its sockets are found by a pointer.".into(),
            detail: Some(detail),
        }
    }

    fn growth_targets(&self) -> Vec<Target> {
        let (first, last) = (&self.growth[0], &self.growth[self.growth.len() - 1]);
        let slots = (last.open - first.open) as f64;
        let grown = |i: usize, who| {
            let at = |g: &Growth| g.contests[i].1.time(who).map_or(f64::NAN, |s| s.mid);
            (at(last) - at(first)) / slots
        };
        let mut all = Vec::new();
        for (i, calls) in Calls::FIVE.into_iter().enumerate() {
            all.push(Target {
                group: "Growth with N".into(),
                what: format!("growth of a call for each open slot, {}", calls.title()),
                measured: Some(grown(i, Who::Ours) / calls.count() as f64),
                most: 3.0,
                unit: " ns",
                why: format!(
                    "It is the check's, which in the same run by itself grew by {:.2} ns for each connected slot.",
                    grown(0, Who::Check)
                ),
                detail: None,
            });
        }
        let round = &last.contests.iter().find(|c| c.0 == Calls::Bytes).expect("write and read").1;
        all.push(Target {
            group: "16 bytes at N = 1,024".into(),
            what: "N = 1,024, full, 16 bytes through write and read: of Linux".into(),
            measured: round.ratio(Who::Linux).map(|s| s.mid),
            most: 5.0,
            unit: "",
            why: format!(
                "Two calls make two checks of {} open slots, {:.0} % of the {} ns; Linux looks at no other socket.",
                number(last.open as f64),
                100.0 * Self::checked(Calls::Bytes, round).min(1.0),
                number(round.ours())
            ),
            detail: None,
        });
        all
    }

    fn check_targets(&self) -> Vec<Target> {
        let slot = |c: &Check| c.connected.ours() / c.n as f64;
        let item = |c: &Check| c.items.ours() / (256 * c.n) as f64;
        let most = |f: &dyn Fn(&Check) -> f64| self.checks.iter().map(f).fold(0.0, f64::max);
        let (first, last) = (&self.checks[0], &self.checks[self.checks.len() - 1]);
        let slope = (last.connected.ours() - first.connected.ours()) / (last.n - first.n) as f64;
        let mut all = vec![
            Target {
                group: "The check, a slot".into(),
                what: "the check, for each connected slot with an empty inbox, the most of N = 8 to 1,024".into(),
                measured: Some(most(&slot)),
                most: 3.0,
                unit: " ns",
                why: format!(
                    "Each slot's sixteen words are looked at, and its peer's. From N = 8 to 1,024 each further slot takes {slope:.2} ns; \
                     what a call of the check costs beside its slots is counted in."
                ),
                detail: None,
            },
            Target {
                group: "The check, an item".into(),
                what: "the check, for each of 256 items in every inbox, the most of N = 8 to 1,024".into(),
                measured: Some(most(&item)),
                most: 1.0,
                unit: " ns",
                why: "The places of the items are compared one by one.".into(),
                detail: None,
            },
        ];
        for named in &self.names {
            let time = named.contest.ours() / 1e3;
            all.extend(named.target.map(|target| Target {
                group: named.title.into(),
                what: format!("the check, {}", named.title),
                measured: Some(time),
                most: target,
                unit: " µs",
                why: format!(
                    "Each name is compared with all before it: 8,128 pairs, {:.1} ns each.",
                    named.contest.ours() / 8_128.0
                ),
                detail: None,
            }));
        }
        all
    }

    /// Whether each slot costs the same, from 64 on.
    fn linear(&self) -> String {
        let each = self.checks.iter().filter(|c| c.n >= 64).map(|c| c.connected.ours() / c.n as f64);
        let (least, most) = each.fold((f64::INFINITY, 0.0), |(a, b), x| (x.min(a), x.max(b)));
        let verdict = if most <= 1.25 * least { "the cost is linear" } else { "not linear in this run" };
        format!("From N = 64 on a connected slot costs {least:.2} to {most:.2} ns: {verdict}.\n\n")
    }

    fn targets_table(&self) -> String {
        let mut rows = vec![row(["target", "measured", "at most", ""])];
        rows.extend(self.targets().iter().map(Target::cells));
        grid(&rows)
    }

    /// Each group in which a target was missed, with the reason.
    fn misses(&self) -> String {
        let mut text = String::new();
        let mut last = String::new();
        for target in self.targets().into_iter().filter(Target::missed) {
            if target.group != last {
                writeln!(text, "- **{}**: {}", target.group, target.why).unwrap();
            }
            if let Some(detail) = target.detail {
                writeln!(text, "  - {detail}").unwrap();
            }
            last = target.group;
        }
        if text.is_empty() { "No target was missed in this run.\n".into() } else { text }
    }

    /// What is said on the terminal when all is done.
    pub fn summary(&self) -> String {
        format!("{}\n{}", self.targets_table(), self.misses())
    }

    pub fn picture(&self) -> String {
        let line = |name, colour, dashes, points| Line { name, colour, dashes, points };
        let over_n = |calls: Calls, who| {
            let at = |g: &Growth| {
                let contest = &g.contests.iter().find(|c| c.0 == calls)?.1;
                Some((g.n as f64, contest.time(who)?.mid))
            };
            self.growth.iter().filter_map(at).collect::<Vec<_>>()
        };
        let over_size = |items: usize, who| {
            let at = |s: &Size| Some((s.bytes as f64, s.contest.time(who)?.mid));
            self.sizes.iter().filter(|s| s.items == items).filter_map(at).collect::<Vec<_>>()
        };
        let check = self.checks.iter().map(|c| (c.n as f64, c.connected.ours())).collect();
        let [ours, rust, linux, grey] = ["#0072b2", "#d55e00", "#009e73", "#666"];
        let mut slots = Panel {
            title: "write and read of 16 bytes, against slots",
            across: "N, all but three slots open",
            lines: vec![
                line("ours", ours, "none", over_n(Calls::Bytes, Who::Ours)),
                line("the Rust", rust, "none", over_n(Calls::Bytes, Who::Rust)),
                line("Linux", linux, "none", over_n(Calls::Bytes, Who::Linux)),
                line("the check alone, all connected", grey, "5 4", check),
            ],
        };
        let mut sizes = Panel {
            title: "there and back, against size, N = 8",
            across: "bytes",
            lines: vec![
                line("ours", ours, "none", over_size(0, Who::Ours)),
                line("ours, 16 items", ours, "5 4", over_size(16, Who::Ours)),
                line("the Rust", rust, "none", over_size(0, Who::Rust)),
                line("Linux, 16 descriptors", linux, "5 4", over_size(16, Who::Linux)),
                line("Linux", linux, "none", over_size(0, Who::Linux)),
                line("memcpy twice", grey, "2 3", over_size(0, Who::Memcpy)),
            ],
        };
        for panel in [&mut slots, &mut sizes] {
            panel.lines.retain(|line| !line.points.is_empty());
        }
        svg([&slots, &sizes])
    }

    /// docs/BENCH.md.
    pub fn page(&self) -> String {
        let Machine { processor, cores, kernel, load } = &self.machine;
        let rough = if self.quick { "**A quick run: its numbers are rough.**\n\n" } else { "" };
        let by = if cfg!(check_alone) {
            "by itself (`bench_check` of `bench_exports`)"
        } else {
            "by a readiness call that is refused right after it, its handle being nobody's"
        };
        format!(
            "{HEAD}{rough}Processor: {processor}, {cores} cores; {kernel}; load {load} as the run began. Each time is the median of {} \
             samples of some 40 microseconds, each ratio the median over samples taken side by side.\n\n\
             ![cost against slots and against size](bench.svg)\n\n\
             ## Targets\n\n{}\n## Why a target is missed\n\n{}\n\
             ## The calls\n\n{CALLS}{}\n## Sizes and items\n\n{}{}\n## Slots\n\n{SLOTS}{}\n\
             ## The check\n\nEvery call makes the whole well-formed check first, under the host's lock. It is timed {by}.\n\n{}\n{}{}\n{NAMES}\
             ## One inbox by itself\n\n{INBOX}{}\n{TAIL}",
            self.pace.samples(),
            self.targets_table(),
            self.misses(),
            calls_table(&self.calls),
            sizes_text(),
            sizes_table(&self.sizes),
            growth_table(&self.growth),
            checks_table(&self.checks),
            self.linear(),
            names_table(&self.names),
            inbox_table(&self.inbox),
        )
    }
}

/// Why a copy is slow beside this one.
fn copying(other: Who) -> String {
    if other == Who::Memcpy { COPY.into() } else { UNKNOWN.into() }
}

fn name_of(who: Who) -> &'static str {
    match who {
        Who::Ours => "ours",
        Who::Rust => "the Rust",
        Who::Linux => "Linux",
        Who::Memcpy => "memcpy twice",
        Who::Check => "the check",
    }
}

const HEAD: &str = "\
# Timing

`make bench` times the library in one run beside the unchanged Rust original (the same sequences of calls), beside Linux's own Unix
stream sockets and beside memcpy, and writes this page and its picture: every number here was measured in that run.

";

const CALLS: &str = "\
A table of 8 slots and 65,536 bytes an inbox, otherwise empty. The Rust's sockets are plain objects: no table, no handles, no check;
its lock and its path type are stand-ins (`oracle/standins`), and its locks are counted in, where ours are without the host's one. For
Linux a connection is a `socketpair` and two closes, a readiness a `poll`.

";

fn sizes_text() -> String {
    format!(
        "There and back by one thread, N = 8, {} to {} bytes with {} items. Without items it is write and read. Linux's items are descriptors \
         of /dev/null in an SCM_RIGHTS message; what arrives is closed again, and that is counted in. memcpy goes from the source to a buffer \
         and from there to the destination; that buffer stays in the first cache where it is small, while an inbox goes on through its ring.\n\n",
        number(SIZES[0] as f64),
        number(SIZES[SIZES.len() - 1] as f64),
        ITEMS.map(|i| i.to_string()).join(", "),
    )
}

const SLOTS: &str = "\
Nanoseconds: ours / the Rust / Linux. A listener and connected pairs in all slots but three; as many sockets are open beside the Rust's
and Linux's pair.

";

const NAMES: &str = "\
Names are compared each with all before it. The fourth line is the worst case of the check that we know of, the last the worst call: it
runs under the host's lock. A host that lets strangers choose names bounds how many there are, or how long.

";

const INBOX: &str = "\
`push` and `take` of one inbox over rings of its own (`bench_exports`), beside memcpy to the ring and from it over the same three buffers, and
beside the original's `try_sendmsg` and `try_recvmsg`.

";

const COPY: &str = "\
The bytes move in straight runs, two at most, each a loop that copies byte by byte. The compiler does not call `memcpy` for such a loop: \
it is not told that two slices never overlap, tests for that at run time and copies 32 bytes an iteration in a loop of its own. That is as \
fast as `memcpy` in some runs and slower in others, most likely where another thread shares the core.";

const UNKNOWN: &str = "No reason is known; the spread in the tables below says how noisy the run was.";

const TAIL: &str = "\
## How it is measured

The archives are native by construction (`scripts/native-archive`), and the program stops where it sees that the processor is emulated:
emulated runs are never timed. It needs the kit and Rust, and no crate from a registry. The Rust original is compiled
unchanged, where it stands: `EIDROVANG_RUST` names its folder (an absolute path; without it `../shared/docs/src` beside the
repository); where it is not there the comparison with it is passed over.

All hands give a sample in turn, who begins changes each time, and the turns are taken in passes with pauses between, so that a
neighbour's burst does not decide. \"Middle half\" is where half of the ratios lie. What takes longer than a millisecond is sampled once a pass.
The tables of the check are laid out by hand, as [STORAGE.md](STORAGE.md) says, and seen to be well-formed by a call: by calls alone some
of them would take minutes to fill.

    make bench                                          writes docs/BENCH.md and docs/bench.svg
    target/bench/release/bench --quick                  a rough run in seconds, which writes them too
    target/bench/release/bench --quick --dry            the same, which writes nothing
";
