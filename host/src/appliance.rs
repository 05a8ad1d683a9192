//! The appliance in small: what the table was made for, with threads.
//!
//! A sampler listens. Diallers connect to it and are sent numbers, each with its phone line (an item)
//! attached to its first byte; a dialler that has a whole number rings its line. One dialler is slow,
//! one leaves early, one is killed, and a supervisor watches by readiness. In the end the account must
//! add up: every line that was issued was rung once, came back once, or still stands in an inbox.

use std::io::Write as _;
use std::sync::atomic::{AtomicBool, AtomicU64, Ordering};
use std::sync::{Condvar, Mutex};
use std::thread;
use std::time::{Duration, Instant};

use crate::blocking::Host;
use crate::{Errno, Handle, Item, Shutdown};

const NAME: &[u8] = b"/run/sampler";
/// Bytes of a number.
const NUMBER: usize = 8;

/// How the appliance is set up.
#[derive(Clone, Debug)]
pub struct Plan {
    /// How many diallers there are.
    pub diallers: usize,
    /// How many lines are issued.
    pub lines: u32,
    /// What chance is drawn from.
    pub seed: u64,
    /// Bytes of an inbox.
    pub capacity: usize,
    /// How long a dialler rings; the slow one takes twenty times that.
    pub ring: Duration,
    /// Diallers and feeders close and shut down at random, and a reaper closes handles under them.
    pub wild: bool,
    /// A slow dialler, one that leaves early, one that is killed.
    pub cast: bool,
    /// Progress is printed.
    pub progress: bool,
    /// The run is given up when nothing moves for so long.
    pub patience: Duration,
}

/// What became of the lines.
#[derive(Clone, Debug, Default, PartialEq, Eq)]
pub struct Account {
    /// Lines that went out with a number.
    pub issued: u64,
    /// Lines that a dialler rang.
    pub rung: u64,
    /// Lines that came back during the run.
    pub released: u64,
    /// Lines that stood in an inbox when all was over, and came back with the last closes.
    pub queued: u64,
    /// Connections that were made.
    pub connections: u64,
    /// Sends that met a dialler who had gone, and kept their line.
    pub kept: u64,
}

impl Account {
    /// Whether every issued line is in one place.
    #[must_use]
    pub fn adds_up(&self) -> bool {
        self.issued == self.rung + self.released + self.queued
    }
}

/// Numbers that a seed settles (splitmix64).
struct Chance(u64);

impl Chance {
    fn next(&mut self) -> u64 {
        self.0 = self.0.wrapping_add(0x9E37_79B9_7F4A_7C15);
        let mut z = self.0;
        z = (z ^ (z >> 30)).wrapping_mul(0xBF58_476D_1CE4_E5B9);
        z = (z ^ (z >> 27)).wrapping_mul(0x94D0_49BB_1331_11EB);
        z ^ (z >> 31)
    }

    /// Once in n.
    fn once_in(&mut self, n: u64) -> bool {
        self.next().is_multiple_of(n)
    }
}

#[derive(Clone, Copy, Debug, PartialEq, Eq)]
enum Line {
    Here,
    Out,
    Rung,
    Back,
}

/// The sampler's books.
struct Books {
    lines: Vec<Line>,
    next: usize,
    /// Lines whose send was refused: to be sent again.
    again: Vec<u32>,
    issued: u64,
    account: Account,
    wrong: Vec<String>,
}

struct Appliance<'a> {
    plan: &'a Plan,
    host: Host,
    books: Mutex<Books>,
    /// Somebody put a line back, or all are issued.
    changed: Condvar,
    moved: AtomicU64,
    /// The shift is over: the slow dialler goes home.
    over: AtomicBool,
    /// Every thread but the supervisor's has ended.
    ended: AtomicBool,
    /// The handle that each dialler has now, 0 for none.
    held: Vec<AtomicU64>,
}

/// The number that goes with a line.
fn number(line: u32) -> [u8; NUMBER] {
    let mut bytes = [0; NUMBER];
    bytes[..4].copy_from_slice(&line.to_le_bytes());
    bytes[4..].copy_from_slice(&line.wrapping_mul(0x9E37_79B1).to_le_bytes());
    bytes
}

impl Appliance<'_> {
    fn books(&self) -> std::sync::MutexGuard<'_, Books> {
        self.books.lock().expect("the books")
    }

    fn chance(&self, who: u64) -> Chance {
        Chance(self.plan.seed ^ who.wrapping_mul(0xD6E8_FEB8_6659_FD93))
    }

    /// The next line to send; `None` when all are issued.
    fn next_line(&self) -> Option<u32> {
        let mut books = self.books();
        loop {
            if books.issued == u64::from(self.plan.lines) {
                return None;
            }
            let line = books.again.pop().or_else(|| {
                let next = books.next;
                (next < books.lines.len()).then(|| {
                    books.next += 1;
                    next as u32
                })
            });
            if let Some(line) = line {
                self.turn(&mut books, line, Line::Here, Line::Out);
                return Some(line);
            }
            books = self.changed.wait(books).expect("the books");
        }
    }

    /// A line goes from one place to another: never from a place where it is not.
    fn turn(&self, books: &mut Books, line: u32, from: Line, to: Line) {
        self.moved.fetch_add(1, Ordering::Relaxed);
        match books.lines.get(line as usize).copied() {
            Some(is) if is == from => books.lines[line as usize] = to,
            is => books.wrong.push(format!("line {line} goes from {from:?} to {to:?}, and is {is:?}")),
        }
    }

    fn issued(&self) {
        let mut books = self.books();
        books.issued += 1;
        if books.issued == u64::from(self.plan.lines) {
            self.changed.notify_all();
        }
    }

    fn keep(&self, line: u32) {
        let mut books = self.books();
        books.account.kept += 1;
        self.turn(&mut books, line, Line::Out, Line::Here);
        books.again.push(line);
        self.changed.notify_one();
    }

    /// Lines that the host got back since it was last asked.
    fn collect(&self) -> u64 {
        let back = self.host.take_releases();
        let mut books = self.books();
        for item in &back {
            self.turn(&mut books, item.0, Line::Out, Line::Back);
        }
        books.account.released += back.len() as u64;
        back.len() as u64
    }

    /// One connection of the sampler: sends numbers until all are issued or the dialler is gone.
    fn feed(&self, server: Handle, mut chance: Chance) {
        while let Some(line) = self.next_line() {
            let number = number(line);
            let mut sent = match self.host.sendmsg(server, &number, &[Item(line)]) {
                Ok(sent) => sent,
                Err(Errno::Pipe | Errno::BadHandle) => {
                    self.keep(line);
                    break;
                }
                Err(e) => return self.wrong(format!("sendmsg: {e}")),
            };
            self.issued();
            // A short send took the line with it; the rest of the number follows.
            while sent < NUMBER {
                match self.host.write(server, &number[sent..]) {
                    Ok(more) => sent += more,
                    Err(Errno::Pipe | Errno::BadHandle) => break,
                    Err(e) => return self.wrong(format!("write: {e}")),
                }
            }
            if self.plan.wild && chance.once_in(500) {
                break;
            }
        }
        if chance.once_in(2) {
            let _ = self.host.shutdown(server, Shutdown::Write);
        }
        let _ = self.host.close(server);
    }

    fn wrong(&self, what: String) {
        self.books().wrong.push(what);
    }

    /// A connection to the sampler; `None` when it has gone.
    fn dial_in(&self, who: usize) -> Option<Handle> {
        loop {
            let socket = match self.host.socket() {
                Ok(socket) => socket,
                Err(Errno::TableFull) => {
                    // The other ends of closed connections are about to close.
                    thread::sleep(Duration::from_micros(200));
                    continue;
                }
                Err(e) => {
                    self.wrong(format!("socket: {e}"));
                    return None;
                }
            };
            self.held[who].store(socket.number(), Ordering::Relaxed);
            match self.host.connect(socket, NAME) {
                Ok(()) => {
                    self.books().account.connections += 1;
                    return Some(socket);
                }
                Err(Errno::BadHandle) => {}
                Err(Errno::TableFull) => {
                    let _ = self.host.close(socket);
                    thread::sleep(Duration::from_micros(200));
                }
                Err(e) => {
                    let _ = self.host.close(socket);
                    if e != Errno::ConnRefused {
                        self.wrong(format!("connect: {e}"));
                    }
                    return None;
                }
            }
        }
    }

    /// Takes numbers from one connection. Returns whether the dialler goes on.
    fn dial(&self, who: usize, socket: Handle, chance: &mut Chance) -> bool {
        let slow = self.plan.cast && who == 0;
        let leaves = self.plan.cast && who == 1;
        let (mut have, mut line) = (Vec::with_capacity(NUMBER), None);
        let mut rung = 0;
        let goes_on = loop {
            if slow && self.over.load(Ordering::Relaxed) {
                // It leaves its inbox as it is.
                break false;
            }
            let mut buf = [0; NUMBER];
            let want = if slow || self.plan.wild { 1 + chance.next() as usize % NUMBER } else { NUMBER };
            let want = want.min(NUMBER - have.len());
            let mut items = [Item(0); 2];
            let got = if self.plan.wild && chance.once_in(200) {
                // A plain read gives up the line.
                self.host.read(socket, &mut buf[..want]).map(|bytes| (bytes, 0))
            } else {
                self.host.recvmsg(socket, &mut buf[..want], &mut items).map(|r| (r.bytes, r.items))
            };
            let (bytes, count) = match got {
                Ok(got) => got,
                // Killed, or closed by the reaper.
                Err(Errno::BadHandle) => break !self.plan.cast,
                Err(e) => {
                    self.wrong(format!("recvmsg: {e}"));
                    break false;
                }
            };
            if bytes == 0 {
                let _ = self.host.close(socket);
                break true;
            }
            if count > 0 {
                if count > 1 || line.is_some() || !have.is_empty() {
                    self.wrong(format!("{count} lines in the middle of a number"));
                }
                line = Some(items[0].0);
            }
            have.extend_from_slice(&buf[..bytes]);
            if have.len() == NUMBER {
                if let Some(line) = line.take() {
                    let mut books = self.books();
                    if have[..] != number(line) {
                        books.wrong.push(format!("line {line} came with another number"));
                    }
                    self.turn(&mut books, line, Line::Out, Line::Rung);
                    books.account.rung += 1;
                    drop(books);
                    rung += 1;
                    if !self.plan.ring.is_zero() {
                        thread::sleep(self.plan.ring * if slow { 20 } else { 1 });
                    }
                }
                have.clear();
            }
            if leaves && rung == 20 {
                let _ = self.host.close(socket);
                break false;
            }
            if self.plan.wild && chance.once_in(100) {
                let how = [Shutdown::Read, Shutdown::Write, Shutdown::Both][chance.next() as usize % 3];
                let _ = self.host.shutdown(socket, how);
            }
            if self.plan.wild && chance.once_in(150) {
                let _ = self.host.close(socket);
                break true;
            }
        };
        if let Some(line) = line {
            // A line in the hand without its whole number is given back.
            let mut books = self.books();
            self.turn(&mut books, line, Line::Out, Line::Back);
            books.account.released += 1;
        }
        goes_on
    }

    fn dialler(&self, who: usize) {
        let mut chance = self.chance(1 + who as u64);
        while let Some(socket) = self.dial_in(who) {
            if !self.dial(who, socket, &mut chance) {
                break;
            }
        }
    }

    /// Watches by readiness until the diallers are done; `true` where the run has to be given up.
    fn supervise(&self, start: Instant) -> bool {
        let (mut last, mut since) = (0, Instant::now());
        let mut chance = self.chance(0);
        let (mut told, mut killed) = (Instant::now(), false);
        while !self.ended.load(Ordering::Relaxed) {
            thread::sleep(Duration::from_millis(if self.plan.wild { 2 } else { 10 }));
            self.collect();
            let beside = self.host.asleep_beside_work();
            if !beside.is_empty() {
                self.wrong(format!("{}; the table:\n{}", beside.join("; "), self.host.print()));
                return true;
            }
            let moved = self.moved.load(Ordering::Relaxed);
            if moved != last {
                (last, since) = (moved, Instant::now());
            } else if since.elapsed() > self.plan.patience {
                self.wrong(format!("nothing moves; the table:\n{}", self.host.print()));
                return true;
            }
            let kill = if self.plan.wild {
                chance.once_in(2).then(|| chance.next() as usize % self.plan.diallers)
            } else {
                let half = self.books().issued > u64::from(self.plan.lines) / 2;
                (self.plan.cast && half && !killed).then_some(2)
            };
            if let Some(who) = kill {
                let handle = self.held[who].load(Ordering::Relaxed);
                if handle != 0 {
                    killed = true;
                    let _ = self.host.close(Handle::of(handle));
                }
            }
            if self.plan.progress && told.elapsed() > Duration::from_millis(250) {
                told = Instant::now();
                let (mut readable, mut writable, mut hung_up) = (0, 0, 0);
                for handle in self.host.handles() {
                    if let Ok(ready) = self.host.readiness(handle) {
                        readable += u32::from(ready.readable);
                        writable += u32::from(ready.writable);
                        hung_up += u32::from(ready.hung_up);
                    }
                }
                let books = self.books();
                println!(
                    "{:5.2} s  issued {:>6}  rung {:>6}  back {:>5}  | sockets readable {readable}, writable {writable}, hung up {hung_up}",
                    start.elapsed().as_secs_f64(),
                    books.issued,
                    books.account.rung,
                    books.account.released,
                );
            }
        }
        false
    }
}

/// Runs the appliance to its end.
///
/// # Errors
/// What went wrong: a line in two places, a number that is not its line's, a thread that sleeps beside
/// work, a run that does not end, an account that does not add up.
pub fn run(plan: &Plan) -> Result<Account, String> {
    let start = Instant::now();
    // A listener, two ends for each dialler, and as many again for ends that are about to close.
    let slots = 1 + 4 * plan.diallers;
    let host = Host::new(slots, plan.capacity).map_err(|e| e.to_string())?;
    let books = Books {
        lines: vec![Line::Here; plan.lines as usize],
        next: 0,
        again: Vec::new(),
        issued: 0,
        account: Account::default(),
        wrong: Vec::new(),
    };
    let appliance = Appliance {
        plan,
        host,
        books: Mutex::new(books),
        changed: Condvar::new(),
        moved: AtomicU64::new(0),
        over: AtomicBool::new(false),
        ended: AtomicBool::new(false),
        held: (0..plan.diallers).map(|_| AtomicU64::new(0)).collect(),
    };
    let a = &appliance;
    let refused = |e: Errno| e.to_string();
    let listener = a.host.socket().map_err(refused)?;
    a.host.bind(listener, NAME).map_err(refused)?;
    a.host.listen(listener, 2).map_err(refused)?;
    thread::scope(|scope| {
        let sampler = scope.spawn(move || {
            // The sampler takes up connections until its listener is closed.
            let mut feeders = Vec::new();
            while let Ok(server) = a.host.accept(listener) {
                let chance = a.chance(1_000 + feeders.len() as u64);
                feeders.push(scope.spawn(move || a.feed(server, chance)));
            }
            feeders
        });
        scope.spawn(move || {
            if a.supervise(start) {
                // No thread can be stopped that sleeps for ever: the run ends here.
                // Written past a test's capture, which would be lost.
                let _ = writeln!(std::io::stderr(), "{}", a.books().wrong.join("\n"));
                std::process::exit(1);
            }
        });
        let diallers: Vec<_> = (0..plan.diallers).map(|who| scope.spawn(move || a.dialler(who))).collect();
        let mut books = a.books();
        while books.issued < u64::from(plan.lines) {
            books = a.changed.wait(books).expect("the books");
        }
        drop(books);
        let _ = a.host.close(listener);
        let mut diallers = diallers.into_iter();
        let slow = if plan.cast { diallers.next() } else { None };
        for dialler in diallers {
            let _ = dialler.join();
        }
        a.over.store(true, Ordering::Relaxed);
        let kept = slow.map(|slow| {
            let _ = slow.join();
            a.held[0].load(Ordering::Relaxed)
        });
        // A feeder may still sleep on the full inbox that the slow dialler left.
        for handle in a.host.handles() {
            if Some(handle.number()) != kept {
                let _ = a.host.close(handle);
            }
        }
        for feeder in sampler.join().into_iter().flatten() {
            let _ = feeder.join();
        }
        a.ended.store(true, Ordering::Relaxed);
    });
    a.collect();
    for handle in a.host.handles() {
        a.host.close(handle).map_err(refused)?;
    }
    let queued = a.collect();
    let mut books = appliance.books.into_inner().expect("the books");
    let account = Account { issued: books.issued, queued, released: books.account.released - queued, ..books.account };
    if !account.adds_up() {
        books.wrong.push(format!("the account does not add up: {account:?}"));
    }
    for (i, line) in books.lines.iter().enumerate() {
        if !matches!(line, Line::Rung | Line::Back) {
            books.wrong.push(format!("line {i} is lost: {line:?}"));
        }
    }
    if books.wrong.is_empty() { Ok(account) } else { Err(books.wrong[..books.wrong.len().min(20)].join("\n")) }
}
