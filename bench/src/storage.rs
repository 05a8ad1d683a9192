//! Storage that is filled by hand, as docs/STORAGE.md lays it out: tables that would take minutes to reach by calls,
//! and tables whose rings a memcpy may use as well.

use eidrovang::{Errno, Handle, Item, Lent, Table, Wake, sizes};

#[cfg(check_alone)]
unsafe extern "C" {
    /// 0 for a well-formed table, or the number that a call would answer.
    fn bench_check(words: *const u64, words_len: usize, bytes: *const u8, bytes_len: usize, n: usize, c: usize) -> u32;
}

pub struct Storage {
    n: usize,
    c: usize,
    words: Vec<u64>,
    bytes: Vec<u8>,
    tokens: Vec<u32>,
    wakes: Vec<Wake>,
    releases: Vec<Item>,
}

/// A slot's words begin here.
fn slot(i: usize) -> usize {
    8 + 16 * i
}

impl Storage {
    /// A fresh table.
    pub fn new(n: usize, c: usize) -> Self {
        let least = sizes(n, c).expect("sizes in range");
        let mut storage = Self {
            n,
            c,
            words: vec![0; least.words],
            bytes: vec![0; least.bytes],
            tokens: vec![0; least.tokens],
            wakes: vec![Wake::default(); least.wakes],
            releases: vec![Item::default(); least.releases],
        };
        Table::make(storage.lent(), n, c).expect("storage of the least sizes");
        storage
    }

    fn lent(&mut self) -> Lent<'_> {
        Lent {
            words: &mut self.words,
            bytes: &mut self.bytes,
            tokens: &mut self.tokens,
            wakes: &mut self.wakes,
            releases: &mut self.releases,
        }
    }

    pub fn table(&mut self) -> Table<'_> {
        let (n, c) = (self.n, self.c);
        Table::over(self.lent(), n, c)
    }

    /// The byte ring of a slot.
    pub fn ring(&mut self, i: usize) -> &mut [u8] {
        &mut self.bytes[i * self.c..(i + 1) * self.c]
    }

    /// The first 2 x `pairs` slots connected in pairs, each with so many items queued, one to a byte.
    pub fn connected(n: usize, c: usize, pairs: usize, items: usize) -> Self {
        let mut storage = Self::new(n, c);
        for i in 0..2 * pairs {
            let words = &mut storage.words[slot(i)..slot(i) + 16];
            (words[0], words[1], words[6]) = (1, 4, 65_536 + (i as u64 ^ 1));
            (words[10], words[13]) = (items as u64, items as u64);
            let places = 8 + 16 * n + 256 * i;
            for place in 0..items {
                storage.words[places + place] = place as u64;
            }
        }
        storage.assert_well_formed();
        storage
    }

    /// Slots that are bound to these names.
    pub fn named(n: usize, c: usize, names: impl Iterator<Item = Vec<u8>>) -> Self {
        let mut storage = Self::new(n, c);
        for (i, name) in names.enumerate() {
            let words = &mut storage.words[slot(i)..slot(i) + 3];
            (words[0], words[1], words[2]) = (1, 2, name.len() as u64);
            let room = c * n + 255 * i;
            storage.bytes[room..room + name.len()].copy_from_slice(&name);
        }
        storage.assert_well_formed();
        storage
    }

    fn assert_well_formed(&mut self) {
        assert!(self.table().readiness(Handle::of(0)) == Err(Errno::BadHandle), "a well-formed table");
    }

    /// The check by itself.
    #[cfg(check_alone)]
    pub fn check(&mut self) {
        let Self { n, c, words, bytes, .. } = self;
        // SAFETY: each pointer comes with the length of what it points to.
        let answer = unsafe { bench_check(words.as_ptr(), words.len(), bytes.as_ptr(), bytes.len(), *n, *c) };
        assert!(answer == 0, "a well-formed table");
    }

    /// The check, by a call that is refused after it.
    #[cfg(not(check_alone))]
    pub fn check(&mut self) {
        self.assert_well_formed();
    }
}
