//! The proved inbox over rings of its own, by the calls of crate bench_exports.

#[repr(C)]
struct BenchAnswer {
    refusal: u32,
    flags: u32,
    moved: u64,
    items: u64,
    released: u64,
}

unsafe extern "C" {
    fn bench_push(
        numbers: *mut u64,
        numbers_len: usize,
        ring: *mut u8,
        ring_len: usize,
        places: *mut u64,
        places_len: usize,
        tokens: *mut u32,
        tokens_len: usize,
        buf: *const u8,
        buf_len: usize,
        items: *const u32,
        items_len: usize,
    ) -> BenchAnswer;

    fn bench_take(
        numbers: *mut u64,
        numbers_len: usize,
        ring: *const u8,
        ring_len: usize,
        places: *const u64,
        places_len: usize,
        tokens: *const u32,
        tokens_len: usize,
        buf: *mut u8,
        buf_len: usize,
        hand_over: bool,
        items: *mut u32,
        items_len: usize,
        releases: *mut u32,
        releases_len: usize,
    ) -> BenchAnswer;
}

pub struct Inbox {
    numbers: [u64; 5],
    pub ring: Vec<u8>,
    places: Vec<u64>,
    tokens: Vec<u32>,
    releases: Vec<u32>,
}

impl Inbox {
    pub fn new(capacity: usize, head: u64) -> Self {
        Self {
            numbers: [head, 0, 0, 0, 0],
            ring: vec![0; capacity],
            places: vec![0; 256],
            tokens: vec![0; 256],
            releases: vec![0; 256],
        }
    }

    /// All of `buf`, with the items at its first byte.
    pub fn push(&mut self, buf: &[u8], items: &[u32]) {
        // SAFETY: each pointer comes with the length of what it points to, and none overlap.
        let answer = unsafe {
            bench_push(
                self.numbers.as_mut_ptr(),
                self.numbers.len(),
                self.ring.as_mut_ptr(),
                self.ring.len(),
                self.places.as_mut_ptr(),
                self.places.len(),
                self.tokens.as_mut_ptr(),
                self.tokens.len(),
                buf.as_ptr(),
                buf.len(),
                items.as_ptr(),
                items.len(),
            )
        };
        assert!(answer.refusal == 0 && answer.moved == buf.len() as u64);
    }

    /// Fills `buf` and `items`.
    pub fn take(&mut self, buf: &mut [u8], items: &mut [u32]) {
        // SAFETY: as above.
        let answer = unsafe {
            bench_take(
                self.numbers.as_mut_ptr(),
                self.numbers.len(),
                self.ring.as_ptr(),
                self.ring.len(),
                self.places.as_ptr(),
                self.places.len(),
                self.tokens.as_ptr(),
                self.tokens.len(),
                buf.as_mut_ptr(),
                buf.len(),
                true,
                items.as_mut_ptr(),
                items.len(),
                self.releases.as_mut_ptr(),
                self.releases.len(),
            )
        };
        assert!(answer.refusal == 0 && answer.flags == 0 && answer.released == 0);
        assert!(answer.moved == buf.len() as u64 && answer.items == items.len() as u64);
    }
}
