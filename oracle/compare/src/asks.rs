//! Which questions are asked: lists near every limit, and random ones.

use crate::plain::Ask;
use crate::rng::Rng;

const TOP: u64 = u64::MAX;

/// Numbers near 0, near powers of two and near the top.
pub fn edges() -> Vec<u64> {
    let mut list: Vec<u64> = (0..=130).collect();
    for p in [16, 31, 32, 33, 61, 62, 63] {
        list.extend((1u64 << p) - 20..=(1u64 << p) + 20);
    }
    for k in [TOP / 4, TOP / 2, TOP / 4 - 3, TOP - 64] {
        list.extend(k - 20..=k + 20);
    }
    list.extend(TOP - 64..=TOP);
    list
}

pub fn sizes() -> Vec<Ask> {
    let mut asks = Vec::new();
    for n in edges() {
        asks.extend([Ask::Align(n), Ask::Len(n), Ask::Space(n), Ask::RightsSpace(n), Ask::Rights(n), Ask::Capacity(n)]);
        for (level, ty) in [(1, 1), (1, 0), (0, 1), (2, 1), (1, 2), (-1, 1), (1, 65_537)] {
            for control_len in [0, 15, 16, 20, 80, n.saturating_sub(1), n, n.saturating_add(1), TOP] {
                asks.push(Ask::RightsCount { len: n, level, ty, control_len });
            }
        }
        for flags in [0, 1, -1, 8] {
            asks.push(Ask::RecvCapacity { flags, controllen: n });
        }
    }
    for how in (-5..=5).chain([i32::MIN, i32::MAX, 65_536, 65_537, 256]) {
        asks.push(Ask::How(how));
    }
    asks
}

pub fn headers() -> Vec<Ask> {
    let mut asks = Vec::new();
    for len in [0, 1, 8, 24, 40, 48, 55, 56, 57, 64, 112] {
        for (at, width) in [(0, 8), (8, 4), (12, 4), (16, 8), (24, 8), (32, 8), (40, 8), (48, 4), (52, 4)] {
            for n in [0, 1, 15, 16, 17, 79, 80, 81, 255, 256, 1 << 16, 1 << 31, 1 << 32, 1 << 63, TOP, TOP - 1] {
                for fill in [0u8, 0xFF] {
                    let mut hdr = vec![0; 112];
                    // Bytes that no rule reads.
                    for at in [12, 16, 32, 48, 52, 56, 80] {
                        hdr[at..at + 4].fill(fill);
                    }
                    let bytes = u64::to_le_bytes(n);
                    hdr[at..at + width].copy_from_slice(&bytes[..width]);
                    hdr.truncate(len);
                    asks.push(Ask::IovecCount(hdr.clone()));
                    asks.push(Ask::ControlLen(hdr));
                }
            }
        }
    }
    asks
}

/// Control buffers of every length to `longest`, with header fields near their limits.
pub fn controls(longest: usize) -> Vec<Ask> {
    let mut asks = Vec::new();
    for len in 0..=longest {
        let mut lengths: Vec<u64> = (0..40).collect();
        lengths.extend((len as u64).saturating_sub(5)..=len as u64 + 5);
        lengths.extend([1 << 32, (1 << 32) + 16, (1 << 32) + 20, 1 << 63, TOP, TOP - 3, TOP - 15]);
        lengths.sort();
        lengths.dedup();
        for header in lengths {
            let fields = [(1i32, 1i32), (0, 1), (1, 0), (1, 2), (2, 1), (-1, 1), (1, -1), (257, 1), (1, 65_537)];
            for (k, (level, ty)) in fields.into_iter().enumerate() {
                let mut control: Vec<u8> = (0..len).map(|i| (i * 37 + 200) as u8).collect();
                let mut put = |at: usize, bytes: &[u8]| {
                    for (i, &b) in bytes.iter().enumerate() {
                        if let Some(cell) = control.get_mut(at + i) {
                            *cell = b;
                        }
                    }
                };
                put(0, &header.to_le_bytes());
                put(8, &level.to_le_bytes());
                put(12, &ty.to_le_bytes());
                let held = len.saturating_sub(16) / 4;
                let rooms: &[usize] = if k == 0 { &[held + 2, held, 1, 0] } else { &[held + 1] };
                for &room in rooms {
                    asks.push(Ask::Parse { control: control.clone(), room });
                }
                if k < 2 {
                    let flags = if header % 3 == 0 { 1 << (header % 32) } else { 0 };
                    asks.push(Ask::SendControl { flags, control: control.clone(), room: held });
                }
            }
        }
        for count in 0..=len.saturating_sub(16) / 4 + 2 {
            let fds = (0..count).map(|i| [0, 1, -1, i32::MIN, i32::MAX, 77_777][i % 6]).collect();
            asks.push(Ask::Encode { fds, room: len });
        }
    }
    asks
}

/// Characters at every limit of RFC 3629's table, whole and damaged.
fn text(rng: &mut Rng, chars: usize) -> Vec<u8> {
    let mut bytes = Vec::new();
    for _ in 0..chars {
        let edge = [
            0x1u32, 0x7F, 0x80, 0x7FF, 0x800, 0xFFF, 0x1000, 0xD7FF, 0xE000, 0xFFFF, 0x10000, 0x3FFFF, 0x40000,
            0x10FFFF,
        ];
        let code = if rng.chance(1, 2) { rng.pick(&edge) } else { 1 + rng.below(0x10FFFF) as u32 };
        let c = char::from_u32(code).unwrap_or('/');
        bytes.extend(c.encode_utf8(&mut [0; 4]).as_bytes());
    }
    bytes
}

/// One byte changed, taken out, put in, or the end cut off.
fn damage(rng: &mut Rng, bytes: &mut Vec<u8>) {
    if bytes.is_empty() {
        return;
    }
    let at = rng.below(bytes.len());
    match rng.below(4) {
        0 => {
            bytes[at] = rng.pick(&[
                0, 0x7F, 0x80, 0x8F, 0x90, 0x9F, 0xA0, 0xBF, 0xC0, 0xC1, 0xC2, 0xDF, 0xE0, 0xED, 0xEF, 0xF0, 0xF4,
                0xF5, 0xFF,
            ])
        }
        1 => drop(bytes.remove(at)),
        2 => bytes.insert(at, rng.next() as u8),
        _ => bytes.truncate(at),
    }
}

pub fn random(rng: &mut Rng) -> Ask {
    let chars = rng.pick(&[0, 1, 2, 3, 5, 20, 35, 36, 53, 54, 106, 107, 108, 109, 400]);
    let mut bytes = match rng.below(4) {
        0 => rng.bytes(chars),
        1 => vec![b'a'; chars],
        _ => text(rng, chars),
    };
    if rng.chance(1, 2) {
        damage(rng, &mut bytes);
    }
    if rng.chance(1, 6) && !bytes.is_empty() {
        let at = rng.below(bytes.len());
        bytes[at] = 0;
    }
    match rng.below(10) {
        0 | 1 => Ask::Utf8(bytes),
        2 | 3 => {
            let mut addr =
                if rng.chance(1, 12) { rng.pick(&[[0, 1], [2, 0], [1, 1], [0, 0]]).to_vec() } else { vec![1, 0] };
            addr.extend(bytes);
            Ask::PathOf(addr)
        }
        4 | 5 => Ask::NewAddress { path: bytes, room: rng.pick(&[0, 2, 109, 110, 110, 110, 111, 200]) },
        6 => {
            let mut addr = rng.bytes(2);
            addr.extend(bytes);
            let to = rng.pick(&[0, 1, 2, 109, 110, 110, 110, 111, 130]);
            addr.resize(to, b'z');
            Ask::AddressLen(addr)
        }
        7 => {
            let len = rng.below(100);
            let mut control = rng.bytes(len);
            let fields = [(16 + 4 * rng.below(20) as u64).to_le_bytes(), u64::to_le_bytes(1 << 32 | 1)].concat();
            for (cell, b) in control.iter_mut().zip(fields) {
                *cell = b;
            }
            if rng.chance(1, 4) {
                damage(rng, &mut control);
            }
            Ask::Parse { control, room: rng.below(26) }
        }
        8 => {
            let count = rng.below(20);
            Ask::Encode { fds: (0..count).map(|_| rng.next() as i32).collect(), room: rng.below(110) }
        }
        _ => {
            let n = rng.next() >> rng.below(64);
            let n = if rng.chance(1, 2) { !n } else { n };
            rng.pick(&[
                Ask::Align as fn(u64) -> Ask,
                Ask::Len,
                Ask::Space,
                Ask::RightsSpace,
                Ask::Rights,
                Ask::Capacity,
            ])(n)
        }
    }
}
