//! Scripts and logs that aim at the limits, from a seed.

use std::fmt::Write;

/// A small generator of numbers (xorshift with a multiplication), so that a seed gives the same cases everywhere.
pub struct Dice(u64);

impl Dice {
    /// From a seed.
    pub fn new(seed: u64) -> Self {
        let mut d = Dice(seed.wrapping_mul(0x9E37_79B9_7F4A_7C15) ^ 0xD1B5_4A32_D192_ED03);
        d.next();
        d
    }

    /// 64 bits.
    pub fn next(&mut self) -> u64 {
        self.0 |= (self.0 == 0) as u64;
        self.0 ^= self.0 >> 12;
        self.0 ^= self.0 << 25;
        self.0 ^= self.0 >> 27;
        self.0.wrapping_mul(0x2545_F491_4F6C_DD1D)
    }

    /// A number below n.
    pub fn below(&mut self, n: u64) -> u64 {
        (self.next() >> 11) % n
    }

    /// True once in n.
    pub fn one_in(&mut self, n: u64) -> bool {
        self.below(n) == 0
    }

    /// One of the numbers.
    pub fn of(&mut self, all: &[u64]) -> u64 {
        all[self.below(all.len() as u64) as usize]
    }

    fn bytes(&mut self, n: usize) -> Vec<u8> {
        let style = self.below(4);
        (0..n)
            .map(|_| match style {
                0 => 0,
                1 => 0xFF,
                _ => self.next() as u8,
            })
            .collect()
    }
}

/// Patterns of f32 of every kind: zeros, subnormals, normals at their ends, powers and neighbours, infinities, NaNs.
pub const FLOATS: [u64; 40] = [
    0, 0x8000_0000, 1, 0x8000_0001, 0x007F_FFFF, 0x0080_0000, 0x0080_0001, 0x8080_0000, 0x3400_0000, 0x3586_37BD, 0x3F00_0000,
    0x3F7F_FFFF, 0x3F80_0000, 0x3F80_0001, 0xBF80_0000, 0x4000_0000, 0x4040_0000, 0x4120_0000, 0xC2C8_0000, 0x4480_0000, 0x4B7F_FFFF,
    0x4B80_0000, 0x4B80_0001, 0x5F00_0000, 0x5F80_0000, 0x7140_0000, 0x7E80_0000, 0x7F00_0000, 0x7F7F_FFFF, 0xFF7F_FFFF, 0x7F80_0000,
    0xFF80_0000, 0x7FC0_0000, 0xFFC0_0000, 0x7F80_0001, 0x7FFF_FFFF, 0x3DCC_CCCD, 0x3E80_0000, 0x2B8C_BCCC, 0x1E3C_E508,
];

fn any_float(d: &mut Dice) -> u64 {
    match d.below(6) {
        0 | 1 => d.of(&FLOATS),
        2 => d.next() & 0xFFFF_FFFF,
        3 => (d.below(200) as f32 / 4.0 - 20.0).to_bits() as u64,
        4 => (d.below(1 << 30) as f32).to_bits() as u64,
        _ => 0x3F80_0000 + d.below(0x0400_0000),
    }
}

fn hex(data: &[u8]) -> String {
    crate::bytes(data)
}

/// A start, a length, the bytes and their data_len for a signal, near the borders of what fits.
fn place(d: &mut Dice) -> (u64, u64, u64, Vec<u8>) {
    let n = match d.below(8) {
        0 => d.below(4),
        1 => d.of(&[9, 16, 63, 64, 65, 100]),
        2 => d.below(72),
        _ => 8,
    };
    let data = d.bytes(n as usize);
    let length = match d.below(10) {
        0 => d.of(&[0, 1, 63, 64, 65, 66, 127, 128, 255]),
        1 => d.below(256),
        2 => 8 * (1 + d.below(8)),
        _ => 1 + d.below(64),
    };
    let start = match d.below(10) {
        0 => d.below(65536),
        1 => d.of(&[0, 7, 8, 15, 56, 63, 64, 65528, 65535]),
        2 => 8 * d.below(n + 1),
        3 => (8 * n).saturating_sub(length),
        4 => 8 * d.below(n + 1) + 7,
        _ => d.below(8 * n + 2),
    };
    let data_len = match d.below(8) {
        0 => d.below(n + 1),
        1 => n + 1 + d.below(3),
        2 => d.of(&[0, 1, u64::MAX, 1 << 61, (1 << 61) + 1, 1 << 63, 0x2000_0000_0000_0001]),
        _ => n,
    };
    (start, length, data_len, data)
}

/// Every order, start and length on eight bytes, read and written, in full.
pub fn every_place(out: &mut String, d: &mut Dice) {
    for order in 0..2 {
        for start in 0..65u64 {
            for length in 0..=65u64 {
                let data = d.next().to_be_bytes();
                let _ = writeln!(out, "r {order} {start:X} {length:X} 8 {}", hex(&data));
                let raw = if length < 64 { d.next() % (1 << length.max(1)) } else { d.next() };
                let raw = if d.one_in(16) { raw.wrapping_add(1 << (length % 64)) } else { raw };
                let _ = writeln!(out, "w {order} {start:X} {length:X} 8 {raw:X} {}", hex(&data));
            }
        }
        for length in 65..=255u64 {
            let _ = writeln!(out, "r {order} 0 {length:X} 40 {}", hex(&d.bytes(64)));
            let _ = writeln!(out, "w {order} 7 {length:X} 40 0 {}", hex(&d.bytes(64)));
        }
        for n in 0..=9usize {
            for data_len in 0..=10u64 {
                for (start, length) in [(0, 8), (7, 8), (4, 12), (0, 64), (7, 64), (63, 1), (56, 8)] {
                    let data = d.bytes(n);
                    let _ = writeln!(out, "r {order} {start:X} {length:X} {data_len:X} {}", hex(&data));
                    let _ = writeln!(out, "w {order} {start:X} {length:X} {data_len:X} 1 {}", hex(&data));
                }
            }
        }
    }
}

/// Every order, start and length on slices of 0 to 17 bytes, and on 64 bytes with the lengths that can touch nine: what can be read out of eight bytes at once,
/// the first ones or the last or some between, and what can't. Each once more with a byte behind `data_len`.
pub fn every_slice(out: &mut String, d: &mut Dice) {
    for n in (0..=17).chain([64]) {
        let lengths = if n < 64 { 1..=64u64 } else { 58..=64 };
        for (order, start) in (0..2).flat_map(|order| (0..=8 * n).map(move |start| (order, start))) {
            for (length, size) in lengths.clone().flat_map(|length| [(length, n), (length, n + 1)]) {
                let data: Vec<u8> = (0..size).map(|_| (d.next() >> 32) as u8).collect();
                let _ = writeln!(out, "r {order} {start:X} {length:X} {n:X} {}", hex(&data));
            }
        }
    }
}

/// Reads and writes at random.
pub fn places(out: &mut String, d: &mut Dice, calls: usize) {
    for _ in 0..calls {
        let (start, length, n, data) = place(d);
        let order = d.below(2);
        if d.one_in(2) {
            let _ = writeln!(out, "r {order} {start:X} {length:X} {n:X} {}", hex(&data));
        } else {
            let bits = d.below(66) as u32;
            let raw = d.next() >> 1 >> (63 - bits.min(63));
            let raw = if d.one_in(8) { 1u64.checked_shl(length as u32).unwrap_or(0) } else { raw };
            let _ = writeln!(out, "w {order} {start:X} {length:X} {n:X} {raw:X} {}", hex(&data));
        }
    }
}

/// The conversion at and around every power of two and every tie near 24 binary digits, and at random.
pub fn conversions(out: &mut String, d: &mut Dice, calls: usize) {
    let both = |out: &mut String, x: u64| {
        let _ = writeln!(out, "n {x:X}\ni {x:X}\ni {:X}", x.wrapping_neg());
    };
    for k in 0..64 {
        for near in [0u64, 1, 2, 3, u64::MAX, u64::MAX - 1, u64::MAX - 2] {
            both(out, (1u64 << k).wrapping_add(near));
        }
        if k >= 24 {
            let half = 1u64 << (k - 24);
            for odd in [0, 1, 0x7F_FFFF, 0x40_0000, 0x7F_FFFE] {
                for near in [0, 1, u64::MAX] {
                    both(out, ((1u64 << k) + 2 * odd * half + half).wrapping_add(near));
                }
            }
        }
    }
    for _ in 0..calls {
        let x = d.next() >> d.below(64);
        both(out, x);
    }
}

/// The square root at every kind of float and at random.
pub fn roots(out: &mut String, d: &mut Dice, calls: usize) {
    for x in FLOATS {
        let _ = writeln!(out, "q {x:X}");
    }
    for _ in 0..calls {
        let _ = writeln!(out, "q {:X}", any_float(d));
    }
}

/// Which frames a script has: classic ones, FD frames too, or lent frames as well. But for the first, half of the signals may stand in any of 64 bytes. The last
/// has all of these, two thirds of its signals have values over the whole range of f32, and it has few identifiers.
#[derive(Clone, Copy, PartialEq, PartialOrd)]
pub enum Frames {
    Classic,
    Mixed,
    Lent,
    Full,
}

/// The lengths that a log has of FD frames.
pub const FD_LENGTHS: [u64; 16] = [0, 1, 2, 3, 4, 5, 6, 7, 8, 12, 16, 20, 24, 32, 48, 64];

/// Numbers of bytes at and beside those that a classic frame and an FD frame carry at most.
pub const GIVEN: [usize; 9] = [0, 1, 7, 8, 9, 63, 64, 65, 300];

/// A start in 64 bytes, at times the last one at which an Intel signal of the length is inside, or the one behind it.
fn far_start(d: &mut Dice, length: u64) -> u64 {
    match d.below(6) {
        0 => 512 - length + d.below(2),
        1 => d.of(&[56, 59, 60, 63, 64, 71, 448, 455, 504, 511]),
        _ => d.below(512),
    }
}

/// Length, sign and scale of signals whose values go up to the largest f32, or near it; the numbers that would be above it have no value.
const FULL_RANGE: [(u64, u64, u64); 7] = [
    (64, 0, 0x5F7F_FFFF), (64, 0, 0xDF7F_FFFF), (64, 1, 0x6000_0000), (32, 1, 0x7000_0000), (26, 1, 0x7300_0000), (16, 1, 0x7800_0000), (8, 1, 0x7C00_0000),
];

/// Numbers of eight bytes at which such signals are 0, small, 1.5 * 2^104 or the largest that there is, of either sign.
const FULL_NUMBERS: [u64; 10] = [
    0, 1, 0x180_0002_0000, u64::MAX, 3, 0x1FF_FFFE, 3u64.wrapping_neg(), 0x1FF_FFFEu64.wrapping_neg(), 0x7FFF_FF80_7FFF_7F7F, 0x8000_0080_8000_8081,
];

/// A definition whose values span the range of f32.
fn full_definition(d: &mut Dice, ids: &[u64]) -> String {
    let (length, signed, scale) = FULL_RANGE[d.below(7) as usize];
    let start = if d.one_in(3) { 64 * d.below(8) } else { 8 * d.below(9 - length.div_ceil(8)) };
    let condition = if d.one_in(12) { 0x10000 + d.below(2) } else { 0 };
    let (id, extended, name) = (d.of(ids), d.below(2), d.next() >> 32);
    format!("{id:X} {extended:X} {start:X} {length:X} 0 {scale:X} 0 {name:X} {signed:X} 0 {condition:X}")
}

/// Bytes for such definitions: whole numbers in eights, or single bytes at their ends.
fn full_bytes(d: &mut Dice, n: usize) -> Vec<u8> {
    let numbers = d.of(&[0, 4, 10]);
    let mut data = Vec::new();
    while data.len() < n {
        if numbers > 0 {
            data.extend(FULL_NUMBERS[d.below(numbers) as usize].to_le_bytes());
        } else {
            data.push(d.of(&[0, 0x7F, 0x7F, 0x7F, 0x80, 0x81, 0x81, 0x81, 0xFF]) as u8);
        }
    }
    data.truncate(n);
    data
}

/// Payloads of frames that follow one another: one of such bytes, or at times several with which the mean of a signal of 64 bits goes bad past warm-up.
fn full_payloads(d: &mut Dice) -> Vec<Vec<u8>> {
    let size = d.of(&[8, 8, 64]) as usize;
    if !d.one_in(12) {
        return vec![full_bytes(d, size)];
    }
    [0, 1, 0, 1, 0, 1, 2, 3, 3].iter().map(|i: &usize| FULL_NUMBERS[*i].to_le_bytes().repeat(size / 8)).collect()
}

fn definition(d: &mut Dice, ids: &[u64], wild: bool, frames: Frames) -> String {
    if frames == Frames::Full && !d.one_in(3) {
        return full_definition(d, ids);
    }
    let extended = d.below(2);
    let (start, mut length, _, _) = place(d);
    let id = if wild && d.one_in(8) {
        d.of(&[0x7FF, 0x800, 0x1FFF_FFFF, 0x2000_0000, 0xFFFF_FFFF, 0])
    } else {
        d.of(ids)
    };
    let multiplexor = d.one_in(6) as u64;
    let signed = d.below(2);
    if !wild || !d.one_in(6) {
        length = if multiplexor == 1 { 2 + length % 15 } else { 2 + length % 63 };
    }
    let start = if d.one_in(6) { start } else { start % 64 };
    let start = if frames != Frames::Classic && d.one_in(2) { far_start(d, length) } else { start };
    let (scale, offset) = if wild && d.one_in(4) {
        (any_float(d), any_float(d))
    } else {
        (d.of(&[0x3F80_0000, 0x3F80_0000, 0x3F00_0000, 0x4120_0000, 0xBF80_0000, 0, 0x3C23_D70A, 0x7F7F_FFFF]), d.of(&[0, 0, 0x8000_0000, 0xC220_0000, 0x42C8_0000]))
    };
    let condition = if d.one_in(4) { 0x10000 + d.of(&[0, 1, 2, 3, 255, 65535]) } else { 0 };
    format!("{id:X} {extended:X} {start:X} {length:X} {:X} {scale:X} {offset:X} {:X} {signed:X} {multiplexor:X} {condition:X}", d.below(2), d.next() >> 32)
}

/// Physical values: extremes of every length, signed and not, and scales and offsets of every kind.
pub fn values(out: &mut String, d: &mut Dice, calls: usize) {
    for length in 1..=64u64 {
        for signed in 0..2 {
            for pattern in [0u64, u64::MAX, 1 << (length - 1), (1 << (length - 1)) - 1, 1] {
                for (scale, offset) in [(0x3F80_0000u64, 0u64), (0x7F7F_FFFF, 0), (0xBF80_0000, 0x7F7F_FFFF), (1, 0x8000_0000), (0x3586_37BD, 0x4480_0000)] {
                    let _ = writeln!(out, "x 0 0 0 {length:X} 0 {scale:X} {offset:X} 0 {signed} 0 0 8 {}", hex(&pattern.to_le_bytes()));
                }
            }
        }
    }
    for scale in FLOATS {
        for offset in FLOATS {
            let _ = writeln!(out, "x 0 0 7 C 1 {scale:X} {offset:X} 0 1 0 0 8 {}", hex(&d.next().to_be_bytes()));
        }
    }
    for _ in 0..calls {
        let text = definition(d, &[0, 1, 2], true, Frames::Classic);
        let (_, _, n, data) = place(d);
        let text = if d.one_in(2) {
            let fields: Vec<&str> = text.split(' ').collect();
            let (scale, offset) = (any_float(d), any_float(d));
            format!("{} {scale:X} {offset:X} {}", fields[..5].join(" "), fields[7..].join(" "))
        } else {
            text
        };
        let _ = writeln!(out, "x {text} {n:X} {}", hex(&data));
    }
}

/// Every kind of float in every argument of a detector's calls, beside every `step`th other one.
pub fn every_setting(out: &mut String, step: usize) {
    for x in FLOATS {
        for y in [0x3F00_0000, 0x3F80_0000, x] {
            let _ = writeln!(out, "a {x:X} {y:X}\na {y:X} {x:X}");
        }
    }
    for (i, x) in FLOATS.into_iter().enumerate() {
        for y in FLOATS.into_iter().skip(i % step).step_by(step) {
            let _ = writeln!(out, "o 3E800000 40400000 2 1\nu {x:X}\nt {y:X}\nk\nu {x:X}\nc {y:X}\nt {x:X}\nk\nu 0");
        }
    }
}

/// Long sequences of samples.
pub fn detectors(out: &mut String, d: &mut Dice, calls: usize) {
    let mut left = calls as i64;
    while left > 0 {
        let alpha = d.of(&[0x3F00_0000, 0x3E80_0000, 0x3DCC_CCCD, 0x3F80_0000, 1, 0x0080_0000, 0x3F7F_FFFF]);
        let threshold = d.of(&[0, 0x4040_0000, 0x3F80_0000, 0x7F7F_FFFF, 0x8000_0000, 0x4120_0000]);
        let freeze = d.of(&[0, 1, 3, 10, 10, 0xFFFF_FFFF]);
        let warmup = d.of(&[0, 1, 5, 5, 20, 0xFFFF_FFFF]);
        let _ = if d.one_in(3) {
            writeln!(out, "a {alpha:X} {threshold:X}")
        } else {
            writeln!(out, "o {alpha:X} {threshold:X} {freeze:X} {warmup:X}")
        };
        let style = d.below(6);
        let base = any_float(d);
        let steps = 1 + d.below(60);
        for _ in 0..steps {
            let _ = match d.below(40) {
                0 => writeln!(out, "z {:X}", d.of(&[0, 1, 2, 10, 0xFFFF_FFFF])),
                1 => writeln!(out, "c {:X}", any_float(d)),
                2 => writeln!(out, "u {:X}", any_float(d)),
                3 | 4 => writeln!(out, "k"),
                _ => {
                    let x = match style {
                        0 => base,
                        1 => any_float(d),
                        2 => base.wrapping_add(d.below(3)) & 0xFFFF_FFFF,
                        3 => ((d.below(100) as f32) / 8.0).to_bits() as u64,
                        4 => d.of(&[0x7F7F_FFFF, 0xFF7F_FFFF, 0, 0x8000_0000]),
                        _ => d.of(&[0x41A0_0000, 0x41A0_0000, 0x41A8_0000, 0x447A_0000]),
                    };
                    writeln!(out, "{} {x:X}", if d.one_in(3) { "t" } else { "u" })
                }
            };
        }
        left -= steps as i64;
    }
}

/// Samples at the ends of f32; numbers from which alpha 1 comes to the largest by a finite difference and an infinite sum; and numbers whose square is just finite.
const WIDE: [u64; 18] = [
    0x7F7F_FFFF, 0x7F7F_FFFF, 0xFF7F_FFFF, 0xFF7F_FFFF, 0x7F7F_FFFE, 0xFF7F_FFFE, 0x7F00_0000, 0xFF00_0000, 0x73C0_0000, 0xF3C0_0000, 0x7460_0000, 0xF460_0000,
    0x5F7F_FFFF, 0xDF7F_FFFF, 0, 0, 0x8000_0000, 0x3F80_0000,
];

/// Long sequences of samples over the whole range of f32, of both signs or of one, at settings with which a mean goes bad in the Rust, in warm-up and past it.
pub fn wide_samples(out: &mut String, d: &mut Dice, calls: usize) {
    let mut left = calls as i64;
    while left > 0 {
        let alpha = d.of(&[0x3F80_0000, 0x3F80_0000, 0x3F80_0000, 0x3F7F_FFFF, 0x3F00_0000, 0x3DCC_CCCD, 1]);
        let threshold = d.of(&[0x7F7F_FFFF, 0x7F7F_FFFF, 0x7F7F_FFFF, 0x4040_0000, 0]);
        let _ = if d.one_in(4) {
            writeln!(out, "a {alpha:X} {threshold:X}")
        } else {
            writeln!(out, "o {alpha:X} {threshold:X} {:X} {:X}", d.of(&[0, 1, 3, 10]), d.of(&[0, 1, 2, 3, 5, 20, 0xFFFF_FFFF]))
        };
        let steps = 1 + d.below(40);
        let (cleared, set) = [(0, 0), (1 << 31, 0), (0, 1 << 31)][d.below(3) as usize];
        let wide = |d: &mut Dice| d.of(&WIDE) & !cleared | set;
        if d.one_in(2) {
            let _ = writeln!(out, "u 0\nt {:X}", 0x5F7F_FFFF | set);
        }
        for _ in 0..steps {
            let _ = match d.below(30) {
                0 => writeln!(out, "z {:X}", d.below(4)),
                1 => writeln!(out, "c {:X}", wide(d)),
                2 => writeln!(out, "k"),
                3 => writeln!(out, "u {:X}", any_float(d)),
                4..=6 => writeln!(out, "t 0\nu {:X}\nt {:X}", 0x73C0_0000 | set, 0x7F7F_FFFF | set),
                other => writeln!(out, "{} {:X}", if other % 2 == 0 { "u" } else { "t" }, wide(d)),
            };
        }
        left -= steps as i64;
    }
}

/// Detectors of any fields, such as a host may lend, each placed by its nine fields and then given some samples: every kind of alpha, threshold, mean and variance,
/// and counts next to the warm-up and to the last that there is.
pub fn lent_detectors(out: &mut String, d: &mut Dice, detectors: usize) {
    for _ in 0..detectors {
        let mean = if d.one_in(2) { d.of(&WIDE) } else { any_float(d) };
        let variance = if d.one_in(2) { d.of(&[0, 0, 0x3F80_0000, 0x7F7F_FFFF, 0x7E80_0000]) } else { any_float(d) };
        let alpha = match d.below(4) {
            0 => d.of(&[0x3F80_0000, 0x3F80_0000, 0x3F00_0000, 0x3DCC_CCCD]),
            1 => d.of(&[0, 0x8000_0000, 0xBF80_0000, 0x4000_0000, 0x7F7F_FFFF, 0xFF7F_FFFF]),
            2 => d.of(&[0x7F80_0000, 0xFF80_0000, 0x7FC0_0000]),
            _ => any_float(d),
        };
        let threshold = if d.one_in(2) { d.of(&[0x7F7F_FFFF, 0x7F80_0000, 0x7FC0_0000, 0x4040_0000]) } else { any_float(d) };
        let warmup = d.of(&[0, 1, 2, 5, 20, 0xFFFF_FFFF]);
        let count = match d.below(4) {
            0 => d.of(&[0, 1, 0xFFFF_FFFD, 0xFFFF_FFFE, 0xFFFF_FFFF]),
            1 => d.next() >> 32,
            _ => warmup.saturating_sub(2) + d.below(4),
        } & 0xFFFF_FFFF;
        let (frozen, remaining, duration) = (d.one_in(4) as u64, d.of(&[0, 1, 2, 10, 0xFFFF_FFFF]), d.of(&[0, 1, 2, 10, 0xFFFF_FFFF]));
        let _ = writeln!(out, "p {mean:X} {variance:X} {alpha:X} {threshold:X} {count:X} {frozen:X} {remaining:X} {duration:X} {warmup:X}");
        for _ in 0..1 + d.below(5) {
            let _ = match d.below(16) {
                0 => writeln!(out, "z {:X}", d.below(3)),
                1 => writeln!(out, "c {:X}", any_float(d)),
                2..=8 => writeln!(out, "u {:X}", d.of(&WIDE)),
                _ => writeln!(out, "u {:X}", any_float(d)),
            };
        }
    }
}

/// Lines of the log, of every kind and with every number of digits, into buffers of every size up to some past a line's.
pub fn lines(out: &mut String, d: &mut Dice, calls: usize) {
    let mut line = |d: &mut Dice, size: usize| {
        let any = d.next() >> 32 >> d.below(32);
        let record = d.of(&[0, 1, 9, 10, 99, 100, 999_999_999, 1_000_000_000, 0xFFFF_FFFF, any]);
        let (kind, number) = (d.below(4), d.of(&[0, 1, 9, 10, 99, 100, 255, 9_999, 10_000, 65_534, 65_535]));
        let (x, y, z) = match kind {
            2 => (number, any_float(d), any_float(d)),
            3 => (number % 256, 0, 0),
            _ => (d.below(3), number, 0),
        };
        let _ = writeln!(out, "l {kind:X} {record:X} {x:X} {y:X} {z:X} {}", hex(&d.bytes(size)));
    };
    for size in 0..=64 {
        for _ in 0..4 {
            line(d, size);
        }
    }
    for _ in 0..calls {
        let size = if d.one_in(4) { d.below(200) } else { 55 + d.below(4) };
        line(d, size as usize);
    }
}

fn ids(d: &mut Dice, frames: Frames) -> Vec<u64> {
    let n = 1 + d.below(if frames == Frames::Full { 3 } else { 12 });
    (0..n).map(|_| if d.one_in(4) { d.of(&[0, 1, 0x7FF, 0x100]) } else { d.below(0x800) }).collect()
}

/// Table calls and frames on one engine that is there; the table is shown after each call, or at the end alone.
pub fn one_engine(out: &mut String, d: &mut Dice, calls: usize, often: bool, frames: Frames) {
    out.push_str(if frames == Frames::Full { "e 3F800000 7F7FFFFF\n" } else { "e 3F000000 40000000\n" });
    let ids = ids(d, frames);
    for i in 0..calls {
        if i < 12 || d.one_in(12) {
            table_call(out, d, &ids, false, frames);
        } else {
            frame(out, d, &ids, frames);
        }
        if often {
            out.push_str("s\n");
        }
    }
    out.push_str("s\n");
}

/// Table calls and frames on one engine; the whole table is shown once in so many calls.
pub fn engines(out: &mut String, d: &mut Dice, calls: usize, shows: u64, frames: Frames) {
    let mut left = calls as i64;
    while left > 0 {
        let (alpha, threshold) = if frames == Frames::Full && d.one_in(2) {
            (0x3F80_0000, d.of(&[0x7F7F_FFFF, 0x7F7F_FFFF, 0x4040_0000]))
        } else if d.one_in(20) {
            (any_float(d), any_float(d))
        } else {
            (d.of(&[0x3F00_0000, 0x3DCC_CCCD, 0x3F80_0000]), d.of(&[0x4040_0000, 0, 0x3F80_0000]))
        };
        let _ = writeln!(out, "e {alpha:X} {threshold:X}");
        let ids = ids(d, frames);
        if d.one_in(6) {
            let _ = writeln!(out, "y {:X}", d.of(&[1, 3, 63, 64, 200]));
        }
        let steps = 20 + d.below(200);
        let wild = d.one_in(2);
        let table = d.of(&[2, 6, 20]);
        for _ in 0..steps {
            if d.one_in(table) {
                table_call(out, d, &ids, wild, frames);
            } else {
                frame(out, d, &ids, frames);
            }
            if d.one_in(shows) {
                out.push_str("s\n");
            }
        }
        out.push_str("s\n");
        left -= steps as i64;
    }
}

fn table_call(out: &mut String, d: &mut Dice, ids: &[u64], wild: bool, frames: Frames) {
    match d.below(8) {
        0 | 1 => {
            let _ = writeln!(out, "m {:X}", if d.one_in(10) { d.below(65536) } else { d.below(40) });
        }
        2 | 3 => {
            let n = d.of(&[0, 1, 2, 3, 8, 20, 63, 64, 65]);
            let _ = write!(out, "b {n:X}");
            let bad = d.below(n.max(1) * 2);
            for i in 0..n {
                let text = definition(d, ids, wild && i == bad, frames);
                let _ = write!(out, " {text}");
            }
            out.push('\n');
        }
        _ => {
            let text = definition(d, ids, wild, frames);
            let _ = writeln!(out, "d {text}");
        }
    }
}

fn frame(out: &mut String, d: &mut Dice, ids: &[u64], frames: Frames) {
    let id = if d.one_in(8) { d.of(&[0x900, 0x7FF, 0, 0xFFFF_FFFF]) } else { d.of(ids) };
    if frames == Frames::Full && !d.one_in(3) {
        return full_frames(out, d, id);
    }
    if frames >= Frames::Lent && d.one_in(3) {
        return lent_frame(out, d, id);
    }
    if frames != Frames::Classic && d.one_in(3) {
        return fd_frame(out, d, id);
    }
    let mut data = match d.below(4) {
        0 => d.bytes(8),
        1 => vec![d.below(4) as u8; 8],
        _ => (0..8).map(|i| if i < 2 { d.below(4) as u8 } else { 0 }).collect(),
    };
    if d.one_in(4) {
        let n = d.of(&[0, 1, 8, 8, 8, 9, 64, 300]) as usize;
        let data: Vec<u8> = data.iter().cycle().take(n).copied().collect();
        let len = if d.one_in(3) { d.below(n as u64 + 3) } else { n as u64 };
        let _ = writeln!(out, "g {id:X} {len:X} {}", hex(&data));
    } else {
        let id = unmasked(d, id);
        let length = classic_length(d);
        if frames != Frames::Classic && d.one_in(2) {
            data.extend(d.bytes(56));
        }
        let _ = writeln!(out, "f {id:X} {} {length:X} {}", frame_flags(d), hex(&data));
    }
}

/// An identifier, now and then with bits above its mask.
fn unmasked(d: &mut Dice, id: u64) -> u64 {
    let id = if d.one_in(6) { id + 0x800 * d.below(4) } else { id };
    let id = if d.one_in(6) { id + (d.below(8) << 29) } else { id };
    id & 0xFFFF_FFFF
}

/// The length of a classic frame, most often 8.
fn classic_length(d: &mut Dice) -> u64 {
    if d.one_in(4) {
        d.of(&[0, 1, 2, 3, 4, 5, 6, 7, 9, 12, 15, 255])
    } else {
        8
    }
}

/// The length of an FD frame: any, most often one that a log has.
fn fd_length(d: &mut Dice) -> u64 {
    match d.below(4) {
        0 => d.below(256),
        1 => d.of(&FD_LENGTHS),
        _ => 64,
    }
}

/// Small bytes, but for once in four.
fn small_bytes(d: &mut Dice, n: usize) -> Vec<u8> {
    match d.below(4) {
        0 => d.bytes(n),
        1 => vec![d.below(4) as u8; n],
        _ => (0..n).map(|_| if d.one_in(4) { d.below(4) as u8 } else { 0 }).collect(),
    }
}

/// An FD frame with 64 bytes or another number of them, and once in eight with the remote flag.
fn fd_frame(out: &mut String, d: &mut Dice, id: u64) {
    let id = unmasked(d, id);
    let length = fd_length(d);
    let given = d.of(&[64, 64, 64, 64, 64, 64, 0, 8, 9, 63, 65, 100]) as usize;
    let data = small_bytes(d, given);
    let _ = writeln!(out, "f {id:X} {} {length:X} {}", 4 + frame_flags(d), hex(&data));
}

/// A lent frame, classic or FD: with as many bytes as its length says, with fewer or one more, or with another number of them.
fn lent_frame(out: &mut String, d: &mut Dice, id: u64) {
    let id = unmasked(d, id);
    let (fd, length) = if d.one_in(2) { (4, fd_length(d)) } else { (0, classic_length(d)) };
    let lent = match d.below(4) {
        0 => GIVEN[d.below(9) as usize],
        1 => d.below(length + 2) as usize,
        _ => length as usize,
    };
    let data = small_bytes(d, lent);
    let _ = writeln!(out, "F {id:X} {} {length:X} {}", fd + frame_flags(d), hex(&data));
}

/// A frame or several of one key, for signals over the whole range of f32: classic, FD, lent or raw.
fn full_frames(out: &mut String, d: &mut Dice, id: u64) {
    let (extended, call) = (d.below(2), d.of(&[0, 1, 2, 2]));
    for data in full_payloads(d) {
        let (flags, size, data) = (extended + if data.len() > 8 { 4 } else { 0 }, data.len(), hex(&data));
        let _ = match call {
            0 => writeln!(out, "g {id:X} {size:X} {data}"),
            1 => writeln!(out, "F {id:X} {flags} {size:X} {data}"),
            _ => writeln!(out, "f {id:X} {flags} {size:X} {data}"),
        };
    }
}

/// The flags of a frame: extended half the time, and remote once in eight.
fn frame_flags(d: &mut Dice) -> u64 {
    match d.below(16) {
        14 => 2,
        15 => 3,
        other => other % 2,
    }
}

/// Remote frames with each of the lengths, of both types, each behind a frame that is not remote. A table has the same for both types: a multiplexor, a
/// signal without a condition, and one at each of two numbers of the multiplexor, both of which stand in the remote frames' bytes.
pub fn remotes(out: &mut String, lengths: &[u64]) {
    out.push_str("e 3F000000 40400000\n");
    for extended in 0..2 {
        for condition in [0, 0x10000, 0x10001] {
            let _ = writeln!(out, "d 100 {extended} 8 8 0 3F800000 0 0 0 0 {condition:X}");
        }
        let _ = writeln!(out, "d 100 {extended} 0 8 0 3F800000 0 0 0 1 0");
    }
    for length in lengths {
        for flags in 0..2 {
            let number = length % 2;
            let _ = writeln!(out, "f 100 {flags} 8 {}\nf 100 {} {length:X} {}", hex(&[number as u8; 8]), flags + 2, hex(&[1 - number as u8, 0xFF, 0, 0, 0, 0, 0, 0]));
        }
    }
    out.push_str("f 100 0 8 00FF000000000000\nf 100 1 8 01FF000000000000\ns\n");
}

/// Signals with no value for every reason and for several at once: a length of every kind, at a start that is inside or outside, with scales and offsets that
/// make a value of every kind; `step` leaves some of the scales out.
fn reasons_of_signals(out: &mut String, step: usize) {
    let floats = [0x3F80_0000u64, 0, 0x7F7F_FFFF, 0xFF7F_FFFF, 0x7F80_0000, 0xFF80_0000, 0x7FC0_0000, 0xFFC0_0001];
    for order in 0..2 {
        for length in [0u64, 1, 8, 9, 64, 65, 255] {
            for start in [0u64, 7, 8, 56, 63, 64, 65535] {
                for n in [0u64, 1, 8, 9, u64::MAX] {
                    for (i, scale) in floats.into_iter().enumerate().skip((n % step as u64) as usize).step_by(step) {
                        let offset = floats[(i + (start + n % 10) as usize) % floats.len()];
                        let _ = writeln!(out, "x 0 0 {start:X} {length:X} {order} {scale:X} {offset:X} 0 {} 0 0 {n:X} 02FF02FF02FF02FF", i % 2);
                    }
                }
            }
        }
    }
}

/// A full table of one definition, and frames for which none of them has a value: 64 outcomes of one kind.
fn full_of_one_reason(out: &mut String, definition: &str) {
    out.push_str("e 3F000000 40400000\nb 40");
    for _ in 0..64 {
        let _ = write!(out, " {definition}");
    }
    out.push_str("\nf 100 0 8 0002000000000000\ng 100 8 0002000000000000\nm 20\nf 100 0 8 0002000000000000\n");
}

/// A full table under one identifier: a multiplexor, and 21 signals each that have a condition, that need all eight bytes, and whose value is finite only
/// for small bytes. `own` is the multiplexor's own condition.
fn crowd_of_reasons(out: &mut String, start: u64, own: u64, lengths: &[u64]) {
    let _ = writeln!(out, "e 3F000000 40400000\nd 100 0 {start:X} 8 0 3F800000 0 0 0 1 {own:X}");
    for i in 0..21u64 {
        let _ = writeln!(out, "d 100 0 8 8 0 3F800000 0 0 0 0 {:X}", 0x10000 + i % 3);
        let _ = writeln!(out, "d 100 0 {:X} 10 {} 3F800000 0 0 0 0 0", 48 + 7 * (i % 2), i % 2);
        let _ = writeln!(out, "d 100 0 8 8 0 7F7FFFFF 0 0 0 0 {:X}", if i % 7 == 6 { 0x10001 } else { 0 });
    }
    for length in lengths {
        for number in 0..3u8 {
            for byte in [0u8, 2] {
                let _ = writeln!(out, "f 100 0 {length:X} {}\ng 100 {length:X} {}", hex(&[number, byte, 0, 0, 0, 0, 0, byte]), hex(&[number, byte, 1, 1, 1, 1, 1]));
            }
        }
    }
    out.push_str("f 100 2 8 0101010101010101\ns\n");
}

/// Every reason for no value, in extraction and in frames of each of the lengths: with a multiplexor that is inside, that is cut off, and that has conditions
/// of its own; and a full table of each reason alone.
pub fn reasons(out: &mut String, lengths: &[u64], step: usize) {
    reasons_of_signals(out, step);
    for definition in ["100 0 8 8 0 3F800000 0 0 0 0 10001", "100 0 40 8 0 3F800000 0 0 0 0 0", "100 0 8 8 0 7F7FFFFF 0 0 0 0 0"] {
        full_of_one_reason(out, definition);
    }
    for (start, own) in [(0, 0), (56, 0), (0, 0x10001), (0, 0x10003)] {
        crowd_of_reasons(out, start, own, lengths);
    }
}

/// Frames of each of the lengths and of every kind, by the letter of their call: classic and FD, remote and not, with each number of bytes. A table has a signal
/// in each of 64 bytes, in both byte orders by turns: how many of them are outside tells how long the payload is.
pub fn payloads(out: &mut String, letter: char, lengths: &[u64], given: &[usize]) {
    for extended in 0..2 {
        out.push_str("e 3F000000 40400000\n");
        for byte in 0..64 {
            let order = byte % 2;
            let _ = writeln!(out, "d 100 {extended} {:X} 8 {order} 3F800000 0 0 0 0 0", 8 * byte + 7 * order);
        }
        for (length, n) in pairs(lengths, given) {
            let data: Vec<u8> = (0..n as u64).map(|byte| ((byte ^ length) % 4) as u8).collect();
            for kind in 0..4 {
                let _ = writeln!(out, "{letter} 100 {} {length:X} {}", extended + 2 * kind, hex(&data));
            }
        }
        out.push_str("s\n");
    }
}

/// Each of the lengths with each number of bytes.
fn pairs<'a>(lengths: &'a [u64], given: &'a [usize]) -> impl Iterator<Item = (u64, usize)> + 'a {
    lengths.iter().flat_map(move |length| given.iter().map(move |n| (*length, *n)))
}

/// Starts, lengths and byte orders of signals across byte 8 and up to the last bit of 64 bytes, and of two that end behind it.
const FAR_PLACES: [(u64, u64, u64); 16] = [
    (0, 8, 0), (60, 8, 0), (59, 8, 1), (60, 64, 0), (59, 64, 1), (64, 8, 0), (71, 8, 1), (300, 12, 0), (448, 64, 0), (455, 64, 1), (504, 8, 0), (511, 8, 1),
    (511, 1, 0), (504, 1, 1), (505, 8, 0), (510, 8, 1),
];

/// FD frames of each of the lengths, by the letter of their call, of both types, with the remote flag and without, with each number of bytes. What stands behind
/// their length is far off, and so is what stands behind the eighth byte of the classic frames between them. A table has the same for both types: the far
/// places, a multiplexor in byte 40, and signals before and behind it at each of two of its numbers.
pub fn far_signals(out: &mut String, letter: char, lengths: &[u64], given: &[usize]) {
    out.push_str("e 3F000000 40400000\n");
    for extended in 0..2 {
        for (start, length, order) in FAR_PLACES {
            let _ = writeln!(out, "d 100 {extended} {start:X} {length:X} {order} 3F800000 0 0 0 0 0");
        }
        for (start, condition) in [8, 64, 328, 504].into_iter().flat_map(|start| [(start, 0x10000), (start, 0x10001)]) {
            let _ = writeln!(out, "d 100 {extended} {start:X} 8 0 3F800000 0 0 0 0 {condition:X}");
        }
        let _ = writeln!(out, "d 100 {extended} {:X} 8 0 3F800000 0 0 0 1 0", 8 * 40);
    }
    for (length, n) in pairs(lengths, given) {
        for flags in 0..4 {
            let number = ((length + flags) % 3) as u8;
            let far = |from: u64| hex(&(0..n as u64).map(|byte| if byte < from { number } else { 0xFF }).collect::<Vec<_>>());
            let _ = writeln!(out, "{letter} 100 {} {:X} {}\n{letter} 100 {} {length:X} {}", flags % 2, length % 16, far(8), flags + 4, far(length));
        }
    }
    let _ = writeln!(out, "{letter} 100 4 40 {0}\n{letter} 100 5 40 {0}\ns", hex(&[0xFF; 64]));
}

/// Frames whose calls have fewer bytes than a frame, and more, by the letter of the call: zeros follow, or nothing where the bytes are lent, and what is behind
/// the 64th counts for nothing.
pub fn given_bytes(out: &mut String, letter: char) {
    out.push_str("e 3F000000 40400000\n");
    for byte in [0, 7, 8, 62, 63] {
        let _ = writeln!(out, "d 100 0 {:X} 8 0 3F800000 0 0 0 0 0", 8 * byte);
    }
    for n in [64, 0, 1, 7, 8, 9, 62, 63, 65, 100, 300] {
        for flags in [0, 4] {
            let _ = writeln!(out, "{letter} 100 {flags} FF {}", hex(&vec![1; n]));
        }
    }
    out.push_str("s\n");
}

/// Multiplexors whose last bit stands in the last lent byte, or behind it. All bytes are 0 and so is the condition's number: zeros in place of bytes that are
/// not lent would make it hold.
pub fn lent_multiplexors(out: &mut String) {
    for (start, length, order, last) in [(0, 8, 0, 0), (60, 8, 0, 8), (59, 16, 1, 9), (320, 16, 0, 41), (504, 8, 0, 63), (511, 1, 1, 63)] {
        for extended in 0..2 {
            let _ = writeln!(out, "e 3F000000 40400000\nd 100 {extended} {start:X} {length:X} {order} 3F800000 0 0 0 1 0");
            let _ = writeln!(out, "b 2 100 {extended} 0 8 0 3F800000 0 0 0 0 10000 100 {extended} 0 1 0 3F800000 0 0 0 0 0");
            for (lent, flags) in [last, last + 1, 300].into_iter().flat_map(|lent| [(lent, 0), (lent, 4)]) {
                let _ = writeln!(out, "F 100 {} 40 {}", extended + flags, hex(&vec![0; lent]));
            }
        }
    }
    out.push_str("s\n");
}

const SETTINGS: [u8; 10] = [0xA5, 0x50, 0, 0, 0, 0x3F, 0, 0, 0x40, 0x40];

/// Flags of every kind.
const FLAGS: [u8; 17] = [0, 1, 2, 3, 4, 5, 6, 7, 8, 15, 16, 32, 64, 128, 253, 254, 255];

/// Short logs that end in a frame with flags and a length of every kind.
pub fn flagged_logs() -> Vec<Vec<u8>> {
    let mut logs = Vec::new();
    for flags in FLAGS {
        for length in [0, 1, 8, 9, 15, 16, 255] {
            let mut log = SETTINGS.to_vec();
            log.extend([0xA5, 0x46, flags, length, 0, 1, 0, 0, 1, 2, 3, 4, 5, 6, 7, 8]);
            logs.push(log);
        }
    }
    logs
}

/// Short logs that end in an FD frame: with every length, with flags and a length of every kind, cut at each byte, and with nothing before it.
pub fn fd_logs() -> Vec<Vec<u8>> {
    let with = |flags, length| [&SETTINGS[..], &[0xA5, 0x58, flags, length, 0, 1, 0, 0], &[length; 64]].concat();
    let mut logs: Vec<Vec<u8>> = (0..=255).map(|length| with(0, length)).collect();
    for flags in FLAGS {
        logs.extend([0, 1, 8, 9, 12, 15, 16, 64, 65, 255].map(|length| with(flags, length)));
    }
    let (start, wrong) = (SETTINGS.len(), with(255, 255));
    logs.extend((start..wrong.len()).map(|end| wrong[..end].to_vec()));
    logs.extend([wrong[start..].to_vec(), wrong[start..wrong.len() - 1].to_vec()]);
    logs
}

/// More than eight anomalies in a frame, and one definition at each place of a full table.
pub fn crowds(out: &mut String, d: &mut Dice) {
    out.push_str("e 3F000000 3F800000\n");
    for i in 0..64u64 {
        let _ = writeln!(out, "d {:X} 0 {:X} 4 0 3F800000 0 {i:X} 0 0 0", 0x100 + i / 20, (4 * i) % 64);
    }
    for k in 0..14u64 {
        let byte = if k == 8 { 0xFF } else { 0 };
        for id in 0x100..0x104 {
            let _ = writeln!(out, "f {id:X} 0 8 {}", hex(&[byte; 8]));
        }
    }
    out.push_str("s\n");
    for slot in 0..64u64 {
        let _ = writeln!(out, "m {:X}", (slot * 37) % 64);
        if d.one_in(3) {
            let _ = writeln!(out, "d 102 {} 0 8 0 3F800000 0 0 0 0 0", slot % 2);
        }
        if slot % 16 == 7 {
            out.push_str("s\n");
        }
    }
}

/// The marked run: at next slot 65,534 a batch of two gets 65,534 and 65,535, and define is then refused; a batch of three is refused there. Two more, where
/// all are asked for: a batch of three at 65,533, and one of one at 65,534.
pub fn last_slots(out: &mut String, all: bool) {
    let def = "100 0 0 8 0 3F800000 0 0 0 0 0";
    let runs = [(65533, &[1, 3, 2][..]), (65533, &[3]), (65534, &[1])];
    for (passes, batches) in runs.into_iter().take(if all { 3 } else { 1 }) {
        let _ = writeln!(out, "e 3F000000 40400000\ny {passes:X}");
        for n in batches {
            let _ = writeln!(out, "b {n}{}\ns", format!(" {def}").repeat(*n));
        }
        let _ = writeln!(out, "d {def}\nb 0\nb 1 {def}\ny 1\ns\nm FFFD\nm FFFE\nm FFFF\ns\nd {def}");
    }
}

/// Every refusal at every place of a batch; the whole table is shown after each call, or seldom.
pub fn every_refusal(out: &mut String, often: bool) {
    let show = if often { "\ns\n" } else { "\n" };
    let good = "100 0 0 8 0 3F800000 0 0 0 0 0";
    let bad = [
        "100 0 0 0 0 7F800000 0 0 0 0 0", "100 0 0 41 0 3F800000 0 0 0 0 0", "100 0 0 8 0 7FC00000 0 0 0 0 0", "800 0 0 8 0 3F800000 FF800000 0 0 0 0",
        "800 0 0 8 0 3F800000 0 0 0 0 0", "20000000 1 0 8 0 3F800000 0 0 0 0 0", "100 0 0 11 0 3F800000 0 0 0 1 0", "100 0 0 1 0 3F800000 0 0 1 0 0",
        "1FFFFFFF 1 0 10 0 3F800000 0 0 0 1 1FFFF", "7FF 0 0 2 1 0 0 0 1 0 0",
    ];
    for first in 0..3u64 {
        out.push_str("e 3F000000 40400000\n");
        for _ in 0..first {
            let _ = writeln!(out, "d {good}");
        }
        for (i, a) in bad.iter().enumerate() {
            let _ = writeln!(out, "d {a}");
            for place in 0..4 {
                let b = bad[(i + 3) % bad.len()];
                let _ = write!(out, "b 4");
                for k in 0..4 {
                    let _ = write!(out, " {}", if k == place { a } else if k > place { b } else { good });
                }
                out.push_str(show);
            }
        }
        out.push_str("s\n");
        for n in [61u64, 62, 63, 64, 65] {
            let _ = write!(out, "b {n:X}");
            for k in 0..n {
                let _ = write!(out, " {}", if k == 60 { bad[0] } else { good });
            }
            out.push_str(show);
            let _ = write!(out, "b {n:X}");
            for _ in 0..n {
                let _ = write!(out, " {good}");
            }
            out.push_str(show);
            out.push_str("b 0\n");
            let _ = writeln!(out, "d {}\nd {good}", bad[0]);
        }
    }
}

/// Numbers at which a count's conversion rounds or turns, and the last ones that there are.
const COUNTS: [u64; 30] = [
    0, 1, 2, 3, 10, 255, (1 << 23) - 1, 1 << 23, (1 << 24) - 1, 1 << 24, (1 << 24) + 1, (1 << 24) + 2, (1 << 24) + 3, (1 << 25) + 2, (1 << 25) + 3,
    (1 << 25) + 6, (1 << 40) + (1 << 16), (1 << 40) + (1 << 16) + 1, 1 << 53, (1 << 53) + 1, (1 << 63) - 1, 1 << 63, (1 << 63) + (1 << 39),
    (1 << 63) + (1 << 39) + 1, (1 << 63) + (3 << 39), u64::MAX - (1 << 39), u64::MAX - (1 << 39) + 1, u64::MAX - 2, u64::MAX - 1, u64::MAX,
];

/// A histogram of each of the sizes: half of the bytes observed and every byte asked for, then the other half observed, and a reset.
pub fn every_bin(out: &mut String, sizes: impl IntoIterator<Item = u64>) {
    let thresholds = [0u64, 0x3F80_0000, 0x3B80_0000, 0x3C00_0000, 0x3C00_0001, 0x3D80_0000, 0x7F80_0000, 0x7FC0_0000];
    for size in sizes {
        let observed = |out: &mut String, half: u64| {
            for value in (0..256).filter(|v| (v ^ v >> 3 ^ size) % 2 == half) {
                let _ = writeln!(out, "O {size:X} {value:X}");
            }
        };
        let _ = writeln!(out, "N {size:X} {size:X}\nP {size:X} 0\nJ {size:X} 0 7F800000");
        observed(out, 0);
        for value in 0..256u64 {
            let threshold = thresholds[((value + size) % 8) as usize];
            let _ = writeln!(out, "P {size:X} {value:X}\nJ {size:X} {value:X} {threshold:X}");
        }
        observed(out, 1);
        let _ = writeln!(out, "J {size:X} 0 7F800000\nJ {size:X} FF 3C000000\nH 10C\nS\nR {size:X}\nJ {size:X} 0 7F800000\nH 10");
    }
}

/// A Markov model of each of the sizes: pairs that have every byte on each side observed and asked for, and a reset.
pub fn every_state(out: &mut String, sizes: impl IntoIterator<Item = u64>) {
    for size in sizes {
        let lent = format!("{:X} {size:X}", size * size);
        let _ = writeln!(out, "A {size:X} {lent}\nQ {lent} 0 0");
        for from in 0..256u64 {
            let to = (37 * from + size) % 256;
            let _ = writeln!(out, "B {lent} {from:X} {to:X}\nQ {lent} {from:X} {:X}", if from % 2 == 0 { to } else { to ^ 1 });
        }
        let _ = writeln!(out, "K 46 46\nY\nX {lent}\nQ {lent} 0 0\nK 10 10");
    }
}

/// Every call on a histogram that is lent so many counts. A model is placed before each: of the size, and with a total, seen bytes and no flag.
fn histogram_calls(out: &mut String, size: u64, lent: u64) {
    let placed = format!("V {size:X} 9 8001 0 0 8000000000000001 0");
    let _ = writeln!(out, "{placed}\nO {lent:X} 7F\nP {lent:X} 0\nJ {lent:X} 1 0\nJ {lent:X} FF 3F800000\nS\nR {lent:X}\nS\n{placed}\nN {size:X} {lent:X}\nS");
}

/// Every call on a Markov model that is lent so many transitions and row totals.
fn markov_calls(out: &mut String, size: u64, cells: u64, rows: u64) {
    let lent = format!("{cells:X} {rows:X}");
    let _ = writeln!(out, "W {size:X} 1\nB {lent} 40 FF\nQ {lent} 0 0\nY\nX {lent}\nY\nW {size:X} 1\nA {size:X} {lent}\nY");
}

/// Every count of every buffer placed, and places behind their ends.
pub fn every_count(out: &mut String) {
    for (letter, counts) in [("C", 300), ("T", 4200), ("U", 100)] {
        for i in (0..counts + 2).chain([u64::MAX]) {
            let _ = writeln!(out, "{letter} {i:X} {:X}", i % 11 + 1);
        }
    }
    out.push_str("H 12B\nH FFFFFFFFFFFFFFFF\nK 10 63\nK 400 FFFFFFFFFFFFFFFF\n");
}

/// Sizes that there are none of: of bins, and of states some whose square wraps to a length that there is.
pub const NO_BINS: [u64; 13] = [0, 257, 300, 258, 299, 301, 512, 1 << 32, (1 << 32) + 1, (1 << 32) + 256, 1 << 63, u64::MAX - 255, u64::MAX];
pub const NO_STATES: [u64; 16] = [
    0, 65, 1 << 32, 66, 100, 101, 255, 1 << 31, (1 << 32) + 1, (1 << 32) + 64, 1 << 33, 1 << 63, (1 << 63) + 1, (1 << 63) + 64, u64::MAX - 63, u64::MAX,
];

/// Every call at sizes that there are none of, each with lent lengths of every kind.
pub fn wrong_sizes(out: &mut String, bins: &[u64], states: &[u64]) {
    for &size in bins {
        for lent in [size, 0, 1, 255, 256, 257, 300] {
            histogram_calls(out, size, lent);
        }
    }
    for &size in states {
        for (cells, rows) in [(size.wrapping_mul(size), size), (0, 0), (1, 1), (4096, 64), (4200, 100), (4200, size), (size, size)] {
            markov_calls(out, size, cells, rows);
        }
    }
}

/// Lent lengths that don't fit a size that there is: one less, one more, none, and all.
pub fn wrong_lengths(out: &mut String, bins: impl IntoIterator<Item = u64>, states: impl IntoIterator<Item = u64>) {
    for size in bins {
        for lent in [size - 1, size + 1, 0, u64::MAX] {
            histogram_calls(out, size, lent);
        }
        histogram_calls(out, size, size);
    }
    for size in states {
        let all = size * size;
        for (cells, rows) in [(all - 1, size), (all + 1, size), (0, size), (u64::MAX, size), (all, size - 1), (all, size + 1), (all, 0), (all, u64::MAX), (size, all)] {
            markov_calls(out, size, cells, rows);
        }
        markov_calls(out, size, all, size);
    }
}

/// Every kind of threshold: for ratios of every kind, for a byte that was not seen, with nothing observed, and with the flag.
pub fn thresholds(out: &mut String) {
    let states = [
        (0u64, 1u64, 1, 0), (1, 1, 1, 0), (1, 2, 1, 0), (1, 10, 1, 0), (3, 1, 1, 0), (1, 1 << 24, 1, 0), (u64::MAX, 1, 1, 0), (1, u64::MAX, 1, 0), (5, 10, 0, 0),
        (0, 0, 1, 0), (7, 0, 1, 0), (7, 0, 0, 0), (1, 10, 1, 1), (1, 10, 0, 1), (0, 0, 0, 1),
    ];
    for (i, (count, total, seen, flag)) in states.into_iter().enumerate() {
        let size = [256, 16, 100][i % 3];
        let _ = writeln!(out, "V {size:X} {total:X} 0 {:X} 0 0 {flag}\nC {:X} {count:X}\nP {size:X} 47", seen << 7, 0x47 % size);
        for threshold in FLOATS {
            let _ = writeln!(out, "J {size:X} 47 {threshold:X}");
        }
    }
}

/// Counters that come to 2^64-1, one or both, or are there: with the flag and without, observed over the border, asked for, and reset. For a histogram a size and
/// a byte, for a Markov model a size and two.
pub fn full_counters(out: &mut String, bins: &[(u64, u64)], states: &[(u64, u64, u64)]) {
    let last = [u64::MAX - 3, u64::MAX - 2, u64::MAX - 1, u64::MAX];
    let cases = last.into_iter().flat_map(|a| last.into_iter().chain([5, (1 << 63) - 1]).flat_map(move |b| [(a, b, 0), (b, a, 0), (a, b, 1)]));
    for (count, total, flag) in cases {
        for &(size, value) in bins {
            let _ = writeln!(out, "V {size:X} {total:X} 1 0 0 0 {flag}\nC {:X} {count:X}\nJ {size:X} 0 7F800000\nJ {size:X} 61 0", value % size);
            for _ in 0..3 {
                let _ = writeln!(out, "O {size:X} {value:X}\nS\nJ {size:X} {value:X} 7F800000\nJ {size:X} 62 0\nP {size:X} {value:X}");
            }
            let _ = writeln!(out, "R {size:X}\nO {size:X} {value:X}\nJ {size:X} {value:X} 7F800000");
        }
        for &(size, from, to) in states {
            let lent = format!("{:X} {size:X}", size * size);
            let (row, column) = (from % size, to % size);
            let _ = writeln!(out, "W {size:X} {flag}\nT {:X} {count:X}\nU {row:X} {total:X}\nQ {lent} {from:X} {to:X}", row * size + column);
            for _ in 0..3 {
                let _ = writeln!(out, "B {lent} {from:X} {to:X}\nY\nQ {lent} {from:X} {to:X}");
            }
            let _ = writeln!(out, "X {lent}\nB {lent} {to:X} {from:X}\nQ {lent} {to:X} {from:X}");
        }
    }
}

/// Counts and totals of every kind, most of which no observations make: above the total, of a total of 0, and rounded on either side. The threshold is the ratio
/// and then the next number above it. `step` leaves some of the totals out.
pub fn ratios(out: &mut String, step: usize) {
    for (i, count) in COUNTS.into_iter().enumerate() {
        let _ = writeln!(out, "C 1 {count:X}\nW 3 0\nT 5 {count:X}");
        for total in COUNTS.into_iter().skip(i % step).step_by(step) {
            // 0 / 0 has a sign on x86-64 and none elsewhere; the script is to be the same.
            let ratio = if (count, total) == (0, 0) { 0xFFC0_0000 } else { (count as f32 / total as f32).to_bits() };
            let _ = writeln!(out, "V 3 {total:X} 0 1 0 0 0\nP 3 40\nJ 3 40 {ratio:X}\nJ 3 40 {:X}\nU 1 {total:X}\nQ 9 3 40 5", ratio + 1);
        }
    }
}

fn any_count(d: &mut Dice) -> u64 {
    match d.below(5) {
        0 => d.of(&COUNTS),
        1 => u64::MAX - d.below(4),
        2 => d.next() >> d.below(64),
        _ => d.below(40),
    }
}

/// A size up to `most`, which is a power of two, or now and then one that there is none of.
fn any_size(d: &mut Dice, most: u64) -> u64 {
    match d.below(12) {
        0 if d.one_in(3) => d.of(&[0, most + 1, most + 2, 1 << 32, u64::MAX]),
        1 | 2 => d.of(&[1, 2, 3, most - 1, most]),
        3 | 4 => most >> d.below(most.trailing_zeros() as u64 + 1),
        _ => 1 + d.below(most),
    }
}

/// The lent length that fits, or now and then another.
fn any_lent(d: &mut Dice, fits: u64) -> u64 {
    match d.below(30) {
        0 => d.of(&[0, fits.wrapping_sub(1), fits.wrapping_add(1), fits.wrapping_mul(2), 300, u64::MAX]),
        _ => fits,
    }
}

fn any_threshold(d: &mut Dice) -> u64 {
    match d.below(4) {
        0 => any_float(d),
        1 => d.of(&FLOATS),
        _ => (d.below(20) as f32 / (1 + d.below(40)) as f32).to_bits() as u64,
    }
}

fn any_histogram(out: &mut String, d: &mut Dice, size: u64) {
    let seen = if d.one_in(2) { [d.next(), d.next(), d.next(), d.next()] } else { [d.next() >> 60, 0, 1 << d.below(64), u64::MAX] };
    let _ = writeln!(out, "V {size:X} {:X} {:X} {:X} {:X} {:X} {}", any_count(d), seen[0], seen[1], seen[2], seen[3], d.one_in(6) as u8);
}

/// One histogram, made or placed, and calls on it.
fn one_histogram(out: &mut String, d: &mut Dice, calls: u64) {
    let size = any_size(d, 256);
    if d.one_in(4) {
        any_histogram(out, d, size);
    } else {
        let _ = writeln!(out, "N {size:X} {:X}", any_lent(d, size));
    }
    let usual = [d.below(256), d.below(256), d.below(256), d.below(256)];
    for _ in 0..calls {
        let lent = any_lent(d, size);
        let value = if d.one_in(4) { d.below(256) } else { d.of(&usual) };
        let _ = match d.below(64) {
            0 => {
                any_histogram(out, d, size);
                Ok(())
            }
            1 | 2 => writeln!(out, "C {:X} {:X}", if d.one_in(4) { d.below(310) } else { value % size.max(1) }, any_count(d)),
            3 => writeln!(out, "S"),
            4 => writeln!(out, "R {lent:X}"),
            5 => writeln!(out, "H {:X}", d.below(20)),
            6 => writeln!(out, "N {size:X} {lent:X}"),
            7..=17 => writeln!(out, "P {lent:X} {value:X}"),
            18..=35 => writeln!(out, "J {lent:X} {value:X} {:X}", any_threshold(d)),
            _ => writeln!(out, "O {lent:X} {value:X}"),
        };
    }
}

/// One Markov model, made or placed, and calls on it.
fn one_markov(out: &mut String, d: &mut Dice, calls: u64) {
    let size = any_size(d, 64);
    let all = size.wrapping_mul(size);
    let _ = if d.one_in(4) { writeln!(out, "W {size:X} {}", d.one_in(4) as u8) } else { writeln!(out, "A {size:X} {:X} {:X}", any_lent(d, all), any_lent(d, size)) };
    let usual = [d.below(256), d.below(256), d.below(256)];
    for _ in 0..calls {
        let lent = format!("{:X} {:X}", any_lent(d, all), any_lent(d, size));
        let (from, to) = if d.one_in(3) { (d.below(256), d.below(256)) } else { (d.of(&usual), d.of(&usual)) };
        let _ = match d.below(64) {
            0 => writeln!(out, "W {size:X} {}", d.one_in(4) as u8),
            1 => writeln!(out, "T {:X} {:X}", if d.one_in(4) { d.below(4210) } else { from % size.max(1) * size.min(64) + to % size.max(1) }, any_count(d)),
            2 => writeln!(out, "U {:X} {:X}", if d.one_in(4) { d.below(110) } else { from % size.max(1) }, any_count(d)),
            3 => writeln!(out, "Y"),
            4 => writeln!(out, "X {lent}"),
            5 => writeln!(out, "K {:X} {:X}", d.below(20), d.below(20)),
            6 => writeln!(out, "A {size:X} {lent}"),
            7..=31 => writeln!(out, "Q {lent} {from:X} {to:X}"),
            _ => writeln!(out, "B {lent} {from:X} {to:X}"),
        };
    }
}

/// Calls on the two models at random: most are lent what fits, and now and then a model or a count is placed.
pub fn models(out: &mut String, d: &mut Dice, calls: usize) {
    let mut left = calls as i64;
    while left > 0 {
        let most = d.of(&[80, 80, 80, 800]);
        let steps = 1 + d.below(most);
        if d.one_in(3) {
            one_markov(out, d, steps);
        } else {
            one_histogram(out, d, steps);
        }
        left -= steps as i64;
    }
}

/// The record of a definition that is written as in a script.
pub fn push_definition(log: &mut Vec<u8>, text: &str) {
    let f: Vec<u64> = text.split(' ').map(|x| u64::from_str_radix(x, 16).expect("a number")).collect();
    let flags = f[1] | f[4] << 1 | f[8] << 2 | f[9] << 3 | ((f[10] != 0) as u64) << 4;
    log.extend([0xA5, 0x44]);
    log.extend((f[0] as u32).to_le_bytes());
    log.push(flags as u8);
    log.extend((f[2] as u16).to_le_bytes());
    log.push(f[3] as u8);
    for x in [f[5], f[6], f[7]] {
        log.extend((x as u32).to_le_bytes());
    }
    log.extend((f[10] as u16).to_le_bytes());
}

/// The record of a frame without flags but the first, classic where it has eight bytes, and else FD.
pub fn push_full_frame(log: &mut Vec<u8>, id: u64, extended: u64, data: &[u8]) {
    log.extend([0xA5, if data.len() == 8 { 0x46 } else { 0x58 }, extended as u8, data.len() as u8]);
    log.extend((id as u32).to_le_bytes());
    log.extend(data);
}

fn push_frame(log: &mut Vec<u8>, d: &mut Dice, ids: &[u64]) {
    let id = if d.one_in(8) { d.next() } else { d.of(ids) };
    let quiet = !d.one_in(12);
    let (mark, flags, length, size) = if d.one_in(3) {
        (0x58, d.below(2), if d.one_in(2) { d.of(&FD_LENGTHS) } else { 64 }, 64)
    } else {
        (0x46, frame_flags(d), if d.one_in(6) { d.below(16) } else { 8 }, 8)
    };
    log.extend([0xA5, mark, flags as u8, length as u8]);
    log.extend((id as u32).to_le_bytes());
    for _ in 0..size {
        log.push(if quiet { d.below(2) as u8 } else { d.next() as u8 });
    }
}

/// A sound log of some records or a few more: settings, then definitions, removals, and frames of which a third are FD frames. In a full one two thirds of the
/// definitions have values over the whole range of f32, and two thirds of the frames are for them.
pub fn log(d: &mut Dice, records: usize, full: bool) -> Vec<u8> {
    let mut log = vec![0xA5, 0x50];
    log.extend((d.of(if full { &[0x3F00_0000, 0x3F80_0000, 0x3F80_0000] } else { &[0x3F00_0000, 0x3DCC_CCCD, 0x3F80_0000] }) as u32).to_le_bytes());
    log.extend((d.of(if full { &[0x4040_0000, 0x7F7F_FFFF, 0x7F7F_FFFF] } else { &[0x4040_0000, 0x3F80_0000, 0x4000_0000] }) as u32).to_le_bytes());
    let frames = if full { Frames::Full } else { Frames::Mixed };
    let ids = ids(d, frames);
    let table = d.of(if full { &[2, 4, 8] } else { &[2, 8, 40, 200] });
    let wild = d.one_in(2);
    for i in 1..records {
        if i < 20 || d.one_in(table) {
            if d.one_in(4) {
                log.extend([0xA5, 0x52]);
                log.extend((d.below(40) as u16).to_le_bytes());
            } else {
                push_definition(&mut log, &definition(d, &ids, wild, frames));
            }
        } else if full && !d.one_in(3) {
            let (id, extended) = (d.of(&ids), d.below(2));
            for data in full_payloads(d) {
                push_full_frame(&mut log, id, extended, &data);
            }
        } else {
            push_frame(&mut log, d, &ids);
        }
    }
    log
}

/// A log that came in damaged: cut, a byte changed, bytes lost or doubled, as many as a short record has or a long one, or the flags or the length of an FD frame
/// changed.
pub fn damage(d: &mut Dice, log: &mut Vec<u8>) {
    let at = d.below(log.len() as u64) as usize;
    let size = d.of(&[16, 72]);
    match d.below(7) {
        0 => log.truncate(at),
        1 => log[at] ^= 1 << d.below(8),
        2 => log[at] = d.next() as u8,
        3 => drop(log.drain(at..(at + 1 + d.below(size) as usize).min(log.len()))),
        4 => log.insert(at, d.of(&[0, 0xA5, 0x46, 0x58, 0xFF]) as u8),
        5 => {
            let marks: Vec<u64> = (3..log.len() as u64).filter(|end| log[*end as usize - 3..].starts_with(&[0xA5, 0x58])).collect();
            if !marks.is_empty() {
                let head = (d.of(&marks) - d.below(2)) as usize;
                log[head] = d.next() as u8 >> d.below(8);
            }
        }
        _ => {
            let part = log[at..(at + size as usize).min(log.len())].to_vec();
            log.splice(at..at, part);
        }
    }
}
