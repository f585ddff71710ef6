//! What both sides are given: pseudo-random, the same in every run.

/// A generator of pseudo-random numbers (xorshift64*).
pub struct Random(u64);

impl Random {
    pub fn new(seed: u64) -> Self {
        Random(seed)
    }

    pub fn next(&mut self) -> u64 {
        self.0 ^= self.0 >> 12;
        self.0 ^= self.0 << 25;
        self.0 ^= self.0 >> 27;
        self.0.wrapping_mul(0x2545_F491_4F6C_DD1D)
    }

    /// A number below `n`.
    pub fn below(&mut self, n: u64) -> u64 {
        (self.next() >> 32) % n
    }

    /// True once in `n` times.
    pub fn once_in(&mut self, n: u64) -> bool {
        self.below(n) == 0
    }
}

/// Where a signal stands in its bytes.
#[derive(Clone, Copy)]
pub struct Place {
    pub motorola: bool,
    pub start: u16,
    pub length: u8,
}

/// Places in columns, as the proved loop takes them.
pub struct Places {
    pub starts: Vec<u16>,
    pub lengths: Vec<u8>,
    pub motorola: Vec<u8>,
}

impl Places {
    pub fn of(all: &[Place]) -> Places {
        Places {
            starts: all.iter().map(|p| p.start).collect(),
            lengths: all.iter().map(|p| p.length).collect(),
            motorola: all.iter().map(|p| p.motorola as u8).collect(),
        }
    }
}

impl Place {
    /// The signal of `length` bits whose first bit is the order's bit `m`.
    fn at(motorola: bool, m: u64, length: u64) -> Place {
        let start = if motorola { 8 * (m / 8) + 7 - m % 8 } else { m };
        Place { motorola, start: start as u16, length: length as u8 }
    }

    /// 8 or 16 bits of `size` bytes, made of whole bytes.
    pub fn aligned(r: &mut Random, size: u64) -> Place {
        let bytes = 1 + r.below(2);
        Place::at(r.once_in(2), 8 * r.below(size + 1 - bytes), 8 * bytes)
    }

    /// 10 or 12 bits.
    pub fn odd(r: &mut Random, size: u64) -> Place {
        let length = 10 + 2 * r.below(2);
        Place::at(r.once_in(2), r.below(8 * size + 1 - length), length)
    }

    /// 1 to 64 bits; `size` is at least eight.
    pub fn any(r: &mut Random, size: u64) -> Place {
        let length = 1 + r.below(64);
        Place::at(r.once_in(2), r.below(8 * size + 1 - length), length)
    }

    /// 58 to 64 bits that touch nine bytes; `size` is at least nine.
    pub fn in_nine(r: &mut Random, size: u64) -> Place {
        let length = 58 + r.below(7);
        Place::at(r.once_in(2), 8 * r.below(size - 8) + 65 - length + r.below(length - 57), length)
    }

    /// No bits: refused at once, so that little but the loop is timed.
    pub fn none(_: &mut Random, _: u64) -> Place {
        Place::at(false, 0, 0)
    }
}

/// Bytes for the models, and a threshold that flags some of them by their bin's part.
#[derive(Clone)]
pub struct Bytes {
    pub values: Vec<u8>,
    pub threshold: f32,
}

impl Bytes {
    /// States below 10 in runs of 20 on average, the lower ones more often, and once in 200 times any byte.
    pub fn states(n: usize) -> Bytes {
        let mut r = Random::new(0x5EED_0007);
        let mut state = 0;
        let mut byte = || {
            if r.once_in(20) {
                state = r.below(10).min(r.below(10)) as u8;
            }
            if r.once_in(200) { r.below(256) as u8 } else { state }
        };
        Bytes { values: (0..n).map(|_| byte()).collect(), threshold: 0.02 }
    }

    /// A counter below 16 that goes round.
    pub fn counter(n: usize) -> Bytes {
        Bytes { values: (0..n).map(|i| (i % 16) as u8).collect(), threshold: 1.0 / 16.0 }
    }

    /// Any byte, each as often as the others.
    pub fn random(n: usize) -> Bytes {
        let mut r = Random::new(0x5EED_0008);
        Bytes { values: (0..n).map(|_| r.below(256) as u8).collect(), threshold: 1.0 / 256.0 }
    }
}

/// The definition record of a log: `flags` are extended 1, signed 4, multiplexor 8, conditional 16.
fn definition(out: &mut Vec<u8>, id: u32, flags: u8, p: Place, condition: u16) {
    let name = (out.len() / 24) as u32;
    out.extend([0xA5, 0x44]);
    out.extend(id.to_le_bytes());
    out.push(flags | (p.motorola as u8) << 1);
    out.extend(p.start.to_le_bytes());
    out.push(p.length);
    out.extend(0.5f32.to_le_bytes());
    out.extend((-20.0f32).to_le_bytes());
    out.extend(name.to_le_bytes());
    out.extend(condition.to_le_bytes());
}

/// The frame record of a log.
fn frame(out: &mut Vec<u8>, id: u32, extended: bool, length: u8, data: u64) {
    out.extend([0xA5, 0x46, extended as u8, length]);
    out.extend(id.to_le_bytes());
    out.extend(data.to_le_bytes());
}

/// A table's threshold, and its definitions and frames as records of a log.
pub struct Traffic {
    pub threshold: f32,
    pub definitions: Vec<u8>,
    pub frames: Vec<u8>,
}

/// The settings of every table but one.
pub const ALPHA: f32 = 0.1;
pub const THRESHOLD: f32 = 3.0;

/// The identifiers of a table: three of four standard.
fn identifier(i: u64) -> (u32, bool) {
    if i % 4 == 3 {
        (0x1800_0000 + 0x101 * i as u32, true)
    } else {
        (0x100 + 0x10 * i as u32, false)
    }
}

/// How often a frame matches nothing, and how often one has values far from the others: once in so many.
struct Often {
    nothing: u64,
    far: u64,
}

impl Traffic {
    /// `count` definitions over three identifiers for each eight of them (24 for 64), half made of whole bytes, and half of
    /// 10 or 12 bits; every eighth identifier has a multiplexor of two bits, and its other definitions a condition. One of 32
    /// frames has another length than 8.
    fn mixed(count: u64, frames: usize, often: Often) -> Traffic {
        let mut r = Random::new(0x5EED_0001);
        let ids = (3 * count).div_ceil(8);
        let mut definitions = Vec::new();
        for k in 0..count {
            let (id, extended) = identifier(k % ids);
            let place = if k % 2 == 0 { Place::aligned(&mut r, 8) } else { Place::odd(&mut r, 8) };
            let flags = extended as u8 | if r.below(5) < 2 { 4 } else { 0 };
            match k / ids {
                _ if k % ids % 8 != 1 => definition(&mut definitions, id, flags, place, 0),
                0 => definition(&mut definitions, id, flags | 8, Place::at(false, 0, 2), 0),
                turn => definition(&mut definitions, id, flags | 16, place, turn as u16),
            }
        }
        let mut out = Vec::with_capacity(16 * frames);
        for _ in 0..frames {
            let (id, extended) = if r.once_in(often.nothing) { (0x7F0 + r.below(8) as u32, false) } else { identifier(r.below(ids)) };
            let length = if r.once_in(32) { r.below(16) as u8 } else { 8 };
            let data = if r.once_in(often.far) { r.next() } else { 0x4040_4040_4040_4040 | r.next() & 0x0707_0707_0707_0707 };
            frame(&mut out, id, extended, length, data);
        }
        Traffic { threshold: THRESHOLD, definitions, frames: out }
    }

    /// The mix: a fifth of the frames match nothing, and one of 16 has values far from the others.
    pub fn mix(count: u64, frames: usize) -> Traffic {
        Traffic::mixed(count, frames, Often { nothing: 5, far: 16 })
    }

    /// The mix with few frames that are flagged: few have values far from the others, and the threshold is one that the others do not reach.
    pub fn quiet(frames: usize) -> Traffic {
        Traffic { threshold: 30.0, ..Traffic::mixed(64, frames, Often { nothing: 5, far: 4_000 }) }
    }

    /// The mix with half the frames matching nothing.
    pub fn half(frames: usize) -> Traffic {
        Traffic::mixed(64, frames, Often { nothing: 2, far: 16 })
    }

    /// The table of the mix, and frames that match nothing.
    pub fn nothing(frames: usize) -> Traffic {
        let mut r = Random::new(0x5EED_0002);
        let mut out = Vec::with_capacity(16 * frames);
        for _ in 0..frames {
            frame(&mut out, 0x108 + 0x10 * r.below(32) as u32, false, 8, r.next());
        }
        Traffic { definitions: Traffic::mix(64, 0).definitions, frames: out, threshold: THRESHOLD }
    }

    /// Eight definitions for each of eight identifiers, and frames of these.
    pub fn eight(frames: usize) -> Traffic {
        let mut r = Random::new(0x5EED_0003);
        let mut definitions = Vec::new();
        for k in 0..64 {
            let (id, extended) = identifier(k / 8);
            let place = if k % 2 == 0 { Place::aligned(&mut r, 8) } else { Place::odd(&mut r, 8) };
            definition(&mut definitions, id, extended as u8 | if r.below(5) < 2 { 4 } else { 0 }, place, 0);
        }
        let mut out = Vec::with_capacity(16 * frames);
        for _ in 0..frames {
            let (id, extended) = identifier(r.below(8));
            let data = if r.once_in(16) { r.next() } else { 0x4040_4040_4040_4040 | r.next() & 0x0707_0707_0707_0707 };
            frame(&mut out, id, extended, 8, data);
        }
        Traffic { threshold: THRESHOLD, definitions, frames: out }
    }

    /// All of it as a log.
    pub fn log(&self) -> Vec<u8> {
        let mut out = vec![0xA5, 0x50];
        out.extend(ALPHA.to_le_bytes());
        out.extend(self.threshold.to_le_bytes());
        out.extend(&self.definitions);
        out.extend(&self.frames);
        out
    }
}
