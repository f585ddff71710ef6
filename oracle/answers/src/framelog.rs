//! The log of document 01, as amended by document 02, T-01 and T-05, over the unchanged Rust; its means are kept by T-06 (amended.rs), or go bad where the Rust is
//! asked for alone.

use crate::amended::Means;
use crate::{float, refusal};
use std::io::{Read, Write};
use vs_can_monitor::CanFrame;
use vs_signal_ids::{ByteOrder, SignalDefinition, SignalIdsEngine};

/// How the log goes on after a record.
enum Next {
    Record,
    Stop(u32),
}

/// How many remote frames and how many FD frames there were, and how many means were kept in frames.
#[derive(Clone, Copy, Default)]
pub struct Counted {
    pub remote: u64,
    pub fd: u64,
    pub means: u64,
}

impl Counted {
    /// Those of some more frames.
    pub fn add(&mut self, more: Counted) {
        self.remote += more.remote;
        self.fd += more.fd;
        self.means += more.means;
    }
}

struct Log<R: Read, W: Write> {
    input: R,
    out: W,
    engine: Option<Box<SignalIdsEngine>>,
    sound: u32,
    counted: Counted,
    means: Means,
}

fn u16_at(b: &[u8], i: usize) -> u16 {
    u16::from_le_bytes([b[i], b[i + 1]])
}

fn u32_at(b: &[u8], i: usize) -> u32 {
    u32::from_le_bytes([b[i], b[i + 1], b[i + 2], b[i + 3]])
}

fn f32_at(b: &[u8], i: usize) -> f32 {
    f32::from_bits(u32_at(b, i))
}

/// The frame of a record behind its mark, classic or FD; a classic one has eight data bytes, and zeros follow.
fn frame_of(b: &[u8], is_fd: bool) -> CanFrame {
    let mut data = [0; 64];
    data[..b.len() - 6].copy_from_slice(&b[6..]);
    CanFrame { id: u32_at(b, 2), is_extended: b[0] & 1 != 0, is_remote: b[0] & 2 != 0, is_fd, length: b[1], data }
}

/// The line of a table call, whose letter is D or R: what it answered, or the number of its refusal.
pub fn answer_line(out: &mut impl Write, letter: char, n: u32, answer: Result<Option<u16>, u8>) {
    match answer {
        Ok(Some(slot)) => writeln!(out, "{letter} {n} slot {slot}"),
        Ok(None) => writeln!(out, "{letter} {n} ok"),
        Err(number) => writeln!(out, "{letter} {n} refused {number}"),
    }
    .expect("write");
}

/// The line of an anomaly.
pub fn anomaly_line(out: &mut impl Write, n: u32, slot: u16, z_score: f32, value: f32) {
    writeln!(out, "F {n} slot {slot} z {} value {}", float(z_score), float(value)).expect("write");
}

/// The end line.
pub fn end_line(out: &mut impl Write, n: u32, number: u32) {
    writeln!(out, "end {n} {number}").expect("write");
}

impl<R: Read, W: Write> Log<R, W> {
    /// Fills the buffer, as far as the input goes.
    fn fill(&mut self, buf: &mut [u8]) -> usize {
        let mut have = 0;
        while have < buf.len() {
            let n = self.input.read(&mut buf[have..]).expect("read");
            if n == 0 {
                break;
            }
            have += n;
        }
        have
    }

    fn settings(&mut self, b: &[u8]) -> Next {
        match SignalIdsEngine::new(f32_at(b, 0), f32_at(b, 4)) {
            Ok(engine) => self.engine = Some(Box::new(engine)),
            Err(e) => return Next::Stop(refusal(e) as u32),
        }
        Next::Record
    }

    fn define(&mut self, b: &[u8]) -> Next {
        let flags = b[4];
        let condition = u16_at(b, 20);
        if flags >= 32 || (flags & 16 == 0 && condition != 0) {
            return Next::Stop(13);
        }
        let definition = SignalDefinition {
            can_id: u32_at(b, 0),
            is_extended: flags & 1 != 0,
            start_bit: u16_at(b, 5),
            bit_length: b[7],
            byte_order: if flags & 2 != 0 { ByteOrder::BigEndian } else { ByteOrder::LittleEndian },
            scale: f32_at(b, 8),
            offset: f32_at(b, 12),
            name_hash: u32_at(b, 16),
            signed: flags & 4 != 0,
            is_multiplexor: flags & 8 != 0,
            multiplexor_value: if flags & 16 != 0 { Some(condition) } else { None },
        };
        let answer = self.engine.as_mut().expect("settings came first").define_signal(definition);
        answer_line(&mut self.out, 'D', self.sound + 1, answer.map(|slot| Some(slot as u16)).map_err(refusal));
        Next::Record
    }

    fn remove(&mut self, b: &[u8]) -> Next {
        let answer = self.engine.as_mut().expect("settings came first").remove_signal(u16_at(b, 0));
        answer_line(&mut self.out, 'R', self.sound + 1, answer.map(|()| None).map_err(refusal));
        Next::Record
    }

    fn frame(&mut self, b: &[u8]) -> Next {
        if b[0] & !0b11 != 0 {
            return Next::Stop(13);
        }
        if b[1] > 15 {
            return Next::Stop(14);
        }
        let frame = frame_of(b, false);
        self.counted.remote += frame.is_remote as u64;
        self.process(&frame)
    }

    fn fd_frame(&mut self, b: &[u8]) -> Next {
        if b[0] & !0b1 != 0 {
            return Next::Stop(13);
        }
        if !matches!(b[1], 0..=8 | 12 | 16 | 20 | 24 | 32 | 48 | 64) {
            return Next::Stop(14);
        }
        self.counted.fd += 1;
        self.process(&frame_of(b, true))
    }

    fn process(&mut self, frame: &CanFrame) -> Next {
        let engine = self.engine.as_mut().expect("settings came first");
        let result = self.means.frame(engine, |e| e.process_frame(frame));
        for a in &result.anomalies[..result.anomaly_count as usize] {
            anomaly_line(&mut self.out, self.sound + 1, a.signal_index, a.z_score, a.physical_value);
        }
        Next::Record
    }

    /// One record, or where the log stops: 0 at its end.
    fn record(&mut self) -> Next {
        let mut mark = [0u8; 2];
        let have = self.fill(&mut mark);
        if have == 0 {
            return Next::Stop(0);
        }
        if self.sound == u32::MAX {
            return Next::Stop(15);
        }
        if have == 1 {
            return Next::Stop(11);
        }
        let rest = match mark {
            [0xA5, 0x50] => 8,
            [0xA5, 0x44] => 22,
            [0xA5, 0x52] => 2,
            [0xA5, 0x46] => 14,
            [0xA5, 0x58] => 70,
            _ => return Next::Stop(10),
        };
        let mut body = [0u8; 70];
        if self.fill(&mut body[..rest]) < rest {
            return Next::Stop(11);
        }
        if (mark[1] == 0x50) != (self.sound == 0) {
            return Next::Stop(12);
        }
        match mark[1] {
            0x50 => self.settings(&body[..rest]),
            0x44 => self.define(&body[..rest]),
            0x52 => self.remove(&body[..rest]),
            0x46 => self.frame(&body[..rest]),
            _ => self.fd_frame(&body[..rest]),
        }
    }

    fn run(&mut self) {
        loop {
            match self.record() {
                Next::Record => self.sound += 1,
                Next::Stop(number) => {
                    end_line(&mut self.out, self.sound, number);
                    return;
                }
            }
        }
    }
}

/// Prints all that the log program prints for an input, and answers how many remote and FD frames were among its sound records, and how many means they kept.
pub fn run(input: impl Read, out: impl Write, means: Means) -> Counted {
    let mut log = Log { input, out, engine: None, sound: 0, counted: Counted::default(), means };
    log.run();
    Counted { means: log.means.kept, ..log.counted }
}
