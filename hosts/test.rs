//! A host in Rust: lends detectors to libhost.a and compares each answer, and every field after it, with the original EwmaDetector, whose means are kept as document
//! 02 has it. The calls are the detector's calls of the scripts that it is given, in the form of oracle/SCRIPTS.md, and of a generated one.

use answers::host::{bits, calls, generated, Call, Original, Step};
use std::process::exit;

#[repr(C)]
#[derive(Clone, Copy)]
struct EwmaDetector {
    mean: f32,
    variance: f32,
    alpha: f32,
    z_threshold: f32,
    count: u32,
    frozen: bool,
    freeze_remaining: u32,
    freeze_duration: u32,
    warmup_count: u32,
}

#[repr(C)]
struct SampleAnswer {
    kind: u32,
    z_score: f32,
    is_anomalous: bool,
}

#[repr(C)]
struct MadeDetector {
    refusal: u32,
    detector: EwmaDetector,
}

#[link(name = "host", kind = "static")]
extern "C" {
    fn detector_new(alpha: f32, z_threshold: f32) -> MadeDetector;
    fn detector_with_options(alpha: f32, z_threshold: f32, freeze_duration: u32, warmup_count: u32) -> MadeDetector;
    fn detector_update(detector: &mut EwmaDetector, value: f32) -> SampleAnswer;
    fn detector_set_freeze_duration(detector: &mut EwmaDetector, duration: u32) -> u32;
    fn detector_recalibrate(detector: &mut EwmaDetector, baseline: f32);
}

/// The detector that this host keeps and lends.
struct Lent(EwmaDetector);

impl Lent {
    fn made(&mut self, m: MadeDetector) -> [u32; 3] {
        self.0 = m.detector;
        [m.refusal, 0, 0]
    }

    /// A detector of any fields: this host may lend it too.
    fn placed(&mut self, numbers: [u32; 9]) -> [u32; 3] {
        let [mean, variance, alpha, z_threshold, count, frozen, freeze_remaining, freeze_duration, warmup_count] = numbers;
        let [mean, variance, alpha, z_threshold] = [mean, variance, alpha, z_threshold].map(f32::from_bits);
        self.0 = EwmaDetector { mean, variance, alpha, z_threshold, count, frozen: frozen != 0, freeze_remaining, freeze_duration, warmup_count };
        [0; 3]
    }

    fn step(&mut self, Call(letter, numbers): Call) -> Step {
        let [a, b, c, d, ..] = numbers;
        let (x, y) = (f32::from_bits(a), f32::from_bits(b));
        // SAFETY: the reference is to a whole detector, aligned and exclusive, and its bool came from the library or from here.
        let answer = unsafe {
            match letter {
                'a' => self.made(detector_new(x, y)),
                'o' => self.made(detector_with_options(x, y, c, d)),
                'u' => {
                    let s = detector_update(&mut self.0, x);
                    [s.kind, bits(s.z_score), s.is_anomalous as u32]
                }
                'p' => self.placed(numbers),
                'z' => [detector_set_freeze_duration(&mut self.0, a), 0, 0],
                _ => {
                    detector_recalibrate(&mut self.0, x);
                    [0; 3]
                }
            }
        };
        let k = self.0;
        let [mean, variance, alpha, threshold] = [k.mean, k.variance, k.alpha, k.z_threshold].map(bits);
        (answer, [mean, variance, alpha, threshold, k.count, k.frozen as u32, k.freeze_remaining, k.freeze_duration, k.warmup_count])
    }
}

/// How many steps were compared. Stops at the first difference, with the calls since the detector was made.
fn compare(script: &str) -> usize {
    let (mut original, mut compared, mut since) = (Original::default(), 0, Vec::new());
    // SAFETY: a call by value.
    let mut lent = Lent(unsafe { detector_new(0.0, 0.0) }.detector);
    for call in calls(script) {
        let Some(expected) = original.step(call) else { continue };
        if "aop".contains(call.0) {
            since.clear();
        }
        since.push(call);
        let got = lent.step(call);
        if got != expected {
            for Call(letter, n) in &since {
                eprintln!("{letter} {}", n.map(|x| format!("{x:X}")).join(" "));
            }
            eprintln!("hosts: DIFFERENT at the last of these calls\nthe original: {expected:X?}\nthe library:  {got:X?}");
            exit(1);
        }
        compared += 1;
    }
    compared
}

fn main() {
    let scripts: Vec<String> = std::env::args().skip(1).collect();
    let read = |path: &String| std::fs::read_to_string(path).unwrap_or_else(|e| panic!("{path}: {e}"));
    let stored: usize = scripts.iter().map(|path| compare(&read(path))).sum();
    println!("{stored} stored and {} generated steps in Rust", compare(&generated()));
}
