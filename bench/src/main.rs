//! CPU time of the proved code beside the unchanged Rust, on the same inputs, in turn.
//! Arguments: the number of rounds, our log program, the Rust's, and a folder for the logs.

mod clock;
mod inputs;
mod models;
mod proved;
mod unchanged;

use inputs::{Place, Places, Random, Traffic, ALPHA, THRESHOLD};
use std::path::{Path, PathBuf};
use std::process::{Command, Stdio};
use vs_signal_ids::SignalDefinition;

/// How many calls of a kind are timed together.
const CALLS: usize = 1 << 17;

/// Nanoseconds of a run, and a number made of all its answers.
type Run = Box<dyn Fn() -> (f64, u64)>;

/// One line of the table: both sides of the same work, and what each round took.
struct Row {
    name: String,
    calls: usize,
    aim: Option<f64>,
    ours: Run,
    rust: Run,
    took: Vec<(f64, f64)>,
}

impl Row {
    fn new(name: &str, calls: usize, aim: Option<f64>, ours: Run, rust: Run) -> Row {
        Row { name: name.to_string(), calls, aim, ours, rust, took: Vec::new() }
    }

    /// One run of each. The answers have to be the same.
    fn round(&mut self) {
        let (ours, a) = (self.ours)();
        let (rust, b) = (self.rust)();
        assert_eq!(a, b, "{}: the answers differ", self.name);
        self.took.push((ours, rust));
    }

    fn print(&self) {
        let ratios = sorted(self.took.iter().map(|t| t.0 / t.1));
        let ours = sorted(self.took.iter().map(|t| t.0 / self.calls as f64));
        let rust = sorted(self.took.iter().map(|t| t.1 / self.calls as f64));
        println!(
            "| {} | {:.1} | {:.1} | {:.2} | {:.2} to {:.2} | {:.2} | {} |",
            self.name,
            median(&ours),
            median(&rust),
            median(&ratios),
            ratios[ratios.len() / 4],
            ratios[ratios.len() - 1 - ratios.len() / 4],
            ours[0] / rust[0],
            self.aim.map_or(String::new(), |x| format!("{x:.2}")),
        );
    }
}

fn sorted(numbers: impl Iterator<Item = f64>) -> Vec<f64> {
    let mut all: Vec<f64> = numbers.collect();
    all.sort_by(f64::total_cmp);
    all
}

fn median(sorted: &[f64]) -> f64 {
    (sorted[(sorted.len() - 1) / 2] + sorted[sorted.len() / 2]) / 2.0
}

fn raw(name: &str, aim: Option<f64>, size: usize, place: fn(&mut Random, u64) -> Place) -> Row {
    let mut r = Random::new(0x5EED_0004);
    let places: Vec<Place> = (0..CALLS).map(|_| place(&mut r, size as u64)).collect();
    let data: Vec<u8> = (0..CALLS + 8).flat_map(|_| r.next().to_le_bytes()).collect();
    let columns = Places::of(&places);
    let definitions: Vec<SignalDefinition> = places.iter().map(unchanged::definition_at).collect();
    let same = data.clone();
    Row::new(
        name,
        CALLS,
        aim,
        Box::new(move || clock::of(|| proved::raw(&data, size, &columns))),
        Box::new(move || clock::of(|| unchanged::raw(&same, size, &definitions))),
    )
}

fn nearest(name: &str, number: fn(&mut Random) -> u64) -> Row {
    let mut r = Random::new(0x5EED_0005);
    let numbers: Vec<u64> = (0..CALLS).map(|_| number(&mut r)).collect();
    let same = numbers.clone();
    Row::new(
        name,
        CALLS,
        None,
        Box::new(move || clock::of(|| proved::nearest(&numbers))),
        Box::new(move || clock::of(|| unchanged::nearest(&same))),
    )
}

fn update(name: &str, turns: usize) -> Row {
    let mut r = Random::new(0x5EED_0006);
    let sample = |_| if r.once_in(100) { 500.0 } else { 20.0 + r.below(1000) as f32 / 100.0 };
    let values: Vec<f32> = (0..CALLS).map(sample).collect();
    let same = values.clone();
    Row::new(
        name,
        CALLS,
        Some(1.2),
        Box::new(move || clock::of(|| proved::update(ALPHA, THRESHOLD, turns, &values))),
        Box::new(move || clock::of(|| unchanged::update(ALPHA, THRESHOLD, turns, &same))),
    )
}

fn frames(name: &str, aim: Option<f64>, traffic: Traffic) -> Row {
    let Traffic { threshold, definitions, frames } = traffic;
    let (same_definitions, same_frames) = (definitions.clone(), frames.clone());
    Row::new(
        name,
        frames.len() / 16,
        aim,
        Box::new(move || clock::of(|| proved::frames(ALPHA, threshold, &definitions, &frames))),
        Box::new(move || clock::of(|| unchanged::frames(ALPHA, threshold, &same_definitions, &same_frames))),
    )
}

/// A loop of frames through a table.
type Frames = fn(f32, f32, &[u8], &[u8]) -> u64;

/// Tables defined, and no frames.
fn tables(name: &str) -> Row {
    const TIMES: usize = 200;
    let again = |loop_of: Frames| -> Run {
        let definitions = Traffic::mix(64, 0).definitions;
        Box::new(move || clock::of(|| (0..TIMES).map(|_| loop_of(ALPHA, THRESHOLD, &definitions, &[])).sum()))
    };
    Row::new(name, 64 * TIMES, None, again(proved::frames), again(unchanged::frames))
}

/// The two log programs, each with its arguments, and where logs are kept.
struct Programs {
    ours: Vec<String>,
    rust: Vec<String>,
    logs: PathBuf,
}

impl Programs {
    /// All that a program prints.
    fn output(words: &[String], log: &Path) -> Vec<u8> {
        let input = std::fs::File::open(log).expect("the log");
        let run = Command::new(&words[0]).args(&words[1..]).stdin(input).stderr(Stdio::inherit()).output();
        let run = run.expect("the program runs");
        assert!(run.status.success(), "{} ended with {}", words.join(" "), run.status);
        run.stdout
    }

    fn log(&self, name: &str, aim: Option<f64>, traffic: Traffic) -> Row {
        let calls = traffic.frames.len() / 16;
        let log = self.logs.join(format!("{}.log", name.replace([' ', ','], "_")));
        std::fs::write(&log, traffic.log()).expect("the log is written");
        let text = Programs::output(&self.ours, &log);
        assert!(text == Programs::output(&self.rust, &log), "{name}: the outputs differ");
        let timed = |words: &[String]| -> Run {
            let (words, log) = (words.to_vec(), log.clone());
            Box::new(move || (clock::of_program(&words, &log), 0))
        };
        Row::new(name, calls, aim, timed(&self.ours), timed(&self.rust))
    }
}

/// Each call by itself, and the log program.
fn calls(programs: &Programs) -> Vec<Row> {
    vec![
        raw("raw number, 8 or 16 bits, whole bytes", Some(0.84), 8, Place::aligned),
        raw("raw number, 10 or 12 bits, odd", Some(0.25), 8, Place::odd),
        raw("raw number, 1 to 64 bits, anywhere", Some(0.15), 8, Place::any),
        raw("raw number, 10 or 12 bits, odd, of 7 bytes", None, 7, Place::odd),
        raw("raw number, 1 to 64 bits, anywhere in 64 bytes", None, 64, Place::any),
        raw("raw number, 58 to 64 bits, in nine of 64 bytes", None, 64, Place::in_nine),
        raw("raw number, length 0, refused at once", None, 8, Place::none),
        nearest("whole number to f32, below 2^12", |r| r.below(1 << 12)),
        nearest("whole number to f32, 25 to 64 bits", |r| (r.next() | 1 << 63) >> r.below(40)),
        nearest("whole number to f32, 1 to 64 bits", |r| (r.next() | 1 << 63) >> r.below(64)),
        update("update, one detector", 1),
        update("update, 64 detectors in turn", 64),
        frames("frame, the mix", Some(2.5), Traffic::mix(64, CALLS)),
        frames("frame, the mix, few flagged", None, Traffic::quiet(CALLS)),
        frames("frame, the mix, half match nothing", None, Traffic::half(CALLS)),
        frames("frame, nothing matches", None, Traffic::nothing(CALLS)),
        frames("frame, eight match", None, Traffic::eight(CALLS)),
        tables("definition into a table of up to 64"),
        programs.log("log, the mix, 1000000 frames", Some(2.0), Traffic::mix(64, 1_000_000)),
        programs.log("log, few flagged, 1000000 frames", None, Traffic::quiet(1_000_000)),
        programs.log("log, half match nothing, 1000000 frames", None, Traffic::half(1_000_000)),
    ]
}

/// The mix by the number of definitions and of frames.
fn growth(programs: &Programs) -> Vec<Row> {
    let mut rows = Vec::new();
    for count in [1, 8, 64] {
        for n in [1_000, 10_000, 100_000] {
            rows.push(frames(&format!("frame, {count} defined, {n} frames"), None, Traffic::mix(count, n)));
        }
    }
    for count in [1, 8, 64] {
        for n in [10_000, 100_000] {
            rows.push(programs.log(&format!("log, {count} defined, {n} frames"), None, Traffic::mix(count, n)));
        }
    }
    rows
}

fn print(title: &str, rows: &[Row]) {
    println!("| {title} | ours, ns | Rust, ns | ratio | middle half of the rounds | of the least times | aim |");
    println!("|---|---|---|---|---|---|---|");
    rows.iter().for_each(Row::print);
    println!();
}

fn main() {
    let args: Vec<String> = std::env::args().collect();
    let rounds: usize = args[1].parse().expect("the number of rounds");
    assert!(rounds > 0, "at least one round");
    // the Rust alone, without the means that document 02 keeps: no mean of these logs goes bad
    let rust = vec![args[3].clone(), "--rust".to_string()];
    let programs = Programs { ours: vec![args[2].clone()], rust, logs: (&args[4]).into() };
    let (mut calls, mut models, mut growth) = (calls(&programs), models::rows(), growth(&programs));
    // the first round only warms up
    for k in 0..=rounds {
        eprint!("\rround {k} of {rounds} ");
        for row in calls.iter_mut().chain(&mut models).chain(&mut growth) {
            row.round();
            if k == 0 {
                row.took.clear();
            }
        }
    }
    eprintln!();
    print(&format!("{rounds} rounds in turn, for a call"), &calls);
    print("models of bytes, for a call", &models);
    print("how it grows, for a frame", &growth);
}
