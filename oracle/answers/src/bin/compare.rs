//! Holds the two programs beside the Rust, with the means that document 02 keeps: scripts of library calls, and logs. Stops at the first difference, which it makes
//! small.

use answers::amended::Means;
use answers::framelog::{self, Counted};
use answers::{bad_means, generate as g, models, Both};
use std::fs::File;
use std::io::{BufWriter, Write};
use std::path::{Path, PathBuf};
use std::process::{exit, Command, Stdio};
use std::time::{Duration, Instant};

/// What a run is asked for. `at_least` is how many calls, logs, keys alone, remote frames both in calls and in logs, cases of each reason for no value, calls
/// on models of bytes, FD frames both in calls and in logs, and means kept by samples, in frames by calls and in logs, those of the cases that are the same in
/// every run left out, it has to have compared at its end; `emulator` are the words before a program, where the machine can't run one by itself.
#[derive(Default)]
struct Asked {
    seconds: Option<u64>,
    cases: Option<u64>,
    logs: Option<u64>,
    every: usize,
    pack: Option<PathBuf>,
    seed: u64,
    at_least: [u64; 8],
    emulator: Vec<String>,
}

const USAGE: &str = "usage: compare [--seconds N] [--cases N] [--logs N [--every N] [--pack FILE]] [--seed N] [--at-least CALLS LOGS KEYS REMOTE REASON MODELS FD MEANS] [--emulator WORDS]";

fn asked(words: &[String]) -> Option<Asked> {
    let mut a = Asked { every: 1, seed: 1, ..Default::default() };
    let mut words = words.iter();
    while let Some(word) = words.next() {
        let mut number = || words.next()?.parse::<u64>().ok();
        match word.as_str() {
            "--seconds" => a.seconds = Some(number()?),
            "--cases" => a.cases = Some(number()?),
            "--logs" => a.logs = Some(number()?),
            "--every" => a.every = number().filter(|n| *n > 0)? as usize,
            "--seed" => a.seed = number()?,
            "--at-least" => a.at_least = [number()?, number()?, number()?, number()?, number()?, number()?, number()?, number()?],
            "--pack" => a.pack = Some(PathBuf::from(words.next()?)),
            "--emulator" => a.emulator = words.next()?.split_whitespace().map(String::from).collect(),
            _ => return None,
        }
    }
    Some(a)
}

/// A program, with the words before it.
struct Program(Vec<String>);

impl Program {
    fn new(emulator: &[String], path: &Path) -> Self {
        let mut words = emulator.to_vec();
        words.push(path.display().to_string());
        Program(words)
    }

    /// The program's output on an input, which goes by way of a file.
    fn output(&self, input: &[u8], scratch: &Path) -> Vec<u8> {
        std::fs::write(scratch, input).expect("the scratch file is written");
        let file = File::open(scratch).expect("the scratch file is read");
        let done = Command::new(&self.0[0]).args(&self.0[1..]).stdin(Stdio::from(file)).stderr(Stdio::inherit()).output();
        let done = done.unwrap_or_else(|e| panic!("{}: {e}: build it first", self.0.join(" ")));
        assert!(done.status.success(), "{} ended with {} on {}", self.0.join(" "), done.status, scratch.display());
        done.stdout
    }
}

fn answers_of(script: &str) -> String {
    answers_and_machines(script).0
}

/// What the machines answer to a script.
fn answers_by(both: &mut Both, script: &str) -> String {
    let mut out = String::new();
    for line in script.lines() {
        both.answer(line, &mut out);
    }
    out
}

/// The answers to a script, and the machines after it, which know what there was of models of bytes and how many means were kept.
fn answers_and_machines(script: &str) -> (String, Both) {
    let mut both = Both::default();
    (answers_by(&mut both, script), both)
}

/// What is printed for a log, how many of its sound records are remote and FD frames, and how many means were kept in them.
fn log_of(log: &[u8]) -> (Vec<u8>, Counted) {
    let mut out = Vec::new();
    let counted = framelog::run(log, &mut out, Means::default());
    (out, counted)
}

/// The least part of the items, by halves and then one by one, for which the test still holds.
fn smallest<T: Clone>(items: Vec<T>, differs: impl Fn(&[T]) -> bool) -> Vec<T> {
    let (mut low, mut high) = (0, items.len());
    while low < high {
        let middle = (low + high) / 2;
        if differs(&items[..middle]) {
            high = middle;
        } else {
            low = middle + 1;
        }
    }
    let mut kept = items[..high].to_vec();
    let mut size = kept.len().div_ceil(2).max(1);
    loop {
        let mut at = 0;
        while at < kept.len() {
            let mut fewer = kept.clone();
            fewer.drain(at..(at + size).min(kept.len()));
            if differs(&fewer) {
                kept = fewer;
            } else {
                at += size;
            }
        }
        if size == 1 {
            return kept;
        }
        size = size.div_ceil(2);
    }
}

/// The logs of a folder, in the order of their names.
fn logs_in(folder: &Path) -> Vec<PathBuf> {
    let names = std::fs::read_dir(folder).expect("the examples").map(|e| e.expect("a file").path());
    let mut logs: Vec<PathBuf> = names.filter(|p| p.extension().is_some_and(|e| e == "log")).collect();
    logs.sort();
    logs
}

/// The flags of a frame's call.
fn flags(fields: &[&str]) -> u64 {
    u64::from_str_radix(fields[2], 16).expect("a number")
}

/// Whether a call is a lent frame.
fn is_lent(call: &str) -> bool {
    call.starts_with("F ")
}

/// How many remote and FD frames a script has, lent or not. An FD frame is not remote, whatever its flag says.
fn counted_of(script: &str) -> Counted {
    let mut counted = Counted::default();
    for call in script.lines().filter(|l| l.starts_with("f ") || is_lent(l)) {
        match flags(&call.split(' ').collect::<Vec<_>>()) & 0b110 {
            0b000 => {}
            0b010 => counted.remote += 1,
            _ => counted.fd += 1,
        }
    }
    counted
}

/// How often each reason for no value was answered: the refusals 1, 16 and 17 by `extract_raw`, by `extract_signal_raw` and by `extract_signal`, and in frames'
/// outcomes condition not met, outside and not finite. They are the model's, and a script is compared with them whole. The first two never answer 17.
#[derive(Default)]
struct Reasons([[u64; 3]; 4]);

impl Reasons {
    fn add(&mut self, answers: &str) {
        for line in answers.lines() {
            let mut fields = line.split(' ');
            let rows = match fields.next() {
                Some("r") => 0..1,
                Some("x") => 1..3,
                Some("p") => {
                    for (sum, count) in self.0[3].iter_mut().zip(fields.skip(1)) {
                        *sum += u64::from_str_radix(count, 16).expect("a count");
                    }
                    continue;
                }
                _ => continue,
            };
            for row in rows {
                if fields.next() == Some("refused") {
                    let number = fields.next();
                    let at = ["1", "10", "11"].iter().position(|n| number == Some(*n)).expect("a refusal of extraction");
                    self.0[row][at] += 1;
                }
            }
        }
    }

    /// Of those that there are, the one seen least.
    fn least(&self) -> u64 {
        let [raw, signal_raw, value, outcomes] = &self.0;
        raw[..2].iter().chain(&signal_raw[..2]).chain(value).chain(outcomes).copied().min().unwrap_or(0)
    }
}

/// The key of a frame: its effective identifier and frame type. A classic and an FD frame share one, lent or not.
fn key(call: &str) -> Option<(u64, bool)> {
    let fields: Vec<&str> = call.split(' ').collect();
    let id = u64::from_str_radix(fields.get(1)?, 16).ok()?;
    match fields[0] {
        "f" | "F" if flags(&fields) & 1 != 0 => Some((id % (1 << 29), true)),
        "f" | "F" => Some((id % (1 << 11), false)),
        "g" => Some((id, false)),
        _ => None,
    }
}

/// What a run shows of a key: the answers to its frames and to every table call, and where the table is shown the count, the next slot, its own rows, and of
/// the other rows all but the detector.
fn seen_of(k: (u64, bool), calls: &[&str], output: &str) -> Vec<String> {
    let mut lines = output.lines();
    let mut seen = Vec::new();
    for call in calls {
        let answer = lines.next().unwrap_or("").to_string();
        match &call[..1] {
            "f" | "F" | "g" => {
                let outcomes = lines.next().unwrap_or("").to_string();
                if key(call) == Some(k) {
                    seen.push(answer);
                    seen.push(outcomes);
                }
            }
            "s" => {
                let count = usize::from_str_radix(&answer[2..10], 16).expect("a count");
                seen.push(answer);
                for row in lines.by_ref().take(count) {
                    let fields: Vec<&str> = row.split(' ').collect();
                    let number = |i: usize| u64::from_str_radix(fields[i], 16).expect("a number");
                    let own = (number(2), number(3) == 1) == k;
                    seen.push(if own { row.to_string() } else { fields[..DEFINED].join(" ") });
                }
            }
            _ => seen.push(answer),
        }
    }
    seen
}

/// The fields of a row before its detector: the letter, the slot and the definition.
const DEFINED: usize = 13;

struct Bench {
    replay: Program,
    framelog: Program,
    scratch: PathBuf,
    pack: Option<BufWriter<File>>,
    calls: u64,
    records: u64,
    logs: u64,
    isolated: u64,
    lent: u64,
    by_samples: u64,
    before_rounds: [u64; 3],
    in_calls: Counted,
    in_logs: Counted,
    reasons: Reasons,
    models: models::Seen,
}

impl Bench {
    fn script(&mut self, script: &str) {
        self.calls += script.lines().count() as u64;
        self.lent += script.lines().filter(|l| is_lent(l)).count() as u64;
        self.in_calls.add(counted_of(script));
        let (answers, both) = answers_and_machines(script);
        self.reasons.add(&answers);
        self.models.add(both.seen());
        let (by_samples, in_frames) = both.kept();
        self.by_samples += by_samples;
        self.in_calls.means += in_frames;
        if self.replay.output(script.as_bytes(), &self.scratch) == answers.as_bytes() {
            return;
        }
        let differs = |s: &str| self.replay.output(s.as_bytes(), &self.scratch) != answers_of(s).as_bytes();
        let lines: Vec<String> = script.lines().map(|l| format!("{l}\n")).collect();
        let least = smallest(lines, |l| differs(&l.concat())).concat();
        println!("DIFFERENT on this script:\n{least}");
        println!("the Rust and the model:\n{}", answers_of(&least));
        println!("this:\n{}", String::from_utf8_lossy(&self.replay.output(least.as_bytes(), &self.scratch)));
        exit(1);
    }

    /// Holds the log program to the Rust's answer, or packs both as `sanitized/loop.c` reads them.
    fn log(&mut self, log: &[u8], records: u64) {
        self.logs += 1;
        self.records += records;
        let (answer, counted) = log_of(log);
        self.in_logs.add(counted);
        if let Some(pack) = &mut self.pack {
            for part in [&(log.len() as u64).to_le_bytes()[..], &(answer.len() as u64).to_le_bytes()[..], log, &answer] {
                pack.write_all(part).expect("the pack is written");
            }
            return;
        }
        if self.framelog.output(log, &self.scratch) == answer {
            return;
        }
        let differs = |l: &[u8]| self.framelog.output(l, &self.scratch) != log_of(l).0;
        let least = smallest(log.to_vec(), differs);
        println!("DIFFERENT on this log: {}", answers::bytes(&least));
        println!("the Rust:\n{}", String::from_utf8_lossy(&log_of(&least).0));
        println!("this:\n{}", String::from_utf8_lossy(&self.framelog.output(&least, &self.scratch)));
        exit(1);
    }

    /// Demand 3 as a run: for each key of a sequence of calls, the same calls without the frames of other keys.
    fn isolation(&mut self, script: &str) {
        let calls: Vec<&str> = script.lines().collect();
        let whole = String::from_utf8_lossy(&self.replay.output(script.as_bytes(), &self.scratch)).into_owned();
        let mut keys: Vec<(u64, bool)> = calls.iter().filter_map(|c| key(c)).collect();
        keys.sort();
        keys.dedup();
        for k in keys {
            let kept: Vec<&str> = calls.iter().copied().filter(|c| key(c).is_none_or(|other| other == k)).collect();
            let fewer = kept.join("\n") + "\n";
            let alone = String::from_utf8_lossy(&self.replay.output(fewer.as_bytes(), &self.scratch)).into_owned();
            self.isolated += 1;
            if seen_of(k, &calls, &whole) != seen_of(k, &kept, &alone) {
                println!("NOT ISOLATED: identifier {:X}, extended {}, on this script:\n{script}", k.0, k.1);
                exit(1);
            }
        }
    }

    /// The cases that are the same in every run.
    fn fixed(&mut self) {
        let mut d = g::Dice::new(0);
        let mut out = String::new();
        g::every_place(&mut out, &mut d);
        g::conversions(&mut out, &mut d, 0);
        g::values(&mut out, &mut d, 0);
        g::roots(&mut out, &mut d, 0);
        g::every_setting(&mut out, 1);
        g::lines(&mut out, &mut d, 0);
        g::every_refusal(&mut out, true);
        g::last_slots(&mut out, true);
        g::crowds(&mut out, &mut d);
        g::remotes(&mut out, &(0..256).collect::<Vec<_>>());
        g::reasons(&mut out, &[0, 1, 2, 3, 4, 5, 6, 7, 8, 9, 15], 1);
        g::every_slice(&mut out, &mut g::Dice::new(2));
        self.script(&out);
        self.fixed_fd();
        self.fixed_lent();
        for log in g::flagged_logs() {
            self.log(&log, 2);
        }
        let whole = g::log(&mut d, 24, false);
        for cut in 0..=whole.len() {
            self.log(&whole[..cut], 24);
        }
        self.fixed_models();
        self.fixed_means();
        self.before_rounds = self.kept();
    }

    /// The cases of FD frames that are the same in every run: every length, and both types of one identifier alone.
    fn fixed_fd(&mut self) {
        let every: Vec<u64> = (0..256).collect();
        let mut out = String::new();
        g::payloads(&mut out, 'f', &every, &[64]);
        g::far_signals(&mut out, 'f', &every, &[64]);
        g::given_bytes(&mut out, 'f');
        self.script(&out);
        out.clear();
        g::far_signals(&mut out, 'f', &g::FD_LENGTHS, &[64]);
        self.isolation(&out);
        for log in g::fd_logs() {
            self.log(&log, 2);
        }
    }

    /// The cases of lent frames that are the same in every run: every length, every number of bytes that a payload can have, and both types of one identifier
    /// alone.
    fn fixed_lent(&mut self) {
        let every: Vec<u64> = (0..256).collect();
        let payload: Vec<usize> = (0..=65).collect();
        let mut out = String::new();
        g::payloads(&mut out, 'F', &every, &[300]);
        g::payloads(&mut out, 'F', &[0, 1, 7, 8, 9, 63, 64, 65, 255], &g::GIVEN);
        g::payloads(&mut out, 'F', &[64], &payload);
        g::far_signals(&mut out, 'F', &[8, 9, 12, 40, 41, 64, 255], &[0, 8, 9, 40, 41, 63, 64, 65, 300]);
        g::given_bytes(&mut out, 'F');
        g::lent_multiplexors(&mut out);
        self.script(&out);
        out.clear();
        g::far_signals(&mut out, 'F', &[8, 64], &g::GIVEN);
        self.isolation(&out);
    }

    /// The cases on models of bytes that are the same in every run: every size, and every border of one.
    fn fixed_models(&mut self) {
        let mut out = String::new();
        g::every_bin(&mut out, 1..=256);
        self.script(&out);
        out.clear();
        g::every_state(&mut out, 1..=64);
        g::every_count(&mut out);
        g::wrong_sizes(&mut out, &g::NO_BINS, &g::NO_STATES);
        g::wrong_lengths(&mut out, 1..=256, 1..=64);
        g::thresholds(&mut out);
        g::full_counters(&mut out, &[(1, 0), (2, 255), (16, 71), (255, 255), (256, 255)], &[(1, 0, 0), (2, 255, 254), (7, 200, 100), (64, 255, 63)]);
        g::ratios(&mut out, 1);
        self.script(&out);
    }

    /// The cases of means that go bad in the Rust, which are the same in every run. Each has such a mean by itself.
    fn fixed_means(&mut self) {
        let [rust, amended] = [Both::alone(), Both::default()].map(|mut both| answers_by(&mut both, bad_means::SMALLEST));
        assert!(["k 7F800000 00000000 00000002\n", "k 7FC00000 00000000 00000003\n"].iter().all(|k| rust.contains(k)), "the Rust's mean does not become infinite, then NaN");
        assert!(["k FF7FFFFF 00000000 00000002\n", "k 00000000 00000000 00000003\n"].iter().all(|k| amended.contains(k)), "the mean does not stay");
        self.script(bad_means::SMALLEST);
        for cases in [bad_means::detectors(), bad_means::engines()] {
            for case in &cases {
                let (by_samples, in_frames) = answers_and_machines(case).1.kept();
                assert!(by_samples + in_frames > 0, "no mean goes bad in this case:\n{case}");
            }
            self.script(&cases.concat());
        }
        self.isolation(&bad_means::both_types());
        for (log, records) in bad_means::logs() {
            assert!(log_of(&log).1.means > 0, "no mean goes bad in this log: {}", answers::bytes(&log));
            self.log(&log, records);
        }
    }

    fn round(&mut self, seed: u64) {
        let mut d = g::Dice::new(seed);
        let mut out = String::new();
        g::places(&mut out, &mut d, 20_000);
        g::values(&mut out, &mut d, 10_000);
        g::conversions(&mut out, &mut d, 2_000);
        g::roots(&mut out, &mut d, 1_000);
        g::detectors(&mut out, &mut d, 20_000);
        g::lines(&mut out, &mut d, 2_000);
        g::engines(&mut out, &mut d, 20_000, 12, g::Frames::Lent);
        g::engines(&mut out, &mut d, 400, 1, g::Frames::Lent);
        self.script(&out);
        let mut one = String::new();
        g::one_engine(&mut one, &mut d, 300, false, g::Frames::Lent);
        self.isolation(&one);
        let long = g::log(&mut d, 5_000, false);
        self.log(&long, 5_000);
        for _ in 0..40 {
            self.damaged(&mut d);
        }
        let mut on_models = String::new();
        g::models(&mut on_models, &mut g::Dice::new(seed.wrapping_add(1 << 32)), 20_000);
        self.script(&on_models);
        self.means(&mut g::Dice::new(seed.wrapping_add(2 << 32)));
    }

    /// Samples, frames and logs with values over the whole range of f32.
    fn means(&mut self, d: &mut g::Dice) {
        let mut out = String::new();
        g::wide_samples(&mut out, d, 4_000);
        g::engines(&mut out, d, 4_000, 12, g::Frames::Full);
        self.script(&out);
        let mut one = String::new();
        g::one_engine(&mut one, d, 100, false, g::Frames::Full);
        self.isolation(&one);
        for _ in 0..6 {
            let log = g::log(d, 150, true);
            self.log(&log, 150);
        }
    }

    /// A short log that came in damaged.
    fn damaged(&mut self, d: &mut g::Dice) {
        let records = 1 + d.below(60);
        let full = d.one_in(4);
        let mut short = g::log(d, records as usize, full);
        for _ in 0..=d.below(3) {
            if !short.is_empty() {
                g::damage(d, &mut short);
            }
        }
        self.log(&short, records);
    }

    /// The example logs, cut at every byte or every so many, and `n` damaged ones.
    fn logs(&mut self, seed: u64, n: u64, every: usize, since: Instant) {
        let examples = Path::new(env!("CARGO_MANIFEST_DIR")).join("../../examples");
        for name in logs_in(&examples).into_iter().chain(logs_in(&examples.join("damaged"))) {
            let whole = std::fs::read(name).expect("an example");
            for cut in (0..whole.len()).step_by(every).chain([whole.len()]) {
                self.log(&whole[..cut], 0);
            }
        }
        let mut d = g::Dice::new(seed);
        for i in 0..n {
            self.damaged(&mut d);
            if i % 10_000 == 9_999 {
                self.say(since);
            }
        }
    }

    fn say(&self, since: Instant) {
        if self.pack.is_some() {
            return;
        }
        println!(
            "compared {} calls ({} remote frames, {} FD frames, {} lent frames), {} logs of {} records ({} remote frames, {} FD frames), {} keys alone: no difference ({} s)",
            self.calls, self.in_calls.remote, self.in_calls.fd, self.lent, self.logs, self.records, self.in_logs.remote, self.in_logs.fd, self.isolated, since.elapsed().as_secs()
        );
        println!("means kept that go bad in the Rust: {} by samples, {} in frames by calls, {} in frames of logs", self.by_samples, self.in_calls.means, self.in_logs.means);
        if self.calls > 0 {
            let [[a, b, _], [c, d, _], [e, f, g], [h, i, j]] = self.reasons.0;
            println!("refused by 1 and 16: extract_raw {a} {b}, extract_signal_raw {c} {d}; by 1, 16 and 17: extract_signal {e} {f} {g}");
            println!("outcomes condition not met, outside and not finite: {h} {i} {j}");
            let cases: Vec<String> = models::NAMES.iter().zip(self.models.cases).map(|(name, n)| format!("{name} {n}")).collect();
            println!("calls on models {}: {}", self.models.calls, cases.join(", "));
        }
        let _ = std::io::stdout().flush();
    }

    /// How many means were kept by samples, in frames by calls and in logs.
    fn kept(&self) -> [u64; 3] {
        [self.by_samples, self.in_calls.means, self.in_logs.means]
    }

    /// Whether the run compared what it was asked for, and saw every case that it has to see. Says what is missing.
    fn enough(&self, at_least: [u64; 8]) -> bool {
        let [calls, logs, keys, remote, reason, on_models, fd, means] = at_least;
        let fewer = self.calls < calls || self.logs < logs || self.isolated < keys || self.in_calls.remote.min(self.in_logs.remote) < remote;
        let [by_samples, in_calls, in_logs] = self.kept();
        let kept = self.kept().iter().zip(self.before_rounds).map(|(all, before)| all - before).min();
        if fewer || self.reasons.least() < reason || self.models.calls < on_models || self.in_calls.fd.min(self.in_logs.fd) < fd || kept < Some(means) {
            println!("FEWER than the {calls} calls, {logs} logs, {keys} keys alone, {remote} remote frames in calls and in logs, {reason} cases of each reason, {on_models} calls on models, {fd} FD frames in calls and in logs, and {means} means kept in the rounds by samples, in frames by calls and in logs that were asked for");
            return false;
        }
        if self.calls > 0 && self.reasons.least().min(self.models.least()).min(self.lent).min(by_samples).min(in_calls) == 0 || self.logs > 0 && in_logs == 0 {
            println!("NOT SEEN: one of the reasons for no value, one of the cases of models, a lent frame, or a mean kept by a sample, in a frame by a call or in a log");
            return false;
        }
        true
    }
}

fn main() {
    let words: Vec<String> = std::env::args().skip(1).collect();
    let Some(asked) = asked(&words) else {
        eprintln!("{USAGE}");
        exit(2);
    };
    let crates = Path::new(env!("CARGO_MANIFEST_DIR")).join("../../crates");
    let scratch = std::env::temp_dir().join(format!("compare-{}", std::process::id()));
    let pack = asked.pack.map(|file| BufWriter::new(File::create(file).expect("the pack is made")));
    let program = |name| Program::new(&asked.emulator, &crates.join(name).join("out").join(name));
    let mut b = Bench { replay: program("replay"), framelog: program("framelog"), scratch, pack, calls: 0, records: 0, logs: 0, isolated: 0, lent: 0, by_samples: 0, before_rounds: [0; 3], in_calls: Counted::default(), in_logs: Counted::default(), reasons: Reasons::default(), models: models::Seen::default() };
    let since = Instant::now();
    let mut said = since;
    if let Some(n) = asked.logs {
        b.logs(asked.seed, n, asked.every, since);
    } else {
        b.fixed();
    }
    // the seconds that are asked for are those of the rounds
    let begun = Instant::now();
    let (mut seed, mut rounds) = (asked.seed, 0);
    while asked.logs.is_none() {
        let late = asked.seconds.is_some_and(|s| begun.elapsed().as_secs() >= s);
        let enough = asked.cases.is_some_and(|c| b.calls >= c);
        if late || enough || (asked.seconds.is_none() && asked.cases.is_none() && rounds > 0) {
            break;
        }
        b.round(seed);
        seed += 1;
        rounds += 1;
        if said.elapsed() > Duration::from_secs(10) {
            said = Instant::now();
            b.say(since);
        }
    }
    b.say(since);
    if let Some(pack) = &mut b.pack {
        pack.write_all(&[0xff; 16]).and_then(|()| pack.flush()).expect("the pack is written");
        return;
    }
    println!("seeds {} to {}", asked.seed, seed.max(asked.seed + 1) - 1);
    let _ = std::fs::remove_file(&b.scratch);
    if !b.enough(asked.at_least) {
        exit(1);
    }
}
