//! CPU time: of this process, and of a program that it runs.

use std::fs::File;
use std::path::Path;
use std::process::{Command, Stdio};

#[repr(C)]
struct Seconds {
    whole: i64,
    part: i64,
}

/// The kernel's `struct rusage`: user and system time, and fourteen numbers that are not looked at.
#[repr(C)]
struct Usage {
    user: Seconds,
    system: Seconds,
    rest: [i64; 14],
}

extern "C" {
    fn clock_gettime(clock: i32, time: *mut Seconds) -> i32;
    fn getrusage(who: i32, usage: *mut Usage) -> i32;
}

const PROCESS_CPU_TIME: i32 = 2;
const CHILDREN: i32 = -1;

fn now() -> f64 {
    let mut t = Seconds { whole: 0, part: 0 };
    assert_eq!(unsafe { clock_gettime(PROCESS_CPU_TIME, &mut t) }, 0);
    t.whole as f64 * 1e9 + t.part as f64
}

fn children() -> f64 {
    let zero = || Seconds { whole: 0, part: 0 };
    let mut u = Usage { user: zero(), system: zero(), rest: [0; 14] };
    assert_eq!(unsafe { getrusage(CHILDREN, &mut u) }, 0);
    (u.user.whole + u.system.whole) as f64 * 1e9 + (u.user.part + u.system.part) as f64 * 1e3
}

/// Nanoseconds of CPU time that the work took, and its answer.
pub fn of(work: impl FnOnce() -> u64) -> (f64, u64) {
    let start = now();
    let answer = std::hint::black_box(work());
    (now() - start, answer)
}

/// Nanoseconds of CPU time, user and system, that a program with its arguments took from a file to nowhere.
pub fn of_program(words: &[String], input: &Path) -> f64 {
    let before = children();
    let status = Command::new(&words[0]).args(&words[1..]).stdin(File::open(input).expect("the log")).stdout(Stdio::null()).status();
    assert!(status.expect("the program runs").success());
    children() - before
}
