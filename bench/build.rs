//! Links the proved loops, which bench/run has built before, in the repository that it names.
fn main() {
    println!("cargo:rerun-if-env-changed=BENCH_REPO");
    let repo = std::env::var("BENCH_REPO").expect("bench/run names the repository of the loops");
    for name in ["timed", "timed_frames", "timed_models", "timed_turns", "timed_watch", "timed_watch_turns"] {
        let dir = std::path::Path::new(&repo).join("crates").join(name).join("out");
        println!("cargo:rustc-link-search=native={}", dir.display());
        println!("cargo:rustc-link-lib=static={name}");
        println!("cargo:rerun-if-changed={}", dir.join(format!("lib{name}.a")).display());
    }
}
