//! Links the proved book: `run` says where its archive is, and where those of the C library that it allocates by.
use std::env;

fn main() {
    println!("cargo::rerun-if-env-changed=BENCH_ARCHIVES");
    let archives = env::var("BENCH_ARCHIVES").expect("BENCH_ARCHIVES is not set: start ./run");
    for archive in archives.split_whitespace() {
        println!("cargo::rerun-if-changed={archive}");
        println!("cargo::rustc-link-arg={archive}");
    }
}
