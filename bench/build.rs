//! Links the marks for callgrind, compiled by `run`.

fn main() {
    let marks = std::env::var("BENCH_MARKS").expect("BENCH_MARKS: see bench/run");
    println!("cargo:rerun-if-env-changed=BENCH_MARKS");
    println!("cargo:rerun-if-changed={marks}");
    println!("cargo:rustc-link-arg={marks}");
}
