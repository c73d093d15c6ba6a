//! How many bytes further all code lies that is measured: `BENCH_PAD`, 0 where it isn't set.

fn main() {
    println!("cargo:rerun-if-env-changed=BENCH_PAD");
    println!("cargo:rustc-env=PAD={}", std::env::var("BENCH_PAD").unwrap_or("0".to_string()));
}
