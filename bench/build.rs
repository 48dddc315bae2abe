//! Tells the driver which compiler the Rust's side has.
use std::env;
use std::process::Command;

fn main() {
    let rustc = env::var("RUSTC").expect("cargo names the compiler");
    let version = Command::new(rustc).arg("--version").output();
    let version = version.expect("the compiler tells its version").stdout;
    println!(
        "cargo:rustc-env=BENCH_RUSTC={}",
        String::from_utf8_lossy(&version).trim()
    );
}
