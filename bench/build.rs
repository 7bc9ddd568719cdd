//! Links the proved libraries that `bench/run` built for this machine.
use std::env;

fn main() {
    println!("cargo::rerun-if-env-changed=LATCHMEANDER_LIB");
    let folder = env::var("LATCHMEANDER_LIB").expect("bench/run sets LATCHMEANDER_LIB");
    println!("cargo::rustc-link-search=native={folder}");
    for library in ["bench_exports", "bench_plans"] {
        println!("cargo::rerun-if-changed={folder}/lib{library}.a");
        println!("cargo::rustc-link-lib=static={library}");
    }
}
