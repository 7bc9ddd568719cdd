//! Links the proved libraries that `differential/run nonsense` built for this machine.
use std::env;

/// Their names, a line each: between them they have all functions that are called.
const LIBRARIES: &str = include_str!("libraries.txt");

fn main() {
    println!("cargo::rerun-if-env-changed=LATCHMEANDER_LIB");
    println!("cargo::rerun-if-changed=libraries.txt");
    let folder = env::var("LATCHMEANDER_LIB").expect("differential/run sets LATCHMEANDER_LIB");
    println!("cargo::rustc-link-search=native={folder}");
    for library in LIBRARIES.lines() {
        println!("cargo::rerun-if-changed={folder}/lib{library}.a");
        println!("cargo::rustc-link-lib=static={library}");
    }
}
