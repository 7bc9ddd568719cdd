//! Checks by SHA-256 that the three Rust files are the ones that were given, and writes each into
//! OUT_DIR with a module declaration behind its last byte. That module, the probe, is a child of
//! the file's own module and so reaches its private items. The file's bytes stay as they are.
use std::path::{Path, PathBuf};
use std::{env, fs};

/// Where the Rust stands, seen from this crate, when LATCHMEANDER_RUST does not say.
const DEFAULT_FOLDER: &str = "../../../shared/docs/src";

struct Given {
    /// The name of the module and of its probe.
    name: &'static str,
    /// The file, below the Rust's folder.
    path: &'static str,
    sha256: &'static str,
}

const GIVEN: [Given; 3] = [
    Given {
        name: "spec",
        path: "simulation/spec.rs",
        sha256: "28302f7a0e556cd00b9ff256f236ef98851ce481bd45f3c2ea55fdd5c416e629",
    },
    Given {
        name: "speculative",
        path: "config/speculative.rs",
        sha256: "324e0f9befaece2b8eaaa72a4818ac6fdede7d6ae03fa07f4db7eac97d56fdf3",
    },
    Given {
        name: "measured",
        path: "compute/measured.rs",
        sha256: "c8cec34908ed7e08834714e7cecdae56eaed173df15e2c0b6def0100c9c6a1f7",
    },
];

fn main() {
    println!("cargo::rerun-if-env-changed=LATCHMEANDER_RUST");
    println!("cargo::rerun-if-changed=build.rs");
    let here = PathBuf::from(env::var("CARGO_MANIFEST_DIR").unwrap());
    let out = PathBuf::from(env::var("OUT_DIR").unwrap());
    let folder = match env::var("LATCHMEANDER_RUST") {
        Ok(named) if !named.is_empty() => PathBuf::from(named),
        _ => here.join(DEFAULT_FOLDER),
    };
    for given in &GIVEN {
        if let Err(fault) = take_over(given, &folder, &here, &out) {
            println!("cargo::error={fault}");
            return;
        }
    }
    fs::write(out.join("modules.rs"), modules(&out)).unwrap();
}

/// Writes the file, its bytes checked and untouched, with the probe's declaration behind them.
fn take_over(given: &Given, folder: &Path, here: &Path, out: &Path) -> Result<(), String> {
    let source = folder.join(given.path);
    let probe = here.join("probes").join(format!("{}.rs", given.name));
    println!("cargo::rerun-if-changed={}", source.display());
    let wanted = format!("wanted the Rust file of SHA-256 {}", given.sha256);
    let bytes = fs::read(&source).map_err(|e| format!("{}: {e}; {wanted}", source.display()))?;
    let found = sha256(&bytes);
    if found != given.sha256 {
        return Err(format!("{}: SHA-256 {found}; {wanted}", source.display()));
    }
    let declared = format!(
        "\n#[path = {:?}]\npub mod probe;\n",
        probe.display().to_string()
    );
    let whole = [bytes.as_slice(), declared.as_bytes()].concat();
    fs::write(out.join(format!("{}.rs", given.name)), whole).unwrap();
    Ok(())
}

/// The repository's module tree around the three files. `#[path]` takes a literal only, so these
/// lines, with their absolute paths, are written at build time.
fn modules(out: &Path) -> String {
    let at = |name: &str| out.join(format!("{name}.rs")).display().to_string();
    format!(
        "#[allow(clippy::all)]
        pub mod simulation {{ #[path = {:?}] pub mod spec; pub use spec::*; }}
        #[allow(clippy::all)]
        pub mod compute {{ #[path = {:?}] pub mod measured; pub use measured::*; }}
        #[allow(clippy::all)]
        pub mod config {{
            pub use crate::lent_model as model;
            #[path = {:?}] pub mod speculative;
            pub use speculative::*;
        }}\n",
        at("spec"),
        at("measured"),
        at("speculative")
    )
}

/// SHA-256 (FIPS 180-4), as lower-case hex digits.
fn sha256(data: &[u8]) -> String {
    let primes: Vec<u128> = (2u128..)
        .filter(|n| (2..*n).all(|d| n % d != 0))
        .take(64)
        .collect();
    let constants: Vec<u32> = primes.iter().map(|&p| cube_root_bits(p)).collect();
    let mut state: Vec<u32> = primes[..8].iter().map(|&p| square_root_bits(p)).collect();
    let mut padded = data.to_vec();
    padded.push(0x80);
    while padded.len() % 64 != 56 {
        padded.push(0);
    }
    padded.extend_from_slice(&(data.len() as u64 * 8).to_be_bytes());
    for block in padded.chunks(64) {
        mix(&mut state, &schedule(block), &constants);
    }
    state.iter().map(|word| format!("{word:08x}")).collect()
}

/// The first 32 bits of the fraction of a square root: those of the whole root of p * 2^64.
fn square_root_bits(p: u128) -> u32 {
    last_with(|root| root * root <= p << 64) as u32
}

/// The first 32 bits of the fraction of a cube root: those of the whole root of p * 2^96.
fn cube_root_bits(p: u128) -> u32 {
    last_with(|root| root * root * root <= p << 96) as u32
}

/// The last number below 2^40 with a property that only numbers up to it have. The primes are
/// below 2^9, so the powers compared stay below 2^120.
fn last_with(holds: impl Fn(u128) -> bool) -> u128 {
    let (mut low, mut high) = (0, 1 << 40);
    while low + 1 < high {
        let middle = (low + high) / 2;
        if holds(middle) {
            low = middle;
        } else {
            high = middle;
        }
    }
    low
}

/// The block's 64 message words.
fn schedule(block: &[u8]) -> Vec<u32> {
    let mut words: Vec<u32> = block
        .chunks(4)
        .map(|four| u32::from_be_bytes(four.try_into().unwrap()))
        .collect();
    for i in 16..64 {
        let (a, b) = (words[i - 15], words[i - 2]);
        let s0 = a.rotate_right(7) ^ a.rotate_right(18) ^ (a >> 3);
        let s1 = b.rotate_right(17) ^ b.rotate_right(19) ^ (b >> 10);
        let sum = words[i - 16].wrapping_add(s0).wrapping_add(words[i - 7]);
        words.push(sum.wrapping_add(s1));
    }
    words
}

/// Mixes one block's words into the state.
fn mix(state: &mut [u32], words: &[u32], constants: &[u32]) {
    let mut v = state.to_vec();
    for (word, constant) in words.iter().zip(constants) {
        let s1 = v[4].rotate_right(6) ^ v[4].rotate_right(11) ^ v[4].rotate_right(25);
        let choice = (v[4] & v[5]) ^ (!v[4] & v[6]);
        let first = v[7].wrapping_add(s1).wrapping_add(choice);
        let first = first.wrapping_add(*constant).wrapping_add(*word);
        let s0 = v[0].rotate_right(2) ^ v[0].rotate_right(13) ^ v[0].rotate_right(22);
        let majority = (v[0] & v[1]) ^ (v[0] & v[2]) ^ (v[1] & v[2]);
        v.rotate_right(1);
        v[0] = first.wrapping_add(s0).wrapping_add(majority);
        v[4] = v[4].wrapping_add(first);
    }
    for (word, mixed) in state.iter_mut().zip(v) {
        *word = word.wrapping_add(mixed);
    }
}
