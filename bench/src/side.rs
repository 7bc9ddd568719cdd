//! Two sides that do the same work, timed turn and turn about.
use crate::clock::Clock;
use crate::report::grouped;
use std::hint::black_box;
use std::time::Duration;

const TURNS: usize = 31;

/// The nanoseconds that ours, and what it is held against, take for one unit of the work.
#[derive(Clone, Copy)]
pub struct Times {
    pub ours: f64,
    pub other: f64,
}

impl Times {
    pub fn ratio(self) -> f64 {
        self.ours / self.other
    }

    /// The times of each of `parts` equal parts.
    #[cfg(feature = "rust")]
    pub fn over(self, parts: usize) -> Times {
        Times {
            ours: self.ours / parts as f64,
            other: self.other / parts as f64,
        }
    }

    /// The two times and their ratio, as the cells of a table.
    pub fn cells(self) -> String {
        let (ours, other) = (time_text(self.ours), time_text(self.other));
        format!("{ours} | {other} | {:.2}", self.ratio())
    }
}

fn time_text(nanoseconds: f64) -> String {
    match nanoseconds {
        ns if ns < 10.0 => format!("{ns:.2} ns"),
        ns if ns < 1e3 => format!("{ns:.1} ns"),
        ns if ns < 1e5 => format!("{:.2} µs", ns / 1e3),
        ns => format!("{} µs", grouped((ns / 1e3).round() as usize)),
    }
}

/// Both answer a sum over all their answers, which has to be the same: so neither skips any work.
pub fn by_side(name: &str, count: usize, ours: impl Fn() -> u64, other: impl Fn() -> u64) -> Times {
    assert_eq!(ours(), other(), "{name}: the two sides answer differently");
    uncompared(count, ours, other)
}

/// The same, where each side works on something that is made ready for each of its turns outside the clock.
#[cfg(feature = "rust")]
pub fn by_side_ready<Ours, Rust>(
    name: &str,
    count: usize,
    ours: (impl Fn() -> Ours, impl Fn(&mut Ours) -> u64),
    rust: (impl Fn() -> Rust, impl Fn(&mut Rust) -> u64),
) -> Times {
    let (answer, wanted) = (ours.1(&mut ours.0()), rust.1(&mut rust.0()));
    assert_eq!(answer, wanted, "{name}: the two sides answer differently");
    in_turn(
        count,
        || time_ready(&ours.0, &ours.1),
        || time_ready(&rust.0, &rust.1),
    )
}

/// The same, where the Rust takes what it works on and makes something new: getting ready for its turn
/// and dropping what it made are outside the clock.
#[cfg(feature = "rust")]
pub fn by_side_made<Given, Made>(
    name: &str,
    count: usize,
    ours: impl Fn() -> u64,
    ready: impl Fn() -> Given,
    rust: impl Fn(Given) -> Made,
    sum: impl Fn(&Made) -> u64,
) -> Times {
    let answer = sum(&rust(ready()));
    assert_eq!(ours(), answer, "{name}: the two sides answer differently");
    in_turn(count, || time(&ours), || time_made(&ready, &rust))
}

/// Both sides, where whether they answer alike is looked at elsewhere, or they are not to.
pub fn uncompared(count: usize, ours: impl Fn() -> u64, other: impl Fn() -> u64) -> Times {
    in_turn(count, || time(&ours), || time(&other))
}

/// The median of each side's turns, for one of `count` units.
fn in_turn(count: usize, ours: impl Fn() -> Duration, other: impl Fn() -> Duration) -> Times {
    let (mut a, mut b) = (Vec::new(), Vec::new());
    for _ in 0..TURNS {
        a.push(ours());
        b.push(other());
    }
    let each = |turns: Vec<Duration>| median(turns).as_secs_f64() * 1e9 / count as f64;
    Times {
        ours: each(a),
        other: each(b),
    }
}

fn time(work: &impl Fn() -> u64) -> Duration {
    let start = Clock::start();
    black_box(work());
    start.elapsed()
}

/// The median time of a work, for one of `count` units.
#[cfg(feature = "rust")]
pub fn time_of(count: usize, work: impl Fn() -> u64) -> f64 {
    let turns = (0..TURNS).map(|_| time(&work)).collect();
    median(turns).as_secs_f64() * 1e9 / count as f64
}

#[cfg(feature = "rust")]
fn time_made<Given, Made>(ready: &impl Fn() -> Given, work: &impl Fn(Given) -> Made) -> Duration {
    let given = ready();
    let start = Clock::start();
    let made = black_box(work(given));
    let taken = start.elapsed();
    drop(made);
    taken
}

#[cfg(feature = "rust")]
fn time_ready<Given>(ready: &impl Fn() -> Given, work: &impl Fn(&mut Given) -> u64) -> Duration {
    let mut given = ready();
    let start = Clock::start();
    black_box(work(&mut given));
    start.elapsed()
}

fn median(mut times: Vec<Duration>) -> Duration {
    times.sort();
    times[times.len() / 2]
}
