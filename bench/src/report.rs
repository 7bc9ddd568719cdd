//! What a run tells: every ratio in one table, the worst against its goal first, and how cost grows; the same of the price modes.
use crate::side::Times;
use std::cmp::Ordering;

/// A ratio that is asked for.
struct Row {
    what: String,
    goal: Option<f64>,
    times: Times,
}

/// The cost of one unit at one size of what grows.
struct Size {
    what: String,
    size: usize,
    times: Times,
}

/// What was measured of two sides, each by its name.
pub struct Pair {
    sides: [&'static str; 2],
    rows: Vec<Row>,
    sizes: Vec<Size>,
}

/// The rows of a run as they are measured, only those whose name has the filter in it.
pub struct Report {
    filter: String,
    /// Ours against the Rust.
    pub rust: Pair,
    /// Ours in the bridged mode against ours in the default mode.
    pub modes: Pair,
}

impl Row {
    /// How far the ratio is above its goal; where there is no goal, below every row that has one.
    fn distance(&self) -> f64 {
        match self.goal {
            Some(goal) => self.times.ratio() / goal,
            None => self.times.ratio() - 1e9,
        }
    }

    fn line(&self) -> String {
        let verdict = match self.goal {
            Some(goal) if self.times.ratio() > goal => "above",
            Some(_) => "within",
            None => "",
        };
        let goal = self.goal.map_or(String::new(), |goal| format!("{goal:?}"));
        format!(
            "| {} | {goal} | {} | {verdict} |",
            self.what,
            self.times.cells()
        )
    }
}

impl Pair {
    fn new(sides: [&'static str; 2]) -> Pair {
        Pair {
            sides,
            rows: Vec::new(),
            sizes: Vec::new(),
        }
    }

    /// A ratio with its goal.
    pub fn row(&mut self, what: &str, goal: Option<f64>, times: Times) {
        eprintln!("{what}: {}", times.cells());
        self.rows.push(Row {
            what: what.to_string(),
            goal,
            times,
        });
    }

    /// The cost at one size of what grows; the sizes of one thing are told one after the other.
    #[cfg(feature = "rust")]
    pub fn size(&mut self, what: &str, size: usize, times: Times) {
        eprintln!("{what}, {size}: {}", times.cells());
        self.sizes.push(Size {
            what: what.to_string(),
            size,
            times,
        });
    }

    /// The tables that have rows, and an empty line behind each.
    fn print(mut self) {
        let worst_first = |a: &Row, b: &Row| -> Ordering { b.distance().total_cmp(&a.distance()) };
        self.rows.sort_by(worst_first);
        let [ours, other] = self.sides;
        if !self.rows.is_empty() {
            println!("| What | Goal | {ours} | {other} | Ratio | Against its goal |");
            println!("|---|---|---|---|---|---|");
            self.rows.iter().for_each(|row| println!("{}", row.line()));
            println!();
        }
        if !self.sizes.is_empty() {
            println!("| What grows | Size | {ours} | {other} | Ratio |");
            println!("|---|---|---|---|---|");
            for Size { what, size, times } in &self.sizes {
                println!("| {what} | {} | {} |", grouped(*size), times.cells());
            }
            println!();
        }
    }
}

impl Report {
    pub fn new(filter: String) -> Report {
        Report {
            filter,
            rust: Pair::new(["Ours", "The Rust"]),
            modes: Pair::new(["Bridged", "Default"]),
        }
    }

    pub fn wants(&self, what: &str) -> bool {
        what.contains(&self.filter)
    }

    pub fn print(self) {
        self.rust.print();
        self.modes.print();
    }
}

/// A number with a comma before every third digit from its end.
pub fn grouped(number: usize) -> String {
    match number {
        0..1_000 => number.to_string(),
        _ => format!("{},{:03}", grouped(number / 1_000), number % 1_000),
    }
}
