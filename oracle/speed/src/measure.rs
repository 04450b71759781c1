//! Rows: two pieces of work, timed in turn.

use std::time::{Duration, Instant};

/// A visit of a row takes about so long,
const TIME: Duration = Duration::from_secs(1);

/// and has at least so many rounds.
const ROUNDS: usize = 5;

/// The rows are measured so many times one after the other, and the best times taken: a disturbance that lasts as long
/// as a row doesn't decide it.
const VISITS: usize = 3;

pub struct Row {
    pub what: &'static str,
    /// Nanoseconds an element, as in `library`.
    pub rust: f64,
    pub library: f64,
    /// How many times as long as the Rust the library may take; infinite where the row only informs.
    pub limit: f64,
    /// Whether both sides gave the same answer.
    pub equal: bool,
    /// What the library says it made, where it does.
    pub work: Option<Work>,
}

/// The multiplications and inversions of a batch inversion for each element.
#[derive(Clone, Copy)]
pub struct Work {
    pub multiplications: f64,
    pub inversions: f64,
}

impl Work {
    pub fn line(&self) -> String {
        format!("    {:.6} multiplications and {:.6} inversions an element", self.multiplications, self.inversions)
    }
}

impl Row {
    pub fn ratio(&self) -> f64 {
        self.library / self.rust
    }

    pub fn passes(&self) -> bool {
        self.equal && self.ratio() <= self.limit
    }

    /// The best times of two visits of a row.
    pub fn better(self, other: Row) -> Row {
        let (rust, library) = (self.rust.min(other.rust), self.library.min(other.library));
        Row { rust, library, equal: self.equal && other.equal, ..self }
    }

    /// The row as it is printed below `heading`.
    pub fn line(&self) -> String {
        let Row { what, rust, library, .. } = self;
        let remark = match (self.equal, self.passes()) {
            (false, _) => "  the answers differ",
            (true, false) => "  above the limit",
            (true, true) => "",
        };
        format!("{what:<54}{rust:>12.3}{library:>12.3}{:>9.3}{:>9}{remark}", self.ratio(), self.shown_limit())
    }

    /// The limit, or that there is none.
    pub fn shown_limit(&self) -> String {
        if self.limit.is_finite() {
            format!("{:.2}", self.limit)
        } else {
            "none".to_string()
        }
    }
}

pub fn heading() -> String {
    format!("{:<54}{:>12}{:>12}{:>9}{:>9}", "nanoseconds an element", "Rust", "library", "ratio", "limit")
}

pub fn measured(rows: &[fn() -> Row]) -> Vec<Row> {
    let visits = (0..VISITS).map(|_| rows.iter().map(|row| row()).collect());
    let better = |one: Vec<Row>, other: Vec<Row>| one.into_iter().zip(other).map(|(a, b)| a.better(b)).collect();
    visits.reduce(better).unwrap()
}

/// The best times of both sides in nanoseconds an element; they run in turn, so that a disturbance meets both.
pub fn best(elements: usize, mut rust: impl FnMut(), mut library: impl FnMut()) -> (f64, f64) {
    let start = Instant::now();
    let mut best = (f64::MAX, f64::MAX);
    let mut rounds = 0;
    while rounds < ROUNDS || start.elapsed() < TIME {
        best.0 = best.0.min(nanoseconds(&mut rust));
        best.1 = best.1.min(nanoseconds(&mut library));
        rounds += 1;
    }
    (best.0 / elements as f64, best.1 / elements as f64)
}

fn nanoseconds(work: &mut impl FnMut()) -> f64 {
    let start = Instant::now();
    work();
    start.elapsed().as_nanos() as f64
}
