//! What a run tells of its columns.

use crate::failure::Failure;
use crate::json::Object;
use crate::names::{escaped, shown};
use crate::output::Output;
use crate::status::Status;
use std::collections::BTreeMap;
use std::ffi::{OsStr, OsString};
use std::fmt;
use std::path::PathBuf;
use std::time::Duration;
use taripomune::Refusal;

/// The name of the report in the folder of results. No column has this name.
pub const NAME: &str = "taripomune-report.tsv";

#[derive(Clone, Copy, PartialEq, Eq, Debug)]
pub enum Outcome {
    Accepted,
    Refused(Refusal),
    Unreadable,
    PassedOver,
    /// Not reached before a signal ended the run.
    Left,
}

impl Outcome {
    /// What became of a column that has no result.
    pub fn of(failure: &Failure) -> Outcome {
        match failure {
            Failure::Refused(_, refusal) => Outcome::Refused(*refusal),
            Failure::PassedOver(..) => Outcome::PassedOver,
            _ => Outcome::Unreadable,
        }
    }

    fn name(self) -> &'static str {
        match self {
            Outcome::Accepted => "accepted",
            Outcome::Refused(_) => "refused",
            Outcome::Unreadable => "unreadable",
            Outcome::PassedOver => "passed over",
            Outcome::Left => "left",
        }
    }
}

/// What the report says of a column.
#[derive(Clone, Debug, PartialEq, Eq)]
pub struct Line {
    /// The length of the file as it was found; none where it couldn't be asked.
    pub bytes: Option<u64>,
    pub outcome: Outcome,
    pub time: Duration,
    /// Why it has no result.
    pub why: Option<String>,
}

impl Line {
    pub fn accepted(bytes: Option<u64>, time: Duration) -> Line {
        Line { bytes, outcome: Outcome::Accepted, time, why: None }
    }

    /// The line of a column without a result.
    pub fn of(failure: &Failure, bytes: Option<u64>, time: Duration) -> Line {
        Line { bytes, outcome: Outcome::of(failure), time, why: Some(failure.why()) }
    }

    pub fn left(bytes: Option<u64>) -> Line {
        let why = "the run was stopped before".to_string();
        Line { bytes, outcome: Outcome::Left, time: Duration::ZERO, why: Some(why) }
    }

    /// Whether the column isn't to be tried again.
    pub fn is_done(&self) -> bool {
        matches!(self.outcome, Outcome::Accepted | Outcome::Refused(_))
    }

    fn milliseconds(&self) -> f64 {
        self.time.as_secs_f64() * 1000.0
    }

    /// The line of the report.
    fn text(&self, name: &OsStr) -> String {
        let bytes = self.bytes.map_or("-".to_string(), |bytes| bytes.to_string());
        let outcome = match self.outcome {
            Outcome::Refused(refusal) => format!("number {}, position {}", refusal.number(), refusal.position()),
            outcome => outcome.name().to_string(),
        };
        let why = self.why.as_deref().unwrap_or("-");
        format!("{}\t{bytes}\t{outcome}\t{:.1}\t{why}\n", escaped(name), self.milliseconds())
    }

    pub fn object(&self, output: Output, name: &OsStr) -> Object {
        let object = output.event("column").text("name", &escaped(name));
        let object = match self.bytes {
            Some(bytes) => object.number("bytes", bytes),
            None => object.null("bytes"),
        };
        let (number, position) = match self.outcome {
            Outcome::Refused(refusal) => (refusal.number(), refusal.position()),
            _ => (0, 0),
        };
        let object = object.text("outcome", self.outcome.name()).number("number", number).number("position", position);
        let milliseconds = format!("{:.1}", self.milliseconds());
        object.maybe_text("why", self.why.as_deref()).number("milliseconds", milliseconds)
    }
}

/// The columns of a run, in the order of their names.
pub type Lines = BTreeMap<OsString, Line>;

pub fn text(lines: &Lines) -> String {
    lines.iter().map(|(name, line)| line.text(name)).collect()
}

/// How many columns came to what.
#[derive(Default)]
pub struct Counts {
    pub accepted: usize,
    pub refused: usize,
    pub unreadable: usize,
    pub passed_over: usize,
    pub left: usize,
}

impl Counts {
    pub fn of(lines: &Lines) -> Counts {
        let mut counts = Counts::default();
        for line in lines.values() {
            *match line.outcome {
                Outcome::Accepted => &mut counts.accepted,
                Outcome::Refused(_) => &mut counts.refused,
                Outcome::Unreadable => &mut counts.unreadable,
                Outcome::PassedOver => &mut counts.passed_over,
                Outcome::Left => &mut counts.left,
            } += 1;
        }
        counts
    }

    pub fn columns(&self) -> usize {
        self.accepted + self.refused + self.unreadable + self.passed_over + self.left
    }

    pub fn status(&self) -> Status {
        match self {
            Counts { left: 1.., .. } => Status::Stopped,
            Counts { unreadable: 1.., .. } | Counts { passed_over: 1.., .. } => Status::Unreadable,
            Counts { refused: 1.., .. } => Status::Refused,
            _ => Status::Done,
        }
    }

    pub fn object(&self, object: Object) -> Object {
        let Counts { accepted, refused, unreadable, passed_over, left } = self;
        object
            .number("columns", self.columns())
            .number("accepted", accepted)
            .number("refused", refused)
            .number("unreadable", unreadable)
            .number("passed_over", passed_over)
            .number("left", left)
    }
}

impl fmt::Display for Counts {
    fn fmt(&self, f: &mut fmt::Formatter<'_>) -> fmt::Result {
        let Counts { accepted, refused, unreadable, passed_over, left } = self;
        write!(f, "{} columns: {accepted} accepted, {refused} refused, ", self.columns())?;
        write!(f, "{unreadable} unreadable, {passed_over} passed over")?;
        if *left > 0 { write!(f, ", {left} left") } else { Ok(()) }
    }
}

/// What a run comes to.
#[derive(Default)]
pub struct Summary {
    pub counts: Counts,
    /// Names in the folder of columns that aren't columns'.
    pub not_taken: usize,
    /// How many of the columns were done before this run.
    pub before: usize,
    /// How many columns this run has treated.
    pub treated: usize,
    pub time: Duration,
    pub report: PathBuf,
}

impl Summary {
    /// How many columns a minute this run did.
    pub fn rate(&self) -> f64 {
        rate(self.treated, self.time)
    }

    /// Adds what a run comes to.
    pub fn object(&self, object: Object) -> Object {
        let object = self.counts.object(object);
        let object = object.number("not_taken", self.not_taken).number("done_before", self.before);
        let seconds = format!("{:.3}", self.time.as_secs_f64());
        object.number("seconds", seconds).text("report", &shown(&self.report))
    }
}

/// Columns a minute.
pub fn rate(columns: usize, time: Duration) -> f64 {
    60.0 * columns as f64 / time.as_secs_f64().max(1e-9)
}

impl fmt::Display for Summary {
    fn fmt(&self, f: &mut fmt::Formatter<'_>) -> fmt::Result {
        write!(f, "{}", self.counts)?;
        if self.not_taken > 0 {
            write!(f, "; {} other names not taken", self.not_taken)?;
        }
        if self.before > 0 {
            write!(f, "; {} columns done before", self.before)?;
        }
        if self.treated > 0 {
            write!(f, "; {:.1} s, {:.0} columns a minute", self.time.as_secs_f64(), self.rate())?;
        }
        match self.counts.columns() {
            0 => Ok(()),
            _ => write!(f, "\nreport: {}", shown(&self.report)),
        }
    }
}
