//! A day of sample balances there and back.

use crate::access::Access;
use crate::column_file::Direction;
use crate::failure::Failure;
use crate::output::Output;
use crate::result_file::{write_beside, write_words};
use crate::run::report::{Line, Summary};
use crate::run::{self, Options};
use crate::system;
use std::ffi::OsStr;
use std::fs;
use std::path::{Path, PathBuf};
use std::time::{Duration, UNIX_EPOCH};
use taripomune::{Field, M31, P};

/// A column for each hour,
const HOURS: usize = 24;

/// with a balance for each of 2^20 cards.
const LOG_CARDS: u32 = 20;

/// A balance has so many bits: then the total is below P, so that it is known, and not only modulo P.
const BALANCE_BITS: u32 = 11;

const WHY: &str = "\
The total is the number that gets booked. Coefficient 0 is the mean of a column's values modulo P, since whatever the other
coefficients add to some values they take from others. So whoever has the coefficients, or a proof about them, has the
total, without the balances.";

pub fn demo(output: Output) -> Result<(), Failure> {
    system::note_signals();
    let day = Day::new()?;
    let [values, coefficients, returned] = ["values", "coefficients", "returned"].map(|name| day.folder.join(name));
    fs::create_dir(&values).map_err(Failure::machine(&values))?;
    let mut balances = Balances(M31::one());
    for hour in 0..HOURS {
        if system::is_stopped() {
            return Err(Failure::Stopped);
        }
        let path = values.join(name(hour));
        let written = write_beside(&path, "demo", Access::PRIVATE, |file| write_words(&balances.column(), file));
        written.map_err(Failure::unwritable(&path))?;
    }
    output.say(&format!("A day of sample balances: {HOURS} columns of {} cards, 0.00 to 20.47 each.", 1 << LOG_CARDS));
    let there = run(Direction::Interpolate, &values, &coefficients, output)?;
    let back = run(Direction::Evaluate, &coefficients, &returned, output)?;
    output.say(&format!("\n{WHY}\n\nhour  total of the balances  2^{LOG_CARDS} times coefficient 0  returned"));
    let mut right = 0;
    for hour in 0..HOURS {
        right += usize::from(is_right(hour, &values, &coefficients, &returned, output)?);
    }
    output.say(&format!("\ninterpolated: {}\nevaluated:    {}\n", speed(&there), speed(&back)));
    if right < HOURS {
        let wrong = HOURS - right;
        return Err(Failure::Wrong(format!("{wrong} columns didn't return, or their totals are others")));
    }
    output.say(&format!("All {HOURS} columns returned, and each total is 2^{LOG_CARDS} times coefficient 0."));
    Ok(())
}

/// Shows a column's figures: whether it returned, with the total that coefficient 0 gives.
fn is_right(hour: usize, values: &Path, coefficients: &Path, returned: &Path, output: Output) -> Result<bool, Failure> {
    let [values, coefficients, returned] =
        [values, coefficients, returned].map(|folder| read(&folder.join(name(hour))));
    let (values, coefficients) = (values?, coefficients?);
    let total: u64 = words(&values).map(u64::from).sum();
    let first = M31::from(words(&coefficients).next().unwrap_or(0));
    let by_coefficient = u64::from((first * M31::from(2).pow(LOG_CARDS.into())).word());
    let same = values == returned?;
    let yes_or_no = if same { "yes" } else { "no" };
    output.say(&format!("  {hour:02}  {:>21}  {:>24}  {yes_or_no:>8}", money(total), money(by_coefficient)));
    let line = Line::accepted(Some(values.len() as u64), Duration::ZERO);
    let object = line.object(output, OsStr::new(&name(hour))).number("returned", same);
    output.object(&object.text("total", &total.to_string()).number("by_coefficient_0", by_coefficient));
    Ok(same && by_coefficient == total)
}

fn speed(summary: &Summary) -> String {
    format!("{:.1} s, {:.0} columns a minute", summary.time.as_secs_f64(), summary.rate())
}

fn name(hour: usize) -> String {
    format!("hour-{hour:02}")
}

fn run(direction: Direction, columns: &Path, results: &Path, output: Output) -> Result<Summary, Failure> {
    let (columns, results) = (columns.to_path_buf(), results.to_path_buf());
    let options = Options { direction, columns, results, max_log_size: LOG_CARDS, jobs: 1, watch: None };
    let summary = run::run(&options, Output { json: false, ..output })?.unwrap_or_default();
    match summary.counts.accepted {
        HOURS => Ok(summary),
        _ if summary.counts.left > 0 => Err(Failure::Stopped),
        accepted => Err(Failure::Wrong(format!("only {accepted} of {HOURS} columns were accepted"))),
    }
}

fn read(path: &Path) -> Result<Vec<u8>, Failure> {
    fs::read(path).map_err(Failure::unreadable(path))
}

fn words(bytes: &[u8]) -> impl Iterator<Item = u32> {
    bytes.as_chunks().0.iter().map(|word| u32::from_le_bytes(*word))
}

fn money(cents: u64) -> String {
    format!("{}.{:02}", cents / 100, cents % 100)
}

/// Sample balances: the upper bits of the powers of 16807, a generator of M31, as Park and Miller draw numbers.
struct Balances(M31);

impl Balances {
    fn column(&mut self) -> Vec<u32> {
        let generator = M31::from(16807);
        let mut draw = || {
            self.0 *= generator;
            self.0.word() >> (P.ilog2() + 1 - BALANCE_BITS)
        };
        (0..1 << LOG_CARDS).map(|_| draw()).collect()
    }
}

/// A folder of temporary files, which goes with this value.
struct Day {
    folder: PathBuf,
}

impl Day {
    fn new() -> Result<Day, Failure> {
        let nanoseconds = UNIX_EPOCH.elapsed().map_or(0, |time| time.as_nanos());
        let folder = std::env::temp_dir().join(format!("taripomune-demo-{}-{nanoseconds}", std::process::id()));
        fs::create_dir(&folder).map_err(Failure::machine(&folder))?;
        Ok(Day { folder })
    }
}

impl Drop for Day {
    fn drop(&mut self) {
        let _ = fs::remove_dir_all(&self.folder);
    }
}
