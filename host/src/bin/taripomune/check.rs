//! What a bank asks of column files that it was given.

use crate::End;
use crate::column_file::{Buffers, Direction, Source};
use crate::failure::Failure;
use crate::json::Object;
use crate::output::{Output, tell};
use crate::status::Status;
use crate::transform::told;
use std::path::Path;
use std::time::Instant;
use taripomune::{Field, M31, Refusal};

/// Says whether coefficients are the ones that give these values.
pub fn verify(
    values: &Path,
    coefficients: &Path,
    output: Output,
    end: impl Fn(Status) -> Object,
) -> Result<End, Failure> {
    let values = told(output, values, Instant::now(), checked(values))?;
    let mut buffers = Buffers::default();
    let given = told(output, coefficients, Instant::now(), evaluated(coefficients, &values, &mut buffers))?;
    let mut difference = None;
    for_each_word(&values, |position, value| {
        if given[position] != value {
            difference.get_or_insert((position, given[position], value));
        }
    })?;
    let Some((position, expected, found)) = difference else {
        output.say("yes: these coefficients give these values");
        return Ok((Status::Done, end(Status::Done).number("same", true)));
    };
    let sentence = format!("no: at position {position} the coefficients give {expected}, the values have {found}");
    output.say(&sentence);
    let object = end(Status::CheckFailed).number("same", false).number("position", position);
    Ok((Status::CheckFailed, object.number("expected", expected).number("found", found)))
}

/// A column file whose words are below P.
fn checked(path: &Path) -> Result<Source, Failure> {
    let source = Source::named(path)?;
    let mut refusal = None;
    for_each_word(&source, |position, word| {
        if M31::from_u32_unchecked(word).is_err() {
            refusal.get_or_insert(Refusal::Word(position as u64));
        }
    })?;
    refusal.map_or(Ok(()), |refusal| Err(source.refused(refusal))).map(|()| source)
}

/// The values of the coefficients of a file, which must be as many as those of another.
fn evaluated<'a>(path: &Path, values: &Source, buffers: &'a mut Buffers) -> Result<&'a [u32], Failure> {
    let source = Source::named(path)?;
    match source.log_size()? == values.log_size()? {
        true => buffers.transform(Direction::Evaluate, &source),
        false => Err(source.refused(Refusal::Length)),
    }
}

fn for_each_word(source: &Source, mut take: impl FnMut(usize, u32)) -> Result<(), Failure> {
    let mut position = 0;
    source.read(1 << source.log_size()?, |words| {
        for word in words {
            take(position, u32::from_le_bytes(*word));
            position += 1;
        }
    })
}

/// Gives the total of a column, and checks it against coefficient 0.
pub fn total(path: &Path, output: Output, end: impl Fn(Status) -> Object) -> Result<End, Failure> {
    let Totals { log_size, exact, modulo_p, by_coefficient } = told(output, path, Instant::now(), totals(path))?;
    output.say(&format!("total: {exact}"));
    output.say(&format!("total modulo P: {modulo_p}"));
    output.say(&format!("2^{log_size} times coefficient 0: {by_coefficient}"));
    let status = if modulo_p == by_coefficient { Status::Done } else { Status::CheckFailed };
    if status == Status::CheckFailed {
        tell("the total modulo P isn't 2^n times coefficient 0");
    }
    // As text, since some readers of JSON round numbers above 2^53.
    let object = end(status).text("total", &exact.to_string());
    Ok((status, object.number("total_modulo_p", modulo_p).number("by_coefficient_0", by_coefficient)))
}

pub struct Totals {
    log_size: u32,
    /// At most 2^30 words below 2^31 have a total below 2^61.
    pub exact: u64,
    pub modulo_p: M31,
    /// 2^n times coefficient 0.
    pub by_coefficient: M31,
}

pub fn totals(path: &Path) -> Result<Totals, Failure> {
    let source = Source::named(path)?;
    let log_size = source.log_size()?;
    let mut buffers = Buffers::default();
    let first = buffers.transform(Direction::Interpolate, &source)?[0];
    let mut exact = 0;
    for_each_word(&source, |_, word| exact += u64::from(word))?;
    let modulo_p = M31::reduce(exact).map_err(|refusal| source.refused(refusal))?;
    Ok(Totals { log_size, exact, modulo_p, by_coefficient: M31::from(first) * M31::from(2).pow(log_size.into()) })
}
