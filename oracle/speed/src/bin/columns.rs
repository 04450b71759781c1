//! How many columns of 2^20 words the library transforms a minute, in a process that does only that.

use common::library::{tari_evaluate, tari_interpolate, tari_write_reply};
use common::memory;
use common::random::Random;
use std::process::ExitCode;
use std::time::{Duration, Instant};
use stwo::core::fields::m31::P;

const LOG_SIZE: u32 = 20;

/// The evaluations take about so long.
const TIME: Duration = Duration::from_secs(5);

type Transform = unsafe extern "C" fn(u32, *mut u32, u64, *mut u32, u64) -> tari_write_reply;

/// Evaluates a column again and again, and interpolates it as often: that must give it back.
fn main() -> ExitCode {
    let mut column: Vec<u32> = words().collect();
    let mut scratch = vec![1; column.len()];
    let mut accepted = true;
    let start = Instant::now();
    let mut count = 0;
    while start.elapsed() < TIME {
        accepted &= call(tari_evaluate, &mut column, &mut scratch);
        count += 1;
    }
    let middle = Instant::now();
    for _ in 0..count {
        accepted &= call(tari_interpolate, &mut column, &mut scratch);
    }
    print("evaluate", count, middle - start);
    print("interpolate", count, middle.elapsed());
    println!("peak memory of the process: {} MiB", memory::peak());
    if accepted && column.into_iter().eq(words()) {
        ExitCode::SUCCESS
    } else {
        println!("a call was refused, or the column differs from the one at the start");
        ExitCode::FAILURE
    }
}

fn words() -> impl Iterator<Item = u32> {
    let mut random = Random::new(1, "columns");
    (0..1 << LOG_SIZE).map(move |_| random.below(P.into()) as u32)
}

/// Whether the library accepts the call.
fn call(transform: Transform, column: &mut [u32], scratch: &mut [u32]) -> bool {
    let length = column.len() as u64;
    unsafe { transform(LOG_SIZE, column.as_mut_ptr(), length, scratch.as_mut_ptr(), length).number == 0 }
}

fn print(name: &str, count: u32, time: Duration) {
    let rate = 60.0 * f64::from(count) / time.as_secs_f64();
    println!("{name}, 2^{LOG_SIZE} words: {rate:.0} columns a minute");
}
