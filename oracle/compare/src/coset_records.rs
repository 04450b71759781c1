//! Records of seven numbers to call with: as the Rust makes them, with other indices and log sizes, with points that
//! aren't their indices', and with refused numbers.

use crate::coset::record;
use crate::kinds::{ORDER, P};
use common::random::Random;
use std::sync::LazyLock;
use stwo::core::circle::{CirclePointIndex, Coset};

pub const LARGEST_U32: i128 = (1 << 32) - 1;
pub const LARGEST_U64: i128 = (1 << 64) - 1;

/// The places of a record's numbers.
pub const INDICES: [usize; 2] = [0, 3];
pub const WORDS: [usize; 4] = [1, 2, 4, 5];
pub const LOG_SIZE: usize = 6;
pub const RECORD: usize = 7;

/// The numbers of a coset of the Rust, its indices read modulo 2^31.
pub fn numbers(coset: &Coset) -> Vec<i128> {
    let mut numbers = record(coset);
    for place in INDICES {
        numbers[place] %= ORDER as u64;
    }
    numbers.into_iter().map(i128::from).collect()
}

/// Records as the Rust makes them, some with the index 2^31.
pub fn made() -> Vec<Coset> {
    let index = CirclePointIndex;
    let order = ORDER as usize;
    let new = [(0, 0), (1, 3), (2, 5), (5, 31), (1 << 30, 8), (order - 1, 30), (order, 0), (order, 4), (order, 31)];
    let doubled = [Coset::odds(8).double(), Coset::odds(30).repeated_double(29), Coset::subgroup(1).double()];
    let conjugates = [Coset::half_odds(3).conjugate(), Coset::subgroup(0).conjugate()];
    let shifted = [Coset::odds(4).shift(index(order)), Coset::half_odds(5).shift(index(12345))];
    [
        &[0, 1, 2, 3, 16, 30, 31].map(Coset::subgroup)[..],
        &[0, 1, 2, 8, 29, 30].map(Coset::odds),
        &[0, 1, 2, 7, 28, 29].map(Coset::half_odds),
        &new.map(|(k, n)| Coset::new(index(k), n)),
        &doubled,
        &conjugates,
        &shifted,
    ]
    .concat()
}

/// The record with other numbers at some places.
pub fn altered(coset: &Coset, others: &[(usize, i128)]) -> Vec<i128> {
    let mut numbers = numbers(coset);
    for (place, number) in others {
        numbers[*place] = *number;
    }
    numbers
}

/// The record with the points of its indices.
pub fn with_points(mut record: Vec<i128>) -> Vec<i128> {
    for place in INDICES {
        let point = point_of(record[place]);
        record[place + 1..place + 3].copy_from_slice(&point);
    }
    record
}

/// The words of the point of an index, by the Rust.
fn point_of(index: i128) -> [i128; 2] {
    let point = CirclePointIndex(index as usize).to_point();
    [point.x, point.y].map(|coordinate| coordinate.0.into())
}

/// Whether a point isn't that of its index. The indices are in range.
pub fn contradicts(record: &[i128]) -> bool {
    INDICES.iter().any(|place| record[place + 1..place + 3] != point_of(record[*place]))
}

/// Records whose points are those of their indices, most with a step and a log size that no call makes together.
fn unusual() -> Vec<Vec<i128>> {
    let half_odds = |others: &[(usize, i128)]| with_points(altered(&Coset::half_odds(4), others));
    vec![
        half_odds(&[(0, ORDER - 1)]),
        half_odds(&[(3, ORDER - 1)]),
        half_odds(&[(3, 0)]),
        half_odds(&[(0, ORDER - 1), (3, ORDER - 1)]),
        half_odds(&[(LOG_SIZE, 0)]),
        half_odds(&[(LOG_SIZE, 30)]),
        half_odds(&[(LOG_SIZE, 31)]),
    ]
}

/// Records of which a point isn't that of its index, off the circle and on it.
fn contradicting() -> Vec<Vec<i128>> {
    let odds = |others: &[(usize, i128)]| altered(&Coset::odds(3), others);
    let half_odds = |others: &[(usize, i128)]| altered(&Coset::half_odds(4), others);
    let record = odds(&[]);
    let exchanged = [&record[..1], &record[4..6], &record[3..4], &record[1..3], &record[LOG_SIZE..]].concat();
    vec![
        vec![0; RECORD],
        odds(&[(1, 0), (2, 0)]),
        odds(&[(4, 1), (5, 5)]),
        odds(&[(2, P - record[2])]),
        odds(&[(5, P - record[5])]),
        exchanged,
        half_odds(&[(0, ORDER - 1)]),
        half_odds(&[(3, ORDER - 1)]),
        half_odds(&[(3, 0)]),
        half_odds(&[(0, ORDER - 1), (3, ORDER - 1)]),
        altered(&Coset::odds(1), &[(1, P - 1), (2, P - 1), (4, P - 1), (5, P - 1)]),
        altered(&Coset::subgroup(0), &[(1, 0)]),
        altered(&Coset::subgroup(31), &[(4, 1), (5, 0)]),
    ]
}

/// Records of the step 0 with the indices whose fourfold is 0, and with others, of several log sizes.
pub fn with_step_0() -> Vec<Vec<i128>> {
    let of_quarters = |log_size| [0, 1, 2, 3].map(|quarters: i128| (quarters << 29, log_size));
    let others = [(1, 0), ((1 << 29) + 1, 0), ((3 << 29) - 1, 0), (ORDER - 1, 0)];
    let numbers = [of_quarters(0), of_quarters(4), of_quarters(31), others].concat();
    let record = |(index, log_size)| with_points(altered(&Coset::subgroup(0), &[(0, index), (LOG_SIZE, log_size)]));
    numbers.into_iter().map(record).collect()
}

/// Records with one number that is refused, with several, and with one beside a point that isn't its index's.
fn damaged() -> Vec<Vec<i128>> {
    let one = [
        (LOG_SIZE, 32),
        (LOG_SIZE, 33),
        (LOG_SIZE, 64),
        (LOG_SIZE, LARGEST_U32),
        (0, ORDER),
        (0, LARGEST_U64),
        (3, ORDER),
        (3, 1 << 32),
        (1, P),
        (2, P + 1),
        (4, P),
        (5, LARGEST_U32),
    ];
    let several: [&[(usize, i128)]; 8] = [
        &[(0, ORDER), (LOG_SIZE, 32)],
        &[(0, 0), (5, P)],
        &[(0, 0), (LOG_SIZE, 32)],
        &[(1, P), (LOG_SIZE, 32)],
        &[(1, P), (3, ORDER)],
        &[(2, P), (0, ORDER)],
        &[(0, LARGEST_U64), (1, P), (LOG_SIZE, 40)],
        &[(0, 1 << 63), (1, P), (2, P), (3, 1 << 63), (4, P), (5, P), (LOG_SIZE, LARGEST_U32)],
    ];
    let with = |others: &[(usize, i128)]| altered(&Coset::odds(6), others);
    one.iter().map(|other| with(&[*other])).chain(several.map(with)).collect()
}

pub static RECORDS: LazyLock<Vec<Vec<i128>>> =
    LazyLock::new(|| [made().iter().map(numbers).collect(), unusual(), contradicting(), damaged()].concat());

/// A number for a place of a record, in its range or above it.
pub fn draw_number(place: usize, good: bool, random: &mut Random) -> i128 {
    let (most, bits) = match place {
        0 | 3 => (ORDER - 1, 64),
        LOG_SIZE => (31, 32),
        _ => (P - 1, 32),
    };
    match (good, random.one_in(8)) {
        (true, true) => most,
        (true, false) => random.below(most as u64).into(),
        (false, true) => most + 1,
        (false, false) => (most + 1 + i128::from(random.up_to_bits(bits - 1))).min((1 << bits) - 1),
    }
}

/// A coset as the Rust makes it.
pub fn draw_made(random: &mut Random) -> Coset {
    let mut index = || CirclePointIndex(draw_number(0, true, random) as usize);
    let (initial_index, shift_size) = (index(), index());
    let coset = match random.below(4) {
        0 => Coset::subgroup(random.below(32) as u32),
        1 => Coset::odds(random.below(31) as u32),
        2 => Coset::half_odds(random.below(30) as u32),
        _ => Coset::new(initial_index, random.below(32) as u32),
    };
    match random.below(6) {
        0 => coset.repeated_double(random.below(u64::from(coset.log_size) + 1) as u32),
        1 => coset.conjugate(),
        2 => coset.shift(shift_size),
        _ => coset,
    }
}

/// A coset as the Rust makes it, now and then with another index or log size and the points that go with it.
pub fn draw_good(random: &mut Random) -> Vec<i128> {
    let mut record = numbers(&draw_made(random));
    if random.one_in(4) {
        for _ in 0..1 + random.below(3) {
            let place = *random.pick(&[INDICES[0], INDICES[1], LOG_SIZE]);
            record[place] = draw_number(place, true, random);
        }
    }
    with_points(record)
}

/// A good record, or one with refused numbers or points that aren't its indices'.
pub fn draw_record(random: &mut Random) -> Vec<i128> {
    let mut record = draw_good(random);
    if random.one_in(3) {
        damage(&mut record, random);
    }
    record
}

/// Puts other numbers at up to three places, half of them in their range.
pub fn damage(record: &mut [i128], random: &mut Random) {
    for _ in 0..random.below(4) {
        let place = random.below(RECORD as u64) as usize;
        record[place] = draw_number(place, random.one_in(2), random);
    }
}
