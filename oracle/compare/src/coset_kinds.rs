//! Kinds of argument that cosets, canonic cosets and circle domains take: records, alone and with what they are taken
//! together with, log sizes and iterators.

use crate::circle_kinds::INDEX;
use crate::columns::dst_len;
use crate::coset_records::{
    altered, contradicts, damage, draw_good, draw_number, draw_record, made, numbers, with_points, with_step_0,
    INDICES, LARGEST_U32, LARGEST_U64, LOG_SIZE, RECORD, RECORDS, WORDS,
};
use crate::kinds::{each, refused_if, Kind, Refusal, ORDER, P};
use common::args::Args;
use common::random::Random;
use std::ops::RangeInclusive;
use stwo::core::circle::Coset;

/// A log size from `LEAST` to `MOST`.
const fn log_size<const LEAST: i128, const MOST: i128>() -> Kind {
    Kind {
        limits: || (0..=33).chain([63, 64, 1 << 31, LARGEST_U32]).map(|n| vec![n]).collect(),
        draw: |random| vec![if random.one_in(8) { random.up_to_bits(32) } else { random.below(34) }.into()],
        refusal: |numbers| refused_if(!(LEAST..=MOST).contains(&numbers[0]), 6),
    }
}

/// What `new` and `subgroup` take.
pub const RECORD_LOG_SIZE: Kind = log_size::<0, 31>();
pub const ODDS_LOG_SIZE: Kind = log_size::<0, 30>();
pub const HALF_ODDS_LOG_SIZE: Kind = log_size::<0, 29>();
pub const CANONIC_LOG_SIZE: Kind = log_size::<1, 30>();

fn refused_record(numbers: &[i128], log_sizes: RangeInclusive<i128>) -> Option<Refusal> {
    let large = |places: &[usize], bound| places.iter().any(|place| numbers[*place] >= bound);
    refused_if(!log_sizes.contains(&numbers[LOG_SIZE]), 6)
        .or(refused_if(large(&INDICES, ORDER), 4))
        .or(refused_if(large(&WORDS, P), 1))
        .or_else(|| refused_if(contradicts(numbers), 14))
}

/// A coset, also the half coset of a circle domain.
pub const COSET: Kind = Kind {
    limits: || RECORDS.clone(),
    draw: draw_record,
    refusal: |numbers| refused_record(&numbers[..RECORD], 0..=31),
};

/// A half coset of which it is asked whether its domain is canonic.
pub const COSET_ASKED: Kind = Kind { limits: || [&RECORDS[..], &with_step_0()].concat(), ..COSET };

/// The coset of a canonic coset.
pub const CANONIC: Kind = Kind { refusal: |numbers| refused_record(&numbers[..RECORD], 1..=30), ..COSET };

/// A coset that is doubled.
pub const COSET_DOUBLED: Kind =
    Kind { refusal: |numbers| (COSET.refusal)(numbers).or(refused_if(numbers[LOG_SIZE] == 0, 7)), ..COSET };

/// A coset and how often it is doubled.
pub const COSET_AND_COUNT: Kind = Kind {
    limits: || each_with_three(counts),
    draw: |random| {
        let mut numbers = draw_record(random);
        let often = if random.one_in(8) { random.up_to_bits(32) } else { random.below(numbers[LOG_SIZE] as u64 + 3) };
        numbers.push(i128::from(often).min(LARGEST_U32));
        numbers
    },
    refusal: |numbers| (COSET.refusal)(numbers).or(refused_if(numbers[RECORD] > numbers[LOG_SIZE], 7)),
};

fn counts(log_size: i128) -> [i128; 6] {
    [0, 1, log_size, log_size + 1, log_size + 2, LARGEST_U32].map(|count| count.min(LARGEST_U32))
}

/// A coset, or a domain as its half coset, and a position.
pub const COSET_AND_POSITION: Kind = Kind { limits: || each_with_three(positions), draw: draw_with_position, ..COSET };

pub const CANONIC_AND_POSITION: Kind = Kind { refusal: CANONIC.refusal, ..COSET_AND_POSITION };

/// About the ends of a coset and of the domain over it, and the largest.
fn positions(log_size: i128) -> [i128; 12] {
    let n = 1 << log_size.min(60);
    [0, 1, n - 1, n, n + 1, 2 * n - 1, 2 * n, 2 * n + 1, 3 * n, 1 << 31, 1 << 63, LARGEST_U64]
}

fn draw_with_position(random: &mut Random) -> Vec<i128> {
    let mut numbers = draw_record(random);
    let log_size = numbers[LOG_SIZE];
    numbers.push(match random.below(4) {
        0 => *random.pick(&positions(log_size)),
        1 => random.below(2 << log_size.min(60)).into(),
        _ => random.up_to_bits(64).into(),
    });
    numbers
}

/// Each of the records with three of the numbers that go with its log size.
fn each_with_three<const N: usize>(numbers: fn(i128) -> [i128; N]) -> Vec<Vec<i128>> {
    let with_three = |(place, record): (usize, &Vec<i128>)| {
        let list = numbers(record[LOG_SIZE]);
        [0, N / 3, 2 * N / 3].map(|k| [&record[..], &[list[(place + k) % N]]].concat())
    };
    RECORDS.iter().enumerate().flat_map(with_three).collect()
}

/// A coset, or a domain as its half coset, and the index of a shift, which is looked at after the whole record.
pub const COSET_AND_SHIFT: Kind = Kind {
    limits: || each_with_three(|_| [0, 1, 1 << 30, ORDER - 1, ORDER, LARGEST_U64]),
    draw: |random| [draw_record(random), (INDEX.draw)(random)].concat(),
    refusal: |numbers| (COSET.refusal)(numbers).or_else(|| (INDEX.refusal)(&numbers[RECORD..])),
};

/// A coset and another, of which it may be the doubling. The first is looked at wholly before the other.
pub const DOUBLING_AND_COSET: Kind = Kind {
    limits: || [doublings(), near_doublings(), damaged_pairs()].concat(),
    draw: draw_pair,
    refusal: |numbers| (COSET.refusal)(numbers).or_else(|| (COSET.refusal)(&numbers[RECORD..])),
};

/// Cosets doubled not at all, once, as often as can be, and half as often.
fn doublings() -> Vec<Vec<i128>> {
    let pair = |(place, coset): (usize, Coset)| {
        let n = coset.log_size;
        let doubled = coset.repeated_double([0, n.min(1), n, n / 2][place % 4]);
        [numbers(&doubled), numbers(&coset)].concat()
    };
    made().into_iter().enumerate().map(pair).collect()
}

/// Doublings with one number changed, or an index and its point, the other order, and the smallest subgroups, of which
/// one has the step 0.
fn near_doublings() -> Vec<Vec<i128>> {
    let pairs = [Coset::odds(9), Coset::half_odds(2)].map(|coset| (coset.repeated_double(2), coset));
    let changed = |(doubled, coset): (Coset, Coset)| {
        let one = (0..RECORD).map(move |place| one_less(numbers(&doubled), place));
        let with_point = INDICES.map(|place| with_points(one_less(numbers(&doubled), place)));
        one.chain(with_point).map(move |record| [record, numbers(&coset)].concat())
    };
    let reversed = pairs.map(|(doubled, coset)| (coset, doubled));
    let others = [(Coset::subgroup(0), Coset::subgroup(1)), (Coset::subgroup(2), Coset::odds(2))];
    let unchanged =
        [reversed, others].concat().into_iter().map(|(one, other)| [numbers(&one), numbers(&other)].concat());
    pairs.into_iter().flat_map(changed).chain(unchanged).collect()
}

/// The number at a place changed, so that it stays in its range.
fn one_less(mut numbers: Vec<i128>, place: usize) -> Vec<i128> {
    numbers[place] = if numbers[place] == 0 { 1 } else { numbers[place] - 1 };
    numbers
}

/// Each pair of a good record and four that are refused: by log size, by index, by word, and by a point that isn't its
/// index's.
fn damaged_pairs() -> Vec<Vec<i128>> {
    let coset = Coset::half_odds(3);
    let damages: [&[(usize, i128)]; 5] = [&[], &[(LOG_SIZE, 32)], &[(3, ORDER)], &[(1, P)], &[(1, 0)]];
    let records = damages.map(|damage| altered(&coset, damage));
    records.iter().flat_map(|one| records.each_ref().map(|other| [&one[..], other].concat())).collect()
}

fn draw_pair(random: &mut Random) -> Vec<i128> {
    let record = draw_good(random);
    let count = random.below(record[LOG_SIZE] as u64 + 1) as u32;
    let mut pair = [numbers(&Args(record.iter()).coset().repeated_double(count)), record];
    match random.below(7) {
        0 => pair[0] = one_less(pair[0].clone(), random.below(RECORD as u64) as usize),
        1 => pair[0] = with_points(one_less(pair[0].clone(), *random.pick(&INDICES))),
        2 => pair.reverse(),
        3 => pair[0] = draw_record(random),
        _ => {}
    }
    if random.one_in(4) {
        for record in &mut pair {
            damage(record, random);
        }
    }
    pair.concat()
}

/// A domain as its half coset, the log of the number of parts, and the words that the shifts are written to.
pub const SPLIT: Kind = Kind {
    limits: || RECORDS.iter().enumerate().flat_map(split_limits).collect(),
    draw: |random| {
        let record = draw_record(random);
        let n = record[LOG_SIZE] as u64;
        let log_parts = match random.below(16) {
            0 => n + 1 + random.below(2),
            1 => random.up_to_bits(32),
            2 => random.below(n.min(12) + 1),
            _ => random.below(n.min(4) + 1),
        };
        let more = if random.one_in(16) { random.below(300) as usize } else { 0 };
        let length = more + dst_len(parts(log_parts.into()), 1, random);
        let word = |_| random.up_to_bits(32).into();
        split(&record, i128::from(log_parts).min(LARGEST_U32), (0..length).map(word).collect())
    },
    refusal: |numbers| {
        let (log_parts, length) = (numbers[RECORD], numbers[RECORD + 1]);
        (COSET.refusal)(numbers)
            .or(refused_if(log_parts > numbers[LOG_SIZE], 7))
            .or_else(|| refused_if(length < 1 << log_parts, 8))
    },
};

/// How many words the shifts take, or a few where they are too many to lend.
fn parts(log_parts: i128) -> usize {
    if log_parts > 12 {
        5
    } else {
        1 << log_parts
    }
}

fn split(record: &[i128], log_parts: i128, words: Vec<i128>) -> Vec<i128> {
    [record, &[log_parts, words.len() as i128], &words].concat()
}

/// A record split into parts that fit and parts that may not, with words enough, too many or too few.
fn split_limits((place, record): (usize, &Vec<i128>)) -> [Vec<i128>; 2] {
    let n = record[LOG_SIZE];
    let fitting = [0, 1, 2, 3, 4][place % 5].min(n);
    let other = [n, n + 1, 31, 32, LARGEST_U32, n - 1][place % 6].clamp(0, LARGEST_U32);
    let few = |log_parts: i128| parts(log_parts.min(4));
    let lengths = [few(fitting) + [1, 4, 0, 2][place % 4] - 1, few(other) + [0, 2][place % 2]];
    let words = |length: usize| (0..length).map(|k| [500, P, LARGEST_U32, 0][k % 4]).collect();
    [split(record, fitting, words(lengths[0])), split(record, other, words(lengths[1]))]
}

/// The index to hand back next, the step, and how many remain.
pub const ITERATOR: Kind = Kind {
    limits: || {
        let indices = [0, 1, 1 << 30, ORDER - 1, ORDER, ORDER + 1, LARGEST_U64];
        let remaining = each(&[0, 1, 2, 1 << 31, LARGEST_U64]);
        let with_step = |cur: i128| indices.map(|step| vec![cur, step]);
        let with_remaining = |indices: Vec<i128>| remaining.iter().map(move |n| [&indices[..], n].concat());
        indices.into_iter().flat_map(with_step).flat_map(with_remaining).collect()
    },
    draw: |random| {
        let remaining = if random.one_in(3) { random.below(3) } else { random.up_to_bits(64) };
        let mut index = || draw_number(0, !random.one_in(8), random);
        vec![index(), index(), remaining.into()]
    },
    refusal: |numbers| refused_if(numbers[..2].iter().any(|index| *index >= ORDER), 4),
};
