//! Kinds of argument that the column orders take: positions, log sizes and offsets, and columns of any words.

use crate::columns::{dst_len, joined, parts};
use crate::kinds::{each, refused_if, Kind, P};
use common::random::Random;
use std::collections::BTreeSet;

const LARGEST: i128 = (1 << 64) - 1;

/// A position whose bits have no simple order.
const BITS: i128 = 0x0123_4567_89ab_cdef;

/// Positions about the ends and the middle of 2^n, and the largest.
fn about(log_size: i128) -> [i128; 9] {
    let size = 1 << log_size.min(64);
    let positions = [size - 1, size, size / 2, size / 2 + 1, 0, 1, size - 2, size + 1, LARGEST];
    positions.map(|position| position.clamp(0, LARGEST))
}

fn different(limits: impl Iterator<Item = Vec<i128>>) -> Vec<Vec<i128>> {
    limits.collect::<BTreeSet<_>>().into_iter().collect()
}

/// A position for a log size: about its ends, of so many bits, or any.
fn draw_position(log_size: i128, random: &mut Random) -> i128 {
    match random.below(4) {
        0 => *random.pick(&about(log_size)),
        1 => random.up_to_bits(log_size.clamp(1, 64) as u64).into(),
        _ => random.up_to_bits(64).into(),
    }
}

/// What `bit_reverse_index` takes: a position and a log size.
pub const REVERSED: Kind = Kind {
    limits: || {
        let sizes = (0..=66).chain([127, 128, 1 << 31, (1 << 32) - 1]);
        let ends = [0, 1, 4, 64].into_iter().flat_map(|n| about(n).map(|position| vec![position, n]));
        different(sizes.map(|n| vec![BITS, n]).chain(ends))
    },
    draw: |random| {
        let log_size = if random.one_in(8) { random.up_to_bits(32) } else { random.below(68) }.into();
        vec![draw_position(log_size, random), log_size]
    },
    refusal: |numbers| refused_if(numbers[1] > 64, 6),
};

/// What the order map takes: a coset position and a log size.
pub const COSET_POSITION: Kind = Kind {
    limits: || {
        let sizes = (0..=33).chain([63, 64, (1 << 32) - 1]).enumerate();
        different(sizes.flat_map(|(place, n)| [0, 1 + place % 8].map(|end| vec![about(n)[end], n])))
    },
    draw: |random| {
        let log_size = if random.one_in(8) { random.up_to_bits(32) } else { random.below(34) }.into();
        vec![draw_position(log_size, random), log_size]
    },
    refusal: |numbers| refused_if(numbers[1] > 31, 6).or_else(|| refused_if(numbers[0] >= 1 << numbers[1], 4)),
};

/// A position that is offset.
pub const POSITION: Kind = Kind {
    limits: || each(&[0, 1, 2, 3, (1 << 30) - 1, 1 << 30, 1 << 63, BITS, LARGEST]),
    draw: |random| vec![random.up_to_bits(64).into()],
    refusal: |_| None,
};

/// The log sizes of a domain and of an evaluation.
pub const DOMAIN_AND_EVAL: Kind = Kind {
    limits: || {
        let good = (1..=30).map(|eval| vec![[0, eval / 2, eval - 1][eval as usize % 3], eval]);
        let ends = [[2, 3], [0, 30], [29, 30]];
        let large = (1 << 32) - 1;
        let domains = [[1, 1], [2, 1], [30, 30], [31, 30], [large, 30]];
        let evals = [[0, 0], [large, 0], [0, 31], [30, 31], [0, 32], [0, large], [large - 1, large]];
        [&ends[..], &domains, &evals].concat().into_iter().map(Vec::from).chain(good).collect()
    },
    draw: |random| {
        let eval = random.below(33);
        let domain = if random.one_in(16) { random.up_to_bits(32) } else { random.below(eval + 2) };
        vec![domain.into(), eval.into()]
    },
    refusal: |sizes| refused_if(!(1..=30).contains(&sizes[1]) || sizes[0] >= sizes[1], 6),
};

/// How far a position is offset.
pub const OFFSET: Kind = Kind {
    limits: || {
        let most = 1 << 31;
        let positive = [1, 2, 3, most - 1, most, most + 1, 1 << 32, (1 << 63) - 1];
        let negative = positive.map(|offset| -offset);
        each(&[&negative[..], &[0], &positive, &[-(1 << 63)]].concat())
    },
    draw: |random| {
        let bits = if random.one_in(8) { 63 } else { 31 };
        let size = i128::from(random.up_to_bits(bits));
        vec![if random.one_in(2) { -1 - size } else { size }]
    },
    refusal: |numbers| refused_if(numbers[0].abs() > 1 << 31, 11),
};

/// A column that is permuted in place.
pub const PERMUTED: Kind = Kind {
    limits: || {
        let counted = [1, 2, 4, 8, 16, 32].map(|length| (0..length).collect());
        let others = (0..=40).chain([63, 64, 65, 127, 128, 129]).map(limit_words);
        counted.into_iter().chain(others).map(slice).collect()
    },
    draw: |random| slice(draw_words(draw_length(random), random)),
    refusal: |numbers| refused_if(!(numbers[0] as u64).is_power_of_two(), 8),
};

/// A column that is copied, and its destination.
pub const COPIED: Kind = Kind {
    limits: || {
        let lengths = (0..=40).chain([63, 64, 128]);
        let with_dst = |n: usize| {
            let other = [n + 1, n.saturating_sub(1), n + 2, 0, n + 5, n / 2][n / 2 % 6];
            [n, other].map(|dst| joined(limit_words(n), limit_dst(dst)))
        };
        lengths.flat_map(with_dst).collect()
    },
    draw: |random| {
        let length = if random.one_in(2) { draw_length(random) } else { random.below(41) as usize };
        let dst_length = dst_len(length, 1, random);
        joined(draw_words(length, random), draw_words(dst_length, random))
    },
    refusal: |numbers| {
        let (values, dst, _) = parts(numbers);
        refused_if(dst.len() < values.len() || values.len() % 2 != 0, 8)
    },
};

fn slice(words: Vec<i128>) -> Vec<i128> {
    [vec![words.len() as i128], words].concat()
}

/// The ends of M31 and of u32.
const ENDS: [i128; 4] = [0, P - 1, P, (1 << 32) - 1];

/// A column of words that are all different, the last ones from `ENDS`.
fn limit_words(length: usize) -> Vec<i128> {
    let counted = 1..=length.saturating_sub(4) as i128;
    counted.chain(ENDS.into_iter().skip(4_usize.saturating_sub(length))).collect()
}

/// A destination of words that no column of limits has.
fn limit_dst(length: usize) -> Vec<i128> {
    (0..length).map(|place| [500, 500, 500, P][place % 4] + place as i128).collect()
}

/// A column of words that are all different, by steps of an odd number; one of `ENDS` may stand anywhere.
fn draw_words(length: usize, random: &mut Random) -> Vec<i128> {
    let step = random.u64() as u32 | 1;
    let place = random.below(length as u64 + 1) as u32;
    let first = (*random.pick(&ENDS) as u32).wrapping_sub(place.wrapping_mul(step));
    (0..length as u32).map(|k| first.wrapping_add(k.wrapping_mul(step)).into()).collect()
}

/// A length that is mostly a power of two, as a rule small and seldom up to 2^20.
fn draw_length(random: &mut Random) -> usize {
    let log_size = match random.below(8192) {
        0 => 20,
        1..=7 => 13 + random.below(4),
        8..=255 => 6 + random.below(7),
        _ => random.below(6),
    };
    let length = 1 << log_size;
    match random.below(8) {
        0 => length - 1,
        1 => length + 1,
        2 => random.below(length as u64) as usize,
        _ => length,
    }
}
