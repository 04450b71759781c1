//! The kind of a log size, a column and scratch, which the transform takes together.

use crate::columns::{joined, parts};
use crate::kinds::{refused_if, Kind, Refusal, P};
use common::random::Random;

const LARGEST: i128 = (1 << 32) - 1;

/// Words that no column may have, the least one among them.
const REFUSED: [i128; 3] = [P, 1 << 31, LARGEST];

pub const COLUMN_AND_SCRATCH: Kind = Kind {
    limits: || [accepted(), damaged(), lengths(), log_sizes()].concat(),
    draw,
    refusal: |numbers| {
        let (column, scratch, _) = parts(&numbers[1..]);
        refused_if(!(1..=30).contains(&numbers[0]), 6)
            .or_else(|| refused_if(column.len() != 1 << numbers[0] || scratch.len() < 1 << numbers[0], 8))
            .or_else(|| refused_word(column))
    },
};

/// The lowest word from P on.
fn refused_word(column: &[i128]) -> Option<Refusal> {
    let position = column.iter().position(|word| *word >= P)?;
    Some(Refusal { number: 1, position: position as u64 })
}

/// The numbers of a call, with so many words of scratch.
fn numbers(log_size: i128, column: Vec<i128>, scratch: usize) -> Vec<i128> {
    let scratch = (0..scratch).map(|place| [LARGEST, 0, P, 7][place % 4]).collect();
    [vec![log_size], joined(column, scratch)].concat()
}

fn counted(length: usize) -> Vec<i128> {
    (1..=length as i128).collect()
}

/// Words all over the range below P.
fn spread(length: usize) -> Vec<i128> {
    (1..=length as i128).map(|k| k * 0x0123_4567_89ab_cdef % P).collect()
}

/// Words below P of each simple form, with scratch that is just long enough, longer and twice as long.
fn accepted() -> Vec<Vec<i128>> {
    let columns = |n: i128| {
        let size: usize = 1 << n;
        let equal = [7, P - 1, 0].map(|word| vec![word; size]);
        // A one at each place of a short column.
        let places = if n > 3 { 0..0 } else { 0..size };
        let ones = places.map(move |one| (0..size).map(|place| i128::from(place == one)).collect());
        [spread(size), counted(size)].into_iter().chain(equal).chain(ones).map(move |column| (n, column))
    };
    let with_scratch = |(place, (n, column)): (usize, (i128, Vec<i128>))| {
        let size = column.len();
        numbers(n, column, [size, size + 1, 2 * size][place % 3])
    };
    (1..=6).flat_map(columns).enumerate().map(with_scratch).collect()
}

/// Words from P on at either end and between, one alone and several.
fn damaged() -> Vec<Vec<i128>> {
    let columns = |n: i128| {
        let size: usize = 1 << n;
        let alone = [0, size / 2, size - 1].into_iter().zip(REFUSED).map(|damage| vec![damage]);
        let several = [vec![(0, LARGEST), (size - 1, P)], vec![(size / 2, P), (size - 1, LARGEST)]];
        let all = (0..size).map(|place| (place, REFUSED[place % 3])).collect();
        alone.chain(several).chain([all]).map(move |damages| (n, damages))
    };
    let with_damages = |(n, damages): (i128, Vec<(usize, i128)>)| {
        let mut column = spread(1 << n);
        damages.iter().for_each(|(place, word)| column[*place] = *word);
        numbers(n, column, (1 << n) + damages.len() - 1)
    };
    (1..=3).flat_map(columns).map(with_damages).collect()
}

/// Lengths of column and scratch that don't fit, some beside a word that is refused.
fn lengths() -> Vec<Vec<i128>> {
    let wrong = |n: i128| {
        let size: usize = 1 << n;
        let columns = [0, size - 1, size + 1, 2 * size].map(|length| (length, 2 * size));
        let scratches = [(size, 0), (size, size - 1), (size - 1, size - 1), (size + 1, size), (0, 0)];
        columns.into_iter().chain(scratches).map(move |lengths| (n, lengths))
    };
    let of_lengths = |(place, (n, (column, scratch))): (usize, (i128, (usize, usize)))| {
        let mut column = counted(column);
        if place % 4 == 1 {
            column.iter_mut().take(1).for_each(|word| *word = P);
        }
        numbers(n, column, scratch)
    };
    (1..=3).flat_map(wrong).enumerate().map(of_lengths).collect()
}

/// All log sizes to 33 and large ones. The column and scratch have the words of the log size modulo 32 where these are
/// few, else one; then log sizes beside lengths and words that are refused too.
fn log_sizes() -> Vec<Vec<i128>> {
    let alone = (0..=33).chain([63, 64, 65, 1 << 31, (1 << 31) + 1, LARGEST]).map(|n| {
        let size = if n % 32 < 4 { 1 << (n % 32) } else { 1 };
        numbers(n, counted(size), size)
    });
    let beside = [0, 31, LARGEST].map(|n| numbers(n, vec![P, 1], 1));
    alone.chain(beside).collect()
}

fn draw(random: &mut Random) -> Vec<i128> {
    let log_size = draw_log_size(random);
    let size = 1 << log_size;
    let length = if random.one_in(8) { *random.pick(&[0, size - 1, size + 1, 2 * size]) } else { size };
    let mut column = draw_column(length, random);
    if random.one_in(4) {
        damage(&mut column, random);
    }
    let scratch = draw_scratch(scratch_len(size, random), random);
    let log_size = match random.below(32) {
        0 => random.below(34),
        1 => random.up_to_bits(32),
        _ => log_size,
    };
    [vec![log_size.into()], joined(column, scratch)].concat()
}

/// Seldom up to 10: the sum takes 4^n products.
fn draw_log_size(random: &mut Random) -> u64 {
    match random.below(1024) {
        0 => 10,
        1 | 2 => 9,
        3..=10 => 8,
        11..=42 => 7,
        _ => 1 + random.below(6),
    }
}

/// Words below P: any, all alike, or one among zeros.
fn draw_column(length: usize, random: &mut Random) -> Vec<i128> {
    let mut column = vec![0; length];
    match random.below(8) {
        0 => column.fill(*random.pick(&[0, 1, P - 1])),
        1 if length > 0 => column[random.below(length as u64) as usize] = *random.pick(&[1, P - 1]),
        2 => column.fill_with(|| *random.pick(&[0, 1, P - 1])),
        _ => column.fill_with(|| random.below(P as u64).into()),
    }
    column
}

/// Puts up to three words from P on anywhere.
fn damage(column: &mut [i128], random: &mut Random) {
    for _ in 0..1 + random.below(3) {
        if let Some(bound) = (column.len() as u64).checked_sub(1) {
            let any = P + i128::from(random.below(1 << 31));
            column[random.below(bound + 1) as usize] = if random.one_in(2) { *random.pick(&REFUSED) } else { any };
        }
    }
}

fn scratch_len(size: usize, random: &mut Random) -> usize {
    match random.below(8) {
        0 => *random.pick(&[0, size - 1, size / 2]),
        1 => size + 1 + random.below(9) as usize,
        2 => 2 * size,
        _ => size,
    }
}

fn draw_scratch(length: usize, random: &mut Random) -> Vec<i128> {
    match random.below(4) {
        0 => vec![*random.pick(&[0, P, LARGEST]); length],
        _ => (0..length).map(|_| random.up_to_bits(32).into()).collect(),
    }
}
