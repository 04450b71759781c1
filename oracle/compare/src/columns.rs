//! Kinds of a column, its destination and a chunk size, which batch inversion takes together.

use crate::kinds::{refused_if, Kind, Refusal, P};
use common::random::Random;

/// A column and its destination, of so many words an element.
pub const fn in_place<const WIDTH: usize>() -> Kind {
    Kind {
        limits: || cases(WIDTH),
        draw: |random| draw(WIDTH, random),
        refusal: |numbers| {
            let (column, dst, _) = parts(numbers);
            refused_lengths(column, dst, WIDTH).or(refused_elements(column, WIDTH))
        },
    }
}

/// A column, its destination and a chunk size.
pub const fn chunked<const WIDTH: usize>() -> Kind {
    Kind {
        limits: || cases(WIDTH).into_iter().enumerate().flat_map(with_chunk_sizes).collect(),
        draw: |random| {
            let mut numbers = draw(WIDTH, random);
            let n = numbers[0] as u64 / WIDTH as u64;
            numbers.push(chunk_size(n, random).into());
            numbers
        },
        refusal: |numbers| {
            let (column, dst, rest) = parts(numbers);
            refused_lengths(column, dst, WIDTH).or(refused_if(rest == [0], 9)).or(refused_elements(column, WIDTH))
        },
    }
}

/// The words of the column, those of the destination, and what follows.
pub fn parts(numbers: &[i128]) -> (&[i128], &[i128], &[i128]) {
    let (column, rest) = numbers[1..].split_at(numbers[0] as usize);
    let (dst, rest) = rest[1..].split_at(rest[0] as usize);
    (column, dst, rest)
}

fn refused_lengths(column: &[i128], dst: &[i128], width: usize) -> Option<Refusal> {
    let broken = column.len() % width != 0 || dst.len() % width != 0;
    refused_if(broken || dst.len() < column.len(), 8)
}

/// The lowest word from P on, or else the first zero element.
fn refused_elements(column: &[i128], width: usize) -> Option<Refusal> {
    let word = column.iter().position(|word| *word >= P);
    let zero = column.chunks(width).position(|element| element.iter().all(|word| *word == 0));
    let at = |number| move |position| Refusal { number, position: position as u64 };
    word.map(at(1)).or(zero.map(at(3)))
}

/// The lengths of column and destination, what is put into the column at which words, and its zero elements.
type Case<'a> = (usize, usize, &'a [(usize, i128)], &'a [usize]);

/// Small inputs of each form: accepted ones, each refusal, and refusals side by side.
fn cases(w: usize) -> Vec<Vec<i128>> {
    let list: [Case; 23] = [
        (0, 0, &[], &[]),
        (0, w, &[], &[]),
        (w, w, &[], &[]),
        (w, w, &[(0, P - 1), (w - 1, P - 1)], &[]),
        (3 * w, 3 * w, &[], &[]),
        (3 * w, 5 * w, &[], &[]),
        (4 * w, 4 * w, &[], &[]),
        (4 * w, 5 * w, &[], &[]),
        (5 * w, 5 * w, &[], &[]),
        (8 * w, 8 * w, &[], &[]),
        (8 * w, 9 * w, &[], &[]),
        (12 * w, 12 * w, &[], &[]),
        // A broken element in either slice, or just a longer destination where an element is one word.
        (2 * w, 2 * w + 1, &[], &[]),
        (2 * w - 1, 2 * w, &[], &[]),
        (2 * w, w, &[], &[]),
        (2 * w, w, &[(0, P)], &[1]),
        (w, w, &[(w - 1, P)], &[]),
        (3 * w, 3 * w, &[(w, (1 << 32) - 1), (3 * w - 1, P)], &[]),
        (3 * w, 4 * w, &[(3 * w - 1, P)], &[0]),
        (3 * w, 3 * w, &[(w - 1, P)], &[2]),
        (w, w, &[], &[0]),
        (3 * w, 3 * w, &[], &[1, 2]),
        (4 * w, 4 * w, &[], &[3]),
    ];
    list.map(|case| written(case, w)).to_vec()
}

fn written((column_len, dst_len, words, zeros): Case, width: usize) -> Vec<i128> {
    let mut column: Vec<i128> = (1..=column_len as i128).collect();
    for (place, word) in words {
        column[*place] = *word;
    }
    for zero in zeros {
        column[zero * width..][..width].fill(0);
    }
    let dst = (0..dst_len).map(|place| [7, P, (1 << 32) - 1, 0][place % 4]).collect();
    joined(column, dst)
}

pub fn joined(column: Vec<i128>, dst: Vec<i128>) -> Vec<i128> {
    [vec![column.len() as i128], column, vec![dst.len() as i128], dst].concat()
}

/// A case with two chunk sizes, 0 among them every other time.
fn with_chunk_sizes((place, case): (usize, Vec<i128>)) -> [Vec<i128>; 2] {
    const SIZES: [i128; 7] = [4, 1, 3, 8, 2, (1 << 64) - 1, 5];
    let other = if place % 2 == 0 { 0 } else { SIZES[(place + 3) % 7] };
    [SIZES[place % 7], other].map(|size| [&case[..], &[size]].concat())
}

fn chunk_size(n: u64, random: &mut Random) -> u64 {
    match random.below(16) {
        0 => 0,
        1..=8 => 1 + random.below(n + 2),
        9..=13 => 4 * (1 + random.below(4)),
        _ => *random.pick(&[1 << 32, 1 << 63, u64::MAX]),
    }
}

fn draw(width: usize, random: &mut Random) -> Vec<i128> {
    let length = width * elements_drawn(random);
    let broken = if random.one_in(16) { random.below(width as u64) as usize } else { 0 };
    let mut column: Vec<i128> = (0..length + broken).map(|_| draw_word(width, random)).collect();
    if random.one_in(2) {
        damage(&mut column, width, random);
    }
    let dst = (0..dst_len(column.len(), width, random)).map(|_| random.up_to_bits(32).into()).collect();
    joined(column, dst)
}

/// How many elements: often so many that the Rust's pass of four lanes takes the column, or just doesn't.
fn elements_drawn(random: &mut Random) -> usize {
    match random.below(3) {
        0 => *random.pick(&[0, 1, 3, 4, 5, 8, 12, 16]),
        1 => 4 * random.below(11) as usize,
        _ => random.below(41) as usize,
    }
}

/// A word below P, and seldom all words of an element 0.
fn draw_word(width: usize, random: &mut Random) -> i128 {
    if random.one_in(8) {
        return *random.pick(if width == 1 { &[1, P - 1] } else { &[0, 1, P - 1] });
    }
    (1 + random.below(P as u64 - 1)).into()
}

/// Puts up to two words from P on and up to two zero elements anywhere.
fn damage(column: &mut [i128], width: usize, random: &mut Random) {
    let n = column.len() / width;
    if n == 0 {
        return;
    }
    for _ in 0..random.below(3) {
        column[random.below((n * width) as u64) as usize] = P + i128::from(random.below(1 << 31));
    }
    for _ in 0..random.below(3) {
        column[random.below(n as u64) as usize * width..][..width].fill(0);
    }
}

pub fn dst_len(column_len: usize, width: usize, random: &mut Random) -> usize {
    let more = 1 + random.below(9) as usize;
    match random.below(8) {
        0..=3 => column_len,
        4 | 5 => column_len + more * width,
        6 => column_len + more,
        _ => column_len.saturating_sub(more),
    }
}
