//! Which inputs a function is compared on.

use crate::kinds::Kind;
use common::random::Random;

/// The numbers of each argument.
pub type Input = Vec<Vec<i128>>;

/// So many combinations of limits are all compared.
const MOST_COMBINATIONS: usize = 20_000;

/// So many lines a function are recorded, a few more where its limits are many.
const RECORDED: usize = 36;

/// Every combination of the arguments' limits, or a selection where that would be too many.
pub fn combinations(takes: &[Kind], random: &mut Random) -> Vec<Input> {
    let limits: Vec<_> = takes.iter().map(|kind| (kind.limits)()).collect();
    let all = limits.iter().fold(1, |all: usize, list| all.saturating_mul(list.len()));
    if all > MOST_COMBINATIONS {
        return selection(takes, random, &|_| true);
    }
    let combination = |mut number: usize| {
        let digit = |list: &Vec<Vec<i128>>| {
            let limit = list[number % list.len()].clone();
            number /= list.len();
            limit
        };
        limits.iter().map(digit).collect()
    };
    (0..all).map(combination).collect()
}

/// The limits of all arguments side by side, each limit of each argument among drawn ones, then drawn inputs; of these
/// the ones that fit.
pub fn selection(takes: &[Kind], random: &mut Random, fits: &dyn Fn(&Input) -> bool) -> Vec<Input> {
    let limits: Vec<_> = takes.iter().map(|kind| (kind.limits)()).collect();
    let longest = limits.iter().map(Vec::len).max().unwrap_or(1);
    let side_by_side = |i: usize| limits.iter().map(|list| list[i % list.len()].clone()).collect();
    let mut inputs: Vec<Input> = (0..longest).map(side_by_side).filter(fits).collect();
    let keep = |inputs: &mut Vec<Input>, input| {
        if fits(&input) && !inputs.contains(&input) {
            inputs.push(input);
        }
    };
    for (argument, list) in limits.iter().enumerate() {
        for limit in list {
            let mut input = draw(takes, random);
            input[argument] = limit.clone();
            keep(&mut inputs, input);
        }
    }
    let enough = RECORDED.max(inputs.len() + 6);
    // A function of few inputs has no more than it has.
    for _ in 0..4 * RECORDED {
        if inputs.len() < enough {
            keep(&mut inputs, draw(takes, random));
        }
    }
    inputs
}

/// An input that is good every other time, and anything otherwise.
pub fn draw(takes: &[Kind], random: &mut Random) -> Input {
    let good = random.one_in(2);
    takes.iter().map(|kind| draw_argument(kind, good, random)).collect()
}

fn draw_argument(kind: &Kind, good: bool, random: &mut Random) -> Vec<i128> {
    loop {
        let numbers = if random.one_in(4) { random.pick(&(kind.limits)()).clone() } else { (kind.draw)(random) };
        if !good || (kind.refusal)(&numbers).is_none() {
            return numbers;
        }
    }
}
