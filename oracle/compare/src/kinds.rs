//! Kinds of argument. A kind knows the limits of its range, draws good and damaged numbers, and knows the
//! refusal of them. A kind may be several numbers: a condition on two arguments together is a kind of both.

use common::random::Random;

pub const P: i128 = 2147483647;

/// The order of G: point indices are below it.
pub const ORDER: i128 = 1 << 31;

pub struct Kind {
    /// The numbers about the ends of the range, good ones and damaged ones.
    pub limits: fn() -> Vec<Vec<i128>>,
    pub draw: fn(&mut Random) -> Vec<i128>,
    pub refusal: fn(&[i128]) -> Option<Refusal>,
}

#[derive(Clone, Copy)]
pub struct Refusal {
    pub number: u32,
    pub position: u64,
}

/// The numbers of refusals in the order of the table in docs/CALLS.md, which is the order of checking.
pub const ROWS: [u32; 13] = [6, 4, 11, 8, 9, 1, 14, 2, 3, 5, 7, 10, 12];

/// The refusal in the first of the rows; within a row the leftmost argument's. A record, which is checked wholly before
/// anything else, is one kind with what is beside it.
pub fn first_refusal(takes: &[Kind], input: &[Vec<i128>]) -> Option<Refusal> {
    let refusals = takes.iter().zip(input).filter_map(|(kind, numbers)| (kind.refusal)(numbers));
    refusals.min_by_key(|refusal| ROWS.iter().position(|number| *number == refusal.number))
}

pub fn refused_if(condition: bool, number: u32) -> Option<Refusal> {
    condition.then_some(Refusal { number, position: 0 })
}

pub fn each(numbers: &[i128]) -> Vec<Vec<i128>> {
    numbers.iter().map(|number| vec![*number]).collect()
}

const LIMITS_32: [i128; 11] = [0, 1, 2, 1 << 30, P - 2, P - 1, P, 1 << 31, 2 * P - 1, 2 * P, (1 << 32) - 1];

/// The word of an element.
pub const WORD: Kind = Kind {
    limits: || each(&LIMITS_32),
    draw: |random| {
        let bound = if random.one_in(4) { 1 << 32 } else { P as u64 };
        vec![random.below(bound).into()]
    },
    refusal: |numbers| refused_if(numbers[0] >= P, 1),
};

/// The word of an element that is inverted.
pub const DIVISOR: Kind =
    Kind { refusal: |numbers| (WORD.refusal)(numbers).or(refused_if(numbers[0] == 0, 3)), ..WORD };

/// The words of an element of so many words.
pub const fn element<const WIDTH: usize>() -> Kind {
    Kind {
        limits: || element_limits(WIDTH),
        draw: |random| {
            let sparse = random.one_in(4);
            let word = |_| if sparse && random.one_in(2) { 0 } else { (WORD.draw)(random)[0] };
            (0..WIDTH).map(word).collect()
        },
        refusal: |words| refused_if(words.iter().any(|word| *word >= P), 1),
    }
}

/// At each place a 1, a P - 1 and a P among zeros or others, and elements of equal or simple words.
fn element_limits(width: usize) -> Vec<Vec<i128>> {
    let mut limits: Vec<Vec<i128>> = [0, P - 1, (1 << 32) - 1].map(|word| vec![word; width]).to_vec();
    for place in 0..width {
        for (word, others) in [(1, 0), (P - 1, 0), (P, 1)] {
            limits.push((0..width).map(|k| if k == place { word } else { others }).collect());
        }
    }
    limits.push((0..width).map(|k| 2 - k as i128 % 2).collect());
    limits
}

/// An element that is inverted.
const fn divisor<const WIDTH: usize>() -> Kind {
    Kind {
        refusal: |words| {
            let zero = words.iter().all(|word| *word == 0);
            (element::<WIDTH>().refusal)(words).or(refused_if(zero, 3))
        },
        ..element::<WIDTH>()
    }
}

/// An element that is narrowed to its first word.
const fn narrowed<const WIDTH: usize>() -> Kind {
    Kind {
        draw: |random| {
            let mut words = (element::<WIDTH>().draw)(random);
            if random.one_in(2) {
                words[1..].fill(0);
            }
            words
        },
        refusal: |words| {
            let wide = words[1..].iter().any(|word| *word != 0);
            (element::<WIDTH>().refusal)(words).or(refused_if(wide, 12))
        },
        ..element::<WIDTH>()
    }
}

/// A CM31.
pub const PAIR: Kind = element::<2>();
pub const PAIR_DIVISOR: Kind = divisor::<2>();
pub const PAIR_NARROWED: Kind = narrowed::<2>();

/// A QM31.
pub const QUAD: Kind = element::<4>();
pub const QUAD_DIVISOR: Kind = divisor::<4>();
pub const QUAD_NARROWED: Kind = narrowed::<4>();

pub const ANY_U32: Kind =
    Kind { limits: || each(&LIMITS_32), draw: |random| vec![random.up_to_bits(32).into()], refusal: |_| None };

/// What `partial_reduce` takes.
pub const BELOW_2P: Kind = Kind { refusal: |numbers| refused_if(numbers[0] >= 2 * P, 2), ..ANY_U32 };

const LIMITS_64: [i128; 17] = [
    0,
    1,
    2,
    P - 1,
    P,
    P + 1,
    2 * P,
    (1 << 32) - 1,
    1 << 32,
    (P - 1) * (P - 1),
    P * P - 1,
    P * P,
    P * P + 1,
    1 << 62,
    (1 << 63) - 1,
    1 << 63,
    (1 << 64) - 1,
];

/// What `reduce` takes.
pub const BELOW_P_SQUARED: Kind = Kind {
    limits: || each(&LIMITS_64),
    draw: |random| vec![random.up_to_bits(64).into()],
    refusal: |numbers| refused_if(numbers[0] >= P * P, 2),
};

pub const ANY_I32: Kind = Kind {
    limits: || each(&[-(1 << 31), -P, -P + 1, -2, -1, 0, 1, 2, P - 1, P]),
    draw: |random| {
        let number = i128::from(random.up_to_bits(31));
        vec![if random.one_in(2) { -1 - number } else { number }]
    },
    refusal: |_| None,
};

const EXPONENTS: [u128; 14] = [
    0,
    1,
    2,
    3,
    P as u128 - 2,
    P as u128 - 1,
    P as u128,
    1 << 63,
    (1 << 64) - 1,
    1 << 64,
    (1 << 64) + 1,
    (P as u128 - 1) << 64,
    1 << 127,
    u128::MAX,
];

pub fn high_and_low(number: u128) -> Vec<i128> {
    vec![(number >> 64) as i128, i128::from(number as u64)]
}

/// 128 bits as two words.
pub const EXPONENT: Kind = Kind {
    limits: || EXPONENTS.map(high_and_low).to_vec(),
    draw: |random| vec![random.up_to_bits(64).into(), random.u64().into()],
    refusal: |_| None,
};

pub const P_2: u128 = (P * P) as u128;

/// 128 bits as two words, the orders of CM31 and QM31 among the limits.
pub const EXTENSION_EXPONENT: Kind = Kind {
    limits: || {
        let orders = [P_2 - 2, P_2 - 1, P_2, P_2 * P_2 - 2, P_2 * P_2 - 1, P_2 * P_2];
        [&EXPONENTS[..], &orders].concat().into_iter().map(high_and_low).collect()
    },
    ..EXPONENT
};

/// How often `sqn` squares.
pub const SQUARINGS: Kind = Kind {
    limits: || each(&[0, 1, 2, 3, 29, 30, 31, 32, 60, 61, 62, 200, 201, 1 << 32, (1 << 64) - 1]),
    draw: |random| vec![random.up_to_bits(64).into()],
    refusal: |_| None,
};
