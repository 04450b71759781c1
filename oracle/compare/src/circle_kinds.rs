//! Kinds of argument that `circle.rs` takes: points, scalars, counts of doublings and point indices.

use crate::kinds::{each, element, high_and_low, refused_if, Kind, EXTENSION_EXPONENT, ORDER, P, P_2};
use common::element::{point_words, Element};
use common::random::Random;
use stwo::core::circle::{CirclePoint, M31_CIRCLE_GEN, SECURE_FIELD_CIRCLE_GEN};
use stwo::core::fields::qm31::QM31;

/// The y of G = (2, y).
const Y: i128 = 1268011823;

/// On the circle; off it, some with the x of a point on it; with words from P on, some of them on it modulo P.
const POINTS: [[i128; 2]; 18] = [
    [1, 0],
    [P - 1, 0],
    [0, 1],
    [0, P - 1],
    [1 << 15, 1 << 15],
    [2, Y],
    [7, 777079998],
    [2, P - Y],
    [0, 0],
    [1, 5],
    [2, 1],
    [P - 1, P - 1],
    [P, 0],
    [1, P],
    [P + 1, 0],
    [0, P + 1],
    [2, Y + P],
    [(1 << 32) - 1, (1 << 32) - 1],
];

/// A point over M31.
pub const POINT: Kind = Kind {
    limits: || POINTS.map(Vec::from).to_vec(),
    draw: |random| {
        // An odd number times a power of two: each order is drawn as often as another.
        let multiple = (random.u64() | 1) << random.below(32) & ((1 << 31) - 1);
        drawn::<2, _>(M31_CIRCLE_GEN, multiple, random)
    },
    ..element::<2>()
};

/// A point whose order is asked for.
pub const POINT_ON_CIRCLE: Kind = Kind {
    refusal: |words| {
        let off = (words[0] * words[0] + words[1] * words[1]) % P != 1;
        (POINT.refusal)(words).or(refused_if(off, 10))
    },
    ..POINT
};

/// A point over QM31.
pub const SECURE_POINT: Kind = Kind {
    limits: || {
        let on_circle = [SECURE_FIELD_CIRCLE_GEN, M31_CIRCLE_GEN.into_ef::<QM31>()].map(numbers);
        // (1, i), where x^2 + y^2 is 0: no multiple of it but the 0th is zero.
        let i = vec![1, 0, 0, 0, 0, 1, 0, 0];
        [(element::<8>().limits)(), on_circle.to_vec(), vec![i]].concat()
    },
    draw: |random| {
        let multiple = random.up_to_bits(64);
        drawn::<8, _>(SECURE_FIELD_CIRCLE_GEN, multiple, random)
    },
    ..element::<8>()
};

/// A multiple of the generator or else any words; now and then one of these drawn anew or raised by P.
fn drawn<const WIDTH: usize, T: Element>(generator: CirclePoint<T>, multiple: u64, random: &mut Random) -> Vec<i128> {
    let on_circle = random.one_in(2);
    let mut words = if on_circle { numbers(generator.mul(multiple.into())) } else { (element::<WIDTH>().draw)(random) };
    let word = &mut words[random.below(WIDTH as u64) as usize];
    match random.below(8) {
        0 => *word = random.below(P as u64).into(),
        1 => *word = *word % P + P,
        _ => {}
    }
    words
}

fn numbers<T: Element>(point: CirclePoint<T>) -> Vec<i128> {
    point_words(&point).into_iter().map(i128::from).collect()
}

/// What `mul` takes: 128 bits as two words, the order of the circle over M31 among the limits.
pub const SCALAR: Kind = Kind {
    limits: || [(EXTENSION_EXPONENT.limits)(), vec![high_and_low(1 << 31), high_and_low((1 << 31) + 1)]].concat(),
    ..EXTENSION_EXPONENT
};

/// What `mul_signed` takes.
pub const SIGNED_SCALAR: Kind = Kind {
    limits: || {
        let positive = [1, 2, 3, P, 1 << 31, (1 << 31) + 1, 1 << 62, (1 << 63) - 1];
        let negative = positive.map(|number| -number);
        each(&[&[0], &positive[..], &negative[..], &[-(1 << 63)]].concat())
    },
    draw: |random| {
        let number = i128::from(random.up_to_bits(63));
        vec![if random.one_in(2) { -1 - number } else { number }]
    },
    refusal: |numbers| refused_if(numbers[0] == -(1 << 63), 11),
};

/// The order of the circle over QM31.
pub const SECURE_ORDER: u128 = P_2 * P_2 - 1;

/// What `get_point` takes: 128 bits as two words.
pub const SECURE_INDEX: Kind = Kind {
    limits: || {
        let small = [0, 1, 2, 3, 1 << 31, 1 << 63, (1 << 64) - 1, 1 << 64, (1 << 64) + 1, SECURE_ORDER / 2];
        let end = [SECURE_ORDER - 2, SECURE_ORDER - 1, SECURE_ORDER, SECURE_ORDER + 1, 1 << 124, 1 << 127, u128::MAX];
        [&small[..], &end[..]].concat().into_iter().map(high_and_low).collect()
    },
    draw: |random| match random.below(8) {
        0 => high_and_low(SECURE_ORDER - 8 + u128::from(random.below(16))),
        1 => vec![random.up_to_bits(64).into(), random.u64().into()],
        _ => vec![random.up_to_bits(60).into(), random.u64().into()],
    },
    refusal: |words| refused_if((words[0] as u128) << 64 | words[1] as u128 >= SECURE_ORDER, 11),
};

/// How often `repeated_double` doubles, at most `MOST` times: the Rust makes the doublings one by one.
const fn doublings<const MOST: i128>() -> Kind {
    Kind {
        limits: || each(&[0, 1, 2, 3, 30, 31, 32, 33, 64, MOST]),
        draw: |random| vec![random.up_to_bits(8).into()],
        refusal: |_| None,
    }
}

pub const DOUBLINGS: Kind = doublings::<65536>();
pub const SECURE_DOUBLINGS: Kind = doublings::<4096>();

pub const INDEX: Kind = Kind {
    limits: || {
        let good = [0, 1, 2, 3, 1 << 30, ORDER - 2, ORDER - 1];
        let large = [ORDER, ORDER + 1, ORDER + 2, (1 << 32) - 1, 1 << 32, 1 << 63, (1 << 64) - 1];
        each(&[&good[..], &large[..]].concat())
    },
    draw: |random| vec![if random.one_in(4) { random.up_to_bits(64) } else { random.up_to_bits(31) }.into()],
    refusal: |numbers| refused_if(numbers[0] >= ORDER, 4),
};

/// An index that is halved.
pub const EVEN_INDEX: Kind =
    Kind { refusal: |numbers| (INDEX.refusal)(numbers).or(refused_if(numbers[0] % 2 == 1, 5)), ..INDEX };

/// How often an index is taken.
pub const COUNT: Kind = Kind {
    limits: || each(&[0, 1, 2, 3, P, 1 << 31, (1 << 31) + 1, (1 << 33) - 1, 1 << 33, 1 << 63, (1 << 64) - 1]),
    draw: |random| vec![random.up_to_bits(64).into()],
    refusal: |_| None,
};

/// What `subgroup_gen` takes.
pub const LOG_SIZE: Kind = Kind {
    limits: || each(&[0, 1, 2, 15, 16, 30, 31, 32, 33, 63, 64, 1 << 31, (1 << 32) - 1]),
    draw: |random| vec![if random.one_in(4) { random.up_to_bits(32) } else { random.below(40) }.into()],
    refusal: |numbers| refused_if(numbers[0] > 31, 6),
};
