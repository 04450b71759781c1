//! What is measured.

use crate::index_rows;
use crate::measure::{best, Row, Work};
use common::element::{elements, point, words_of, Element};
use common::library::{
    tari_batch_reply, tari_bit_reverse, tari_bit_reverse_coset_to_circle_domain_order, tari_m31_batch_inverse_in_place,
    tari_point_add, tari_point_repeated_double, tari_point_reply, tari_qm31_batch_inverse_in_place, tari_qm31_mul,
    tari_secure_point_add, tari_write_reply,
};
use common::random::Random;
use std::hint::black_box;
use stwo::core::circle::CirclePoint;
use stwo::core::fields::batch_inverse_in_place;
use stwo::core::fields::m31::{M31, P};
use stwo::core::fields::qm31::QM31;
use stwo::core::utils::{bit_reverse, bit_reverse_coset_to_circle_domain_order};

pub static ROWS: &[fn() -> Row] = &[
    || batch_inverse::<M31>("m31_batch_inverse_in_place, 2^20 elements", 1 << 20, tari_m31_batch_inverse_in_place),
    || batch_inverse::<QM31>("qm31_batch_inverse_in_place, 2^18 elements", 1 << 18, tari_qm31_batch_inverse_in_place),
    || chain("qm31_mul, a chain of 2^16 products", 1 << 16, 4, QM31::of, |x, y| x * y, qm31_mul),
    || chain("point_add, a chain of 2^16 sums", 1 << 16, 2, point, called_add, point_add),
    || chain("secure_point_add, a chain of 2^16 sums", 1 << 16, 8, point, |x, y| x + y, secure_point_add),
    || doublings("point_repeated_double, 2^16 sums", 1 << 16),
    || index_rows::to_point("index_to_point, 2^16 indices", 1 << 16),
    || index_rows::coset_at("coset_at, 2^16 cosets", 1 << 16),
    || index_rows::coset_shift("coset_shift, 2^16 cosets", 1 << 16),
    || index_rows::coset_conjugate("coset_conjugate, 2^16 cosets", 1 << 16),
    || permutation("bit_reverse, 2^20 words", 1 << 20, bit_reverse, tari_bit_reverse),
    || {
        let what = "bit_reverse_coset_to_circle_domain_order, 2^20 words";
        let call = tari_bit_reverse_coset_to_circle_domain_order;
        permutation(what, 1 << 20, bit_reverse_coset_to_circle_domain_order, call)
    },
];

/// What the look-ups of a record take in calls in which the Rust looks up no point.
pub static RECORD_ROWS: &[fn() -> Row] = &[
    || index_rows::coset_index_at("coset_index_at, 2^16 cosets", 1 << 16),
    || index_rows::coset_is_doubling_of("coset_is_doubling_of, 2^16 pairs", 1 << 16),
];

/// The library may take a tenth longer than the Rust.
const LIMIT: f64 = 1.10;

type BatchInverse = unsafe extern "C" fn(*const u32, u64, *mut u32, u64) -> tari_batch_reply;

/// Both write into a destination that is there.
fn batch_inverse<T: Element>(what: &'static str, n: usize, call: BatchInverse) -> Row {
    let words = drawn(what, n * T::WIDTH);
    let column: Vec<T> = elements(&words);
    let mut rust_dst = vec![T::default(); n];
    let mut dst = vec![0; words.len()];
    let length = words.len() as u64;
    let mut reply = tari_batch_reply { number: 0, position: 0, multiplications: 0, inversions: 0 };
    let (rust, library) = best(
        n,
        || batch_inverse_in_place(black_box(&column), black_box(&mut rust_dst)),
        || reply = unsafe { call(words.as_ptr(), length, dst.as_mut_ptr(), length) },
    );
    let an_element = |count: u64| count as f64 / n as f64;
    let work = Work { multiplications: an_element(reply.multiplications), inversions: an_element(reply.inversions) };
    Row { what, rust, library, limit: LIMIT, equal: words_of(&rust_dst) == dst, work: Some(work) }
}

/// x, xy, xyy and so on: each step waits for the one before it. `of` makes x and y, of so many words each. The
/// library's side carries a `T` too: an array of two words would be read from the reply as one number, which is slow
/// just after two stores.
fn chain<T: Copy + PartialEq>(
    what: &'static str,
    n: usize,
    width: usize,
    of: fn(&[u32]) -> T,
    rust_step: impl Fn(T, T) -> T,
    step: impl Fn(T, T) -> T,
) -> Row {
    let words = drawn(what, 2 * width);
    let (x, y) = (of(&words[..width]), of(&words[width..]));
    let (mut rust_last, mut last) = (x, x);
    let (rust, library) = best(
        n,
        || {
            let (x, y) = black_box((x, y));
            rust_last = black_box((0..n).fold(x, |x, _| rust_step(x, y)));
        },
        || {
            let (x, y) = black_box((x, y));
            last = black_box((0..n).fold(x, |x, _| step(x, y)));
        },
    );
    Row { what, rust, library, limit: LIMIT, equal: rust_last == last, work: None }
}

fn qm31_mul(x: QM31, y: QM31) -> QM31 {
    let ([a0, a1, a2, a3], [b0, b1, b2, b3]) = (words(x), words(y));
    let reply = tari_qm31_mul(a0, a1, a2, a3, b0, b1, b2, b3);
    QM31::from_u32_unchecked(reply.a, reply.b, reply.c, reply.d)
}

fn point_add(a: CirclePoint<M31>, b: CirclePoint<M31>) -> CirclePoint<M31> {
    let reply = tari_point_add(a.x.0, a.y.0, b.x.0, b.y.0);
    CirclePoint { x: M31(reply.x), y: M31(reply.y) }
}

/// The Rust's sum behind a call and a reply like the library's: without them the sum is shorter than a call.
#[inline(never)]
extern "C" fn rust_point_add(ax: u32, ay: u32, bx: u32, by: u32) -> tari_point_reply {
    let sum = CirclePoint { x: M31(ax), y: M31(ay) } + CirclePoint { x: M31(bx), y: M31(by) };
    tari_point_reply { number: 0, position: 0, x: sum.x.0, y: sum.y.0 }
}

fn called_add(a: CirclePoint<M31>, b: CirclePoint<M31>) -> CirclePoint<M31> {
    let reply = rust_point_add(a.x.0, a.y.0, b.x.0, b.y.0);
    CirclePoint { x: M31(reply.x), y: M31(reply.y) }
}

/// One call: p + p, n times, each sum of the one before.
fn doublings(what: &'static str, n: u32) -> Row {
    let start = point::<M31>(&drawn(what, 2));
    let (mut rust_last, mut last) = (start, start);
    let (rust, library) = best(
        n as usize,
        || rust_last = black_box(black_box(start).repeated_double(n)),
        || {
            let start = black_box(start);
            let reply = tari_point_repeated_double(start.x.0, start.y.0, n);
            last = CirclePoint { x: M31(reply.x), y: M31(reply.y) };
        },
    );
    Row { what, rust, library, limit: LIMIT, equal: rust_last == last, work: None }
}

fn secure_point_add(a: CirclePoint<QM31>, b: CirclePoint<QM31>) -> CirclePoint<QM31> {
    let ([a0, a1, a2, a3], [a4, a5, a6, a7]) = (words(a.x), words(a.y));
    let ([b0, b1, b2, b3], [b4, b5, b6, b7]) = (words(b.x), words(b.y));
    let reply = tari_secure_point_add(a0, a1, a2, a3, a4, a5, a6, a7, b0, b1, b2, b3, b4, b5, b6, b7);
    CirclePoint {
        x: QM31::from_u32_unchecked(reply.x0, reply.x1, reply.x2, reply.x3),
        y: QM31::from_u32_unchecked(reply.y0, reply.y1, reply.y2, reply.y3),
    }
}

fn words(x: QM31) -> [u32; 4] {
    x.to_m31_array().map(|word| word.0)
}

type Permutation = unsafe extern "C" fn(*mut u32, u64) -> tari_write_reply;

/// Each side permutes its own column again and again. Every second time brings back the start, so the columns are
/// compared after one time more and after two.
fn permutation(what: &'static str, n: usize, rust_permute: fn(&mut [u32]), call: Permutation) -> Row {
    let (mut rust_v, mut v) = (drawn(what, n), drawn(what, n));
    let permute = |v: &mut Vec<u32>| unsafe {
        call(v.as_mut_ptr(), n as u64);
    };
    let (rust, library) = best(n, || rust_permute(black_box(&mut rust_v)), || permute(black_box(&mut v)));
    let equal = (0..2).all(|_| {
        rust_permute(&mut rust_v);
        permute(&mut v);
        rust_v == v
    });
    Row { what, rust, library, limit: LIMIT, equal, work: None }
}

/// Words from 1 to P - 1.
pub fn drawn(name: &str, count: usize) -> Vec<u32> {
    let mut random = Random::new(1, name);
    (0..count).map(|_| 1 + random.below(u64::from(P) - 1) as u32).collect()
}
