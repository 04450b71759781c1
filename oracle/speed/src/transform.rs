//! The library's transform in Rust: the tree of twiddles in scratch, butterflies layer by layer in blocks that fit the
//! cache and half by half in longer ones, the two layers of the smallest distances in one pass, eight words at a time.
//! It stands here twice: with `PARTLY` words between layers may be P for 0, as the library leaves them; without, every
//! word is below P, as in stwo.

use crate::twiddles::{add, fill, invert, mul, mul_partly, mul_twice, partly, reduced, sub, POWERS};
use stwo::core::fields::m31::P;

/// A transform of 2^log_size words, with as many words of scratch; whether it took the column.
pub type Transform = fn(u32, &mut [u32], &mut [u32]) -> bool;

/// Blocks of up to 2^14 words go layer by layer.
const LOG_BLOCK: u32 = 14;

/// Whether all words are below P. It doesn't stop at the first that isn't: without a branch many are taken at a time.
#[inline(always)]
fn below_p(column: &[u32]) -> bool {
    column.iter().fold(0, |seen, word| seen | word | word.wrapping_add(1)) <= P
}

/// A sum below 2P down to below P; with `PARTLY` one of up to 2P down to at most P, which stands for 0.
#[inline(always)]
fn sum<const PARTLY: bool>(sum: u32) -> u32 {
    if PARTLY {
        partly(sum)
    } else {
        reduced(sum)
    }
}

/// The product may be P: the sum and the difference take that for 0. Only with `PARTLY` may they be P themselves.
#[inline(always)]
fn butterfly<const PARTLY: bool>(u: u32, v: u32, w: u32) -> (u32, u32) {
    let product = mul_partly(v, w);
    (sum::<PARTLY>(u + product), sub(u, product))
}

#[inline(always)]
fn inverse_butterfly<const PARTLY: bool>(u: u32, v: u32, w: u32) -> (u32, u32) {
    let difference = sub(u, v);
    (sum::<PARTLY>(u + v), if PARTLY { mul_partly(difference, w) } else { mul(difference, w) })
}

/// The butterflies of a loop with one twiddle, which they take doubled.
#[inline(always)]
fn loop_butterfly<const PARTLY: bool>(u: u32, v: u32, twice: u32) -> (u32, u32) {
    let product = partly(mul_twice(v, twice));
    (sum::<PARTLY>(u + product), sub(u, product))
}

#[inline(always)]
fn inverse_loop_butterfly<const PARTLY: bool>(u: u32, v: u32, twice: u32) -> (u32, u32) {
    (sum::<PARTLY>(u + v), sum::<PARTLY>(mul_twice(sub(u, v), twice)))
}

trait Butterfly: Fn(u32, u32, u32) -> (u32, u32) + Copy {}
impl<T: Fn(u32, u32, u32) -> (u32, u32) + Copy> Butterfly for T {}

/// A butterfly on each pair of words half a block apart.
#[inline(always)]
fn halves(block: &mut [u32], half: usize, w: u32, butterfly: impl Butterfly) {
    let twice = 2 * w;
    let (low, high) = block.split_at_mut(half);
    // Zipped the other way round, interpolation of 2^24 words and more takes a fifth longer.
    for (v, u) in high.iter_mut().zip(low) {
        (*u, *v) = butterfly(*u, *v, twice);
    }
}

/// The last two layers on the eight words below two siblings, which hold x and y of one point. With `PARTLY` it takes words
/// that may be P for 0; it leaves words below P.
#[inline(always)]
fn eight<const PARTLY: bool>(c: &mut [u32; 8], x: u32, y: u32) {
    if PARTLY {
        (c[0], c[4]) = (reduced(c[0]), reduced(c[4]));
    }
    let (a0, a2) = butterfly::<false>(c[0], c[2], x);
    let (a1, a3) = butterfly::<PARTLY>(c[1], c[3], x);
    let (a4, a6) = butterfly::<false>(c[4], c[6], y);
    let (a5, a7) = butterfly::<PARTLY>(c[5], c[7], y);
    (c[0], c[1]) = butterfly::<false>(a0, a1, y);
    (c[3], c[2]) = butterfly::<false>(a2, a3, y);
    (c[5], c[4]) = butterfly::<false>(a4, a5, x);
    (c[6], c[7]) = butterfly::<false>(a6, a7, x);
}

/// The first two layers of the other direction, with the inverses of x and y.
#[inline(always)]
fn inverse_eight<const PARTLY: bool>(c: &mut [u32; 8], x: u32, y: u32) {
    let (a0, a1) = inverse_butterfly::<PARTLY>(c[0], c[1], y);
    let (a2, a3) = inverse_butterfly::<PARTLY>(c[3], c[2], y);
    let (a4, a5) = inverse_butterfly::<PARTLY>(c[5], c[4], x);
    let (a6, a7) = inverse_butterfly::<PARTLY>(c[6], c[7], x);
    (c[0], c[2]) = inverse_butterfly::<PARTLY>(a0, a2, x);
    (c[1], c[3]) = inverse_butterfly::<PARTLY>(a1, a3, x);
    (c[4], c[6]) = inverse_butterfly::<PARTLY>(a4, a6, y);
    (c[5], c[7]) = inverse_butterfly::<PARTLY>(a5, a7, y);
}

#[inline(always)]
fn eights(column: &mut [u32], points: &[u32], eight: impl Fn(&mut [u32; 8], u32, u32)) {
    let (blocks, _) = column.as_chunks_mut::<8>();
    for (block, point) in blocks.iter_mut().zip(points.chunks_exact(2)) {
        eight(block, point[0], point[1]);
    }
}

/// A layer of blocks of 2^k words, with the twiddles of the nodes.
#[inline(always)]
fn layer(column: &mut [u32], nodes: &[u32], k: u32, butterfly: impl Butterfly) {
    let half = 1 << (k - 1);
    for (block, w) in column.chunks_exact_mut(2 * half).zip(nodes) {
        halves(block, half, *w, butterfly);
    }
}

/// A block of 2^k words below node i, layer by layer.
#[inline(always)]
fn layers<const PARTLY: bool>(column: &mut [u32], tree: &[u32], i: usize, k: u32) {
    for depth in 0..k - 2 {
        layer(column, &tree[i << depth..], k - depth, loop_butterfly::<PARTLY>);
    }
    eights(column, &tree[i << (k - 2)..], eight::<PARTLY>);
}

/// Each word times 2^shift, its 31 bits turned; reduced if it may be P.
#[inline(always)]
fn scale<const PARTLY: bool>(column: &mut [u32], shift: u32) {
    for word in column {
        let turned = (*word << shift & P) | *word >> (31 - shift);
        *word = if PARTLY { reduced(turned) } else { turned };
    }
}

/// The other direction; scaled while the block is at hand.
#[inline(always)]
fn inverse_layers<const PARTLY: bool>(column: &mut [u32], tree: &[u32], i: usize, k: u32, shift: u32) {
    eights(column, &tree[i << (k - 2)..], inverse_eight::<PARTLY>);
    for depth in (0..k - 2).rev() {
        layer(column, &tree[i << depth..], k - depth, inverse_loop_butterfly::<PARTLY>);
    }
    scale::<PARTLY>(column, shift);
}

/// Two words, where y is -1, and four, where y is -x.
fn evaluate_few(column: &mut [u32]) {
    if let [a, b] = column {
        (*b, *a) = butterfly::<false>(*a, *b, 1);
    } else if let [a, b, c, d] = column {
        let (x, _) = POWERS[28];
        (*a, *c) = butterfly::<false>(*a, *c, x);
        (*b, *d) = butterfly::<false>(*b, *d, x);
        (*b, *a) = butterfly::<false>(*a, *b, x);
        (*c, *d) = butterfly::<false>(*c, *d, x);
    }
}

/// 1 / x is 2x for four words.
fn interpolate_few(column: &mut [u32], shift: u32) {
    if let [a, b] = column {
        (*a, *b) = inverse_butterfly::<false>(*b, *a, 1);
    } else if let [a, b, c, d] = column {
        let (x, _) = POWERS[28];
        let inverse = add(x, x);
        (*a, *b) = inverse_butterfly::<false>(*b, *a, inverse);
        (*c, *d) = inverse_butterfly::<false>(*c, *d, inverse);
        (*a, *c) = inverse_butterfly::<false>(*a, *c, inverse);
        (*b, *d) = inverse_butterfly::<false>(*b, *d, inverse);
    }
    scale::<false>(column, shift);
}

/// The same functions for each set of instructions: what isn't a function of its own is inlined and so compiled for it.
macro_rules! transforms {
    ($module:ident, $partly:literal $(, $feature:literal)?) => {
        pub mod $module {
            use super::*;

            $(#[target_feature(enable = $feature)])?
            fn evaluate_block(column: &mut [u32], tree: &[u32], i: usize, k: u32) {
                if k <= LOG_BLOCK {
                    return layers::<$partly>(column, tree, i, k);
                }
                let half = column.len() / 2;
                halves(column, half, tree[i], loop_butterfly::<$partly>);
                let (low, high) = column.split_at_mut(half);
                evaluate_block(low, tree, 2 * i, k - 1);
                evaluate_block(high, tree, 2 * i + 1, k - 1);
            }

            $(#[target_feature(enable = $feature)])?
            fn interpolate_block(column: &mut [u32], tree: &[u32], i: usize, k: u32, shift: u32) {
                if k <= LOG_BLOCK {
                    return inverse_layers::<$partly>(column, tree, i, k, shift);
                }
                let half = column.len() / 2;
                let (low, high) = column.split_at_mut(half);
                interpolate_block(low, tree, 2 * i, k - 1, shift);
                interpolate_block(high, tree, 2 * i + 1, k - 1, shift);
                halves(column, half, tree[i], inverse_loop_butterfly::<false>);
            }

            $(#[target_feature(enable = $feature)])?
            pub fn evaluate(log_size: u32, column: &mut [u32], scratch: &mut [u32]) -> bool {
                if !below_p(column) {
                    return false;
                }
                if log_size < 3 {
                    evaluate_few(column);
                    return true;
                }
                let tree = &mut scratch[..1 << (log_size - 1)];
                fill(tree, log_size);
                evaluate_block(column, tree, 1, log_size);
                true
            }

            $(#[target_feature(enable = $feature)])?
            pub fn interpolate(log_size: u32, column: &mut [u32], scratch: &mut [u32]) -> bool {
                if !below_p(column) {
                    return false;
                }
                let shift = 31 - log_size;
                if log_size < 3 {
                    interpolate_few(column, shift);
                    return true;
                }
                let tree = &mut scratch[..1 << (log_size - 1)];
                fill(tree, log_size);
                invert(tree, log_size);
                interpolate_block(column, tree, 1, log_size, shift);
                true
            }
        }
    };
}

transforms!(plain, false);
transforms!(partly_reduced, true);
#[cfg(target_arch = "x86_64")]
transforms!(avx2, false, "avx2");
