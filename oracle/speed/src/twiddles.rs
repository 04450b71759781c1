//! Words modulo P, and the tree of twiddles that the transform keeps in scratch.

use stwo::core::fields::m31::P;

#[inline(always)]
pub const fn reduced(sum: u32) -> u32 {
    sum.wrapping_add(sum.wrapping_add(1) >> 31) & P
}

#[inline(always)]
pub const fn add(a: u32, b: u32) -> u32 {
    reduced(a + b)
}

#[inline(always)]
pub const fn sub(a: u32, b: u32) -> u32 {
    let difference = a.wrapping_sub(b);
    difference.wrapping_sub(difference >> 31) & P
}

#[inline(always)]
pub const fn mul(a: u32, b: u32) -> u32 {
    let product = a as u64 * b as u64;
    reduced((product as u32 & P) + (product >> 31) as u32)
}

/// Down to P, which stands for 0.
#[inline(always)]
pub const fn partly(sum: u32) -> u32 {
    (sum & P) + (sum >> 31)
}

/// A product that may be P for 0: sums and differences that take it for their second number reduce it.
#[inline(always)]
pub const fn mul_partly(a: u32, b: u32) -> u32 {
    let product = a as u64 * b as u64;
    partly((product as u32 & P) + (product >> 31) as u32)
}

/// A product with half of `twice`, whose bits from 31 on are the upper half of the 64: both parts added, not reduced.
#[inline(always)]
pub const fn mul_twice(a: u32, twice: u32) -> u32 {
    let product = a as u64 * twice as u64;
    (product as u32 >> 1) + (product >> 32) as u32
}

type Point = (u32, u32);

#[inline(always)]
const fn point_add((x, y): Point, (z, w): Point) -> Point {
    (sub(mul(x, z), mul(y, w)), add(mul(x, w), mul(y, z)))
}

/// The same with a point that stays the same through a loop, doubled.
#[inline(always)]
const fn point_add_twice((x, y): Point, (z, w): Point) -> Point {
    let (xz, yw) = (reduced(mul_twice(x, z)), partly(mul_twice(y, w)));
    let (xw, yz) = (reduced(mul_twice(x, w)), partly(mul_twice(y, z)));
    (sub(xz, yw), add(xw, yz))
}

#[inline(always)]
fn double_x(x: u32) -> u32 {
    let square = mul(x, x);
    sub(add(square, square), 1)
}

/// The points of the indices 2^0, 2^1 and so on.
pub const POWERS: [Point; 31] = {
    let mut powers = [(2, 1268011823); 31];
    let mut log = 1;
    while log < 31 {
        powers[log] = point_add(powers[log - 1], powers[log - 1]);
        log += 1;
    }
    powers
};

/// The points count, .., 2 count - 1 lie `step` further than the points 0, .., count - 1.
#[inline(always)]
fn add_points(level: &mut [u32], count: usize, step: Point) {
    let (points, further) = level[..4 * count].split_at_mut(2 * count);
    let twice = (2 * step.0, 2 * step.1);
    for c in 0..count {
        // Both parts have 2 * count words. With checks the compiler wouldn't take several points at a time.
        unsafe {
            let point = (*points.get_unchecked(2 * c), *points.get_unchecked(2 * c + 1));
            (*further.get_unchecked_mut(2 * c), *further.get_unchecked_mut(2 * c + 1)) = point_add_twice(point, twice);
        }
    }
}

/// The last level: point c has its x at word 2c and its y at word 2c + 1. With each bit of c one more point is added.
#[inline(always)]
fn fill_points(level: &mut [u32], log_size: u32) {
    (level[0], level[1]) = POWERS[30 - log_size as usize];
    let mut count = 1;
    for step in POWERS[..29].iter().rev().take(log_size as usize - 3) {
        add_points(level, count, *step);
        count *= 2;
    }
}

/// The nodes first, .., 2 first - 1 from their children.
#[inline(always)]
fn double_level(tree: &mut [u32], first: usize) {
    let (nodes, children) = tree[first..4 * first].split_at_mut(first);
    for b in 0..first {
        // As in `add_points`: there are 2 * first children.
        unsafe { *nodes.get_unchecked_mut(b) = double_x(*children.get_unchecked(2 * b)) };
    }
}

/// Node 1 is the root, node i has the children 2i and 2i + 1.
#[inline(always)]
pub fn fill(tree: &mut [u32], log_size: u32) {
    let mut first = tree.len() / 2;
    fill_points(&mut tree[first..], log_size);
    while first > 1 {
        first /= 2;
        double_level(tree, first);
    }
}

/// The children x and y become 1 / x = 2ys and 1 / y = 2xs, where s is the inverse of the y above them, 2xy.
#[inline(always)]
fn invert_children(children: &mut [u32], s: u32) {
    let (x, y, twice) = (children[0], children[1], add(s, s));
    (children[0], children[1]) = (mul(y, twice), mul(x, twice));
}

/// From the root down, where 2x^2 = 1. The y of a node is its sibling's x, with a sign.
#[inline(always)]
pub fn invert(tree: &mut [u32], log_size: u32) {
    tree[1] = add(tree[1], tree[1]);
    let s = sub(0, tree[1]);
    invert_children(&mut tree[2..4], s);
    for level in 1..log_size - 2 {
        let (nodes, children) = tree.split_at_mut(2 << level);
        for (nodes, children) in nodes[1 << level..].chunks_exact(2).zip(children.chunks_exact_mut(4)) {
            invert_children(&mut children[..2], nodes[1]);
            invert_children(&mut children[2..], sub(0, nodes[0]));
        }
    }
}
