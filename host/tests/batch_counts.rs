//! The counts of batch inversion, held to those of a model that counts what it makes.

use taripomune::{BatchCounts, CM31, Field, M31, P, QM31, batch_inverse_chunked, batch_inverse_in_place};
use taripomune_sys::{tari_m31_batch_inverse_chunked, tari_m31_batch_inverse_in_place};

/// Numbers modulo P, and what was made of them.
#[derive(Default)]
struct Model {
    counts: BatchCounts,
}

impl Model {
    fn product(&mut self, a: u64, b: u64) -> u64 {
        self.counts.multiplications += 1;
        a * b % u64::from(P)
    }

    /// By Euclid's algorithm, without products of elements.
    fn inverse(&mut self, a: u64) -> u64 {
        self.counts.inversions += 1;
        let (mut old, mut new) = ((i64::from(P), 0), (a as i64, 1));
        while new.0 != 0 {
            let quotient = old.0 / new.0;
            (old, new) = (new, (old.0 - quotient * new.0, old.1 - quotient * new.1));
        }
        old.1.rem_euclid(i64::from(P)) as u64
    }

    /// The products up to each element, one inverse, and the way back.
    fn plain(&mut self, column: &[u64]) -> Vec<u64> {
        let Some((&first, further)) = column.split_first() else { return vec![] };
        let mut products = vec![first];
        for &element in further {
            products.push(self.product(products[products.len() - 1], element));
        }
        let mut rest = self.inverse(products[products.len() - 1]);
        let mut inverses = column.to_vec();
        for i in (1..column.len()).rev() {
            inverses[i] = self.product(products[i - 1], rest);
            rest = self.product(rest, column[i]);
        }
        inverses[0] = rest;
        inverses
    }

    /// Elements four apart share a product, which starts from one; a plain pass inverts the four whole products.
    fn four_lanes(&mut self, column: &[u64]) -> Vec<u64> {
        let mut lanes = [1; 4];
        let mut products = vec![];
        for (i, &element) in column.iter().enumerate() {
            lanes[i % 4] = self.product(lanes[i % 4], element);
            products.push(lanes[i % 4]);
        }
        let mut rest = self.plain(&lanes);
        let mut inverses = column.to_vec();
        for i in (4..column.len()).rev() {
            inverses[i] = self.product(products[i - 4], rest[i % 4]);
            rest[i % 4] = self.product(rest[i % 4], column[i]);
        }
        inverses[..4].copy_from_slice(&rest);
        inverses
    }

    fn pass(&mut self, column: &[u64]) -> Vec<u64> {
        match column.len() > 4 && column.len() % 4 == 0 {
            true => self.four_lanes(column),
            false => self.plain(column),
        }
    }
}

/// The inverses and the counts of passes over chunks of a column.
fn modelled(column: &[u64], chunk_size: usize) -> (Vec<u64>, BatchCounts) {
    let mut model = Model::default();
    let inverses = column.chunks(chunk_size).flat_map(|chunk| model.pass(chunk)).collect();
    (inverses, model.counts)
}

/// Numbers from 1 to P - 1.
fn numbers(n: usize) -> Vec<u64> {
    let next = |x: &u64| Some(x * 48271 % u64::from(P));
    std::iter::successors(Some(17), next).take(n).collect()
}

/// The library's inverses and counts, with a destination that is longer by so many.
fn counted<F: Field>(column: &[F], longer: usize, chunk_size: Option<usize>) -> (Vec<F>, BatchCounts) {
    let mut dst = vec![F::zero(); column.len() + longer];
    let counts = match chunk_size {
        None => batch_inverse_in_place(column, &mut dst),
        Some(chunk_size) => batch_inverse_chunked(column, &mut dst, chunk_size),
    };
    dst.truncate(column.len());
    (dst, counts.unwrap())
}

#[test]
fn the_counts_are_the_models() {
    let words = |column: Vec<M31>| column.iter().map(|element| u64::from(element.word())).collect::<Vec<u64>>();
    for n in 0..=200 {
        let column = numbers(n);
        let m31: Vec<M31> = column.iter().map(|&k| M31::from(k as u32)).collect();
        let cm31: Vec<CM31> = m31.iter().map(|&a| CM31::from_m31(M31::zero(), a)).collect();
        let qm31: Vec<QM31> = m31.iter().map(|&a| QM31::from_m31(a, a, M31::zero(), M31::one())).collect();
        for chunk_size in [None].into_iter().chain((1..=70).map(Some)) {
            let longer = n % 3;
            let (inverses, counts) = modelled(&column, chunk_size.unwrap_or(n.max(1)));
            let (found, found_counts) = counted(&m31, longer, chunk_size);
            assert_eq!((words(found), found_counts), (inverses, counts), "{n} elements, {chunk_size:?}");
            assert_eq!(counted(&cm31, longer, chunk_size).1, counts, "{n} elements, {chunk_size:?}");
            assert_eq!(counted(&qm31, longer, chunk_size).1, counts, "{n} elements, {chunk_size:?}");
        }
        assert_eq!(counted(&m31, 0, Some(usize::MAX)).1, counted(&m31, 0, None).1);
    }
}

/// The numbers of order 5, and that the destination's length doesn't choose the pass.
#[test]
fn some_counts_by_hand() {
    let of = |n: usize, longer: usize, chunk_size: Option<usize>| {
        let counts = counted(&vec![M31::from(2); n], longer, chunk_size).1;
        (counts.multiplications, counts.inversions)
    };
    assert_eq!((of(0, 0, None), of(0, 2, Some(3))), ((0, 0), (0, 0)));
    assert_eq!([1, 2, 4, 5].map(|n| of(n, 0, None)), [(0, 1), (3, 1), (9, 1), (12, 1)]);
    for longer in [0, 1, 4] {
        assert_eq!([7, 8, 12].map(|n| of(n, longer, None)), [(18, 1), (25, 1), (37, 1)]);
        // Whole chunks of 8 and a last one of 4 or 3.
        assert_eq!([16, 20, 19].map(|n| of(n, longer, Some(8))), [(50, 2), (59, 3), (56, 3)]);
    }
}

#[test]
fn a_refused_call_counts_nothing() {
    let mut dst = [5; 8];
    let mut call = |column: [u32; 8], dst_len: u64, chunk_size: Option<u64>| {
        let (column, dst) = (column.as_ptr(), dst.as_mut_ptr());
        // SAFETY: both slices have so many words, and don't overlap.
        let reply = unsafe {
            match chunk_size {
                None => tari_m31_batch_inverse_in_place(column, 8, dst, dst_len),
                Some(chunk_size) => tari_m31_batch_inverse_chunked(column, 8, dst, dst_len, chunk_size),
            }
        };
        (reply.number, reply.multiplications, reply.inversions)
    };
    for chunk_size in [None, Some(4)] {
        assert_eq!(call([1; 8], 7, chunk_size), (8, 0, 0));
        assert_eq!(call([1, 1, 1, 1, 1, 1, 1, P], 8, chunk_size), (1, 0, 0));
        assert_eq!(call([1, 1, 1, 1, 1, 1, 1, 0], 8, chunk_size), (3, 0, 0));
    }
    assert_eq!(call([1; 8], 8, Some(0)), (9, 0, 0));
    assert_eq!(dst, [5; 8]);
}
