//! Each refusal reached through the safe crate, and slices that a refusal leaves as they were.

use taripomune::*;

fn off_circle() -> CirclePoint<M31> {
    CirclePoint { x: M31::from(1), y: M31::from(5) }
}

fn index(value: usize) -> CirclePointIndex {
    CirclePointIndex::new(value).unwrap()
}

/// Calls that are refused, each with its number and position.
fn refused_calls() -> Vec<(u32, u64, Refusal)> {
    let one = M31::one();
    vec![
        (1, 0, M31::from_u32_unchecked(P).unwrap_err()),
        (1, 0, CM31::from_u32_unchecked(0, P).unwrap_err()),
        (1, 0, QM31::from_u32_unchecked(0, 0, 0, u32::MAX).unwrap_err()),
        (1, 3, evaluate(2, &mut [0, 1, 2, P], &mut [0; 4]).unwrap_err()),
        (1, 0, interpolate(1, &mut [P, P], &mut [0; 2]).unwrap_err()),
        (2, 0, M31::partial_reduce(2 * P).unwrap_err()),
        (2, 0, M31::reduce(P2).unwrap_err()),
        (2, 0, M31::try_from(P2 as usize).unwrap_err()),
        (2, 0, QM31::try_from(P2 as usize).unwrap_err()),
        (3, 0, M31::zero().inverse().unwrap_err()),
        (3, 0, one.div_qm31(QM31::zero()).unwrap_err()),
        (3, 0, CM31::one().div_m31(M31::zero()).unwrap_err()),
        (3, 1, batch_inverse(&[QM31::one(), QM31::zero(), QM31::zero()]).unwrap_err()),
        (3, 4, batch_inverse_chunked(&[1, 2, 3, 4, 0].map(M31::from), &mut [one; 5], 2).unwrap_err()),
        (4, 0, CirclePointIndex::new(1 << 31).unwrap_err()),
        (4, 0, coset_index_to_circle_domain_index(8, 3).unwrap_err()),
        (5, 0, index(3).half().unwrap_err()),
        (6, 0, CirclePointIndex::subgroup_gen(32).unwrap_err()),
        (6, 0, Coset::new(index(1), 32).unwrap_err()),
        (6, 0, Coset::subgroup(32).unwrap_err()),
        (6, 0, Coset::odds(31).unwrap_err()),
        (6, 0, Coset::half_odds(30).unwrap_err()),
        (6, 0, Coset::from_fields(index(0), off_circle(), index(0), off_circle(), 32).unwrap_err()),
        (6, 0, CanonicCoset::try_new(0).unwrap_err()),
        (6, 0, CanonicCoset::try_new(31).unwrap_err()),
        (6, 0, CanonicCoset::new(0).unwrap_err()),
        (6, 0, CanonicCoset::new(31).unwrap_err()),
        (6, 0, CanonicCoset::from_coset(Coset::subgroup(0).unwrap()).unwrap_err()),
        (6, 0, bit_reverse_index(0, 65).unwrap_err()),
        (6, 0, previous_bit_reversed_circle_domain_index(0, 3, 3).unwrap_err()),
        (6, 0, evaluate::<u32>(0, &mut [], &mut []).unwrap_err()),
        (6, 0, interpolate(31, &mut [P], &mut []).unwrap_err()),
        (7, 0, Coset::subgroup(0).unwrap().double().unwrap_err()),
        (7, 0, Coset::subgroup(3).unwrap().repeated_double(4).unwrap_err()),
        (7, 0, CircleDomain::new(Coset::half_odds(3).unwrap()).split(u32::MAX).unwrap_err()),
        (8, 0, bit_reverse(&mut [0; 3]).unwrap_err()),
        (8, 0, bit_reverse_coset_to_circle_domain_order::<u32>(&mut []).unwrap_err()),
        (8, 0, coset_order_to_circle_domain_order(&[1], &mut [0]).unwrap_err()),
        (8, 0, circle_domain_order_to_coset_order(&[1, 2], &mut [0]).unwrap_err()),
        (8, 0, batch_inverse_in_place(&[one; 2], &mut [one]).unwrap_err()),
        (8, 0, evaluate(2, &mut [P; 3], &mut [0; 4]).unwrap_err()),
        (8, 0, interpolate(2, &mut [0; 4], &mut [0; 3]).unwrap_err()),
        (9, 0, batch_inverse_chunked(&[one], &mut [one], 0).unwrap_err()),
        (10, 0, off_circle().log_order().unwrap_err()),
        (11, 0, M31_CIRCLE_GEN.mul_signed(isize::MIN).unwrap_err()),
        (11, 0, SECURE_FIELD_CIRCLE_GEN.mul_signed(isize::MIN).unwrap_err()),
        (11, 0, CirclePoint::get_point(SECURE_FIELD_CIRCLE_ORDER).unwrap_err()),
        (11, 0, offset_bit_reversed_circle_domain_index(0, 0, 1, (1 << 31) + 1).unwrap_err()),
        (12, 0, M31::try_from(CM31::from_m31(one, one)).unwrap_err()),
        (12, 0, M31::try_from(QM31::from_m31(one, M31::zero(), M31::zero(), one)).unwrap_err()),
        (14, 0, Coset::from_fields(index(0), off_circle(), index(0), CirclePoint::zero(), 0).unwrap_err()),
        (14, 0, Coset::from_fields(index(0), CirclePoint::zero(), index(0), off_circle(), 31).unwrap_err()),
    ]
}

#[test]
fn each_number_of_the_table_is_reached() {
    let calls = refused_calls();
    for (number, position, refusal) in &calls {
        assert_eq!((refusal.number(), refusal.position()), (*number, *position), "{refusal}");
        assert_eq!(refusal.to_string(), format!("number {number}, position {position}: {}", refusal.sentence()));
    }
    for number in (1..=12).chain([14]) {
        assert!(calls.iter().any(|call| call.0 == number), "no call is refused with {number}");
    }
}

#[test]
fn what_is_just_inside_is_accepted() {
    assert_eq!(M31::from_u32_unchecked(P - 1).map(M31::word), Ok(P - 1));
    assert_eq!(M31::partial_reduce(2 * P - 1).map(M31::word), Ok(P - 1));
    assert_eq!(M31::reduce(P2 - 1).map(M31::word), Ok(P - 1));
    assert_eq!(index((1 << 31) - 1).to_point(), M31_CIRCLE_GEN.conjugate());
    assert_eq!(Coset::subgroup(31).map(|coset| coset.size()), Ok(1 << 31));
    assert!(Coset::odds(30).is_ok() && Coset::half_odds(29).is_ok() && CanonicCoset::new(30).is_ok());
    assert_eq!(bit_reverse_index(1, 64), Ok(1 << 63));
    assert_eq!(bit_reverse(&mut [5]), Ok(()));
    assert_eq!(coset_order_to_circle_domain_order::<u32>(&[], &mut []), Ok(()));
    assert!(M31_CIRCLE_GEN.mul_signed(isize::MIN + 1).is_ok());
    assert!(CirclePoint::get_point(SECURE_FIELD_CIRCLE_ORDER - 1).is_ok());
    assert!(offset_bit_reversed_circle_domain_index(0, 0, 1, 1 << 31).is_ok());
    assert_eq!(batch_inverse::<M31>(&[]), Ok(vec![]));
}

#[test]
fn a_coset_has_the_points_of_its_indices() {
    let of = |first: usize, initial: CirclePoint<M31>, step_size: usize, step: CirclePoint<M31>, log_size| {
        Coset::from_fields(index(first), initial, index(step_size), step, log_size)
    };
    for (first, step_size) in [(0, 0), (1, 1 << 28), (1 << 30, 5), (1 << 29, 3 << 29), ((1 << 31) - 1, (1 << 31) - 2)] {
        let [initial, step] = [first, step_size].map(|k| index(k).to_point());
        let other = |p: CirclePoint<M31>| [p + M31_CIRCLE_GEN, p.antipode(), CirclePoint { y: p.y + M31::one(), ..p }];
        // A log size that is foreign to the step is accepted.
        for log_size in [0, 4, 31] {
            assert!(of(first, initial, step_size, step, log_size).is_ok());
            for point in other(initial) {
                assert_eq!(of(first, point, step_size, step, log_size), Err(Refusal::Contradiction));
            }
            for point in other(step) {
                assert_eq!(of(first, initial, step_size, point, log_size), Err(Refusal::Contradiction));
            }
        }
        let exchanged = of(first, step, step_size, initial, 4);
        assert_eq!(exchanged.is_ok(), first == step_size);
    }
    // Not every canonic coset is odds of its log size.
    assert!(CanonicCoset::from_coset(Coset::subgroup(3).unwrap()).is_ok());
}

#[test]
fn a_refused_call_leaves_its_slices() {
    let column = [1, 2, P, 4];
    let (mut lent, mut scratch) = (column, [9; 4]);
    assert_eq!(evaluate(2, &mut lent, &mut scratch), Err(Refusal::Word(2)));
    assert_eq!(interpolate(2, &mut lent, &mut scratch), Err(Refusal::Word(2)));
    assert_eq!((lent, scratch), (column, [9; 4]));

    let mut dst = [7; 3].map(M31::from);
    assert_eq!(batch_inverse_in_place(&[3, 5, 0].map(M31::from), &mut dst), Err(Refusal::Inverse(2)));
    assert_eq!(dst, [7; 3].map(M31::from));

    let mut odd = [1, 2, 3];
    assert_eq!(bit_reverse(&mut odd), Err(Refusal::Length));
    assert_eq!(odd, [1, 2, 3]);
}

#[test]
fn columns_of_words_and_of_elements_are_transformed_alike() {
    for log_size in 1..=12 {
        let words: Vec<u32> = (0..1 << log_size).map(|i| (M31::from(16807).pow(i)).word()).collect();
        let mut scratch = vec![u32::MAX; words.len() + 3];
        let (mut by_words, mut by_elements) = (words.clone(), words.iter().map(|w| M31::from(*w)).collect::<Vec<_>>());
        interpolate(log_size, &mut by_words, &mut scratch).unwrap();
        interpolate(log_size, &mut by_elements, &mut scratch).unwrap();
        assert!(by_elements.iter().map(|element| element.word()).eq(by_words.iter().copied()));
        assert_eq!(scratch[words.len()..], [u32::MAX; 3]);
        let total: M31 = words.iter().map(|word| M31::from(*word)).sum();
        assert_eq!(by_elements[0] * M31::from(2).pow(log_size.into()), total);
        evaluate(log_size, &mut by_words, &mut scratch).unwrap();
        assert_eq!(by_words, words);
    }
}
