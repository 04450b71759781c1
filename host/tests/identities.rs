//! Each function of the crate calls the function of its name, with its arguments in their places: what it answers is
//! held to arithmetic on numbers, or to other functions that are.

use taripomune::*;

const P64: u64 = P as u64;

/// Elements without a pattern that an exchange of parts would leave alone.
fn elements() -> Vec<M31> {
    let drawn = std::iter::successors(Some(16807_u64), |x| Some(x * 16807 % P64)).take(24);
    [0, 1, P64 - 1].into_iter().chain(drawn).map(|x| M31::from(x as u32)).collect()
}

fn cm31s() -> Vec<CM31> {
    elements().windows(2).map(|w| CM31(w[0], w[1])).collect()
}

fn qm31s() -> Vec<QM31> {
    elements().windows(4).map(|w| QM31(CM31(w[0], w[1]), CM31(w[2], w[3]))).collect()
}

fn pairs<T: Copy>(list: &[T]) -> Vec<(T, T)> {
    list.iter().zip(list.iter().rev()).chain(list.iter().zip(&list[1..])).map(|(a, b)| (*a, *b)).collect()
}

#[test]
fn m31_is_arithmetic_modulo_p() {
    for (a, b) in pairs(&elements()) {
        let (x, y) = (u64::from(a.word()), u64::from(b.word()));
        assert_eq!(u64::from((a + b).word()), (x + y) % P64);
        assert_eq!(u64::from((a - b).word()), (x + P64 - y) % P64);
        assert_eq!(u64::from((a * b).word()), x * y % P64);
        assert_eq!(u64::from((-a).word()), (P64 - x) % P64);
        assert_eq!(M31::reduce(x * y), Ok(a * b));
        assert_eq!(M31::try_from((x * y) as usize), Ok(a * b));
        assert_eq!(M31::partial_reduce((x + y) as u32), Ok(a + b));
        assert_eq!((M31::from(x as u32), M31::from_u32_unchecked(x as u32)), (a, Ok(a)));
        assert_eq!(u32::from(a), x as u32);
        assert_eq!(M31::from(x as i32), a);
        assert_eq!(M31::from(-(x as i32)), -a);
        assert_eq!(a.sqn(3), a.pow(8));
        assert_eq!(a.pow2147483645(), a.pow(u128::from(P) - 2));
        assert_eq!(a.complex_conjugate(), a);
    }
}

/// What a field's functions have to do with its operators.
fn check_field<F: Field>(list: &[F]) {
    let (zero, one) = (F::zero(), F::one());
    for (a, b) in pairs(list) {
        assert_eq!(a - b + b, a);
        assert_eq!(-a + a, zero);
        assert_eq!(a.square(), a * a);
        assert_eq!(a.pow(5), a * a * a * a * a);
        assert_eq!(a.pow((1 << 64) + 1), a.pow(1 << 63) * a.pow(1 << 63) * a);
        assert_eq!(a.is_zero(), a == zero);
        assert_eq!(a.complex_conjugate().complex_conjugate(), a);
        assert_eq!(
            b.inverse().map(|inverse| inverse * b),
            if b.is_zero() { Err(Refusal::Inverse(0)) } else { Ok(one) }
        );
        assert_eq!(a.div(b).ok(), b.inverse().ok().map(|inverse| a * inverse));
        let mut c = a;
        c += b;
        c *= a;
        c -= b;
        assert_eq!(c, (a + b) * a - b);
    }
    assert_eq!(list.iter().sum::<F>(), list.iter().fold(zero, |a, b| a + *b));
    assert_eq!(list[1..].iter().copied().product::<F>(), list[1..].iter().fold(one, |a, b| a * *b));
}

#[test]
fn numbers_are_taken_modulo_p() {
    for value in [0, 1, P - 1, P, P + 1, 2 * P - 1, 2 * P, u32::MAX] {
        let expected = M31::from_u32_unchecked(value % P).unwrap();
        assert_eq!((M31::from(value), QM31::from(value)), (expected, QM31::from(expected)));
    }
    for value in [i32::MIN, i32::MIN + 1, -1, 0, i32::MAX - 1, i32::MAX] {
        let expected = M31::from(i64::from(value).rem_euclid(i64::from(P)) as u32);
        assert_eq!((M31::from(value), QM31::from(value)), (expected, QM31::from(expected)));
    }
}

#[test]
fn fields_agree_with_themselves() {
    check_field(&elements());
    check_field(&cm31s());
    check_field(&qm31s());
}

#[test]
fn extensions_are_the_formulas_of_pairs() {
    for (a, b) in pairs(&cm31s()) {
        assert_eq!(a + b, CM31(a.0 + b.0, a.1 + b.1));
        assert_eq!(a - b, CM31(a.0 - b.0, a.1 - b.1));
        assert_eq!(a * b, CM31(a.0 * b.0 - a.1 * b.1, a.0 * b.1 + a.1 * b.0));
        assert_eq!(a.complex_conjugate(), CM31(a.0, -a.1));
        assert_eq!(CM31::from_m31(a.0, a.1), a);
        assert_eq!(CM31::from_u32_unchecked(a.0.word(), a.1.word()), Ok(a));
    }
    for (a, b) in pairs(&qm31s()) {
        assert_eq!(a + b, QM31(a.0 + b.0, a.1 + b.1));
        assert_eq!(a - b, QM31(a.0 - b.0, a.1 - b.1));
        assert_eq!(a * b, QM31(a.0 * b.0 + R * a.1 * b.1, a.0 * b.1 + a.1 * b.0));
        assert_eq!(a.complex_conjugate(), QM31(a.0, -a.1));
        assert_eq!(a.mul_cm31(b.1), QM31(a.0 * b.1, a.1 * b.1));
        let parts = [a.0.0, a.0.1, a.1.0, a.1.1];
        assert_eq!(a.to_m31_array(), parts);
        assert_eq!(QM31::from_m31_array(parts), a);
        assert_eq!(QM31::from_m31(parts[0], parts[1], parts[2], parts[3]), a);
        let [p, q, r, s] = parts.map(M31::word);
        assert_eq!(QM31::from_u32_unchecked(p, q, r, s), Ok(a));
        let evals = [a, b, a + b, a * b];
        let units = [[1, 0, 0, 0], [0, 1, 0, 0], [0, 0, 1, 0], [0, 0, 0, 1]].map(|unit| unit.map(M31::from));
        let sum = evals.iter().zip(units).map(|(eval, unit)| *eval * QM31::from_m31_array(unit)).sum();
        assert_eq!(QM31::from_partial_evals(evals), sum);
    }
}

/// Off M31 the power P - 2 isn't the inverse. The power P is the conjugate in CM31, and takes u to u R^((P - 1) / 2).
#[test]
fn the_power_p_minus_2_is_that_of_pow() {
    let exp = u128::from(P) - 2;
    for a in cm31s() {
        let power = a.pow2147483645();
        assert_eq!(power, a.pow(exp));
        assert_eq!(power * a * a, a.complex_conjugate());
        assert_ne!(a.inverse(), Ok(power));
    }
    let turn = R.pow(u128::from(P / 2));
    for a in qm31s() {
        let power = a.pow2147483645();
        assert_eq!(power, a.pow(exp));
        assert_eq!(power * a * a, QM31(a.0.complex_conjugate(), a.1.complex_conjugate() * turn));
        assert_ne!(a.inverse(), Ok(power));
    }
    for m in elements() {
        let power = m.pow2147483645();
        assert_eq!(CM31::from(m).pow2147483645(), CM31::from(power));
        assert_eq!(QM31::from(m).pow2147483645(), QM31::from(power));
    }
}

#[test]
fn an_operation_with_m31_is_that_with_its_image() {
    for (a, m) in cm31s().into_iter().zip(elements().into_iter().rev()) {
        let image = CM31::from(m);
        assert_eq!(image, CM31(m, M31::zero()));
        assert_eq!((a + m, m + a), (a + image, image + a));
        assert_eq!((a - m, m - a), (a - image, image - a));
        assert_eq!((a * m, m * a), (a * image, image * a));
        assert_eq!((a.div_m31(m), m.div_cm31(a)), (a.div(image), image.div(a)));
        assert_eq!(M31::try_from(image), Ok(m));
        let mut c = a;
        c += m;
        c *= m;
        c -= m;
        assert_eq!(c, (a + image) * image - image);
    }
    for (a, m) in qm31s().into_iter().zip(elements().into_iter().rev()) {
        let image = QM31::from(m);
        assert_eq!(image, QM31(CM31::from(m), CM31::zero()));
        assert_eq!((a + m, m + a), (a + image, image + a));
        assert_eq!((a - m, m - a), (a - image, image - a));
        assert_eq!((a * m, m * a), (a * image, image * a));
        assert_eq!((a.div_m31(m), m.div_qm31(a)), (a.div(image), image.div(a)));
        assert_eq!(M31::try_from(image), Ok(m));
        assert_eq!((QM31::from(m.word()), QM31::from(m.word() as i32)), (image, image));
        assert_eq!(QM31::try_from(m.word() as usize), Ok(image));
    }
}

#[test]
fn batches_are_inverses_one_by_one() {
    fn check<F: Field>(list: &[F]) {
        let list: Vec<F> = list.iter().copied().filter(|a| !a.is_zero()).collect();
        let inverses: Vec<F> = list.iter().map(|a| a.inverse().unwrap()).collect();
        assert_eq!(batch_inverse(&list).as_ref(), Ok(&inverses));
        let mut dst = vec![F::zero(); list.len() + 1];
        batch_inverse_chunked(&list, &mut dst, 5).unwrap();
        assert_eq!((&dst[..list.len()], dst[list.len()]), (&inverses[..], F::zero()));
    }
    check(&elements());
    check(&cm31s());
    check(&qm31s());
}

/// The formulas of points, which needn't lie on the circle.
fn check_points<F: CircleField>(list: &[F]) {
    let points: Vec<CirclePoint<F>> = list.windows(2).map(|w| CirclePoint { x: w[0], y: w[1] }).collect();
    let zero = CirclePoint { x: F::one(), y: F::zero() };
    assert_eq!(CirclePoint::zero(), zero);
    for (p, q) in pairs(&points) {
        assert_eq!(p + q, CirclePoint { x: p.x * q.x - p.y * q.y, y: p.x * q.y + p.y * q.x });
        assert_eq!(p - q, p + q.conjugate());
        assert_eq!(-p, p.conjugate());
        assert_eq!(p.conjugate(), CirclePoint { x: p.x, y: -p.y });
        assert_eq!(p.antipode(), CirclePoint { x: -p.x, y: -p.y });
        let conjugates = CirclePoint { x: p.x.complex_conjugate(), y: p.y.complex_conjugate() };
        assert_eq!(p.complex_conjugate(), conjugates);
        assert_eq!(p.double(), p + p);
        assert_eq!(p.repeated_double(3), p.double().double().double());
        assert_eq!(CirclePoint::double_x(p.x), p.x * p.x + p.x * p.x - F::one());
        assert_eq!((p.mul(0), p.mul(3)), (zero, p + p + p));
        assert_eq!(p.mul(1 << 64), p.repeated_double(64));
        assert_eq!((p.mul_signed(3), p.mul_signed(-3)), (Ok(p.mul(3)), Ok(p.conjugate().mul(3))));
    }
}

#[test]
fn the_default_point_is_the_zero_of_the_circle() {
    let (default, secure) = (CirclePoint::<M31>::default(), CirclePoint::<QM31>::default());
    assert_eq!((default, default.log_order()), (CirclePoint::zero(), Ok(0)));
    assert_eq!((secure, secure + SECURE_FIELD_CIRCLE_GEN), (CirclePoint::zero(), SECURE_FIELD_CIRCLE_GEN));
}

#[test]
fn points_are_their_formulas() {
    check_points(&elements());
    check_points(&qm31s());
    let g = M31_CIRCLE_GEN;
    assert_eq!(g.into_ef(), CirclePoint { x: QM31::from(g.x), y: QM31::from(g.y) });
    assert_eq!((0..31).map(|n| g.repeated_double(n).log_order().unwrap()).sum::<u32>(), 31 * 32 / 2);
    let index = 3 << 65;
    assert_eq!(CirclePoint::get_point(index), Ok(SECURE_FIELD_CIRCLE_GEN.mul(index)));
    assert_eq!(SECURE_FIELD_CIRCLE_ORDER, 21267647892944572736998860269687930880);
}

#[test]
fn indices_are_numbers_modulo_2_to_the_31() {
    const ORDER: usize = 1 << 31;
    let index = |value: usize| CirclePointIndex::new(value).unwrap();
    for (a, b) in [(0, 0), (5, 3), (3, 5), (ORDER - 1, 7), (ORDER / 2, ORDER / 2), (123456789, 987654321)] {
        assert_eq!(index(a) + index(b), index((a + b) % ORDER));
        assert_eq!(index(a) - index(b), index((a + ORDER - b) % ORDER));
        assert_eq!(-index(a), index((ORDER - a) % ORDER));
        assert_eq!(index(a) * b, index((a * b) % ORDER));
        assert_eq!((index(a).value(), index(a).reduce()), (a, index(a)));
        assert_eq!(index(a) * (ORDER + b), index((a * b) % ORDER));
        assert_eq!(index(a / 2 * 2).half(), Ok(index(a / 2)));
        assert_eq!(index(a).to_point(), M31_CIRCLE_GEN.mul(a as u128));
    }
    assert_eq!((CirclePointIndex::zero(), CirclePointIndex::generator()), (index(0), index(1)));
    assert!((0..=31).all(|n| CirclePointIndex::subgroup_gen(n) == Ok(index((1 << (31 - n)) % ORDER))));
}

#[test]
fn cosets_and_domains_are_their_indices() {
    let index = |value: usize| CirclePointIndex::new(value).unwrap();
    let (first, step) = (index(1234567), CirclePointIndex::subgroup_gen(5).unwrap());
    let coset = Coset::new(first, 5).unwrap();
    assert_eq!(Ok(coset), Coset::from_fields(first, first.to_point(), step, step.to_point(), 5));
    assert_eq!((coset.initial_index(), coset.initial()), (first, first.to_point()));
    assert_eq!((coset.step_size(), coset.step()), (step, step.to_point()));
    assert_eq!((coset.size(), coset.log_size()), (32, 5));
    assert!(coset.iter_indices().eq((0..32).map(|i| first + step * i)));
    assert_eq!((coset.index_at(40), coset.at(40)), (first + step * 40, (first + step * 40).to_point()));
    assert_eq!(coset.shift(index(9)), Coset::new(first + index(9), 5).unwrap());
    assert_eq!(coset.conjugate().index_at(3), -coset.index_at(3));
    assert_eq!(coset.double(), Coset::new(first * 2, 4));
    assert_eq!(coset.repeated_double(2), Coset::new(first * 4, 3));
    for log_size in [0, 31] {
        let subgroup = Coset::subgroup(log_size).unwrap();
        assert_eq!((subgroup.size(), subgroup.log_size()), (1 << log_size, log_size));
        assert_eq!(subgroup.index_at(1), index((1 << (31 - log_size)) % (1 << 31)));
        assert_eq!((subgroup.at(1), subgroup.initial()), (subgroup.step(), CirclePoint::zero()));
        assert_eq!(subgroup.iter_indices().len(), subgroup.size());
    }
    assert_eq!(Coset::odds(0), Coset::new(index(1 << 30), 0));
    assert_eq!(Coset::half_odds(0), Coset::new(index(1 << 29), 0));
    assert!(coset.double().unwrap().is_doubling_of(coset) && !coset.is_doubling_of(coset.double().unwrap()));

    let canonic = CanonicCoset::new(5).unwrap();
    let odds = Coset::odds(5).unwrap();
    assert_eq!((CanonicCoset::try_new(5), CanonicCoset::from_coset(odds)), (Ok(canonic), Ok(canonic)));
    assert_eq!((canonic.coset(), canonic.half_coset()), (odds, Coset::half_odds(4).unwrap()));
    assert_eq!((canonic.log_size(), canonic.size()), (5, 32));
    assert_eq!((canonic.initial_index(), canonic.step_size()), (odds.initial_index(), odds.step_size()));
    assert_eq!((canonic.step(), canonic.index_at(40), canonic.at(40)), (odds.step(), odds.index_at(40), odds.at(40)));
    assert_eq!(canonic.circle_domain(), CircleDomain::new(canonic.half_coset()));

    let domain = CircleDomain::new(coset);
    assert_eq!((domain.half_coset(), domain.size(), domain.log_size()), (coset, 64, 6));
    assert_eq!((domain.index_at(3), domain.index_at(35)), (coset.index_at(3), -coset.index_at(3)));
    assert_eq!((domain.at(3), domain.at(35)), (coset.at(3), coset.at(3).conjugate()));
    assert!(domain.iter_indices().eq((0..64).map(|i| domain.index_at(i))));
    assert!(!domain.is_canonic() && canonic.circle_domain().is_canonic());
    assert_eq!(domain.shift(index(9)), CircleDomain::new(coset.shift(index(9))));
    let (part, shifts) = domain.split(2).unwrap();
    assert_eq!(part, CircleDomain::new(Coset::new(first, 3).unwrap()));
    assert_eq!(shifts, [0, 1, 2, 3].map(|i| step * i));
}

#[test]
fn a_step_of_0_doubles_and_is_canonic_by_its_own_rule() {
    let index = |value: usize| CirclePointIndex::new(value).unwrap();
    for log_size in 0..=30 {
        let [subgroup, larger] = [log_size, log_size + 1].map(|n| Coset::subgroup(n).unwrap());
        assert!(subgroup.is_doubling_of(larger) && larger.double() == Ok(subgroup));
    }
    for log_size in 1..=30 {
        assert!(CanonicCoset::new(log_size).unwrap().circle_domain().is_canonic());
    }
    // Where the step is 0, two of the four indices whose fourfold is 0 are canonic, whatever the log size.
    for log_size in [0, 1, 31] {
        let canonic = |quarter: usize| {
            let initial = index(quarter << 29);
            let step = CirclePointIndex::zero();
            let coset = Coset::from_fields(initial, initial.to_point(), step, step.to_point(), log_size);
            CircleDomain::new(coset.unwrap()).is_canonic()
        };
        assert_eq!([0, 1, 2, 3].map(canonic), [false, true, false, true]);
    }
}

#[test]
fn orders_are_their_rules() {
    for log_size in 1..=10 {
        let size = 1 << log_size;
        let place = |i: usize| i.reverse_bits() >> (usize::BITS - log_size);
        let column: Vec<u32> = (0..size as u32).collect();
        assert!((0..size).all(|i| bit_reverse_index(i, log_size) == Ok(place(i))));
        let mut reversed = column.clone();
        bit_reverse(&mut reversed).unwrap();
        assert!((0..size).all(|i| reversed[i] as usize == place(i)));
        let to_domain = |k: usize| if k.is_multiple_of(2) { k / 2 } else { (2 * size - k) / 2 };
        assert!((0..size).all(|k| coset_index_to_circle_domain_index(k, log_size) == Ok(to_domain(k))));
        let (mut domain, mut coset) = (vec![0; size], vec![0; size]);
        coset_order_to_circle_domain_order(&column, &mut domain).unwrap();
        assert!((0..size).all(|k| domain[to_domain(k)] as usize == k));
        circle_domain_order_to_coset_order(&domain, &mut coset).unwrap();
        assert_eq!(coset, column);
        let mut both = column.clone();
        bit_reverse_coset_to_circle_domain_order(&mut both).unwrap();
        bit_reverse(&mut domain).unwrap();
        assert_eq!(both, domain);
    }
    // Four steps of the domain of log size 2 lead back, and one of them is half as many of that of log size 3.
    let step = |i, offset| offset_bit_reversed_circle_domain_index(i, 2, 4, offset).unwrap();
    for i in 0..16 {
        assert_eq!((step(i, 4), step(step(i, 1), 3)), (i, i));
        assert_eq!(previous_bit_reversed_circle_domain_index(i, 2, 4), Ok(step(i, -1)));
        assert_eq!(offset_bit_reversed_circle_domain_index(i, 3, 4, 2), Ok(step(i, 1)));
    }
}
