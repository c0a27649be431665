// Convert and Degree of the independent implementation, against the starred cases and plain evaluation.
use independent::normal_form::{convert, degree, weight, within};
use independent::random::Random;
use independent::samples::mask_of;

// The mask after Convert, which accepts it.
fn converted(mut mask: Vec<u8>, n: usize) -> Vec<u8> {
    assert_eq!(convert(&mut mask, n), Ok(()));
    mask
}

#[test]
fn starred_cases_1_to_3() {
    assert_eq!(converted(mask_of(3, |a| a == 7), 3), mask_of(3, |u| u == 7));
    assert_eq!(converted(mask_of(2, |a| a == 0), 2), mask_of(2, |_| true));
    assert_eq!(degree(&mask_of(1, |_| false), 1), Err(9));
}

#[test]
fn the_transform_evaluates_a_polynomial_at_every_point() {
    let mut random = Random(5);
    for n in 1..=9 {
        let coefficients = random.mask(n, 4);
        let values = converted(coefficients.clone(), n);
        for (a, byte) in values.iter().enumerate().take(1 << n) {
            let value = (0..1usize << n).fold(false, |sum, u| sum ^ (coefficients[u] == 1 && monomial(u, a, n)));
            assert_eq!(*byte == 1, value);
        }
        assert_eq!(converted(values, n), coefficients);
    }
}

// The product of the variables that u names, at the point a of n taps; x1 is the highest bit.
fn monomial(u: usize, a: usize, n: usize) -> bool {
    let bit = |number: usize, i: usize| number >> (n - i) & 1 == 1;
    (1..=n).filter(|i| bit(u, *i)).all(|i| bit(a, i))
}

#[test]
fn within_and_weight_agree_with_their_words() {
    for u in 0..512 {
        assert_eq!(weight(u), format!("{u:b}").matches('1').count());
        assert!((0..512).all(|a| within(u, a) == monomial(u, a, 9)));
    }
}

#[test]
fn checks_come_in_order() {
    let cases = [(511, 0, 2, 1), (512, 0, 2, 4), (512, 10, 2, 4), (512, 9, 2, 8), (512, 9, 0, 9)];
    for (length, n, first, number) in cases {
        let mut bytes = vec![0; length];
        bytes[0] = first;
        assert_eq!(degree(&bytes, n), Err(number));
        let converted = if number == 9 { Ok(()) } else { Err(number) };
        assert_eq!(convert(&mut bytes, n), converted);
    }
}

#[test]
fn a_one_from_the_size_on_is_refused() {
    for n in 1..9 {
        assert_eq!(degree(&mask_of(9, |a| a == 1 << n), n), Err(8));
        assert_eq!(degree(&mask_of(9, |a| a == (1 << n) - 1), n), Ok(n as u32));
    }
}
