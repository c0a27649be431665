// Convert and Degree of the static library, compared with the independent implementation.
use independent::lent::{around, margins_stay, middle};
use independent::normal_form;
use independent::random::Random;
use independent::samples::{Tally, mask_of, pairs};
use std::hint::black_box;

const TAPS: [usize; 14] = [0, 1, 2, 3, 4, 5, 6, 7, 8, 9, 10, 11, 64, usize::MAX];
const LENGTHS: [usize; 6] = [0, 1, 511, 512, 513, 1024];

// Both Converts on copies of the bytes: the same answer and the same whole buffer, which is returned.
fn convert_both(bytes: &[u8], n: usize) -> (Result<(), u8>, Vec<u8>) {
    let (mut proved, mut plain) = (bytes.to_vec(), bytes.to_vec());
    let answers = (library::convert(&mut proved, n), normal_form::convert(&mut plain, n));
    assert_eq!(answers.0, answers.1, "Convert, n = {n}, bytes {bytes:?}");
    assert_eq!(proved, plain, "the bytes after Convert, n = {n}, bytes {bytes:?}");
    assert!(answers.0.is_ok() || proved == bytes, "a refused Convert wrote, n = {n}");
    (answers.0, proved)
}

// Both Degrees on the bytes: the same answer, and the bytes as they were.
fn degree_both(bytes: &[u8], n: usize) -> Result<u32, u8> {
    let lent = bytes.to_vec();
    let answers = (library::degree(black_box(&lent), n), normal_form::degree(bytes, n));
    assert_eq!(answers.0, answers.1, "Degree, n = {n}, bytes {bytes:?}");
    assert_eq!(black_box(&lent), bytes, "the bytes after Degree, n = {n}");
    answers.0
}

// Both operations on the bytes; the answer of Degree, whose checks are those of Convert, then 9.
fn compare(bytes: &[u8], n: usize) -> Result<u32, u8> {
    let (converted, _) = convert_both(bytes, n);
    let degree = degree_both(bytes, n);
    assert_eq!(converted.is_ok(), matches!(degree, Ok(_) | Err(9)));
    degree
}

// The first place, one inside, the last below N, the first from N on and the last, as far as there are such.
fn places(n: usize, length: usize) -> Vec<usize> {
    let size = 1 << n.min(9);
    let all = [0, size / 2, size - 1, size, length.wrapping_sub(1)];
    all.into_iter().filter(|i| *i < length).collect()
}

// Zeros, and a mask of n taps, cut or extended with zeros to the length.
fn grounds(random: &mut Random, n: usize, length: usize) -> [Vec<u8>; 2] {
    let mut mask = random.mask(n.min(9), 4);
    mask.resize(length, 0);
    [vec![0; length], mask]
}

#[test]
fn every_n_and_length_with_each_byte_at_each_kind_of_place() {
    let (mut random, mut tally) = (Random(1), Tally::default());
    let values: Vec<u8> = (0..=255).collect();
    for (n, length) in pairs(&TAPS, &LENGTHS) {
        for ground in grounds(&mut random, n, length) {
            tally.count(compare(&ground, n));
            for (i, value) in pairs(&places(n, length), &values) {
                let mut bytes = ground.clone();
                bytes[i] = value;
                tally.count(compare(&bytes, n));
            }
        }
    }
    assert_eq!(tally.numbers(1), [0, 1, 4, 8, 9]);
}

#[test]
fn random_tables_of_every_n_come_back_when_converted_twice() {
    let mut random = Random(2);
    for n in 1..=9 {
        for _ in 0..1500 {
            let share = random.below(9);
            let table = random.mask(n, share);
            let (answer, coefficients) = convert_both(&table, n);
            assert_eq!(answer, Ok(()));
            for bytes in [&table, &coefficients] {
                assert_eq!(degree_both(bytes, n).is_ok(), table.contains(&1));
            }
            assert_eq!(convert_both(&coefficients, n), (Ok(()), table));
        }
    }
}

#[test]
fn every_table_of_up_to_three_taps() {
    for n in 1..=3 {
        for choice in 0..1usize << (1 << n) {
            let table = mask_of(n, |a| choice >> a & 1 == 1);
            let (answer, coefficients) = convert_both(&table, n);
            assert_eq!(answer, Ok(()));
            assert_eq!(degree_both(&coefficients, n).is_err(), choice == 0);
        }
    }
}

#[test]
fn each_single_exponent_of_every_n() {
    for n in 1..=9 {
        for u in 0..1usize << n {
            let monomial = mask_of(n, |v| v == u);
            assert_eq!(degree_both(&monomial, n), Ok(u.count_ones()));
            assert_eq!(convert_both(&monomial, n).1, mask_of(n, |a| a & u == u));
        }
    }
}

#[test]
fn random_bytes_of_random_lengths() {
    let (mut random, mut tally) = (Random(3), Tally::default());
    for _ in 0..20_000 {
        let length = random.pick(&[0, 2, 510, 511, 512, 512, 513, 4096]);
        let bytes = random.bytes(length);
        tally.count(compare(&bytes, random.pick(&TAPS)));
    }
    assert_eq!(tally.numbers(100), [1, 4, 8]);
}

#[test]
fn nothing_outside_the_lent_bytes_is_written() {
    let mut random = Random(4);
    for (n, length) in pairs(&TAPS, &LENGTHS) {
        let [_, mask] = grounds(&mut random, n, length);
        let entry = around(&mut random, &mask);
        let mut exit = entry.clone();
        let _ = library::convert(middle(&mut exit), n);
        assert!(margins_stay(&entry, &exit), "Convert, n = {n}, length {length}");
    }
}
