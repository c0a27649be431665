// Check of the static library, compared with the independent implementation: certificates of Certify at every side and
// degree, other sums than those, and numbers that are no certificate.
use independent::check::{Standard, check};
use independent::faults::{Asked, CERTIFICATE_FAULTS, Call, lend_faults};
use independent::filter::Filter;
use independent::lent::lend;
use independent::random::Random;
use independent::rank::points_of;
use independent::samples::{TABLES, kinds, masks, pairs};
use std::hint::black_box;

// Check of the library: the set, the table and the certificate are as they were.
fn lend_check(filter: Filter, side: u8, d: usize, certificate: &[u64]) -> Result<bool, u8> {
    let lent = certificate.to_vec();
    let answer = lend(filter, |filter| library::check(filter, side, d, black_box(&lent)));
    assert!(black_box(&lent) == certificate, "the certificate after Check of {filter:?}, side {side}, d = {d}");
    answer
}

// Every side of n taps at every degree.
fn sides_and_degrees(n: usize) -> impl Iterator<Item = (u8, usize)> {
    (0..=n).flat_map(|d| [(1, d), (0, d)])
}

// A certificate, and the side and the degree that it was made for.
struct Made {
    side: u8,
    d: usize,
    numbers: Vec<u64>,
}

impl Made {
    // What Certify of the library writes, unless it refuses.
    fn certified(filter: Filter, side: u8, d: usize) -> Option<Made> {
        let mut numbers = vec![0; 4096];
        let answer = library::certify(filter, side, d, &mut [0; 8192], &mut numbers);
        answer.ok().map(|_| Made { side, d, numbers })
    }

    // The same with other sums.
    fn with_other_sums(&self, random: &mut Random, filter: Filter) -> Made {
        let numbers = random.other_sums(filter, self.side, self.d, &self.numbers);
        Made { numbers, ..*self }
    }

    // Whether it must get a yes: what is right at a degree is right at each lower one.
    fn is_for(&self, side: u8, d: usize) -> bool {
        self.side == side && d <= self.d
    }
}

// The certificates of the filter that were made for any side and degree, checked for this one, each also with one row
// of random numbers: the independent answers. Where Certify refuses by 12, every certificate gets a no. Numbers all one
// and random numbers get a no; numbers all zero get a yes exactly where the part is all of the set.
fn compare_asked(random: &mut Random, filter: Filter, side: u8, d: usize, made: &[Made]) {
    let standard = Standard::of(filter, side, d);
    let answer = |numbers: &[u64]| {
        let proved = lend_check(filter, side, d, numbers);
        assert_eq!(proved, Ok(standard.right(numbers)), "Check of {filter:?}, side {side}, d = {d}");
        proved == Ok(true)
    };
    let equal = made.iter().any(|one| (one.side, one.d) == (side, d));
    for one in made {
        let yes = answer(&one.numbers);
        assert!(yes || !one.is_for(side, d), "no to a certificate of {filter:?}, side {side}, d = {d}");
        assert!(equal || !yes, "yes where the ranks differ: {filter:?}, side {side}, d = {d}");
        let (mut broken, a) = (one.numbers.clone(), random.below(512));
        broken[8 * a..8 * a + 8].copy_from_slice(&random.words(8));
        answer(&broken);
    }
    assert!(!answer(&[u64::MAX; 4096]) && !answer(&random.words(4096)));
    assert_eq!(answer(&[0; 4096]), filter.part(side) == points_of(filter.set), "{filter:?}, side {side}, d = {d}");
}

// All certificates of the filter, those of Certify and each with other sums, checked for every side and degree.
fn compare(random: &mut Random, n: usize, set: &[u8], table: &[u8]) {
    let filter = Filter { n, set, table };
    let mut made: Vec<Made> = sides_and_degrees(n).filter_map(|(side, d)| Made::certified(filter, side, d)).collect();
    let others: Vec<Made> = made.iter().map(|one| one.with_other_sums(random, filter)).collect();
    made.extend(others);
    sides_and_degrees(n).for_each(|(side, d)| compare_asked(random, filter, side, d, &made));
}

#[test]
fn certificates_and_other_sums_get_a_yes_on_every_set_and_table_of_one_and_two_taps() {
    let mut random = Random(1);
    for n in [1, 2] {
        for set in &masks(n) {
            masks(n).iter().for_each(|table| compare(&mut random, n, set, table));
        }
    }
}

#[test]
fn certificates_and_other_sums_get_a_yes_on_every_set_of_three_taps_with_every_kind_of_table() {
    let mut random = Random(2);
    for set in &masks(3) {
        let tables = TABLES.map(|kind| random.table(3, kind));
        tables.iter().for_each(|table| compare(&mut random, 3, set, table));
    }
}

// A filter of each kind of set and each kind of table, of each of these taps.
fn compare_kinds(seed: u64, taps: &[usize]) {
    let mut random = Random(seed);
    for (n, (for_set, for_table)) in pairs(taps, &kinds()) {
        let (set, table) = (random.set(n, for_set), random.table(n, for_table));
        compare(&mut random, n, &set, &table);
    }
}

#[test]
fn certificates_and_other_sums_get_a_yes_on_every_kind_of_filter_of_four_to_seven_taps() {
    compare_kinds(3, &[[4; 10].as_slice(), &[5; 5], &[6; 3], &[7; 2]].concat());
}

#[test]
fn certificates_and_other_sums_get_a_yes_on_every_kind_of_filter_of_eight_and_nine_taps() {
    compare_kinds(4, &[8, 9]);
}

// A call with the certificate of Certify, if there is one, and with random numbers, cut or extended to the length: the
// answers of the independent implementation, which are of one number.
fn compare_call(random: &mut Random, filter: Filter, asked: &Asked) -> Result<(), u8> {
    let made = Made::certified(filter, asked.side, asked.d).map(|one| one.numbers);
    let [first, second] = [made.unwrap_or_default(), random.words(4096)].map(|mut numbers| {
        numbers.resize(asked.certificate, 0);
        let answer = lend_check(filter, asked.side, asked.d, &numbers);
        assert_eq!(answer, check(filter, asked.side, asked.d, &numbers), "Check of {filter:?}");
        answer.map(|_| ())
    });
    assert_eq!(first, second, "the numbers of a certificate decide on a refusal: {filter:?}");
    first
}

#[test]
fn every_refusal_and_every_pair_of_them_in_order() {
    let operation = |random: &mut Random, call: &Call<Asked>| compare_call(random, call.filter(), &call.own);
    assert_eq!(lend_faults(5, Asked::good, &CERTIFICATE_FAULTS, operation), [0, 1, 4, 8, 10, 11]);
}
