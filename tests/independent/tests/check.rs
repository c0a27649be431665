// Check of the independent implementation, against sums written out by hand, every certificate on few points, and what
// polynomials say of the sums.
use independent::certificate::turn;
use independent::check::{Standard, check};
use independent::filter::Filter;
use independent::judgement::certify;
use independent::other_sums::Dependencies;
use independent::random::Random;
use independent::rank::{points_of, row_span};
use independent::samples::{NO_POINT, TABLES, kinds, mask_of, masks, pairs};

// The certificate that names the listed points for each point beside them.
fn of_sums(sums: &[(usize, &[usize])]) -> Vec<u64> {
    let mut certificate = vec![0; 4096];
    for (a, q) in sums.iter().flat_map(|(a, named)| named.iter().map(move |q| (*a, *q))) {
        turn(&mut certificate, a, q);
    }
    certificate
}

// Whether the sums are a certificate of the side at degree d, where the set and the points where f is 1 are listed.
fn checked(n: usize, [set, table]: [&[usize]; 2], side: u8, d: usize, sums: &[(usize, &[usize])]) -> bool {
    let [set, table] = [set, table].map(|points| mask_of(n, |a| points.contains(&a)));
    check(Filter { n, set: &set, table: &table }, side, d, &of_sums(sums)).expect("accepted")
}

#[test]
fn the_sums_of_the_printed_sheet_and_no_fewer() {
    let filter: [&[usize]; 2] = [&[0, 1, 2, 3], &[3]];
    let sums: [(usize, &[usize]); 3] = [(0, &[3]), (1, &[3]), (2, &[3])];
    assert_eq!([0, 1, 2].map(|d| checked(2, filter, 1, d, &sums)), [true, false, false]);
    assert_eq!([0, 1, 2].map(|d| checked(2, filter, 0, d, &[(3, &[0])])), [true, false, false]);
    assert_eq!([&sums[1..], &sums[..2], &[]].map(|fewer| checked(2, filter, 1, 0, fewer)), [false; 3]);
    assert!(!checked(2, filter, 0, 0, &sums) && !checked(2, filter, 1, 0, &[(3, &[0])]));
}

#[test]
fn other_sums_of_the_printed_filter() {
    for choice in 0..8usize {
        let named: Vec<usize> = (0..3).filter(|q| choice >> q & 1 == 1).collect();
        let answers = [0, 1, 2].map(|d| checked(2, [&[0, 1, 2, 3], &[3]], 0, d, &[(3, &named)]));
        assert_eq!(answers, [named.len() % 2 == 1, named.len() == 3, false], "3 as the sum of {named:?}");
    }
}

#[test]
fn the_sums_of_majority_of_three() {
    let filter: [&[usize]; 2] = [&[0, 1, 2, 3, 4, 5, 6, 7], &[3, 5, 6, 7]];
    let one: [(usize, &[usize]); 4] = [(0, &[3, 5, 6]), (1, &[3, 5, 7]), (2, &[3, 6, 7]), (4, &[5, 6, 7])];
    let zero: [(usize, &[usize]); 4] = [(3, &[0, 1, 2]), (5, &[0, 1, 4]), (6, &[0, 2, 4]), (7, &[1, 2, 4])];
    for (side, sums, others) in [(1, one, zero), (0, zero, one)] {
        assert_eq!([0, 1, 2, 3].map(|d| checked(3, filter, side, d, &sums)), [true, true, false, false]);
        assert_eq!([0, 1, 2, 3].map(|d| checked(3, filter, side, d, &others)), [false; 4]);
    }
}

#[test]
fn what_may_not_be_named_and_where_nothing_may_be() {
    let (filter, sum): ([&[usize]; 2], (usize, &[usize])) = ([&[0, 1, 3], &[0, 1, 2]], (3, &[0]));
    assert!(checked(2, filter, 1, 0, &[sum]) && checked(2, filter, 1, 0, &[(3, &[1])]));
    for named in [3, 2, 4, 63, 64, 511] {
        assert!(!checked(2, filter, 1, 0, &[(3, &[named])]), "{named}, which is not of the part");
        assert!(!checked(2, filter, 1, 0, &[(3, &[0, 1, named])]), "{named} beside points of the part");
    }
    for a in [0, 1, 2, 4, 7, 8, 256, 511] {
        assert!(!checked(2, filter, 1, 0, &[sum, (a, &[0])]), "a sum for {a}");
        assert!(!checked(2, filter, 1, 0, &[sum, (a, &[511])]), "a bit for {a}");
    }
}

// Whether each polynomial of n taps up to degree d has at the point a the sum of its values at the points named.
// Choices of exponents and of points are numbers: bit u for the exponent u, bit q for the point q.
fn agree(n: usize, d: usize, a: usize, named: usize) -> bool {
    let chosen = |bits: usize| (0..1usize << n).filter(move |i| bits >> i & 1 == 1);
    let value = |g: usize, a: usize| chosen(g).filter(|u| u & a == *u).count();
    let up_to_d = (0..1 << (1 << n)).filter(|g| chosen(*g).all(|u| u.count_ones() as usize <= d));
    up_to_d.into_iter().all(|g| (value(g, a) + chosen(named).map(|q| value(g, q)).sum::<usize>()) % 2 == 0)
}

// Every certificate on the points of n taps gets a yes exactly if all points of the set outside the part have points of
// the part named on which polynomials agree, and no other has any. There are as many as choices of a dependency for
// each sum if the ranks are equal, and else there is none.
fn try_every_certificate(n: usize, filter: Filter, side: u8, d: usize) {
    let (size, part, outside) = (1 << n, filter.part(side), filter.part(1 - side));
    let of_part = |named: usize| (0..size).all(|q| named >> q & 1 == 0 || part.contains(&q));
    let right = |a: usize, named: usize| match outside.contains(&a) {
        true => of_part(named) && agree(n, d, a, named),
        false => named == 0,
    };
    let rows: Vec<Vec<bool>> = (0..size).map(|a| (0..1 << size).map(|named| right(a, named)).collect()).collect();
    let mut count = 0;
    for bits in 0..1usize << (size * size) {
        let row = |a: usize| bits >> (a * size) & ((1 << size) - 1);
        let mut certificate = vec![0; 4096];
        (0..size).for_each(|a| certificate[8 * a] = row(a) as u64);
        let yes = check(filter, side, d, &certificate) == Ok(true);
        assert_eq!(yes, (0..size).all(|a| rows[a][row(a)]), "{filter:?}, side {side}, d = {d}, {bits:b}");
        count += usize::from(yes);
    }
    let Dependencies(basis) = Dependencies::of(filter, side, d);
    let equal = row_span(&part, d).rank() == row_span(&points_of(filter.set), d).rank();
    assert_eq!(count, if equal { 1 << (basis.len() * outside.len()) } else { 0 }, "{filter:?}, side {side}, d = {d}");
}

// The same of each side at each degree.
fn try_every_side(n: usize, set: &[u8], table: &[u8]) {
    for (side, d) in (0..=n).flat_map(|d| [(1, d), (0, d)]) {
        try_every_certificate(n, Filter { n, set, table }, side, d);
    }
}

#[test]
fn every_certificate_on_the_points_of_one_tap() {
    for set in &masks(1) {
        masks(1).iter().for_each(|table| try_every_side(1, set, table));
    }
}

#[test]
fn every_certificate_on_the_points_of_two_taps() {
    try_every_side(2, &mask_of(2, |_| true), &mask_of(2, |a| a == 3));
    try_every_side(2, &mask_of(2, |a| a != 1), &mask_of(2, |a| a <= 1));
    try_every_side(2, &mask_of(2, |_| false), &mask_of(2, |a| a == 3));
}

#[test]
fn certificates_of_every_kind_of_filter_and_other_sums() {
    let mut random = Random(1);
    for (n, (for_set, for_table)) in pairs(&[1, 2, 3, 4, 5, 6, 7, 8, 9], &kinds()) {
        let (set, table) = (random.set(n, for_set), random.table(n, for_table));
        let filter = Filter { n, set: &set, table: &table };
        for (side, d) in (0..=n).flat_map(|d| [(1, d), (0, d)]) {
            let mut certificate = vec![0; 4096];
            let equal = certify(filter, side, d, &mut [0; 8192], &mut certificate).is_ok();
            let other = random.other_sums(filter, side, d, &certificate);
            let answers = [certificate, other].map(|certificate| check(filter, side, d, &certificate));
            assert_eq!(answers, [Ok(equal); 2], "{filter:?}, side {side}, d = {d}");
        }
    }
}

#[test]
fn on_no_point_zeros_are_the_only_certificate() {
    let mut random = Random(2);
    for (n, kind) in pairs(&[1, 2, 3, 4, 5, 6, 7, 8, 9], &TABLES) {
        let (set, table) = (random.set(n, NO_POINT), random.table(n, kind));
        for (side, d) in (0..=n).flat_map(|d| [(1, d), (0, d)]) {
            let (standard, mut zeros) = (Standard::of(Filter { n, set: &set, table: &table }, side, d), vec![0; 4096]);
            assert!(standard.right(&zeros), "n = {n}, table {table:?}, side {side}, d = {d}");
            for (a, q) in (0..512).map(|a| (a, random.below(512))) {
                turn(&mut zeros, a, q);
                assert!(!standard.right(&zeros), "{q} named for {a}: n = {n}, table {table:?}, side {side}, d = {d}");
                turn(&mut zeros, a, q);
            }
        }
    }
}

#[test]
fn checks_come_in_order() {
    let (good, broken, none) = (vec![1; 512], vec![2; 512], vec![0; 512]);
    let number = |set: &[u8], table: &[u8], n, side, d, length| {
        check(Filter { n, set, table }, side, d, &vec![u64::MAX; length]).err().unwrap_or(0)
    };
    assert_eq!([511, 513].map(|length| number(&vec![2; length], &broken, 0, 2, 99, 4096)), [1, 1]);
    assert_eq!([511, 513].map(|length| number(&broken, &vec![2; length], 0, 2, 99, 4096)), [1, 1]);
    assert_eq!([0, 4095, 4097].map(|length| number(&broken, &broken, 0, 2, 99, length)), [1, 1, 1]);
    assert_eq!([0, 10, usize::MAX].map(|n| number(&broken, &broken, n, 2, 99, 4096)), [4, 4, 4]);
    assert_eq!([(&broken, &none), (&none, &broken)].map(|(s, t)| number(s, t, 9, 2, 99, 4096)), [8, 8]);
    assert_eq!([(&good, &none), (&none, &good)].map(|(s, t)| number(s, t, 8, 2, 99, 4096)), [8, 8]);
    for set in [&good, &none] {
        assert_eq!([10, usize::MAX].map(|d| number(set, &good, 9, 2, d, 4096)), [10, 10]);
        assert_eq!([2, 255].map(|side| number(set, &good, 9, side, 9, 4096)), [11, 11]);
        assert_eq!([1, 0].map(|side| number(set, &good, 9, side, 9, 4096)), [0, 0]);
    }
}
