// Judge, Certify and Hand over of the independent implementation, against the numbered cases, evaluation and sums of
// rows.
use independent::certificate::named;
use independent::filter::Filter;
use independent::judgement::{Judgement, certify, hand_over, judge};
use independent::kept::kept_points;
use independent::normal_form::{convert, degree};
use independent::random::Random;
use independent::rank::{points_of, row, row_span};
use independent::samples::{TABLES, kinds, mask_of, pairs};
use independent::span::Bits;

// What Judge answered, the exponents of the witnesses of side 1 and side 0, and the kept points.
fn judged(n: usize, set: &[u8], table: &[u8]) -> (Judgement, [Vec<usize>; 2], Vec<usize>) {
    let (mut workspace, [mut one, mut zero, mut kept]) = (vec![9; 8192], [(); 3].map(|_| vec![9; 512]));
    let judgement = judge(Filter { n, set, table }, &mut workspace, &mut one, &mut zero, &mut kept).expect("accepted");
    assert!(workspace.iter().all(|word| *word == 0));
    let chosen = |buffer: Vec<u8>| (0..512).filter(|u| buffer[*u] != 0).collect();
    (judgement, [chosen(one), chosen(zero)], chosen(kept))
}

// The mask of the listed points.
fn listed(n: usize, points: &[usize]) -> Vec<u8> {
    mask_of(n, |a| points.contains(&a))
}

#[test]
fn starred_case_5() {
    let (judgement, witnesses, kept) = judged(2, &mask_of(2, |_| true), &listed(2, &[3]));
    assert_eq!(judgement.ranks[..4], [[1, 1, 1], [3, 1, 3], [4, 1, 3], [0, 0, 0]]);
    assert_eq!((judgement.degree, judgement.side, judgement.additions), (Some(1), Some(1), 19));
    assert_eq!((judgement.own_degrees, judgement.mark), ([Some(1), Some(2)], Some(1)));
    assert_eq!((witnesses, kept), ([vec![0, 1], vec![]], vec![0, 1, 2]));
}

#[test]
fn starred_cases_6_and_7() {
    let (majority, _, kept) = judged(3, &mask_of(3, |_| true), &listed(3, &[3, 5, 6, 7]));
    assert_eq!((majority.ranks[1], majority.degree, majority.side), ([4, 4, 4], Some(2), Some(1)));
    assert_eq!((majority.mark, kept), (Some(2), vec![0, 1, 2, 3, 4, 5, 6]));
    let (even, _, kept) = judged(4, &listed(4, &[0, 3, 5, 6, 9, 10, 12, 15]), &listed(4, &[6, 10, 12, 15]));
    assert_eq!((even.ranks[1], even.degree, even.mark), ([4, 4, 4], Some(2), Some(2)));
    assert_eq!(kept, [0, 3, 5, 6, 9, 10, 12]);
}

#[test]
fn starred_cases_8_and_9() {
    let (zero, witnesses, kept) = judged(1, &listed(1, &[0]), &listed(1, &[]));
    assert_eq!((zero.degree, zero.side, zero.own_degrees, zero.mark), (Some(0), Some(1), [Some(0), None], Some(0)));
    assert_eq!((witnesses, kept), ([vec![0], vec![]], vec![0]));
    let (one, witnesses, kept) = judged(1, &listed(1, &[0]), &listed(1, &[0]));
    assert_eq!((one.degree, one.side, one.own_degrees, one.mark), (Some(0), Some(0), [None, Some(0)], Some(0)));
    assert_eq!((witnesses, kept), ([vec![], vec![0]], vec![0]));
}

#[test]
fn starred_case_10() {
    let (judgement, witnesses, kept) = judged(2, &listed(2, &[1, 2]), &listed(2, &[1]));
    assert_eq!([0, 1, 2].map(|d| judgement.ranks[d][0]), [1, 2, 2]);
    assert_eq!((judgement.degree, judgement.mark, &witnesses[0][..]), (Some(1), Some(1), &[0, 1][..]));
    assert_eq!(kept, [1, 2]);
}

#[test]
fn case_11() {
    let (judgement, witnesses, kept) = judged(4, &listed(4, &[3, 5, 6, 9, 10, 12]), &listed(4, &[3, 5, 6]));
    assert_eq!([0, 1, 2, 3, 4].map(|d| judgement.ranks[d][0]), [1, 4, 6, 6, 6]);
    assert_eq!((judgement.mark, judgement.degree, &witnesses[0][..]), (Some(1), Some(1), &[1, 2, 4][..]));
    assert_eq!(kept, [3, 5, 6, 9]);
}

// On no point every rank is 0, there is no degree, no side and no mark, and nothing is left in the buffers.
fn check_no_point(n: usize, table: &[u8]) {
    let (judgement, witnesses, kept) = judged(n, &listed(n, &[]), table);
    assert_eq!((judgement.ranks, judgement.additions), ([[0; 3]; 10], 0), "n = {n}, table {table:?}");
    assert_eq!((judgement.degree, judgement.side), (None, None), "n = {n}, table {table:?}");
    assert_eq!((judgement.own_degrees, judgement.mark), ([None; 2], None), "n = {n}, table {table:?}");
    assert_eq!((witnesses, kept), ([vec![], vec![]], vec![]), "n = {n}, table {table:?}");
}

#[test]
fn cases_12_and_13() {
    check_no_point(1, &listed(1, &[]));
    check_no_point(4, &listed(4, &[3, 5, 6]));
}

#[test]
fn on_no_point_of_every_n_with_every_kind_of_table_there_is_no_degree() {
    let mut random = Random(2);
    for (n, kind) in pairs(&[1, 2, 3, 4, 5, 6, 7, 8, 9], &TABLES) {
        check_no_point(n, &random.table(n, kind));
    }
}

// The exponents are a polynomial of degree k that is zero on the part and not on all of the set.
fn check_witness(n: usize, exponents: &[usize], k: usize, [set, part]: [&[usize]; 2]) {
    let mut polynomial = listed(n, exponents);
    assert_eq!(degree(&polynomial, n), Ok(k as u32));
    assert_eq!(convert(&mut polynomial, n), Ok(()));
    assert!(part.iter().all(|a| polynomial[*a] == 0) && set.iter().any(|a| polynomial[*a] == 1));
}

// The certificate of the side at degree d names kept points of the part whose rows sum to the row of each other point of
// the set, and nothing else.
fn check_certificate(filter: Filter, side: u8, d: usize, [set, part]: [&[usize]; 2]) {
    let mut certificate = vec![9; 4096];
    assert_eq!(certify(filter, side, d, &mut vec![9; 8192], &mut certificate), Ok(()));
    let kept = kept_points(part, filter.n, d);
    for a in 0..512 {
        let named: Vec<usize> = named(&certificate, a).collect();
        let sum = named.iter().fold(Bits::default(), |sum, q| sum.plus(row(d, *q)));
        let outside = set.contains(&a) && !part.contains(&a);
        assert!(named.iter().all(|q| kept.contains(q)) && (outside || named.is_empty()));
        assert!(!outside || sum == row(d, a), "{filter:?}, side {side}, point {a}, d = {d}");
    }
}

// The witnesses of the filter; its certificates at the degree before the reported one, which is not over the mark; and the
// kept points at the reported one, as many as the rank of the set, which is theirs too. There is a degree exactly if the
// set has a point. Without one nothing is kept and no side has a witness, and there are certificates up to degree n.
fn check_judgement(n: usize, set: &[u8], table: &[u8]) {
    let (judgement, witnesses, kept) = judged(n, set, table);
    let (degree, points) = (judgement.degree, points_of(set));
    let found = [degree.is_some(), judgement.side.is_some(), judgement.mark.is_some()];
    assert_eq!(found, [!points.is_empty(); 3], "n = {n}, points {points:?}");
    assert!(degree <= judgement.mark, "over the mark: n = {n}, points {points:?}");
    assert!(kept.iter().all(|a| set[*a] == 1), "kept outside the set: n = {n}, points {points:?}");
    if let Some(k) = degree {
        assert_eq!([kept.len(), row_span(&kept, k).rank()], [judgement.ranks[k][0]; 2], "n = {n}, points {points:?}");
    }
    for (side, witness) in [1, 0].into_iter().zip(&witnesses) {
        let part: Vec<usize> = points.iter().copied().filter(|a| table[*a] == side).collect();
        match degree.filter(|k| judgement.ranks[*k][2 - usize::from(side)] != judgement.ranks[*k][0]) {
            Some(k) => check_witness(n, witness, k, [&points, &part]),
            None => assert!(witness.is_empty()),
        }
        if let Some(d) = degree.map_or(Some(n), |k| k.checked_sub(1)) {
            check_certificate(Filter { n, set, table }, side, d, [&points, &part]);
        }
    }
}

#[test]
fn witnesses_and_certificates_of_every_kind_of_filter_of_every_n() {
    let mut random = Random(1);
    for (n, (for_set, for_table)) in pairs(&[1, 2, 3, 4, 5, 6, 7, 8, 9], &kinds()) {
        let (set, table) = (random.set(n, for_set), random.table(n, for_table));
        check_judgement(n, &set, &table);
    }
}

#[test]
fn judge_checks_in_order() {
    let (good, broken, none) = (vec![1; 512], vec![2; 512], vec![0; 512]);
    let number = |set: &[u8], table: &[u8], n, [workspace, one, zero, kept]: [usize; 4]| {
        let (mut workspace, mut bytes) = (vec![7; workspace], [one, zero, kept].map(|length| vec![7; length]));
        let [one, zero, kept] = &mut bytes;
        let number = judge(Filter { n, set, table }, &mut workspace, one, zero, kept).err().unwrap_or(0);
        let untouched = workspace.iter().all(|word| *word == 7) && bytes.concat().iter().all(|x| *x == 7);
        assert_eq!(untouched, number != 0);
        number
    };
    let right = [8192, 512, 512, 512];
    assert_eq!(number(&broken[1..], &broken, 0, right), 1);
    assert_eq!(number(&broken, &broken[1..], 0, right), 1);
    for (place, length) in [(0, 8191), (1, 511), (2, 513), (3, 511), (3, 513), (3, 0)] {
        let mut lengths = right;
        lengths[place] = length;
        assert_eq!(number(&broken, &broken, 0, lengths), 1);
    }
    assert_eq!(number(&broken, &broken, 10, right), 4);
    assert_eq!([(&broken, &none), (&none, &broken)].map(|(s, t)| number(s, t, 9, right)), [8, 8]);
    assert_eq!([(&good, &none), (&none, &good)].map(|(s, t)| number(s, t, 8, right)), [8, 8]);
    assert_eq!([(&none, &good), (&good, &none)].map(|(s, t)| number(s, t, 9, right)), [0, 0]);
}

#[test]
fn certify_checks_in_order() {
    let (set, table, none) = (mask_of(2, |_| true), listed(2, &[3]), vec![0; 512]);
    let number = |set: &[u8], n, side, d, length| {
        let (mut workspace, mut certificate) = (vec![7; 8192], vec![u64::MAX; length]);
        let number =
            certify(Filter { n, set, table: &table }, side, d, &mut workspace, &mut certificate).err().unwrap_or(0);
        assert_eq!(certificate.iter().all(|word| *word == u64::MAX), number != 0);
        let wanted = if number == 0 || number == 12 { 0 } else { 7 };
        assert!(workspace.iter().all(|word| *word == wanted));
        number
    };
    assert_eq!(number(&none, 0, 2, 9, 4095), 1);
    assert_eq!(number(&none, 0, 2, 9, 4096), 4);
    assert_eq!(number(&vec![2; 512], 2, 2, 9, 4096), 8);
    assert_eq!([&set, &none].map(|set| number(set, 2, 2, 3, 4096)), [10, 10]);
    assert_eq!([&set, &none].map(|set| number(set, 2, 2, 2, 4096)), [11, 11]);
    assert_eq!([0, 1, 2].map(|d| number(&set, 2, 1, d, 4096)), [0, 12, 12]);
    assert_eq!([0, 1, 2].map(|d| number(&set, 2, 0, d, 4096)), [0, 0, 12]);
    assert_eq!([0, 1, 2].map(|d| [0, 1].map(|side| number(&none, 2, side, d, 4096))), [[0, 0]; 3]);
}

#[test]
fn hand_over_gives_the_first_bytes_of_the_side() {
    let (one, zero) = (mask_of(9, |a| a % 3 == 0), mask_of(9, |a| a % 3 == 1));
    for n in 1..=9 {
        assert_eq!(hand_over(n, 1, &one, &zero), &one[..1 << n]);
        assert_eq!(hand_over(n, 0, &one, &zero), &zero[..1 << n]);
    }
    let wrong = [hand_over(0, 1, &one, &zero), hand_over(10, 0, &one, &zero), hand_over(3, 2, &one, &zero)];
    assert_eq!(wrong.concat(), []);
    assert_eq!([hand_over(3, 1, &one, &zero[1..]), hand_over(3, 0, &one[1..], &zero)].concat(), []);
}
