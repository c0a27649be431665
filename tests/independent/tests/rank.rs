// Rank of the independent implementation, against the starred cases and plain counting.
use independent::normal_form::weight;
use independent::random::Random;
use independent::rank::{Ranking, column_vectors, columns, eliminate, points_of, rank, ranking, row};
use independent::samples::mask_of;
use independent::span::{Bits, Span, relations};

// Rank of the mask, with a workspace full of ones: the answer, and the kept points, of which there are as many as the
// rank. A refusal leaves the mask of the kept points as it was.
fn ranked(mask: &[u8], n: usize, d: usize) -> Result<(Ranking, Vec<usize>), u8> {
    let (mut workspace, mut kept) = (vec![u64::MAX; 8192], vec![9; 512]);
    let answer = rank(mask, n, d, &mut workspace, &mut kept);
    let wanted = if answer.is_ok() { 0 } else { u64::MAX };
    assert!(workspace.iter().all(|word| *word == wanted));
    assert!(kept.iter().all(|x| if answer.is_ok() { *x <= 1 } else { *x == 9 }));
    let points = points_of(&kept);
    assert!(answer.is_err() || answer.is_ok_and(|found| found.rank == points.len()));
    answer.map(|found| (found, points))
}

#[test]
fn starred_case_4() {
    assert_eq!(ranked(&mask_of(2, |_| false), 2, 1), Ok((Ranking { rank: 0, additions: 0 }, vec![])));
}

#[test]
fn the_set_of_starred_case_5() {
    let ranks = [0, 1, 2].map(|d| ranked(&mask_of(2, |_| true), 2, d).expect("accepted"));
    assert_eq!(ranks.map(|(_, kept)| kept), [vec![0], vec![0, 1, 2], vec![0, 1, 2, 3]]);
}

#[test]
fn the_ranks_of_starred_cases_6_and_7() {
    let cube: Vec<usize> = (0..8).collect();
    let even = [0, 3, 5, 6, 9, 10, 12, 15];
    assert_eq!([&cube[..], &[3, 5, 6, 7], &[0, 1, 2, 4]].map(|s| ranking(s, 3, 1).rank), [4, 4, 4]);
    assert_eq!([&even[..], &[6, 10, 12, 15], &[0, 3, 5, 9]].map(|s| ranking(s, 4, 1).rank), [4, 4, 4]);
}

#[test]
fn the_graded_order_rises_by_weight_then_number() {
    assert_eq!(columns(3, 3), [0, 1, 2, 4, 3, 5, 6, 7]);
    assert_eq!(columns(9, 1), [0, 1, 2, 4, 8, 16, 32, 64, 128, 256]);
    let order = columns(9, 9);
    for n in 1..=9 {
        let below: Vec<usize> = order.iter().copied().filter(|u| u >> n == 0).collect();
        assert_eq!(columns(n, n), below);
        for d in 0..=n {
            let count = below.iter().filter(|u| weight(**u) <= d).count();
            assert_eq!(columns(n, d), below[..count]);
        }
    }
}

// The number of different sums of rows of the points, found by adding every choice of them.
fn different_sums(points: &[usize], d: usize) -> usize {
    let mut sums = vec![Bits::default()];
    for a in points {
        for i in 0..sums.len() {
            let sum = sums[i].plus(row(d, *a));
            if !sums.contains(&sum) {
                sums.push(sum);
            }
        }
    }
    sums.len()
}

#[test]
fn a_rank_counts_the_different_sums() {
    for n in 1..=3 {
        for choice in 0..1usize << (1 << n) {
            let points = points_of(&mask_of(n, |a| choice >> a & 1 == 1));
            (0..=n).for_each(|d| assert_eq!(different_sums(&points, d), 1 << ranking(&points, n, d).rank));
        }
    }
}

#[test]
fn additions_stay_within_the_bound() {
    let mut random = Random(1);
    for n in 1..=9 {
        for share in 0..=8 {
            let points = points_of(&random.mask(n, share));
            let d = random.below(n + 1);
            let Ranking { rank: r, additions } = eliminate(&points, n, d);
            assert!(additions as usize <= points.len() * r - r * (r + 1) / 2);
        }
    }
}

#[test]
fn a_span_expresses_its_members_by_kept_names() {
    let mut random = Random(2);
    for _ in 0..200 {
        let points = points_of(&random.mask(6, 4));
        let span: Span = points.iter().map(|a| (*a, row(2, *a))).collect();
        for a in 0..64 {
            if let Some(names) = span.express(row(2, a)) {
                assert!(names.places().all(|q| points.contains(&q)));
                let sum = names.places().fold(Bits::default(), |sum, q| sum.plus(row(2, q)));
                assert_eq!(sum, row(2, a));
            }
        }
    }
}

// The sum of the vectors whose names are chosen.
fn sum(vectors: &[(usize, Bits)], chosen: impl Fn(&usize) -> bool) -> Bits {
    vectors.iter().filter(|(name, _)| chosen(name)).fold(Bits::default(), |sum, (_, vector)| sum.plus(*vector))
}

#[test]
fn relations_are_a_basis_of_the_choices_of_columns_that_sum_to_zero() {
    for (bits, d) in (0..256).flat_map(|bits| [0, 1, 2, 3].map(|d| (bits, d))) {
        let points = points_of(&mask_of(3, |a| bits >> a & 1 == 1));
        let vectors: Vec<(usize, Bits)> = column_vectors(&points, 3, d).collect();
        let found = relations(vectors.iter().copied());
        for names in found.iter().map(|names| names.places().collect::<Vec<usize>>()) {
            assert!(names.iter().all(|u| weight(*u) <= d));
            assert_eq!(sum(&vectors, |u| names.contains(u)), Bits::default());
        }
        let zero_sums = (0..256).filter(|choice| sum(&vectors, |u| choice >> u & 1 == 1) == Bits::default());
        let without_column = 8 - vectors.len();
        assert_eq!(zero_sums.count(), 1 << (found.len() + without_column), "points {points:?}, d = {d}");
        assert_eq!(found.iter().copied().enumerate().collect::<Span>().rank(), found.len());
    }
}

#[test]
fn checks_come_in_order() {
    let (good, broken) = (mask_of(9, |_| true), vec![2; 512]);
    assert_eq!(rank(&good[1..], 0, 99, &mut [0; 8192], &mut [0; 512]), Err(1));
    assert_eq!(rank(&good, 0, 99, &mut [0; 8191], &mut [0; 512]), Err(1));
    for length in [0, 511, 513] {
        let mut kept = vec![9; length];
        assert_eq!((rank(&broken, 0, 99, &mut [0; 8192], &mut kept), kept), (Err(1), vec![9; length]));
    }
    assert_eq!(ranked(&broken, 0, 99), Err(4));
    assert_eq!(ranked(&broken, 10, 99), Err(4));
    assert_eq!(ranked(&broken, 9, 99), Err(8));
    assert_eq!(ranked(&good, 8, 99), Err(8));
    assert_eq!(ranked(&good, 9, 10), Err(10));
}
