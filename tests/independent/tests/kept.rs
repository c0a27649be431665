// The kept points, found in two ways: by sums of rows, and by sums of columns. Both are held against each other, against
// every polynomial, against the ranks of the points up to each, and against what is known of kept points.
use independent::kept::{kept_of_columns, kept_of_sums, kept_points};
use independent::normal_form::{weight, within};
use independent::random::Random;
use independent::rank::{columns, points_of, row_span};
use independent::samples::{mask_of, masks, pairs};

// The points at which some polynomial of n taps up to degree d is one that is zero at the smaller ones: every polynomial
// is tried.
fn by_polynomials(points: &[usize], n: usize, d: usize) -> Vec<usize> {
    let exponents = columns(n, d);
    let is_one = |choice: usize, a: usize| {
        let chosen = exponents.iter().enumerate().filter(|(i, _)| choice >> i & 1 == 1);
        chosen.filter(|(_, u)| within(**u, a)).count() % 2 == 1
    };
    let firsts = (0..1 << exponents.len()).filter_map(|choice| points.iter().position(|a| is_one(choice, *a)));
    let mut kept = vec![false; points.len()];
    firsts.for_each(|i| kept[i] = true);
    points.iter().zip(kept).filter(|(_, kept)| *kept).map(|(a, _)| *a).collect()
}

// The points with which the points up to them have a higher rank than without.
fn by_ranks(points: &[usize], d: usize) -> Vec<usize> {
    let rank = |count: usize| row_span(&points[..count], d).rank();
    (0..points.len()).filter(|i| rank(i + 1) > rank(*i)).map(|i| points[i]).collect()
}

#[test]
fn all_ways_agree_on_every_mask_of_up_to_three_taps_at_every_degree() {
    for n in [1, 2, 3] {
        for (points, d) in masks(n).iter().flat_map(|mask| (0..=n).map(|d| (points_of(mask), d))) {
            let kept = kept_of_sums(&points, d);
            let others = [kept_of_columns(&points, n, d), by_polynomials(&points, n, d), by_ranks(&points, d)];
            assert!(others.iter().all(|other| *other == kept), "n = {n}, d = {d}, {points:?}: {kept:?}, {others:?}");
        }
    }
}

#[test]
fn both_ways_agree_on_masks_of_four_taps_drawn_at_random() {
    let mut random = Random(1);
    for (share, d) in pairs(&[0, 1, 2, 3, 4, 5, 6], &[0, 1, 2, 3, 4].repeat(20)) {
        let points = points_of(&random.mask(4, share));
        assert_eq!(kept_of_columns(&points, 4, d), kept_of_sums(&points, d), "d = {d}, points {points:?}");
    }
}

#[test]
fn the_ranks_of_the_points_up_to_each_rise_at_the_kept_points_of_five_to_nine_taps() {
    let mut random = Random(2);
    for (n, count) in pairs(&[5, 6, 7, 8, 9], &[0, 8, 16, 24, 32, 48].repeat(4)) {
        let (points, d) = (points_of(&mask_of(n, |_| random.below(1 << n) < count)), random.below(n + 1));
        assert_eq!(kept_points(&points, n, d), by_ranks(&points, d), "n = {n}, d = {d}, points {points:?}");
    }
}

// The row of a point of weight over d is a sum of rows of points of weight up to d whose ones are ones of it: all of these
// are smaller.
#[test]
fn of_all_points_those_of_weight_up_to_the_degree_are_kept() {
    for (n, d) in (1..=9).flat_map(|n| (0..=n).map(move |d| (n, d))) {
        let (all, light) = ((0..1 << n).collect::<Vec<_>>(), points_of(&mask_of(n, |a| weight(a) <= d)));
        assert_eq!(kept_points(&all, n, d), light, "n = {n}, d = {d}");
    }
}
