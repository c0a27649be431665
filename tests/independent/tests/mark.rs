// The mark of a set, found in two ways: by the tables that polynomials have on it, and by bases of those that are zero
// there. Both are held against each other, against what is known of marks, and against the lowest degrees of annihilators.
// A set has a mark exactly if it has a point.
use independent::annihilator::lowest_degree;
use independent::known_mark::rank_of_weight;
use independent::mark::{mark, mark_of_bases, mark_of_tables};
use independent::random::Random;
use independent::rank::{points_of, ranking};
use independent::samples::{NO_POINT, of_weights, pairs};

// The points of n taps that are chosen: bit a for the point a.
fn chosen(n: usize, bits: usize) -> Vec<usize> {
    (0..1 << n).filter(|a| bits >> a & 1 == 1).collect()
}

// Both ways find the same mark of the points, and one exactly if there is a point.
fn compare(n: usize, points: &[usize]) {
    let found = mark_of_tables(n, points);
    assert_eq!(found, mark_of_bases(n, points), "n = {n}, points {points:?}");
    assert_eq!(found.is_some(), !points.is_empty(), "n = {n}, points {points:?}");
}

#[test]
fn both_ways_agree_on_every_set_of_up_to_three_taps() {
    for n in [1, 2, 3] {
        (0..1 << (1 << n)).for_each(|bits| compare(n, &chosen(n, bits)));
    }
}

#[test]
fn both_ways_agree_on_every_union_of_weights_of_four_taps_and_on_sets_drawn_at_random() {
    let mut random = Random(1);
    (0..1 << 5).for_each(|weights| compare(4, &points_of(&of_weights(4, weights))));
    (0..300).for_each(|_| compare(4, &chosen(4, random.below(1 << 16))));
}

#[test]
fn on_one_weight_of_every_n_the_ranks_are_binomial() {
    for (n, k) in (1..=9).flat_map(|n| (0..=n).map(move |k| (n, k))) {
        let points = points_of(&of_weights(n, 1 << k));
        (0..=n).for_each(|d| assert_eq!(ranking(&points, n, d).rank, rank_of_weight(n, k, d), "{n} {k} {d}"));
    }
}

#[test]
fn sets_of_every_n_whose_marks_are_known() {
    let mut random = Random(2);
    for known in (1..=9).flat_map(|n| random.known_marks(n)) {
        let points = points_of(&known.set);
        assert_eq!(mark(known.n, &points), known.mark, "n = {}, points {points:?}", known.n);
    }
}

#[test]
fn on_all_points_the_mark_is_half_of_the_taps_rounded_up() {
    let marks = [1, 2, 3, 4, 5, 6, 7, 8, 9].map(|n| mark(n, &(0..1 << n).collect::<Vec<usize>>()));
    assert_eq!(marks, [1, 1, 2, 2, 3, 3, 4, 4, 5].map(Some));
}

#[test]
fn no_set_has_a_higher_mark_than_all_points() {
    let mut random = Random(3);
    for n in [1, 2, 3] {
        let marks = (0..1 << (1 << n)).map(|bits| mark(n, &chosen(n, bits)));
        assert_eq!(marks.max(), Some(Some(n.div_ceil(2))), "n = {n}");
    }
    for (n, kind) in pairs(&[4, 5, 6, 7, 8, 9], &[1, 2, 3, 5, NO_POINT].repeat(5)) {
        let points = points_of(&random.set(n, kind));
        let found = mark(n, &points);
        assert!(found <= Some(n.div_ceil(2)), "n = {n}, points {points:?}");
        assert_eq!(found.is_some(), kind != NO_POINT, "n = {n}, points {points:?}");
    }
}

#[test]
fn on_a_single_point_the_mark_is_0() {
    for n in 1..=9 {
        (0..1 << n).for_each(|a| assert_eq!(mark(n, &[a]), Some(0), "n = {n}, point {a}"));
    }
}

#[test]
fn on_no_point_there_is_no_mark() {
    for n in 1..=9 {
        assert_eq!([mark_of_tables(n, &[]), mark_of_bases(n, &[])], [None; 2], "n = {n}");
    }
}

#[test]
fn on_weight_2_of_four_taps_the_mark_is_1() {
    let points = points_of(&of_weights(4, 1 << 2));
    assert_eq!((points.len(), ranking(&points, 4, 1).rank, mark(4, &points)), (6, 4, Some(1)));
}

#[test]
fn on_the_points_0_to_16_of_five_taps_no_table_reaches_the_mark() {
    let points: Vec<usize> = (0..=16).collect();
    assert_eq!([mark_of_tables(5, &points), mark_of_bases(5, &points)], [Some(2); 2]);
    for table in 0..1usize << 17 {
        let (one, zero): (Vec<usize>, Vec<usize>) = points.iter().partition(|a| table >> **a & 1 == 1);
        let lowest = [one, zero].iter().filter_map(|part| lowest_degree(5, &points, part)).min();
        let constant = table == 0 || table == (1 << 17) - 1;
        assert_eq!(lowest, Some(if constant { 0 } else { 1 }), "table {table:b}");
    }
}
