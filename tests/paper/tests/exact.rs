// The figures that are exact, by the proved library and by the independent implementation: tables 2a and 3a, the row of
// [CMR17] at eight taps in table 4, and the upper bounds in table 5.
use independent::judgement::Judgement;
use independent::named::perfectly_balanced;
use independent::random::Random;
use independent::rearrange::new_point;
use independent::samples::mask_of;
use library::both::{JUDGE_LENGTHS, judge};
use paper::construction::construction;
use paper::figures::{BOUNDS, CONSTRUCTION, FOUR_TAPS};
use paper::slice::Slice;

// The degree of the table on the slice, at most the mark; both Judges answer alike.
fn degree(slice: &Slice, table: &[u8]) -> usize {
    let judged = judge(&mut Random(2), slice.filter(table), JUDGE_LENGTHS);
    let (Judgement { degree, mark, .. }, _) = judged.expect("accepted");
    assert_eq!(mark, Some(slice.mark()), "n = {}, weight {}: another mark with another table", slice.n, slice.k);
    degree.expect("a slice has a point")
}

// The degree that every balanced function has on each slice of four taps.
fn degrees_of_four_taps() -> Vec<usize> {
    let only = |slice: Slice| {
        let degrees: Vec<usize> = slice.balanced().map(|table| degree(&slice, &table)).collect();
        assert!(degrees.iter().all(|k| *k == degrees[0]), "weight {}: {degrees:?}", slice.k);
        degrees[0]
    };
    Slice::all(4).map(only).collect()
}

#[test]
fn there_are_720_functions_of_four_taps_that_are_balanced_on_every_slice() {
    assert_eq!(Slice::all(4).map(|slice| slice.balanced().count()).product::<usize>(), 720);
}

#[test]
fn on_four_taps_every_mean_is_that_of_table_3a() {
    let means: Vec<f64> = degrees_of_four_taps().into_iter().map(|degree| degree as f64).collect();
    assert_eq!(means, FOUR_TAPS.means);
}

#[test]
fn on_four_taps_every_share_is_that_of_table_2a_but_at_weight_2_where_that_is_over_the_mark() {
    let found = degrees_of_four_taps();
    let printed = |k: usize| FOUR_TAPS.shares(k).iter().position(|share| *share == 1.0);
    assert_eq!([0, 1, 3, 4].map(|k| Some(found[k])), [0, 1, 3, 4].map(printed));
    assert_eq!((found[2], Slice::new(4, 2).mark(), printed(2)), (1, 1, Some(2)));
}

#[test]
fn the_mark_is_the_upper_bound_of_table_5() {
    assert_eq!(BOUNDS.map(|(k, _)| (k, Slice::new(8, k).mark())), BOUNDS);
}

#[test]
fn the_construction_has_the_degrees_of_table_4() {
    let table = mask_of(8, construction);
    let degrees: Vec<usize> = Slice::all(8).map(|slice| degree(&slice, &table)).collect();
    assert_eq!(degrees, CONSTRUCTION);
}

#[test]
fn the_construction_is_balanced_on_every_slice() {
    for slice in Slice::all(8) {
        let ones = slice.points.iter().filter(|a| construction(**a)).count();
        assert_eq!(ones, slice.ones(), "weight {}", slice.k);
    }
}

#[test]
fn the_function_of_the_examples_is_the_construction_with_its_taps_in_another_order() {
    let wiring = [1, 5, 3, 7, 2, 6, 4, 8];
    assert!((0..256).all(|a| perfectly_balanced(a) == construction(new_point(8, &wiring, a))));
}

#[test]
fn both_judges_answer_alike_on_functions_drawn_on_slices_of_eight_taps() {
    let mut random = Random(1);
    for slice in Slice::all(8) {
        (0..16).for_each(|_| _ = degree(&slice, &slice.drawn(&mut random)));
    }
}
