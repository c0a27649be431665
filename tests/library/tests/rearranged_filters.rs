// What Judge, Rank, Convert and Degree of the static library answer of a filter before Rearrange and after: what stays, and
// what may change.
use independent::filter::Filter;
use independent::random::Random;
use independent::rank::points_of;
use independent::rearrange::rearranged;
use independent::samples::{SETS, TABLES, kinds, mask_of, masks, pairs};
use independent::wirings::wirings;
use library::ADDITIONS_AT;
use library::both::{JUDGE_LENGTHS, judge, rearrange};

// What Judge writes: the additions, the report with 0 in their stead, the witnesses of side 1 and side 0, and the mask of
// the kept points.
#[derive(Clone, Debug, PartialEq)]
struct Judged {
    additions: u32,
    report: Vec<u32>,
    witnesses: [Vec<u8>; 2],
    kept: Vec<u8>,
}

impl Judged {
    // What it writes of the set and the table.
    fn of(n: usize, [set, table]: &[Vec<u8>; 2]) -> Judged {
        let ([mut one, mut zero, mut kept], mut report) = ([(); 3].map(|_| vec![0; 512]), vec![0; 36]);
        let filter = Filter { n, set, table };
        library::judge(filter, &mut [0; 8192], &mut one, &mut zero, &mut kept, &mut report).expect("accepted");
        let additions = std::mem::take(&mut report[ADDITIONS_AT]);
        Judged { additions, report, witnesses: [one, zero], kept }
    }
}

// The report of the rearranged filter is that of the filter, but for the additions: the ranks of the set and of both parts
// at each degree, the degree, the side, each side's own degree, and the mark. As many points are kept.
fn check_judge(n: usize, masks: &[Vec<u8>; 2], wiring: &[u8]) {
    let moved = rearrange(n, masks, wiring).expect("accepted");
    let [before, after] = [masks, &moved].map(|masks| Judged::of(n, masks));
    assert_eq!(before.report, after.report, "Judge of {masks:?}, n = {n}, by {wiring:?}");
    let counts = [before, after].map(|judged| points_of(&judged.kept).len());
    assert_eq!(counts[0], counts[1], "the kept points of {masks:?}, n = {n}, by {wiring:?}");
}

#[test]
fn reports_stay_on_every_set_and_table_of_one_and_two_taps_by_every_wiring() {
    for wiring in [1, 2].into_iter().flat_map(wirings) {
        let n = wiring.len();
        for set in &masks(n) {
            masks(n).into_iter().for_each(|table| check_judge(n, &[set.clone(), table], &wiring));
        }
    }
}

#[test]
fn reports_stay_on_every_set_of_three_taps_with_every_kind_of_table_by_every_wiring() {
    let mut random = Random(1);
    for (set, kind) in masks(3).into_iter().flat_map(|set| TABLES.map(|kind| (set.clone(), kind))) {
        let masks = [set, random.table(3, kind)];
        wirings(3).iter().for_each(|wiring| check_judge(3, &masks, wiring));
    }
}

#[test]
fn reports_stay_on_every_kind_of_filter_of_four_taps_by_every_wiring() {
    let mut random = Random(2);
    for (for_set, for_table) in kinds().repeat(4) {
        let masks = [random.set(4, for_set), random.table(4, for_table)];
        wirings(4).iter().for_each(|wiring| check_judge(4, &masks, wiring));
    }
}

#[test]
fn reports_stay_on_every_kind_of_filter_of_five_to_nine_taps_by_wirings_drawn_at_random() {
    let mut random = Random(3);
    for (n, (for_set, for_table)) in pairs(&[5, 6, 7, 8, 9], &kinds().repeat(10)) {
        let (masks, wiring) = ([random.set(n, for_set), random.table(n, for_table)], random.wiring(n));
        check_judge(n, &masks, &wiring);
    }
}

// Rank of the mask, rearranged as the set and as the table, finds at each degree the rank of the mask.
fn check_rank(n: usize, mask: &[u8], wiring: &[u8]) {
    let moved = rearrange(n, &[mask.to_vec(), mask.to_vec()], wiring).expect("accepted");
    let rank = |mask: &[u8], d: usize| library::rank(mask, n, d, &mut [0; 8192], &mut [0; 512]).expect("accepted").rank;
    for d in 0..=n {
        let after = moved.each_ref().map(|moved| rank(moved, d));
        assert_eq!(after, [rank(mask, d); 2], "Rank of {mask:?}, n = {n}, d = {d}, by {wiring:?}");
    }
}

#[test]
fn ranks_stay_at_every_degree_on_every_mask_of_up_to_three_taps_by_every_wiring() {
    for n in [1, 2, 3] {
        for mask in &masks(n) {
            wirings(n).iter().for_each(|wiring| check_rank(n, mask, wiring));
        }
    }
}

#[test]
fn ranks_stay_at_every_degree_on_every_kind_of_mask_of_four_to_nine_taps() {
    let mut random = Random(4);
    for (n, kind) in pairs(&[4, 5, 6, 7, 8, 9], &SETS.repeat(10)) {
        let (mask, wiring) = (random.set(n, kind), random.wiring(n));
        check_rank(n, &mask, &wiring);
    }
}

// Exponents move as points do, and so coefficients as values.
#[test]
fn convert_of_the_rearranged_table_is_its_normal_form_rearranged_and_has_its_degree() {
    let mut random = Random(5);
    for (n, kind) in pairs(&[1, 2, 3, 4, 5, 6, 7, 8, 9], &TABLES.repeat(20)) {
        let (table, wiring) = (random.table(n, kind), random.wiring(n));
        let mut coefficients = table.clone();
        library::convert(&mut coefficients, n).expect("accepted");
        let degree = library::degree(&coefficients, n);
        let [mut moved, of_moved] = rearrange(n, &[table, coefficients], &wiring).expect("accepted");
        library::convert(&mut moved, n).expect("accepted");
        assert_eq!((&moved, library::degree(&moved, n)), (&of_moved, degree), "n = {n}, {wiring:?}");
    }
}

// What Judge writes of the filter of three taps, the same with its masks rearranged, and what it writes of the rearranged
// filter; the independent Judge writes so too.
fn before_moved_after(points: [&[usize]; 2], wiring: &[u8]) -> [Judged; 3] {
    let masks = points.map(|points| mask_of(3, |a| points.contains(&a)));
    let [before, after] = [masks.clone(), rearrange(3, &masks, wiring).expect("accepted")].map(|masks| {
        let [set, table] = &masks;
        judge(&mut Random(6), Filter { n: 3, set, table }, JUDGE_LENGTHS).expect("accepted");
        Judged::of(3, &masks)
    });
    let witnesses = before.witnesses.each_ref().map(|witness| rearranged(witness, 3, wiring));
    let moved = Judged { witnesses, kept: rearranged(&before.kept, 3, wiring), ..before.clone() };
    [before, moved, after]
}

#[test]
fn the_additions_may_change_alone() {
    let [before, moved, after] = before_moved_after([&[0, 1, 2, 3, 4], &[0]], &[2, 1, 3]);
    assert_eq!([&before, &moved, &after].map(|judged| judged.additions), [40, 40, 37]);
    let changed = [before, moved].map(|judged| Judged { additions: after.additions, ..judged });
    assert_eq!(changed, [after.clone(), after]);
}

#[test]
fn the_kept_points_may_change_alone() {
    let [before, moved, after] = before_moved_after([&[0, 2, 3, 4, 5], &[2]], &[3, 2, 1]);
    let kept = [&before, &moved, &after].map(|judged| points_of(&judged.kept));
    assert_eq!(kept, [[0, 2, 3, 4], [0, 1, 2, 6], [0, 1, 2, 5]]);
    let changed = [before, moved].map(|judged| Judged { kept: after.kept.clone(), ..judged });
    assert_eq!(changed, [after.clone(), after]);
}

// The witness of side 1 is x2, which becomes x1; that of the rearranged filter is 1 + x3 + x2.
#[test]
fn the_witness_may_change_alone() {
    let [before, moved, after] = before_moved_after([&[1, 2, 4], &[1, 4]], &[2, 1, 3]);
    let witnesses = [&before, &moved, &after].map(|judged| points_of(&judged.witnesses[0]));
    assert_eq!(witnesses, [vec![2], vec![4], vec![0, 1, 2]]);
    let changed = [before, moved].map(|judged| {
        let [_, zero] = judged.witnesses;
        Judged { witnesses: [after.witnesses[0].clone(), zero], ..judged }
    });
    assert_eq!(changed, [after.clone(), after]);
}
