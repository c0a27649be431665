// The kept points that Rank and Judge of the static library mark, and that Certify names, against what kept points are.
use independent::certificate::named;
use independent::filter::Filter;
use independent::kept::kept_of_sums;
use independent::lent::{MARGIN, margins_stay, middle};
use independent::normal_form::weight;
use independent::random::Random;
use independent::rank::{Ranking, points_of};
use independent::samples::{NO_POINT, TABLES, kinds, mask_of, masks, pairs};
use library::both::{JUDGE_LENGTHS, RANK_LENGTHS, judge, rank};

// What Rank answers, and the mask of the kept points, which held other bytes.
fn ranked(mask: &[u8], n: usize, d: usize) -> (Ranking, Vec<u8>) {
    let mut kept = vec![0xa5; 512];
    (library::rank(mask, n, d, &mut [0; 8192], &mut kept).expect("accepted"), kept)
}

// Whether each point of the first mask is one of the second.
fn within(first: &[u8], second: &[u8]) -> bool {
    first.iter().zip(second).all(|(x, y)| x <= y)
}

// The kept points of the mask at degree d are points of the mask, as many as the rank. Ranked again they have that rank,
// and all of them are kept; and each of them is kept of the mask at every higher degree.
fn check_again(random: &mut Random, mask: &[u8], n: usize, d: usize) -> Vec<u8> {
    let (found, kept) = rank(random, mask, n, d, RANK_LENGTHS).expect("accepted");
    assert!(within(&kept, mask), "kept outside the mask: n = {n}, d = {d}, mask {mask:?}");
    assert_eq!(points_of(&kept).len(), found.rank, "n = {n}, d = {d}, mask {mask:?}");
    let (again, same) = rank(random, &kept, n, d, RANK_LENGTHS).expect("accepted");
    assert_eq!((again.rank, &same), (found.rank, &kept), "ranked again: n = {n}, d = {d}, mask {mask:?}");
    assert!((d..=n).all(|d| within(&kept, &ranked(mask, n, d).1)), "kept no longer: n = {n}, mask {mask:?}");
    kept
}

#[test]
fn ranked_again_every_mask_of_up_to_three_taps_keeps_its_kept_points() {
    let mut random = Random(1);
    for n in [1, 2, 3] {
        for mask in masks(n) {
            (0..=n).for_each(|d| _ = check_again(&mut random, &mask, n, d));
        }
    }
}

#[test]
fn ranked_again_masks_of_four_to_nine_taps_keep_their_kept_points() {
    let mut random = Random(2);
    for (n, kind) in pairs(&[4, 5, 6, 7, 8, 9], &[0, 1, 2, 3, 4, 5, 5, 5, 5, 5, NO_POINT]) {
        let mask = random.set(n, kind);
        (0..=n).for_each(|d| _ = check_again(&mut random, &mask, n, d));
    }
}

#[test]
fn exactly_the_points_whose_rows_are_no_sums_of_rows_of_smaller_ones_are_kept_of_up_to_four_taps() {
    let mut random = Random(3);
    let drawn = (0..60).map(|i| (4, random.mask(4, 1 + i % 6)));
    let all = [1, 2, 3].into_iter().flat_map(|n| masks(n).into_iter().map(move |mask| (n, mask)));
    for (n, mask) in all.chain(drawn) {
        let points = points_of(&mask);
        for d in 0..=n {
            let (found, kept) = ranked(&mask, n, d);
            let wanted = kept_of_sums(&points, d);
            assert_eq!(kept, mask_of(n, |a| wanted.contains(&a)), "n = {n}, d = {d}, points {points:?}");
            assert_eq!(found.rank, wanted.len(), "n = {n}, d = {d}, points {points:?}");
        }
    }
}

#[test]
fn at_degree_0_the_smallest_point_is_kept_and_at_n_every_point() {
    let mut random = Random(4);
    for (n, kind) in pairs(&[1, 2, 3, 4, 5, 6, 7, 8, 9], &[0, 1, 2, 3, 4, 5]) {
        let mask = random.set(n, kind);
        let smallest = points_of(&mask)[0];
        assert_eq!(ranked(&mask, n, 0).1, mask_of(n, |a| a == smallest), "n = {n}, mask {mask:?}");
        assert_eq!(ranked(&mask, n, n).1, mask, "n = {n}");
        assert_eq!(ranked(&mask_of(n, |_| false), n, kind.min(n)).1, [0; 512], "n = {n}, no point");
    }
}

#[test]
fn of_all_points_those_of_weight_up_to_the_degree_are_kept() {
    for (n, d) in (1..=9).flat_map(|n| (0..=n).map(move |d| (n, d))) {
        let light = mask_of(n, |a| weight(a) <= d);
        assert_eq!(ranked(&mask_of(n, |_| true), n, d).1, light, "n = {n}, d = {d}");
    }
}

// The degree that Judge reports, the witnesses of side 1 and side 0, and the mask of the kept points; every byte of each
// was this one.
fn judged(filter: Filter, byte: u8) -> (Option<usize>, [Vec<u8>; 3]) {
    let mut masks = [(); 3].map(|_| vec![byte; 512]);
    let [one, zero, kept] = &mut masks;
    let found = library::judge(filter, &mut [0; 8192], one, zero, kept, &mut [0; 36]).expect("accepted");
    (found.degree, masks)
}

// Judge marks what Rank marks of the set at the reported degree, and no point where there is none.
fn check_judge(filter: Filter) {
    let (degree, [_, _, kept]) = judged(filter, 0x5a);
    let wanted = degree.map_or(vec![0; 512], |k| ranked(filter.set, filter.n, k).1);
    assert_eq!(kept, wanted, "Judge of {filter:?}");
}

// Does the same with every set and every table of n taps.
fn for_each_of_few_taps(n: usize, check: impl Fn(Filter)) {
    let masks = masks(n);
    masks.iter().for_each(|set| masks.iter().for_each(|table| check(Filter { n, set, table })));
}

// Does the same with filters of each n and every kind of set and table, so many of each.
fn for_each_drawn(seed: u64, taps: &[usize], count: usize, check: impl Fn(Filter)) {
    let mut random = Random(seed);
    for (n, (for_set, for_table)) in pairs(taps, &kinds().repeat(count)) {
        let (set, table) = (random.set(n, for_set), random.table(n, for_table));
        check(Filter { n, set: &set, table: &table });
    }
}

#[test]
fn judge_marks_what_rank_marks_of_every_set_with_every_table_of_up_to_three_taps() {
    [1, 2, 3].into_iter().for_each(|n| for_each_of_few_taps(n, check_judge));
}

#[test]
fn judge_marks_what_rank_marks_of_every_kind_of_filter_of_four_to_nine_taps() {
    for_each_drawn(5, &[4, 5, 6, 7, 8, 9], 10, check_judge);
}

#[test]
fn the_masks_are_filled_whatever_they_held() {
    let mut random = Random(6);
    for (n, byte) in pairs(&[1, 2, 3, 4, 5, 6, 7, 8, 9], &(0..=255).collect::<Vec<u8>>()) {
        let (set, table, d) = (random.set(n, 5), random.table(n, 4), random.below(n + 1));
        let (filter, mut kept) = (Filter { n, set: &set, table: &table }, vec![byte; 512]);
        library::rank(&set, n, d, &mut [0; 8192], &mut kept).expect("accepted");
        assert_eq!(kept, ranked(&set, n, d).1, "Rank of {set:?}, n = {n}, d = {d}, over {byte}");
        assert_eq!(judged(filter, byte), judged(filter, 0), "Judge of {filter:?}, over {byte}");
        let no_point = Filter { n, set: &random.set(n, NO_POINT), table: &table };
        assert_eq!(judged(no_point, byte), (None, [(); 3].map(|_| vec![0; 512])), "Judge of {no_point:?}, over {byte}");
    }
}

#[test]
fn the_kept_points_of_the_printed_filter_are_three_and_have_other_ranks_of_parts() {
    let (mut random, set, table) = (Random(7), mask_of(2, |_| true), mask_of(2, |a| a == 3));
    let (found, kept) = judge(&mut random, Filter { n: 2, set: &set, table: &table }, JUDGE_LENGTHS).expect("accepted");
    assert_eq!((found.degree, points_of(&kept)), (Some(1), vec![0, 1, 2]));
    let (alone, first) =
        judge(&mut random, Filter { n: 2, set: &kept, table: &table }, JUDGE_LENGTHS).expect("accepted");
    assert_eq!((found.ranks[1], alone.ranks[1]), ([3, 1, 3], [3, 0, 3]));
    assert_eq!((alone.degree, points_of(&first)), (Some(0), vec![0]));
}

// What Certify answers, and what stands in the certificate, which held other numbers.
fn certified(filter: Filter, side: u8, d: usize) -> (Result<(), u8>, Vec<u64>) {
    let mut certificate = vec![u64::MAX; 4096];
    (library::certify(filter, side, d, &mut [0; 8192], &mut certificate), certificate)
}

// Certify of the side at degree d refuses by 12 exactly where Rank finds another rank of the part than of the set. Else it
// names no point that Rank does not mark of the part, and it writes the same where the set has of the part these alone.
fn check_side(filter: Filter, side: u8, d: usize) {
    let Filter { n, set, table } = filter;
    let part = mask_of(n, |a| set[a] == 1 && table[a] == side);
    let [(of_set, _), (of_part, kept)] = [set, &part].map(|mask| ranked(mask, n, d));
    let (answer, certificate) = certified(filter, side, d);
    let wanted = if of_set.rank == of_part.rank { Ok(()) } else { Err(12) };
    assert_eq!(answer, wanted, "Certify of {filter:?}, side {side}, d = {d}");
    let of_kept = (0..512).all(|a| named(&certificate, a).all(|q| kept[q] == 1));
    assert!(of_kept || answer.is_err(), "not of kept points alone: Certify of {filter:?}, side {side}, d = {d}");
    let fewer = mask_of(n, |a| set[a] == 1 && (part[a] == 0 || kept[a] == 1));
    let alone = certified(Filter { set: &fewer, ..filter }, side, d);
    assert!(alone == (answer, certificate), "Certify of {filter:?} with the kept points alone, side {side}, d = {d}");
}

// The same of each side at each degree.
fn check_certify(filter: Filter) {
    (0..=filter.n).for_each(|d| [1, 0].into_iter().for_each(|side| check_side(filter, side, d)));
}

#[test]
fn certify_names_kept_points_on_every_set_with_every_table_of_one_and_two_taps() {
    [1, 2].into_iter().for_each(|n| for_each_of_few_taps(n, check_certify));
}

#[test]
fn certify_names_kept_points_on_every_set_of_three_taps_with_every_kind_of_table() {
    let mut random = Random(8);
    for (set, kind) in masks(3).iter().flat_map(|set| TABLES.map(|kind| (set, kind))) {
        check_certify(Filter { n: 3, set, table: &random.table(3, kind) });
    }
}

#[test]
fn certify_names_kept_points_on_every_kind_of_filter_of_four_to_nine_taps() {
    for_each_drawn(9, &[4, 5, 6, 7, 8, 9], 3, check_certify);
}

#[test]
fn rank_writes_nothing_outside_its_buffers() {
    let mut random = Random(10);
    for (n, d, kind) in (1..=9).flat_map(|n| (0..=n).flat_map(move |d| [0, NO_POINT].map(|kind| (n, d, kind)))) {
        let (words, bytes) = (random.words(MARGIN + 8192 + MARGIN), random.bytes(MARGIN + 512 + MARGIN));
        let (mask, mut workspace, mut kept) = (random.set(n, kind), words.clone(), bytes.clone());
        let answer = library::rank(&mask, n, d, middle(&mut workspace), middle(&mut kept));
        assert!(answer.is_ok() && margins_stay(&words, &workspace) && margins_stay(&bytes, &kept), "n = {n}, d = {d}");
    }
}
