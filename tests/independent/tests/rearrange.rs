// Rearrange of the independent implementation, against points written out by hand, the words, and what is known of
// wirings.
use independent::filter::Filter;
use independent::judgement::{Judgement, judge};
use independent::normal_form::{convert, weight};
use independent::random::Random;
use independent::rearrange::{inverse, is_wiring, new_point, rearrange, rearranged, tap};
use independent::samples::{NO_POINT, kinds, mask_of, masks, pairs};
use independent::wirings::{broken, identity, lists, wirings};

const TAPS: [usize; 9] = [1, 2, 3, 4, 5, 6, 7, 8, 9];

// A set and a table after Rearrange, which accepts them.
fn moved(n: usize, [set, table]: &[Vec<u8>; 2], wiring: &[u8]) -> [Vec<u8>; 2] {
    let (mut set, mut table) = (set.clone(), table.clone());
    assert_eq!(rearrange(&mut set, &mut table, n, wiring), Ok(()));
    [set, table]
}

// For each new point, rising, its old point is the listed one: where the set has this alone, and the table all others, they
// have the new point and all others.
fn check_old_points(wiring: &[u8], old: &[usize]) {
    let n = wiring.len();
    let masks = |point: usize| [mask_of(n, |a| a == point), mask_of(n, |a| a != point)];
    assert_eq!(old.len(), 1 << n);
    for (b, a) in old.iter().enumerate() {
        assert_eq!(moved(n, &masks(*a), wiring), masks(b), "the old point {a} becomes {b} by {wiring:?}");
    }
}

#[test]
fn the_old_points_of_one_and_two_taps() {
    check_old_points(&[1], &[0, 1]);
    check_old_points(&[1, 2], &[0, 1, 2, 3]);
    check_old_points(&[2, 1], &[0, 2, 1, 3]);
}

#[test]
fn the_old_points_of_three_taps() {
    check_old_points(&[2, 3, 1], &[0b000, 0b100, 0b001, 0b101, 0b010, 0b110, 0b011, 0b111]);
    check_old_points(&[3, 1, 2], &[0b000, 0b010, 0b100, 0b110, 0b001, 0b011, 0b101, 0b111]);
    check_old_points(&[3, 2, 1], &[0b000, 0b100, 0b010, 0b110, 0b001, 0b101, 0b011, 0b111]);
    check_old_points(&[2, 1, 3], &[0b000, 0b001, 0b100, 0b101, 0b010, 0b011, 0b110, 0b111]);
    check_old_points(&[1, 3, 2], &[0b000, 0b010, 0b001, 0b011, 0b100, 0b110, 0b101, 0b111]);
}

#[test]
fn the_old_points_of_four_taps_exchanged_in_twos() {
    check_old_points(&[2, 1, 4, 3], &[0, 2, 1, 3, 8, 10, 9, 11, 4, 6, 5, 7, 12, 14, 13, 15]);
    check_old_points(&[3, 4, 1, 2], &[0, 4, 8, 12, 1, 5, 9, 13, 2, 6, 10, 14, 3, 7, 11, 15]);
}

#[test]
fn each_tap_alone_of_nine() {
    let old = [16, 1, 256, 4, 64, 2, 128, 8, 32];
    let new = [256, 128, 64, 32, 16, 8, 4, 2, 1];
    assert_eq!(old.map(|a| new_point(9, &[5, 9, 1, 7, 3, 8, 2, 6, 4], a)), new);
}

// Wirings of every n: all of up to four taps, and some of more.
fn some_wirings(random: &mut Random) -> Vec<Vec<u8>> {
    let drawn: Vec<Vec<u8>> = [5, 6, 7, 8, 9].repeat(8).into_iter().map(|n| random.wiring(n)).collect();
    (1..=4).flat_map(wirings).chain(drawn).collect()
}

// By the words a new point b is the old point that has at the tap of entry i what b has at tap i: of all points there is
// one such.
#[test]
fn the_old_point_is_the_only_one_that_has_at_each_entry_what_the_new_one_has_at_its_place() {
    let mut random = Random(1);
    for wiring in some_wirings(&mut random) {
        let (n, mask) = (wiring.len(), random.mask(wiring.len(), 4));
        let new = rearranged(&mask, n, &wiring);
        let agree = |a: usize, b: usize| (1..=n).all(|i| tap(n, a, wiring[i - 1].into()) == tap(n, b, i));
        for (b, x) in new.iter().enumerate().take(1 << n) {
            let old: Vec<usize> = (0..1 << n).filter(|a| agree(*a, b)).collect();
            assert_eq!((old.len(), new_point(n, &wiring, old[0]), mask[old[0]]), (1, b, *x), "{wiring:?}");
        }
        assert!(new[1 << n..].iter().all(|x| *x == 0), "past the points of {n} taps");
    }
}

#[test]
fn the_table_of_the_old_tap_becomes_that_of_the_new_tap() {
    for wiring in some_wirings(&mut Random(2)) {
        let n = wiring.len();
        for (i, old) in (1..=n).zip(&wiring) {
            let [before, after] = [usize::from(*old), i].map(|i| mask_of(n, |a| tap(n, a, i)));
            assert_eq!(rearranged(&before, n, &wiring), after, "tap {i} by {wiring:?}");
        }
    }
}

// Exponents move as points do, and so coefficients as values.
#[test]
fn points_keep_their_weights_and_the_normal_form_of_a_table_moves_as_the_table_does() {
    let mut random = Random(3);
    for wiring in some_wirings(&mut random) {
        let (n, mut old) = (wiring.len(), random.mask(wiring.len(), 4));
        assert!((0..1 << n).all(|a| weight(new_point(n, &wiring, a)) == weight(a)), "{wiring:?}");
        let mut new = rearranged(&old, n, &wiring);
        assert_eq!([&mut old, &mut new].map(|table| convert(table, n)), [Ok(()); 2]);
        assert_eq!(rearranged(&old, n, &wiring), new, "the coefficients, {wiring:?}");
    }
}

#[test]
fn the_inverse_restores_all_bytes_and_the_identity_changes_none() {
    assert_eq!(inverse(&[2, 3, 1]), [3, 1, 2]);
    assert_eq!(inverse(&[5, 9, 1, 7, 3, 8, 2, 6, 4]), [3, 7, 5, 9, 1, 8, 4, 6, 2]);
    let mut random = Random(4);
    for wiring in some_wirings(&mut random) {
        let (n, back) = (wiring.len(), inverse(&wiring));
        let masks = [random.mask(n, 4), random.mask(n, 4)];
        assert!(is_wiring(n, &wiring) && is_wiring(n, &back) && inverse(&back) == wiring, "{wiring:?}");
        assert_eq!(moved(n, &moved(n, &masks, &wiring), &back), masks, "{wiring:?}, then back");
        assert_eq!(moved(n, &moved(n, &masks, &back), &wiring), masks, "back, then {wiring:?}");
        assert_eq!(moved(n, &masks, &identity(n)), masks, "n = {n}");
    }
}

#[test]
fn two_wirings_one_after_the_other_are_one() {
    let mut random = Random(5);
    for n in [1, 2, 3, 4] {
        let (all, masks) = (wirings(n), [random.mask(n, 4), random.mask(n, 4)]);
        for (first, second) in all.iter().flat_map(|first| all.iter().map(move |second| (first, second))) {
            let one: Vec<u8> = second.iter().map(|i| first[usize::from(*i) - 1]).collect();
            let both = moved(n, &moved(n, &masks, first), second);
            assert_eq!(both, moved(n, &masks, &one), "{first:?}, then {second:?}");
        }
    }
}

#[test]
fn of_all_lists_of_few_entries_those_that_name_each_tap_once_are_wirings() {
    for (n, count) in [(1, 1), (2, 2), (3, 6), (4, 24)] {
        let (all, lists) = (wirings(n), lists(n + 1, n as u8 + 1));
        assert!(lists.iter().all(|list| is_wiring(n, list) == all.contains(list)), "n = {n}");
        assert_eq!((all.len(), lists.iter().filter(|list| is_wiring(n, list)).count()), (count, count));
    }
}

// What Judge answers but for the additions.
fn judged(n: usize, [set, table]: &[Vec<u8>; 2]) -> Judgement {
    let [mut one, mut zero, mut kept] = [[0; 512]; 3];
    let judged = judge(Filter { n, set, table }, &mut [0; 8192], &mut one, &mut zero, &mut kept);
    Judgement { additions: 0, ..judged.expect("accepted") }
}

#[test]
fn ranks_mark_degree_side_and_own_degrees_stay_on_every_set_and_table_of_two_taps() {
    for set in &masks(2) {
        for masks in masks(2).into_iter().map(|table| [set.clone(), table]) {
            assert_eq!(judged(2, &moved(2, &masks, &[2, 1])), judged(2, &masks), "{masks:?}");
        }
    }
}

#[test]
fn ranks_mark_degree_side_and_own_degrees_stay_on_every_kind_of_filter() {
    let mut random = Random(6);
    for (n, (for_set, for_table)) in pairs(&[3, 3, 3, 4, 4, 5, 6, 7], &kinds()) {
        let (masks, wiring) = ([random.set(n, for_set), random.table(n, for_table)], random.wiring(n));
        assert_eq!(judged(n, &moved(n, &masks, &wiring)), judged(n, &masks), "{masks:?}, {wiring:?}");
    }
}

#[test]
fn no_point_stays_no_point() {
    let mut random = Random(7);
    for n in TAPS {
        let (masks, wiring) = ([random.set(n, NO_POINT), random.mask(n, 4)], random.wiring(n));
        assert_eq!(moved(n, &masks, &wiring), [masks[0].clone(), rearranged(&masks[1], n, &wiring)]);
    }
}

// The number of the refusal, or 0; a refusal leaves all bytes as they were.
fn number(set: &[u8], table: &[u8], n: usize, wiring: &[u8]) -> u8 {
    let (mut new_set, mut new_table) = (set.to_vec(), table.to_vec());
    let number = rearrange(&mut new_set, &mut new_table, n, wiring).err().unwrap_or(0);
    assert!(number == 0 || (&new_set[..], &new_table[..]) == (set, table), "refusal {number} wrote");
    number
}

#[test]
fn checks_come_in_order() {
    let (good, broken, none) = (vec![1; 512], vec![2; 512], vec![0; 512]);
    assert_eq!([511, 513].map(|length| number(&vec![2; length], &broken, 0, &[])), [1, 1]);
    assert_eq!([511, 513].map(|length| number(&broken, &vec![2; length], 0, &[])), [1, 1]);
    assert_eq!([0, 10, usize::MAX].map(|n| number(&broken, &broken, n, &[])), [4, 4, 4]);
    assert_eq!([(&broken, &none), (&none, &broken)].map(|(s, t)| number(s, t, 9, &[])), [8, 8]);
    assert_eq!([(&good, &none), (&none, &good)].map(|(s, t)| number(s, t, 8, &[])), [8, 8]);
    assert_eq!([8, 9, 10].map(|length| number(&good, &none, 9, &identity(length))), [14, 0, 14]);
}

#[test]
fn a_wiring_with_one_fault_is_refused_by_14() {
    let mut random = Random(8);
    for n in TAPS {
        let (set, table, wiring) = (random.mask(n, 4), random.mask(n, 4), random.wiring(n));
        assert_eq!(number(&set, &table, n, &wiring), 0);
        let lists = broken(&wiring);
        assert!(lists.iter().all(|list| number(&set, &table, n, list) == 14), "{wiring:?} with a fault");
        assert_eq!(lists.len(), 2 * n + 255 * n + 256 * n + 2 * 256);
    }
}
