// Rearrange of the static library, compared with the independent implementation: wirings of every n, lists that are no
// wirings, and every refusal.
use independent::faults::{Fault, lend_faults, put};
use independent::lent::{around, margins_stay, middle};
use independent::random::Random;
use independent::rank::points_of;
use independent::rearrange::inverse;
use independent::samples::{NO_POINT, TABLES, Tally, kinds, mask_of, masks, pairs};
use independent::wirings::{broken, identity, lists, wirings};
use library::both::rearrange;
use std::collections::BTreeSet;

const TAPS: [usize; 9] = [1, 2, 3, 4, 5, 6, 7, 8, 9];
const LENGTHS: [usize; 6] = [0, 1, 511, 512, 513, 1024];

// Rearrange of the set and the table by the wiring, which accepts: each has as many points as before. The inverse restores
// all bytes of both, also where it comes first, and the identity changes none.
fn compare(n: usize, masks: &[Vec<u8>; 2], wiring: &[u8]) -> [Vec<u8>; 2] {
    let moved = |masks: &[Vec<u8>; 2], wiring: &[u8]| rearrange(n, masks, wiring).expect("accepted");
    let (new, back) = (moved(masks, wiring), inverse(wiring));
    let counts = |masks: &[Vec<u8>; 2]| masks.each_ref().map(|mask| points_of(mask).len());
    assert_eq!(counts(&new), counts(masks), "the numbers of points: {masks:?}, {wiring:?}");
    assert_eq!(moved(&new, &back), *masks, "restored: {wiring:?}, then {back:?}");
    assert_eq!(moved(&moved(masks, &back), wiring), *masks, "restored: {back:?}, then {wiring:?}");
    assert_eq!(moved(masks, &identity(n)), *masks, "the identity, n = {n}");
    new
}

#[test]
fn every_set_and_table_of_up_to_three_taps_by_every_wiring() {
    for n in [1, 2, 3] {
        let (masks, wirings) = (masks(n), wirings(n));
        for filter in masks.iter().flat_map(|set| masks.iter().map(|table| [set.clone(), table.clone()])) {
            assert!(wirings.iter().all(|wiring| rearrange(n, &filter, wiring).is_ok()), "n = {n}, {filter:?}");
        }
    }
}

// Filters of each kind of set and each kind of table, so many of each, by each of the wirings.
fn compare_kinds(seed: u64, wirings: &[Vec<u8>], count: usize) {
    let mut random = Random(seed);
    for (wiring, (for_set, for_table)) in pairs(&wirings.iter().collect::<Vec<_>>(), &kinds().repeat(count)) {
        let n = wiring.len();
        compare(n, &[random.set(n, for_set), random.table(n, for_table)], wiring);
    }
}

#[test]
fn every_kind_of_filter_of_up_to_four_taps_by_every_wiring() {
    [1, 2, 3, 4].into_iter().for_each(|n| compare_kinds(n as u64, &wirings(n), 10));
}

#[test]
fn every_kind_of_filter_of_five_to_nine_taps_by_wirings_drawn_at_random() {
    let mut random = Random(5);
    let drawn: Vec<Vec<u8>> = [5, 6, 7, 8, 9].repeat(40).into_iter().map(|n| random.wiring(n)).collect();
    compare_kinds(6, &drawn, 1);
}

#[test]
fn filters_drawn_at_random_by_every_wiring_of_five_to_seven_taps() {
    let mut random = Random(7);
    for wiring in [5, 6, 7].into_iter().flat_map(wirings) {
        let n = wiring.len();
        compare(n, &[random.mask(n, 4), random.mask(n, 4)], &wiring);
    }
}

#[test]
fn the_single_points_of_every_n_become_all_single_points() {
    let mut random = Random(8);
    for n in TAPS {
        let single = |point: usize| [mask_of(n, |a| a == point), mask_of(n, |a| a != point)];
        let (wiring, old): (_, BTreeSet<[Vec<u8>; 2]>) = (random.wiring(n), (0..1 << n).map(single).collect());
        let new: BTreeSet<[Vec<u8>; 2]> = old.iter().map(|masks| compare(n, masks, &wiring)).collect();
        assert!(new == old, "{wiring:?}");
    }
}

#[test]
fn no_point_of_every_n_stays_no_point_as_the_set_and_as_the_table() {
    let mut random = Random(9);
    for (n, kind) in pairs(&TAPS, &TABLES.repeat(10)) {
        let (none, table, wiring) = (random.set(n, NO_POINT), random.table(n, kind), random.wiring(n));
        let [set, moved] = compare(n, &[none.clone(), table.clone()], &wiring);
        assert_eq!(set, none, "n = {n}, table {table:?}");
        assert_eq!(compare(n, &[table, none.clone()], &wiring), [moved, none], "the table and the set exchanged");
    }
}

#[test]
fn a_wiring_of_every_n_with_one_fault_is_refused_by_14() {
    let mut random = Random(10);
    for (n, kind) in pairs(&TAPS, &[0, 4, 5, NO_POINT]) {
        let (masks, wiring) = ([random.set(n, kind), random.table(n, kind)], random.wiring(n));
        for list in broken(&wiring).iter().chain(&broken(&identity(n))) {
            assert_eq!(rearrange(n, &masks, list), Err(14), "n = {n}, {list:?}");
        }
    }
}

// The filter by each of the lists: those that are wirings of n taps are accepted, and all others refused by 14.
fn compare_lists(n: usize, masks: &[Vec<u8>; 2], lists: &[Vec<u8>]) {
    let wirings = wirings(n);
    for list in lists {
        let number = rearrange(n, masks, list).err();
        assert_eq!(number, (!wirings.contains(list)).then_some(14), "n = {n}, {list:?}");
    }
}

#[test]
fn every_list_of_up_to_one_entry_more_with_every_set_and_table_of_one_and_two_taps() {
    for n in [1, 2] {
        let (masks, lists) = (masks(n), lists(n + 1, n as u8 + 1));
        for set in &masks {
            masks.iter().for_each(|table| compare_lists(n, &[set.clone(), table.clone()], &lists));
        }
    }
}

#[test]
fn every_list_of_up_to_one_entry_more_with_every_kind_of_filter_of_three_and_four_taps() {
    let mut random = Random(11);
    for n in [3, 4] {
        let lists = lists(n + 1, n as u8 + 1);
        for (for_set, for_table) in kinds() {
            compare_lists(n, &[random.set(n, for_set), random.table(n, for_table)], &lists);
        }
    }
}

#[test]
fn a_wiring_with_more_behind_it_is_refused_whatever_its_length() {
    let mut random = Random(12);
    for (n, more) in pairs(&TAPS, &[1, 2, 247, 255, 256, 512, 4096, 65_536]) {
        let (masks, wiring) = ([random.mask(n, 4), random.mask(n, 4)], random.wiring(n));
        for behind in [vec![0; more], random.bytes(more), wiring.iter().copied().cycle().take(more).collect()] {
            assert_eq!(rearrange(n, &masks, &[&wiring[..], &behind].concat()), Err(14), "n = {n}, {more} more");
        }
    }
}

#[test]
fn random_lists_in_the_place_of_a_wiring() {
    let (mut random, mut tally) = (Random(13), Tally::default());
    for n in TAPS.repeat(2000) {
        let (length, most) = (random.pick(&[n, n, n, n - 1, n + 1]), random.pick(&[n + 1, n + 2, 256]));
        let list: Vec<u8> = (0..length).map(|_| random.below(most) as u8).collect();
        tally.count(rearrange(n, &[random.mask(n, 4), random.mask(n, 4)], &list));
    }
    assert_eq!(tally.numbers(100), [0, 14]);
}

// What Rearrange alone checks: the wiring. It becomes empty, shorter, longer, and one of a tap more; an entry becomes 0, the
// first number past the taps, and 255. Ones alone are wrong from two taps on, and the reverse of a wiring never is.
const WIRING_FAULTS: [Fault<Vec<u8>>; 9] = [
    |call| call.own.clear(),
    |call| call.own.truncate(call.own.len().saturating_sub(1)),
    |call| call.own.push(1),
    |call| call.own.push(call.own.len() as u8 + 1),
    |call| put(&mut call.own, 0, 0),
    |call| put(&mut call.own, 0, call.n.wrapping_add(1) as u8),
    |call| put(&mut call.own, 0, 255),
    |call| call.own.fill(1),
    |call| call.own.reverse(),
];

#[test]
fn every_refusal_and_every_pair_of_them_in_order() {
    let numbers = lend_faults(14, Random::wiring, &WIRING_FAULTS, |_, call| {
        rearrange(call.n, &[call.set.clone(), call.table.clone()], &call.own).map(|_| ())
    });
    assert_eq!(numbers, [0, 1, 4, 8, 14]);
}

#[test]
fn masks_of_every_length_with_a_wrong_byte_at_each_kind_of_place() {
    let (mut random, mut tally) = (Random(15), Tally::default());
    let taps = [&[0, 10, 11, 64, usize::MAX], &TAPS[..]].concat();
    for (n, (set_length, table_length)) in pairs(&taps, &pairs(&LENGTHS, &LENGTHS)) {
        let (sets, tables) = (random.lent_masks(n, set_length), random.lent_masks(n, table_length));
        for (set, table) in pairs(&sets.iter().collect::<Vec<_>>(), &tables.iter().collect::<Vec<_>>()) {
            for wiring in [random.wiring(n.min(9)), vec![]] {
                tally.count(rearrange(n, &[set.clone(), table.clone()], &wiring));
            }
        }
    }
    assert_eq!(tally.numbers(1), [0, 1, 4, 8, 14]);
}

#[test]
fn random_bytes_of_random_lengths() {
    let (mut random, mut tally) = (Random(16), Tally::default());
    for _ in 0..20_000 {
        let lengths = [(); 2].map(|_| random.pick(&[0, 2, 510, 511, 512, 512, 512, 512, 513, 4096]));
        let (n, length) = (random.pick(&[0, 1, 2, 3, 4, 5, 6, 7, 8, 9, 10, 64, usize::MAX]), random.below(12));
        let (masks, list) = (lengths.map(|length| random.bytes(length)), random.bytes(length));
        tally.count(rearrange(n, &masks, &list));
    }
    assert_eq!(tally.numbers(100), [1, 4, 8]);
}

#[test]
fn nothing_outside_the_lent_set_and_table_is_written() {
    let mut random = Random(17);
    for (n, (set_length, table_length)) in pairs(&TAPS, &pairs(&LENGTHS, &LENGTHS)) {
        for list in [random.wiring(n), identity(n - 1)] {
            let [mut set, mut table] = [random.mask(n, 4), random.mask(n, 4)];
            set.resize(set_length, 0);
            table.resize(table_length, 0);
            let entry = [&set, &table, &list].map(|bytes| around(&mut random, bytes));
            let mut exit = entry.clone();
            let [set, table, wiring] = exit.each_mut().map(|buffer| middle(buffer));
            let accepted = library::rearrange(set, table, n, wiring).is_ok();
            assert_eq!(accepted, (set_length, table_length, list.len()) == (512, 512, n), "n = {n}, {list:?}");
            assert!(entry.iter().zip(&exit).all(|(entry, exit)| margins_stay(entry, exit)), "n = {n}, {list:?}");
            assert_eq!(entry[2], exit[2], "the wiring and what stands beside it");
        }
    }
}
