// The lowest degree of an annihilator, found in two ways: among all polynomials, and among those of bases. There is none
// exactly where the part is all of the set, which may have no point.
use independent::annihilator::{lowest_of_all, lowest_of_bases};
use independent::random::Random;

// Both ways find the same for a set and a part of it, which are numbers: bit a for the point a.
fn compare(n: usize, set: usize, part: usize) {
    let [set, part] = [set, part].map(|bits| (0..1 << n).filter(|a| bits >> a & 1 == 1).collect::<Vec<usize>>());
    let found = lowest_of_all(n, &set, &part);
    assert_eq!(found, lowest_of_bases(n, &set, &part), "n = {n}, set {set:?}, part {part:?}");
    assert_eq!(found.is_none(), part == set, "n = {n}, set {set:?}, part {part:?}");
}

#[test]
fn both_ways_agree_on_every_part_of_every_set_of_up_to_three_taps() {
    for n in [1, 2, 3] {
        for set in 0..1 << (1 << n) {
            (0..=set).filter(|part| part & !set == 0).for_each(|part| compare(n, set, part));
        }
    }
}

#[test]
fn both_ways_agree_on_no_point_and_on_parts_of_sets_of_four_taps_drawn_at_random() {
    let mut random = Random(1);
    compare(4, 0, 0);
    for _ in 0..100 {
        let (set, table) = (random.below(1 << 16), random.below(1 << 16));
        compare(4, set, set & table);
    }
}
