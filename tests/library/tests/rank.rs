// Rank of the static library, compared with the independent implementation.
use independent::random::Random;
use independent::rank::{Ranking, columns};
use independent::samples::{Tally, mask_of, pairs};
use library::both::{RANK_LENGTHS, rank};

// The mask with buffers of the right lengths: accepted, the additions within the bound, and as many kept points of the
// mask as the rank.
fn accept(random: &mut Random, mask: &[u8], n: usize, d: usize) -> Ranking {
    let (found, kept) = rank(random, mask, n, d, RANK_LENGTHS).expect("accepted");
    let [m, r] = [mask, &kept].map(|mask| mask.iter().filter(|x| **x == 1).count());
    assert!(found.additions as usize <= m * r - r * (r + 1) / 2, "n = {n}, d = {d}, mask {mask:?}");
    assert_eq!(found.rank, r, "the number of kept points, n = {n}, d = {d}, mask {mask:?}");
    found
}

#[test]
fn every_mask_of_up_to_three_taps_at_every_degree() {
    let mut random = Random(1);
    for n in 1..=3 {
        for choice in 0..1usize << (1 << n) {
            let mask = mask_of(n, |a| choice >> a & 1 == 1);
            (0..=n).for_each(|d| assert!(accept(&mut random, &mask, n, d).rank <= 1 << n));
        }
    }
}

#[test]
fn random_masks_of_four_to_six_taps_at_every_degree() {
    let mut random = Random(2);
    for n in 4..=6 {
        for i in 0..1000 {
            let mask = random.mask(n, i % 9);
            (0..=n).for_each(|d| assert!(accept(&mut random, &mask, n, d).rank <= 1 << n));
        }
    }
}

#[test]
fn random_masks_of_seven_to_nine_taps() {
    let mut random = Random(3);
    for (n, count) in [(7, 3000), (8, 1500), (9, 1000)] {
        for i in 0..count {
            let mask = random.mask(n, 1 + i % 8);
            accept(&mut random, &mask, n, i % (n + 1));
        }
    }
}

#[test]
fn the_whole_cube_has_the_rank_of_its_columns() {
    let mut random = Random(4);
    for n in 1..=9 {
        for d in 0..=n {
            assert_eq!(accept(&mut random, &mask_of(n, |_| true), n, d).rank, columns(n, d).len());
        }
    }
}

#[test]
fn no_point_single_points_and_single_weights() {
    let mut random = Random(5);
    for (n, d) in (1..=9).flat_map(|n| [(n, 0), (n, 1), (n, n / 2), (n, n)]) {
        assert_eq!(accept(&mut random, &mask_of(n, |_| false), n, d), Ranking { rank: 0, additions: 0 });
        for p in (0..1 << n).step_by(1 << (n / 2)).chain([(1 << n) - 1]) {
            assert_eq!(accept(&mut random, &mask_of(n, |a| a == p), n, d), Ranking { rank: 1, additions: 0 });
        }
        for w in 0..=n {
            accept(&mut random, &mask_of(n, |a| a.count_ones() as usize == w), n, d);
        }
    }
}

#[test]
fn every_refusal_and_every_pair_of_them_in_order() {
    let (mut random, mut tally) = (Random(6), Tally::default());
    for (n, length) in pairs(&[0, 1, 2, 4, 7, 8, 9, 10, 64, usize::MAX], &[0, 1, 511, 512, 513, 1024]) {
        for mask in random.lent_masks(n, length) {
            let degrees = [0, 1, n, n.wrapping_add(1), 10, 64, usize::MAX];
            let lengths = pairs(&[0, 1, 8191, 8192, 8193], &[0, 1, 511, 512, 513, 1024]);
            for (d, (workspace, kept)) in pairs(&degrees, &lengths) {
                tally.count(rank(&mut random, &mask, n, d, [workspace, kept]));
            }
        }
    }
    assert_eq!(tally.numbers(1), [0, 1, 4, 8, 10]);
}
