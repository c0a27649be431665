// The weight of each of the 512 exponents of nine taps, as the columns of the static library show it, compared with the
// independent implementation; what Degree answers for each exponent alone is compared in normal_form.rs. Each exponent u
// has a filter: its set has the points whose ones are ones of u, and f is 1 at all of them but at u. Of these points u
// lies within the point u alone, and every other exponent within an even number. So at degree d the row of the point u is
// the sum of the others if u is no column, and no sum of others if it is one; and it is one exactly if its weight is at
// most d. Check finds this by the weight of u. Rank, Judge and Certify find it by the place of u in the order and by the
// number of columns, which the weights of all exponents make.
use independent::certificate::turn;
use independent::check::check;
use independent::filter::Filter;
use independent::normal_form::weight;
use independent::random::Random;
use independent::rank::points_of;
use independent::samples::mask_of;
use library::both::{CERTIFY_LENGTHS, JUDGE_LENGTHS, RANK_LENGTHS, certify, judge, rank};

const N: usize = 9;

// The set and the table of the filter of u.
fn masks(u: usize) -> [Vec<u8>; 2] {
    let set = mask_of(N, |a| a & !u == 0);
    let table = mask_of(N, |a| a & !u == 0 && a != u);
    [set, table]
}

// Every exponent with the masks of its filter.
fn filters() -> impl Iterator<Item = (usize, [Vec<u8>; 2])> {
    (0..1 << N).map(|u| (u, masks(u)))
}

#[test]
fn rank_has_a_column_for_each_exponent_from_its_weight_on() {
    let mut random = Random(1);
    for (u, masks) in filters() {
        for d in 0..=N {
            let ranked = masks.each_ref().map(|mask| rank(&mut random, mask, N, d, RANK_LENGTHS).expect("accepted"));
            let [(all, kept), (others, _)] = ranked;
            assert_eq!(all.rank - others.rank, usize::from(weight(u) <= d), "the exponent {u}, d = {d}");
            assert_eq!(usize::from(kept[u]), all.rank - others.rank, "the point {u}, d = {d}");
        }
    }
}

#[test]
fn judge_gives_it_as_the_degree_of_side_1() {
    let mut random = Random(2);
    for (u, [set, table]) in filters() {
        let filter = Filter { n: N, set: &set, table: &table };
        let (found, _) = judge(&mut random, filter, JUDGE_LENGTHS).expect("accepted");
        assert_eq!(found.own_degrees[0], Some(weight(u)), "the exponent {u}");
    }
}

#[test]
fn certify_accepts_below_it_and_refuses_by_12_from_it_on() {
    let mut random = Random(3);
    for (u, [set, table]) in filters() {
        for d in 0..=N {
            let filter = Filter { n: N, set: &set, table: &table };
            let (answer, _) = certify(&mut random, filter, 1, d, CERTIFY_LENGTHS);
            assert_eq!(answer, if d < weight(u) { Ok(()) } else { Err(12) }, "the exponent {u}, d = {d}");
        }
    }
}

#[test]
fn check_says_yes_below_it_and_no_from_it_on() {
    type Check = fn(Filter, u8, usize, &[u64]) -> Result<bool, u8>;
    for (u, [set, table]) in filters() {
        let mut certificate = vec![0; 4096];
        points_of(&table).into_iter().for_each(|a| turn(&mut certificate, u, a));
        for d in 0..=N {
            let filter = Filter { n: N, set: &set, table: &table };
            let both = [library::check as Check, check].map(|check| check(filter, 1, d, &certificate));
            assert_eq!(both, [Ok(d < weight(u)); 2], "the exponent {u}, d = {d}");
        }
    }
}
