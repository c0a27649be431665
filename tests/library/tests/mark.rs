// The mark that Judge of the static library answers, compared with the independent implementation: on every union of
// weights, on sets whose marks are known, and with every table on two sets.
use independent::filter::Filter;
use independent::judgement::Judgement;
use independent::random::Random;
use independent::rank::points_of;
use independent::samples::{TABLES, of_weights, pairs};
use library::both::{JUDGE_LENGTHS, judge};
use std::ops::Range;

// What both Judges answer; there is a mark exactly if the set has a point, and the reported degree is not over it.
fn compare(n: usize, set: &[u8], table: &[u8]) -> Judgement {
    let (found, _) = judge(&mut Random(7), Filter { n, set, table }, JUDGE_LENGTHS).expect("accepted");
    found
}

#[test]
fn every_union_of_weights_of_up_to_seven_taps_with_every_kind_of_table() {
    let mut random = Random(1);
    for n in 1..=7 {
        let unions: Vec<usize> = (0..1 << (n + 1)).collect();
        for (weights, kind) in pairs(&unions, &TABLES) {
            compare(n, &of_weights(n, weights), &random.table(n, kind));
        }
    }
}

// The unions of weights of n taps, bit w for the weight w, each with a table of one kind; the kinds take turns.
fn compare_unions(seed: u64, n: usize, unions: Range<usize>) {
    let mut random = Random(seed);
    for weights in unions {
        compare(n, &of_weights(n, weights), &random.table(n, weights));
    }
}

#[test]
fn every_union_of_weights_of_eight_taps() {
    compare_unions(2, 8, 0..512);
}

#[test]
fn every_union_of_weights_of_nine_taps_without_the_weight_9() {
    compare_unions(3, 9, 0..512);
}

#[test]
fn every_union_of_weights_of_nine_taps_with_the_weight_9() {
    compare_unions(4, 9, 512..1024);
}

#[test]
fn sets_of_every_n_whose_marks_are_known_with_every_kind_of_table() {
    let mut random = Random(5);
    for (n, kind) in pairs(&[1, 2, 3, 4, 5, 6, 7, 8, 9], &TABLES) {
        for known in random.known_marks(n) {
            let found = compare(n, &known.set, &random.table(n, kind));
            assert_eq!(found.mark, known.mark, "n = {n}, points {:?}", points_of(&known.set));
        }
    }
}

// Every table on the points of n taps: Judge of the static library answers this mark, and the degree 1 unless the table
// is constant there. One table in so many is compared.
fn check_tables(n: usize, points: &[usize], mark: usize, step: usize) {
    let mut set = vec![0; 512];
    points.iter().for_each(|a| set[*a] = 1);
    for bits in 0..1usize << points.len() {
        let mut table = vec![0; 512];
        points.iter().enumerate().for_each(|(i, a)| table[*a] = (bits >> i & 1) as u8);
        let filter = Filter { n, set: &set, table: &table };
        let [mut one, mut zero, mut kept] = [[0; 512]; 3];
        let judged = library::judge(filter, &mut [0; 8192], &mut one, &mut zero, &mut kept, &mut [0; 36]);
        let found = judged.expect("accepted");
        let constant = bits == 0 || bits + 1 == 1 << points.len();
        let wanted = [mark, usize::from(!constant)].map(Some);
        assert_eq!([found.mark, found.degree], wanted, "Judge of {filter:?}");
        assert!(bits % step != 0 || found == compare(n, &set, &table), "Judge of {filter:?}");
    }
}

#[test]
fn on_weight_2_of_four_taps_the_mark_is_1_and_every_table_that_is_not_constant_reaches_it() {
    let set = of_weights(4, 1 << 2);
    let found = compare(4, &set, &Random(6).table(4, 4));
    assert_eq!((points_of(&set).len(), found.ranks[1][0], found.mark), (6, 4, Some(1)));
    check_tables(4, &points_of(&set), 1, 1);
}

#[test]
fn on_the_points_0_to_16_of_five_taps_the_mark_is_2_and_no_table_reaches_it() {
    check_tables(5, &(0..=16).collect::<Vec<usize>>(), 2, 16);
}
