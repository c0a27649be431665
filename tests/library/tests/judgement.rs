// Judge and Certify of the static library, compared with the independent implementation.
use independent::faults::{Asked, CERTIFICATE_FAULTS, Fault, lend_faults};
use independent::filter::Filter;
use independent::judgement::Judgement;
use independent::lent::{MARGIN, margins_stay, middle};
use independent::random::Random;
use independent::samples::{NO_POINT, TABLES, kinds, mask_of, pairs};
use library::both::{CERTIFY_LENGTHS, JUDGE_LENGTHS, certify, judge};

const SIDES: [u8; 2] = [1, 0];

// Certify, lent buffers of these lengths. Check says yes to what is written, and no to what 12 leaves, the random numbers.
fn lend_certify(random: &mut Random, filter: Filter, side: u8, d: usize, lengths: [usize; 2]) -> Result<(), u8> {
    let (answer, certificate) = certify(random, filter, side, d, lengths);
    let checkable = matches!(answer, Ok(()) | Err(12));
    let checked = checkable.then(|| library::check(filter, side, d, &certificate));
    let wanted = checkable.then_some(Ok(answer.is_ok()));
    assert_eq!(checked, wanted, "Check after Certify of {filter:?}, side {side}, d = {d}");
    answer
}

// Judge of the filter, and Certify at every side and degree, which refuses exactly where the ranks of Judge differ.
fn compare(random: &mut Random, n: usize, set: &[u8], table: &[u8]) -> Judgement {
    let filter = Filter { n, set, table };
    let (judgement, _) = judge(random, filter, JUDGE_LENGTHS).expect("accepted");
    for (d, side) in (0..=n).flat_map(|d| SIDES.map(|side| (d, side))) {
        let ranks = judgement.ranks[d];
        let equal = ranks[0] == ranks[2 - usize::from(side)];
        let answer = lend_certify(random, filter, side, d, CERTIFY_LENGTHS);
        assert_eq!(answer, if equal { Ok(()) } else { Err(12) }, "Certify of {filter:?}, side {side}, d = {d}");
    }
    judgement
}

// Every table of n taps with each of the sets, which are numbers: bit a for the point a.
fn compare_sets(seed: u64, n: usize, sets: impl Iterator<Item = usize>) {
    let mut random = Random(seed);
    let mask = |bits: usize| mask_of(n, |a| bits >> a & 1 == 1);
    for (set, table) in sets.flat_map(|set| (0..1 << (1 << n)).map(move |table| (set, table))) {
        compare(&mut random, n, &mask(set), &mask(table));
    }
}

#[test]
fn every_set_and_table_of_one_and_two_taps() {
    compare_sets(1, 1, 0..4);
    compare_sets(2, 2, 0..16);
}

#[test]
fn every_set_of_three_taps_without_the_point_7_and_every_table() {
    compare_sets(3, 3, 0..128);
}

#[test]
fn every_set_of_three_taps_with_the_point_7_and_every_table() {
    compare_sets(4, 3, 128..256);
}

// So many filters of n taps for each kind of set and each kind of table; on all points, which are the first kind, the
// mark is half of the taps, rounded up.
fn compare_kinds(seed: u64, n: usize, count: usize) {
    let mut random = Random(seed);
    for (for_set, for_table) in kinds() {
        for _ in 0..count {
            let (set, table) = (random.set(n, for_set), random.table(n, for_table));
            let judgement = compare(&mut random, n, &set, &table);
            assert!(judgement.mark == Some(n.div_ceil(2)) || for_set != 0, "the mark of all points, n = {n}");
        }
    }
}

#[test]
fn every_kind_of_filter_of_four_to_six_taps() {
    compare_kinds(5, 4, 50);
    compare_kinds(6, 5, 30);
    compare_kinds(7, 6, 20);
}

#[test]
fn every_kind_of_filter_of_seven_and_eight_taps() {
    compare_kinds(8, 7, 10);
    compare_kinds(9, 8, 5);
}

#[test]
fn every_kind_of_filter_of_nine_taps() {
    compare_kinds(10, 9, 2);
}

#[test]
fn starred_case_7() {
    let [set, table] = [&[0, 3, 5, 6, 9, 10, 12, 15][..], &[6, 10, 12, 15]].map(|s| mask_of(4, |a| s.contains(&a)));
    let judgement = compare(&mut Random(11), 4, &set, &table);
    assert_eq!((judgement.ranks[1], judgement.degree), ([4, 4, 4], Some(2)));
}

// What Judge answers on no point.
const NOTHING: Judgement =
    Judgement { ranks: [[0; 3]; 10], degree: None, side: None, additions: 0, own_degrees: [None; 2], mark: None };

#[test]
fn on_no_point_of_every_n_judge_answers_none_and_certify_writes_zeros_with_every_kind_of_table() {
    let mut random = Random(16);
    for (n, kind) in pairs(&[1, 2, 3, 4, 5, 6, 7, 8, 9], &TABLES.repeat(3)) {
        let (set, table) = (random.set(n, NO_POINT), random.table(n, kind));
        let filter = Filter { n, set: &set, table: &table };
        assert_eq!(compare(&mut random, n, &set, &table), NOTHING, "Judge of {filter:?}");
        for (d, side) in (0..=n).flat_map(|d| SIDES.map(|side| (d, side))) {
            let (answer, certificate) = certify(&mut random, filter, side, d, CERTIFY_LENGTHS);
            assert!(answer.is_ok() && certificate == [0; 4096], "Certify of {filter:?}, side {side}, d = {d}");
        }
    }
}

#[test]
fn filters_of_every_n_whose_own_degrees_are_known() {
    let mut random = Random(15);
    for known in (1..=9).flat_map(|n| random.known(n)).collect::<Vec<_>>() {
        let (judgement, _) = judge(&mut random, known.filter(), JUDGE_LENGTHS).expect("accepted");
        assert_eq!(judgement.own_degrees, known.own_degrees, "Judge of {:?}", known.filter());
    }
}

// What both check besides a filter: the length of the workspace.
const WORKSPACE_FAULTS: [Fault<Asked>; 3] =
    [|call| call.own.workspace = 8191, |call| call.own.workspace = 8193, |call| call.own.workspace = 0];

// What Judge alone checks: the lengths of the witness buffers, of the mask of the kept points and of the report.
const JUDGE_FAULTS: [Fault<Asked>; 13] = [
    |call| call.own.witnesses[0] = 511,
    |call| call.own.witnesses[0] = 513,
    |call| call.own.witnesses[1] = 511,
    |call| call.own.witnesses[1] = 513,
    |call| call.own.witnesses = [0, 1024],
    |call| call.own.kept = 511,
    |call| call.own.kept = 513,
    |call| call.own.kept = 0,
    |call| call.own.kept = 1,
    |call| call.own.kept = 1024,
    |call| call.own.report = 35,
    |call| call.own.report = 37,
    |call| call.own.report = 0,
];

#[test]
fn every_refusal_of_judge_and_every_pair_of_them_in_order() {
    let faults = [&WORKSPACE_FAULTS[..], &JUDGE_FAULTS].concat();
    let numbers = lend_faults(12, Asked::good, &faults, |random, call| {
        let ([one, zero], own) = (call.own.witnesses, &call.own);
        judge(random, call.filter(), [own.workspace, one, zero, own.kept, own.report]).map(|_| ())
    });
    assert_eq!(numbers, [0, 1, 4, 8]);
}

#[test]
fn a_report_of_any_other_length_is_refused_by_1() {
    let (mut random, set, table) = (Random(17), mask_of(2, |_| true), mask_of(2, |a| a == 3));
    for (n, length) in pairs(&[2, 10], &(0..=73).collect::<Vec<usize>>()) {
        let lengths = [8192, 512, 512, 512, length];
        let number = judge(&mut random, Filter { n, set: &set, table: &table }, lengths).err();
        let wanted = if length == 36 { (n == 10).then_some(4) } else { Some(1) };
        assert_eq!(number, wanted, "n = {n}, a report of {length} numbers");
    }
}

#[test]
fn every_refusal_of_certify_and_every_pair_of_them_in_order() {
    let faults = [&WORKSPACE_FAULTS[..], &CERTIFICATE_FAULTS].concat();
    let numbers = lend_faults(13, Asked::good, &faults, |random, call| {
        let (own, filter) = (&call.own, call.filter());
        lend_certify(random, filter, own.side, own.d, [own.workspace, own.certificate])
    });
    assert_eq!(numbers, [0, 1, 4, 8, 10, 11, 12]);
}

#[test]
fn nothing_outside_the_lent_buffers_is_written() {
    let mut random = Random(14);
    for (n, (kind, length)) in pairs(&[1, 2, 3, 4, 5, 6, 7, 8, 9], &pairs(&[0, NO_POINT], &[35, 36, 37])) {
        let (set, table) = (random.set(n, kind), random.table(n, 0));
        let filter = Filter { n, set: &set, table: &table };
        let words = [8192, 4096].map(|length| random.words(MARGIN + length + MARGIN));
        let bytes = [512; 3].map(|length| random.bytes(MARGIN + length + MARGIN));
        let numbers = random.numbers(MARGIN + length + MARGIN);
        let ([mut workspace, mut certificate], mut exit, mut report) = (words.clone(), bytes.clone(), numbers.clone());
        let [one, zero, kept] = exit.each_mut().map(|buffer| middle(buffer));
        let judged = library::judge(filter, middle(&mut workspace), one, zero, kept, middle(&mut report));
        assert!(judged.is_ok() == (length == 36) && margins_stay(&words[0], &workspace));
        assert!(bytes.iter().zip(&exit).all(|(entry, exit)| margins_stay(entry, exit)));
        assert!(margins_stay(&numbers, &report));
        let certified = library::certify(filter, 1, 0, middle(&mut workspace), middle(&mut certificate));
        assert!(certified.is_ok() && margins_stay(&words[0], &workspace) && margins_stay(&words[1], &certificate));
    }
}
