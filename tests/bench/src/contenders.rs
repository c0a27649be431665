// The contenders of each operation, in this order: proved, in Rust, in C, and M4RI for the ranks of Judge.
use crate::certificates::Certificate;
use crate::judge::part_mask;
use crate::timing::Contender;
use crate::{c, certify, check, elimination, judge, largest_weight, m4ri, rearrange};
use independent::filter::Filter;
use independent::judgement::Judgement;
use independent::rank::Ranking;
use std::hint::black_box;
use std::time::Duration;

pub type Rank = fn(&[u8], usize, usize, &mut [u64], &mut [u8]) -> Ranking;
pub type Judge = fn(Filter, &mut [u64], &mut [u8], &mut [u8], &mut [u8]) -> Judgement;
pub type Certify = fn(Filter, u8, usize, &mut [u64], &mut [u64]) -> Result<(), u8>;
pub type Check = fn(Filter, u8, usize, &[u64]) -> bool;
pub type LargestWeight = fn(&[u8]) -> u32;
pub type Rearrange = fn(&mut [u8], &mut [u8], usize, &[u8]);
pub type RankSum = fn([&[u8; 512]; 3], usize) -> (usize, [Duration; 2]);

// What Rank answers and leaves in the mask of the kept points, what Judge answers and leaves in the witness buffers and in
// that mask, what Certify answers and leaves in the certificate, and what Rearrange leaves as the set and the table.
pub type Ranked = (Ranking, [u8; 512]);
pub type Judged = (Judgement, [[u8; 512]; 3]);
pub type Certified = (Result<(), u8>, Vec<u64>);
pub type Rearranged = [Vec<u8>; 2];

// What every byte of a lent mask is at entry.
pub const UNWRITTEN: u8 = 0xa5;

// Rank of the mask's points of nine taps at degree d.
pub fn ranks(mask: &[u8], d: usize) -> Vec<Contender<'_, Ranked>> {
    let proved: Rank = |mask, n, d, workspace, kept| library::rank(mask, n, d, workspace, kept).expect("accepted");
    let boxed = |rank: Rank| -> Contender<Ranked> {
        Box::new(move |workspace| {
            let mut kept = [UNWRITTEN; 512];
            (rank(mask, 9, d, workspace, &mut kept), kept)
        })
    };
    [Some(proved), Some(elimination::rank), c::RANK].into_iter().flatten().map(boxed).collect()
}

// Judge of the filter by one of the contenders.
fn judged(judge: Judge, filter: Filter, workspace: &mut [u64]) -> Judged {
    let mut masks = [[UNWRITTEN; 512]; 3];
    let [one, zero, kept] = &mut masks;
    (judge(filter, workspace, one, zero, kept), masks)
}

// The masks of the set, of part 1 and of part 0.
fn masks(filter: Filter) -> [[u8; 512]; 3] {
    [filter.set.try_into().expect("512 bytes"), part_mask(filter, 1), part_mask(filter, 0)]
}

// The ranks of Judge by M4RI: the answer wanted, once the sum of the ranks is right.
fn ranked(rank_sum: RankSum, filter: Filter<'_>) -> Contender<'_, Judged> {
    let wanted = judged(judge::judge, filter, &mut [0; 8192]);
    let masks = masks(filter);
    let sum: usize = wanted.0.ranks.as_flattened().iter().sum();
    Box::new(move |_| {
        assert_eq!(rank_sum(masks.each_ref(), filter.n).0, sum, "the ranks by M4RI");
        wanted.clone()
    })
}

// The least microseconds of M4RI over so many calls, to build the matrices and to echelonize them.
pub fn m4ri_steps(runs: usize, filter: Filter) -> Option<[f64; 2]> {
    let (rank_sum, masks) = (m4ri::RANK_SUM?, masks(filter));
    let times = (0..runs).map(|_| rank_sum(masks.each_ref(), filter.n).1);
    let least = times.reduce(|[build, echelonize], [b, e]| [build.min(b), echelonize.min(e)])?;
    Some(least.map(|time| time.as_secs_f64() * 1e6))
}

// Judge of the filter.
pub fn judges(filter: Filter<'_>) -> Vec<Contender<'_, Judged>> {
    let proved: Judge = |filter, workspace, one, zero, kept| {
        library::judge(filter, workspace, one, zero, kept, &mut [0; 36]).expect("accepted")
    };
    let boxed = |judge: Judge| -> Contender<Judged> { Box::new(move |workspace| judged(judge, filter, workspace)) };
    let same_steps = [Some(proved), Some(judge::judge), c::JUDGE].into_iter().flatten().map(boxed);
    same_steps.chain(m4ri::RANK_SUM.map(|rank_sum| ranked(rank_sum, filter))).collect()
}

// Certify of the filter's side at degree d.
pub fn certifies(filter: Filter<'_>, side: u8, d: usize) -> Vec<Contender<'_, Certified>> {
    let boxed = |certify: Certify| -> Contender<Certified> {
        Box::new(move |workspace| {
            let mut certificate = vec![0; 4096];
            (certify(filter, side, d, workspace, &mut certificate), certificate)
        })
    };
    [Some(library::certify as Certify), Some(certify::certify), c::CERTIFY].into_iter().flatten().map(boxed).collect()
}

// Check of the certificate, last by the independent implementation.
pub fn checks<'a>(certificate: &'a Certificate) -> Vec<Contender<'a, bool>> {
    let Certificate { filter, side, d, numbers } = certificate;
    let proved: Check = |filter, side, d, numbers| library::check(filter, side, d, numbers).expect("accepted");
    let plain: Check =
        |filter, side, d, numbers| independent::check::check(filter, side, d, numbers).expect("accepted");
    let boxed = |check: Check| -> Contender<bool> { Box::new(move |_| check(*filter, *side, *d, numbers)) };
    [Some(proved), Some(check::check), c::CHECK, Some(plain)].into_iter().flatten().map(boxed).collect()
}

// The same of a certificate that gets a yes, and in the second place the proved Certify of its side and degree, which
// accepts.
pub fn checks_and_certify<'a>(certificate: &'a Certificate) -> Vec<Contender<'a, bool>> {
    let Certificate { filter, side, d, .. } = certificate;
    let mut contenders = checks(certificate);
    let certify = |workspace: &mut [u64]| library::certify(*filter, *side, *d, workspace, &mut vec![0; 4096]).is_ok();
    contenders.insert(1, Box::new(certify));
    contenders
}

// So many calls of Degree of nine taps, and as many of the largest weight in Rust and in C: by the steps of the proved
// weight, and by the compiler's count.
pub fn weights(coefficients: &[u8], calls: usize) -> Vec<Contender<'_, u32>> {
    let proved: LargestWeight = |coefficients| library::degree(coefficients, 9).expect("accepted");
    let steps = [Some(proved), Some(largest_weight::by_steps), c::LARGEST_WEIGHT];
    let counts = [Some(largest_weight::by_count as LargestWeight), c::LARGEST_COUNT];
    let boxed = |largest: LargestWeight| -> Contender<u32> {
        Box::new(move |_| (0..calls).map(|_| largest(black_box(coefficients))).fold(0, u32::max))
    };
    steps.into_iter().chain(counts).flatten().map(boxed).collect()
}

// A copy of the set and of the table.
fn copies(filter: Filter) -> Rearranged {
    [filter.set.to_vec(), filter.table.to_vec()]
}

// So many calls of Rearrange of the filter, each on what the one before left, last by the independent implementation.
pub fn rearranges<'a>(filter: Filter<'a>, wiring: &'a [u8], calls: usize) -> Vec<Contender<'a, Rearranged>> {
    let proved: Rearrange = |set, table, n, wiring| library::rearrange(set, table, n, wiring).expect("accepted");
    let plain: Rearrange =
        |set, table, n, wiring| independent::rearrange::rearrange(set, table, n, wiring).expect("accepted");
    let boxed = |rearrange: Rearrange| -> Contender<Rearranged> {
        Box::new(move |_| {
            let [mut set, mut table] = copies(filter);
            (0..calls).for_each(|_| rearrange(&mut set, &mut table, filter.n, black_box(wiring)));
            [set, table]
        })
    };
    [Some(proved), Some(rearrange::rearrange), c::REARRANGE, Some(plain)].into_iter().flatten().map(boxed).collect()
}

// The same, and in the second place as many calls of the proved Convert of both, which an even number of them restores.
pub fn rearranges_and_convert<'a>(
    filter: Filter<'a>,
    wiring: &'a [u8],
    calls: usize,
) -> Vec<Contender<'a, Rearranged>> {
    let mut contenders = rearranges(filter, wiring, calls);
    let wanted = contenders[0](&mut []);
    let convert = move |_: &mut [u64]| {
        let mut tables = copies(filter);
        for _ in 0..calls {
            tables.iter_mut().for_each(|table| library::convert(table, filter.n).expect("accepted"));
        }
        assert_eq!(tables, copies(filter), "Convert an even number of times");
        wanted.clone()
    };
    contenders.insert(1, Box::new(convert));
    contenders
}
