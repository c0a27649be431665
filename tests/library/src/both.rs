// Rank, Judge, Certify and Rearrange of the static library and of the independent implementation, compared: each is lent
// its own copy of the same buffers, full of random content where they are only filled, and both answer and leave the same.
use independent::filter::Filter;
use independent::judgement::{self, Judgement};
use independent::lent::lend;
use independent::random::Random;
use independent::rank::{self, Ranking};
use independent::rearrange;
use independent::report;
use std::fmt::{Arguments, Debug};
use std::hint::black_box;

type Rank = fn(&[u8], usize, usize, &mut [u64], &mut [u8]) -> Result<Ranking, u8>;
type Judge = fn(Filter, &mut [u64], &mut [u8], &mut [u8], &mut [u8], &mut [u32]) -> Result<Judgement, u8>;
type Certify = fn(Filter, u8, usize, &mut [u64], &mut [u64]) -> Result<(), u8>;
type Rearrange = fn(&mut [u8], &mut [u8], usize, &[u8]) -> Result<(), u8>;

// The lengths that are accepted. Rank: the workspace, the mask of the kept points. Judge: the workspace, the witness
// buffers of side 1 and side 0, the mask of the kept points, the report. Certify: the workspace, the certificate.
pub const RANK_LENGTHS: [usize; 2] = [8192, 512];
pub const JUDGE_LENGTHS: [usize; 5] = [8192, 512, 512, 512, 36];
pub const CERTIFY_LENGTHS: [usize; 2] = [8192, 4096];

// The buffers that an operation writes to: of numbers, the first of them the workspace, of bytes, and the report, which is
// empty where the operation has none.
#[derive(Clone)]
struct Buffers<const W: usize, const B: usize> {
    words: [Vec<u64>; W],
    bytes: [Vec<u8>; B],
    report: Vec<u32>,
}

impl<const W: usize, const B: usize> Buffers<W, B> {
    // Buffers of these lengths, full of random content.
    fn garbage(random: &mut Random, words: [usize; W], bytes: [usize; B], report: usize) -> Buffers<W, B> {
        let (words, bytes) = (words.map(|length| random.words(length)), bytes.map(|length| random.bytes(length)));
        Buffers { words, bytes, report: random.numbers(report) }
    }

    // Acceptance and 12 leave the workspace zero. A refusal leaves all else as it was at entry.
    fn check<A>(&self, entry: &Buffers<W, B>, answer: &Result<A, u8>, asked: Arguments) {
        let cleared = matches!(answer, Ok(_) | Err(12));
        assert!(!cleared || self.words[0].iter().all(|word| *word == 0), "numbers left in the workspace: {asked}");
        assert!(cleared || self.words[0] == entry.words[0], "a refusal wrote in the workspace: {asked}");
        let stay = self.words[1..] == entry.words[1..] && self.bytes == entry.bytes && self.report == entry.report;
        assert!(answer.is_ok() || stay, "a refusal wrote in a buffer: {asked}");
    }
}

// What both operations answer and leave.
fn agreed<F, A: PartialEq + Debug, const W: usize, const B: usize>(
    both: [F; 2],
    entry: Buffers<W, B>,
    asked: Arguments,
    call: impl Fn(F, &mut Buffers<W, B>) -> Result<A, u8>,
) -> (Result<A, u8>, Buffers<W, B>) {
    let [(proved, exit), (plain, plain_exit)] = both.map(|operation| {
        let mut lent = entry.clone();
        (call(operation, &mut lent), lent)
    });
    assert_eq!(proved, plain, "{asked}");
    assert_eq!(exit.report, plain_exit.report, "the report: {asked}");
    assert_eq!(exit.bytes, plain_exit.bytes, "the buffers of bytes: {asked}");
    assert!(exit.words == plain_exit.words, "the buffers of numbers: {asked}");
    exit.check(&entry, &proved, asked);
    (proved, exit)
}

// Rank, lent buffers of these lengths: the answer, and the mask of the kept points. The mask that is ranked is as it was.
pub fn rank(
    random: &mut Random,
    mask: &[u8],
    n: usize,
    d: usize,
    [workspace, kept]: [usize; 2],
) -> Result<(Ranking, Vec<u8>), u8> {
    let (both, entry) = ([crate::rank as Rank, rank::rank], Buffers::garbage(random, [workspace], [kept], 0));
    let asked = format_args!("Rank, n = {n}, d = {d}, mask {mask:?}");
    let (answer, exit) = agreed(both, entry, asked, |rank, Buffers { words: [workspace], bytes: [kept], .. }| {
        let lent = mask.to_vec();
        let answer = rank(black_box(&lent), n, d, workspace, kept);
        assert_eq!(black_box(&lent), mask, "the mask at exit");
        answer
    });
    let [kept] = exit.bytes;
    answer.map(|found| (found, kept))
}

// Judge, lent buffers of these lengths: the answer, and the mask of the kept points. There is a degree, a side, an own
// degree of a side and a mark exactly where the set has a point, and the degree is not over the mark. On no point the
// witness buffers and the mask are zero.
pub fn judge(
    random: &mut Random,
    filter: Filter,
    [workspace, one, zero, kept, report]: [usize; 5],
) -> Result<(Judgement, Vec<u8>), u8> {
    let both = [crate::judge as Judge, report::judge];
    let entry = Buffers::garbage(random, [workspace], [one, zero, kept], report);
    let (answer, exit) = agreed(both, entry, format_args!("Judge of {filter:?}"), |judge, lent| {
        let Buffers { words: [workspace], bytes: [one, zero, kept], report } = lent;
        lend(filter, |filter| judge(filter, workspace, one, zero, kept, report))
    });
    let (found, has_point) = (answer?, filter.set.contains(&1));
    let own_degree = found.own_degrees.into_iter().flatten().min();
    let there = [found.degree, found.side.map(usize::from), own_degree, found.mark].map(|number| number.is_some());
    assert_eq!(there, [has_point; 4], "degree, side, own degree, mark: Judge of {filter:?}");
    assert!(found.degree <= found.mark, "over the mark: Judge of {filter:?}");
    assert!(has_point || exit.bytes == [[0; 512]; 3], "a byte left on no point: Judge of {filter:?}");
    let [_, _, kept] = exit.bytes;
    Ok((found, kept))
}

// Certify, lent buffers of these lengths: the answer, and what stands in the certificate at exit.
pub fn certify(
    random: &mut Random,
    filter: Filter,
    side: u8,
    d: usize,
    lengths: [usize; 2],
) -> (Result<(), u8>, Vec<u64>) {
    let (both, entry) = ([crate::certify as Certify, judgement::certify], Buffers::garbage(random, lengths, [], 0));
    let asked = format_args!("Certify of {filter:?}, side {side}, d = {d}");
    let (answer, exit) = agreed(both, entry, asked, |certify, Buffers { words: [workspace, certificate], .. }| {
        lend(filter, |filter| certify(filter, side, d, workspace, certificate))
    });
    let [_, certificate] = exit.words;
    (answer, certificate)
}

// Rearrange of the set and the table: what they are at exit. The wiring is as it was, and so are both after a refusal.
pub fn rearrange(n: usize, masks: &[Vec<u8>; 2], wiring: &[u8]) -> Result<[Vec<u8>; 2], u8> {
    let (both, lent) = ([crate::rearrange as Rearrange, rearrange::rearrange], wiring.to_vec());
    let [(proved, exit), (plain, plain_exit)] = both.map(|rearrange| {
        let [mut set, mut table] = masks.clone();
        (rearrange(&mut set, &mut table, n, black_box(&lent)), [set, table])
    });
    let asked = format_args!("Rearrange of {masks:?}, n = {n}, wiring {wiring:?}");
    assert_eq!(black_box(&lent), wiring, "the wiring at exit: {asked}");
    assert_eq!(proved, plain, "{asked}");
    assert_eq!(exit, plain_exit, "the set and the table: {asked}");
    assert!(proved.is_ok() || exit == *masks, "a refusal wrote in the set or the table: {asked}");
    proved.map(|()| exit)
}
