// The refusals of docs/SPECIFICATION.md, 'Refusals', and the checks that several operations make.

pub const POINTS: usize = 512;
pub const WORKSPACE: usize = 8192;
pub const CERTIFICATE: usize = 4096;
pub const REPORT: usize = 36;

// Why an operation refuses, each with its number.
#[derive(Clone, Copy, Debug, PartialEq, Eq)]
pub enum Refusal {
    Length = 1,
    FileEnds = 2,
    NumberForm = 3,
    Taps = 4,
    Range = 5,
    Surplus = 7,
    Bytes = 8,
    ZeroPolynomial = 9,
    Degree = 10,
    Side = 11,
    RanksDiffer = 12,
    ShortOutput = 13,
    Wiring = 14,
}

impl From<Refusal> for u8 {
    // Its number.
    fn from(refusal: Refusal) -> u8 {
        refusal as u8
    }
}

// The refusal, unless the condition holds.
pub fn require(condition: bool, refusal: Refusal) -> Result<(), Refusal> {
    if condition { Ok(()) } else { Err(refusal) }
}

// Refusal 1 unless each length is the one wanted beside it.
pub fn lengths(pairs: &[(usize, usize)]) -> Result<(), Refusal> {
    require(pairs.iter().all(|(found, wanted)| found == wanted), Refusal::Length)
}

// Refusal 4 unless n is from 1 to 9.
pub fn taps(n: usize) -> Result<(), Refusal> {
    require((1..=9).contains(&n), Refusal::Taps)
}

// Refusal 8 unless the bytes of points of n taps are 0 or 1, and the others 0.
pub fn bytes(mask: &[u8], n: usize) -> Result<(), Refusal> {
    let (below, from) = mask.split_at(1 << n);
    let good = below.iter().all(|x| *x <= 1) && from.iter().all(|x| *x == 0);
    require(good, Refusal::Bytes)
}
