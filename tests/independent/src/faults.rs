// Calls of operations over a set and a table, made wrong at the boundaries of the checks, for tests.
use crate::filter::Filter;
use crate::random::Random;
use crate::samples::{Tally, pairs};

// What an operation is asked and lent: a filter, and what it alone asks for.
pub struct Call<Own> {
    pub n: usize,
    pub set: Vec<u8>,
    pub table: Vec<u8>,
    pub own: Own,
}

impl<Own> Call<Own> {
    // A call of n taps that is accepted: the points 0 and 1 are in different parts.
    fn good(random: &mut Random, n: usize, own: fn(&mut Random, usize) -> Own) -> Call<Own> {
        let (mut set, mut table) = (random.mask(n, 4), random.mask(n, 4));
        set[..2].fill(1);
        table[..2].copy_from_slice(&[0, 1]);
        Call { n, set, table, own: own(random, n) }
    }

    // The filter that is lent.
    pub fn filter(&self) -> Filter<'_> {
        Filter { n: self.n, set: &self.set, table: &self.table }
    }
}

// A change to a call, which makes it wrong.
pub type Fault<Own> = fn(&mut Call<Own>);

// The byte at the place becomes the value, if there is such a place.
pub fn put(bytes: &mut [u8], place: usize, value: u8) {
    bytes.iter_mut().skip(place).take(1).for_each(|byte| *byte = value);
}

// What every operation over a filter checks: lengths, n, and the bytes of the set and of the table. The first changes
// nothing. A 1 in the last byte is wrong below nine taps only, and a table of zeros is wrong for Certify of side 1 only. A
// set of zeros is never wrong: it has no point, and then a table of zeros is not wrong either, nor any degree up to n.
fn filter_faults<Own>() -> [Fault<Own>; 22] {
    [
        |_| (),
        |call| call.set.truncate(511),
        |call| call.set.push(0),
        |call| call.set.clear(),
        |call| call.table.truncate(511),
        |call| call.table.push(0),
        |call| call.table.clear(),
        |call| call.n = 0,
        |call| call.n = 10,
        |call| call.n = 64,
        |call| call.n = usize::MAX,
        |call| call.n = call.n.saturating_sub(1),
        |call| put(&mut call.set, 0, 255),
        |call| put(&mut call.set, (1 << call.n.min(9)) - 1, 2),
        |call| put(&mut call.set, 1 << call.n.min(9), 1),
        |call| put(&mut call.set, 511, 1),
        |call| put(&mut call.table, 0, 255),
        |call| put(&mut call.table, (1 << call.n.min(9)) - 1, 2),
        |call| put(&mut call.table, 1 << call.n.min(9), 1),
        |call| put(&mut call.table, 511, 1),
        |call| call.set.fill(0),
        |call| call.table.fill(0),
    ]
}

// A call of every n with every two of the faults of a filter and of its own, one after the other; the numbers answered.
pub fn lend_faults<Own>(
    seed: u64,
    own: fn(&mut Random, usize) -> Own,
    own_faults: &[Fault<Own>],
    operation: impl Fn(&mut Random, &Call<Own>) -> Result<(), u8>,
) -> Vec<usize> {
    let (mut random, mut tally) = (Random(seed), Tally::default());
    let faults = [&filter_faults(), own_faults].concat();
    for (n, (first, second)) in pairs(&[1, 2, 3, 4, 5, 6, 7, 8, 9], &pairs(&faults, &faults)) {
        let mut call = Call::good(&mut random, n, own);
        first(&mut call);
        second(&mut call);
        tally.count(operation(&mut random, &call));
    }
    tally.numbers(9)
}

// What Judge, Certify and Check are asked and lent besides a filter; of the buffers only the lengths.
pub struct Asked {
    pub side: u8,
    pub d: usize,
    pub workspace: usize,
    pub witnesses: [usize; 2],
    pub kept: usize,
    pub report: usize,
    pub certificate: usize,
}

impl Asked {
    // What all three accept beside a filter with a point in each part, of any number of taps.
    pub fn good(random: &mut Random, _: usize) -> Asked {
        let side = random.pick(&[1, 0]);
        Asked { side, d: 0, workspace: 8192, witnesses: [512, 512], kept: 512, report: 36, certificate: 4096 }
    }
}

// What Certify and Check look at: the length of the certificate, the degree and the side. At n the ranks differ, which
// Certify alone refuses.
pub const CERTIFICATE_FAULTS: [Fault<Asked>; 9] = [
    |call| call.own.certificate = 4095,
    |call| call.own.certificate = 4097,
    |call| call.own.certificate = 0,
    |call| call.own.d = call.n.wrapping_add(1),
    |call| call.own.d = 10,
    |call| call.own.d = usize::MAX,
    |call| call.own.side = 2,
    |call| call.own.side = 255,
    |call| call.own.d = call.n,
];
