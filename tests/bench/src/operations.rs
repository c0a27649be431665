// The operations on one filter, proved and by the independent implementation, each timed.
use crate::contenders::{Certify, Judged, Ranked, Rearranged, UNWRITTEN};
use crate::timing::{Contender, means, race};
use independent::check::check;
use independent::filter::Filter;
use independent::filter_file::{Triple, read, write};
use independent::judgement::{Judgement, certify, hand_over};
use independent::normal_form::{convert, degree};
use independent::rank::{Ranking, points_of, rank};
use independent::rearrange::rearrange;
use independent::report::judge;
use independent::sheet::sheet;
use program::{printed, run, sheet_program};
use std::fmt::Debug;
use std::process::Command;

type Read = fn(&[u8], &mut [u8], &mut [u8]) -> Result<usize, u8>;
type Write = fn(Filter, &mut [u8]) -> Result<usize, u8>;
type Rearrange = fn(&mut [u8], &mut [u8], usize, &[u8]) -> Result<(), u8>;
type Convert = fn(&mut [u8], usize) -> Result<(), u8>;
type Degree = fn(&[u8], usize) -> Result<u32, u8>;
type Rank = fn(&[u8], usize, usize, &mut [u64], &mut [u8]) -> Result<Ranking, u8>;
type Judge = fn(Filter, &mut [u64], &mut [u8], &mut [u8], &mut [u8], &mut [u32]) -> Result<Judgement, u8>;
type Check = fn(Filter, u8, usize, &[u64]) -> Result<bool, u8>;
type HandOver = fn(usize, u8, &[u8], &[u8], &mut [u8]) -> usize;
type Sheet = fn(&[u8]) -> String;

// The names of the operations that are timed, in order.
pub const NAMES: [&str; 11] =
    ["Read", "Write", "Rearrange", "Convert", "Degree", "Rank", "Judge", "Certify", "Check", "Hand over", "sheet"];

// No file is longer.
const FILE_MAX: usize = 2053;

// The wiring of nine taps; the one of n taps has its entries up to n.
pub const WIRING: [u8; 9] = [5, 9, 1, 7, 3, 8, 2, 6, 4];

// A filter on a set with a point, its file, the coefficients of its table, and of what Judge answers and leaves the
// degree, the side, the additions and the witness buffers.
pub struct Subject {
    n: usize,
    set: Vec<u8>,
    table: Vec<u8>,
    file: Vec<u8>,
    coefficients: Vec<u8>,
    pub degree: usize,
    side: u8,
    pub additions: u32,
    witnesses: [[u8; 512]; 2],
}

// What the sheet program prints for the input, in a process of its own.
fn run_sheet(input: &[u8]) -> String {
    printed(run(Command::new(sheet_program()), input))
}

// The least microseconds of a process of the sheet program that is given no input.
pub fn process_start(runs: usize) -> f64 {
    let start: Contender<String> = Box::new(|_| run_sheet(&[]));
    means(&race(runs, &[vec![start]]))[0]
}

// Hand over of the independent implementation, the part copied as the library copies it.
fn hand_over_copy(n: usize, side: u8, one: &[u8], zero: &[u8], copy: &mut [u8]) -> usize {
    let part = hand_over(n, side, one, zero);
    copy[..part.len()].copy_from_slice(part);
    part.len()
}

// The least microseconds of the first of the two, or of both, which answer alike.
fn timed<A: PartialEq + Debug>(runs: usize, count: usize, both: [impl Fn(&mut [u64]) -> A; 2]) -> Vec<f64> {
    let contenders = both.into_iter().take(count).map(|one| Box::new(one) as Contender<A>).collect();
    means(&race(runs, &[contenders]))
}

impl Subject {
    // The filter of these masks.
    pub fn new(n: usize, set: Vec<u8>, table: Vec<u8>) -> Subject {
        let (mut coefficients, mut witnesses) = (table.clone(), [[0; 512]; 2]);
        library::convert(&mut coefficients, n).expect("a table that Convert accepts");
        let ([one, zero], filter) = (&mut witnesses, Filter { n, set: &set, table: &table });
        let file = Triple::of(filter).file();
        let judged = library::judge(filter, &mut [0; 8192], one, zero, &mut [0; 512], &mut [0; 36]);
        let Judgement { degree, side, additions, .. } = judged.expect("a filter that Judge accepts");
        let (degree, side) = degree.zip(side).expect("a set with a point");
        Subject { n, set, table, file, coefficients, degree, side, additions, witnesses }
    }

    // The number of bytes of the file.
    pub fn file_length(&self) -> usize {
        self.file.len()
    }

    // The number of points.
    pub fn points(&self) -> usize {
        points_of(&self.set).len()
    }

    // The filter as it is lent.
    fn filter(&self) -> Filter<'_> {
        Filter { n: self.n, set: &self.set, table: &self.table }
    }

    // Read of the file.
    fn read(&self, read: Read) -> impl Fn(&mut [u64]) -> [[u8; 512]; 2] {
        move |_| {
            let (mut set, mut table) = ([0; 512], [0; 512]);
            read(&self.file, &mut set, &mut table).expect("accepted");
            [set, table]
        }
    }

    // Write of the filter.
    fn write(&self, write: Write) -> impl Fn(&mut [u64]) -> (usize, [u8; FILE_MAX]) {
        move |_| {
            let mut output = [0; FILE_MAX];
            (write(self.filter(), &mut output).expect("accepted"), output)
        }
    }

    // Rearrange of the set and the table.
    fn rearrange(&self, rearrange: Rearrange) -> impl Fn(&mut [u64]) -> Rearranged {
        let wiring: Vec<u8> = WIRING.into_iter().filter(|tap| usize::from(*tap) <= self.n).collect();
        move |_| {
            let (mut set, mut table) = (self.set.clone(), self.table.clone());
            rearrange(&mut set, &mut table, self.n, &wiring).expect("accepted");
            [set, table]
        }
    }

    // Convert of the table.
    fn convert(&self, convert: Convert) -> impl Fn(&mut [u64]) -> Vec<u8> {
        move |_| {
            let mut bytes = self.table.clone();
            convert(&mut bytes, self.n).expect("accepted");
            bytes
        }
    }

    // Degree of the table's normal form.
    fn degree(&self, degree: Degree) -> impl Fn(&mut [u64]) -> u32 {
        move |_| degree(&self.coefficients, self.n).expect("accepted")
    }

    // Rank of the set at degree n.
    fn rank(&self, rank: Rank) -> impl Fn(&mut [u64]) -> Ranked {
        move |workspace| {
            let mut kept = [UNWRITTEN; 512];
            (rank(&self.set, self.n, self.n, workspace, &mut kept).expect("accepted"), kept)
        }
    }

    // Judge.
    fn judge(&self, judge: Judge) -> impl Fn(&mut [u64]) -> Judged {
        move |workspace| {
            let mut masks = [[UNWRITTEN; 512]; 3];
            let [one, zero, kept] = &mut masks;
            (judge(self.filter(), workspace, one, zero, kept, &mut [0; 36]).expect("accepted"), masks)
        }
    }

    // Certify of side 1 at the degree before the reported one.
    fn certify(&self, certify: Certify) -> impl Fn(&mut [u64]) -> Vec<u64> {
        move |workspace| {
            let mut certificate = vec![0; 4096];
            certify(self.filter(), 1, self.degree - 1, workspace, &mut certificate).expect("accepted");
            certificate
        }
    }

    // Check of what Certify writes.
    fn check(&self, check: Check) -> impl Fn(&mut [u64]) -> bool {
        let certificate = self.certify(library::certify)(&mut [0; 8192]);
        move |_| check(self.filter(), 1, self.degree - 1, &certificate).expect("accepted")
    }

    // Hand over of the reported side's witness.
    fn hand_over(&self, hand_over: HandOver) -> impl Fn(&mut [u64]) -> (usize, [u8; 512]) {
        move |_| {
            let ([one, zero], mut copy) = (&self.witnesses, [0; 512]);
            (hand_over(self.n, self.side, one, zero, &mut copy), copy)
        }
    }

    // The sheet of the file.
    fn sheet(&self, sheet: Sheet) -> impl Fn(&mut [u64]) -> String {
        move |_| sheet(&self.file)
    }

    // The least microseconds of each operation: of the proved one if the count is 1, and of the independent one besides
    // if it is 2.
    pub fn times(&self, runs: usize, count: usize) -> [Vec<f64>; 11] {
        [
            timed(runs, count, [self.read(library::read), self.read(read)]),
            timed(runs, count, [self.write(library::write), self.write(write)]),
            timed(runs, count, [self.rearrange(library::rearrange), self.rearrange(rearrange)]),
            timed(runs, count, [self.convert(library::convert), self.convert(convert)]),
            timed(runs, count, [self.degree(library::degree), self.degree(degree)]),
            timed(runs, count, [self.rank(library::rank), self.rank(rank)]),
            timed(runs, count, [self.judge(library::judge), self.judge(judge)]),
            timed(runs, count, [self.certify(library::certify), self.certify(certify)]),
            timed(runs, count, [self.check(library::check), self.check(check)]),
            timed(runs, count, [self.hand_over(library::hand_over), self.hand_over(hand_over_copy)]),
            timed(runs, count, [self.sheet(run_sheet), self.sheet(sheet)]),
        ]
    }

    // The least microseconds of the proved Write and of the proved Read in turn. Each leaves what the other takes, which
    // is looked at inside the time.
    pub fn file_times(&self, runs: usize) -> Vec<f64> {
        let (write, read) = (self.write(library::write), self.read(library::read));
        let writes: Contender<bool> = Box::new(move |workspace| {
            let (length, output) = write(workspace);
            output[..length] == self.file
        });
        let reads: Contender<bool> = Box::new(move |workspace| {
            let [set, table] = read(workspace);
            set[..] == self.set && table[..] == self.table
        });
        let found = race(runs, &[vec![writes, reads]]);
        assert!(found[0].0, "Write and Read leave what they should");
        means(&found)
    }
}
