// Times the proved static library and the sheet program against the independent implementation, against the same
// algorithms in Rust and C at -O3, and against M4RI, in one run.
#[cfg_attr(not(has_c), path = "no_c.rs")]
mod c; // c.rs: the contenders in C
mod certificates; // certificates.rs: the certificates that Check is timed on
mod certify; // certify.rs: Certify in Rust
mod check; // check.rs: Check in Rust
mod contenders; // contenders.rs: the contenders of each operation
mod elimination; // elimination.rs: the eliminations in Rust
mod judge; // judge.rs: Judge in Rust
mod largest_weight; // largest_weight.rs: the largest weight of an exponent in Rust
#[cfg_attr(not(has_m4ri), path = "no_m4ri.rs")]
mod m4ri; // m4ri.rs: the ranks by M4RI
mod operations; // operations.rs: the operations on one filter, and their times
mod rearrange; // rearrange.rs: Rearrange in Rust
mod timing; // timing.rs: several contenders timed in one run

use certificates::{Certificate, certificates};
use contenders::{
    certifies, checks, checks_and_certify, judges, m4ri_steps, ranks, rearranges, rearranges_and_convert, weights,
};
use independent::filter::Filter;
use independent::normal_form::weight;
use independent::random::Random;
use independent::samples::{kinds, mask_of, pairs};
use operations::{NAMES, Subject, WIRING, process_start};
use timing::{line, line_of, means, race};

const RUNS: usize = 120;
const FEW: usize = 10; // of the independent implementation, which is slow, and of each of several tables
const TABLES: u64 = 12;
const CALLS: usize = 100; // in a row where one is too short to time
const WRITE_LIMIT: f64 = 2.0; // of the time of Write over that of Read, on the longest file
const CHECK_LIMIT: f64 = 1.0; // of the time of Check over that of Certify at the same side and degree
const REARRANGE_LIMIT: f64 = 1.0; // of the time of Rearrange over that of Convert of two tables

// The heads of the columns of times: proved, and of the others those that there are.
fn heads(others: &[&str]) -> String {
    let there = others.iter().filter(|name| match **name {
        "C" | "C ones" => cfg!(has_c),
        "M4RI" => cfg!(has_m4ri),
        _ => true,
    });
    format!("{:>10}{}", "proved", there.map(|name| format!("{name:>10}  ratio")).collect::<String>())
}

// Rank at n = 9 and every degree, with the means.
fn bench_rank(title: &str, mask: &[u8]) {
    println!("Rank, n = 9, {title}; microseconds, least of {RUNS} runs, the degrees in turn");
    println!(" d  rank additions{}", heads(&["Rust", "C"]));
    let found = race(RUNS, &[0, 1, 2, 3, 4, 5, 6, 7, 8, 9].map(|d| ranks(mask, d)));
    for (d, ((ranking, _), times)) in found.iter().enumerate() {
        println!("{d:2} {:5} {:9}{}", ranking.rank, ranking.additions, line(times));
    }
    println!("mean             {}", line(&means(&found)));
}

// Judge at n = 9 of the set with tables drawn at random, and Certify of both sides at the degree before the reported one.
fn bench_judgement(title: &str, set: &[u8]) {
    let tables: Vec<Vec<u8>> = (1..=TABLES).map(|seed| Random(seed).mask(9, 4)).collect();
    let filters: Vec<Filter> = tables.iter().map(|table| Filter { n: 9, set, table }).collect();
    println!(
        "Judge and Certify, n = 9, {title}; microseconds, least of {FEW} runs, mean of {TABLES} random tables in turn"
    );
    println!("                 {}", heads(&["Rust", "C", "M4RI"]));
    let judged = race(FEW, &filters.iter().map(|filter| judges(*filter)).collect::<Vec<_>>());
    println!("Judge            {}", line(&means(&judged)));
    if let Some([build, echelonize]) = m4ri_steps(RUNS, filters[0]) {
        println!("M4RI, the ranks alone, from 30 matrices: build {build:.1}, echelonize {echelonize:.1}");
    }
    for side in [1, 0] {
        let found = filters.iter().zip(&judged).map(|(filter, ((judgement, _), _))| (*filter, judgement.degree));
        let inputs = found.map(|(filter, k)| certifies(filter, side, k.expect("a set with a point") - 1));
        println!("Certify, side {side}  {}", line(&means(&race(FEW, &inputs.collect::<Vec<_>>()))));
    }
}

// Every n with every kind of set and table.
fn kinds_of_every_n() -> Vec<(usize, (usize, usize))> {
    pairs(&[1, 2, 3, 4, 5, 6, 7, 8, 9], &kinds())
}

// Judge of a filter of every n and every kind of set and table, once by each contender: the same answers.
fn compare_judges() {
    let mut random = Random(2);
    for (n, (for_set, for_table)) in kinds_of_every_n() {
        let (set, table) = (random.set(n, for_set), random.table(n, for_table));
        race(1, &[judges(Filter { n, set: &set, table: &table })]);
    }
    let count = kinds_of_every_n().len();
    println!("Judge of {count} filters of one to nine taps: every contender gives the proved answer");
}

// Certify of each side of such filters at each degree, once by each contender: the same answers.
fn compare_certifies() {
    let (mut random, mut answers) = (Random(6), Vec::new());
    for (n, (for_set, for_table)) in kinds_of_every_n() {
        let (set, table) = (random.set(n, for_set), random.table(n, for_table));
        let asked = (0..=n).flat_map(|d| [(1, d), (0, d)]);
        let inputs = asked.map(|(side, d)| certifies(Filter { n, set: &set, table: &table }, side, d));
        answers.extend(race(1, &inputs.collect::<Vec<_>>()).iter().map(|((answer, _), _)| *answer));
    }
    let accepted = answers.iter().filter(|answer| answer.is_ok()).count();
    println!("Certify {} times, {accepted} of them accepted: every contender gives the proved answer", answers.len());
}

// Check of every certificate of Certify of such filters, as it is and with a bit changed, once by each contender: the
// same answers.
fn compare_checks() {
    let (mut random, mut answers) = (Random(5), Vec::new());
    for (n, (for_set, for_table)) in kinds_of_every_n() {
        let (set, table) = (random.set(n, for_set), random.table(n, for_table));
        for own in certificates(Filter { n, set: &set, table: &table }) {
            let found = race(1, &[checks(&own), checks(&own.damaged(&mut random))]);
            answers.extend(found.iter().map(|(yes, _)| *yes));
        }
    }
    let yes = answers.iter().filter(|yes| **yes).count();
    println!("Check of {} certificates, {yes} of them right: every contender gives the proved answer", answers.len());
}

// Rearrange of such filters by wirings drawn at random, once by each contender: the same set and table.
fn compare_rearranges() {
    let mut random = Random(7);
    for (n, (for_set, for_table)) in kinds_of_every_n() {
        let (set, table, wiring) = (random.set(n, for_set), random.table(n, for_table), random.wiring(n));
        race(1, &[rearranges(Filter { n, set: &set, table: &table }, &wiring, 1)]);
    }
    let count = kinds_of_every_n().len();
    println!("Rearrange of {count} filters of one to nine taps: every contender leaves the proved set and table");
}

// Every operation on a filter of nine taps, proved and independent.
fn bench_operations(title: &str, set: &[u8], table: &[u8]) {
    let subject = Subject::new(9, set.to_vec(), table.to_vec());
    println!("Every operation and the independent implementation's, n = 9, {title}; microseconds, least of {FEW} runs");
    println!("             proved     other  ratio");
    for (name, times) in NAMES.iter().zip(subject.times(FEW, 2)) {
        println!("{name:9}{}", line(&times));
    }
    println!("The sheet is a process; one without input takes {:.1}", process_start(RUNS));
}

// Write and Read of the longest file there is, which has every point twice; Write keeps to its limit.
fn bench_longest_file(all: &[u8]) {
    let subject = Subject::new(9, all.to_vec(), all.to_vec());
    let length = subject.file_length();
    println!("Write and Read, n = 9, the longest file, {length} bytes; microseconds, least of {RUNS} runs, in turn");
    println!("              Write      Read  ratio, at most {WRITE_LIMIT}");
    let times = subject.file_times(RUNS);
    println!("proved   {}", line(&times));
    assert!(times[0] <= WRITE_LIMIT * times[1], "Write of the longest file takes longer than its limit");
}

// Check at n = 9 of each side at each degree below the reported one: what Certify writes, and longer sums. Check keeps
// to its limit.
fn bench_check(title: &str, set: &[u8], table: &[u8]) {
    let (filter, mut random) = (Filter { n: 9, set, table }, Random(4));
    let [mut one, mut zero, mut kept] = [[0; 512]; 3];
    let judged = library::judge(filter, &mut [0; 8192], &mut one, &mut zero, &mut kept, &mut [0; 36]);
    let degree = judged.expect("accepted").degree;
    let own = certificates(filter).filter(|own| Some(own.d) < degree);
    let both: Vec<Certificate> = own.flat_map(|own| [own.clone(), own.with_longer_sums(&mut random)]).collect();
    println!("Check, n = 9, {title}; microseconds, least of {RUNS} runs, all in turn");
    println!(
        "points: of a sum, in the mean; Certify: the proved one, ratio at most {CHECK_LIMIT}; other: the independent Check"
    );
    println!(" d side points{}", heads(&["Certify", "Rust", "C", "other"]));
    let found = race(RUNS, &both.iter().map(checks_and_certify).collect::<Vec<_>>());
    for (certificate, (yes, times)) in both.iter().zip(&found) {
        println!("{:2} {:4} {:6.1}{}", certificate.d, certificate.side, certificate.points(), line(times));
        assert!(*yes, "Check says no to a certificate");
        assert!(times[0] <= CHECK_LIMIT * times[1], "Check of a certificate takes longer than its limit");
    }
    println!("mean         {}", line(&means(&found)));
}

// Rearrange at n = 9 of the set and the table, beside Convert of both. Rearrange keeps to its limit.
fn bench_rearrange(title: &str, set: &[u8], table: &[u8]) {
    println!("Rearrange, n = 9, {title}, by {WIRING:?}; microseconds a call, least of {RUNS} runs of {CALLS} calls");
    println!(
        "Convert: the proved one, of both, ratio at most {REARRANGE_LIMIT}; Rust and C: no checks; other: the independent Rearrange"
    );
    println!("         {}", heads(&["Convert", "Rust", "C", "other"]));
    let times = means(&race(RUNS, &[rearranges_and_convert(Filter { n: 9, set, table }, &WIRING, CALLS)]));
    let one: Vec<f64> = times.iter().map(|time| time / CALLS as f64).collect();
    println!("Rearrange{}", line_of(&one, 2));
    assert!(one[0] <= REARRANGE_LIMIT * one[1], "Rearrange takes longer than its limit");
}

// Degree of the polynomial that has all 512 exponents, each of which it weighs: the time for one of them.
fn bench_weight(all: &[u8]) {
    println!("Weight, n = 9, all 512 exponents; nanoseconds an exponent, least of {RUNS} runs of {CALLS} calls");
    println!("proved: Degree; Rust and C: the largest weight by the same steps; ones: by the compiler's count of ones");
    println!("         {}", heads(&["Rust", "C", "Rust ones", "C ones"]));
    let times = means(&race(RUNS, &[weights(all, CALLS)]));
    let one: Vec<f64> = times.iter().map(|time| time * 1e3 / (CALLS * all.len()) as f64).collect();
    println!("weight   {}", line_of(&one, 2));
}

// The proved operations on each of the filters, a line each.
fn bench_growth(title: &str, filters: impl Iterator<Item = (usize, Vec<u8>, Vec<u8>)>) {
    println!("Growth with {title}; the proved operations, microseconds, least of {RUNS} runs");
    println!(" n points degree additions{}", NAMES.map(|name| format!("{name:>10}")).concat());
    for (n, set, table) in filters {
        let subject = Subject::new(n, set, table);
        let (points, degree, additions) = (subject.points(), subject.degree, subject.additions);
        let times = subject.times(RUNS, 1).map(|times| line(&times)).concat();
        println!("{n:2} {points:6} {degree:6} {additions:9}{times}");
    }
}

// The first of the points in an order drawn at random, so many of them.
fn some_points(count: usize) -> Vec<u8> {
    let points = Random(3).shuffled(512);
    mask_of(9, |a| points[..count].contains(&a))
}

// Prints every comparison.
fn main() {
    if !cfg!(has_c) {
        println!("no C compiler: the comparison with C is skipped");
    }
    if !cfg!(has_m4ri) {
        println!("no M4RI (Debian's libm4ri-dev): the comparison with it is skipped");
    }
    let (all, half) = (mask_of(9, |_| true), Random(1).mask(9, 4));
    println!(
        "proved: the static library; Rust and C: the same algorithms at -O3; ratio: the proved time over the other"
    );
    compare_judges();
    compare_certifies();
    compare_checks();
    compare_rearranges();
    bench_rank("all 512 points", &all);
    bench_rank("a random half", &half);
    bench_judgement("all 512 points", &all);
    bench_judgement("the 126 points of weight 4", &mask_of(9, |a| weight(a) == 4));
    bench_operations("all 512 points, a random table", &all, &half);
    bench_check("all 512 points, a random table", &all, &half);
    bench_longest_file(&all);
    bench_rearrange("all 512 points, a random table", &all, &half);
    bench_weight(&all);
    bench_growth("n: all points, majority", (1..=9).map(|n| (n, mask_of(n, |_| true), Random(1).table(n, 0))));
    let sizes = [16, 32, 64, 128, 192, 256, 320, 384, 448, 512];
    bench_growth("the set: points and a table at random", sizes.map(|m| (9, some_points(m), half.clone())).into_iter());
}
