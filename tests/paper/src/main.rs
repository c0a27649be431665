// Prints what the proved library finds on slices beside the tables of Bonamino and Méaux. With a number as argument it
// draws so many functions on each slice of eight taps, and else as many as they drew.
use independent::random::Random;
use independent::samples::mask_of;
use paper::construction::construction;
use paper::degrees::{Degrees, degree, mean};
use paper::figures::{AVERAGES, BOUNDS, CONSTRUCTION, DRAWN, EIGHT_TAPS, FOUR_TAPS, Tables};
use paper::slice::Slice;

// The shares and their mean, with so many decimals.
fn line(shares: &[f64], decimals: usize) -> String {
    let listed: String = shares.iter().map(|share| format!("{share:7.decimals$}")).collect();
    format!("{listed}{:8.decimals$}", mean(shares))
}

// What is found on the slice, then what the two tables say of it; the first one's mean is that of its shares.
fn print_slice(tables: &Tables, slice: &Slice, found: &Degrees) {
    let (k, points, mark, printed) = (slice.k, slice.points.len(), slice.mark(), tables.shares(slice.k));
    let shares: Vec<f64> = (0..printed.len()).map(|degree| found.share(degree)).collect();
    let over = printed.iter().skip(mark + 1).any(|share| *share > 0.0);
    let (remark, blank) = (if over { " over the mark" } else { "" }, 7 * printed.len());
    let (total, time) = (found.total(), found.microseconds());
    println!("{k:2} {points:6} {mark:4} {total:9} ours{}{time:13.1}", line(&shares, 3));
    println!("{:>29}{}{remark}", tables.names[0], line(&printed, 2));
    println!("{:>29}{:blank$}{:8.2}{:13.1}", tables.names[1], "", tables.means[k], tables.seconds[k] * 1e6);
}

// The shares of the degrees on each slice, the mean degree, and the microseconds of a function.
fn print_tables(tables: &Tables, title: &str, mut find: impl FnMut(&Slice) -> Degrees) {
    let degrees: String = (0..tables.shares.len()).map(|degree| format!("{degree:7}")).collect();
    println!("Tables {} and {}, n = {}: {title} on each slice", tables.names[0], tables.names[1], tables.n);
    println!(" k points mark functions     {degrees}    mean microseconds");
    Slice::all(tables.n).for_each(|slice| print_slice(tables, &slice, &find(&slice)));
}

// The degrees of the function of Carlet, Méaux and Rotella, and table 4's.
fn print_construction() {
    let table = mask_of(8, construction);
    let degrees: Vec<usize> = Slice::all(8).map(|slice| degree(&slice, &table).0).collect();
    println!("Table 4, [CMR17], n = 8: the degree on each slice is {degrees:?}; printed {CONSTRUCTION:?}");
}

// Prints every table.
fn main() {
    let drawn = std::env::args().nth(1).map_or(DRAWN, |word| word.parse().expect("how many functions to draw"));
    let mut random = Random(1);
    print_tables(&FOUR_TAPS, "every balanced function", |slice| Degrees::new(slice, slice.balanced()));
    print_tables(&EIGHT_TAPS, "balanced functions at random", |slice| {
        Degrees::new(slice, (0..drawn).map(|_| slice.drawn(&mut random)))
    });
    println!("Table 5, n = 8, by slice: averages {AVERAGES:?}, upper bounds {BOUNDS:?}");
    print_construction();
}
