// Filter files with names: those that the program `cases` runs on, and the examples.
use crate::filter_file::Triple;
use crate::normal_form::weight;
use crate::random::Random;
use crate::rank::points_of;
use crate::rearrange::tap;
use crate::samples::{LISTED_FILES, NO_POINT, SETS, TABLES};

// A file with its name.
pub struct Named {
    pub name: String,
    pub file: Vec<u8>,
}

// The file of the chosen points of n taps with the table, under the name.
fn named(name: &str, n: usize, set: impl Fn(usize) -> bool, table: impl Fn(usize) -> bool) -> Named {
    let listed = |chosen: &dyn Fn(usize) -> bool| (0..1 << n).filter(|a| chosen(*a)).collect();
    let triple = Triple { n, set: listed(&set), table: listed(&table) };
    Named { name: name.to_string(), file: triple.file() }
}

// The sum of products of taps of the point a of n taps.
fn sum_of_products(n: usize, a: usize, products: &[&[usize]]) -> bool {
    products.iter().filter(|product| product.iter().all(|i| tap(n, a, *i))).count() % 2 == 1
}

// A weightwise perfectly balanced function of eight taps: that of Carlet, Méaux and Rotella, whose degrees Bonamino and
// Méaux print (docs/SPECIFICATION.md, 'Sources').
pub fn perfectly_balanced(a: usize) -> bool {
    sum_of_products(8, a, &[&[1], &[2], &[3], &[4], &[1, 5], &[2, 6], &[1, 3, 5, 7]])
}

// The files that docs/SPECIFICATION.md, 'Cases', lists, named by their bytes.
fn listed() -> impl Iterator<Item = Named> {
    LISTED_FILES.into_iter().map(|(file, _)| {
        let bytes: String = file.iter().map(|byte| format!("-{byte:02x}")).collect();
        Named { name: format!("listed{}", if file.is_empty() { "-empty" } else { &bytes }), file: file.to_vec() }
    })
}

// The numbered cases of docs/SPECIFICATION.md, 'Cases', that are filters.
fn numbered() -> [Named; 9] {
    [
        named("case-5", 2, |_| true, |a| a == 3),
        named("case-6", 3, |_| true, |a| weight(a) >= 2),
        named("case-7", 4, |a| weight(a).is_multiple_of(2), |a| [6, 10, 12, 15].contains(&a)),
        named("case-8", 1, |a| a == 0, |_| false),
        named("case-9", 1, |a| a == 0, |a| a == 0),
        named("case-10", 2, |a| a == 1 || a == 2, |a| a == 1),
        named("case-11", 4, |a| weight(a) == 2, |a| [3, 5, 6].contains(&a)),
        named("case-12", 1, |_| false, |_| false),
        named("case-13", 4, |_| false, |a| [3, 5, 6].contains(&a)),
    ]
}

// The names of the kinds of set and of table.
const SET_NAMES: [&str; SETS.len()] = ["cube", "one-weight", "weights", "subspace", "point", "some-points", "no-point"];
const TABLE_NAMES: [&str; TABLES.len()] = ["majority", "zero", "one", "low-degree", "random", "single"];

// Taps, kind of set and kind of table of the filters that are drawn.
const DRAWN: [(usize, usize, usize); 28] = [
    (1, 0, 3),
    (1, 0, 2),
    (2, 0, 1),
    (2, 2, 4),
    (3, 4, 0),
    (3, 3, 4),
    (4, 1, 4),
    (4, 0, 4),
    (5, 2, 0),
    (5, 5, 4),
    (6, 0, 0),
    (6, 3, 4),
    (6, 1, 2),
    (7, 0, 0),
    (7, 1, 4),
    (7, 5, 3),
    (7, 4, 1),
    (8, 0, 4),
    (8, 1, 4),
    (8, 3, 4),
    (8, 5, 1),
    (9, 1, 4),
    (9, 0, 3),
    (9, 5, 2),
    (2, NO_POINT, 0),
    (5, NO_POINT, 1),
    (8, NO_POINT, 2),
    (9, NO_POINT, 4),
];

// A filter of each of these kinds, always the same.
fn drawn() -> impl Iterator<Item = Named> {
    let mut random = Random(8);
    DRAWN.into_iter().map(move |(n, for_set, for_table)| {
        let (set, table) = (random.set(n, for_set), random.table(n, for_table));
        let name = format!("taps-{n}-{}-{}", SET_NAMES[for_set], TABLE_NAMES[for_table]);
        Named { name, file: Triple { n, set: points_of(&set), table: points_of(&table) }.file() }
    })
}

// What the program `cases` runs on.
pub fn cases() -> Vec<Named> {
    listed().chain(numbered()).chain(drawn()).collect()
}

// The examples.
pub fn examples() -> Vec<Named> {
    let damaged = Named { name: "damaged".to_string(), file: vec![0x02, 0x04, 0x00, 0x01, 0x01, 0x02, 0x01, 0x03] };
    vec![
        named("two-taps-and", 2, |_| true, |a| a == 3),
        named("majority-of-five", 5, |_| true, |a| weight(a) >= 3),
        named("majority-of-five-on-weight-2", 5, |a| weight(a) == 2, |a| weight(a) >= 3),
        named("even-weights-of-four", 4, |a| weight(a).is_multiple_of(2), |a| [6, 10, 12, 15].contains(&a)),
        named(
            "sum-of-products-on-weight-3",
            7,
            |a| weight(a) == 3,
            |a| sum_of_products(7, a, &[&[1], &[2], &[3, 4], &[5, 6, 7]]),
        ),
        named("balanced-on-weight-4-of-eight", 8, |a| weight(a) == 4, perfectly_balanced),
        named("points-0-to-16-of-five", 5, |a| a <= 16, |a| sum_of_products(5, a, &[&[2, 3], &[4, 5]])),
        named("nine-taps", 9, |_| true, |a| sum_of_products(9, a, &[&[1, 2], &[3]])),
        named("single-point", 6, |a| a == 42, |a| a == 42),
        named("frozen-register", 4, |_| false, |a| [3, 5, 6].contains(&a)),
        damaged,
    ]
}
