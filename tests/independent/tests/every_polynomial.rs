// Ranks, degrees, witnesses, kept points and certificates of up to three taps, against trying every polynomial. Sets of
// points and sets of exponents are numbers here: bit a for the point a, bit u for the exponent u.
use independent::filter::Filter;
use independent::judgement::{Judgement, certify, judge};
use independent::rank::Ranking;
use independent::samples::{mask_of, pairs};

// A polynomial: the exponents chosen, the points where it is 1, and its degree; 0 for the zero polynomial.
struct Polynomial {
    choice: usize,
    values: usize,
    degree: usize,
}

// Whether bit i of the number is a one.
fn has(bits: usize, i: usize) -> bool {
    bits >> i & 1 == 1
}

// The numbers i below the size for which the condition holds, as bits.
fn collect(n: usize, condition: impl Fn(usize) -> bool) -> usize {
    (0..1 << n).filter(|i| condition(*i)).map(|i| 1 << i).sum()
}

// Every polynomial of n taps.
fn polynomials(n: usize) -> Vec<Polynomial> {
    let polynomial = |choice: usize| {
        let exponents = || (0..1usize << n).filter(move |u| has(choice, *u));
        let values = collect(n, |a| exponents().filter(|u| u & a == *u).count() % 2 == 1);
        let degree = exponents().map(|u| u.count_ones() as usize).max().unwrap_or(0);
        Polynomial { choice, values, degree }
    };
    (0..1 << (1 << n)).map(polynomial).collect()
}

// The polynomials that are zero on the part and not on all of the set.
fn cancelling(all: &[Polynomial], set: usize, part: usize) -> impl Iterator<Item = &Polynomial> {
    all.iter().filter(move |g| g.values & part == 0 && g.values & set != 0)
}

// Whether the target is a sum of some of the vectors, by trying every choice of them.
fn is_sum(vectors: &[usize], target: usize) -> bool {
    let sum = |choice: usize| (0..vectors.len()).filter(|i| has(choice, *i)).fold(0, |sum, i| sum ^ vectors[i]);
    (0..1 << vectors.len()).any(|choice| sum(choice) == target)
}

// The exponents of weight at most d in graded order.
fn graded(n: usize, d: usize) -> Vec<usize> {
    let weights = 0..=d as u32;
    weights.flat_map(|w| (0..1usize << n).filter(move |u| u.count_ones() == w)).collect()
}

// The row of a point at degree d: bit u for the exponent u.
fn row(n: usize, d: usize, a: usize) -> usize {
    collect(n, |u| u & a == u && u.count_ones() as usize <= d)
}

// Those of the points that are kept at degree d: whose rows are no sums of rows of smaller ones.
fn kept(n: usize, points: usize, d: usize) -> usize {
    let smaller = |q: usize| (0..q).filter(|a| has(points, *a)).map(|a| row(n, d, a)).collect::<Vec<_>>();
    collect(n, |q| has(points, q) && !is_sum(&smaller(q), row(n, d, q)))
}

// The rank of the points at degree d: so many powers of 2 are the values there of the polynomials up to that degree.
fn rank(all: &[Polynomial], points: usize, d: usize) -> usize {
    let mut values: Vec<usize> = all.iter().filter(|g| g.degree <= d).map(|g| g.values & points).collect();
    values.sort();
    values.dedup();
    assert!(values.len().is_power_of_two());
    values.len().ilog2() as usize
}

// The additions of the elimination of the points at degree d, step by step; bit i of a row for column i.
fn additions(n: usize, points: usize, d: usize) -> u32 {
    let (columns, mut kept, mut count) = (graded(n, d), Vec::<usize>::new(), 0);
    for a in (0..1 << n).filter(|a| has(points, *a)) {
        let mut row = (0..columns.len()).filter(|i| columns[*i] & a == columns[*i]).map(|i| 1 << i).sum();
        for kept_row in &kept {
            if has(row, kept_row.trailing_zeros() as usize) {
                row ^= kept_row;
                count += 1;
            }
        }
        kept.extend(Some(row).filter(|row| *row != 0));
    }
    count
}

// The rank and the additions of every set of points at degree d.
fn rankings(all: &[Polynomial], n: usize, d: usize) -> Vec<Ranking> {
    let ranking = |points| Ranking { rank: rank(all, points, d), additions: additions(n, points, d) };
    (0..1 << (1 << n)).map(ranking).collect()
}

// The witness as docs/SPECIFICATION.md, 'Witness', words it: p, the kept columns, and the only polynomial on them; 0
// where there is none.
fn witness(all: &[Polynomial], n: usize, set: usize, part: usize, k: usize) -> usize {
    let (exponents, row) = (graded(n, k), |a: usize| row(n, k, a));
    let rows: Vec<usize> = (0..1 << n).filter(|a| has(part, *a)).map(row).collect();
    let Some(p) = (0..1 << n).find(|a| has(set, *a) && !is_sum(&rows, row(*a))) else {
        return 0;
    };
    let column = |u: &usize| collect(n, |a| has(part | 1 << p, a) && u & a == *u);
    let columns: Vec<usize> = exponents.iter().map(column).collect();
    let kept = (0..columns.len()).filter(|i| !is_sum(&columns[..*i], columns[*i]));
    let allowed: usize = kept.map(|i| 1 << exponents[i]).sum();
    let found = all.iter().filter(|g| g.choice & !allowed == 0 && g.values & part == 0 && has(g.values, p));
    let choices: Vec<usize> = found.map(|g| g.choice).collect();
    assert_eq!(choices.len(), 1, "one witness only");
    choices[0]
}

// The exponents in a witness buffer, or the points in a mask, of up to three taps.
fn bits_of(buffer: &[u8]) -> usize {
    assert!(buffer.iter().all(|x| *x <= 1) && buffer[8..].iter().all(|x| *x == 0));
    collect(3, |i| buffer[i] == 1)
}

// The mask of the bits.
fn mask(n: usize, bits: usize) -> Vec<u8> {
    mask_of(n, |a| has(bits, a))
}

// Judge's answer, the choices of the witnesses of side 1 and side 0, and the kept points.
fn judged(n: usize, set: usize, table: usize) -> (Judgement, [usize; 2], usize) {
    let (mut workspace, [mut one, mut zero, mut kept]) = (vec![0; 8192], [(); 3].map(|_| vec![9; 512]));
    let filter = Filter { n, set: &mask(n, set), table: &mask(n, table) };
    let answer = judge(filter, &mut workspace, &mut one, &mut zero, &mut kept);
    (answer.expect("accepted"), [bits_of(&one), bits_of(&zero)], bits_of(&kept))
}

// The ranks and additions of one set and table, from those of every set at each degree.
fn check_ranks(judgement: &Judgement, by_degree: &[Vec<Ranking>], sets: [usize; 3]) {
    let mut additions = 0;
    for (d, ranks) in judgement.ranks.into_iter().enumerate() {
        let found = by_degree.get(d).map(|all| sets.map(|points| all[points]));
        assert_eq!(ranks, found.map_or([0; 3], |found| found.map(|ranking| ranking.rank)), "sets {sets:?}, d = {d}");
        additions += found.map_or(0, |found| found.iter().map(|ranking| ranking.additions).sum());
    }
    assert_eq!(judgement.additions, additions, "sets {sets:?}");
}

// The mark of the set, from the ranks of every set at each degree. A set has one exactly if it has a point.
fn check_mark(judgement: &Judgement, by_degree: &[Vec<Ranking>], set: usize) {
    let mark = by_degree.iter().position(|all| 2 * all[set].rank > set.count_ones() as usize);
    assert_eq!(judgement.mark, mark, "set {set:b}");
    assert_eq!(mark.is_some(), set != 0, "set {set:b}");
    assert!(judgement.degree <= judgement.mark, "set {set:b}: over the mark");
}

// Demand 3 about ranks, degree, side and witnesses for one set and table, the sides' own degrees, the mark, and the kept
// points of the set at the reported degree. There is a degree exactly if the set has a point; without one there is no
// side, no witness and no kept point.
fn check_judgement(all: &[Polynomial], by_degree: &[Vec<Ranking>], n: usize, set: usize, table: usize) {
    let (judgement, witnesses, kept_of_set) = judged(n, set, table);
    let parts = [set & table, set & !table];
    check_ranks(&judgement, by_degree, [set, parts[0], parts[1]]);
    check_mark(&judgement, by_degree, set);
    let least = parts.map(|part| cancelling(all, set, part).map(|g| g.degree).min());
    for (d, i) in (0..=n).flat_map(|d| [(d, 0), (d, 1)]) {
        let differs = judgement.ranks[d][i + 1] != judgement.ranks[d][0];
        assert_eq!(differs, least[i].is_some_and(|degree| degree <= d), "n {n} set {set:b} table {table:b} d {d}");
    }
    let lowest = least.into_iter().flatten().min();
    assert_eq!(lowest.is_some(), set != 0, "n {n} set {set:b} table {table:b}");
    assert_eq!((judgement.degree, judgement.side), (lowest, lowest.map(|k| u8::from(least[0] == Some(k)))));
    assert_eq!(judgement.own_degrees, least, "n {n} set {set:b} table {table:b}");
    assert_eq!(kept_of_set, lowest.map_or(0, |k| kept(n, set, k)), "n {n} set {set:b} table {table:b}");
    for i in [0, 1] {
        assert_eq!(witnesses[i], lowest.map_or(0, |k| witness(all, n, set, parts[i], k)));
        let own = cancelling(all, set, parts[i]).find(|g| g.choice == witnesses[i]);
        assert_eq!(own.map(|g| g.degree), least[i].filter(|degree| Some(*degree) == lowest));
    }
}

#[test]
fn every_set_and_table_of_up_to_three_taps_judged() {
    for n in [1, 2, 3] {
        let (all, sets) = (polynomials(n), 1 << (1 << n));
        let by_degree: Vec<Vec<Ranking>> = (0..=n).map(|d| rankings(&all, n, d)).collect();
        (0..sets).for_each(|set| (0..sets).for_each(|table| check_judgement(&all, &by_degree, n, set, table)));
    }
}

// The certificate of one set, table, side and degree: refused where a polynomial cancels, else the only sums of kept
// points of the part.
fn check_certificate(all: &[Polynomial], n: usize, [set, table]: [usize; 2], side: u8, d: usize) {
    let part = if side == 1 { set & table } else { set & !table };
    let (mut workspace, mut certificate) = (vec![5; 8192], vec![5; 4096]);
    let filter = Filter { n, set: &mask(n, set), table: &mask(n, table) };
    let answer = certify(filter, side, d, &mut workspace, &mut certificate);
    assert!(workspace.iter().all(|word| *word == 0));
    if cancelling(all, set, part).any(|g| g.degree <= d) {
        assert_eq!((answer, certificate), (Err(12), vec![5; 4096]));
        return;
    }
    assert_eq!(answer, Ok(()));
    let (kept, row) = (kept(n, part, d), |a: usize| row(n, d, a));
    for (a, words) in certificate.chunks(8).enumerate() {
        let sum = words[0] as usize;
        assert!(words[1..].iter().all(|word| *word == 0) && sum & !kept == 0);
        let wanted = if a < 1 << n && has(set & !part, a) { row(a) } else { 0 };
        assert_eq!((0..1 << n).filter(|q| has(sum, *q)).fold(0, |total, q| total ^ row(q)), wanted);
    }
}

// The certificates of a side of every set and table of up to three taps at every degree.
fn check_certificates(side: u8) {
    for n in [1, 2, 3] {
        let (all, masks): (_, Vec<usize>) = (polynomials(n), (0..1 << (1 << n)).collect());
        for (set, table) in pairs(&masks, &masks) {
            (0..=n).for_each(|d| check_certificate(&all, n, [set, table], side, d));
        }
    }
}

#[test]
fn certificates_of_side_1_of_up_to_three_taps_at_every_degree() {
    check_certificates(1);
}

#[test]
fn certificates_of_side_0_of_up_to_three_taps_at_every_degree() {
    check_certificates(0);
}
