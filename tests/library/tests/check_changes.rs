// Check of the static library on certificates of Certify in which bits were changed. The independent answer is found
// from the rows that changed: about all other points the certificate is right as it was.
use independent::certificate::turn;
use independent::check::Standard;
use independent::filter::Filter;
use independent::other_sums::Dependencies;
use independent::random::Random;
use independent::rank::{columns, row, row_span};
use independent::samples::{NO_POINT, TABLES, kinds, mask_of, masks, pairs};
use independent::span::{Bits, Span};
use std::collections::HashSet;
use std::hint::black_box;

// A bit of a certificate: the point whose row it stands in, and the point that it names.
type Place = (usize, usize);

// The places of all 262,144 bits of a certificate.
fn every_place() -> impl Iterator<Item = Place> {
    (0..512 * 512).map(|i| (i / 512, i % 512))
}

// Every place in the rows of the points of n taps, and of each other row sixteen places, other ones in each turn: 32 turns
// meet every place.
fn places_in_turn(n: usize, turn: usize) -> impl Iterator<Item = Place> {
    every_place().filter(move |(a, q)| *a < 1 << n || q / 16 == (a + turn) % 32)
}

// A certificate that Certify wrote.
struct Sound<'a> {
    filter: Filter<'a>,
    side: u8,
    d: usize,
    standard: Standard<'a>,
    certificate: Vec<u64>,
}

impl<'a> Sound<'a> {
    // What Certify writes of the side at degree d, unless it refuses.
    fn certified(filter: Filter<'a>, side: u8, d: usize) -> Option<Sound<'a>> {
        let mut certificate = vec![0; 4096];
        library::certify(filter, side, d, &mut [0; 8192], &mut certificate).ok()?;
        let standard = Standard::of(filter, side, d);
        assert!(standard.right(&certificate), "{filter:?}, side {side}, d = {d}");
        Some(Sound { filter, side, d, standard, certificate })
    }

    // The certificate changes at the places.
    fn change(&mut self, places: &[Place]) {
        places.iter().for_each(|(a, q)| turn(&mut self.certificate, *a, *q));
    }

    // Whether the certificate, changed at the places, gets a yes: both implementations say the same. The certificate is
    // as it was at exit.
    fn stays_right(&mut self, places: &[Place]) -> bool {
        self.change(places);
        let proved = library::check(self.filter, self.side, self.d, black_box(&self.certificate));
        let plain = places.iter().all(|(a, _)| self.standard.right_at(black_box(&self.certificate), *a));
        let Sound { filter, side, d, .. } = self;
        assert_eq!(proved, Ok(plain), "Check of {filter:?}, side {side}, d = {d}, changed at {places:?}");
        self.change(places);
        plain
    }

    // One bit changed always leads to a no. In a row that must be zero it is a one; in the row of a point outside the
    // part it names a point that may not be named, or adds a row to the sum, and no row is zero: each has a one for the
    // exponent 0.
    fn break_at(&mut self, place: Place) {
        assert!(!self.stays_right(&[place]), "a yes with one bit changed at {place:?}");
    }

    // The same of each of the places.
    fn break_at_each(&mut self, places: impl Iterator<Item = Place>) {
        let entry = self.certificate.clone();
        places.for_each(|place| self.break_at(place));
        assert!(black_box(&self.certificate) == &entry, "the certificate after all");
    }

    // The points of the set outside the part.
    fn outside(&self) -> Vec<usize> {
        self.filter.part(1 - self.side)
    }

    // Whether there is such a point, which has a sum.
    fn has_sum(&self) -> bool {
        !self.outside().is_empty()
    }

    // The span of the rows of the part.
    fn part_rows(&self) -> Span {
        row_span(&self.filter.part(self.side), self.d)
    }

    // The points by their kind: those of the part, those of the set outside it, those of n taps outside the set, and
    // all that are no points of n taps.
    fn kinds(&self) -> [Vec<usize>; 4] {
        let (size, set) = (1 << self.filter.n, self.filter.set);
        let off = (0..size).filter(|a| set[*a] == 0).collect();
        [self.filter.part(self.side), self.outside(), off, (size..512).collect()]
    }
}

// What Certify writes of the filter, of each side at each degree.
fn certificates(filter: Filter<'_>) -> impl Iterator<Item = Sound<'_>> {
    (0..=filter.n).flat_map(move |d| [1, 0].into_iter().filter_map(move |side| Sound::certified(filter, side, d)))
}

// Every one of the 262,144 bits changed of a certificate with a sum, that of the highest degree that the filter has;
// the filters are drawn, one of all points and one of points at random, until there is such a certificate.
fn break_every_bit(seed: u64, n: usize) {
    let mut random = Random(seed);
    for kind in [0, 5] {
        while !break_drawn(&mut random, n, kind) {}
    }
}

// The same of one filter with this kind of set; whether it has such a certificate.
fn break_drawn(random: &mut Random, n: usize, kind: usize) -> bool {
    let (set, table) = (random.set(n, kind), random.table(n, 4));
    let found = certificates(Filter { n, set: &set, table: &table }).filter(|sound| sound.has_sum());
    let Some(mut sound) = found.last() else {
        return false;
    };
    sound.break_at_each(every_place());
    true
}

#[test]
fn one_bit_changed_leads_to_a_no_wherever_it_stands_in_certificates_of_three_and_four_taps() {
    break_every_bit(3, 3);
    break_every_bit(4, 4);
}

// Every two bits of the rows and columns of n taps changed; how often that leaves the certificate right.
fn right_after_two(sound: &mut Sound) -> usize {
    let points: Vec<usize> = (0..1 << sound.filter.n).collect();
    let places = pairs(&points, &points);
    let twos = pairs(&places, &places).into_iter().filter(|(one, other)| one < other);
    twos.filter(|(one, other)| sound.stays_right(&[*one, *other])).count()
}

// Every set and every table of one and two taps.
fn filters_of_few_taps() -> Vec<(usize, Vec<u8>, Vec<u8>)> {
    let mut filters = Vec::new();
    for n in [1, 2] {
        let masks = masks(n);
        masks.iter().for_each(|set| filters.extend(masks.iter().map(|table| (n, set.clone(), table.clone()))));
    }
    filters
}

#[test]
fn two_bits_changed_lead_to_the_independent_answer_on_every_set_and_table_of_one_and_two_taps() {
    let mut right = Vec::new();
    for (n, set, table) in &filters_of_few_taps() {
        certificates(Filter { n: *n, set, table }).for_each(|mut sound| right.push(right_after_two(&mut sound)));
    }
    let of_all: usize = right.iter().sum();
    assert_eq!((right.len(), of_all), (754, 96), "at degree 0, where all points of the part have the same row");
}

#[test]
fn one_bit_changed_leads_to_a_no_in_every_row_on_every_set_and_table_of_one_and_two_taps() {
    let (mut met, mut turn) = (HashSet::new(), 0);
    for (n, set, table) in &filters_of_few_taps() {
        for mut sound in certificates(Filter { n: *n, set, table }) {
            sound.break_at_each(places_in_turn(*n, turn));
            met.extend(places_in_turn(*n, turn).filter(|_| turn < 32));
            turn += 1;
        }
    }
    assert_eq!((turn, met.len()), (754, every_place().count()), "every bit was changed in some certificate");
}

// Certify of no point writes zeros, of each side at each degree; one bit changed leads to a no, and so do two.
#[test]
fn on_no_point_of_every_n_one_bit_or_two_in_every_row_lead_to_a_no() {
    let mut random = Random(8);
    for (n, kind) in pairs(&[1, 2, 3, 4, 5, 6, 7, 8, 9], &TABLES) {
        let (set, table) = (random.set(n, NO_POINT), random.table(n, kind));
        let sounds: Vec<Sound> = certificates(Filter { n, set: &set, table: &table }).collect();
        assert_eq!(sounds.len(), 2 * (n + 1), "n = {n}, table {table:?}");
        for mut sound in sounds {
            assert!(sound.certificate.iter().all(|number| *number == 0), "n = {n}, table {table:?}");
            for a in 0..512 {
                let [b, p, q] = [(); 3].map(|_| random.below(512));
                sound.break_at((a, q));
                assert!(p == q || !sound.stays_right(&[(a, q), (a, p)]));
                assert!(b == a || !sound.stays_right(&[(a, q), (b, q)]));
            }
        }
    }
}

#[test]
fn on_no_point_of_nine_taps_one_bit_leads_to_a_no_wherever_it_stands() {
    let (set, table) = (mask_of(9, |_| false), Random(9).table(9, 4));
    let found = certificates(Filter { n: 9, set: &set, table: &table });
    found.filter(|sound| [0, 9].contains(&sound.d)).for_each(|mut sound| sound.break_at_each(every_place()));
}

#[test]
fn there_are_as_many_right_certificates_on_the_points_of_two_taps_as_choices_of_dependencies() {
    let sets = [mask_of(2, |_| true), mask_of(2, |_| false)];
    let tables = [mask_of(2, |a| a == 3), mask_of(2, |a| a == 1 || a == 2)];
    for (set, table) in pairs(&sets.each_ref(), &tables.each_ref()) {
        for mut sound in certificates(Filter { n: 2, set, table }) {
            let changed = |bits: usize| (0..16).filter(|i| bits >> i & 1 == 1).map(|i| (i / 4, i % 4)).collect();
            let changes: Vec<Vec<Place>> = (0..1 << 16).map(changed).collect();
            let right = changes.iter().filter(|places| sound.stays_right(places)).count();
            let Dependencies(basis) = Dependencies::of(sound.filter, sound.side, sound.d);
            assert_eq!(right, 1 << (basis.len() * sound.outside().len()), "each sum with each dependency");
        }
    }
}

// Does the same with each certificate that has a sum, of filters of each n and every kind of set and table, so many of
// each: as Certify writes it, or with other sums.
fn for_each_drawn(seed: u64, taps: &[usize], count: usize, mut change: impl FnMut(&mut Random, Sound)) {
    let mut random = Random(seed);
    for (n, (for_set, for_table)) in pairs(taps, &kinds().repeat(count)) {
        let (set, table) = (random.set(n, for_set), random.table(n, for_table));
        for mut sound in certificates(Filter { n, set: &set, table: &table }).filter(|sound| sound.has_sum()) {
            if random.below(2) == 1 {
                sound.certificate = random.other_sums(sound.filter, sound.side, sound.d, &sound.certificate);
            }
            change(&mut random, sound);
        }
    }
}

#[test]
fn one_bit_changed_leads_to_a_no_in_every_kind_of_row_and_column_of_five_to_nine_taps() {
    for_each_drawn(5, &[5, 6, 7, 8, 9], 1, |random, mut sound| {
        let kinds = sound.kinds();
        let lists: Vec<&[usize]> = kinds.iter().map(|points| &points[..]).filter(|points| !points.is_empty()).collect();
        for (rows, columns) in pairs(&lists, &lists.repeat(20)) {
            let [(a, q), (b, p)] = [0, 1].map(|_| (random.pick(rows), random.pick(columns)));
            sound.break_at((a, q));
            sound.stays_right(&[(a, q), (a, p)]);
            sound.stays_right(&[(a, q), (b, p)]);
        }
    });
}

#[test]
fn a_sum_that_is_wrong_in_one_column_alone_gets_a_no() {
    for_each_drawn(6, &[1, 2, 3, 4, 5, 6, 7, 8, 9], 2, |random, mut sound| {
        let (n, outside, rows) = (sound.filter.n, sound.outside(), sound.part_rows());
        let sums = columns(n, sound.d).into_iter().map(|u| rows.express(Bits::from_iter([u])));
        let found: Vec<Bits> = sums.flatten().collect();
        assert!(found.len() == columns(n, sound.d).len() || sound.filter.set[..1 << n].contains(&0));
        for added in found {
            let a = random.pick(&outside);
            assert!(!sound.stays_right(&added.places().map(|q| (a, q)).collect::<Vec<Place>>()));
        }
    });
}

#[test]
fn a_right_sum_with_a_point_that_is_not_of_the_part_gets_a_no() {
    for_each_drawn(7, &[1, 2, 3, 4, 5, 6, 7, 8, 9], 1, |random, mut sound| {
        let (size, outside, rows) = (1 << sound.filter.n, sound.outside(), sound.part_rows());
        let [_, others @ ..] = sound.kinds();
        for q in others.concat() {
            // past n taps q has the row of a point of n taps, in the columns of n taps
            let (a, same) = (random.pick(&outside), rows.express(row(sound.d, q % size)));
            let places: Vec<Place> = same.iter().flat_map(|sum| sum.places()).chain([q]).map(|p| (a, p)).collect();
            assert!(!sound.stays_right(&places), "a yes with {q}, which is not of the part");
        }
    });
}
