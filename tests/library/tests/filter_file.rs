// Read of the static library, compared with the independent implementation; and what is read, written again.
use independent::filter::Filter;
use independent::filter_file::{Triple, house_number, read};
use independent::random::Random;
use independent::rank::points_of;
use independent::samples::{LISTED_FILES, TABLES, Tally, damaged, mask_of, pairs};
use independent::stored::{root, stored};
use std::fs;
use std::hint::black_box;

// The file that Write writes of n, the set and the table.
fn written(n: usize, [set, table]: &[Vec<u8>; 2]) -> Vec<u8> {
    let mut output = vec![0; 2053];
    let length = library::write(Filter { n, set, table }, &mut output).expect("accepted");
    output.truncate(length);
    output
}

// Compares files, and counts the numbers answered, 0 for those read.
struct Comparison {
    random: Random,
    tally: Tally,
}

impl Comparison {
    // A comparison that has seen nothing.
    fn new(seed: u64) -> Comparison {
        Comparison { random: Random(seed), tally: Tally::default() }
    }

    // Both Reads of the file into buffers of these lengths full of random bytes: the same answer, the same whole
    // buffers, and the file as it was. A file that is read, written again from what Read left, is itself.
    fn lend(&mut self, file: &[u8], lengths: [usize; 2]) -> (u8, [Vec<u8>; 2]) {
        let entry = lengths.map(|length| self.random.bytes(length));
        let ([mut set, mut table], [mut plain_set, mut plain_table]) = (entry.clone(), entry.clone());
        let lent = file.to_vec();
        let proved = library::read(black_box(&lent), &mut set, &mut table);
        assert_eq!(proved, read(file, &mut plain_set, &mut plain_table), "Read of {file:02x?}, lengths {lengths:?}");
        assert_eq!(black_box(&lent), file, "the file after Read");
        let exit = [set, table];
        assert_eq!(exit, [plain_set, plain_table], "the buffers after Read of {file:02x?}");
        match proved {
            Ok(n) => assert_eq!(written(n, &exit), file, "what is written after Read"),
            Err(number) => assert!(exit == entry, "refusal {number} wrote, file {file:02x?}"),
        }
        (self.tally.count(proved), exit)
    }

    // The file with buffers of the right lengths; the number answered.
    fn file(&mut self, file: &[u8]) -> u8 {
        self.lend(file, [512, 512]).0
    }

    // The file, damaged at the place.
    fn damage(&mut self, file: &[u8], place: usize, values: &[u8]) {
        damaged(file, place, values).iter().for_each(|file| _ = self.file(file));
    }

    // So many files of each n, damaged at every place.
    fn damage_files(&mut self, taps: std::ops::RangeInclusive<usize>, count: usize, values: &[u8]) {
        for n in taps.flat_map(|n| vec![n; count]) {
            let file = self.random.triple(n).file();
            (0..file.len()).for_each(|place| self.damage(&file, place, values));
        }
    }
}

// The mask of the points.
fn mask(n: usize, points: &[usize]) -> Vec<u8> {
    mask_of(n, |a| points.contains(&a))
}

#[test]
fn the_listed_files() {
    let mut comparison = Comparison::new(1);
    for (file, number) in LISTED_FILES {
        assert_eq!(comparison.file(file), number, "{file:02x?}");
    }
}

#[test]
fn the_stored_files() {
    let mut comparison = Comparison::new(9);
    for stored in stored().iter().filter(|stored| stored.is_filter_file()) {
        comparison.file(&fs::read(root().join(&stored.path)).expect("the stored file"));
    }
    assert_eq!(comparison.tally.numbers(1), [0, 2, 3, 4, 5, 7]);
    assert_eq!(comparison.tally.numbers(49), [0]);
}

#[test]
fn valid_files_of_every_n_are_read_in_full() {
    let mut comparison = Comparison::new(2);
    for n in 1..=9 {
        let all: Vec<usize> = (0..1 << n).collect();
        let mut triples: Vec<Triple> = (0..2000).map(|_| comparison.random.triple(n)).collect();
        triples.push(Triple { n, set: all.clone(), table: all.clone() });
        triples.push(Triple { n, set: all.clone(), table: vec![] });
        triples.push(Triple { n, set: vec![], table: all.clone() });
        triples.push(Triple { n, set: vec![], table: vec![] });
        triples.extend(all.iter().map(|a| Triple { n, set: vec![*a], table: vec![(1 << n) - 1 - a] }));
        triples.extend(all.iter().map(|a| Triple { n, set: vec![], table: vec![*a] }));
        for triple in triples {
            let (number, buffers) = comparison.lend(&triple.file(), [512, 512]);
            assert_eq!(number, 0);
            assert_eq!(buffers, [mask(n, &triple.set), mask(n, &triple.table)]);
        }
    }
}

#[test]
fn short_files_damaged_at_every_place_by_every_byte() {
    let (mut comparison, values): (_, Vec<u8>) = (Comparison::new(3), (0..=255).collect());
    comparison.damage_files(1..=4, 12, &values);
    assert_eq!(comparison.tally.numbers(100), [0, 2, 3, 4, 5, 7]);
}

#[test]
fn files_of_no_point_of_every_n_damaged_at_every_place_by_every_byte() {
    let (mut comparison, values): (_, Vec<u8>) = (Comparison::new(10), (0..=255).collect());
    for (n, kind) in pairs(&[1, 2, 3, 4, 5, 6, 7, 8, 9], &TABLES) {
        let file = Triple { n, set: vec![], table: points_of(&comparison.random.table(n, kind)) }.file();
        assert_eq!(comparison.file(&file), 0, "{file:02x?}");
        (0..file.len().min(6)).for_each(|place| comparison.damage(&file, place, &values));
    }
    assert_eq!(comparison.tally.numbers(100), [0, 2, 3, 4, 5, 7]);
}

#[test]
fn long_files_damaged_at_every_place() {
    let mut comparison = Comparison::new(4);
    comparison.damage_files(5..=9, 8, &[0, 1, 2, 0x35, 0x7f, 0x80, 0x81, 0xff]);
    assert_eq!(comparison.tally.numbers(500), [0, 2, 3, 5, 7]);
}

// The number in two groups, or with a third one, whatever the shortest form is.
fn longer_forms(number: usize) -> [Vec<u8>; 2] {
    let (low, high) = ((number % 128) as u8 + 128, (number / 128) as u8);
    [vec![low, high], vec![low, high + 128, 1]]
}

#[test]
fn every_number_of_a_file_replaced_by_numbers_of_one_and_two_groups() {
    let mut comparison = Comparison::new(5);
    for n in (1..=9).flat_map(|n| [n; 6]) {
        let numbers = comparison.random.triple(n).numbers();
        let forms: Vec<Vec<u8>> = numbers.iter().copied().map(house_number).collect();
        for i in 0..numbers.len().min(60) {
            for number in [0, 1, 2, 9, 126, 127, 128, 129, 255, 256, 511, 512, 513, 16382, 16383] {
                let [two, three] = longer_forms(number);
                for form in [house_number(number), two, three] {
                    comparison.file(&[forms[..i].concat(), form, forms[i + 1..].concat()].concat());
                }
            }
        }
    }
    assert_eq!(comparison.tally.numbers(50), [0, 2, 3, 4, 5, 7]);
}

#[test]
fn every_file_of_up_to_two_bytes_and_of_six_bytes_that_matter() {
    let mut comparison = Comparison::new(6);
    for number in 0..=0xffff_u16 {
        let bytes = number.to_le_bytes();
        for length in 0..=2 {
            comparison.file(&bytes[..length]);
        }
    }
    for code in 0..6usize.pow(6) {
        let file = [0, 1, 2, 3, 4, 5].map(|i| [0, 1, 2, 3, 0x80, 0x81][code / 6usize.pow(i) % 6]);
        comparison.file(&file);
    }
    assert_eq!(comparison.tally.numbers(10), [0, 2, 3, 4, 5, 7]);
}

#[test]
fn random_bytes_and_files_of_4096_bytes_and_longer() {
    let mut comparison = Comparison::new(7);
    for n in (1..=9).flat_map(|n| [n; 200]) {
        let file = comparison.random.triple(n).file();
        for length in [4095, 4096, 4097, 10_000] {
            let mut long = comparison.random.bytes(length);
            comparison.file(&long);
            long[..file.len()].copy_from_slice(&file);
            assert_eq!(comparison.file(&long), 7);
        }
        let (length, most) = (comparison.random.below(64), comparison.random.pick(&[2, 4, 10, 130, 256]));
        let bytes: Vec<u8> = (0..length).map(|_| comparison.random.below(most) as u8).collect();
        comparison.file(&[&[n as u8], &bytes[..]].concat());
    }
}

#[test]
fn buffers_of_wrong_lengths_are_refused_before_the_file_is_read() {
    let mut comparison = Comparison::new(8);
    let triples: Vec<Vec<u8>> = (1..=9).map(|n| comparison.random.triple(n).file()).collect();
    let lengths = [0, 1, 511, 512, 513, 1024];
    for lent in pairs(&lengths, &lengths).into_iter().map(|(set, table)| [set, table]) {
        for file in LISTED_FILES.iter().map(|(file, _)| *file).chain(triples.iter().map(|file| &file[..])) {
            assert_eq!(comparison.lend(file, lent).0 == 1, lent != [512, 512]);
        }
    }
}
