// The proved sheet program against the independent implementation, byte for byte.
use independent::filter_file::Triple;
use independent::random::Random;
use independent::rank::points_of;
use independent::samples::{LISTED_FILES, NO_POINT, PRINTED_FILE, TABLES, Tally, kinds, of_weights, pairs};
use independent::sheet::sheet;
use program::{limited, offer, printed, run_fed, sheet_of, sheet_program};
use std::fs::File;
use std::process::ChildStdin;
use std::thread::sleep;
use std::time::Duration;

const TAPS: [usize; 9] = [1, 2, 3, 4, 5, 6, 7, 8, 9];

// The number of the refusal that the sheet is, or 0.
fn refusal(text: &str) -> u8 {
    text.strip_prefix("refused ").map_or(0, |number| number.trim_end().parse().expect("a number"))
}

// The number behind the word on the sheet, where the word stands first, or none.
fn number_behind(word: &str, text: &str) -> Option<usize> {
    let behind = text.split_whitespace().skip_while(|found| *found != word).nth(1).expect("a number or none");
    (behind != "none").then(|| behind.parse().expect("a number"))
}

// The sheet of a filter has a degree and a mark exactly if the set has a point, and the degree is not over the mark.
fn check_degree(text: &str) {
    let [points, degree, mark] = ["points", "degree", "mark"].map(|word| number_behind(word, text));
    assert_eq!([degree.is_some(), mark.is_some()], [points != Some(0); 2], "none or a number:\n{text}");
    assert!(degree <= mark, "over the mark:\n{text}");
}

// Both sheets of each input are the same. The numbers that were answered so often, 0 for a filter judged.
fn compare(inputs: &[Vec<u8>], least: usize) -> Vec<usize> {
    let mut tally = Tally::default();
    for input in inputs {
        let text = sheet_of(input);
        assert!(text == sheet(input), "the sheet of {input:02x?} is\n{text}");
        let number = refusal(&text);
        if number == 0 {
            check_degree(&text);
        }
        tally.count(if number == 0 { Ok(()) } else { Err(number) });
    }
    tally.numbers(least)
}

// The file of the set and the table of n taps.
fn file(n: usize, set: &[u8], table: &[u8]) -> Vec<u8> {
    Triple { n, set: points_of(set), table: points_of(table) }.file()
}

// So many files of each kind of set and each kind of table of n taps.
fn files(random: &mut Random, n: usize, count: usize) -> Vec<Vec<u8>> {
    let drawn = kinds().repeat(count).into_iter().map(|(for_set, for_table)| {
        let (set, table) = (random.set(n, for_set), random.table(n, for_table));
        file(n, &set, &table)
    });
    drawn.collect()
}

#[test]
fn the_listed_files() {
    for (file, number) in LISTED_FILES {
        assert_eq!(compare(&[file.to_vec()], 1), [usize::from(number)], "{file:02x?}");
    }
}

#[test]
fn every_kind_of_filter_of_up_to_six_taps() {
    let mut random = Random(1);
    for n in 1..=6 {
        assert_eq!(compare(&files(&mut random, n, 5), 5 * kinds().len()), [0]);
    }
}

#[test]
fn every_kind_of_filter_of_seven_to_nine_taps() {
    let mut random = Random(2);
    for (n, count) in [(7, 3), (8, 1), (9, 1)] {
        assert_eq!(compare(&files(&mut random, n, count), count * kinds().len()), [0]);
    }
}

#[test]
fn on_no_point_of_every_n_the_lines_are_of_zeros_and_none_with_every_kind_of_table() {
    let mut random = Random(8);
    for (n, kind) in pairs(&TAPS, &TABLES) {
        let input = file(n, &random.set(n, NO_POINT), &random.table(n, kind));
        let (text, ranks) = (sheet_of(&input), (0..=n).map(|d| format!("{d} 0 0 0\n")).collect::<String>());
        let lines = format!("n {n} points 0 mark none\n{ranks}degree none\nsides none none\nadditions 0\n");
        assert_eq!([&text, &sheet(&input)], [&lines; 2], "{input:02x?}");
    }
}

// Both sheets of each of the unions of weights of n taps, bit w for the weight w; the kinds of table take turns.
fn compare_unions(random: &mut Random, n: usize, unions: impl Iterator<Item = usize>) {
    let with_table = |(kind, weights)| file(n, &of_weights(n, weights), &random.table(n, kind));
    let inputs: Vec<Vec<u8>> = unions.enumerate().map(with_table).collect();
    assert_eq!(compare(&inputs, inputs.len()), [0]);
}

#[test]
fn every_union_of_weights_of_up_to_six_taps() {
    let mut random = Random(6);
    (1..=6).for_each(|n| compare_unions(&mut random, n, 0..1 << (n + 1)));
}

#[test]
fn every_weight_and_every_two_neighbours_of_seven_to_nine_taps() {
    let mut random = Random(7);
    for n in 7..=9 {
        compare_unions(&mut random, n, (0..=n).map(|w| 1 << w));
        compare_unions(&mut random, n, (0..n).map(|w| 3 << w));
    }
}

// The file with a change at a random place: cut there, or a byte dropped, replaced or put in.
fn damage(random: &mut Random, mut file: Vec<u8>) -> Vec<u8> {
    let (place, value) = (random.below(file.len()), random.pick(&[0, 1, 2, 3, 9, 0x0a, 0x7f, 0x80, 0x81, 0xff]));
    match random.below(4) {
        0 => file.truncate(place),
        1 => drop(file.remove(place)),
        2 => file[place] = value,
        _ => file.insert(place, value),
    }
    file
}

#[test]
fn damaged_files() {
    let mut random = Random(3);
    let inputs: Vec<Vec<u8>> = (0..900)
        .map(|i| {
            let file = random.triple(TAPS[i % 9]).file();
            damage(&mut random, file)
        })
        .collect();
    assert_eq!(compare(&inputs, 5), [0, 2, 3, 4, 5, 7]);
}

#[test]
fn random_bytes() {
    let mut random = Random(4);
    let inputs: Vec<Vec<u8>> = (0..400)
        .map(|_| {
            let (length, most) = (random.below(16), random.pick(&[2, 3, 4, 10, 256]));
            (0..length).map(|_| random.below(most) as u8).collect()
        })
        .collect();
    assert_eq!(compare(&inputs, 5), [0, 2, 3, 4, 5, 7]);
}

#[test]
fn inputs_of_4096_bytes_and_longer() {
    let mut random = Random(5);
    for (n, length) in pairs(&TAPS, &[4095, 4096, 4097, 5000, 10_000, 100_000]) {
        let file = random.triple(n).file();
        for ground in [vec![0; length], random.bytes(length)] {
            let long = [&file, &ground[file.len()..]].concat();
            assert_eq!(compare(&[long], 1), [7]);
            compare(&[ground], 1);
        }
    }
}

// What the program prints when its input is fed so.
fn fed(feed: fn(ChildStdin) -> Option<ChildStdin>) -> String {
    printed(run_fed(limited(&sheet_program()), feed))
}

#[test]
fn an_endless_input_ends() {
    let zeros = File::open("/dev/zero").expect("a device of zeros");
    let output = limited(&sheet_program()).stdin(zeros).output().expect("the program starts");
    assert_eq!(printed(output), sheet(&[0; 5000]));
    let text = fed(|mut pipe| {
        while offer(&mut pipe, &[1; 1000]) {}
        None
    });
    assert_eq!(text, sheet(&[1; 5000]));
}

#[test]
fn a_pipe_that_stays_open_after_4096_bytes_is_not_waited_for() {
    let text = fed(|mut pipe| {
        offer(&mut pipe, &[2; 4096]);
        Some(pipe)
    });
    assert_eq!(text, sheet(&[2; 4096]));
}

#[test]
fn an_input_that_comes_byte_by_byte() {
    let text = fed(|mut pipe| {
        for byte in PRINTED_FILE {
            offer(&mut pipe, &[byte]);
            sleep(Duration::from_millis(10));
        }
        None
    });
    assert_eq!(text, sheet(&PRINTED_FILE));
}
