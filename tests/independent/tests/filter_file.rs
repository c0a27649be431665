// Read of the independent implementation, against the listed files and the files of triples.
use independent::filter_file::{Triple, house_number, parse, read};
use independent::random::Random;
use independent::rank::points_of;
use independent::refusal::Refusal;
use independent::samples::{LISTED_FILES, PRINTED_FILE, TABLES, mask_of, pairs};

#[test]
fn the_listed_files() {
    for (file, number) in LISTED_FILES {
        let (mut set, mut table) = (vec![7; 512], vec![7; 512]);
        assert_eq!(read(file, &mut set, &mut table).err().unwrap_or(0), number, "{file:02x?}");
        assert!(number == 0 || (set == [7; 512] && table == [7; 512]));
    }
}

#[test]
fn the_file_of_the_printed_sheet() {
    let (mut set, mut table) = (vec![7; 512], vec![7; 512]);
    assert_eq!(read(&PRINTED_FILE, &mut set, &mut table), Ok(2));
    assert_eq!((set, table), (mask_of(2, |_| true), mask_of(2, |a| a == 3)));
}

#[test]
fn a_count_of_no_points_is_read_of_either_list() {
    let mut random = Random(2);
    for (n, kind) in pairs(&[1, 2, 3, 4, 5, 6, 7, 8, 9], &TABLES) {
        let points = points_of(&random.table(n, kind));
        for (set, table) in [(vec![], points.clone()), (points, vec![])] {
            let triple = Triple { n, set, table };
            assert_eq!(parse(&triple.file()), Ok(triple));
        }
    }
    assert_eq!(Triple { n: 1, set: vec![], table: vec![] }.file(), [1, 0, 0]);
}

#[test]
fn the_file_of_a_triple_says_that_triple() {
    let mut random = Random(1);
    for triple in (0..9000).map(|i| random.triple(1 + i % 9)) {
        assert!(triple.file().len() <= 2053);
        assert_eq!(parse(&triple.file()), Ok(triple));
    }
}

#[test]
fn a_file_that_is_read_is_the_file_of_what_it_says() {
    let mut read = 0;
    for code in 0..7usize.pow(7) {
        let file = [0, 1, 2, 3, 4, 5, 6].map(|i| [0, 1, 2, 3, 4, 0x81, 0x80][code / 7usize.pow(i) % 7]);
        for length in 3..=7 {
            if let Ok(triple) = parse(&file[..length]) {
                assert_eq!(triple.file(), &file[..length]);
                read += 1;
            }
        }
    }
    assert!(read > 1000);
}

#[test]
fn numbers_at_the_ends_of_one_and_two_groups() {
    assert_eq!([0, 127, 128, 16383].map(house_number), [vec![0], vec![0x7f], vec![0x80, 1], vec![0xff, 0x7f]]);
    let point = |a: usize| Triple { n: 9, set: vec![a], table: vec![a] };
    for a in [0, 127, 128, 511] {
        assert_eq!(parse(&point(a).file()), Ok(point(a)));
    }
    assert_eq!(parse(&point(512).file()), Err(Refusal::Range));
    assert_eq!(parse(&point(16383).file()), Err(Refusal::Range));
}

#[test]
fn a_wrong_buffer_comes_before_the_file() {
    for (set, table) in [(511, 512), (512, 513), (0, 0)] {
        assert_eq!(read(&[], &mut vec![0; set], &mut vec![0; table]), Err(1));
    }
}
