// The printed sheet of the independent implementation, against that of docs/SPECIFICATION.md, 'Sheet'.
use independent::filter_file::Triple;
use independent::random::Random;
use independent::rank::points_of;
use independent::samples::{LISTED_FILES, PRINTED_FILE, TABLES, pairs};
use independent::sheet::sheet;

#[test]
fn the_printed_sheet() {
    let lines = [
        "n 2 points 4 mark 1",
        "0 1 1 1",
        "1 3 1 3",
        "2 4 1 3",
        "degree 1 side 1 witness 0 1",
        "sides 1 2",
        "side 1 point 0 sum 3",
        "side 1 point 1 sum 3",
        "side 1 point 2 sum 3",
        "side 0 point 3 sum 0",
        "additions 19",
    ];
    assert_eq!(sheet(&PRINTED_FILE).lines().collect::<Vec<_>>(), lines);
}

#[test]
fn the_first_line_has_the_mark_of_the_set() {
    let case_11 = Triple { n: 4, set: vec![3, 5, 6, 9, 10, 12], table: vec![3, 5, 6] };
    assert_eq!(sheet(&case_11.file()).lines().next(), Some("n 4 points 6 mark 1"));
}

#[test]
fn a_refusal_is_one_line() {
    for (file, number) in LISTED_FILES.into_iter().filter(|(_, number)| *number != 0) {
        assert_eq!(sheet(file), format!("refused {number}\n"));
    }
}

#[test]
fn a_degree_of_zero_has_no_sums_and_leaves_one_side_without() {
    let sheets = [[1, 1, 0, 0].as_slice(), &[1, 1, 0, 1, 0]].map(sheet);
    let first = "n 1 points 1 mark 0\n";
    let zero = "0 1 0 1\n1 1 0 1\ndegree 0 side 1 witness 0\nsides 0 none\nadditions 0\n";
    let one = "0 1 1 0\n1 1 1 0\ndegree 0 side 0 witness 0\nsides none 0\nadditions 0\n";
    assert_eq!(sheets, [zero, one].map(|lines| format!("{first}{lines}")));
}

#[test]
fn on_no_point_the_sheet_says_none() {
    for file in [[1, 0, 0].as_slice(), &[1, 0, 1, 0], &[1, 0, 1, 1], &[1, 0, 2, 0, 1]] {
        let lines = ["n 1 points 0 mark none", "0 0 0 0", "1 0 0 0", "degree none", "sides none none", "additions 0"];
        assert_eq!(sheet(file).lines().collect::<Vec<_>>(), lines, "{file:02x?}");
    }
}

#[test]
fn on_no_point_the_sheet_has_zeros_up_to_n_whatever_the_table() {
    let mut random = Random(1);
    for (n, kind) in pairs(&[1, 2, 3, 4, 5, 6, 7, 8, 9], &TABLES) {
        let file = Triple { n, set: vec![], table: points_of(&random.table(n, kind)) }.file();
        let ranks: String = (0..=n).map(|d| format!("{d} 0 0 0\n")).collect();
        let last = "degree none\nsides none none\nadditions 0\n";
        assert_eq!(sheet(&file), format!("n {n} points 0 mark none\n{ranks}{last}"), "{file:02x?}");
    }
}

#[test]
fn input_past_4096_bytes_is_not_looked_at() {
    let mut input = vec![9; 5000];
    let long = sheet(&input);
    input.truncate(4096);
    assert_eq!(long, sheet(&input));
}
