// Write of the independent implementation, against files written out by hand, and against Read.
use independent::filter::Filter;
use independent::filter_file::{Triple, house_number, parse, write};
use independent::random::Random;
use independent::samples::{PRINTED_FILE, kinds, mask_of, pairs};

// The file that Write leaves at the front of an output of 2,053 bytes; the rest of the output stays as it was.
fn written(filter: Filter) -> Vec<u8> {
    let mut output = vec![0xa5; 2053];
    let length = write(filter, &mut output).expect("accepted");
    let rest = output.split_off(length);
    assert!(rest.iter().all(|byte| *byte == 0xa5));
    output
}

// The file of the listed points.
fn of_points(n: usize, set: &[usize], table: &[usize]) -> Vec<u8> {
    let [set, table] = [set, table].map(|points| mask_of(n, |a| points.contains(&a)));
    written(Filter { n, set: &set, table: &table })
}

// The first points, so many.
fn first(count: usize) -> Vec<usize> {
    (0..count).collect()
}

#[test]
fn the_file_of_the_printed_sheet() {
    assert_eq!(of_points(2, &[0, 1, 2, 3], &[3]), PRINTED_FILE);
}

#[test]
fn files_of_one_and_four_taps() {
    assert_eq!(of_points(1, &[], &[]), [1, 0, 0]);
    assert_eq!(of_points(1, &[], &[0, 1]), [1, 0, 2, 0, 1]);
    assert_eq!(of_points(1, &[0], &[]), [1, 1, 0, 0]);
    assert_eq!(of_points(1, &[1], &[0, 1]), [1, 1, 1, 2, 0, 1]);
    let even = [4, 8, 0, 3, 2, 1, 3, 1, 2, 3, 4, 6, 4, 2, 3];
    assert_eq!(of_points(4, &[0, 3, 5, 6, 9, 10, 12, 15], &[6, 10, 12, 15]), even);
    assert_eq!(of_points(4, &[], &[3, 5, 6]), [4, 0, 3, 3, 2, 1]);
}

#[test]
fn counts_at_the_ends_of_one_and_two_groups() {
    let ones = |count: usize| vec![1; count];
    assert_eq!(of_points(7, &first(127), &[]), [&[7, 0x7f, 0][..], &ones(126), &[0]].concat());
    assert_eq!(of_points(7, &first(128), &[]), [&[7, 0x80, 0x01, 0][..], &ones(127), &[0]].concat());
    assert_eq!(of_points(8, &[0], &first(255)), [&[8, 1, 0, 0xff, 0x01, 0][..], &ones(254)].concat());
    assert_eq!(of_points(9, &[0], &first(511)), [&[9, 1, 0, 0xff, 0x03, 0][..], &ones(510)].concat());
    assert_eq!(of_points(9, &[0], &first(512)), [&[9, 1, 0, 0x80, 0x04, 0][..], &ones(511)].concat());
}

#[test]
fn first_points_at_the_ends_of_one_and_two_groups() {
    assert_eq!(of_points(7, &[127], &[127]), [7, 1, 0x7f, 1, 0x7f]);
    assert_eq!(of_points(8, &[128], &[128]), [8, 1, 0x80, 0x01, 1, 0x80, 0x01]);
    assert_eq!(of_points(8, &[255], &[127]), [8, 1, 0xff, 0x01, 1, 0x7f]);
    assert_eq!(of_points(9, &[256], &[511]), [9, 1, 0x80, 0x02, 1, 0xff, 0x03]);
}

#[test]
fn differences_at_the_ends_of_one_and_two_groups() {
    assert_eq!(of_points(7, &[0, 127], &[]), [7, 2, 0, 0x7f, 0]);
    assert_eq!(of_points(8, &[1, 129], &[100, 227]), [8, 2, 1, 0x80, 0x01, 2, 100, 0x7f]);
    assert_eq!(of_points(9, &[0, 511], &[0, 256]), [9, 2, 0, 0xff, 0x03, 2, 0, 0x80, 0x02]);
    let both = [9, 3, 0x80, 0x01, 0x80, 0x01, 0xff, 0x01, 1, 0];
    assert_eq!(of_points(9, &[128, 256, 511], &[0]), both);
}

// How many bytes the longest list of points below the size has, found point by point.
fn longest_list(size: usize) -> usize {
    let mut most: Vec<usize> = Vec::new(); // of a list that ends at each point, but for its count
    for a in 0..size {
        let longer = most.iter().enumerate().map(|(before, bytes)| bytes + house_number(a - before).len());
        most.push(longer.chain([house_number(a).len()]).max().expect("a list"));
    }
    house_number(size).len() + most.into_iter().max().expect("a point")
}

#[test]
fn the_longest_file_has_every_point_twice() {
    let list = [&[0x80, 0x04, 0][..], &[1; 511]].concat();
    assert_eq!(of_points(9, &first(512), &first(512)), [&[9], &list[..], &list].concat());
    assert_eq!((longest_list(512), 1 + 2 * list.len()), (list.len(), 1029));
}

#[test]
fn what_is_written_says_the_same_triple() {
    let mut random = Random(1);
    for (n, (for_set, for_table)) in pairs(&[1, 2, 3, 4, 5, 6, 7, 8, 9], &kinds().repeat(20)) {
        let (set, table) = (random.set(n, for_set), random.table(n, for_table));
        let filter = Filter { n, set: &set, table: &table };
        assert_eq!(parse(&written(filter)), Ok(Triple::of(filter)));
    }
}

#[test]
fn an_output_of_every_length() {
    let (set, table) = (mask_of(2, |_| true), mask_of(2, |a| a == 3));
    for room in 0..12 {
        let mut output = vec![7; room];
        let answer = write(Filter { n: 2, set: &set, table: &table }, &mut output);
        if room < 8 {
            assert_eq!((answer, output), (Err(13), vec![7; room]));
        } else {
            assert_eq!((answer, output), (Ok(8), [&PRINTED_FILE, &vec![7; room - 8][..]].concat()));
        }
    }
}

#[test]
fn checks_come_in_order() {
    let (good, broken, none) = (vec![1; 512], vec![2; 512], vec![0; 512]);
    let number = |set: &[u8], table: &[u8], n, room| {
        let mut output = vec![7; room];
        let number = write(Filter { n, set, table }, &mut output).err().unwrap_or(0);
        assert_eq!(output == vec![7; room], number != 0);
        number
    };
    assert_eq!([(&broken[1..], &broken[..]), (&broken, &broken[1..])].map(|(s, t)| number(s, t, 0, 0)), [1, 1]);
    assert_eq!([0, 10].map(|n| number(&broken, &broken, n, 0)), [4, 4]);
    assert_eq!([(&broken, &none), (&none, &broken)].map(|(s, t)| number(s, t, 9, 0)), [8, 8]);
    assert_eq!([(&good, &none), (&none, &good)].map(|(s, t)| number(s, t, 8, 0)), [8, 8]);
    assert_eq!([0, 1028, 1029, 2053].map(|room| number(&good, &good, 9, room)), [13, 13, 0, 0]);
    assert_eq!([0, 515, 516, 2053].map(|room| number(&none, &good, 9, room)), [13, 13, 0, 0]);
    assert_eq!([0, 2, 3, 2053].map(|room| number(&none, &none, 9, room)), [13, 13, 0, 0]);
}
