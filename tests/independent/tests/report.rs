// The report of Judge by the independent implementation, against reports that are written out.
use independent::filter::Filter;
use independent::report::judge;
use independent::samples::mask_of;

// What Judge answers of a filter of two taps with all points or none and f one at 3, and the report of the length, whose
// numbers all were 7.
fn reported(all: bool, length: usize) -> (Result<(), u8>, Vec<u32>) {
    let (set, table) = (mask_of(2, |_| all), mask_of(2, |a| a == 3));
    let ([mut one, mut zero, mut kept], mut report) = ([[0; 512]; 3], vec![7; length]);
    let filter = Filter { n: 2, set: &set, table: &table };
    let answer = judge(filter, &mut [0; 8192], &mut one, &mut zero, &mut kept, &mut report);
    (answer.map(|_| ()), report)
}

#[test]
fn the_report_of_case_5_and_of_no_point() {
    let ranks = [1, 1, 1, 3, 1, 3, 4, 1, 3];
    let wanted = [&ranks[..], &[0; 21], &[1, 1, 19, 1, 2, 1]].concat();
    assert_eq!(reported(true, 36), (Ok(()), wanted));
    assert_eq!(reported(false, 36), (Ok(()), [&[0; 30][..], &[10, 2, 0, 10, 10, 10]].concat()));
}

#[test]
fn a_report_of_another_length_is_refused_and_stays() {
    for length in [0, 1, 35, 37, 72] {
        assert_eq!(reported(true, length), (Err(1), vec![7; length]), "{length} numbers");
    }
}
