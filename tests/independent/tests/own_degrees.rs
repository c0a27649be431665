// Each side's own degree as Judge of the independent implementation answers it, against what is known of it, the
// reported degree and the side.
use independent::filter::Filter;
use independent::judgement::judge;
use independent::random::Random;
use independent::samples::{kinds, masks, pairs};

// Side 1's own degree and side 0's. There is none exactly where the side's part is all of the set, the reported degree
// is the smaller of those that exist and not over the mark, and the side is 1 exactly where that is side 1's. A reported
// degree, a side and a mark are there exactly where the set has a point.
fn own_degrees(filter: Filter) -> [Option<usize>; 2] {
    let [mut one, mut zero, mut kept] = [[0; 512]; 3];
    let found = judge(filter, &mut [0; 8192], &mut one, &mut zero, &mut kept).expect("accepted");
    let whole = [1, 0].map(|side| (0..512).all(|a| filter.set[a] == 0 || filter.table[a] == side));
    assert_eq!(found.own_degrees.map(|degree| degree.is_none()), whole, "{filter:?}");
    assert_eq!(found.own_degrees.into_iter().flatten().min(), found.degree, "{filter:?}");
    assert_eq!(found.degree.map(|k| u8::from(found.own_degrees[0] == Some(k))), found.side, "{filter:?}");
    assert_eq!([found.degree, found.mark].map(|number| number.is_some()), [filter.set.contains(&1); 2], "{filter:?}");
    assert!(found.degree <= found.mark, "over the mark: {filter:?}");
    found.own_degrees
}

#[test]
fn every_set_and_table_of_up_to_three_taps() {
    for n in [1, 2, 3] {
        let masks = masks(n);
        for set in &masks {
            masks.iter().for_each(|table| _ = own_degrees(Filter { n, set, table }));
        }
    }
}

#[test]
fn every_kind_of_filter_of_four_to_nine_taps() {
    let mut random = Random(1);
    for (n, (for_set, for_table)) in pairs(&[4, 5, 6, 7, 8, 9], &kinds()) {
        let (set, table) = (random.set(n, for_set), random.table(n, for_table));
        own_degrees(Filter { n, set: &set, table: &table });
    }
}

#[test]
fn filters_of_every_n_whose_own_degrees_are_known() {
    let mut random = Random(2);
    for known in (1..=9).flat_map(|n| random.known(n)) {
        assert_eq!(own_degrees(known.filter()), known.own_degrees, "{:?}", known.filter());
    }
}
