// The weightwise perfectly balanced function of the examples, against table 4 of Bonamino and Méaux
// (docs/SPECIFICATION.md, 'Sources').
use independent::filter::Filter;
use independent::judgement::judge;
use independent::named::perfectly_balanced;
use independent::normal_form::weight;
use independent::samples::mask_of;

#[test]
fn the_function_is_balanced_on_every_weight() {
    for w in 1..=7 {
        let slice = (0..256).filter(|a| weight(*a) == w);
        let (ones, zeros): (Vec<_>, Vec<_>) = slice.partition(|a| perfectly_balanced(*a));
        assert_eq!(ones.len(), zeros.len(), "weight {w}");
    }
    assert!(!perfectly_balanced(0) && perfectly_balanced(255));
}

#[test]
fn its_immunity_on_each_weight_is_that_of_table_4() {
    let table = mask_of(8, perfectly_balanced);
    let degrees = [0, 1, 2, 3, 4, 5, 6, 7, 8].map(|w| {
        let filter = Filter { n: 8, set: &mask_of(8, |a| weight(a) == w), table: &table };
        let [mut one, mut zero, mut kept] = [[0; 512]; 3];
        judge(filter, &mut [0; 8192], &mut one, &mut zero, &mut kept).expect("accepted").degree
    });
    assert_eq!(degrees, [0, 1, 1, 2, 2, 2, 2, 1, 0].map(Some));
}
