// The proved sheet program on the examples: it prints the sheet that stands beside each.
use independent::named::examples;
use independent::stored::root;
use program::sheet_of;
use std::fs;

#[test]
fn the_sheet_beside_each_example() {
    let folder = root().join("examples");
    for name in examples().iter().map(|example| &example.name) {
        let [file, sheet] = ["filter", "sheet"].map(|ending| fs::read(folder.join(format!("{name}.{ending}"))));
        let printed = sheet_of(&file.expect("the example"));
        assert!(printed.into_bytes() == sheet.expect("its sheet"), "the sheet of {name}");
    }
}
