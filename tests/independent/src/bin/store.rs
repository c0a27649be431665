// Writes the files of the repository that come from the independent implementation.
use independent::stored::{root, stored};
use std::fs;

// Writes each of them, where it is not so already.
fn main() {
    for file in stored() {
        let path = root().join(&file.path);
        if fs::read(&path).is_ok_and(|content| content == file.content) {
            continue;
        }
        fs::create_dir_all(path.parent().expect("a folder")).expect("the folder is there");
        fs::write(&path, &file.content).expect("the file is written");
        println!("{}", file.path);
    }
}
