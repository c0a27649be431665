// The files of the repository that come from this implementation: what the program `cases` reads and must print, and the
// examples with their sheets.
use crate::named::{cases, examples};
use crate::sheet::sheet;
use std::path::{Path, PathBuf};

// A file: its path from the root of the repository, and what stands in it.
pub struct Stored {
    pub path: String,
    pub content: Vec<u8>,
}

// The root of the repository.
pub fn root() -> PathBuf {
    Path::new(env!("CARGO_MANIFEST_DIR")).join("../..")
}

impl Stored {
    // Whether it is there to be read as a filter file: the data of `cases`, and the examples.
    pub fn is_filter_file(&self) -> bool {
        self.path.starts_with("crates/cases/data/") || self.path.ends_with(".filter")
    }
}

// The folders in which every file is stored, but for what is there to be read.
pub const FOLDERS: [&str; 2] = ["crates/cases/data", "examples"];

// The files of the program `cases`: its data, its arguments, and what it prints: each file's name and its sheet.
fn of_cases() -> Vec<Stored> {
    let (mut files, mut args, mut stdout) = (Vec::new(), String::new(), String::new());
    for case in cases() {
        args += &format!("{}\n", case.name);
        stdout += &format!("{}\n{}", case.name, sheet(&case.file));
        files.push(Stored { path: format!("crates/cases/data/{}", case.name), content: case.file });
    }
    files.push(Stored { path: "crates/cases/args".to_string(), content: args.into_bytes() });
    files.push(Stored { path: "crates/cases/stdout".to_string(), content: stdout.into_bytes() });
    files
}

// Each example and its sheet.
fn of_examples() -> impl Iterator<Item = Stored> {
    examples().into_iter().flat_map(|example| {
        let path = |ending: &str| format!("examples/{}.{ending}", example.name);
        let sheet = sheet(&example.file).into_bytes();
        [Stored { path: path("sheet"), content: sheet }, Stored { path: path("filter"), content: example.file }]
    })
}

// All of them.
pub fn stored() -> Vec<Stored> {
    of_cases().into_iter().chain(of_examples()).collect()
}
