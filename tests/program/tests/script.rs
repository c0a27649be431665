// The script `sheet` at the root: what it answers, by which status, and that no failure passes in silence.
use independent::samples::PRINTED_FILE;
use independent::sheet::sheet;
use independent::stored::root;
use program::{limited, limited_to, run};
use std::fs::{self, File};
use std::os::unix::fs::symlink;
use std::path::{Path, PathBuf};
use std::process::Output;

// A new folder, which goes with this value.
struct Folder(PathBuf);

impl Folder {
    fn new(name: &str) -> Folder {
        let folder = std::env::temp_dir().join(format!("sheet-{name}-{}", std::process::id()));
        fs::create_dir(&folder).expect("a new folder");
        Folder(folder)
    }

    // Writes a file in it, and the folders above the file.
    fn write(&self, name: &str, bytes: &[u8]) {
        let file = self.0.join(name);
        fs::create_dir_all(file.parent().expect("a folder")).expect("folders");
        fs::write(file, bytes).expect("a file");
    }
}

impl Drop for Folder {
    fn drop(&mut self) {
        fs::remove_dir_all(&self.0).expect("the folder goes");
    }
}

// The script of the repository.
fn script() -> PathBuf {
    root().join("sheet").canonicalize().expect("the script")
}

// The exit status, and what stands on standard output and on standard error.
type Answer = (Option<i32>, String, String);

fn answer_of(output: Output) -> Answer {
    let [printed, said] = [output.stdout, output.stderr].map(|bytes| String::from_utf8(bytes).expect("text"));
    (output.status.code(), printed, said)
}

// What the script answers in the folder, with these words and bytes on standard input.
fn answer(folder: &Path, words: &[&str], input: &[u8]) -> Answer {
    let mut command = limited(&script());
    command.current_dir(folder).args(words);
    answer_of(run(command, input))
}

// What the shell answers to a line, with the script and the printed sample as $1 and $2.
fn shell(folder: &Folder, line: &str) -> Answer {
    folder.write("sample", &PRINTED_FILE);
    let mut command = limited(Path::new("bash"));
    command.args(["-c", line, "bash"]).arg(script()).arg(folder.0.join("sample"));
    answer_of(run(command, &[]))
}

#[test]
fn the_sheet_of_a_file_or_of_standard_input_with_status_0() {
    let folder = Folder::new("accepted");
    folder.write("two taps", &PRINTED_FILE);
    for (words, input) in [(&["two taps"][..], &[][..]), (&[], &PRINTED_FILE), (&["-"], &PRINTED_FILE)] {
        assert_eq!(answer(&folder.0, words, input), (Some(0), sheet(&PRINTED_FILE), String::new()), "{words:?}");
    }
}

// What the table of docs/SPECIFICATION.md, 'Refusals', says of the number.
fn words_of(number: u8) -> String {
    let text = fs::read_to_string(root().join("docs/SPECIFICATION.md")).expect("the specification");
    let row = text.lines().find(|line| line.starts_with(&format!("| {number} | `"))).expect("a row of the table");
    row.split(" | ").nth(2).expect("the column of reasons").to_string()
}

#[test]
fn a_refusal_has_status_3_and_says_what_the_specification_says_of_its_number() {
    let files: [(u8, &[u8]); 5] = [(2, &[]), (3, &[0x82, 0]), (4, &[0]), (5, &[1, 3]), (7, &[1, 0, 0, 0])];
    let folder = Folder::new("refused");
    for (number, file) in files {
        let line = format!("refused {number}");
        let said = format!("sheet: {line}: {}\n", words_of(number));
        assert_eq!(answer(&folder.0, &["-"], file), (Some(3), format!("{line}\n"), said));
    }
}

#[test]
fn wrong_usage_has_status_2_and_help_has_0() {
    let folder = Folder::new("usage");
    let (status, help, said) = answer(&folder.0, &["--help"], &[]);
    assert_eq!((status, help.lines().next(), &said[..]), (Some(0), Some("usage: sheet [FILE]"), ""));
    check_failed(shell(&folder, "$1 --help > /dev/full"), "the help could not be written");
    for words in [&["a", "b"][..], &["--halp"], &["-x"]] {
        assert_eq!(answer(&folder.0, words, &PRINTED_FILE), (Some(2), String::new(), help.clone()), "{words:?}");
    }
}

// The answer says that something failed, prints nothing, and ends in the sentence.
fn check_failed((status, printed, said): Answer, sentence: &str) {
    assert_eq!((status, &printed[..]), (Some(4), ""), "{said}");
    assert!(said.ends_with(&format!("sheet: {sentence}\n")), "{said}");
}

#[test]
fn what_can_not_be_read_has_status_4_and_prints_nothing() {
    let folder = Folder::new("unread");
    for name in ["none", ".", "", "/proc/self/mem"] {
        check_failed(answer(&folder.0, &[name], &PRINTED_FILE), "the input could not be read");
    }
    check_failed(shell(&folder, "$1 < /"), "the input could not be read");
    check_failed(shell(&folder, "$1 <&-"), "standard input is closed");
}

#[test]
fn a_sheet_or_a_refusal_that_can_not_be_written_has_status_4() {
    let folder = Folder::new("unwritten");
    check_failed(shell(&folder, "$1 $2 > /dev/full"), "the sheet could not be written");
    check_failed(shell(&folder, "$1 /dev/null > /dev/full"), "the sheet could not be written");
    check_failed(shell(&folder, "$1 $2 >&-"), "standard output is closed");
}

#[test]
fn a_program_without_room_for_its_stack_is_told() {
    let (status, printed, said) = shell(&Folder::new("stack"), "ulimit -s 1024; $1 $2");
    assert_eq!((status, &printed[..]), (Some(1), ""), "{said}");
    assert!(said.contains("stack"), "{said}");
}

// A repository in which `rt` has one small program to prove: it writes the text, whatever it is fed.
fn small_repository(name: &str, text: &str) -> Folder {
    let folder = Folder::new(name);
    fs::copy(script(), folder.0.join("sheet")).expect("a copy of the script");
    folder.write("crates.txt", b"sheet:\n");
    folder.write("crates/sheet/stdin", b"");
    folder.write("crates/sheet/stdout", b"refused 2\n");
    let body = format!("fn main(rt: HostRuntime) -> io::Result<()> {{\n    print!(rt; \"{text}\")\n}}\n");
    let code = format!("#![tactic(auto)]\n\nuse std::io;\n\n{body}");
    folder.write("crates/sheet/src/main.rt", code.as_bytes());
    folder
}

// So many seconds may a run take that proves and builds: other proofs may run beside it.
const BUILD_LIMIT: &str = "180";

// What the copy of the script answers, with this search path.
fn built_answer(folder: &Folder, path: &str) -> Answer {
    let mut command = limited_to(BUILD_LIMIT, &folder.0.join("sheet"));
    command.env("PATH", path);
    answer_of(run(command, &[]))
}

// The search path of this process.
fn path() -> String {
    std::env::var("PATH").expect("a search path")
}

#[test]
fn the_first_run_says_how_far_it_is_and_a_program_that_is_gone_is_built_again() {
    let folder = small_repository("first", "refused 2\\n");
    let refusal = "sheet: refused 2: the file ends before or inside a number\n";
    for _ in 0..2 {
        let (status, printed, said) = built_answer(&folder, &path());
        assert_eq!((status, &printed[..]), (Some(3), "refused 2\n"), "{said}");
        let lines: Vec<&str> = said.lines().collect();
        assert_eq!((lines.len(), lines[1]), (3, "sheet: 1 of 1: sheet is proved"), "{said}");
        assert_eq!(built_answer(&folder, &path()), (Some(3), printed, refusal.to_string()), "at once");
        fs::remove_file(folder.0.join("crates/sheet/out/sheet")).expect("the program was there");
        assert!(folder.0.join("crates/sheet/out/sheet.stamp").exists(), "and its stamp stays");
    }
    File::create(folder.0.join("crates/sheet/out/sheet")).expect("an empty file in its place");
    assert_eq!(built_answer(&folder, &path()).0, Some(3));
    folder.write("crates/sheet/out/sheet", b"");
    let said = "sheet: the program printed no sheet\n".to_string();
    assert_eq!(built_answer(&folder, &path()), (Some(1), String::new(), said), "an empty program");
}

#[test]
fn a_program_that_can_not_be_built_has_status_1_and_is_not_left_behind() {
    let folder = small_repository("unproved", "another text\\n");
    for _ in 0..2 {
        let (status, printed, said) = built_answer(&folder, &path());
        assert_eq!((status, &printed[..]), (Some(1), ""), "{said}");
        assert!(said.contains("target/log/sheet-build.log has all that rt said"), "{said}");
        assert!(!folder.0.join("crates/sheet/out/sheet").exists(), "{said}");
    }
}

// The first file of this name on the search path.
fn found(tool: &str) -> PathBuf {
    let files = path().split(':').map(|folder| Path::new(folder).join(tool)).collect::<Vec<PathBuf>>();
    files.into_iter().find(|file| file.exists()).expect("the tool")
}

#[test]
fn without_rt_a_sentence_says_what_is_wanted() {
    let folder = small_repository("without-rt", "refused 2\\n");
    let tools = Folder::new("tools");
    for tool in ["timeout", "dirname", "readlink", "find", "head"] {
        symlink(found(tool), tools.0.join(tool)).expect("a link");
    }
    let (status, printed, said) = built_answer(&folder, &tools.0.to_string_lossy());
    assert_eq!((status, &printed[..]), (Some(1), ""), "{said}");
    assert!(said.lines().count() == 1 && said.contains("rt, is not on the path"), "{said}");
}
