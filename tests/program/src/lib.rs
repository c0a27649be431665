// Runs the proved sheet program, which `rt run` in crates/sheet builds, in a process of its own.
use independent::stored::root;
use std::io::Write;
use std::path::{Path, PathBuf};
use std::process::{ChildStdin, Command, Output, Stdio};
use std::thread;

// So many seconds may a run take: one that does not end is a fault.
const LIMIT: &str = "60";

// The proved program, which must be there.
pub fn sheet_program() -> PathBuf {
    let program = root().join("crates/sheet/out/sheet");
    assert!(program.exists(), "no program: run `rt run` in crates/sheet");
    program
}

// A command that runs the program, and ends it with a bad status after so many seconds.
pub fn limited_to(seconds: &str, program: &Path) -> Command {
    let mut command = Command::new("timeout");
    command.arg(seconds).arg(program);
    command
}

// A command that runs the program, and ends it with a bad status after the time limit.
pub fn limited(program: &Path) -> Command {
    limited_to(LIMIT, program)
}

// What the command wrote. Its standard input is a pipe that `feed` writes to while the output is taken; the pipe stays
// open to the end of the run if `feed` hands it back.
pub fn run_fed<F>(mut command: Command, feed: F) -> Output
where
    F: FnOnce(ChildStdin) -> Option<ChildStdin> + Send + 'static,
{
    command.stdin(Stdio::piped()).stdout(Stdio::piped()).stderr(Stdio::piped());
    let mut child = command.spawn().expect("the program starts");
    let pipe = child.stdin.take().expect("a pipe");
    let feeder = thread::spawn(move || feed(pipe));
    let output = child.wait_with_output().expect("the program ends");
    drop(feeder.join().expect("the input is fed"));
    output
}

// The text that the run printed; it must have ended well, with nothing on standard error.
pub fn printed(output: Output) -> String {
    let complaint = String::from_utf8_lossy(&output.stderr);
    assert!(output.status.success() && complaint.is_empty(), "{}, {complaint}", output.status);
    String::from_utf8(output.stdout).expect("text")
}

// Writes the bytes, as far as the program takes them: it may end before.
pub fn offer(pipe: &mut ChildStdin, bytes: &[u8]) -> bool {
    pipe.write_all(bytes).is_ok()
}

// What the command wrote for these bytes on standard input.
pub fn run(command: Command, input: &[u8]) -> Output {
    let bytes = input.to_vec();
    run_fed(command, move |mut pipe| {
        offer(&mut pipe, &bytes);
        None
    })
}

// What the sheet program prints for these bytes.
pub fn sheet_of(input: &[u8]) -> String {
    printed(run(limited(&sheet_program()), input))
}
