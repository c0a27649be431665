// Compiles the contenders in C at -O3, where there is a C compiler, and the ranks by M4RI, where that is installed.
use std::path::Path;
use std::process::Command;

// Whether the command could be run and succeeded.
fn succeeds(program: &str, words: &[&str]) -> bool {
    Command::new(program).args(words).status().is_ok_and(|status| status.success())
}

// Compiles a file of src into the archive; whether that succeeded.
fn compile(file: &str, archive: &Path) -> bool {
    println!("cargo:rerun-if-changed=src/{file}.c");
    let (source, object) = (format!("src/{file}.c"), archive.with_file_name(format!("{file}.o")).display().to_string());
    succeeds("cc", &["-O3", "-c", &source, "-o", &object])
        && succeeds("ar", &["rcs", &archive.display().to_string(), &object])
}

// Compiles files of src into a library, links it, and sets the condition; whether that succeeded.
fn offer(library: &str, files: &[&str], condition: &str) -> bool {
    let folder = std::env::var("OUT_DIR").unwrap();
    let archive = Path::new(&folder).join(format!("lib{library}.a"));
    println!("cargo:rustc-check-cfg=cfg({condition})");
    if !files.iter().all(|file| compile(file, &archive)) {
        println!("cargo:rerun-if-changed=absent"); // no such file: what is missing is looked for again in the next run
        return false;
    }
    println!("cargo:rustc-link-search=native={folder}");
    println!("cargo:rustc-link-lib=static={library}");
    println!("cargo:rustc-cfg={condition}");
    true
}

// Sets `has_c` where the C code was compiled, and `has_m4ri` where the code over M4RI was.
fn main() {
    println!("cargo:rerun-if-changed=src/elimination.h");
    offer("contenders", &["elimination", "judge", "certify", "check", "largest_weight", "rearrange"], "has_c");
    if offer("ranks_m4ri", &["ranks_m4ri"], "has_m4ri") {
        println!("cargo:rustc-link-lib=m4ri");
    }
}
