//! Programs that tests run: the examples in Rust, and C programs that are compiled with the archive.
#![allow(dead_code)] // each test takes what it needs

use std::path::{Path, PathBuf};
use std::process::{Command, Output, Stdio};

pub const HERE: &str = env!("CARGO_MANIFEST_DIR");

/// Compilers and the oldest languages that the header is for, and one that has static assertions.
pub const LANGUAGES: [&[&str]; 3] =
    [&["cc", "-std=c99"], &["cc", "-std=c11"], &["c++", "-std=c++11", "-x", "c++"]];

/// Compiles a C program in one of the languages, with the archive; where it is.
pub fn compiled(source: &str, language: &[&str]) -> PathBuf {
    let name = [&[source], language].concat().join("-").replace(['/', '='], "-");
    let program = Path::new(env!("CARGO_TARGET_TMPDIR")).join(name);
    let archive = env!("NORRABIST_ARCHIVE");
    let done = Command::new(language[0])
        .args(["-Wall", "-Wextra", "-pedantic", "-Werror", "-I", HERE])
        .args(&language[1..])
        .arg(Path::new(HERE).join(source))
        .args(["-x", "none", archive, "-o"])
        .arg(&program)
        .output()
        .unwrap_or_else(|e| panic!("this test needs `{}`, which cannot be run: {e}", language[0]));
    assert!(done.status.success(), "{language:?}: {}", String::from_utf8_lossy(&done.stderr));
    program
}

/// An example in Rust, which `cargo test` builds beside the tests; where it is.
pub fn example(name: &str) -> PathBuf {
    let test = std::env::current_exe().expect("this test's path");
    let program = test.ancestors().nth(2).expect("the folder of what is built").join("examples").join(name);
    assert!(program.is_file(), "the examples are not built: run `cargo test` without --test");
    program
}

/// A file of the tree, by its path from the top.
pub fn of_tree(path: &str) -> PathBuf {
    Path::new(HERE).join("..").join(path)
}

/// The file of the tree as standard input.
pub fn lent(path: &str) -> Stdio {
    std::fs::File::open(of_tree(path)).unwrap_or_else(|e| panic!("{path}: {e}")).into()
}

/// Runs a program.
pub fn ran(program: &Path, words: &[PathBuf], input: Stdio) -> Output {
    Command::new(program).args(words).stdin(input).output().expect("the program")
}

/// What a program prints, where it ends well.
pub fn printed(program: &Path, words: &[PathBuf], input: Stdio) -> String {
    let ran = ran(program, words, input);
    let said = String::from_utf8_lossy(&ran.stdout).into_owned();
    assert!(ran.status.success(), "{} ended with {}: {said}", program.display(), ran.status);
    said
}
