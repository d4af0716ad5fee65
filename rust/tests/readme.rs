//! The snippets of README.md are the examples `readme`, word for word, so that what stands there
//! compiles and prints what it should.

#[path = "support/programs.rs"]
mod programs;

use programs::{compiled, example, lent, of_tree, printed, LANGUAGES};
use std::process::Stdio;

/// What both snippets print of a handshake, and of a ClientHello whose extensions are cut off.
const PRINTED: [(&str, &str); 2] = [
    ("crates/look/handshake", "0303, 28 ciphers, extensions present\n"),
    ("crates/look/cut", "0303, 28 ciphers, extensions absent with a tail\n"),
];

#[test]
fn the_snippets_are_the_examples() {
    let text = |path: &str| std::fs::read_to_string(of_tree(path)).expect("a file of the tree");
    let readme = text("README.md");
    for (language, path) in [("rust", "rust/examples/readme.rs"), ("c", "rust/examples/readme.c")] {
        let snippet = text(path);
        assert!(snippet.lines().count() <= 25, "{path} is too long for a snippet");
        assert!(readme.contains(&format!("\n```{language}\n{snippet}```\n")), "README.md has not {path}");
    }
}

#[test]
fn the_snippet_in_rust_runs() {
    for (path, right) in PRINTED {
        assert_eq!(printed(&example("readme"), &[of_tree(path)], Stdio::null()), right);
    }
}

#[test]
fn the_snippet_in_c_runs() {
    for language in LANGUAGES {
        let program = compiled("examples/readme.c", language);
        for (path, right) in PRINTED {
            assert_eq!(printed(&program, &[], lent(path)), right);
        }
    }
}
