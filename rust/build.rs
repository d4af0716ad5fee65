//! Links the proved archive: of `$NORRABIST_LIB`; or of `lib/MACHINE` beside the manifest, where a
//! release has it; or of `../target/native` of the tree that is built.
//!
//! Where it is not there, or is for another machine, it is not linked: all that needs no link works
//! nevertheless, as `cargo check`, `cargo doc` and clippy do, and a link fails with words.

use std::path::{Path, PathBuf};

/// The machines that there is an archive for, with their numbers in ELF.
const MACHINES: [(&str, u16); 2] = [("x86_64", 62), ("aarch64", 183)];

fn main() {
    println!("cargo:rerun-if-env-changed=NORRABIST_LIB");
    // asked of cargo in this run: a compiled-in path would be that of the tree where this program
    // was first built
    let here = std::env::var_os("CARGO_MANIFEST_DIR").unwrap_or_default();
    let machine = std::env::var("CARGO_CFG_TARGET_ARCH").unwrap_or_default();
    let released = Path::new(&here).join("lib");
    let folder = match std::env::var_os("NORRABIST_LIB") {
        Some(folder) => PathBuf::from(folder),
        None if released.is_dir() => released.join(&machine),
        None => Path::new(&here).join("../target/native"),
    };
    let archive = folder.join("libnorrabist_c.a");
    println!("cargo:rerun-if-changed={}", archive.display());
    println!("cargo:rerun-if-changed={}", folder.join("libnorrabist_c.sum").display());
    let archive = archive.canonicalize().unwrap_or(archive);
    // for the test that links a C program
    println!("cargo:rustc-env=NORRABIST_ARCHIVE={}", archive.display());
    match std::fs::read(&archive) {
        Err(_) => unlinked(&archive, "is not there: run rust/archive or set NORRABIST_LIB"),
        Ok(bytes) if is_for(&machine, &bytes) => {
            let folder = archive.parent().unwrap_or(&folder);
            println!("cargo:rustc-link-search=native={}", folder.display());
            println!("cargo:rustc-link-lib=static=norrabist_c");
        }
        Ok(_) => unlinked(&archive, "is for another machine: run rust/archive or set NORRABIST_LIB"),
    }
}

/// Warns, and has a link fail with these words: they are the name of a library that is not there.
fn unlinked(archive: &Path, why: &str) {
    println!("cargo:warning=norrabist: {} {why}; until then nothing is linked", archive.display());
    let words: String = why.chars().map(|c| if c.is_alphanumeric() { c } else { '_' }).collect();
    println!("cargo:rustc-link-lib=dylib=norrabist_c_{words}");
}

/// Whether the first object of an archive is for that machine, by the header of ELF.
fn is_for(machine: &str, archive: &[u8]) -> bool {
    let object = archive.windows(20).find(|window| window.starts_with(b"\x7fELF"));
    let of = object.map(|header| u16::from_le_bytes([header[18], header[19]]));
    MACHINES.iter().any(|(name, number)| *name == machine && of == Some(*number))
}
