//! Compiles the tap in C, `tap.c`, against `../rust/norrabist.h`, as a C program would.

use std::env;
use std::path::{Path, PathBuf};
use std::process::{exit, Command};

fn run(command: &mut Command) {
    let said = command.output();
    match said {
        Ok(said) if said.status.success() => {}
        Ok(said) => {
            eprintln!("{command:?}: {}", String::from_utf8_lossy(&said.stderr));
            exit(1);
        }
        Err(e) => {
            eprintln!("{command:?}: {e}");
            exit(1);
        }
    }
}

fn main() {
    let here = PathBuf::from(env::var_os("CARGO_MANIFEST_DIR").unwrap_or_default());
    let made = PathBuf::from(env::var_os("OUT_DIR").unwrap_or_default());
    let (source, header) = (here.join("tap.c"), here.join("../rust"));
    let watch = |path: &Path| println!("cargo:rerun-if-changed={}", path.display());
    watch(&source);
    watch(&header.join("norrabist.h"));
    let object = made.join("tap.o");
    let mut compile = Command::new("cc");
    compile.args(["-std=c99", "-O2", "-fPIC", "-Wall", "-Wextra", "-pedantic", "-Werror", "-I"]).arg(&header);
    run(compile.arg("-c").arg(&source).arg("-o").arg(&object));
    run(Command::new("ar").arg("rcs").arg(made.join("libtap.a")).arg(&object));
    println!("cargo:rustc-link-search=native={}", made.display());
    println!("cargo:rustc-link-lib=static=tap");
}
