// Finds document 000 and writes the `mod` lines by which its files are compiled unchanged, from where they lie.
// With the feature `bench` it also links the probes' static libraries and the bare hop in C.

use std::env;
use std::fs;
use std::path::{Path, PathBuf};
use std::process::Command;

/// The files of document 000 that the comparison needs, under `compiler/container/src`.
const FILES: [&str; 8] =
    ["builtin", "cfg", "code_section", "instruction", "opcode", "type_section", "verify", "verify_temp_bufs"];

fn main() {
    let package = PathBuf::from(env::var("CARGO_MANIFEST_DIR").unwrap());
    let root = package.join("../..").canonicalize().unwrap();
    let out = PathBuf::from(env::var("OUT_DIR").unwrap());
    println!("cargo:rerun-if-changed=build.rs");
    write_modules(&root, &out);
    if env::var_os("CARGO_FEATURE_BENCH").is_some() {
        println!("cargo:rustc-link-search=native={}", out.display());
        link_probes(&root, &out, "probe", "PROBE_ARCHIVE");
        link_probes(&root, &out, "file_probe", "FILE_PROBE_ARCHIVE");
        link_hop(&root, &out);
    }
}

fn write_modules(root: &Path, out: &Path) {
    println!("cargo:rerun-if-env-changed=DOC000");
    // A relative DOC000 counts from the repository's root.
    let given = env::var("DOC000").unwrap_or_else(|_| "../shared/docs/src".into());
    let sources = root.join(given).join("compiler/container/src");
    let mut lines = String::new();
    for name in FILES {
        let file = sources.join(name).with_extension("rs");
        let Ok(file) = file.canonicalize() else {
            panic!("document 000 is not here: {} is missing (DOC000)", file.display());
        };
        println!("cargo:rerun-if-changed={}", file.display());
        lines += &format!("#[allow(dead_code, unused_imports)]\n#[path = {file:?}]\npub mod {name};\n");
    }
    fs::write(out.join("document.rs"), lines).unwrap();
}

/// The archive that the variable names must be made for the processor that this runs on; the one that `rt lib` writes is for x86-64.
fn link_probes(root: &Path, out: &Path, name: &str, variable: &str) {
    println!("cargo:rerun-if-env-changed={variable}");
    let given = env::var(variable).unwrap_or_else(|_| format!("crates/{name}/out/lib{name}.a"));
    let archive = root.join(given);
    println!("cargo:rerun-if-changed={}", archive.display());
    if let Err(why) = fs::copy(&archive, out.join(format!("lib{name}.a"))) {
        panic!("{}: {why} ({variable})", archive.display());
    }
    println!("cargo:rustc-link-lib=static={name}");
}

fn link_hop(root: &Path, out: &Path) {
    let source = root.join("tests/bench/hop.c");
    println!("cargo:rerun-if-changed={}", source.display());
    let object = out.join("hop.o");
    run(Command::new("cc").args(["-O2", "-Wall", "-Wextra", "-Werror", "-c", "-o"]).arg(&object).arg(&source));
    run(Command::new("ar").arg("rcs").arg(out.join("libhop.a")).arg(&object));
    println!("cargo:rustc-link-lib=static=hop");
}

fn run(command: &mut Command) {
    let status = command.status().unwrap_or_else(|why| panic!("{command:?}: {why}"));
    assert!(status.success(), "{command:?}: {status}");
}
