//! Builds the plain C version and links it.

use std::path::PathBuf;
use std::process::{exit, Command};

const FILES: [&str; 3] = ["plain", "plain_verdict", "plain_machine"];

fn main() {
    let out = PathBuf::from(std::env::var("OUT_DIR").expect("cargo names a folder"));
    println!("cargo:rerun-if-changed=plain.h");
    let mut archive = Command::new("ar");
    archive.arg("crs").arg(out.join("libplain.a"));
    for file in FILES {
        println!("cargo:rerun-if-changed={file}.c");
        let object = out.join(format!("{file}.o"));
        let mut compile = Command::new("cc");
        compile.args(["-std=c11", "-O2", "-Wall", "-Wextra", "-Wpedantic"]);
        compile.args(["-Werror", "-c", &format!("{file}.c"), "-o"]);
        run(compile.arg(&object));
        archive.arg(object);
    }
    run(&mut archive);
    println!("cargo:rustc-link-search=native={}", out.display());
    println!("cargo:rustc-link-lib=static=plain");
}

fn run(command: &mut Command) {
    if !command.status().is_ok_and(|status| status.success()) {
        eprintln!("failed: {command:?}");
        exit(1);
    }
}
