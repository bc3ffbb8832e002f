//! Compiles the peers' columns and the painted stack, and links them with the peers' libraries.

use std::process::Command;

fn main() {
    compiled(
        "g++",
        &["-O3", "-std=c++17", "-frounding-math"],
        "peers/peers.cpp",
        "peers",
    );
    compiled("gcc", &["-O2"], "stack/painted.c", "painted");
    for library in ["mpfi", "mpfr", "gmp", "stdc++"] {
        println!("cargo:rustc-link-lib={library}");
    }
}

/// Has the compiler make a static library of one source.
fn compiled(compiler: &str, flags: &[&str], source: &str, name: &str) {
    println!("cargo:rerun-if-changed={source}");
    let folder = std::env::var("OUT_DIR").unwrap();
    let object = format!("{folder}/{name}.o");
    let library = format!("{folder}/lib{name}.a");
    run(compiler, &[flags, &["-c", source, "-o", &object]].concat());
    run("ar", &["rcs", &library, &object]);
    println!("cargo:rustc-link-search=native={folder}");
    println!("cargo:rustc-link-lib=static={name}");
}

fn run(program: &str, arguments: &[&str]) {
    let status = Command::new(program).args(arguments).status();
    let done = status.is_ok_and(|status| status.success());
    assert!(
        done,
        "{program} {arguments:?} failed: bench/peers/install installs what is missing"
    );
}
