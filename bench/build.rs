use std::env;
use std::process::Command;

/// Compiles the readers in C and links them.
fn main() {
    let out = env::var("OUT_DIR").expect("cargo tells the folder for what is built");
    let cc = env::var("CC").unwrap_or_else(|_| "cc".to_string());
    let run = |command: &mut Command| {
        assert!(command.status().is_ok_and(|status| status.success()), "failed: {command:?}");
    };
    let object = format!("{out}/formats.o");
    run(Command::new(cc).args(["-O2", "-std=c11", "-Wall", "-Wextra", "-c", "formats.c", "-o", &object]));
    run(Command::new("ar").args(["crs", &format!("{out}/libformats.a"), &object]));
    println!("cargo:rustc-link-search=native={out}");
    println!("cargo:rustc-link-lib=static=formats");
    println!("cargo:rerun-if-env-changed=CC");
    println!("cargo:rerun-if-changed=formats.c");
    println!("cargo:rerun-if-changed=formats.h");
}
