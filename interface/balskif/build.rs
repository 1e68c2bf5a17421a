use std::env;
use std::path::Path;

/// Links libbalskif.a from the folder BALSKIF_ARCHIVE_DIR, by default the one that `rt lib` builds it in.
fn main() {
    let folder = env::var("BALSKIF_ARCHIVE_DIR")
        .unwrap_or_else(|_| format!("{}/../../crates/balskif/out", env!("CARGO_MANIFEST_DIR")));
    let archive = Path::new(&folder).join("libbalskif.a");
    println!("cargo:rerun-if-env-changed=BALSKIF_ARCHIVE_DIR");
    println!("cargo:rerun-if-changed={}", archive.display());
    if !archive.is_file() {
        eprintln!("there is no {}: run interface/archive, or set BALSKIF_ARCHIVE_DIR", archive.display());
        std::process::exit(1);
    }
    println!("cargo:rustc-link-search=native={folder}");
    println!("cargo:rustc-link-lib=static=balskif");
}
