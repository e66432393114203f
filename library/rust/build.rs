//! Links the archive `liblinkage_c.a` that `tools/build.sh linkage_c` makes: from the folder that the
//! environment variable `LINKAGE_LIB` names, a full path, or from the repository's `target/staticlib`.
use std::env;
use std::path::PathBuf;

fn main() {
    let here = PathBuf::from(env::var_os("CARGO_MANIFEST_DIR").expect("cargo tells the folder"));
    let folder = match env::var_os("LINKAGE_LIB") {
        Some(named) => PathBuf::from(named),
        None => here.join("../../target/staticlib"),
    };
    let archive = folder.join("liblinkage_c.a");
    if !archive.is_file() {
        panic!(
            "no {}: `tools/build.sh linkage_c` makes it",
            archive.display()
        );
    }
    println!("cargo:rerun-if-env-changed=LINKAGE_LIB");
    println!("cargo:rerun-if-changed={}", archive.display());
    println!("cargo:rustc-link-search=native={}", folder.display());
    println!("cargo:rustc-link-lib=static=linkage_c");
}
