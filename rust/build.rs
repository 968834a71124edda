//! Links the static library: from the folder that `ZALDRUME_LIB` names, else from the repository's `target/staticlib`.

use std::env;
use std::path::PathBuf;

fn main() {
    let folder = env::var_os("ZALDRUME_LIB").map_or_else(
        || PathBuf::from(env!("CARGO_MANIFEST_DIR")).join("../target/staticlib"),
        PathBuf::from,
    );
    println!("cargo::rustc-link-search=native={}", folder.display());
    println!("cargo::rustc-link-lib=static=zaldrume");
    println!("cargo::rerun-if-env-changed=ZALDRUME_LIB");
    println!(
        "cargo::rerun-if-changed={}",
        folder.join("libzaldrume.a").display()
    );
}
