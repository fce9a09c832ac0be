//! Links libevsched.a, which `make -C c` builds, or that of the folder that EVSCHED_LIBRARY names.

use std::env;
use std::path::{Path, PathBuf};

/// The folder `c/out` of the repository, which is some folder above this one.
fn built(here: &Path) -> Option<PathBuf> {
    let mut above = here.ancestors().map(|folder| folder.join("c"));
    above
        .find(|folder| folder.join("Makefile").is_file())
        .map(|folder| folder.join("out"))
}

fn main() {
    let here = PathBuf::from(env::var("CARGO_MANIFEST_DIR").expect("cargo names the folder"));
    let named = env::var("EVSCHED_LIBRARY").map(PathBuf::from).ok();
    let folder = named
        .or_else(|| built(&here))
        .expect("there is c/out, or EVSCHED_LIBRARY");
    println!("cargo:rustc-link-search=native={}", folder.display());
    println!("cargo:rustc-link-lib=static=evsched");
    println!("cargo:rerun-if-env-changed=EVSCHED_LIBRARY");
    println!(
        "cargo:rerun-if-changed={}",
        folder.join("libevsched.a").display()
    );
}
