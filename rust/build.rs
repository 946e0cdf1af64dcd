//! Links libplanner_c.a, which `make library` writes to the repository's target/staticlib.
//! KIT_PLANNER_LIB_DIR names another folder for it, counted from this one if it is relative. Where the archive is
//! missing the crate says so when it is compiled; its documentation can be made all the same. Where
//! KIT_PLANNER_PAIR names a folder with before.a and now.a, archives whose calls are renamed by these words, the
//! benchmarks link both and compare them.
use std::env;
use std::path::Path;

fn main() {
    link();
    link_pair();
}

fn link() {
    println!("cargo::rustc-check-cfg=cfg(no_archive)");
    println!("cargo::rerun-if-env-changed=KIT_PLANNER_LIB_DIR");
    let root = env::var("CARGO_MANIFEST_DIR").expect("cargo sets CARGO_MANIFEST_DIR");
    let named = env::var("KIT_PLANNER_LIB_DIR").ok().filter(|folder| !folder.is_empty());
    let folder = Path::new(&root).join(named.as_deref().unwrap_or("../target/staticlib"));
    let archive = folder.join("libplanner_c.a");
    println!("cargo::rerun-if-changed={}", archive.display());
    if archive.is_file() {
        println!("cargo::rustc-link-search=native={}", folder.display());
        println!("cargo::rustc-link-lib=static=planner_c");
    } else {
        println!("cargo::rustc-cfg=no_archive");
        println!("cargo::rustc-env=KIT_PLANNER_ARCHIVE={}", archive.display());
    }
}

fn link_pair() {
    println!("cargo::rustc-check-cfg=cfg(pair)");
    println!("cargo::rerun-if-env-changed=KIT_PLANNER_PAIR");
    if let Ok(pair) = env::var("KIT_PLANNER_PAIR") {
        for archive in ["before.a", "now.a"].map(|name| Path::new(&pair).join(name)) {
            assert!(archive.is_file(), "{} is missing", archive.display());
            println!("cargo::rerun-if-changed={}", archive.display());
            println!("cargo::rustc-link-arg-benches={}", archive.display());
        }
        println!("cargo::rustc-cfg=pair");
    }
}
