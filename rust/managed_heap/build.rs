//! Finds the library: in the folder that MANAGED_HEAP_LIB names, in the `lib` of the prefix that MANAGED_HEAP_PREFIX names and c/install.sh filled, or, in the
//! repository, where `rt lib` has made it.

use std::env;
use std::path::{Path, PathBuf};
use std::process::exit;

fn main() {
    println!("cargo:rerun-if-changed=build.rs");
    for name in ["MANAGED_HEAP_LIB", "MANAGED_HEAP_PREFIX", "KIT"] {
        println!("cargo:rerun-if-env-changed={name}");
    }
    let named = folder_of("MANAGED_HEAP_LIB");
    let installed = folder_of("MANAGED_HEAP_PREFIX").map(|prefix| prefix.join("lib"));
    match named.or(installed) {
        Some(folder) => link(&folder, "managed_heap"),
        None => link_built(),
    }
    println!("cargo:rustc-link-lib=dylib=pthread");
}

fn folder_of(name: &str) -> Option<PathBuf> {
    env::var_os(name).map(PathBuf::from)
}

/// The archive of the repository, with the kit's archive that it needs.
fn link_built() {
    let top = Path::new(env!("CARGO_MANIFEST_DIR")).join("../..");
    link(&top.join("crates/managed_heap_c/out"), "managed_heap_c");
    let kit = folder_of("KIT").unwrap_or_else(|| PathBuf::from("/opt/rattle"));
    link(&kit.join("c"), "libc_c");
}

fn link(folder: &Path, library: &str) {
    let archive = folder.join(format!("lib{library}.a"));
    if !archive.is_file() {
        eprintln!("managed_heap: there is no {}. At the top of the repository one of these makes the archive:", archive.display());
        eprintln!("    unproved, in about a minute:  sh c/unproved.sh /tmp/managed_heap/libmanaged_heap.a; export MANAGED_HEAP_LIB=/tmp/managed_heap");
        eprintln!("    proved, in about an hour:     sh c/install.sh /tmp/managed_heap; export MANAGED_HEAP_PREFIX=/tmp/managed_heap");
        exit(1);
    }
    println!("cargo:rerun-if-changed={}", archive.display());
    println!("cargo:rustc-link-search=native={}", folder.display());
    println!("cargo:rustc-link-lib=static={library}");
}
