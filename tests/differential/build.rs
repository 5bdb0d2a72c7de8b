//! Links libtollmeander.a from the folder that the environment variable TOLLMEANDER_LIB names.

#![deny(warnings)]

use std::path::Path;

fn main() {
    println!("cargo:rerun-if-env-changed=TOLLMEANDER_LIB");
    let folder = std::env::var("TOLLMEANDER_LIB").expect("TOLLMEANDER_LIB: the folder of libtollmeander.a");
    let archive = Path::new(&folder).join("libtollmeander.a");
    assert!(archive.is_file(), "{} is not there", archive.display());
    println!("cargo:rerun-if-changed={}", archive.display());
    println!("cargo:rustc-link-search=native={folder}");
    println!("cargo:rustc-link-lib=static=tollmeander");
}
