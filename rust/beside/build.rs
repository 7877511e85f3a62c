//! Leaves out what calls the original where crate `original` didn't find it.

use std::env;

fn main() {
    println!("cargo:rustc-check-cfg=cfg(present)");
    println!("cargo:rerun-if-changed=build.rs");
    if env::var_os("DEP_ORIGINAL_PRESENT").is_some() {
        println!("cargo:rustc-cfg=present");
    }
}
