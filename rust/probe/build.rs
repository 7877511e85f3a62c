//! Links the proved archives, from the folder that `WINTERHASP_LIB` names (an absolute path) or the
//! repository's `target/staticlib`.

use std::path::{Path, PathBuf};
use std::{env, process};

const NAMED: &str = "WINTERHASP_LIB";

fn main() {
    println!("cargo:rerun-if-changed=build.rs");
    println!("cargo:rerun-if-env-changed={NAMED}");
    let folder = folder();
    println!("cargo:rustc-link-search=native={}", folder.display());
    for name in ["host", "probe"] {
        link(&folder, name);
    }
}

fn folder() -> PathBuf {
    if let Some(named) = env::var_os(NAMED) {
        return named.into();
    }
    let here = env::var_os("CARGO_MANIFEST_DIR").expect("cargo sets CARGO_MANIFEST_DIR");
    let root = Path::new(&here).ancestors().nth(2);
    root.expect("this crate stands two folders below the root")
        .join("target/staticlib")
}

fn link(folder: &Path, name: &str) {
    let archive = folder.join(format!("lib{name}.a"));
    println!("cargo:rerun-if-changed={}", archive.display());
    if !archive.is_file() {
        eprintln!(
            "{} is not there: run `bash tools/proved.sh {name}` in the repository's root, \
             or set {NAMED} to the folder that has it",
            archive.display()
        );
        process::exit(1);
    }
    println!("cargo:rustc-link-lib=static={name}");
}
