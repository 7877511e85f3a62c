//! Links the proved archive `libhost.a`, from the folder that `WINTERHASP_LIB` names or from the
//! repository's `target/staticlib`, and says what to do where it isn't there.

use std::env;
use std::path::{Path, PathBuf};

const ARCHIVE: &str = "libhost.a";
const BUILT_HERE: &str = "../../target/staticlib";
const PROCESSOR: &str = "x86_64";

fn main() {
    println!("cargo::rerun-if-changed=build.rs");
    println!("cargo::rerun-if-env-changed=WINTERHASP_LIB");
    let folder = folder();
    let archive = folder.join(ARCHIVE);
    println!("cargo::rerun-if-changed={}", archive.display());
    match usable(&archive) {
        // The build fails by this line alone, with no more than the sentence.
        Err(trouble) => println!("cargo::error={trouble}"),
        Ok(()) => {
            println!("cargo::rustc-link-search=native={}", folder.display());
            println!("cargo::rustc-link-lib=static=host");
        }
    }
}

fn folder() -> PathBuf {
    match env::var_os("WINTERHASP_LIB") {
        Some(named) => named.into(),
        None => {
            let here = env::var_os("CARGO_MANIFEST_DIR").expect("cargo sets CARGO_MANIFEST_DIR");
            Path::new(&here).join(BUILT_HERE)
        }
    }
}

fn usable(archive: &Path) -> Result<(), String> {
    let processor = env::var("CARGO_CFG_TARGET_ARCH").unwrap_or_default();
    if processor != PROCESSOR {
        return Err(format!(
            "{ARCHIVE} is for {PROCESSOR}, and this build is for {processor}"
        ));
    }
    if !archive.is_file() {
        return Err(format!(
            "{} is not there: run `bash tools/proved.sh host` in the root of the Winterhasp repository, or set \
             WINTERHASP_LIB to the folder (an absolute path) that has {ARCHIVE}",
            archive.display()
        ));
    }
    Ok(())
}
