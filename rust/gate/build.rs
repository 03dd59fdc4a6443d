//! Links the proved archive: of the folder that `GATE_LIB_DIR` names, as `./install` fills it, else of the
//! repository's target/staticlib, where `python/build` puts it.

use std::env;
use std::path::{Path, PathBuf};

const VARIABLE: &str = "GATE_LIB_DIR";

fn folder() -> PathBuf {
    let built = || Path::new(env!("CARGO_MANIFEST_DIR")).join("../../target/staticlib");
    env::var_os(VARIABLE).map_or_else(built, PathBuf::from)
}

/// The archive in the folder: its name for the linker, and its file.
fn archive(folder: &Path) -> Option<(&'static str, PathBuf)> {
    let named = |name| (name, folder.join(format!("lib{name}.a")));
    ["gate", "capi"].map(named).into_iter().find(|(_, file)| file.exists())
}

fn main() {
    println!("cargo:rerun-if-env-changed={VARIABLE}");
    let folder = folder();
    let Some((name, file)) = archive(&folder) else {
        panic!(
            "no libgate.a or libcapi.a in {}: run `./build`, or name the archive's folder in {VARIABLE}",
            folder.display()
        );
    };
    println!("cargo:rustc-link-search=native={}", folder.display());
    println!("cargo:rustc-link-lib=static={name}");
    println!("cargo:rerun-if-changed={}", file.display());
}
