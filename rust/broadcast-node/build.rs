//! Finds and links the verified static library. The first of these that exists is linked:
//!
//! 1. the library in the folder `BROADCAST_C_LIB`;
//! 2. the library that the repository's `make lib` left in `crates/broadcast_c/out`;
//! 3. the library in `lib/TARGET` beside this file.
//!
//! Without one the build fails. Documentation links nothing, so it is built without a library if `DOCS_RS` is
//! set, as docs.rs does.

use std::env;
use std::fs::read_dir;
use std::path::{Path, PathBuf};

const NAME: &str = "broadcast_c";
/// The folder of the crate whose library `make lib` builds.
const MADE_BY: &str = "../../crates/broadcast_c";

fn main() {
    println!("cargo::rerun-if-env-changed=BROADCAST_C_LIB");
    println!("cargo::rerun-if-env-changed=DOCS_RS");
    println!("cargo::rerun-if-changed=build.rs");
    match folder() {
        Ok(folder) => {
            println!("cargo::rerun-if-changed={}", library(&folder).display());
            println!("cargo::rustc-link-search=native={}", folder.display());
            println!("cargo::rustc-link-lib=static={NAME}");
        }
        Err(_) if env::var_os("DOCS_RS").is_some() => {}
        Err(fault) => println!("cargo::error={fault}"),
    }
}

/// Returns the folder of the library, or says what to do.
fn folder() -> Result<PathBuf, String> {
    if let Some(named) = env::var_os("BROADCAST_C_LIB") {
        let folder = PathBuf::from(named);
        let path = library(&folder);
        return match path.exists() {
            true => Ok(folder),
            false => Err(format!("BROADCAST_C_LIB: there is no {}", path.display())),
        };
    }
    let target = env::var("TARGET").unwrap_or_default();
    let here = PathBuf::from(env::var_os("CARGO_MANIFEST_DIR").unwrap_or_default());
    let (kept, made_by) = (here.join("lib"), here.join(MADE_BY));
    // Cargo looks into these folders, so it finds a library that appears later.
    let watched = if kept.exists() { &kept } else { &here };
    println!("cargo::rerun-if-changed={}", watched.display());
    let mut folders = vec![kept.join(&target)];
    if made_by.exists() && target == "x86_64-unknown-linux-gnu" {
        println!("cargo::rerun-if-changed={}", made_by.display());
        folders.insert(0, made_by.join("out"));
    }
    let found = folders.into_iter().find(|it| library(it).exists());
    found.ok_or_else(|| {
        format!(
            "there is no verified library for {target}, only for {}: build for one of these, or set BROADCAST_C_LIB to the \
             folder of a lib{NAME}.a",
            targets(&kept)
        )
    })
}

/// The targets that have a library in this folder.
fn targets(kept: &Path) -> String {
    let folders = read_dir(kept).into_iter().flatten().flatten().map(|it| it.path());
    let mut names: Vec<String> = folders
        .filter(|it| library(it).exists())
        .filter_map(|it| Some(it.file_name()?.to_string_lossy().into_owned()))
        .collect();
    names.sort();
    names.join(", ")
}

fn library(folder: &Path) -> PathBuf {
    folder.join(format!("lib{NAME}.a"))
}
