//! Says where libfamsync is: in the folder that `FAMSYNC_LIB_DIR` names; else where pkg-config says; else where the
//! linker looks.

use std::{env, path::Path, process::Command};

fn main() {
    for variable in ["FAMSYNC_LIB_DIR", "PKG_CONFIG_PATH"] {
        println!("cargo:rerun-if-env-changed={variable}");
    }
    let is_static = env::var_os("CARGO_FEATURE_STATIC").is_some();
    let file = if is_static { "libfamsync.a" } else { "libfamsync.so" };
    let folders = match env::var("FAMSYNC_LIB_DIR") {
        Ok(folder) => vec![checked(folder, file)],
        Err(_) => known_to_pkg_config(),
    };
    for folder in folders {
        println!("cargo:rustc-link-search=native={folder}");
        println!("cargo:rerun-if-changed={folder}/{file}");
    }
    println!("cargo:rustc-link-lib={}=famsync", if is_static { "static" } else { "dylib" });
    if is_static {
        println!("cargo:rustc-link-lib=dylib=pthread");
    }
}

/// The compiler runs in a folder of its own, where a relative path means something else.
fn checked(folder: String, file: &str) -> String {
    assert!(Path::new(&folder).is_absolute(), "FAMSYNC_LIB_DIR is {folder:?}, and has to be an absolute path");
    assert!(Path::new(&folder).join(file).exists(), "FAMSYNC_LIB_DIR is {folder:?}, and {file} isn't there");
    folder
}

/// The folders in which the linker has to look for the library; none where it is in a usual place, or unknown.
fn known_to_pkg_config() -> Vec<String> {
    let Ok(answer) = Command::new("pkg-config").args(["--libs-only-L", "famsync"]).output() else {
        return Vec::new();
    };
    let words = String::from_utf8_lossy(&answer.stdout).into_owned();
    words.split_whitespace().filter_map(|word| word.strip_prefix("-L")).map(String::from).collect()
}
